//! The report and the renumbering as the paper states them, over the tree and
//! with numbers for names. Nothing here is taken from the original.

use crate::bundle::{Bundle, Definition, Edge, Expr, Member, Name, Type};
use crate::reader::first_places;
use crate::report::Violation;
use std::cell::Cell;
use std::collections::{HashMap, VecDeque};

pub fn violations(bundle: &Bundle) -> Vec<Violation> {
    let checks = Checks::new(bundle);
    let mut result = Vec::new();
    for (place, definition) in bundle.definitions.iter().enumerate() {
        let found = match &definition.body {
            Type::Enum(_, tag, _) => checks.enum_violations(definition.name, tag),
            Type::Array(_, jagged, size, element) => {
                checks.array_violations(definition.name, *jagged, size, element)
            }
            Type::Struct(_, fields) => checks.struct_violations(definition.name, fields),
            _ => Vec::new(),
        };
        for (kind, path, chain) in found {
            result.push(Violation {
                kind,
                definition: place,
                name: definition.name,
                path,
                chain,
            });
        }
    }
    result
}

/// Type of a violation, path and chain.
type Found = (u8, Vec<Name>, Vec<Name>);
type Path = Vec<Name>;

struct Checks<'a> {
    bundle: &'a Bundle,
    first: HashMap<Name, usize>,
    graph: Graph,
    /// Kept answers by definition: without them shared definitions double the
    /// work at each level.
    named: Vec<Cell<Option<bool>>>,
    jagged: Vec<Cell<Option<bool>>>,
}

impl<'a> Checks<'a> {
    fn new(bundle: &'a Bundle) -> Self {
        let count = bundle.definitions.len();
        Checks {
            bundle,
            first: first_places(bundle),
            graph: Graph::new(&bundle.edges),
            named: vec![Cell::new(None); count],
            jagged: vec![Cell::new(None); count],
        }
    }

    fn find(&self, name: Name) -> Option<&'a Definition> {
        let place = self.first.get(&name)?;
        Some(&self.bundle.definitions[*place])
    }

    /// The type that a reference is about, and the field if it can be one.
    fn parse(&self, path: &[Name]) -> (Name, Option<Name>) {
        match path {
            [field] => (self.bundle.current, Some(*field)),
            [owner, field] => (*owner, Some(*field)),
            [owner, ..] => (*owner, None),
            [] => unreachable!("a path has one name at least"),
        }
    }

    fn enum_violations(&self, name: Name, tag: &Expr) -> Vec<Found> {
        let mut result = Vec::new();
        let mut distances = None;
        for path in references(tag) {
            let (owner, field) = self.parse(&path);
            if self.holds(owner, name) {
                result.extend(self.forward(name, owner, field));
            } else if self.definition_depends(name) {
                let known = distances.get_or_insert_with(|| self.graph.distances(name));
                if let Some(chain) = self.graph.chain(known, owner) {
                    result.push((2, path, chain));
                }
            }
        }
        result
    }

    /// Whether any struct of that name has a field whose type is the TypeRef.
    fn holds(&self, owner: Name, name: Name) -> bool {
        self.bundle.definitions.iter().any(|definition| {
            definition.name == owner
                && struct_fields(&definition.body)
                    .is_some_and(|list| list.iter().any(|m| m.member_type == Type::TypeRef(name)))
        })
    }

    fn forward(&self, name: Name, owner: Name, field: Option<Name>) -> Option<Found> {
        let field = field?;
        let fields = struct_fields(&self.find(owner)?.body)?;
        let own = fields
            .iter()
            .rposition(|m| m.member_type == Type::TypeRef(name))?;
        let target = fields.iter().rposition(|m| m.name == field)?;
        let constant = self
            .find(name)
            .is_some_and(|enumeration| constant_size_variants(&enumeration.body));
        if own < target && !constant {
            Some((1, vec![owner, field], vec![owner, name, field]))
        } else {
            None
        }
    }

    fn array_violations(
        &self,
        name: Name,
        jagged: bool,
        size: &Expr,
        element: &Type,
    ) -> Vec<Found> {
        let mut result = Vec::new();
        if jagged {
            result.extend(self.jagged_element(name, element));
        } else if self.depends(element) {
            result.push((5, Vec::new(), vec![name]));
        }
        let distances = self.graph.distances(name);
        for path in references(size) {
            let (owner, _) = self.parse(&path);
            if let Some(chain) = self.graph.chain(&distances, owner) {
                result.push((3, path, chain));
            }
        }
        result
    }

    fn jagged_element(&self, name: Name, element: &Type) -> Option<Found> {
        let target = match element {
            Type::Struct(..) => None,
            Type::TypeRef(other) => self.find(*other).map(|found| (*other, found)),
            _ => return Some((7, Vec::new(), vec![name])),
        };
        match target {
            Some((other, found)) if struct_fields(&found.body).is_none() => {
                Some((6, Vec::new(), vec![name, other]))
            }
            _ if self.contains_jagged(element) => Some((8, Vec::new(), vec![name])),
            _ => None,
        }
    }

    fn struct_violations(&self, name: Name, fields: &[Member]) -> Vec<Found> {
        let mut result = Vec::new();
        for (place, field) in fields.iter().enumerate() {
            if let Type::TypeRef(target) = field.member_type {
                result.extend(self.later_field(name, place, field.name, target));
            }
        }
        result
    }

    /// The first reference in the field's type to a later field of the struct.
    fn later_field(&self, name: Name, place: usize, field: Name, target: Name) -> Option<Found> {
        let definition = self.find(target)?;
        let fields = struct_fields(&self.find(name)?.body)?;
        if constant_size_variants(&definition.body) {
            return None;
        }
        let needed = match &definition.body {
            Type::Enum(_, expr, _) | Type::Array(_, _, expr, _) => references(expr),
            _ => Vec::new(),
        };
        let mut paths = Vec::new();
        references_in_type(&definition.body, &mut paths);
        for path in paths {
            let (owner, Some(later)) = self.parse(&path) else {
                continue;
            };
            let position = fields.iter().position(|m| m.name == later);
            if owner == name
                && position.is_some_and(|found| found > place)
                && (self.definition_depends(target) || needed.contains(&path))
            {
                return Some((4, path, vec![name, field, later]));
            }
        }
        None
    }

    /// The size test of a named type; false without a definition.
    fn definition_depends(&self, name: Name) -> bool {
        self.first.get(&name).is_some_and(|place| {
            kept(&self.named[*place], || {
                self.named_depends(&self.bundle.definitions[*place].body)
            })
        })
    }

    fn named_depends(&self, body: &Type) -> bool {
        match body {
            Type::Primitive(_) | Type::TypeRef(_) => false,
            Type::Struct(_, list) | Type::Union(_, list) => self.any_depends(list),
            Type::Enum(_, tag, list) => {
                self.any_depends(list) || (!one_primitive_size(list) && !is_constant(tag))
            }
            Type::Array(_, _, size, _) => !is_constant(size),
            Type::SizeUnion(..) => true,
        }
    }

    /// The size test of a type that stands inside another.
    fn depends(&self, node: &Type) -> bool {
        match node {
            Type::Primitive(_) => false,
            Type::TypeRef(name) => self.definition_depends(*name),
            Type::Struct(_, list) | Type::Union(_, list) => self.any_depends(list),
            Type::Enum(_, tag, list) => !is_constant(tag) || self.any_depends(list),
            Type::Array(_, _, size, element) => !is_constant(size) || self.depends(element),
            Type::SizeUnion(..) => true,
        }
    }

    fn any_depends(&self, list: &[Member]) -> bool {
        list.iter().any(|member| self.depends(&member.member_type))
    }

    fn contains_jagged(&self, node: &Type) -> bool {
        match node {
            Type::Primitive(_) => false,
            Type::TypeRef(name) => self.first.get(name).is_some_and(|place| {
                kept(&self.jagged[*place], || {
                    self.contains_jagged(&self.bundle.definitions[*place].body)
                })
            }),
            Type::Array(_, jagged, _, element) => *jagged || self.contains_jagged(element),
            Type::Struct(_, list)
            | Type::Union(_, list)
            | Type::Enum(_, _, list)
            | Type::SizeUnion(_, list) => list.iter().any(|m| self.contains_jagged(&m.member_type)),
        }
    }
}

fn kept(cell: &Cell<Option<bool>>, answer: impl FnOnce() -> bool) -> bool {
    let value = cell.get().unwrap_or_else(answer);
    cell.set(Some(value));
    value
}

fn struct_fields(body: &Type) -> Option<&[Member]> {
    match body {
        Type::Struct(_, fields) => Some(fields),
        _ => None,
    }
}

/// Two variants or more, all primitives of one size.
fn constant_size_variants(body: &Type) -> bool {
    match body {
        Type::Enum(_, _, list) => list.len() > 1 && one_primitive_size(list),
        _ => false,
    }
}

fn one_primitive_size(list: &[Member]) -> bool {
    let size = |member: &Member| match member.member_type {
        Type::Primitive(kind) => primitive_size(kind),
        _ => 0,
    };
    let sizes: Vec<u8> = list.iter().map(size).collect();
    sizes
        .first()
        .is_some_and(|one| *one > 0 && sizes.iter().all(|other| other == one))
}

fn primitive_size(kind: u8) -> u8 {
    match kind {
        0x30 | 0x34 | 0x38 => 1,
        0x31 | 0x35 | 0x39 => 2,
        0x32 | 0x36 | 0x3A => 4,
        _ => 8,
    }
}

fn is_constant(expr: &Expr) -> bool {
    references(expr).is_empty()
}

/// The paths of an expression's FieldRefs, left to right.
pub fn references(expr: &Expr) -> Vec<Path> {
    let mut found = Vec::new();
    add_references(expr, &mut found);
    found
}

fn add_references(expr: &Expr, found: &mut Vec<Path>) {
    match expr {
        Expr::FieldRef(path) => found.push(path.clone()),
        Expr::Binary(_, left, right) => {
            add_references(left, found);
            add_references(right, found);
        }
        Expr::Unary(_, operand) => add_references(operand, found),
        Expr::Literal(..) | Expr::Sizeof(_) | Expr::Alignof(_) => {}
    }
}

pub fn references_in_type(node: &Type, found: &mut Vec<Path>) {
    match node {
        Type::Array(_, _, size, element) => {
            add_references(size, found);
            references_in_type(element, found);
        }
        Type::Enum(_, tag, list) => {
            add_references(tag, found);
            list.iter()
                .for_each(|m| references_in_type(&m.member_type, found));
        }
        Type::Struct(_, list) | Type::Union(_, list) => {
            list.iter()
                .for_each(|m| references_in_type(&m.member_type, found));
        }
        Type::Primitive(_) | Type::TypeRef(_) | Type::SizeUnion(..) => {}
    }
}

/// The chain of a call of its own.
pub fn chain(bundle: &Bundle, from: Name, to: Name) -> Option<Vec<Name>> {
    let graph = Graph::new(&bundle.edges);
    graph.chain(&graph.distances(to), from)
}

/// Edges by their start, in order of edge numbers, and by their end.
struct Graph {
    outgoing: HashMap<Name, Vec<Name>>,
    incoming: HashMap<Name, Vec<Name>>,
}

impl Graph {
    fn new(edges: &[Edge]) -> Self {
        let mut graph = Graph {
            outgoing: HashMap::new(),
            incoming: HashMap::new(),
        };
        for edge in edges {
            graph.outgoing.entry(edge.from).or_default().push(edge.to);
            graph.incoming.entry(edge.to).or_default().push(edge.from);
        }
        graph
    }

    /// Fewest edges from each name to the target, found from the target back.
    fn distances(&self, target: Name) -> HashMap<Name, usize> {
        let mut distances = HashMap::from([(target, 0)]);
        let mut queue = VecDeque::from([target]);
        while let Some(name) = queue.pop_front() {
            let next = distances[&name] + 1;
            for before in self.incoming.get(&name).into_iter().flatten() {
                distances.entry(*before).or_insert_with(|| {
                    queue.push_back(*before);
                    next
                });
            }
        }
        distances
    }

    /// Walks to the target by the first edge that comes nearer, which is the
    /// first path in dictionary order among the shortest.
    fn chain(&self, distances: &HashMap<Name, usize>, from: Name) -> Option<Vec<Name>> {
        let mut left = *distances.get(&from)?;
        let mut names = vec![from];
        let mut at = from;
        while left > 0 {
            left -= 1;
            at = *self.outgoing[&at]
                .iter()
                .find(|next| distances.get(next) == Some(&left))?;
            names.push(at);
        }
        Some(names)
    }
}

/// New number of each name of the bundle, by first appearance.
pub fn numbering(bundle: &Bundle) -> HashMap<Name, Name> {
    let mut numbers = HashMap::from([(0, 0)]);
    rename(bundle, &mut |name| {
        let next = numbers.len() as Name;
        *numbers.entry(name).or_insert(next)
    });
    numbers
}

pub fn renumber(bundle: &Bundle) -> Bundle {
    let numbers = numbering(bundle);
    rename(bundle, &mut |name| numbers[&name])
}

/// Puts every name through `map`, in the order of the bundle's bytes.
pub fn rename(bundle: &Bundle, map: &mut dyn FnMut(Name) -> Name) -> Bundle {
    let current = map(bundle.current);
    let mut definitions = Vec::new();
    for definition in &bundle.definitions {
        let name = map(definition.name);
        let body = rename_type(&definition.body, map);
        definitions.push(Definition { name, body });
    }
    let mut edges = Vec::new();
    for edge in &bundle.edges {
        let from = map(edge.from);
        let to = map(edge.to);
        let kind = edge.kind;
        edges.push(Edge { from, to, kind });
    }
    Bundle {
        current,
        definitions,
        edges,
    }
}

fn rename_type(node: &Type, map: &mut dyn FnMut(Name) -> Name) -> Type {
    match node {
        Type::Primitive(kind) => Type::Primitive(*kind),
        Type::TypeRef(name) => Type::TypeRef(map(*name)),
        Type::Struct(own, list) => Type::Struct(*own, rename_members(list, map)),
        Type::Union(own, list) => Type::Union(*own, rename_members(list, map)),
        Type::SizeUnion(own, list) => Type::SizeUnion(*own, rename_members(list, map)),
        Type::Enum(own, tag, list) => {
            let tag = rename_expr(tag, map);
            Type::Enum(*own, tag, rename_members(list, map))
        }
        Type::Array(own, jagged, size, element) => {
            let size = rename_expr(size, map);
            Type::Array(*own, *jagged, size, Box::new(rename_type(element, map)))
        }
    }
}

fn rename_members(list: &[Member], map: &mut dyn FnMut(Name) -> Name) -> Vec<Member> {
    let mut members = Vec::new();
    for member in list {
        let name = map(member.name);
        members.push(Member {
            name,
            value: member.value,
            member_type: rename_type(&member.member_type, map),
        });
    }
    members
}

fn rename_expr(node: &Expr, map: &mut dyn FnMut(Name) -> Name) -> Expr {
    match node {
        Expr::Literal(kind, bits) => Expr::Literal(*kind, *bits),
        Expr::FieldRef(path) => Expr::FieldRef(path.iter().map(|name| map(*name)).collect()),
        Expr::Sizeof(name) => Expr::Sizeof(map(*name)),
        Expr::Alignof(name) => Expr::Alignof(map(*name)),
        Expr::Binary(kind, left, right) => {
            let left = Box::new(rename_expr(left, map));
            Expr::Binary(*kind, left, Box::new(rename_expr(right, map)))
        }
        Expr::Unary(kind, operand) => Expr::Unary(*kind, Box::new(rename_expr(operand, map))),
    }
}

/// A violation with every name put through the numbering.
pub fn rename_violation(violation: &Violation, numbers: &HashMap<Name, Name>) -> Violation {
    Violation {
        name: numbers[&violation.name],
        path: violation.path.iter().map(|n| numbers[n]).collect(),
        chain: violation.chain.iter().map(|n| numbers[n]).collect(),
        ..*violation
    }
}
