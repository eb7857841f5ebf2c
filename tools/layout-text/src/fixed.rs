//! What is reached from a definition, and what keeps it from having a fixed size. The library gives the numbers; this
//! walk finds the part that they are about, and works the sizes out a second time to compare them.

use crate::tree::*;
use crate::value::count;
use crate::words;
use layout::{FixedLayout, Refusal};
use std::collections::HashMap;

/// No size and no offset is larger.
pub const LARGEST: u128 = u32::MAX as u128;

/// One step from a type into a part of it.
#[derive(Clone, Copy, Debug, PartialEq, Eq)]
pub enum Step {
    Member(Name),
    Element,
    /// To the first definition of the name.
    Definition(Name),
}

/// Why a part has no fixed size.
#[derive(Clone, Debug, PartialEq, Eq)]
pub enum Fault<'a> {
    Misaligned(&'a Group),
    /// Also a TypeRef to a name without a definition.
    Varying(&'a Type),
    /// An array of so many elements of so many bytes.
    Elements(u128, u128),
    /// The field of a struct that would have this offset.
    Offset(Name, u128),
    /// A struct or union of so many bytes.
    Size(&'a Group, u128),
}

impl Fault<'_> {
    pub fn refusal(&self) -> Refusal {
        match self {
            Fault::Misaligned(_) => Refusal::Misaligned,
            Fault::Varying(_) => Refusal::Varying,
            Fault::Elements(..) | Fault::Offset(..) | Fault::Size(..) => Refusal::Oversized,
        }
    }
}

/// A fault and the steps that lead to it.
#[derive(Clone, Debug, PartialEq, Eq)]
pub struct Obstacle<'a> {
    pub steps: Vec<Step>,
    pub fault: Fault<'a>,
}

#[derive(Clone, Copy)]
struct Measure {
    size: u128,
    alignment: u64,
}

/// Bytes of the primitive with this kind byte.
fn width(kind: u8) -> u64 {
    [1, 2, 4, 8, 1, 2, 4, 8, 1, 2, 4, 8][usize::from(kind - words::FIRST_PRIMITIVE)]
}

fn rounded_up(value: u128, alignment: u64) -> u128 {
    value.next_multiple_of(u128::from(alignment))
}

/// A test of one type, not of what is inside it.
type Test = for<'b, 'c> fn(&'b Walk<'c>, &'c Type) -> Option<Fault<'c>>;

fn misaligned<'a>(_: &Walk<'a>, node: &'a Type) -> Option<Fault<'a>> {
    let Type::Group(group) = node else {
        return None;
    };
    let aligned = group.attributes.aligned;
    let fits = aligned == 0 || aligned.is_power_of_two();
    (!fits).then_some(Fault::Misaligned(group))
}

fn varying<'a>(walk: &Walk<'a>, node: &'a Type) -> Option<Fault<'a>> {
    let varies = match node {
        Type::Primitive(_) => false,
        Type::TypeRef(name) => walk.first(*name).is_none(),
        Type::Group(group) => group.kind.has_values(),
        Type::Array(array) => array.jagged || count(&array.size).is_none(),
    };
    varies.then_some(Fault::Varying(node))
}

/// The walk over the parts of one bundle, which does not circle.
pub struct Walk<'a> {
    bundle: &'a Bundle,
    first: HashMap<Name, usize>,
    /// Of the definitions that were measured so far.
    measures: Vec<Option<Measure>>,
    /// From the definition that was asked about to where the walk is, and to the fault at the end.
    steps: Vec<Step>,
}

impl<'a> Walk<'a> {
    pub fn new(bundle: &'a Bundle) -> Walk<'a> {
        let mut first = HashMap::new();
        for (place, definition) in bundle.definitions.iter().enumerate() {
            first.entry(definition.name).or_insert(place);
        }
        Walk {
            bundle,
            first,
            measures: vec![None; bundle.definitions.len()],
            steps: Vec::new(),
        }
    }

    /// The number of the first definition of a name.
    pub fn first(&self, name: Name) -> Option<usize> {
        self.first.get(&name).copied()
    }

    /// The definition whose fields a definition shows: itself, or where its TypeRefs lead.
    pub fn shown(&self, place: usize) -> usize {
        match &self.bundle.definitions[place].body {
            Type::TypeRef(name) => self.first(*name).map_or(place, |next| self.shown(next)),
            _ => place,
        }
    }

    /// Size, alignment and offsets as the walk finds them, or what is in the way.
    pub fn layout(&mut self, place: usize) -> Result<FixedLayout, Obstacle<'a>> {
        let body = &self.bundle.definitions[place].body;
        self.steps.clear();
        let found = self.whole(body);
        found.map_err(|fault| Obstacle {
            steps: self.steps.clone(),
            fault,
        })
    }

    fn whole(&mut self, body: &'a Type) -> Result<FixedLayout, Fault<'a>> {
        for test in [misaligned as Test, varying] {
            let mut clear = vec![false; self.bundle.definitions.len()];
            if let Some(fault) = self.search(body, test, &mut clear) {
                return Err(fault);
            }
        }
        let measure = self.measure(body)?;
        Ok(FixedLayout {
            size: measure.size as u64,
            alignment: measure.alignment,
            offsets: self.offsets(body)?,
        })
    }

    /// The first fault that a test finds, in the order of the bytes. `clear` marks definitions without one.
    fn search(&mut self, node: &'a Type, test: Test, clear: &mut [bool]) -> Option<Fault<'a>> {
        if let Some(fault) = test(self, node) {
            return Some(fault);
        }
        match node {
            Type::Primitive(_) => None,
            Type::TypeRef(name) => {
                let place = self.first(*name).filter(|place| !clear[*place])?;
                let body = &self.bundle.definitions[place].body;
                let found = self.search_inside(Step::Definition(*name), body, test, clear);
                clear[place] = found.is_none();
                found
            }
            Type::Array(array) => self.search_inside(Step::Element, &array.element, test, clear),
            Type::Group(group) => group.members.iter().find_map(|member| {
                let step = Step::Member(member.name);
                self.search_inside(step, &member.member_type, test, clear)
            }),
        }
    }

    /// The steps to a fault are kept; those to no fault are taken back.
    fn search_inside(
        &mut self,
        step: Step,
        node: &'a Type,
        test: Test,
        clear: &mut [bool],
    ) -> Option<Fault<'a>> {
        self.steps.push(step);
        let found = self.search(node, test, clear);
        if found.is_none() {
            self.steps.pop();
        }
        found
    }

    /// Size and alignment of a type in which nothing is misaligned or varies.
    fn measure(&mut self, node: &'a Type) -> Result<Measure, Fault<'a>> {
        match node {
            Type::Primitive(kind) => Ok(Measure {
                size: u128::from(width(*kind)),
                alignment: width(*kind),
            }),
            Type::TypeRef(name) => {
                let place = self.first(*name).ok_or(Fault::Varying(node))?;
                if let Some(measure) = self.measures[place] {
                    return Ok(measure);
                }
                let body = &self.bundle.definitions[place].body;
                let measure = self.measure_inside(Step::Definition(*name), body)?;
                self.measures[place] = Some(measure);
                Ok(measure)
            }
            Type::Array(array) => {
                let element = self.measure_inside(Step::Element, &array.element)?;
                let count = count(&array.size).ok_or(Fault::Varying(node))?;
                let size = count * element.size;
                match size > LARGEST {
                    true => Err(Fault::Elements(count, element.size)),
                    false => Ok(Measure { size, ..element }),
                }
            }
            Type::Group(group) => self.measure_group(group, &mut Vec::new()),
        }
    }

    fn measure_inside(&mut self, step: Step, node: &'a Type) -> Result<Measure, Fault<'a>> {
        self.steps.push(step);
        let measure = self.measure(node)?;
        self.steps.pop();
        Ok(measure)
    }

    /// A struct or union; the offsets of its members are added to `offsets`.
    fn measure_group(
        &mut self,
        group: &'a Group,
        offsets: &mut Vec<u32>,
    ) -> Result<Measure, Fault<'a>> {
        let Attributes { packed, aligned } = group.attributes;
        let mut members = Vec::new();
        for member in &group.members {
            members.push(self.measure_inside(Step::Member(member.name), &member.member_type)?);
        }
        let (mut end, mut alignment) = (0, 1);
        for (member, measure) in group.members.iter().zip(members) {
            let start = match (group.kind, packed) {
                (GroupKind::Struct, true) => end,
                (GroupKind::Struct, false) => rounded_up(end, measure.alignment),
                _ => 0,
            };
            let offset = u32::try_from(start).map_err(|_| Fault::Offset(member.name, start))?;
            offsets.push(offset);
            end = end.max(start + measure.size);
            alignment = alignment.max(if packed { 1 } else { measure.alignment });
        }
        alignment = alignment.max(aligned);
        let size = rounded_up(end, alignment);
        match size > LARGEST {
            true => Err(Fault::Size(group, size)),
            false => Ok(Measure { size, alignment }),
        }
    }

    /// The offsets of the struct that the type is or leads to.
    fn offsets(&mut self, node: &'a Type) -> Result<Vec<u32>, Fault<'a>> {
        let mut offsets = Vec::new();
        match node {
            Type::TypeRef(name) => {
                let place = self.first(*name).ok_or(Fault::Varying(node))?;
                return self.offsets(&self.bundle.definitions[place].body);
            }
            Type::Group(group) if group.kind == GroupKind::Struct => {
                self.measure_group(group, &mut offsets)?;
            }
            _ => {}
        }
        Ok(offsets)
    }
}
