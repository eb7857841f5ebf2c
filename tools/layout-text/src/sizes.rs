//! The fixed sizes of a set's definitions in words and tables, and the values of the sizes of arrays. Every number
//! comes from the library; the walk in fixed.rs and the evaluation in value.rs must agree with it.

use crate::asked::Asked;
use crate::explain::Source;
use crate::fixed::{Fault, Obstacle, Step, Walk};
use crate::names::Names;
use crate::obstacle::{no_value, sentence};
use crate::picture::picture;
use crate::show::expression;
use crate::table::{table, Content, Row};
use crate::tree::*;
use crate::value::count;
use crate::words::{self, counted};
use layout::{FixedLayout, Refusal};

/// What is said about one definition.
pub struct Answer {
    pub text: String,
    pub fixed: bool,
}

/// Size and alignment of a definition, and what it is made of.
pub struct Plan<'a> {
    pub layout: FixedLayout,
    /// The type of the definition, or the one that its TypeRefs lead to.
    pub body: &'a Type,
    pub rows: Vec<Row>,
}

/// The definitions of an accepted bundle.
pub struct Sizes<'a> {
    bundle: &'a Bundle,
    source: &'a Source,
    walk: Walk<'a>,
    asked: Asked<'a>,
}

impl<'a> Sizes<'a> {
    pub fn new(bundle: &'a Bundle, bytes: &'a [u8], source: &'a Source) -> Sizes<'a> {
        Sizes {
            bundle,
            source,
            walk: Walk::new(bundle),
            asked: Asked::new(bundle, bytes),
        }
    }

    /// The number of the first definition of a name, given as a word or as `#17`.
    pub fn find(&self, word: &str) -> Option<usize> {
        self.walk.first(self.source.names.find(word)?)
    }

    /// The plan of a definition, or the sentence that says why it has no fixed size.
    fn plan(&mut self, place: usize) -> Result<Result<Plan<'a>, Answer>, String> {
        let answered = self.asked.definition(place);
        let found = self.walk.layout(place);
        match (answered, found) {
            (Ok(layout), Ok(own)) if layout == own => self.fixed_plan(place, layout).map(Ok),
            (Err(refusal), Err(obstacle)) if obstacle.fault.refusal() == refusal => {
                Ok(Err(self.refused(place, refusal, &obstacle)?))
            }
            (answered, found) => {
                let found = found.map_err(|obstacle| obstacle.fault.refusal());
                Err(format!(
                    "definition {place}: the library answers {}, and the walk over the set finds {}",
                    answer_text(&answered),
                    answer_text(&found)
                ))
            }
        }
    }

    /// Why a definition has no fixed size, and what is to be said of its own size besides.
    fn refused(
        &mut self,
        place: usize,
        refusal: Refusal,
        obstacle: &Obstacle<'a>,
    ) -> Result<Answer, String> {
        // Where a size is in the way, the sentence has a number more, on which the library must agree too.
        let sized = self.sized_at(place, obstacle);
        if let Some((holder, array)) = sized {
            let _agreed = self.asked.value(holder, array)?;
        }
        let size = match sized.is_some() && obstacle.steps.is_empty() {
            true => String::new(),
            false => self.size_line(place)?,
        };
        let name = self.bundle.definitions[place].name;
        let why = sentence(name, obstacle, self.source, |name| self.walk.first(name));
        let (head, word, number) = (self.head(place), refusal.word(), refusal.number());
        Ok(Answer {
            text: format!("{head}: no fixed size, {word} ({number})\n  {why}\n{size}"),
            fixed: false,
        })
    }

    /// The array whose size is in the way, if it is one, and the definition that it stands in.
    fn sized_at(&self, place: usize, obstacle: &Obstacle<'a>) -> Option<(usize, &'a Array)> {
        let Fault::Varying(Type::Array(array)) = obstacle.fault else {
            return None;
        };
        let holder = obstacle.steps.iter().rev().find_map(|step| match step {
            Step::Definition(name) => self.walk.first(*name),
            _ => None,
        });
        (!array.jagged).then_some((holder.unwrap_or(place), &**array))
    }

    /// A line on the size of a definition that is an array, if it is more than a literal or has no value.
    fn size_line(&mut self, place: usize) -> Result<String, String> {
        let Type::Array(array) = &self.bundle.definitions[place].body else {
            return Ok(String::new());
        };
        let (size, names) = (&array.size, &self.source.names);
        Ok(match (self.asked.value(place, array)?, size) {
            (Ok(_), Expr::Literal(..)) => String::new(),
            (Ok(value), _) => format!("  Its size is `{}` = {value}.\n", expression(size, names)),
            (Err(found), _) => format!("  Its size {}.\n", no_value(size, &found, names)),
        })
    }

    fn fixed_plan(&mut self, place: usize, layout: FixedLayout) -> Result<Plan<'a>, String> {
        let shown = self.walk.shown(place);
        let body = &self.bundle.definitions[shown].body;
        let mut rows = Rows {
            asked: &mut self.asked,
            names: &self.source.names,
            place: shown,
            rows: Vec::new(),
        };
        rows.inside(body, 0, 0, "")?;
        let rows = rows.rows;
        Ok(Plan { layout, body, rows })
    }

    /// What is said about a definition.
    pub fn answer(&mut self, place: usize) -> Result<Answer, String> {
        let plan = match self.plan(place)? {
            Ok(plan) => plan,
            Err(answer) => return Ok(answer),
        };
        let (title, size) = (self.title(place, &plan)?, self.size_line(place)?);
        Ok(Answer {
            text: format!("{title}\n{size}{}", table(&plan.rows)),
            fixed: true,
        })
    }

    /// What is said about all definitions, part by part.
    pub fn all(&mut self) -> impl Iterator<Item = Result<String, String>> + use<'_, 'a> {
        let places = 0..self.bundle.definitions.len();
        let fixed = places
            .clone()
            .filter(|place| self.asked.definition(*place).is_ok());
        let fixed = fixed.count();
        let have = match fixed == 1 || places.len() == 1 {
            true => "has",
            false => "have",
        };
        let all = counted(places.len(), "definition");
        let head = format!("{fixed} of {all} {have} a fixed size.\n");
        let each = places.map(|place| {
            let answer = self.answer(place)?;
            Ok(format!("\n{}", answer.text))
        });
        std::iter::once(Ok(head)).chain(each)
    }

    /// The drawing of a definition, or what is said where it has no fixed size.
    pub fn picture(&mut self, place: usize) -> Result<Result<String, Answer>, String> {
        let plan = match self.plan(place)? {
            Ok(plan) => plan,
            Err(answer) => return Ok(Err(answer)),
        };
        let title = self.title(place, &plan)?;
        Ok(Ok(picture(&title, &plan)))
    }

    /// A definition's place, kind and name.
    fn head(&self, place: usize) -> String {
        let definition = &self.bundle.definitions[place];
        let name = self.source.names.short(definition.name);
        let word = words::type_word(&definition.body);
        let number = self.source.definition(place).replacen('d', "D", 1);
        format!("{number}, {word} `{name}`")
    }

    /// The head with size and alignment, and what a table does not show.
    fn title(&mut self, place: usize, plan: &Plan<'a>) -> Result<String, String> {
        let (head, size) = (self.head(place), counted(plan.layout.size, "byte"));
        let alignment = plan.layout.alignment;
        let shown = self.walk.shown(place);
        let leads = match shown == place {
            true => String::new(),
            false => {
                let name = self.bundle.definitions[shown].name;
                let word = words::type_word(plan.body);
                format!("; it is {word} `{}`", self.source.names.short(name))
            }
        };
        let more = match plan.body {
            Type::Group(group) => group_text(group),
            Type::Array(array) => {
                let count = self.asked.value(shown, array)?.map_err(|found| {
                    let refusal = found.refusal();
                    format!("definition {shown} has a fixed size, and its size no value: {refusal}")
                })?;
                let each = self.asked.inside(shown, &array.element)?.size;
                let elements = counted(count, "element");
                let kind = type_text(shown, &array.element, &mut self.asked, &self.source.names)?;
                format!(
                    "; {elements} of type {kind}, {} each",
                    counted(each, "byte")
                )
            }
            _ => String::new(),
        };
        Ok(format!(
            "{head}: {size}, alignment {alignment}{leads}{more}"
        ))
    }
}

fn answer_text(answer: &Result<FixedLayout, layout::Refusal>) -> String {
    match answer {
        Ok(layout) => {
            let offsets = counted(layout.offsets.len(), "offset");
            let (size, alignment) = (layout.size, layout.alignment);
            format!("size {size}, alignment {alignment} and {offsets}")
        }
        Err(refusal) => refusal.to_string(),
    }
}

/// The attributes of a struct or union, and that it has no members.
fn group_text(group: &Group) -> String {
    let Attributes { packed, aligned } = group.attributes;
    let mut out = String::new();
    if packed {
        out.push_str("; packed");
    }
    if aligned != 0 {
        out.push_str(&format!("; aligned {aligned}"));
    }
    match (group.members.is_empty(), group.kind) {
        (false, _) => {}
        (true, GroupKind::Struct) => out.push_str("; no fields"),
        (true, _) => out.push_str("; no members"),
    }
    out
}

/// A type inside a definition in a few words, without its members; the sizes of arrays with their values, where they are
/// more than literals. An array's own attributes count for nothing and are left out.
fn type_text<'a>(
    place: usize,
    node: &'a Type,
    asked: &mut Asked<'a>,
    names: &Names,
) -> Result<String, String> {
    Ok(match node {
        Type::Primitive(_) => words::type_word(node).to_string(),
        Type::TypeRef(name) => format!("ref {}", names.short(*name)),
        Type::Array(array) => {
            let size = size_text(place, array, asked, names)?;
            let element = type_text(place, &array.element, asked, names)?;
            format!("array [{size}] {element}")
        }
        Type::Group(group) => {
            let word = words::group_word(group.kind);
            let attributes = group_text(group).replace(';', ",");
            format!("{word}{attributes}")
        }
    })
}

/// The size of an array, with its value where it is more than a literal.
fn size_text<'a>(
    place: usize,
    array: &'a Array,
    asked: &mut Asked<'a>,
    names: &Names,
) -> Result<String, String> {
    let size = expression(&array.size, names);
    if let Expr::Literal(..) = array.size {
        return Ok(size);
    }
    Ok(match asked.value(place, array)? {
        Ok(value) => format!("{size} = {value}"),
        Err(_) => size,
    })
}

/// The rows of a table, as they are collected from a definition.
struct Rows<'r, 'a> {
    asked: &'r mut Asked<'a>,
    names: &'r Names,
    /// The definition that they are inside of.
    place: usize,
    rows: Vec<Row>,
}

impl<'a> Rows<'_, 'a> {
    /// The rows of what stands inline in a type that starts at byte `base`.
    fn inside(
        &mut self,
        node: &'a Type,
        base: u64,
        level: usize,
        prefix: &str,
    ) -> Result<(), String> {
        match node {
            Type::Group(group) => self.group(node, group, base, level, prefix),
            Type::Array(array) if count(&array.size) != Some(0) => {
                let first = format!("{prefix}[0]");
                self.inside(&array.element, base, level, &first)
            }
            _ => Ok(()),
        }
    }

    fn group(
        &mut self,
        node: &'a Type,
        group: &'a Group,
        base: u64,
        level: usize,
        prefix: &str,
    ) -> Result<(), String> {
        let whole = self.asked.inside(self.place, node)?;
        let mut end = 0;
        for (place, member) in group.members.iter().enumerate() {
            let part = self.asked.inside(self.place, &member.member_type)?;
            let offset = match group.kind {
                GroupKind::Struct => {
                    let offset = whole.offsets.get(place).copied();
                    u64::from(
                        offset.ok_or("the library gives fewer offsets than there are fields")?,
                    )
                }
                _ => 0,
            };
            if group.kind == GroupKind::Struct {
                self.space(base, end, offset, level, Content::Gap)?;
            }
            self.field(member, &part, base + offset, level, prefix)?;
            self.inside(&member.member_type, base + offset, level + 1, "")?;
            end = end.max(offset + part.size);
        }
        self.space(base, end, whole.size, level, Content::Padding)
    }

    fn field(
        &mut self,
        member: &'a Member,
        part: &FixedLayout,
        offset: u64,
        level: usize,
        prefix: &str,
    ) -> Result<(), String> {
        let point = if prefix.is_empty() { "" } else { "." };
        let name = self.names.short(member.name);
        let type_text = type_text(self.place, &member.member_type, self.asked, self.names)?;
        self.rows.push(Row {
            level,
            offset,
            size: part.size,
            content: Content::Field {
                name: format!("{prefix}{point}{name}"),
                type_text,
                alignment: part.alignment,
            },
        });
        Ok(())
    }

    /// A row for the bytes from `end` to `start`, if there are any.
    fn space(
        &mut self,
        base: u64,
        end: u64,
        start: u64,
        level: usize,
        content: Content,
    ) -> Result<(), String> {
        let size = start
            .checked_sub(end)
            .ok_or("the library gives fields that overlap")?;
        if size > 0 {
            self.rows.push(Row {
                level,
                offset: base + end,
                size,
                content,
            });
        }
        Ok(())
    }
}
