//! What the library answers about definitions, and about the types inside them.

use crate::encode::encode;
use crate::tree::*;
use crate::value::{value, Value};
use layout::{FixedLayout, Refusal};
use std::collections::HashMap;

/// The library's answers about one bundle, which is accepted.
pub struct Asked<'a> {
    bundle: &'a Bundle,
    bytes: &'a [u8],
    types: HashMap<&'a Type, FixedLayout>,
    values: HashMap<&'a Array, Value<'a>>,
}

impl<'a> Asked<'a> {
    pub fn new(bundle: &'a Bundle, bytes: &'a [u8]) -> Asked<'a> {
        Asked {
            bundle,
            bytes,
            types: HashMap::new(),
            values: HashMap::new(),
        }
    }

    pub fn definition(&self, place: usize) -> Result<FixedLayout, Refusal> {
        layout::fixed_size_vec(self.bytes, place)
    }

    /// The value of the size of an array that a definition is, or that stands inside it. The library and the
    /// evaluation must agree on it.
    pub fn value(&mut self, place: usize, array: &'a Array) -> Result<Value<'a>, String> {
        if let Some(found) = self.values.get(array) {
            return Ok(*found);
        }
        let answered = self.size_value(place, array)?;
        let found = value(&array.size);
        let own = found.map_err(|found| found.refusal());
        if own != answered {
            return Err(format!(
                "definition {place}: the library answers {} for the size of an array, and the evaluation finds {}",
                value_text(&answered),
                value_text(&own)
            ));
        }
        self.values.insert(array, found);
        Ok(found)
    }

    /// What the library answers for it. An array inside a definition is asked for as a type inside it is.
    fn size_value(&self, place: usize, array: &Array) -> Result<Result<i64, Refusal>, String> {
        if let Type::Array(own) = &self.bundle.definitions[place].body {
            if **own == *array {
                return Ok(layout::size_value(self.bytes, place));
            }
        }
        let body = Type::Array(Box::new(array.clone()));
        let bytes = encode(&self.with(place, &body))?;
        Ok(layout::size_value(&bytes, place))
    }

    /// The answer about a type that stands inside a definition. It has no number, so the library is asked about the
    /// bundle with the type in the definition's place. That bundle has no more of anything, and what the type leads to
    /// is the same in it: nothing inside a definition leads back to it, since the bundle does not circle.
    pub fn inside(&mut self, place: usize, node: &'a Type) -> Result<FixedLayout, String> {
        if let Some(found) = self.types.get(node) {
            return Ok(found.clone());
        }
        let bytes = encode(&self.with(place, node))?;
        let found = layout::fixed_size_vec(&bytes, place).map_err(|refusal| {
            format!(
                "the library gives definition {place} a fixed size, and a part of it none: {refusal}"
            )
        })?;
        self.types.insert(node, found.clone());
        Ok(found)
    }

    /// The bundle with another type for one definition.
    fn with(&self, place: usize, body: &Type) -> Bundle {
        let definitions = self.bundle.definitions.iter().enumerate();
        let definitions = definitions.map(|(at, definition)| Definition {
            name: definition.name,
            body: if at == place { body } else { &definition.body }.clone(),
        });
        Bundle {
            current: self.bundle.current,
            definitions: definitions.collect(),
            edges: self.bundle.edges.clone(),
        }
    }
}

fn value_text(answer: &Result<i64, Refusal>) -> String {
    match answer {
        Ok(value) => format!("the value {value}"),
        Err(refusal) => refusal.to_string(),
    }
}
