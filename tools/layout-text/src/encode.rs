//! The bytes of a tree.

use crate::tree::*;

/// The bytes, or why there are none: a count has two bytes only.
pub fn encode(bundle: &Bundle) -> Result<Vec<u8>, String> {
    let mut bytes = vec![0x60];
    count(&mut bytes, bundle.definitions.len(), "definitions")?;
    count(&mut bytes, bundle.edges.len(), "edges")?;
    name(&mut bytes, bundle.current);
    for definition in &bundle.definitions {
        bytes.push(0x61);
        name(&mut bytes, definition.name);
        type_node(&mut bytes, &definition.body)?;
    }
    for edge in &bundle.edges {
        bytes.push(0x62);
        name(&mut bytes, edge.from);
        name(&mut bytes, edge.to);
        bytes.push(edge.kind);
    }
    Ok(bytes)
}

fn count(bytes: &mut Vec<u8>, count: usize, what: &str) -> Result<(), String> {
    let Ok(number) = u16::try_from(count) else {
        return Err(format!("{count} {what}; two bytes count to 65,535 only"));
    };
    bytes.extend(number.to_le_bytes());
    Ok(())
}

fn name(bytes: &mut Vec<u8>, name: Name) {
    bytes.extend(name.to_le_bytes());
}

fn attributes(bytes: &mut Vec<u8>, from: &Attributes) {
    bytes.push(u8::from(from.packed));
    bytes.extend(from.aligned.to_le_bytes());
}

fn type_node(bytes: &mut Vec<u8>, node: &Type) -> Result<(), String> {
    match node {
        Type::Primitive(kind) => bytes.push(*kind),
        Type::TypeRef(target) => {
            bytes.push(0x40);
            name(bytes, *target);
        }
        Type::Group(inner) => group(bytes, inner)?,
        Type::Array(array) => {
            bytes.push(0x44);
            attributes(bytes, &array.attributes);
            bytes.push(u8::from(array.jagged));
            expr(bytes, &array.size);
            type_node(bytes, &array.element)?;
        }
    }
    Ok(())
}

fn group(bytes: &mut Vec<u8>, group: &Group) -> Result<(), String> {
    bytes.push(group.kind.group_byte());
    attributes(bytes, &group.attributes);
    count(bytes, group.members.len(), "members")?;
    if let Some(tag) = &group.tag {
        expr(bytes, tag);
    }
    for member in &group.members {
        bytes.push(group.kind.member_byte());
        name(bytes, member.name);
        if group.kind.has_values() {
            bytes.extend(member.value.to_le_bytes());
        }
        type_node(bytes, &member.member_type)?;
    }
    Ok(())
}

fn expr(bytes: &mut Vec<u8>, node: &Expr) {
    match node {
        Expr::Literal(kind, bits) => {
            bytes.push(*kind);
            bytes.extend(&bits.to_le_bytes()[..literal_width(*kind)]);
        }
        Expr::FieldRef(path) => {
            bytes.push(0x08 + path.names().len() as u8);
            path.names().iter().for_each(|part| name(bytes, *part));
        }
        Expr::Sizeof(target) => {
            bytes.push(0x0D);
            name(bytes, *target);
        }
        Expr::Alignof(target) => {
            bytes.push(0x0E);
            name(bytes, *target);
        }
        Expr::Binary(kind, left, right) => {
            bytes.push(*kind);
            expr(bytes, left);
            expr(bytes, right);
        }
        Expr::Unary(kind, operand) => {
            bytes.push(*kind);
            expr(bytes, operand);
        }
    }
}
