//! Runs the original Rust: tree to its types, its violations to ours.

use crate::abi::expr::*;
use crate::abi::types::*;
use crate::bundle::{Attributes, Bundle, Edge, Expr, Member, Name, Type};
use crate::dependency::{
    Dependency, DependencyAnalyzer, DependencyKind, LayoutConstraintViolation,
};
use crate::report::Violation;

pub fn violations(bundle: &Bundle) -> Vec<Violation> {
    let mut analyzer = prepared(bundle);
    let all = type_defs(bundle);
    let mut result = Vec::new();
    for (place, definition) in all.iter().enumerate() {
        for found in analyzer.check(definition, &all) {
            result.push(violation(place, &found));
        }
    }
    result
}

pub fn chain(bundle: &Bundle, from: Name, to: Name) -> Option<Vec<Name>> {
    let found = prepared(bundle).chain(&text(from), &text(to))?;
    Some(found.iter().map(|name| name_of(name)).collect())
}

fn prepared(bundle: &Bundle) -> DependencyAnalyzer {
    let mut analyzer = DependencyAnalyzer::new();
    let current = (bundle.current != 0).then(|| text(bundle.current));
    analyzer.prepare(current, bundle.edges.iter().map(dependency).collect());
    analyzer
}

fn text(name: Name) -> String {
    match name {
        0 => "unknown".to_string(),
        _ => format!("n{name}"),
    }
}

fn name_of(text: &str) -> Name {
    match text.strip_prefix('n') {
        Some(digits) => digits.parse().expect("a name's number"),
        None if text == "unknown" => 0,
        None => panic!("not a name: {text}"),
    }
}

fn names_of(path: &str) -> Vec<Name> {
    path.split('.').map(name_of).collect()
}

fn dependency(edge: &Edge) -> Dependency {
    let kind = match edge.kind {
        0 => DependencyKind::TypeReference,
        1 => DependencyKind::FieldReference,
        2 => DependencyKind::SizeExpression,
        _ => DependencyKind::TagExpression,
    };
    Dependency {
        from: text(edge.from),
        to: text(edge.to),
        kind,
        context: String::new(),
    }
}

/// Each violation of the original is known by its expression text; where two
/// share it, by the text of its reason.
fn violation(definition: usize, found: &LayoutConstraintViolation) -> Violation {
    let (kind, path) = kind_and_path(found);
    Violation {
        kind,
        definition,
        name: name_of(&found.violating_type),
        path,
        chain: found.dependency_chain.iter().map(|n| name_of(n)).collect(),
    }
}

fn kind_and_path(found: &LayoutConstraintViolation) -> (u8, Vec<Name>) {
    let expression = found.violating_expression.as_str();
    let reason = found.reason.as_str();
    if let Some(path) = expression.strip_prefix("enum tag references field: ") {
        if reason.ends_with("creating a circular dependency") {
            return (1, names_of(path));
        }
        assert!(reason.ends_with("creating a layout cycle"), "{reason}");
        return (2, names_of(path));
    }
    if let Some(path) = expression.strip_prefix("array size references field: ") {
        return (3, names_of(path));
    }
    if let Some((_, path)) = expression.split_once("' type contains reference to field '") {
        return (4, names_of(path.trim_end_matches('\'')));
    }
    let inline = format!(
        "Jagged array '{}' element type must be",
        found.violating_type
    );
    let kind = match expression {
        "array element type" => 5,
        "jagged array element type" if reason.starts_with(&inline) => 7,
        "jagged array element type" => 6,
        "nested jagged array" => 8,
        _ => panic!("unknown violation: {expression}"),
    };
    (kind, Vec::new())
}

fn type_defs(bundle: &Bundle) -> Vec<TypeDef> {
    let list = bundle.definitions.iter();
    list.map(|definition| TypeDef {
        name: text(definition.name),
        format: None,
        kind: type_kind(&definition.body),
    })
    .collect()
}

fn attributes(from: &Attributes) -> ContainerAttributes {
    ContainerAttributes {
        packed: from.packed,
        aligned: from.aligned,
        comment: None,
    }
}

fn type_kind(node: &Type) -> TypeKind {
    match node {
        Type::Primitive(kind) => TypeKind::Primitive(primitive(*kind)),
        Type::TypeRef(name) => TypeKind::TypeRef(TypeRefType {
            name: text(*name),
            package: None,
            comment: None,
        }),
        Type::Struct(own, list) => TypeKind::Struct(StructType {
            container_attributes: attributes(own),
            fields: list.iter().map(struct_field).collect(),
        }),
        Type::Union(own, list) => TypeKind::Union(UnionType {
            container_attributes: attributes(own),
            variants: list.iter().map(union_variant).collect(),
        }),
        Type::Enum(own, tag, list) => TypeKind::Enum(EnumType {
            container_attributes: attributes(own),
            tag_ref: expr_kind(tag),
            variants: list.iter().map(enum_variant).collect(),
        }),
        Type::Array(own, jagged, size, element) => TypeKind::Array(ArrayType {
            container_attributes: attributes(own),
            size: expr_kind(size),
            element_type: Box::new(type_kind(element)),
            jagged: *jagged,
        }),
        Type::SizeUnion(own, list) => {
            TypeKind::SizeDiscriminatedUnion(SizeDiscriminatedUnionType {
                container_attributes: attributes(own),
                variants: list.iter().map(size_variant).collect(),
            })
        }
    }
}

fn struct_field(member: &Member) -> StructField {
    StructField {
        name: text(member.name),
        format: None,
        field_type: type_kind(&member.member_type),
    }
}

fn union_variant(member: &Member) -> UnionVariant {
    UnionVariant {
        name: text(member.name),
        variant_type: type_kind(&member.member_type),
    }
}

fn enum_variant(member: &Member) -> EnumVariant {
    EnumVariant {
        name: text(member.name),
        tag_value: member.value,
        variant_type: type_kind(&member.member_type),
    }
}

fn size_variant(member: &Member) -> SizeDiscriminatedVariant {
    SizeDiscriminatedVariant {
        name: text(member.name),
        expected_size: member.value,
        variant_type: type_kind(&member.member_type),
    }
}

fn primitive(kind: u8) -> PrimitiveType {
    let integral = match kind {
        0x30 => IntegralType::U8,
        0x31 => IntegralType::U16,
        0x32 => IntegralType::U32,
        0x33 => IntegralType::U64,
        0x34 => IntegralType::I8,
        0x35 => IntegralType::I16,
        0x36 => IntegralType::I32,
        0x37 => IntegralType::I64,
        0x38 => IntegralType::Char,
        0x39 => return PrimitiveType::FloatingPoint(FloatingPointType::F16),
        0x3A => return PrimitiveType::FloatingPoint(FloatingPointType::F32),
        _ => return PrimitiveType::FloatingPoint(FloatingPointType::F64),
    };
    PrimitiveType::Integral(integral)
}

fn expr_kind(node: &Expr) -> ExprKind {
    match node {
        Expr::Literal(kind, bits) => ExprKind::Literal(literal(*kind, *bits)),
        Expr::FieldRef(path) => ExprKind::FieldRef(FieldRefExpr {
            path: path.iter().map(|name| text(*name)).collect(),
        }),
        Expr::Sizeof(name) => ExprKind::Sizeof(SizeofExpr {
            type_name: text(*name),
        }),
        Expr::Alignof(name) => ExprKind::Alignof(AlignofExpr {
            type_name: text(*name),
        }),
        Expr::Binary(kind, left, right) => {
            binary(*kind, Box::new(expr_kind(left)), Box::new(expr_kind(right)))
        }
        Expr::Unary(kind, operand) => unary(*kind, Box::new(expr_kind(operand))),
    }
}

fn literal(kind: u8, bits: u64) -> LiteralExpr {
    match kind {
        0x01 => LiteralExpr::U64(bits),
        0x02 => LiteralExpr::U32(bits as u32),
        0x03 => LiteralExpr::U16(bits as u16),
        0x04 => LiteralExpr::U8(bits as u8),
        0x05 => LiteralExpr::I64(bits as i64),
        0x06 => LiteralExpr::I32(bits as i32),
        0x07 => LiteralExpr::I16(bits as i16),
        _ => LiteralExpr::I8(bits as i8),
    }
}

fn binary(kind: u8, left: Box<ExprKind>, right: Box<ExprKind>) -> ExprKind {
    match kind {
        0x10 => ExprKind::Add(AddExpr { left, right }),
        0x11 => ExprKind::Sub(SubExpr { left, right }),
        0x12 => ExprKind::Mul(MulExpr { left, right }),
        0x13 => ExprKind::Div(DivExpr { left, right }),
        0x14 => ExprKind::Mod(ModExpr { left, right }),
        0x15 => ExprKind::Pow(PowExpr { left, right }),
        0x16 => ExprKind::BitAnd(BitAndExpr { left, right }),
        0x17 => ExprKind::BitOr(BitOrExpr { left, right }),
        0x18 => ExprKind::BitXor(BitXorExpr { left, right }),
        0x19 => ExprKind::LeftShift(LeftShiftExpr { left, right }),
        0x1A => ExprKind::RightShift(RightShiftExpr { left, right }),
        0x1B => ExprKind::Eq(EqExpr { left, right }),
        0x1C => ExprKind::Ne(NeExpr { left, right }),
        0x1D => ExprKind::Lt(LtExpr { left, right }),
        0x1E => ExprKind::Gt(GtExpr { left, right }),
        0x1F => ExprKind::Le(LeExpr { left, right }),
        0x20 => ExprKind::Ge(GeExpr { left, right }),
        0x21 => ExprKind::And(AndExpr { left, right }),
        0x22 => ExprKind::Or(OrExpr { left, right }),
        _ => ExprKind::Xor(XorExpr { left, right }),
    }
}

fn unary(kind: u8, operand: Box<ExprKind>) -> ExprKind {
    match kind {
        0x24 => ExprKind::BitNot(BitNotExpr { operand }),
        0x25 => ExprKind::Neg(NegExpr { operand }),
        0x26 => ExprKind::Not(NotExpr { operand }),
        _ => ExprKind::Popcount(PopcountExpr { operand }),
    }
}
