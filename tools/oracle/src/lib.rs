//! The original layout validators behind the bytes of a bundle, a second
//! reading of the paper to compare them with, and a source of inputs.

// Copies made by build.sh; most of the original is not called here.
#[rustfmt::skip]
#[allow(dead_code, clippy::all)]
#[path = "../target/original/dependency.rs"]
mod dependency;
#[rustfmt::skip]
#[allow(dead_code, clippy::all)]
#[path = "../target/original/expr.rs"]
mod expr;
#[rustfmt::skip]
#[allow(dead_code, clippy::all)]
#[path = "../target/original/types.rs"]
mod types;

/// The place under which dependency.rs looks for the two others.
mod abi {
    pub(crate) use crate::{expr, types};
}

pub mod bundle;
pub mod cases;
pub mod compare;
pub mod damage;
pub mod fixed;
pub mod fixed_cases;
pub mod fixed_examples;
pub mod fixed_generate;
pub mod followed;
pub mod followed_cases;
pub mod followed_examples;
pub mod followed_generate;
pub mod generate;
pub mod limits;
pub mod original;
pub mod random;
pub mod reader;
pub mod reference;
pub mod report;
pub mod repr_c;
pub mod scan;
pub mod value;
pub mod value_cases;
pub mod value_examples;
pub mod value_generate;
pub mod work;
