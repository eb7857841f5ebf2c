//! Bundles of frame definitions as text: reading and writing the notation,
//! reading and writing the bytes, reports and chains in words, and the fixed sizes of
//! definitions as tables and pictures. README.md says what the notation is.

pub mod asked;
pub mod chain;
pub mod circle;
pub mod encode;
pub mod explain;
pub mod fixed;
pub mod lex;
pub mod names;
pub mod obstacle;
pub mod parse;
pub mod picture;
pub mod read;
pub mod recognise;
pub mod report;
pub mod show;
pub mod sizes;
pub mod table;
pub mod tree;
pub mod value;
pub mod words;
