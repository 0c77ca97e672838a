//! Tests of modules of ASN.1: what the syntax tree of a module is, and where damaged ones are rejected.

mod tree;

pub use tree::tree_of;

#[cfg(test)]
mod damage;
#[cfg(test)]
mod errors;
#[cfg(test)]
mod trees;
