//! The root of the original's crate: it is not among its documents. The modules are the original's files, unchanged.
#![allow(dead_code, unexpected_cfgs)]

pub mod ast;
pub mod parser;
pub mod serializer;
