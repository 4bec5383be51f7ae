//! The root of the original's parser: it is not among its documents.

#[macro_use]
mod errors;
#[macro_use]
mod macros;
mod comment;
mod core;
mod expression;
mod helper;
mod pattern;
mod slice;

pub use self::core::Parser;
pub use errors::{ErrorKind, ParserError};
pub(crate) use slice::matches_fluent_ws;
pub use slice::Slice;

use crate::ast;

pub type Result<S> = std::result::Result<ast::Resource<S>, (ast::Resource<S>, Vec<ParserError>)>;

pub fn parse<'s, S: Slice<'s>>(input: S) -> Result<S> {
    Parser::new(input).parse()
}
