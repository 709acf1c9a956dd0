//! Ours: the errors that the original files name, and no others.
#[derive(Debug, Clone, Eq, PartialEq)]
pub enum Error {
    ExpectedType(&'static str, &'static str),
    InvalidArgs(String, String, String),
    InvalidNumArgs(String),
    InvalidStackIndex(usize),
    InvalidSyntax(String),
}
