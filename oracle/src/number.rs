//! Ours: a number is a signed 64-bit whole number. The original's own number
//! module is not among the files at hand, and the rules fix it so.
use std::fmt::{Display, Formatter};

#[derive(Debug, Clone, Eq, PartialEq, Hash)]
pub enum Number {
    Fixnum(i64),
}

impl From<i64> for Number {
    fn from(num: i64) -> Self {
        Number::Fixnum(num)
    }
}

impl From<i32> for Number {
    fn from(num: i32) -> Self {
        Number::Fixnum(num as i64)
    }
}

impl Display for Number {
    fn fmt(&self, f: &mut Formatter<'_>) -> std::fmt::Result {
        let Number::Fixnum(num) = self;
        write!(f, "{}", num)
    }
}
