//! Stand-in for the crate `num`: the one conversion that heap growth uses.
pub trait ToPrimitive {
    fn to_usize(&self) -> Option<usize>;
}

impl ToPrimitive for f64 {
    fn to_usize(&self) -> Option<usize> {
        // 2^53: up to here every whole number is exact.
        if *self > -1.0 && *self <= 9_007_199_254_740_992.0 {
            Some(*self as usize)
        } else {
            None
        }
    }
}
