//! Stand-in for the crate `lazy_static`, by the standard library's own lazy cell.
#[macro_export]
macro_rules! lazy_static {
    ($(static ref $name:ident : $ty:ty = $value:expr;)*) => {
        $(static $name: ::std::sync::LazyLock<$ty> = ::std::sync::LazyLock::new(|| $value);)*
    };
}
