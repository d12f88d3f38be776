//! Stands in for the crate `bitflags`: the constants alone, which is enough for the sources to compile.

#[macro_export]
macro_rules! bitflags {
    (
        $(#[$_about:meta])*
        impl $name:ident: $bits:ty {
            $($(#[$about:meta])* const $flag:ident = $value:expr;)*
        }
    ) => {
        impl $name {
            $($(#[$about])* pub const $flag: Self = Self($value);)*
        }
    };
}
