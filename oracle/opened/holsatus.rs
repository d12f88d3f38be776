//! The root of a crate over the Rust sources, which lie beside this file (by links) and are used unchanged, but for
//! request W4's one formula: filters/mod.rs is a copy in which oracle/lowpass_rule has changed it.
//! What is added to them reads and sets their private fields.

/// Stands in for the sources' own macro, whose text is not among them: a constant default and `Default` by it.
#[macro_export]
macro_rules! const_default {
    ($name:ident => { $($field:ident: $value:expr),* $(,)? }) => {
        $crate::const_default!($name => $name { $($field: $value),* });
    };
    ($name:ident => $value:expr) => {
        impl $name {
            pub const fn const_default() -> Self {
                $value
            }
        }
        impl Default for $name {
            fn default() -> Self {
                Self::const_default()
            }
        }
    };
}

// The macro of `fields` is used in the modules below it.
#[macro_use]
#[path = "opened/fields.rs"]
pub mod fields;
#[path = "opened/refusals.rs"]
pub mod refusals;

pub mod airframe;
pub mod filters {
    include!("filters/mod.rs");
    include!("opened/filters.rs");
}
pub mod utils {
    pub mod func;
}
pub mod tasks {
    pub mod rc_binder {
        pub mod rates;
    }
}
pub mod types {
    pub mod status;
}
