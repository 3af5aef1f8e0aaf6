//! An enum whose variants stand in a list, too, so that none is left out of a test.

/// The enum, and its list `ALL`.
macro_rules! all_variants {
    ($(#[$about_name:meta])* pub enum $name:ident { $($(#[$about:meta])* $variant:ident,)* }) => {
        $(#[$about_name])*
        #[derive(Clone, Copy, Debug, PartialEq, Eq)]
        pub enum $name {
            $($(#[$about])* $variant,)*
        }

        impl $name {
            pub const ALL: &[$name] = &[$($name::$variant,)*];
        }
    };
}

pub(super) use all_variants;
