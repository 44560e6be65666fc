//! Enums that know each of their values, so that one added later is missing from no list of them.

macro_rules! listed {
    ($(#[$about:meta])* pub enum $name:ident { $($value:ident,)* }) => {
        $(#[$about])*
        #[derive(Clone, Copy, Debug, PartialEq, Eq, PartialOrd, Ord)]
        pub enum $name { $($value,)* }

        impl $name {
            pub const ALL: [$name; [$($name::$value),*].len()] = [$($name::$value),*];
        }
    };
    // A value may hold one of another such enum, and then stands for as many.
    ($(#[$about:meta])* pub enum $name:ident { $($value:ident $(($held:ident))?,)* }) => {
        $(#[$about])*
        #[derive(Clone, Copy, Debug, PartialEq, Eq, PartialOrd, Ord)]
        pub enum $name { $($value $(($held))?,)* }

        impl $name {
            pub fn all() -> impl Iterator<Item = $name> {
                std::iter::empty()$(.chain(listed!(each $name $value $($held)?)))*
            }
        }
    };
    (each $name:ident $value:ident) => { [$name::$value] };
    (each $name:ident $value:ident $held:ident) => { $held::ALL.map($name::$value) };
}

pub(crate) use listed;
