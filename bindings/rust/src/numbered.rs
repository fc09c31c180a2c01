//! An enum whose cases have document 01's numbers and texts, each said once.

macro_rules! numbered {
    ($(#[$doc:meta])* $name:ident, $word:literal: $($case:ident $number:literal $text:literal,)*) => {
        $(#[$doc])*
        #[derive(Clone, Copy, Debug, PartialEq, Eq, Hash)]
        #[non_exhaustive]
        pub enum $name {
            $(#[doc = concat!($number, ": ", $text, ".")] $case,)*
            /// A number that document 01's table does not have: no archive of this release gives one, a later one may.
            #[non_exhaustive]
            Unlisted(usize),
        }

        impl $name {
            /// Those of document 01's table, in its order.
            pub const ALL: &'static [$name] = &[$($name::$case),*];

            /// Document 01's number.
            pub fn number(self) -> usize {
                match self {
                    $($name::$case => $number,)*
                    $name::Unlisted(number) => number,
                }
            }

            /// The case with this number.
            pub(crate) fn of(number: usize) -> $name {
                match number {
                    $($number => $name::$case,)*
                    other => $name::Unlisted(other),
                }
            }
        }

        /// Document 01's text.
        impl std::fmt::Display for $name {
            fn fmt(&self, f: &mut std::fmt::Formatter<'_>) -> std::fmt::Result {
                match self {
                    $($name::$case => f.write_str($text),)*
                    $name::Unlisted(number) => write!(f, concat!($word, " {}"), number),
                }
            }
        }
    };
}

pub(crate) use numbered;
