//! Numbered cases in words.

/// Makes an enum from one list of numbers, names and words. Every number is a case: one that is not listed is `Other`.
macro_rules! numbered {
    ($(#[$about:meta])* $cases:ident { $($number:literal $name:ident $words:literal)* }) => {
        $(#[$about])*
        #[derive(Debug, Clone, Copy, PartialEq, Eq, Hash)]
        pub enum $cases {
            $(#[doc = concat!("Number ", $number, ": ", $words, ".")] $name,)*
            /// A number that this package does not know.
            Other(u32),
        }

        impl $cases {
            /// Its number.
            pub const fn number(self) -> u32 {
                match self {
                    $(Self::$name => $number,)*
                    Self::Other(number) => number,
                }
            }
        }

        impl From<u32> for $cases {
            fn from(number: u32) -> Self {
                match number {
                    $($number => Self::$name,)*
                    _ => Self::Other(number),
                }
            }
        }

        impl std::fmt::Display for $cases {
            fn fmt(&self, f: &mut std::fmt::Formatter<'_>) -> std::fmt::Result {
                match self {
                    $(Self::$name => f.write_str($words),)*
                    Self::Other(_) => f.write_str("a number that this package does not know"),
                }
            }
        }
    };
}
