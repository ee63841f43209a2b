//! The two shapes of a list: cases with codes, and cases with words. A case stands in one place.

/// An enum whose every case has a code. The codes ascend and may have gaps.
macro_rules! coded {
    ($(#[$doc:meta])* $name:ident { $($case:ident = $code:literal),+ $(,)? }) => {
        $(#[$doc])*
        #[derive(Clone, Copy, Debug, PartialEq, Eq, PartialOrd, Ord)]
        pub enum $name { $($case = $code),+ }

        impl $name {
            pub const ALL: &'static [$name] = &[$($name::$case),+];

            /// The last code of the list.
            pub const LAST: u8 = Self::ALL[Self::ALL.len() - 1] as u8;

            pub fn code(self) -> u8 {
                self as u8
            }

            pub fn from_code(code: u8) -> Option<$name> {
                Self::ALL.iter().copied().find(|case| case.code() == code)
            }
        }
    };
}
pub(crate) use coded;

/// An enum whose every case has words.
#[macro_export]
macro_rules! worded {
    ($(#[$doc:meta])* $name:ident { $($case:ident: $words:literal),+ $(,)? }) => {
        $(#[$doc])*
        #[derive(Clone, Copy, Debug, PartialEq, Eq)]
        pub enum $name { $($case),+ }

        impl $name {
            pub const ALL: &'static [$name] = &[$($name::$case),+];

            pub fn words(self) -> &'static str {
                match self { $($name::$case => $words),+ }
            }
        }
    };
}
