//! Cases that a comparison must have met, by their names.

/// An enum of cases with the names they have in a tally.
macro_rules! cases {
    ($cases:ident: $($case:ident: $name:literal,)*) => {
        #[derive(Clone, Copy, PartialEq, Eq, Debug)]
        pub enum $cases {
            $($case,)*
        }

        impl $cases {
            pub const ALL: [$cases; [$($name),*].len()] = [$($cases::$case),*];

            pub fn name(self) -> &'static str {
                match self {
                    $($cases::$case => $name,)*
                }
            }
        }
    };
}

pub(super) use cases;
