//! Stand-in for the crate bitflags: a number with named bits and `|`.

/// Declares a struct around a number, one constant a flag, and `|` on it.
#[macro_export]
macro_rules! bitflags {
    (
        $(#[$outer:meta])*
        $vis:vis struct $Name:ident: $Number:ty {
            $( $(#[$inner:meta])* const $Flag:ident = $value:expr; )*
        }
    ) => {
        $(#[$outer])*
        $vis struct $Name($Number);

        impl $Name {
            $( $(#[$inner])* pub const $Flag: Self = Self($value); )*
        }

        impl ::core::ops::BitOr for $Name {
            type Output = Self;

            fn bitor(self, other: Self) -> Self {
                Self(self.0 | other.0)
            }
        }
    };
}
