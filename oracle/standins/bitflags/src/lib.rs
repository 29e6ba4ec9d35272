//! Stand-in for the crate bitflags: only what the shape files use of it.

/// Declares a set of flags as a struct around its bits.
#[macro_export]
macro_rules! bitflags {
    (
        $(#[$about_set:meta])*
        $visible:vis struct $Set:ident: $Bits:ty {
            $(
                $(#[$about_flag:meta])*
                const $FLAG:ident = $value:expr;
            )*
        }
    ) => {
        $(#[$about_set])*
        $visible struct $Set($Bits);

        impl $Set {
            $(
                $(#[$about_flag])*
                $visible const $FLAG: Self = Self($value);
            )*

            $visible const fn empty() -> Self {
                Self(0)
            }

            /// Takes every bit, also one that no flag names.
            $visible const fn from_bits_retain(bits: $Bits) -> Self {
                Self(bits)
            }

            $visible const fn bits(self) -> $Bits {
                self.0
            }

            $visible const fn contains(self, other: Self) -> bool {
                self.0 & other.0 == other.0
            }

            $visible const fn intersection(self, other: Self) -> Self {
                Self(self.0 & other.0)
            }

            $visible const fn difference(self, other: Self) -> Self {
                Self(self.0 & !other.0)
            }
        }

        impl ::core::ops::BitOr for $Set {
            type Output = Self;

            fn bitor(self, other: Self) -> Self {
                Self(self.0 | other.0)
            }
        }

        impl ::core::ops::BitOrAssign for $Set {
            fn bitor_assign(&mut self, other: Self) {
                self.0 |= other.0;
            }
        }
    };
}
