//! Bits that have names: what outputs and failed parts have alike.

/// Of a struct of bits whose `names` are those of the bits that are set.
macro_rules! named_bits {
    ($Bits:ident) => {
        impl $Bits {
            /// The bits.
            #[must_use]
            pub const fn bits(self) -> u16 {
                self.0
            }

            /// These, and `others` too: `|`, where a constant is wanted.
            #[must_use]
            pub const fn with(self, others: $Bits) -> $Bits {
                $Bits(self.0 | others.0)
            }

            /// These but for `others`.
            #[must_use]
            pub const fn without(self, others: $Bits) -> $Bits {
                $Bits(self.0 & !others.0)
            }

            /// Whether everything in `others` is in these too.
            #[must_use]
            pub const fn contains(self, others: $Bits) -> bool {
                self.0 & others.0 == others.0
            }
        }

        impl std::ops::BitOr for $Bits {
            type Output = $Bits;

            fn bitor(self, others: $Bits) -> $Bits {
                self.with(others)
            }
        }

        impl std::ops::BitOrAssign for $Bits {
            fn bitor_assign(&mut self, others: $Bits) {
                *self = self.with(others);
            }
        }

        /// The number, since it tells bits that have no name, and then the names.
        impl fmt::Debug for $Bits {
            fn fmt(&self, f: &mut fmt::Formatter<'_>) -> fmt::Result {
                let names: Vec<_> = self.names().collect();
                let colon = if names.is_empty() { "" } else { ": " };
                write!(f, "{}({}{colon}{})", stringify!($Bits), self.0, names.join(", "))
            }
        }
    };
}
pub(crate) use named_bits;

/// The names of the bits that are set, bit 0 first.
pub fn named(bits: u16, names: &'static [&'static str]) -> impl Iterator<Item = &'static str> {
    names.iter().enumerate().filter(move |(bit, _)| bits >> bit & 1 == 1).map(|(_, name)| *name)
}
