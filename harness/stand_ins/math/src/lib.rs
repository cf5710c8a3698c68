//! Stand-in for the field crate: whole numbers modulo p = 2^64 - 2^32 + 1, as
//! document 01, 'Field and operands', has them.

pub mod field {
    pub mod goldilocks {
        /// The base field. A name only: its elements are `FieldElement<GoldilocksField>`.
        #[derive(Debug, Clone, Copy, PartialEq, Eq)]
        pub struct GoldilocksField;

        /// p
        pub const PRIME: u64 = 0xFFFF_FFFF_0000_0001;
    }

    pub mod extensions_goldilocks {
        /// Named by the original's types and never computed with here.
        #[derive(Debug, Clone, Copy, PartialEq, Eq)]
        pub struct Degree3GoldilocksExtensionField;
    }

    pub mod element {
        use super::goldilocks::{GoldilocksField, PRIME};
        use std::marker::PhantomData;
        use std::ops::{Add, Mul, Sub};

        /// An element, always the canonical number below p. Transparent over `u64`,
        /// since the original makes a zeroed table out of zeroed `u64`s.
        #[repr(transparent)]
        #[derive(Debug, Clone, Copy, PartialEq, Eq)]
        pub struct FieldElement<F>(u64, PhantomData<F>);

        impl FieldElement<GoldilocksField> {
            pub const fn zero() -> Self {
                Self(0, PhantomData)
            }

            pub const fn one() -> Self {
                Self(1, PhantomData)
            }

            pub const fn value(self) -> u64 {
                self.0
            }

            /// A negative n means p - |n|; |n| is at most 2^63, so below p.
            pub fn from_signed(n: i64) -> Self {
                let size = Self::from(n.unsigned_abs());
                if n < 0 { Self::zero() - size } else { size }
            }

            fn reduced(n: u128) -> Self {
                Self((n % u128::from(PRIME)) as u64, PhantomData)
            }
        }

        impl From<u64> for FieldElement<GoldilocksField> {
            /// One subtraction reduces any 64-bit number, since 2^64 is below 2p.
            fn from(n: u64) -> Self {
                Self(if n >= PRIME { n - PRIME } else { n }, PhantomData)
            }
        }

        impl Add for FieldElement<GoldilocksField> {
            type Output = Self;
            fn add(self, other: Self) -> Self {
                Self::reduced(u128::from(self.0) + u128::from(other.0))
            }
        }

        impl Sub for FieldElement<GoldilocksField> {
            type Output = Self;
            fn sub(self, other: Self) -> Self {
                Self::reduced(u128::from(self.0) + u128::from(PRIME - other.0))
            }
        }

        impl Mul for FieldElement<GoldilocksField> {
            type Output = Self;
            fn mul(self, other: Self) -> Self {
                Self::reduced(u128::from(self.0) * u128::from(other.0))
            }
        }
    }
}
