//! Numbers in the integer register, and the aligned ip.
use crate::{Refusal, raw};

/// A number that fits the integer register.
///
/// The number's bits are zero-extended; reading back keeps the low bits, as two's complement where the type is signed. A bool is 0 or 1,
/// and any nonzero register reads as true.
///
/// ```
/// use cattlecleat::Register;
///
/// assert_eq!((-1_i8).into_register(), 255);
/// assert_eq!(i8::from_register(255), -1);
/// assert_eq!(u16::from_register(0x1_2345), 0x2345);
/// assert_eq!((true.into_register(), bool::from_register(256)), (1, true));
/// ```
pub trait Register: Sized {
    /// The register of this number.
    fn into_register(self) -> u64;

    /// The number of a register.
    fn from_register(register: u64) -> Self;
}

/// The archive's number of each type. Casts keep the low bits, and the archive looks at no others.
macro_rules! register_types {
    ($($number:literal $type:ty),*) => {$(
        impl Register for $type {
            fn into_register(self) -> u64 {
                raw::to_register($number, self as u64)
            }

            fn from_register(register: u64) -> Self {
                raw::from_register($number, register) as Self
            }
        }
    )*};
}

register_types!(1 u8, 2 u16, 3 u32, 4 u64, 5 i8, 6 i16, 7 i32, 8 i64);

impl Register for bool {
    fn into_register(self) -> u64 {
        raw::to_register(9, u64::from(self))
    }

    fn from_register(register: u64) -> Self {
        raw::from_register(9, register) != 0
    }
}

/// Aligns an ip relative to a base: base plus the distance rounded up to a multiple of 8. [`Refusal::BadAddress`] where ip is below base or
/// the address above the largest u64.
///
/// ```
/// use cattlecleat::{Refusal, align_relative_to};
///
/// assert_eq!(align_relative_to(1003, 1000), Ok(1008));
/// assert_eq!(align_relative_to(1004, 1003), Ok(1011));    // the distance is rounded, not the address
/// assert_eq!(align_relative_to(u64::MAX, 8), Err(Refusal::BadAddress));
/// ```
pub fn align_relative_to(ip: u64, base: u64) -> Result<u64, Refusal> {
    let aligned = raw::align(ip, base);
    Refusal::check(aligned.number).map(|()| aligned.address)
}
