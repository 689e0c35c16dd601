//! Bit patterns of floats that a careless move changes or that compare unlike their bits.

/// A float by the number of its exponent's and its mantissa's bits.
pub struct Float {
    exponent: u32,
    mantissa: u32,
}

pub const SINGLE: Float = Float { exponent: 8, mantissa: 23 };
pub const DOUBLE: Float = Float {
    exponent: 11,
    mantissa: 52,
};

impl Float {
    /// Of both signs: zero, subnormals, normals, infinity, NaNs that are signalling and quiet with several payloads.
    pub fn notable(&self) -> Vec<u64> {
        let (last, quiet) = ((1 << self.exponent) - 1, 1_u64 << (self.mantissa - 1));
        let payloads = [1, quiet - 1, 0x5555_5555_5555_5555 & (quiet - 1)];
        let nans = payloads.iter().flat_map(|payload| [*payload, quiet | payload]).chain([quiet]);
        let numbers = [
            (0, 0),
            (0, 1),
            (0, 2 * quiet - 1),
            (1, 0),
            (last / 2, 0),
            (last - 1, 2 * quiet - 1),
            (last, 0),
        ];
        self.signed(numbers.into_iter().chain(nans.map(|mantissa| (last, mantissa))))
    }

    /// NaNs with one bit of payload, quiet and signalling, of both signs.
    pub fn payload_bits(&self) -> Vec<u64> {
        let (last, quiet) = ((1 << self.exponent) - 1, 1 << (self.mantissa - 1));
        let bits = (0..self.mantissa - 1).flat_map(|bit| [1 << bit, quiet | 1 << bit]);
        self.signed(bits.map(|mantissa| (last, mantissa)))
    }

    fn signed(&self, floats: impl Iterator<Item = (u64, u64)>) -> Vec<u64> {
        let positive = floats.map(|(exponent, mantissa)| exponent << self.mantissa | mantissa);
        let sign = 1 << (self.exponent + self.mantissa);
        positive.flat_map(|bits| [bits, sign | bits]).collect()
    }
}

#[cfg(test)]
mod tests {
    use super::{DOUBLE, SINGLE};

    #[test]
    fn all_sorts_are_among_them() {
        let singles: Vec<f32> = SINGLE.notable().into_iter().map(|bits| f32::from_bits(bits as u32)).collect();
        let doubles: Vec<f64> = DOUBLE.notable().into_iter().map(f64::from_bits).collect();
        assert_eq!((singles.len(), doubles.len()), (28, 28));
        assert_eq!(singles.iter().filter(|float| float.is_nan()).count(), 14);
        assert_eq!(doubles.iter().filter(|float| float.is_nan()).count(), 14);
        assert!(singles.contains(&f32::NEG_INFINITY) && singles.contains(&f32::MAX) && singles.contains(&-1.0));
        assert!(doubles.contains(&f64::INFINITY) && doubles.contains(&f64::MIN_POSITIVE) && doubles.contains(&1.0));
        assert!(SINGLE.notable().contains(&0x8000_0000) && DOUBLE.notable().contains(&0x7ff0_0000_0000_0001));
    }

    #[test]
    fn every_payload_bit_alone() {
        let singles = SINGLE.payload_bits();
        assert_eq!(singles.len(), 22 * 4);
        assert!(singles.iter().all(|bits| f32::from_bits(*bits as u32).is_nan()));
        assert!(DOUBLE.payload_bits().into_iter().all(|bits| f64::from_bits(bits).is_nan()));
    }
}
