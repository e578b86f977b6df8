//! Whole numbers of a fixed, generous width.
//!
//! Every F_floating number is a whole number of the format's smallest unit, and every product is a
//! whole number of that unit's square. Both fit here, so that no step on the way to a result rounds. A
//! quotient is no such number; it is two of them, numerator and denominator, until it is rounded.

use std::cmp::Ordering;

/// 640 bits. The widest number of F is a product: 48 bits, moved up by at most 2 * 254 places. (What a
/// quotient is rounded from has 24 bits, moved up by at most 2 * 254 places and a few.)
/// (G_floating would need 106 + 2 * 2046 bits, which is 66 limbs.)
const LIMBS: usize = 10;

#[derive(Clone, Copy, PartialEq, Eq, Debug)]
pub struct Whole {
    limbs: [u64; LIMBS],
}

impl Whole {
    pub const ZERO: Whole = Whole { limbs: [0; LIMBS] };

    pub fn of(number: u128) -> Whole {
        let mut limbs = [0; LIMBS];
        limbs[0] = number as u64;
        limbs[1] = (number >> 64) as u64;
        Whole { limbs }
    }

    pub fn power_of_two(places: u32) -> Whole {
        Whole::of(1).times_power_of_two(places)
    }

    pub fn is_zero(&self) -> bool {
        *self == Whole::ZERO
    }

    /// How many binary digits the number has; 0 for zero.
    pub fn digits(&self) -> u32 {
        for i in (0..LIMBS).rev() {
            if self.limbs[i] != 0 {
                return i as u32 * 64 + (64 - self.limbs[i].leading_zeros());
            }
        }
        0
    }

    pub fn plus(&self, other: &Whole) -> Whole {
        let mut limbs = [0; LIMBS];
        let mut carry = 0;
        for i in 0..LIMBS {
            let sum = self.limbs[i] as u128 + other.limbs[i] as u128 + carry;
            limbs[i] = sum as u64;
            carry = sum >> 64;
        }
        assert_eq!(carry, 0, "a sum is wider than {} limbs", LIMBS);
        Whole { limbs }
    }

    /// The difference, which must not be negative.
    pub fn minus(&self, other: &Whole) -> Whole {
        let mut limbs = [0; LIMBS];
        let mut borrow = 0;
        for i in 0..LIMBS {
            let take = other.limbs[i] as u128 + borrow;
            let have = self.limbs[i] as u128;
            borrow = u128::from(have < take);
            limbs[i] = (have + (borrow << 64) - take) as u64;
        }
        assert_eq!(borrow, 0, "a difference is negative");
        Whole { limbs }
    }

    pub fn times_power_of_two(&self, places: u32) -> Whole {
        if self.is_zero() {
            return Whole::ZERO;
        }
        let (whole_limbs, rest) = (places as usize / 64, places % 64);
        assert!(self.digits() + places <= LIMBS as u32 * 64, "a number is wider than {} limbs", LIMBS);
        let mut limbs = [0; LIMBS];
        for i in whole_limbs..LIMBS {
            let from = i - whole_limbs;
            limbs[i] = self.limbs[from] << rest;
            if rest > 0 && from > 0 {
                limbs[i] |= self.limbs[from - 1] >> (64 - rest);
            }
        }
        Whole { limbs }
    }

    /// Divided by 2^places, the remainder dropped.
    pub fn over_power_of_two(&self, places: u32) -> Whole {
        let (whole_limbs, rest) = (places as usize / 64, places % 64);
        let mut limbs = [0; LIMBS];
        for i in 0..LIMBS {
            let from = i + whole_limbs;
            if from < LIMBS {
                limbs[i] = self.limbs[from] >> rest;
            }
            if rest > 0 && from + 1 < LIMBS {
                limbs[i] |= self.limbs[from + 1] << (64 - rest);
            }
        }
        Whole { limbs }
    }

    /// Divided by a number other than zero, the remainder dropped: long division, a binary digit at a time.
    pub fn over(&self, divisor: &Whole) -> Whole {
        assert!(!divisor.is_zero(), "a division by zero has no quotient");
        let (mut quotient, mut rest) = (Whole::ZERO, *self);
        for place in (0..=self.digits().saturating_sub(divisor.digits())).rev() {
            let part = divisor.times_power_of_two(place);
            if part <= rest {
                rest = rest.minus(&part);
                quotient = quotient.plus(&Whole::power_of_two(place));
            }
        }
        quotient
    }

    /// The lowest 64 binary digits.
    pub fn low_64(&self) -> u64 {
        self.limbs[0]
    }
}

impl PartialOrd for Whole {
    fn partial_cmp(&self, other: &Whole) -> Option<Ordering> {
        Some(self.cmp(other))
    }
}

impl Ord for Whole {
    fn cmp(&self, other: &Whole) -> Ordering {
        self.limbs.iter().rev().cmp(other.limbs.iter().rev())
    }
}

#[cfg(test)]
mod tests {
    use super::*;

    #[test]
    fn agrees_with_u128() {
        let numbers: [u128; 7] = [0, 1, 3, 0xFFFF_FFFF_FFFF_FFFF, 1 << 64, 0x1234_5678_9ABC_DEF0_1122, (1 << 100) - 1];
        for a in numbers {
            assert_eq!(Whole::of(a).digits(), 128 - a.leading_zeros());
            for b in numbers {
                assert_eq!(Whole::of(a).plus(&Whole::of(b)), Whole::of(a + b));
                if a >= b {
                    assert_eq!(Whole::of(a).minus(&Whole::of(b)), Whole::of(a - b));
                }
                assert_eq!(Whole::of(a).cmp(&Whole::of(b)), a.cmp(&b));
                if b != 0 {
                    assert_eq!(Whole::of(a).over(&Whole::of(b)), Whole::of(a / b));
                    // Numerator and denominator moved up alike have the same quotient.
                    let moved = |number| Whole::of(number).times_power_of_two(500);
                    assert_eq!(moved(a).over(&moved(b)), Whole::of(a / b));
                    let far = moved(a).over(&Whole::of(b)).over_power_of_two(500);
                    assert_eq!(far, Whole::of(a / b));
                }
            }
            for places in 0..128 {
                assert_eq!(Whole::of(a).over_power_of_two(places), Whole::of(a >> places));
                let back = Whole::of(a).times_power_of_two(places + 300).over_power_of_two(places + 300);
                assert_eq!(back, Whole::of(a));
                if a << places >> places == a {
                    assert_eq!(Whole::of(a).times_power_of_two(places), Whole::of(a << places));
                }
            }
        }
    }

    #[test]
    #[should_panic]
    fn nothing_is_divided_by_zero() {
        Whole::of(1).over(&Whole::ZERO);
    }

    #[test]
    #[should_panic]
    fn a_negative_difference_is_no_number() {
        Whole::of(1).minus(&Whole::of(2));
    }
}
