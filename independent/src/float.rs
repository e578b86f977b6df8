//! Floating-point numbers of the VAX, worked out with whole numbers only (document 01, "What an
//! element receives"; document 02, Q-1 and Q-2). No machine floating-point type takes part in any result.
//!
//! Everything is over a `Format`; only F_floating is made.

use crate::whole::Whole;
use std::cmp::Ordering;

/// VAER type bits (document 01: bits 0, 2, 3 and 5; Q-1: bit 1).
pub const UNDERFLOW: u32 = 1;
pub const DIVIDE_BY_ZERO: u32 = 2;
pub const RESERVED_OPERAND: u32 = 4;
pub const OVERFLOW: u32 = 8;
pub const INTEGER_OVERFLOW: u32 = 32;

/// A format is its width in bits and how many of them are the exponent. In memory order the first
/// 16-bit word holds the sign (<15>), the exponent and the top of the fraction; the following words
/// hold the rest of the fraction, the most significant first.
#[derive(Clone, Copy, Debug)]
pub struct Format {
    pub bits: u32,
    pub exponent_bits: u32,
}

/// Sign <15>, exponent <14:7>, fraction <6:0> then <31:16>; excess 128, 24 significant bits.
pub const F: Format = Format { bits: 32, exponent_bits: 8 };

/// What the bits of an operand say.
#[derive(Clone, Copy, PartialEq, Eq, Debug)]
pub enum Operand {
    Zero,
    Reserved,
    /// (-1)^negative * significand * 2^(exponent - excess - significant bits)
    Number {
        negative: bool,
        exponent: u32,
        significand: u64,
    },
}

/// What an operation leaves: the bits written and the VAER type bits recorded.
#[derive(Clone, Copy, PartialEq, Eq, Debug)]
pub struct Outcome {
    pub value: u64,
    pub types: u32,
}

/// An exact value: (-1)^negative * size * 2^scale.
#[derive(Clone, Copy, PartialEq, Eq, Debug)]
struct Exact {
    negative: bool,
    size: Whole,
    scale: i64,
}

/// An exact quotient: (-1)^negative * numerator / denominator, neither of which is zero.
#[derive(Clone, Copy, PartialEq, Eq, Debug)]
struct Quotient {
    negative: bool,
    numerator: Whole,
    denominator: Whole,
}

/// Document 01's relations, by their number in <2:0> of the control word; None for 3 and 7.
pub fn relation_holds(relation: u32, order: Ordering) -> Option<bool> {
    match relation {
        0 => Some(order == Ordering::Greater),
        1 => Some(order == Ordering::Equal),
        2 => Some(order == Ordering::Less),
        4 => Some(order != Ordering::Greater),
        5 => Some(order != Ordering::Equal),
        6 => Some(order != Ordering::Less),
        _ => None,
    }
}

impl Format {
    /// The bits after the leading one.
    pub fn fraction_bits(&self) -> u32 {
        self.bits - 1 - self.exponent_bits
    }

    /// The significant bits, the leading one included.
    pub fn significant_bits(&self) -> u32 {
        self.fraction_bits() + 1
    }

    pub fn excess(&self) -> i64 {
        1 << (self.exponent_bits - 1)
    }

    /// Exponents run from 1 to this.
    pub fn greatest_exponent(&self) -> u32 {
        (1 << self.exponent_bits) - 1
    }

    /// The power of two of the last place of a number with exponent 1: every number of the format is
    /// a whole number of these.
    fn unit(&self) -> i64 {
        1 - self.excess() - i64::from(self.significant_bits())
    }

    /// Turns the order of the 16-bit words round, so that sign, exponent and fraction follow each
    /// other from the top. Its own inverse.
    fn words_reversed(&self, bits: u64) -> u64 {
        let words = self.bits / 16;
        let mut out = 0;
        for word in 0..words {
            out = out << 16 | bits >> (16 * word) & 0xFFFF;
        }
        out
    }

    /// The bits of a number whose fields are given; the significand has its leading one.
    pub fn assemble(&self, negative: bool, exponent: u32, significand: u64) -> u64 {
        assert!(exponent >= 1 && exponent <= self.greatest_exponent());
        assert!(significand >> self.fraction_bits() == 1);
        let fraction = significand - (1 << self.fraction_bits());
        let straight = u64::from(negative) << (self.bits - 1) | u64::from(exponent) << self.fraction_bits() | fraction;
        self.words_reversed(straight)
    }

    pub fn operand(&self, bits: u64) -> Operand {
        let straight = self.words_reversed(bits);
        let negative = straight >> (self.bits - 1) & 1 == 1;
        let exponent = (straight >> self.fraction_bits()) as u32 & self.greatest_exponent();
        let fraction = straight & ((1 << self.fraction_bits()) - 1);
        match (exponent, negative) {
            (0, false) => Operand::Zero,
            (0, true) => Operand::Reserved,
            _ => Operand::Number { negative, exponent, significand: fraction + (1 << self.fraction_bits()) },
        }
    }

    /// The exact value of an operand in units of the format; None for a reserved operand.
    fn exact(&self, bits: u64) -> Option<Exact> {
        match self.operand(bits) {
            Operand::Reserved => None,
            Operand::Zero => Some(Exact { negative: false, size: Whole::ZERO, scale: self.unit() }),
            Operand::Number { negative, exponent, significand } => Some(Exact {
                negative,
                size: Whole::of(significand.into()).times_power_of_two(exponent - 1),
                scale: self.unit(),
            }),
        }
    }

    fn exception(&self, types: u32) -> Outcome {
        Outcome { value: 0x8000 + u64::from(types), types }
    }

    /// The exact value rounded to the format, halves away from zero.
    fn rounded(&self, exact: Exact, exc: bool) -> Outcome {
        if exact.size.is_zero() {
            return Outcome { value: 0, types: 0 };
        }
        // The exact value is 0.1... * 2^power.
        let digits = exact.size.digits();
        let power = i64::from(digits) + exact.scale;
        let kept = self.significant_bits();
        let nearest = if digits <= kept {
            exact.size.low_64() << (kept - digits)
        } else {
            let dropped = digits - kept;
            let half = Whole::power_of_two(dropped - 1);
            exact.size.plus(&half).over_power_of_two(dropped).low_64()
        };
        self.written(exact.negative, nearest, power, exc)
    }

    /// The exact quotient rounded to the format, halves away from zero.
    fn quotient_rounded(&self, quotient: Quotient, exc: bool) -> Outcome {
        let Quotient { negative, numerator, denominator } = quotient;
        // The exact value is 0.1... * 2^power: below 2^power, and 2^(power - 1) or more. It lies between
        // 2^(digits - 1) and 2^(digits + 1), digits being what the numerator has more of than the denominator.
        let digits = i64::from(numerator.digits()) - i64::from(denominator.digits());
        let (n, d) = over_power(&numerator, &denominator, digits);
        let power = if n < d { digits } else { digits + 1 };
        // In units of the last place: n / d, and the nearest whole number is that of n / d + 1/2.
        let kept = self.significant_bits();
        let (n, d) = over_power(&numerator, &denominator, power - i64::from(kept));
        let nearest = n.plus(&n).plus(&d).over(&d.plus(&d)).low_64();
        self.written(negative, nearest, power, exc)
    }

    /// What is written for an exact value 0.1... * 2^power that was rounded to `nearest` units of its last place.
    /// All ones may have carried into one more digit: then it is the next power of two. The exponent is judged
    /// only after that, at both ends of the range (document 02, Q-2).
    fn written(&self, negative: bool, nearest: u64, power: i64, exc: bool) -> Outcome {
        let carried = nearest == 1 << self.significant_bits();
        let (significand, power) = if carried { (nearest / 2, power + 1) } else { (nearest, power) };
        let exponent = power + self.excess();
        if exponent < 1 {
            return if exc { self.exception(UNDERFLOW) } else { Outcome { value: 0, types: 0 } };
        }
        if exponent > i64::from(self.greatest_exponent()) {
            return self.exception(OVERFLOW);
        }
        Outcome { value: self.assemble(negative, exponent as u32, significand), types: 0 }
    }

    pub fn add(&self, a: u64, b: u64, exc: bool) -> Outcome {
        match (self.exact(a), self.exact(b)) {
            (Some(a), Some(b)) => self.rounded(sum(a, b), exc),
            _ => self.exception(RESERVED_OPERAND),
        }
    }

    pub fn subtract(&self, a: u64, b: u64, exc: bool) -> Outcome {
        match (self.exact(a), self.exact(b)) {
            (Some(a), Some(b)) => self.rounded(sum(a, Exact { negative: !b.negative, ..b }), exc),
            _ => self.exception(RESERVED_OPERAND),
        }
    }

    pub fn multiply(&self, a: u64, b: u64, exc: bool) -> Outcome {
        match (self.operand(a), self.operand(b)) {
            (Operand::Reserved, _) | (_, Operand::Reserved) => self.exception(RESERVED_OPERAND),
            (Operand::Zero, _) | (_, Operand::Zero) => Outcome { value: 0, types: 0 },
            (
                Operand::Number { negative: na, exponent: ea, significand: sa },
                Operand::Number { negative: nb, exponent: eb, significand: sb },
            ) => {
                // A whole number of the unit's square.
                let product = Whole::of(u128::from(sa) * u128::from(sb));
                let size = product.times_power_of_two(ea - 1 + eb - 1);
                self.rounded(Exact { negative: na != nb, size, scale: 2 * self.unit() }, exc)
            }
        }
    }

    /// a over b. A zero divisor goes before every other case, and a reserved dividend over it is both.
    pub fn divide(&self, a: u64, b: u64, exc: bool) -> Outcome {
        match (self.operand(a), self.operand(b)) {
            (Operand::Reserved, Operand::Zero) => self.exception(DIVIDE_BY_ZERO | RESERVED_OPERAND),
            (_, Operand::Zero) => self.exception(DIVIDE_BY_ZERO),
            (Operand::Reserved, _) | (_, Operand::Reserved) => self.exception(RESERVED_OPERAND),
            (Operand::Zero, Operand::Number { .. }) => Outcome { value: 0, types: 0 },
            (
                Operand::Number { negative: na, exponent: ea, significand: sa },
                Operand::Number { negative: nb, exponent: eb, significand: sb },
            ) => {
                // Both are whole numbers of the unit, which goes out.
                let numerator = Whole::of(sa.into()).times_power_of_two(ea - 1);
                let denominator = Whole::of(sb.into()).times_power_of_two(eb - 1);
                self.quotient_rounded(Quotient { negative: na != nb, numerator, denominator }, exc)
            }
        }
    }

    /// The order of the values; None if either is a reserved operand.
    pub fn order(&self, a: u64, b: u64) -> Option<Ordering> {
        let (a, b) = (self.exact(a)?, self.exact(b)?);
        Some(match (a.negative, b.negative) {
            (false, false) => a.size.cmp(&b.size),
            (true, true) => b.size.cmp(&a.size),
            (false, true) => Ordering::Greater,
            (true, false) => Ordering::Less,
        })
    }

    /// The mask bit for a relation: clear for a reserved operand. None for the relations 3 and 7.
    pub fn compare(&self, a: u64, b: u64, relation: u32) -> Option<Outcome> {
        relation_holds(relation, Ordering::Equal)?;
        match self.order(a, b) {
            None => Some(Outcome { value: 0, types: RESERVED_OPERAND }),
            Some(order) => Some(Outcome { value: relation_holds(relation, order)?.into(), types: 0 }),
        }
    }

    /// To a longword: the size is rounded (halves up) or cut, and only then given its sign.
    pub fn to_longword(&self, b: u64, rounded: bool, exc: bool) -> Outcome {
        let Some(exact) = self.exact(b) else {
            return Outcome { value: 0, types: RESERVED_OPERAND };
        };
        let places = (-exact.scale) as u32;
        let half = if rounded { Whole::power_of_two(places - 1) } else { Whole::ZERO };
        let size = exact.size.plus(&half).over_power_of_two(places);
        let limit = Whole::power_of_two(31);
        let fits = if exact.negative { size <= limit } else { size < limit };
        let low = size.low_64() as u32;
        let value = if exact.negative { low.wrapping_neg() } else { low };
        Outcome { value: value.into(), types: if !fits && exc { INTEGER_OVERFLOW } else { 0 } }
    }

    /// From a longword: rounded where the format is too narrow; records nothing.
    pub fn from_longword(&self, b: u32) -> Outcome {
        let number = i128::from(b as i32);
        let places = (-self.unit()) as u32;
        let size = Whole::of(number.unsigned_abs()).times_power_of_two(places);
        self.rounded(Exact { negative: number < 0, size, scale: self.unit() }, false)
    }

    /// The bits of the binary64 number with exactly this value; None for a reserved operand.
    /// Zero is positive. (For a format whose numbers are all normal binary64 numbers, as F's are.)
    pub fn binary64(&self, bits: u64) -> Option<u64> {
        match self.operand(bits) {
            Operand::Reserved => None,
            Operand::Zero => Some(0),
            Operand::Number { negative, exponent, significand } => {
                // 0.1f * 2^p is 1.f * 2^(p-1), which binary64 writes with exponent p - 1 + 1023.
                let biased = i64::from(exponent) - self.excess() - 1 + 1023;
                assert!((1..=2046).contains(&biased) && self.fraction_bits() <= 52);
                let fraction = significand - (1 << self.fraction_bits());
                Some(u64::from(negative) << 63 | (biased as u64) << 52 | fraction << (52 - self.fraction_bits()))
            }
        }
    }
}

fn sum(a: Exact, b: Exact) -> Exact {
    assert_eq!(a.scale, b.scale);
    let (negative, size) = if a.negative == b.negative {
        (a.negative, a.size.plus(&b.size))
    } else if a.size >= b.size {
        (a.negative, a.size.minus(&b.size))
    } else {
        (b.negative, b.size.minus(&a.size))
    };
    Exact { negative, size, scale: a.scale }
}

/// Numerator and denominator of n / d / 2^power, whichever sign the power has.
fn over_power(n: &Whole, d: &Whole, power: i64) -> (Whole, Whole) {
    let places = power.unsigned_abs() as u32;
    if power < 0 {
        (n.times_power_of_two(places), *d)
    } else {
        (*n, d.times_power_of_two(places))
    }
}

#[cfg(test)]
mod tests {
    use super::*;

    fn f(value: u64, types: u32) -> Outcome {
        Outcome { value, types }
    }

    #[test]
    fn format_of_f() {
        assert_eq!((F.significant_bits(), F.excess(), F.greatest_exponent()), (24, 128, 255));
        // <6:0> is the top of the fraction and <31:16> the rest.
        assert_eq!(F.operand(0x0000_4080), Operand::Number { negative: false, exponent: 129, significand: 0x80_0000 });
        assert_eq!(F.operand(0x0001_40C0), Operand::Number { negative: false, exponent: 129, significand: 0xC0_0001 });
    }

    #[test]
    fn examples_4_to_9() {
        for exc in [false, true] {
            assert_eq!(F.add(0x4080, 0x4080, exc), f(0x4100, 0));
            assert_eq!(F.add(0xFFFF_7FFF, 0xFFFF_7FFF, exc), f(0x8008, OVERFLOW));
        }
        assert_eq!(F.multiply(0x0080, 0x4000, false), f(0, 0));
        assert_eq!(F.multiply(0x0080, 0x4000, true), f(0x8001, UNDERFLOW));
        assert_eq!(F.from_longword(16_777_217), f(0x0001_4C80, 0));
        assert_eq!(F.to_longword(0x4120, true, true), f(3, 0));
        assert_eq!(F.to_longword(0x4120, false, true), f(2, 0));
        assert_eq!(F.to_longword(0xC120, false, true), f(0xFFFF_FFFE, 0));
        assert_eq!(F.to_longword(0x5000, true, true), f(0x8000_0000, INTEGER_OVERFLOW));
        assert_eq!(F.to_longword(0xD000, true, true), f(0x8000_0000, 0));
        assert_eq!(F.to_longword(0x5000, true, false), f(0x8000_0000, 0));
    }

    #[test]
    fn halves_go_away_from_zero() {
        // 2.5 and -2.5 rounded.
        assert_eq!(F.to_longword(0x4120, true, true).value, 3);
        assert_eq!(F.to_longword(0xC120, true, true).value, 0xFFFF_FFFD);
        // 2^24 + 1 lies half way; to even would keep 2^24.
        assert_eq!(F.from_longword(0x0100_0001).value, 0x0001_4C80);
        assert_eq!(F.from_longword(0xFEFF_FFFF).value, 0x0001_CC80);
        // 1 + 2^-24 lies half way between 1 and the next number.
        assert_eq!(F.add(0x4080, 0x3480, true), f(0x0001_4080, 0));
        // 1 - 2^-25 does too, one binade lower.
        assert_eq!(F.subtract(0x4080, 0x3400, true), f(0x4080, 0));
    }

    #[test]
    fn zeros_and_reserved_operands() {
        let (dirty, reserved) = (0xFFFF_007F, 0x0012_8034);
        assert_eq!(F.add(dirty, dirty, true), f(0, 0));
        assert_eq!(F.add(dirty, 0x4080, true), f(0x4080, 0));
        assert_eq!(F.multiply(dirty, 0x4080, true), f(0, 0));
        assert_eq!(F.multiply(dirty, reserved, true), f(0x8004, RESERVED_OPERAND));
        assert_eq!(F.subtract(0x4080, 0x4080, true), f(0, 0));
        assert_eq!(F.compare(dirty, 0, 1), Some(f(1, 0)));
        assert_eq!(F.compare(dirty, 0xC080, 0), Some(f(1, 0)));
        for relation in [0, 1, 2, 4, 5, 6] {
            assert_eq!(F.compare(reserved, 0, relation), Some(f(0, RESERVED_OPERAND)));
        }
        assert_eq!((F.compare(0, 0, 3), F.compare(0, 0, 7)), (None, None));
        assert_eq!(F.to_longword(reserved, true, true), f(0, RESERVED_OPERAND));
        assert_eq!(F.binary64(dirty), Some(0));
        assert_eq!(F.binary64(reserved), None);
    }

    #[test]
    fn the_exponent_is_judged_after_rounding() {
        const MINUS: u64 = 0x8000;
        // Products below the smallest number, 2^47 of these units, that round up to it: FFFFFE times 800001 is
        // 2^47 - 2 (document 02, Q-2), and F80000 times 842108 is 2^47 - 2^22, half way to the last place below.
        for (a, b) in [(0xFFFE_407F, 0x0001_0080), (0x4078, 0x2108_0084)] {
            for exc in [false, true] {
                for (a, b) in [(a, b), (b, a)] {
                    assert_eq!(F.multiply(a, b, exc), f(0x0080, 0));
                    assert_eq!(F.multiply(a | MINUS, b, exc), f(0x8080, 0));
                    assert_eq!(F.multiply(a, b | MINUS, exc), f(0x8080, 0));
                    assert_eq!(F.multiply(a | MINUS, b | MINUS, exc), f(0x0080, 0));
                }
            }
        }
        // Those that stay below: EDF87B times 89B29A is 2^47 - 2^22 - 2, and none lies nearer below half way; FFFFFF
        // times 800000 is the last place below; and half of the first, which rounds up to half of the smallest number.
        for (a, b) in [(0xF87B_406D, 0xB29A_0089), (0xFFFF_407F, 0x0080), (0xFFFE_3FFF, 0x0001_0080)] {
            for a in [a, a | MINUS] {
                assert_eq!(F.multiply(a, b, true), f(0x8001, UNDERFLOW));
                assert_eq!(F.multiply(a, b, false), f(0, 0));
            }
        }
        // Overflow: a carry into exponent 256.
        assert_eq!(F.add(0xFFFF_7FFF, 0x7380, true), f(0x8008, OVERFLOW));
        assert_eq!(F.add(0xFFFF_7FFF, 0x7300, true), f(0xFFFF_7FFF, 0));
    }

    /// Whether n / d lies below half a place above a number, and not more than half a place below it; the place
    /// below a power of two is half as wide.
    fn is_nearest(n: u128, d: u128, number: u128, place: u128, power_of_two: bool) -> bool {
        let below = if power_of_two { place } else { 2 * place };
        4 * n < (4 * number + 2 * place) * d && 4 * n >= (4 * number - below) * d
    }

    /// Products about the smallest number, by the plain definition: one more than half a place below that number
    /// underflows, and of any other the nearest number is given, of two equally near the greater size. Returns how
    /// many rounded up to the smallest number, and how many underflowed.
    fn products_about_the_smallest(format: Format, pairs: impl Iterator<Item = (u64, u64)>) -> (u64, u64) {
        let (digits, excess) = (format.significant_bits(), format.excess() as u32);
        // In units of the last place of a product whose exponents' sum is excess - 2, the least put here.
        let smallest = 1u128 << (2 * digits + 2);
        let last_place_below = smallest >> digits;
        let (mut rounded_up, mut underflowed) = (0, 0);
        for (sa, sb) in pairs {
            for (ea, more) in [1, excess / 2, excess - 3].into_iter().flat_map(|ea| (0..6).map(move |more| (ea, more)))
            {
                let exact = u128::from(sa * sb) << more;
                let a = format.assemble((sa ^ sb) & 1 == 1, ea, sa);
                let b = format.assemble(false, excess - 2 + more - ea, sb);
                let (quiet, outcome) = (format.multiply(a, b, false), format.multiply(a, b, true));
                if 2 * exact < 2 * smallest - last_place_below {
                    assert_eq!((quiet, outcome), (f(0, 0), f(0x8001, UNDERFLOW)));
                    underflowed += 1;
                    continue;
                }
                let Operand::Number { negative, exponent, significand } = format.operand(outcome.value) else {
                    panic!("{outcome:?} is no number");
                };
                assert_eq!((outcome.types, quiet, negative), (0, outcome, (sa ^ sb) & 1 == 1));
                let place = last_place_below << exponent;
                let power_of_two = significand == 1 << (digits - 1);
                assert!(is_nearest(exact, 1, u128::from(significand) * place, place, power_of_two));
                rounded_up += u64::from(exact < smallest);
            }
        }
        (rounded_up, underflowed)
    }

    #[test]
    fn products_about_the_smallest_number() {
        // Every pair of a narrow format with F's exponents and 8 significant bits.
        let narrow = Format { bits: 16, exponent_bits: 8 };
        let pairs = (128..256).flat_map(|sa| (128..256).map(move |sb| (sa, sb)));
        let (rounded_up, underflowed) = products_about_the_smallest(narrow, pairs);
        assert!(rounded_up > 100 && underflowed > 100_000, "{rounded_up} {underflowed}");
        // Of F every 509th significand, each with the significands between which half a place below the smallest
        // number lies, (2^25 - 1) / 2^25 of it, and with those between which that number itself lies.
        let (top, half_way) = (1u64 << 23, ((1u64 << 25) - 1) << 22);
        let pairs = (top..2 * top).step_by(509).flat_map(|sa| {
            let beside = [(half_way - 1) / sa, half_way.div_ceil(sa), ((1 << 47) - 1) / sa, (1u64 << 47).div_ceil(sa)];
            beside.map(|sb| (sa, sb.clamp(top, 2 * top - 1)))
        });
        let (rounded_up, underflowed) = products_about_the_smallest(F, pairs);
        assert!(rounded_up > 10_000 && underflowed > 100_000, "{rounded_up} {underflowed}");
    }

    #[test]
    fn quotients_are_rounded() {
        for exc in [false, true] {
            assert_eq!(F.divide(0x41C0, 0x4140, exc), f(0x4100, 0)); // 6 / 3
            assert_eq!(F.divide(0x4140, 0xC100, exc), f(0xC0C0, 0)); // 3 / -2
            assert_eq!(F.divide(0x4080, 0x4140, exc), f(0xAAAB_3FAA, 0)); // 1 / 3: AAAAAA.AA up
            assert_eq!(F.divide(0x41A0, 0x4140, exc), f(0x5555_40D5, 0)); // 5 / 3: D55555.55 down
            assert_eq!(F.divide(0xC080, 0x4140, exc), f(0xAAAB_BFAA, 0)); // -1 / 3: away from zero
            assert_eq!(F.divide(0xC1A0, 0x4140, exc), f(0x5555_C0D5, 0)); // -5 / 3: towards zero
        }
        // FFFFFE / FFFFFF is just below 1 - 2^-24, which is FFFFFF in units of 2^-24.
        assert_eq!(F.divide(0xFFFE_407F, 0xFFFF_407F, true), f(0xFFFF_407F, 0));
        // FFFFFF / FFFFFE is 1 + 2^-24 and a little more: above the half between 1 and the next number.
        assert_eq!(F.divide(0xFFFF_407F, 0xFFFE_407F, true), f(0x0001_4080, 0));
        // 1 / FFFFFF (as 1 - 2^-24) is 1 + 2^-24 and a little more too; 1 / (1 + 2^-23) is 1 - 2^-23 and a little.
        assert_eq!(F.divide(0x4080, 0xFFFF_407F, true), f(0x0001_4080, 0));
        assert_eq!(F.divide(0x4080, 0x0001_4080, true), f(0xFFFE_407F, 0));
    }

    /// Quotients of a narrow format, by the plain definition: no number of the format is nearer, of two
    /// equally near the greater size is given, and both ends of the range are judged after rounding.
    #[test]
    fn quotients_of_a_narrow_format() {
        // 12 significant bits, exponents 1 to 15: only the fraction's top and low digits are varied.
        let narrow = Format { bits: 16, exponent_bits: 4 };
        let top = 1u64 << narrow.fraction_bits();
        let significands: Vec<u64> = (0..16).chain(top / 2 - 4..top / 2 + 4).chain(top - 16..top).collect();
        let size = |bits: u64| match narrow.operand(bits) {
            Operand::Number { exponent, significand, .. } => u128::from(significand) << exponent,
            _ => panic!("a number"),
        };
        let smallest = u128::from(top) << 1;
        let unit_of_one = 1u128 << (narrow.significant_bits() as i64 + narrow.excess());
        for ea in 1..=15 {
            for eb in 1..=15 {
                for &fa in &significands {
                    for &fb in &significands {
                        let a = narrow.assemble(false, ea, top + fa);
                        let b = narrow.assemble(true, eb, top + fb);
                        // n / d is the size of the quotient in the units of `size`.
                        let (n, d) = (size(a) * unit_of_one, size(b));
                        let outcome = narrow.divide(a, b, true);
                        // More than half a place below the smallest number; no quotient below it is nearer.
                        let underflows = 2 * n < (2 * smallest - 1) * d;
                        assert_eq!(underflows, n < smallest * d);
                        if underflows {
                            assert_eq!(outcome, Outcome { value: 0x8001, types: UNDERFLOW });
                            assert_eq!(narrow.divide(a, b, false), Outcome { value: 0, types: 0 });
                            continue;
                        }
                        if outcome.types != 0 {
                            assert_eq!(outcome, Outcome { value: 0x8008, types: OVERFLOW });
                            // Half a place past the greatest number, or more.
                            let greatest = u128::from(2 * top - 1) << 15;
                            assert!(2 * n >= (2 * greatest + (1 << 15)) * d);
                            continue;
                        }
                        let Operand::Number { negative: true, exponent, significand } = narrow.operand(outcome.value)
                        else {
                            panic!("{outcome:?} is no negative number");
                        };
                        assert!(is_nearest(n, d, size(outcome.value), 1 << exponent, significand == top));
                    }
                }
            }
        }
    }

    #[test]
    fn quotients_at_the_ends_of_the_range() {
        // 2^126 / 2^-1 would be 2^127, whose exponent is 256; over 1 it is 2^126, the greatest power.
        assert_eq!(F.divide(0x7F80, 0x4080, true), f(0x7F80, 0));
        assert_eq!(F.divide(0x7F80, 0x4000, false), f(0x8008, OVERFLOW));
        // The greatest number over 1 stays, and over anything below 1 overflows.
        assert_eq!(F.divide(0xFFFF_7FFF, 0x4080, false), f(0xFFFF_7FFF, 0));
        assert_eq!(F.divide(0xFFFF_7FFF, 0xFFFF_407F, false), f(0x8008, OVERFLOW));
        // The smallest over 1, over 2, and over the number next to 1, which is just below the smallest.
        assert_eq!(F.divide(0x0080, 0x4080, true), f(0x0080, 0));
        for divisor in [0x4100, 0x0001_4080] {
            assert_eq!(F.divide(0x0080, divisor, true), f(0x8001, UNDERFLOW));
            assert_eq!(F.divide(0x0080, divisor, false), f(0, 0));
        }
        // The nearest quotient below the smallest number: FFFFFE / FFFFFF of it.
        assert_eq!(F.divide(0xFFFE_00FF, 0xFFFF_40FF, true), f(0x8001, UNDERFLOW));
        assert_eq!(F.divide(0xFFFF_00FF, 0xFFFF_40FF, true), f(0x0080, 0));
        // The widest apart.
        assert_eq!(F.divide(0xFFFF_7FFF, 0x0080, true), f(0x8008, OVERFLOW));
        assert_eq!(F.divide(0x0080, 0xFFFF_7FFF, true), f(0x8001, UNDERFLOW));
    }

    #[test]
    fn zeros_and_reserved_operands_in_a_division() {
        let (dirty, reserved, one) = (0xFFFF_007F, 0x0012_8034, 0x4080);
        for exc in [false, true] {
            for zero in [0, dirty] {
                assert_eq!(F.divide(reserved, zero, exc), f(0x8006, 6));
                for dividend in [0, dirty, one, 0xC080, 0xFFFF_7FFF, 0x0080] {
                    assert_eq!(F.divide(dividend, zero, exc), f(0x8002, 2));
                }
                assert_eq!(F.divide(zero, one, exc), f(0, 0));
                assert_eq!(F.divide(zero, 0xC080, exc), f(0, 0));
                assert_eq!(F.divide(zero, reserved, exc), f(0x8004, 4));
            }
            assert_eq!(F.divide(reserved, one, exc), f(0x8004, 4));
            assert_eq!(F.divide(one, reserved, exc), f(0x8004, 4));
            assert_eq!(F.divide(reserved, reserved, exc), f(0x8004, 4));
        }
    }

    #[test]
    fn f_to_longword_for_great_exponents() {
        // 2^32 and above: the low 32 bits of the true result.
        assert_eq!(F.to_longword(0x5080, false, true), f(0, INTEGER_OVERFLOW));
        assert_eq!(F.to_longword(0x0001_5080, false, true), f(512, INTEGER_OVERFLOW));
        assert_eq!(F.to_longword(0x0001_D080, false, false), f(0xFFFF_FE00, 0));
        assert_eq!(F.to_longword(0xFFFF_7FFF, true, true), f(0, INTEGER_OVERFLOW));
    }

    /// Here the machine's own binary64 is only a second opinion on the reading.
    #[test]
    fn readings_equal_scaled_whole_numbers() {
        let words = [0x0080, 0x8080, 0x4080, 0xC0C0, 0xFFFF_7FFF, 0xFFFF_FFFF, 0x0001_0080, 0x1234_5678, 0xFEDC_BA98];
        for bits in words {
            let Operand::Number { negative, exponent, significand } = F.operand(bits) else { panic!() };
            let size = significand as f64 * 2f64.powi(exponent as i32 - 128 - 24);
            let value = if negative { -size } else { size };
            assert_eq!(F.binary64(bits), Some(value.to_bits()), "{bits:08X}");
        }
    }
}
