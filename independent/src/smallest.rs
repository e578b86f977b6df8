//! Products of F about the smallest number (document 02, Q-2): where one lies, told by whole numbers and without
//! rounding it, and how many of each sort a comparison met.

use crate::float::{Operand, F};
use std::fmt;

/// Where a product lies that is a little below the smallest number, or a little below half of it.
#[derive(Clone, Copy, PartialEq, Eq, PartialOrd, Ord, Debug)]
pub enum NearSmallest {
    /// Half a place below the smallest number, or less: it rounds up to that number.
    RoundedUp,
    /// Up to a place further below: it rounds to the last place below the smallest number, and underflows.
    StaysBelow,
    /// As `RoundedUp`, of half the smallest number: rounding raises the exponent, and it underflows all the same.
    RoundedUpToHalf,
}

const PLACES: [(NearSmallest, &str); 3] = [
    (NearSmallest::RoundedUp, "rounded up to it"),
    (NearSmallest::StaysBelow, "just below it"),
    (NearSmallest::RoundedUpToHalf, "rounded up to half of it"),
];

/// None if the product lies elsewhere, or an operand is no number.
pub fn near_smallest(a: u32, b: u32) -> Option<NearSmallest> {
    let (Operand::Number { exponent: ea, significand: sa, .. }, Operand::Number { exponent: eb, significand: sb, .. }) =
        (F.operand(a.into()), F.operand(b.into()))
    else {
        return None;
    };
    // The smallest number is 2^25 half places of the numbers below it, were there any. Of the units in which the
    // product is sa * sb, 2^finer are such a half place.
    let finer = 151u32.checked_sub(ea + eb).filter(|finer| (1..38).contains(finer))?;
    let lies = |from: u64, to: u64, finer: u32| (from << finer..to << finer).contains(&(sa * sb));
    let smallest = 1 << 25;
    if lies(smallest - 1, smallest, finer) {
        Some(NearSmallest::RoundedUp)
    } else if lies(smallest - 3, smallest - 1, finer) {
        Some(NearSmallest::StaysBelow)
    } else if lies(smallest - 1, smallest, finer - 1) {
        Some(NearSmallest::RoundedUpToHalf)
    } else {
        None
    }
}

/// How many products of each place, sign and setting of EXC were met.
#[derive(Default)]
pub struct Met {
    counts: [[[u64; 2]; 2]; PLACES.len()],
}

impl Met {
    pub fn count(&mut self, a: u32, b: u32, exc: bool) {
        if let Some(place) = near_smallest(a, b) {
            let negative = (a ^ b) & 0x8000 != 0;
            self.counts[place as usize][usize::from(exc)][usize::from(negative)] += 1;
        }
    }

    /// The least of the counts, over both signs and the settings of EXC given: a comparison without one of them
    /// would show nothing of it.
    pub fn least(&self, settings: &[bool]) -> u64 {
        let of_setting = |exc: bool| self.counts.iter().flat_map(move |place| place[usize::from(exc)]);
        settings.iter().flat_map(|&exc| of_setting(exc)).min().unwrap_or(0)
    }
}

impl fmt::Display for Met {
    fn fmt(&self, f: &mut fmt::Formatter) -> fmt::Result {
        let all = |place: NearSmallest| self.counts[place as usize].iter().flatten().sum::<u64>();
        let named: Vec<String> = PLACES.iter().map(|&(place, name)| format!("{name} {}", all(place))).collect();
        write!(f, "products about the smallest number: {}", named.join(", "))
    }
}
