//! Edge-biased inputs for comparisons: operands, states, marks, instructions, memory, queues with lists, and
//! saved files. Everything is a function of the generator it is handed.

use crate::float::{Operand, F};
use crate::machine::*;
use crate::marks::Marks;
use crate::queue::{steps, Place, Queue, Step};
use crate::random::Random;
use crate::saved::{contents, file_of, FILE_BYTES, RECORDS};

// ------------------------------------------------------------------------------------------ Operands

/// A 24-bit significand with its leading one.
fn significand(random: &mut Random) -> u64 {
    const TOP: u64 = 1 << 23;
    TOP | match random.below(10) {
        0 => 0,
        1 => 1,
        2 => TOP - 1,
        3 => TOP - 2,
        4 => TOP >> 1,
        5 => 1 << random.below(23),
        6 => (1 << random.below(24)) - 1,
        7 => (TOP - 1) & !((1 << random.below(24)) - 1),
        _ => random.below(TOP),
    }
}

fn exponent(random: &mut Random) -> u64 {
    match random.below(6) {
        0 => random.between(1, 4),
        1 => random.between(252, 255),
        2 => random.between(104, 162),
        3 => random.between(126, 131),
        _ => random.between(1, 255),
    }
}

/// Zero, clean or dirty, or a reserved operand.
pub fn exponent_zero(random: &mut Random) -> u32 {
    let fraction = match random.below(4) {
        0 => 0,
        1 => 0xFFFF_007F,
        2 => 1 << random.pick(&[0, 1, 2, 3, 4, 5, 6, 16, 17, 31]),
        _ => random.bits() as u32 & 0xFFFF_007F,
    };
    u32::from(random.flip()) << 15 | fraction
}

fn number(negative: bool, exponent: i64, significand: u64) -> u32 {
    F.assemble(negative, exponent.clamp(1, 255) as u32, significand) as u32
}

pub fn f_operand(random: &mut Random) -> u32 {
    match random.below(16) {
        0 => exponent_zero(random),
        1 => random.bits() as u32,
        _ => number(random.flip(), exponent(random) as i64, significand(random)),
    }
}

/// Two operands that often lie near each other, near a half way case, or near the ends of the range.
pub fn f_pair(random: &mut Random) -> (u32, u32) {
    let (ea, sa) = (exponent(random) as i64, significand(random));
    let a = number(random.flip(), ea, sa);
    let sign = random.flip();
    let (a, b) = match random.below(10) {
        // Exponents close together, or a little more than the width apart: sums and cancellations.
        0 | 1 => (a, number(sign, ea - random.below(28) as i64, significand(random))),
        // The same or a neighbouring size.
        2 => (a, number(sign, ea, ((sa ^ random.below(4)) & 0xFF_FFFF) | 1 << 23)),
        3 => (a, a ^ u32::from(random.flip()) << 15),
        // A product near the smallest and near the greatest number.
        4 => (a, number(sign, 129 - ea + random.between(0, 4) as i64 - 2, significand(random))),
        5 => (a, number(sign, 384 - ea + random.between(0, 4) as i64 - 2, significand(random))),
        // A product whose exact value lies just below a power of two: (2^24 - k) * (2^23 + j), and the
        // exponents of the smallest number as often as not.
        6 => {
            let (k, j) = (random.between(1, 6), random.between(0, 6));
            let ea = if random.flip() { random.between(1, 128) as i64 } else { ea };
            let eb = if random.flip() { 129 - ea } else { exponent(random) as i64 };
            let (x, y) = (number(random.flip(), ea, (1 << 24) - k), number(sign, eb, (1 << 23) + j));
            if random.flip() {
                (x, y)
            } else {
                (y, x)
            }
        }
        // A sum half way between two numbers: b is half of a's last place, or a little off.
        7 => (a, number(sign, ea - 24, random.pick(&[1 << 23, (1 << 23) + 1, (1 << 24) - 1]))),
        8 => (f_operand(random), f_operand(random)),
        _ => (a, f_operand(random)),
    };
    if random.flip() {
        (a, b)
    } else {
        (b, a)
    }
}

/// A factor of a product about the smallest number. With some significands the product can lie exactly half a place
/// below that number: 2^25 - 1 is 31 * 601 * 1801, which two significands can share in three ways.
fn small_factor(random: &mut Random) -> u32 {
    let significand = match random.below(8) {
        0 => random.pick(&[0xF8_0000, 0x84_2108, 0xE1_2000, 0x91_8E00, 0xDA_1700, 0x96_4000]),
        _ => significand(random),
    };
    number(random.flip(), random.between(1, 128) as i64, significand)
}

/// The other factor: next to one with which the product would be the smallest number, half a place below it, or
/// three halves; or the same of half the smallest number.
fn other_small_factor(random: &mut Random, a: u32) -> u32 {
    const TOP: u64 = 1 << 23;
    let Operand::Number { exponent, significand, .. } = F.operand(a.into()) else { panic!("{a:08X} is no number") };
    // With exponents of 129 together the smallest number is 2^47, and a place below it 2^23.
    let product = (1u64 << 47) - random.pick(&[0, 1, 1, 3]) * (1 << 22);
    let reached = product.div_ceil(significand) - random.below(2);
    let together = random.pick(&[129, 129, 129, 128]);
    number(random.flip(), together - i64::from(exponent), reached.clamp(TOP, 2 * TOP - 1))
}

/// Two operands whose product lies about the smallest number, or about half of it.
pub fn f_small_product_pair(random: &mut Random) -> (u32, u32) {
    let a = small_factor(random);
    let b = other_small_factor(random, a);
    if random.flip() {
        (a, b)
    } else {
        (b, a)
    }
}

/// Significands a and b whose quotient lies as near as can be to half way between two numbers (r odd), or
/// to a number (r even): a * 2^places = x * b + r, x having 25 digits, the last of which is the half.
/// With b odd there is one such x below 2^places for every r; None if it does not have 25 digits, or a not 24.
fn near_quotient(b: u64, r: i64, places: u32) -> Option<(u64, u64)> {
    assert!(b % 2 == 1 && (places == 24 || places == 25));
    // The inverse of b modulo 2^64, each turn doubling the digits that are right; b * b is 1 modulo 8.
    let mut inverse = b;
    for _ in 0..5 {
        inverse = inverse.wrapping_mul(2u64.wrapping_sub(b.wrapping_mul(inverse)));
    }
    let below = (r as u64).wrapping_neg().wrapping_mul(inverse) % (1 << places);
    // At 24 places the quotient is 1 or more, and x is 2^24 and what was found; at 25 it is below 1.
    let x = if places == 24 { below + (1 << 24) } else { below };
    let scaled = i128::from(x) * i128::from(b) + i128::from(r);
    assert!(scaled % (1 << places) == 0);
    let a = scaled >> places;
    (x >> 24 == 1 && a >> 23 == 1).then_some((a as u64, b))
}

/// Two operands whose quotient lies near a half way case, near a power of two, near the ends of the range,
/// or is exact; or that are no numbers, on either side or on both.
pub fn f_quotient_pair(random: &mut Random) -> (u32, u32) {
    if random.once_in(8) {
        return match random.below(4) {
            0 => (exponent_zero(random), f_operand(random)),
            1 => (f_operand(random), exponent_zero(random)),
            _ => (exponent_zero(random), exponent_zero(random)),
        };
    }
    const TOP: u64 = 1 << 23;
    let drawn = significand(random);
    let (sa, sb) = match random.below(9) {
        // The same significand, and neighbouring ones: quotients of 1, and just above and below it.
        0 => (drawn, drawn),
        1 => (drawn, (drawn + random.below(9)).saturating_sub(4).clamp(TOP, 2 * TOP - 1)),
        // The greatest over the smallest significands, and the other way: just below 2 and above 1/2.
        2 => (2 * TOP - random.between(1, 6), TOP + random.below(6)),
        3 => (TOP + random.below(6), 2 * TOP - random.between(1, 6)),
        // As near to a half, or to a number, as may be.
        4 | 5 => {
            let r = random.below(17) as i64 - 8;
            near_quotient(drawn | 1, r, random.pick(&[24, 25])).unwrap_or((drawn, significand(random)))
        }
        // An exact quotient: a is b times a number of the digits that b leaves.
        6 => {
            let digits = random.between(1, 23);
            let b = 1 << (digits - 1) | random.below(1 << (digits - 1));
            let a = b * (1 << (23 - digits) | random.below(1 << (23 - digits)));
            (a << (24 - (64 - a.leading_zeros())), b << (24 - digits))
        }
        7 => (drawn, random.between(TOP, 2 * TOP - 1)),
        _ => (drawn, significand(random)),
    };
    // The quotient's exponent is ea - eb + 129, or one less.
    let apart = match random.below(4) {
        0 => Some(random.between(0, 4) as i64 - 2 + 1 - 129),
        1 => Some(random.between(0, 4) as i64 - 2 + 255 - 129),
        _ => None,
    };
    let (ea, eb) = match apart {
        Some(apart) if apart < 0 => {
            let ea = random.between(1, (255 + apart) as u64) as i64;
            (ea, ea - apart)
        }
        Some(apart) => {
            let eb = random.between(1, (255 - apart) as u64) as i64;
            (eb + apart, eb)
        }
        None => (exponent(random) as i64, exponent(random) as i64),
    };
    (number(random.flip(), ea, sa), number(random.flip(), eb, sb))
}

pub fn longword(random: &mut Random) -> u32 {
    match random.below(8) {
        0 => random.pick(&[0, 1, 2, 0x7FFF_FFFF, 0x8000_0000, 0x8000_0001, 0xFFFF_FFFF, 0xFFFF_FFFE]),
        1 => 1u32 << random.below(32),
        2 => ((1u64 << random.below(33)) - 1) as u32,
        3 => (random.bits() as u32) >> random.below(32),
        4 => !((random.bits() as u32) >> random.below(32)),
        // 25 digits with the last one set: half way between two F numbers, of either sign.
        5 => {
            let half_way = (1u32 << 24 | random.below(1 << 24) as u32 | 1) << random.below(7);
            if random.flip() {
                half_way
            } else {
                half_way.wrapping_neg()
            }
        }
        _ => random.bits() as u32,
    }
}

/// F operands whose conversion to a longword is near a half, near a whole number or near the limits.
pub fn f_for_longword(random: &mut Random) -> u32 {
    match random.below(6) {
        0 => number(random.flip(), random.between(126, 162) as i64, significand(random)),
        // A whole number and a half: the digit after the point is the last one set.
        1 => {
            let digits = random.between(1, 23);
            let kept = (1 << 23 | random.below(1 << 23)) >> (23 - digits) << (23 - digits) | 1 << (23 - digits);
            number(random.flip(), 128 + digits as i64, kept)
        }
        2 => number(random.flip(), random.between(157, 163) as i64, significand(random)),
        _ => f_operand(random),
    }
}

// -------------------------------------------------------------------------------------------- States

/// A 64-bit element: a longword or an F operand, with something in the high half.
pub fn element(random: &mut Random) -> u64 {
    let low = match random.below(3) {
        0 => longword(random),
        1 => f_operand(random),
        _ => f_for_longword(random),
    };
    let high = match random.below(3) {
        0 => 0,
        1 => 0xFFFF_FFFF,
        _ => random.bits() >> 32,
    };
    high << 32 | u64::from(low)
}

pub fn mask(random: &mut Random) -> u64 {
    match random.below(6) {
        0 => 0,
        1 => u64::MAX,
        2 => 1 << random.below(64),
        3 => 0xAAAA_AAAA_AAAA_AAAA,
        _ => random.bits(),
    }
}

pub fn length(random: &mut Random) -> u64 {
    match random.below(6) {
        0 => random.pick(&[0, 1, 63, 64]),
        1 => random.between(2, 9),
        _ => random.between(0, 64),
    }
}

/// A state in range. VEN is set, but rarely not.
pub fn state_in_range(random: &mut Random) -> State {
    let mut state = State::zero();
    let sparse = random.once_in(4);
    for register in state.registers.iter_mut() {
        for slot in register.iter_mut() {
            if !sparse || random.once_in(8) {
                *slot = element(random);
            }
        }
    }
    state.vlr = length(random);
    state.vmr = mask(random);
    state.vcr = length(random);
    state.vaer = if random.flip() { 0 } else { random.bits() & VAER_BITS };
    let ven = if random.once_in(16) { 0 } else { VEN };
    let aex = if random.once_in(4) { AEX } else { 0 };
    state.vpsr = ven | aex;
    state
}

/// Puts one control out of range.
pub fn break_range(random: &mut Random, state: &mut State) {
    let outside = |random: &mut Random, bits: u64| 1u64 << random.pick(&places_outside(bits));
    match random.below(4) {
        0 => state.vlr = too_long(random),
        1 => state.vcr = too_long(random),
        2 => state.vaer |= outside(random, VAER_BITS),
        _ => state.vpsr |= outside(random, VPSR_BITS),
    }
    assert!(!state.in_range());
}

fn places_outside(bits: u64) -> Vec<u32> {
    (0..64).filter(|place| bits >> place & 1 == 0).collect()
}

fn too_long(random: &mut Random) -> u64 {
    match random.below(4) {
        0 => 65,
        1 => random.pick(&[66, 127, 128, 256, 1 << 32, 1 << 32 | 64, u64::MAX]),
        2 => random.bits() | 1 << random.between(7, 63),
        _ => random.between(65, 300),
    }
}

/// A state that is out of range once in 32.
pub fn state(random: &mut Random) -> State {
    let mut state = state_in_range(random);
    if random.once_in(32) {
        break_range(random, &mut state);
    }
    state
}

/// Marks to hand in. New ones show as much as can be, and few hide what is added; only others can be lost.
pub fn marks(random: &mut Random) -> Marks {
    let sort = random.below(8);
    let mut marks = Marks::clear();
    for word in marks.words.iter_mut() {
        *word = match sort {
            0..=2 => 0,
            3 => u64::MAX,
            4 => random.bits() & random.bits() & random.bits(),
            5 => mask(random),
            _ => random.bits(),
        };
    }
    marks
}

/// Values for VLR and VCR: about 64, and wide ones, some of which would be in range if they were cut to 8, 16 or 32 bits.
pub fn length_value(random: &mut Random) -> u64 {
    match random.below(4) {
        0 | 1 => random.between(0, 70),
        2 => random.bits() << random.pick(&[8, 16, 32]) | random.between(0, 64),
        _ => random.bits() >> random.below(64),
    }
}

/// A register, element or kind, below a limit; now and then any, some of which would be below it if cut to 8 or 16 bits.
pub fn field_number(random: &mut Random, limit: u64) -> u32 {
    match random.below(48) {
        0 => random.bits() as u32 >> random.below(32),
        1 => (random.bits() as u32) << random.pick(&[8, 16]) | random.below(limit) as u32,
        _ => random.below(limit) as u32,
    }
}

/// VPSR values and mask halves for the control moves.
pub fn control_value(random: &mut Random) -> u32 {
    match random.below(6) {
        0 => random.between(0, 70) as u32,
        1 => random.bits() as u32 & 0x8300_00EF,
        2 => random.bits() as u32 & 0x0000_008F,
        3 => 1 << random.below(32),
        4 => random.pick(&[0, 1, 2, 3, 4, 8, 9]) | random.bits() as u32 & 0x8300_00E0,
        _ => random.bits() as u32,
    }
}

// -------------------------------------------------------------------------------------- Instructions

pub fn accepted_opcodes(memory: bool) -> Vec<u8> {
    (0..=255).filter(|&opcode| work_of(opcode).is_some_and(|work| work.is_memory() == memory)).collect()
}

/// A control word for an opcode. Register numbers come from few registers, so that they often meet;
/// the relation or conversion is accepted unless `reserved` is asked for.
pub fn control_word(random: &mut Random, opcode: u8, reserved: bool) -> u16 {
    let registers = random.pick(&[2, 4, 16]);
    let high = (random.bits() as u16 & 0xF) << 12;
    let mut nibble = || random.below(registers) as u16;
    let (mut va, vb, mut vc) = (nibble(), nibble(), nibble());
    match work_of(opcode) {
        Some(Work::CompareL) if reserved => vc = random.pick(&[3, 7, 11, 15]),
        Some(Work::CompareL) => vc = random.pick(&[0, 1, 2, 4, 5, 6, 8, 9, 10, 12, 13, 14]),
        Some(Work::CompareF) if reserved => vc = random.pick(&[3, 7, 8, 9, 10, 11, 12, 13, 14, 15]),
        Some(Work::CompareF) => vc = random.pick(&[0, 1, 2, 4, 5, 6]),
        Some(Work::Convert) if reserved => va = random.pick(&[0, 2, 3, 6, 7, 8, 9, 10, 11, 12, 13, 14, 15]),
        Some(Work::Convert) => va = random.pick(&[1, 4, 5]),
        Some(Work::Gather { .. }) if reserved => vc = vb,
        Some(Work::Gather { .. }) if vb == vc => vc = (vb + 1) % 16,
        _ => {}
    }
    high | va << 8 | vb << 4 | vc
}

pub fn scalar(random: &mut Random) -> u64 {
    if random.once_in(4) {
        random.below(64)
    } else {
        element(random)
    }
}

/// An instruction for an opcode, whose control word is reserved once in 16 where it can be.
pub fn instruction(random: &mut Random, opcode: u8) -> Instruction {
    let reserved = random.once_in(16);
    Instruction { opcode, control_word: control_word(random, opcode, reserved), scalar: scalar(random) }
}

/// Operands of a division that meet its edges: in Va and Vb, if they are two registers, and for the scalar.
pub fn quotients(random: &mut Random, divide: &mut Instruction, state: &mut State) {
    let decoded = fields(Work::DivideF, divide);
    let put = |slot: &mut u64, low: u32| *slot = *slot >> 32 << 32 | u64::from(low);
    for element in 0..ELEMENTS {
        let (a, b) = f_quotient_pair(random);
        if element == 0 || decoded.va != decoded.vb {
            put(&mut state.registers[decoded.va][element], a);
            put(&mut state.registers[decoded.vb][element], b);
        }
        if element == 0 {
            put(&mut divide.scalar, a);
        }
    }
}

/// Operands of a multiplication with products about the smallest number: in Va and Vb, if they are two registers, or
/// for the scalar and in Vb.
pub fn small_products(random: &mut Random, multiply: &mut Instruction, state: &mut State) {
    let decoded = fields(Work::MultiplyF, multiply);
    let put = |slot: &mut u64, low: u32| *slot = *slot >> 32 << 32 | u64::from(low);
    let mut a = small_factor(random);
    put(&mut multiply.scalar, a);
    for element in 0..ELEMENTS {
        if !decoded.scalar_form {
            a = small_factor(random);
            put(&mut state.registers[decoded.va][element], a);
        }
        if decoded.scalar_form || decoded.va != decoded.vb {
            put(&mut state.registers[decoded.vb][element], other_small_factor(random, a));
        }
    }
}

/// The same for a queue, whose first instruction is made a multiplication.
pub fn small_products_first(random: &mut Random, queue: &mut Queue, state: &mut State) {
    if let (Some(opcode), Some(&control_word), Some(scalar)) =
        (queue.opcodes.first_mut(), queue.control_words.first(), queue.scalars.first_mut())
    {
        let mut multiply = Instruction { opcode: random.pick(&[0xA4, 0xA5]), control_word, scalar: *scalar };
        small_products(random, &mut multiply, state);
        (*opcode, *scalar) = (multiply.opcode, multiply.scalar);
    }
}

// -------------------------------------------------------------------------------------------- Memory

/// Bytes before and after a window that no call may touch.
pub const GUARD: usize = 64;

/// Base, stride and a window that the elements hit as often as not. Vb of the state, for gathers and
/// scatters, is filled with offsets to suit.
pub fn memory(random: &mut Random, decoded: &Decoded, state: &mut State) -> Memory {
    let bytes = match decoded.work {
        Work::Load { bytes } | Work::Gather { bytes } | Work::Store { bytes } | Work::Scatter { bytes } => bytes as u64,
        _ => 4,
    };
    let length = match random.below(8) {
        0 => 0,
        1 => random.between(1, 40),
        2 => 65_536 - random.below(9),
        3 => 65_536 + random.below(3),
        _ => random.between(bytes, 1_200),
    };
    let top = 1u64 << 32;
    let origin = match random.below(8) {
        0 => 0,
        1 => top.saturating_sub(length) / 8 * 8,
        2 => (top - length + 8).min(top) / 8 * 8,
        3 => random.pick(&[4, 1, 1 << 32, 1 << 33, u64::MAX, u64::MAX - 7]),
        _ => random.below(1 << 28) * 8,
    };
    let mut window = vec![0; length as usize];
    window.iter_mut().for_each(|byte| *byte = random.bits() as u8);
    // Strides: small multiples of the size, negative ones, 0, and now and then anything.
    let slot = |random: &mut Random| random.below(length / bytes + 1) * bytes;
    let (mut base, mut stride) = (origin as u32, bytes as u32);
    match random.below(8) {
        0 => stride = 0,
        1 => {
            stride = (bytes as u32).wrapping_neg();
            base = base.wrapping_add((length / bytes).saturating_sub(1) as u32 * bytes as u32);
        }
        2 => stride = random.pick(&[1, 2, 3, 6, 12, 0x8000_0000, 0xFFFF_FFFF]),
        3 => stride = random.bits() as u32,
        4 => stride = bytes as u32 * random.between(2, 5) as u32,
        _ => {}
    }
    if random.once_in(3) {
        base = base.wrapping_add(slot(random) as u32);
    }
    if random.once_in(8) {
        base = base.wrapping_add(random.between(1, 7) as u32);
    }
    if matches!(decoded.work, Work::Gather { .. } | Work::Scatter { .. }) {
        let wanders = random.once_in(3);
        for element in 0..ELEMENTS {
            // An offset from the base to a place in the window, modulo 2^32.
            let mut at = (origin as u32).wrapping_add(random.below((length / bytes).max(1)) as u32 * bytes as u32);
            if wanders && random.once_in(40) {
                at = at.wrapping_add(random.pick(&[1, 2, 4, 0x1_0000, 0xFFFF_FFF8]));
            }
            let high = state.registers[decoded.vb][element] >> 32 << 32;
            state.registers[decoded.vb][element] = high | u64::from(at.wrapping_sub(base));
        }
    }
    Memory { base, stride, window, origin }
}

// ---------------------------------------------------------------------------------- Queues and lists

/// An accepted queue. Few registers, many compares, IOTAs and masked instructions, so that steps meet.
pub fn queue(random: &mut Random) -> Vec<Instruction> {
    let operate = accepted_opcodes(false);
    let length = match random.below(8) {
        0 => random.below(2),
        1 => 16,
        _ => random.between(2, 8),
    };
    // At times a queue of little but IOTAs, compares and merges: bound by VMR and VCR alone. At times one of
    // little but divisions and what writes their operands: bound by Va too.
    let favoured: &[u8] = match random.below(4) {
        0 => &[0xED, 0xC1, 0xEF],
        1 => &[0xED, 0xED, 0x81],
        2 => &[0xAC, 0xAC, 0xAD, 0x85],
        _ => &[0xC0, 0xC1, 0xC4, 0xED, 0xEE, 0xEF, 0x81, 0xA4, 0xAC, 0xAD],
    };
    let often = random.pick(&[2, 3, 6]);
    (0..length)
        .map(|_| {
            let opcode = if !random.once_in(often) { random.pick(favoured) } else { random.pick(&operate) };
            Instruction { opcode, control_word: control_word(random, opcode, false), scalar: scalar(random) }
        })
        .collect()
}

/// An accepted queue of 16 register instructions, none of them an IOTA, so that each has VLR steps.
pub fn full_queue(random: &mut Random) -> Queue {
    let works: Vec<u8> = accepted_opcodes(false).into_iter().filter(|&opcode| opcode != 0xED).collect();
    let instructions: Vec<Instruction> = (0..16)
        .map(|_| {
            let opcode = random.pick(&works);
            Instruction { opcode, control_word: control_word(random, opcode, false), scalar: scalar(random) }
        })
        .collect();
    Queue::of(&instructions)
}

/// A queue as it is handed in: now and then with a memory or reserved opcode, a reserved control word,
/// more than 16 instructions, or parts of unequal length.
pub fn any_queue(random: &mut Random) -> Queue {
    let mut instructions = queue(random);
    if random.once_in(10) && !instructions.is_empty() {
        let at = random.below(instructions.len() as u64) as usize;
        instructions[at] = match random.below(3) {
            0 => {
                let opcode = random.pick(&accepted_opcodes(true));
                instruction(random, opcode)
            }
            1 => {
                let opcode = random.bits() as u8;
                instruction(random, opcode)
            }
            _ => {
                let opcode = random.pick(&[0xC0, 0xC1, 0xC4, 0xC5, 0xEC]);
                Instruction { opcode, control_word: control_word(random, opcode, true), scalar: 0 }
            }
        };
    }
    if random.once_in(40) {
        let extra = Instruction { opcode: random.bits() as u8, control_word: 0, scalar: 0 };
        instructions.resize(17 + random.below(3) as usize, extra);
    }
    let mut queue = Queue::of(&instructions);
    if random.once_in(40) {
        match random.below(4) {
            0 => queue.control_words.push(0),
            1 => queue.scalars.push(0),
            2 => queue.opcodes.push(0x80),
            _ => drop(queue.scalars.pop()),
        }
    }
    queue
}

/// A permitted list: steps in an order drawn at random from those that the bindings allow.
pub fn permitted_order(random: &mut Random, instructions: &[Decoded], vlr: usize) -> Vec<u64> {
    let all = steps(instructions, vlr);
    // A high rank is held back as long as it may be; ranks by element, by position, or by neither.
    let fashion = random.below(4);
    let ranks: Vec<u64> = all
        .iter()
        .map(|step| match fashion {
            0 => random.bits(),
            1 => step.element as u64 * 64 + (16 - step.position as u64),
            2 => 1_000 - step.entry().min(1_000),
            _ => (step.position as u64 % 2) * 64 + random.below(64),
        })
        .collect();
    topological(&all, &bindings(&all), &ranks)
}

/// Pairs (earlier, later) of indices of steps, the later of which must follow the earlier.
fn bindings(all: &[Step]) -> Vec<(usize, usize)> {
    let mut pairs = Vec::new();
    for (later, step) in all.iter().enumerate() {
        for (earlier, other) in all.iter().enumerate() {
            if step.must_follow(other) {
                pairs.push((earlier, later));
            }
        }
    }
    pairs
}

/// The steps in an order that the bindings given allow; of those that may come, the lowest rank first.
fn topological(all: &[Step], bindings: &[(usize, usize)], ranks: &[u64]) -> Vec<u64> {
    let mut waits_for: Vec<usize> = vec![0; all.len()];
    let mut releases: Vec<Vec<usize>> = vec![Vec::new(); all.len()];
    for &(earlier, later) in bindings {
        waits_for[later] += 1;
        releases[earlier].push(later);
    }
    let mut ready: Vec<usize> = (0..all.len()).filter(|&i| waits_for[i] == 0).collect();
    let mut order = Vec::new();
    while !ready.is_empty() {
        let next = (0..ready.len()).min_by_key(|&k| ranks[ready[k]]).expect("some step is ready");
        let i = ready.swap_remove(next);
        order.push(all[i].entry());
        for &j in &releases[i] {
            waits_for[j] -= 1;
            if waits_for[j] == 0 {
                ready.push(j);
            }
        }
    }
    order
}

/// Which places bind two steps: element, mask bit or count, each by write and write, read and write,
/// or write and read. Bits of a small number.
fn kind_of_binding(earlier: &Step, later: &Step) -> u32 {
    let mut kind = 0;
    let ways = [(&earlier.writes, &later.writes), (&earlier.reads, &later.writes), (&earlier.writes, &later.reads)];
    for (way, (some, others)) in ways.into_iter().enumerate() {
        for place in some {
            if others.contains(place) {
                let sort = match place {
                    Place::Element { .. } => 0,
                    Place::MaskBit(_) => 1,
                    Place::Count => 2,
                };
                kind |= 1 << (3 * way + sort);
            }
        }
    }
    kind
}

/// A list that goes against one binding and, where it can be, against no other: a check that lacks
/// that one way of being bound takes the list for a permitted one. None if nothing is bound.
///
/// The kind of binding is drawn before the pair, since some kinds are rare.
pub fn order_against_one_binding(random: &mut Random, instructions: &[Decoded], vlr: usize) -> Option<Vec<u64>> {
    let all = steps(instructions, vlr);
    let pairs = bindings(&all);
    let mut kinds: Vec<u32> = pairs.iter().map(|&(i, j)| kind_of_binding(&all[i], &all[j])).collect();
    let kind_of_pair = kinds.clone();
    kinds.sort();
    kinds.dedup();
    if kinds.is_empty() {
        return None;
    }
    let kind = random.pick(&kinds);
    let of_kind: Vec<(usize, usize)> =
        pairs.iter().zip(&kind_of_pair).filter(|(_, &k)| k == kind).map(|(&pair, _)| pair).collect();
    let broken = random.pick(&of_kind);
    let kept: Vec<(usize, usize)> = pairs.into_iter().filter(|&pair| pair != broken).collect();
    // What the later step waits for comes first, then that step; the earlier one comes as late as it may.
    let mut first = vec![false; all.len()];
    first[broken.1] = true;
    for &(earlier, later) in kept.iter().rev() {
        first[earlier] |= first[later];
    }
    let ranks: Vec<u64> = (0..all.len())
        .map(|i| match i {
            _ if i == broken.0 => u64::MAX,
            _ if first[i] => random.below(1_000),
            _ => 1_000 + random.below(1_000),
        })
        .collect();
    Some(topological(&all, &kept, &ranks))
}

/// A list with one fault or a few: a swap, a repeat, an omission, an entry that is no step, an extra.
/// (A swap may leave the list permitted.)
pub fn damage_order(random: &mut Random, order: &mut Vec<u64>) {
    let at = |random: &mut Random, order: &[u64]| random.below(order.len() as u64) as usize;
    let no_step = |random: &mut Random| match random.below(4) {
        0 => random.below(1_100),
        1 => random.pick(&[1_024, 65_535, 65_536, 1 << 32, 1 << 63, u64::MAX]),
        2 => random.bits(),
        _ => 1 << 32 | random.below(64),
    };
    if order.is_empty() {
        order.push(no_step(random));
        return;
    }
    match random.below(6) {
        0 => {
            let (i, j) = (at(random, order), at(random, order));
            order.swap(i, j);
        }
        1 => {
            let i = at(random, order);
            let next = (i + 1) % order.len();
            order.swap(i, next);
        }
        2 => {
            let (i, j) = (at(random, order), at(random, order));
            order[i] = order[j];
        }
        3 => {
            let i = at(random, order);
            order.remove(i);
        }
        4 => {
            let i = at(random, order);
            order[i] = no_step(random);
        }
        _ => {
            let (i, entry) = (random.below(order.len() as u64 + 1) as usize, no_step(random));
            order.insert(i, entry);
        }
    }
}

// --------------------------------------------------------------------------------------- Saved files

/// A file of a state in range, damaged more often than not: a byte, a filler, a record number, the
/// length, or a control out of range.
pub fn saved_file(random: &mut Random) -> Vec<u8> {
    let mut state = state_in_range(random);
    if random.once_in(4) {
        break_range(random, &mut state);
    }
    let mut file = file_of(&contents(&state));
    for _ in 0..random.below(3) {
        let record = match random.below(3) {
            0 => random.between(1_020, 1_028),
            _ => random.below(RECORDS as u64),
        } as usize;
        let byte = record * 16 + random.below(16) as usize;
        if byte >= file.len() {
            continue;
        }
        match random.below(5) {
            0 => file[byte] ^= 1 << random.below(8),
            1 => file[record * 16 + random.between(2, 7) as usize] = random.bits() as u8,
            2 => file[record * 16 + random.below(2) as usize] ^= 1 << random.below(8),
            3 => file.truncate(byte),
            _ => file.extend(vec![0; random.between(1, 33) as usize]),
        }
        if record * 16 + 16 > file.len() {
            break;
        }
    }
    file
}

/// Room to save into: enough, one byte short, none, or more.
pub fn room(random: &mut Random) -> usize {
    match random.below(6) {
        0 => FILE_BYTES - 1,
        1 => random.below(FILE_BYTES as u64) as usize,
        2 => FILE_BYTES + random.below(40) as usize,
        3 => random.below(40) as usize,
        _ => FILE_BYTES,
    }
}

#[cfg(test)]
mod tests {
    use super::*;
    use crate::queue::{accept, first_bad_entry, run, run_order};
    use crate::saved::load;
    use crate::smallest::{near_smallest, NearSmallest};
    use std::collections::BTreeSet;

    /// What a quotient is near to, by its remainders: each of the edges comes up among few pairs.
    #[test]
    fn quotient_pairs_reach_the_edges() {
        let mut random = Random::new(13);
        let mut found = BTreeSet::new();
        for _ in 0..20_000 {
            let (a, b) = f_quotient_pair(&mut random);
            let (quiet, outcome) = (F.divide(a.into(), b.into(), false), F.divide(a.into(), b.into(), true));
            found.insert(match outcome.types {
                0 => "quiet",
                1 => "underflow",
                2 => "divide by zero",
                4 => "reserved operand",
                6 => "reserved operand over zero",
                8 => "overflow",
                _ => panic!("{outcome:?}"),
            });
            assert_eq!(quiet == outcome, outcome.types != 1);
            match (F.operand(a.into()), F.operand(b.into())) {
                (Operand::Zero, Operand::Zero) => drop(found.insert("zero over zero")),
                (Operand::Zero, Operand::Number { .. }) if a != 0 => drop(found.insert("dirty zero over a number")),
                (Operand::Number { .. }, Operand::Zero) if b != 0 => drop(found.insert("a number over a dirty zero")),
                (Operand::Zero, Operand::Reserved) => drop(found.insert("zero over reserved")),
                (Operand::Number { .. }, Operand::Reserved) => drop(found.insert("a number over reserved")),
                (Operand::Reserved, Operand::Reserved) => drop(found.insert("reserved over reserved")),
                _ => (),
            }
            let (
                Operand::Number { significand: sa, exponent: ea, .. },
                Operand::Number { significand: sb, exponent: eb, .. },
            ) = (F.operand(a.into()), F.operand(b.into()))
            else {
                continue;
            };
            // 25 digits of the quotient, the half last, and what is left.
            let places = if sa < sb { 25 } else { 24 };
            let (digits, rest) = ((sa << places) / sb, (sa << places) % sb);
            assert!(digits >> 24 == 1);
            let exponent = i64::from(ea) - i64::from(eb) + if sa < sb { 128 } else { 129 };
            // With a remainder of 1, or 1 short of b, it cannot be nearer; next to a number it is 2, or 2 short of b.
            found.insert(match (digits % 2, rest, sb - rest) {
                (0, 0, _) => "exact",
                (0, 2, _) => "just above a number",
                (0, _, 1) => "just below a half",
                (0, ..) => "rounded down",
                (_, 1, _) => "just above a half",
                (_, _, 2) => "just below a number",
                _ => "rounded up",
            });
            if digits + 2 >= 1 << 25 {
                found.insert(match exponent {
                    0 => "all ones below the smallest number",
                    255 => "all ones at the greatest exponent",
                    _ => "all ones",
                });
            }
            match exponent {
                0 => drop(found.insert("exponent 0")),
                1 => drop(found.insert("exponent 1")),
                255 => drop(found.insert("exponent 255")),
                256 => drop(found.insert("exponent 256")),
                _ => (),
            }
            if (exponent, digits, rest) == (1, 1 << 24, 0) {
                found.insert("the smallest number");
            }
        }
        assert_eq!(found.len(), 27, "{found:?}");
    }

    /// Each place about the smallest number comes up among few pairs, with either sign, and half way too; and there
    /// the result is the smallest number or underflow, by the place alone.
    #[test]
    fn small_product_pairs_reach_the_edges() {
        let mut random = Random::new(14);
        let mut found = BTreeSet::new();
        for _ in 0..20_000 {
            let (a, b) = f_small_product_pair(&mut random);
            let Some(place) = near_smallest(a, b) else { continue };
            let negative = (a ^ b) & 0x8000 != 0;
            let (quiet, outcome) = (F.multiply(a.into(), b.into(), false), F.multiply(a.into(), b.into(), true));
            let (smallest, underflow) = (if negative { 0x8080 } else { 0x0080 }, 0x8001);
            let expected = if place == NearSmallest::RoundedUp { (smallest, 0, smallest) } else { (underflow, 1, 0) };
            assert_eq!((outcome.value, outcome.types, quiet.value), expected, "{a:08X} {b:08X}");
            assert_eq!(quiet.types, 0);
            let (Operand::Number { significand: sa, .. }, Operand::Number { significand: sb, .. }) =
                (F.operand(a.into()), F.operand(b.into()))
            else {
                panic!("numbers");
            };
            found.insert((place, negative, sa * sb == (1 << 47) - (1 << 22)));
        }
        // Half way rounds up, to the smallest number and to half of it.
        assert_eq!(found.len(), 2 * (3 + 2), "{found:?}");
    }

    #[test]
    fn permitted_orders_end_as_the_straight_run() {
        let mut random = Random::new(7);
        let (mut exceptions, mut shuffled, mut added) = (0, 0, 0);
        for _ in 0..300 {
            let mut state = state_in_range(&mut random);
            state.vpsr |= VEN;
            let queue = Queue::of(&queue(&mut random));
            let instructions = accept(&state, &queue).unwrap();
            let order = permitted_order(&mut random, &instructions, state.vlr as usize);
            // Marks too (document 02, Q-3).
            let marks = marks(&mut random);
            let straight = run(&state, &marks, &queue).unwrap();
            exceptions += usize::from(straight.0.vpsr & VEN == 0);
            shuffled += usize::from(order.windows(2).any(|pair| pair[0] > pair[1]));
            added += usize::from(straight.1 != marks);
            assert_eq!(run_order(&state, &marks, &queue, &order), Ok(straight));
        }
        assert!(exceptions > 50 && shuffled > 100 && added > 100, "{exceptions} {shuffled} {added}");
    }

    /// Each way of being bound that document 01 knows is gone against alone: the list is refused, and
    /// would be permitted if the pair were not bound.
    #[test]
    fn single_bindings_are_gone_against() {
        let mut random = Random::new(12);
        let mut alone = BTreeSet::new();
        for _ in 0..600 {
            let mut state = state_in_range(&mut random);
            state.vpsr |= VEN;
            state.vlr = random.below(9);
            let queue = Queue::of(&queue(&mut random));
            let instructions = accept(&state, &queue).unwrap();
            let vlr = state.vlr as usize;
            let Some(order) = order_against_one_binding(&mut random, &instructions, vlr) else { continue };
            let all = steps(&instructions, vlr);
            assert_eq!(order.len(), all.len());
            let at = |i: usize| order.iter().position(|&entry| entry == all[i].entry()).unwrap();
            let against: Vec<_> = bindings(&all).into_iter().filter(|&(i, j)| at(i) > at(j)).collect();
            if let [(i, j)] = against[..] {
                assert_eq!(first_bad_entry(&all, &order), Some(at(j)));
                alone.insert(kind_of_binding(&all[i], &all[j]));
            }
        }
        // Element, mask bit and count; write and write, read and write, write and read (2^8 would be a
        // read of the count, and 2^5 one before its write: nothing reads it).
        for kind in [1 << 0, 1 << 1, 1 << 2, 1 << 3, 1 << 4, 1 << 6, 1 << 7] {
            assert!(alone.contains(&kind), "no list went against {kind:b} alone: {alone:?}");
        }
    }

    #[test]
    fn damaged_orders_are_mostly_refused_anywhere() {
        let mut random = Random::new(8);
        let mut positions = BTreeSet::new();
        for _ in 0..300 {
            let mut state = state_in_range(&mut random);
            state.vpsr |= VEN;
            let queue = Queue::of(&queue(&mut random));
            let instructions = accept(&state, &queue).unwrap();
            let mut order = permitted_order(&mut random, &instructions, state.vlr as usize);
            damage_order(&mut random, &mut order);
            positions.extend(first_bad_entry(&steps(&instructions, state.vlr as usize), &order));
        }
        assert!(positions.len() > 60, "{}", positions.len());
    }

    /// "An instruction's steps in rising order give that instruction's result."
    #[test]
    fn rising_steps_give_the_instruction() {
        let mut random = Random::new(9);
        for opcode in accepted_opcodes(false) {
            for _ in 0..40 {
                let state = state_in_range(&mut random);
                let word = control_word(&mut random, opcode, false);
                let instruction = Instruction { opcode, control_word: word, scalar: scalar(&mut random) };
                let decoded = fields(work_of(opcode).unwrap(), &instruction);
                let marks = marks(&mut random);
                let (mut whole, mut marks_whole) = (state.clone(), marks);
                let recorded = whole_instruction(&decoded, &mut whole, &mut marks_whole);
                let (mut stepped, mut marks_stepped) = (state.clone(), marks);
                let mut any = false;
                for step_ in steps(&[decoded], state.vlr as usize) {
                    any |= step(&decoded, step_.element, &mut stepped, &mut marks_stepped);
                }
                assert_eq!((whole, marks_whole, recorded), (stepped, marks_stepped, any));
            }
        }
    }

    /// A step changes nothing but what it is said to write, and depends on nothing but what it is said
    /// to touch: whatever else is changed beforehand, it leaves the same there.
    #[test]
    fn steps_touch_only_what_is_said() {
        let mut random = Random::new(10);
        let value = |state: &State, place: Place| match place {
            Place::Element { register, element } => state.registers[register][element],
            Place::MaskBit(i) => state.vmr >> i & 1,
            Place::Count => state.vcr,
        };
        let put = |state: &mut State, place: Place, value: u64| match place {
            Place::Element { register, element } => state.registers[register][element] = value,
            Place::MaskBit(i) => state.vmr = state.vmr & !(1 << i) | value << i,
            Place::Count => state.vcr = value,
        };
        for opcode in accepted_opcodes(false) {
            for _ in 0..20 {
                let mut state = state_in_range(&mut random);
                state.vlr = random.between(1, 64);
                let instruction = Instruction {
                    opcode,
                    control_word: control_word(&mut random, opcode, false),
                    scalar: scalar(&mut random),
                };
                let decoded = fields(work_of(opcode).unwrap(), &instruction);
                let all = steps(&[decoded], state.vlr as usize);
                let one = &all[random.below(all.len() as u64) as usize];
                let (mut after, mut own) = (state.clone(), Marks::clear());
                let recorded = step(&decoded, one.element, &mut after, &mut own);
                // It marks nothing but what it is said to write.
                for (register, element) in own.elements() {
                    assert!(one.writes.contains(&Place::Element { register, element }));
                }
                // Everything not touched is drawn anew.
                let mut other = state_in_range(&mut random);
                (other.vlr, other.vaer, other.vpsr) = (state.vlr, state.vaer, state.vpsr);
                for &place in one.reads.iter().chain(&one.writes) {
                    put(&mut other, place, value(&state, place));
                }
                let mut expected = other.clone();
                for &place in &one.writes {
                    put(&mut expected, place, value(&after, place));
                }
                expected.vaer = after.vaer;
                let mut own_there = Marks::clear();
                let recorded_there = step(&decoded, one.element, &mut other, &mut own_there);
                assert_eq!((other, own_there, recorded_there), (expected, own, recorded));
                // And on its own state nothing else moved.
                let mut back = after.clone();
                one.writes.iter().for_each(|&place| put(&mut back, place, value(&state, place)));
                back.vaer = state.vaer;
                assert_eq!(back, state);
            }
        }
    }

    /// Document 02, Q-3, by its words: "operated elements for operate instructions and loads, none for compare, every
    /// element below VLR for merge, the first VCR for IOTA". `after` is what the instruction left.
    fn written_by(d: &Decoded, before: &State, after: &State) -> Marks {
        let written = |element: usize| match d.work {
            Work::CompareL | Work::CompareF | Work::Store { .. } | Work::Scatter { .. } => false,
            Work::Merge => (element as u64) < before.vlr,
            Work::Iota => (element as u64) < after.vcr,
            _ => (element as u64) < before.vlr && (!d.moe || (before.vmr >> element & 1 == 1) == d.mtf),
        };
        let mut marks = Marks::clear();
        (0..ELEMENTS).filter(|&element| written(element)).for_each(|element| marks.set(d.vc, element));
        marks
    }

    fn both(some: &Marks, others: &Marks) -> Marks {
        let mut marks = *some;
        others.elements().into_iter().for_each(|(register, element)| marks.set(register, element));
        marks
    }

    #[test]
    fn an_instruction_adds_the_marks_that_the_papers_list() {
        let mut random = Random::new(15);
        let mut unchanged = 0;
        for opcode in [accepted_opcodes(false), accepted_opcodes(true)].concat() {
            let (mut done, mut added) = (0, 0);
            for _ in 0..200 {
                let mut state = state_in_range(&mut random);
                state.vpsr |= VEN;
                let word = control_word(&mut random, opcode, false);
                let instruction = Instruction { opcode, control_word: word, scalar: scalar(&mut random) };
                let decoded = fields(work_of(opcode).unwrap(), &instruction);
                let memory = memory(&mut random, &decoded, &mut state);
                let before = marks(&mut random);
                let Ok((after, marks, _)) = execute(&state, &before, &instruction, &memory) else { continue };
                let written = written_by(&decoded, &state, &after);
                assert_eq!(marks, both(&before, &written), "{instruction:X?}");
                // What is not marked did not change.
                let same = |&(r, e): &(usize, usize)| after.registers[r][e] == state.registers[r][e];
                assert!(Marks::all().elements().iter().filter(|&&(r, e)| !written.is_set(r, e)).all(same));
                done += 1;
                added += usize::from(marks != before);
                unchanged += written.elements().iter().filter(|place| same(place)).count();
            }
            assert!(done > 40, "{opcode:02X}: {done}");
            let marks_none = matches!(
                work_of(opcode),
                Some(Work::CompareL | Work::CompareF | Work::Store { .. } | Work::Scatter { .. })
            );
            assert_eq!(added == 0, marks_none, "{opcode:02X}: {added}");
        }
        assert!(unchanged > 1_000, "{unchanged}");
    }

    /// "From new marks, handed on unchanged from call to call, a bit is one exactly when, since the last clear, a file
    /// was loaded or an accepted instruction wrote that element": a log of what was written, kept beside the calls.
    #[test]
    fn marks_are_what_was_written_since_the_last_clear() {
        let mut random = Random::new(16);
        let (mut loads, mut clears, mut refusals) = (0, 0, 0);
        for _ in 0..200 {
            let (mut state, mut marks) = (state(&mut random), Marks::clear());
            let mut log: BTreeSet<(usize, usize)> = BTreeSet::new();
            for _ in 0..20 {
                match random.below(8) {
                    0 => {
                        clears += usize::from(!marks.is_clear());
                        marks = Marks::clear();
                        log.clear();
                    }
                    1 => {
                        if let Ok(after) = load(&saved_file(&mut random)) {
                            (state, marks) = after;
                            log = Marks::all().elements().into_iter().collect();
                            loads += 1;
                        }
                    }
                    2 => {
                        let value = random.pick(&[0x81, 0x81, 1, 0]);
                        state = write_control(&state, Control::Vpsr, value).unwrap_or(state);
                    }
                    3..=5 => {
                        let opcode = random.pick(&[accepted_opcodes(false), accepted_opcodes(true)].concat());
                        let instruction = instruction(&mut random, opcode);
                        let decoded = fields(work_of(opcode).unwrap(), &instruction);
                        let memory = memory(&mut random, &decoded, &mut state);
                        match execute(&state, &marks, &instruction, &memory) {
                            Ok((after, marks_after, _)) => {
                                log.extend(written_by(&decoded, &state, &after).elements());
                                (state, marks) = (after, marks_after);
                            }
                            Err(_) => refusals += 1,
                        }
                    }
                    _ => {
                        let queue = any_queue(&mut random);
                        let Ok(instructions) = accept(&state, &queue) else { continue };
                        let straight = run(&state, &marks, &queue).unwrap();
                        let order = permitted_order(&mut random, &instructions, state.vlr as usize);
                        assert_eq!(run_order(&state, &marks, &queue, &order).as_ref(), Ok(&straight));
                        for decoded in &instructions {
                            let before = state.clone();
                            whole_instruction(decoded, &mut state, &mut Marks::clear());
                            log.extend(written_by(decoded, &before, &state).elements());
                        }
                        (state, marks) = straight;
                    }
                }
                assert_eq!(marks.elements(), log.iter().copied().collect::<Vec<_>>());
            }
        }
        assert!(loads > 100 && clears > 100 && refusals > 100, "{loads} {clears} {refusals}");
    }

    /// The generators reach every number a call can give.
    #[test]
    fn every_number_is_reached() {
        let mut random = Random::new(11);
        let mut numbers = BTreeSet::new();
        for _ in 0..6_000 {
            let mut state = state(&mut random);
            let opcode = random.bits() as u8;
            let instruction = instruction(&mut random, opcode);
            let memory = match work_of(opcode) {
                Some(work) => memory(&mut random, &fields(work, &instruction), &mut state),
                None => Memory::none(),
            };
            let result = execute(&state, &Marks::clear(), &instruction, &memory);
            numbers.insert(result.map_or_else(|refusal| refusal.number, |_| 0));
        }
        assert_eq!(numbers, BTreeSet::from([0, 1, 2, 3, 4, 5, 6, 12]));
        let mut numbers = BTreeSet::new();
        for _ in 0..3_000 {
            let (state, queue) = (state(&mut random), any_queue(&mut random));
            numbers.insert(run(&state, &Marks::clear(), &queue).map_or_else(|refusal| refusal.number, |_| 0));
        }
        assert_eq!(numbers, BTreeSet::from([0, 1, 2, 3, 7, 8, 12]));
    }
}
