//! Document 02's requests. Q-1: divide in F_floating. Q-2: underflow after rounding. Q-3: which elements were
//! written. Each result is worked out by hand.

use independent::machine::*;
use independent::marks::Marks;
use independent::queue::*;
use independent::saved::*;

/// Runs one register instruction.
fn one(state: &State, opcode: u8, control_word: u16, scalar: u64) -> Result<State, Refusal> {
    let instruction = Instruction { opcode, control_word, scalar };
    execute(state, &Marks::clear(), &instruction, &Memory::none()).map(|(state, _, _)| state)
}

/// Runs a queue, straight or by a list, for the state that it leaves.
fn queue_state(state: &State, queue: &Queue) -> Result<State, Refusal> {
    run(state, &Marks::clear(), queue).map(|(state, _)| state)
}

fn list_state(state: &State, queue: &Queue, order: &[u64]) -> Result<State, Refusal> {
    run_order(state, &Marks::clear(), queue, order).map(|(state, _)| state)
}

fn refused(number: u32, beside: u64) -> Refusal {
    Refusal { number, beside }
}

/// The work of an opcode on V1[0] and V2[0] into V3[0], at VLR 1: V3[0], VAER and VPSR afterwards. Only these
/// may change. The scalar form, with V1 holding something else, has to give the same.
fn worked(opcode: u8, a: u64, b: u64, exc: bool) -> (u64, u64, u64) {
    let word = if exc { 0x2123 } else { 0x0123 };
    let mut state = State { vlr: 1, ..State::enabled() };
    (state.registers[1][0], state.registers[2][0]) = (a, b);
    let after = one(&state, opcode, word, 0xC080).unwrap();
    let left = (after.registers[3][0], after.vaer, after.vpsr);
    let mut expected = state.clone();
    (expected.registers[3][0], expected.vaer, expected.vpsr) = left;
    assert_eq!(after, expected);
    state.registers[1][0] = 0xC080;
    let with_scalar = one(&state, opcode | 1, word, a).unwrap();
    assert_eq!((with_scalar.registers[3][0], with_scalar.vaer, with_scalar.vpsr), left);
    left
}

fn divided(a: u64, b: u64, exc: bool) -> (u64, u64, u64) {
    worked(0xAC, a, b, exc)
}

fn multiplied(a: u64, b: u64, exc: bool) -> (u64, u64, u64) {
    worked(0xA4, a, b, exc)
}

/// A result that records nothing: VEN stays.
fn quiet(value: u64) -> (u64, u64, u64) {
    (value, 0, VEN)
}

/// An exception: 8000 and the types, in VAER the types and the bit of V3; VEN cleared, AEX set.
fn exception(types: u64) -> (u64, u64, u64) {
    (0x8000 + types, 0x0008_0000 | types, AEX)
}

const ONE: u64 = 0x4080;
const DIRTY_ZERO: u64 = 0xFFFF_007F;
const RESERVED: u64 = 0x1234_8056;
const SMALLEST: u64 = 0x0080;
const GREATEST: u64 = 0xFFFF_7FFF;

#[test]
fn rounding() {
    for exc in [false, true] {
        // 6 / 3 = 2; 3 / -2 = -1.5; -3 / -2 = 1.5.
        assert_eq!(divided(0x41C0, 0x4140, exc), quiet(0x4100));
        assert_eq!(divided(0x4140, 0xC100, exc), quiet(0xC0C0));
        assert_eq!(divided(0xC140, 0xC100, exc), quiet(0x40C0));
        // 1 / 3 is AAAAAA.AA.. in its last places: up, away from zero for either sign.
        assert_eq!(divided(ONE, 0x4140, exc), quiet(0xAAAB_3FAA));
        assert_eq!(divided(ONE, 0xC140, exc), quiet(0xAAAB_BFAA));
        // 5 / 3 is D55555.55..: down, towards zero for either sign.
        assert_eq!(divided(0x41A0, 0x4140, exc), quiet(0x5555_40D5));
        assert_eq!(divided(0x41A0, 0xC140, exc), quiet(0x5555_C0D5));
        // (2^24 - 2) / (2^24 - 1) lies just below 1 - 2^-24, the number before 1.
        assert_eq!(divided(0xFFFE_407F, 0xFFFF_407F, exc), quiet(0xFFFF_407F));
        // (2^24 - 1) / (2^24 - 2) lies just above the half between 1 and the number after it.
        assert_eq!(divided(0xFFFF_407F, 0xFFFE_407F, exc), quiet(0x0001_4080));
    }
}

#[test]
fn overflow() {
    for exc in [false, true] {
        // The greatest number over 1, then over the number before 1.
        assert_eq!(divided(GREATEST, ONE, exc), quiet(GREATEST));
        assert_eq!(divided(GREATEST, 0xFFFF_407F, exc), exception(8));
        // 2^126 over 1/2 is 2^127, one past the greatest exponent.
        assert_eq!(divided(0x7F80, 0x4000, exc), exception(8));
        assert_eq!(divided(GREATEST, SMALLEST, exc), exception(8));
    }
}

#[test]
fn underflow() {
    assert_eq!(divided(SMALLEST, ONE, true), quiet(SMALLEST));
    // Half of the smallest number; the smallest over the number after 1; the greatest quotient below the
    // smallest number, (2^24 - 2) / (2^24 - 1) of it; the widest apart.
    let pairs = [(SMALLEST, 0x4100), (SMALLEST, 0x0001_4080), (0xFFFE_00FF, 0xFFFF_40FF), (SMALLEST, GREATEST)];
    for (a, b) in pairs {
        assert_eq!(divided(a, b, true), exception(1));
        assert_eq!(divided(a, b, false), quiet(0));
    }
}

#[test]
fn division_by_zero() {
    for exc in [false, true] {
        for zero in [0, DIRTY_ZERO] {
            for dividend in [ONE, 0xC080, GREATEST, SMALLEST, 0, DIRTY_ZERO] {
                assert_eq!(divided(dividend, zero, exc), exception(2));
            }
            assert_eq!(divided(RESERVED, zero, exc), exception(6));
            assert_eq!(divided(0x8000, zero, exc), exception(6));
        }
    }
}

#[test]
fn reserved_operands() {
    for exc in [false, true] {
        for other in [ONE, 0xC080, RESERVED, 0x8000] {
            assert_eq!(divided(RESERVED, other, exc), exception(4));
            assert_eq!(divided(other, RESERVED, exc), exception(4));
        }
        // A zero dividend does not hide a reserved divisor.
        assert_eq!(divided(0, RESERVED, exc), exception(4));
        assert_eq!(divided(DIRTY_ZERO, 0x8000, exc), exception(4));
    }
}

#[test]
fn a_zero_over_a_number() {
    for exc in [false, true] {
        for zero in [0, DIRTY_ZERO] {
            for divisor in [ONE, 0xC080, GREATEST, SMALLEST] {
                assert_eq!(divided(zero, divisor, exc), quiet(0));
            }
        }
    }
}

#[test]
fn the_scalar_is_divided_by_vb() {
    let mut state = State { vlr: 3, ..State::enabled() };
    // Bits <63:32> of the scalar and of Vb play no part, and those of Vc stay.
    state.registers[1] = [0x41C0; 64];
    state.registers[2][..4].copy_from_slice(&[0x4100, 0xFFFF_FFFF_0000_4140, 0xC080, 0x4080]);
    state.registers[4] = [0x1111_1111_2222_2222; 64];
    // 3 over 2, 3, -1.
    let after = one(&state, 0xAD, 0x0124, 0x8000_8000_0000_4140).unwrap();
    let mut expected = state.clone();
    expected.registers[4][..3].copy_from_slice(&[0x1111_1111_0000_40C0, 0x1111_1111_0000_4080, 0x1111_1111_0000_C140]);
    assert_eq!(after, expected);
}

#[test]
fn an_exception_among_elements() {
    // V5 = 2, 1, reserved, 0 over 1, 0, 0, 2: the other elements are done, and VAER gathers types 2 and 4.
    let mut state = State { vlr: 4, vaer: 0x0001_0001, ..State::enabled() };
    state.registers[1][..4].copy_from_slice(&[0x4100, ONE, 0x8000, 0]);
    state.registers[2][..4].copy_from_slice(&[ONE, 0, 0, 0x4100]);
    state.registers[5] = [0x7777_7777_7777_7777; 64];
    let after = one(&state, 0xAC, 0x0125, 0).unwrap();
    let mut expected = State { vaer: 0x0021_0007, vpsr: AEX, ..state.clone() };
    for (element, low) in [0x4100, 0x8002, 0x8006, 0].into_iter().enumerate() {
        expected.registers[5][element] = 0x7777_7777_0000_0000 | low;
    }
    assert_eq!(after, expected);
    assert_eq!(one(&after, 0xAC, 0x0125, 0), Err(refused(3, 0)));
    // Masked off, the zero divisors record nothing.
    let masked = State { vmr: 0b1001, ..state };
    let after = one(&masked, 0xAC, 0xC125, 0).unwrap();
    assert_eq!((after.registers[5][0], after.registers[5][3]), (0x7777_7777_0000_4100, 0x7777_7777_0000_0000));
    assert_eq!((after.registers[5][1], after.registers[5][2]), (masked.registers[5][1], masked.registers[5][2]));
    assert_eq!((after.vaer, after.vpsr), (0x0001_0001, VEN));
    // The quotient may go where an operand stood: V1 = V1 / V1, V2 = V1 / V2.
    let mut state = State { vlr: 1, ..State::enabled() };
    (state.registers[1][0], state.registers[2][0]) = (0x4140, 0x4100);
    assert_eq!(one(&state, 0xAC, 0x0111, 0).unwrap().registers[1][0], ONE);
    assert_eq!(one(&state, 0xAC, 0x0122, 0).unwrap().registers[2][0], 0x40C0);
}

#[test]
fn opcode_table() {
    assert_eq!((0..=255).filter(|&opcode| work_of(opcode).is_some()).count(), 40);
    assert_eq!((work_of(0xAC), work_of(0xAD)), (Some(Work::DivideF), Some(Work::DivideF)));
    // The chapter's other divides, of G and of D, stay reserved.
    for opcode in [0xAA, 0xAB, 0xAE, 0xAF] {
        assert_eq!(work_of(opcode), None);
        assert_eq!(one(&State::enabled(), opcode, 0, 0), Err(refused(1, 0)));
    }
    // Every control word is taken.
    for word in 0..=65_535 {
        assert!(one(&State::enabled(), 0xAC, word, 0).is_ok());
    }
    // The refusals of every operate opcode: 12, then 3.
    assert_eq!(one(&State { vlr: 65, ..State::enabled() }, 0xAC, 0, 0), Err(refused(12, 0)));
    assert_eq!(one(&State::zero(), 0xAD, 0, 0), Err(refused(3, 0)));
}

#[test]
fn queues_with_division() {
    // V3 = V1 / V2, then V1 = 1 / V3, at VLR 2.
    let queue = Queue::of(&[
        Instruction { opcode: 0xAC, control_word: 0x2123, scalar: 0 },
        Instruction { opcode: 0xAD, control_word: 0x2031, scalar: ONE },
    ]);
    let mut state = State { vlr: 2, ..State::enabled() };
    state.registers[1][..2].copy_from_slice(&[0x4140, 0x4100]); // 3, 2
    state.registers[2][..2].copy_from_slice(&[0x41C0, 0x4080]); // 6, 1
    let after = queue_state(&state, &queue).unwrap();
    let mut expected = state.clone();
    expected.registers[3][..2].copy_from_slice(&[0x4000, 0x4100]); // 1/2, 2
    expected.registers[1][..2].copy_from_slice(&[0x4100, 0x4000]); // 2, 1/2
    assert_eq!(after, expected);
    // By a list: the second reads V3 and writes V1, which the first reads.
    assert_eq!(list_state(&state, &queue, &[0, 64, 1, 65]), Ok(expected.clone()));
    assert_eq!(list_state(&state, &queue, &[1, 0, 65, 64]), Ok(expected));
    assert_eq!(list_state(&state, &queue, &[0, 65, 1, 64]), Err(refused(9, 1)));
    // The vector form reads Va, the scalar form does not: V1 = 1 / V2 beside V3 = V1 / V4, or V3 = 1 / V4.
    let first = Instruction { opcode: 0xAD, control_word: 0x2021, scalar: ONE };
    let second = |opcode| Instruction { opcode, control_word: 0x2143, scalar: ONE };
    let state = State { vlr: 1, ..state };
    assert_eq!(list_state(&state, &Queue::of(&[first, second(0xAC)]), &[64, 0]), Err(refused(9, 0)));
    assert!(list_state(&state, &Queue::of(&[first, second(0xAD)]), &[64, 0]).is_ok());
    // VEN is cleared at the end of the queue: after V3 = V1 / V4, by zero, V5 = V1 / V2 is still done.
    let by_zero = Instruction { opcode: 0xAC, control_word: 0x0143, scalar: 0 };
    let half = Instruction { opcode: 0xAC, control_word: 0x0125, scalar: 0 };
    let after = queue_state(&state, &Queue::of(&[by_zero, half])).unwrap();
    assert_eq!((after.registers[3][0], after.registers[5][0]), (0x8002, 0x4000));
    assert_eq!((after.vaer, after.vpsr), (0x0008_0002, AEX));
}

/// The units are those in which the smallest number is 2^47: the product of two last places, the exponents
/// being 129 together.
#[test]
fn products_rounded_up_to_the_smallest_number() {
    const MINUS: u64 = 0x8000;
    for exc in [false, true] {
        // Document 02's example: FFFFFE times 800001 is 2^47 - 2.
        assert_eq!(multiplied(0xFFFE_407F, 0x0001_0080, exc), quiet(0x0080));
        assert_eq!(multiplied(0x0001_0080, 0xFFFE_407F, exc), quiet(0x0080));
        assert_eq!(multiplied(0xFFFE_C07F, 0x0001_0080, exc), quiet(0x8080));
        assert_eq!(multiplied(0xFFFE_407F, 0x0001_8080, exc), quiet(0x8080));
        assert_eq!(multiplied(0xFFFE_C07F, 0x0001_8080, exc), quiet(0x0080));
        // F80000 times 842108 is 2^47 - 2^22, half a place below: away from zero.
        assert_eq!(multiplied(0x4078, 0x2108_0084, exc), quiet(0x0080));
        assert_eq!(multiplied(0x4078, 0x2108_8084, exc), quiet(0x8080));
        // The smallest number itself, of exact factors: 1 times it, and 2^-64 times itself.
        assert_eq!(multiplied(ONE, SMALLEST, exc), quiet(SMALLEST));
        assert_eq!(multiplied(0x2080, 0x2080, exc), quiet(SMALLEST));
    }
    let below = [
        // EDF87B times 89B29A is 2^47 - 2^22 - 2, next to half way.
        (0xF87B_406D, 0xB29A_0089),
        // FFFFFF times 800000 is 2^47 - 2^23, the last place below the smallest number.
        (0xFFFF_407F, SMALLEST),
        // Half of document 02's example rounds up to half of the smallest number.
        (0xFFFE_3FFF, 0x0001_0080),
        // Document 01's example 6, and the smallest number squared.
        (SMALLEST, 0x4000),
        (SMALLEST, SMALLEST),
    ];
    for (a, b) in below {
        for (a, b) in [(a, b), (b, a), (a | MINUS, b)] {
            assert_eq!(multiplied(a, b, true), exception(1));
            assert_eq!(multiplied(a, b, false), quiet(0));
        }
    }
}

/// Sums and differences that small are exact, so that nothing rounds up to the smallest number.
#[test]
fn small_sums_are_exact() {
    // Each is a whole number of the smallest number's places, of which that has 800000: the last below it is
    // FFFFFF less 800000, and the least is one.
    for (a, b) in [(0xFFFF_00FF, SMALLEST), (0x0001_0080, SMALLEST)] {
        for exc in [false, true] {
            let expected = if exc { exception(1) } else { quiet(0) };
            assert_eq!(worked(0x8C, a, b, exc), expected);
            assert_eq!(worked(0x8C, b, a, exc), expected);
            assert_eq!(worked(0x84, a, 0x8000 | b, exc), expected);
        }
    }
    assert_eq!(worked(0x8C, 0x0100, SMALLEST, true), quiet(SMALLEST));
}

/// VAER gathers underflow only from elements that, rounded, stay below the smallest number.
#[test]
fn underflow_among_elements() {
    let mut state = State { vlr: 3, ..State::enabled() };
    state.registers[1][..3].copy_from_slice(&[0xFFFE_407F, 0xFFFE_C07F, 0xFFFF_407F]);
    state.registers[2][..3].copy_from_slice(&[0x0001_0080, 0x0001_0080, SMALLEST]);
    state.registers[5] = [0x7777_7777_7777_7777; 64];
    let mut expected = State { vaer: 0x0020_0001, vpsr: AEX, ..state.clone() };
    for (element, low) in [0x0080, 0x8080, 0x8001].into_iter().enumerate() {
        expected.registers[5][element] = 0x7777_7777_0000_0000 | low;
    }
    assert_eq!(one(&state, 0xA4, 0x2125, 0), Ok(expected));
    // At VLR 2 nothing is recorded.
    let state = State { vlr: 2, ..state };
    let after = one(&state, 0xA4, 0x2125, 0).unwrap();
    assert_eq!((after.registers[5][0] as u32, after.registers[5][1] as u32), (0x0080, 0x8080));
    assert_eq!((after.vaer, after.vpsr), (0, VEN));
}

// A call that is refused gives no marks back: those handed in are still the caller's. Control moves take none.

/// Marks of which only the words named are not zero.
fn marks_of(words: &[(usize, u64)]) -> Marks {
    let mut marks = Marks::clear();
    words.iter().for_each(|&(register, word)| marks.words[register] = word);
    marks
}

/// Something in every register, so that a bit lost or added anywhere is seen.
fn some_marks() -> Marks {
    let mut marks = Marks::clear();
    for (register, word) in marks.words.iter_mut().enumerate() {
        *word = 0x8000_0000_0000_0100 << (register % 3);
    }
    marks
}

/// What an instruction adds to clear marks; to others it has to add the same and lose none.
fn added_with(state: &State, opcode: u8, control_word: u16, scalar: u64, memory: &Memory) -> Marks {
    let instruction = Instruction { opcode, control_word, scalar };
    let (_, own, _) = execute(state, &Marks::clear(), &instruction, memory).unwrap();
    let (_, all, _) = execute(state, &Marks::all(), &instruction, memory).unwrap();
    assert_eq!(all, Marks::all());
    let (_, some, _) = execute(state, &some_marks(), &instruction, memory).unwrap();
    for register in 0..REGISTERS {
        assert_eq!(some.words[register], some_marks().words[register] | own.words[register]);
    }
    own
}

fn added(state: &State, opcode: u8, control_word: u16) -> Marks {
    added_with(state, opcode, control_word, 0x4080, &Memory::none())
}

const NONE: &[(usize, u64)] = &[];
/// In the control word.
const MOE: u16 = 0x8000;
const MTF: u16 = 0x4000;
const EXC: u16 = 0x2000;

/// Every operate opcode with a register for destination, but merge and IOTA.
const OPERATE: [u8; 25] = [
    0x80, 0x81, 0x84, 0x85, 0x88, 0x89, 0x8C, 0x8D, 0xA0, 0xA1, 0xA4, 0xA5, 0xAC, 0xAD, 0xC8, 0xC9, 0xCC, 0xCD, 0xE0,
    0xE1, 0xE4, 0xE5, 0xE8, 0xE9, 0xEC,
];

#[test]
fn new_marks_and_clearing() {
    assert_eq!(Marks::clear().words, [0; 16]);
    assert_eq!(Marks::all().words, [u64::MAX; 16]);
    assert_eq!(marks_of(&[(2, 0b101), (15, 1 << 63)]).elements(), [(2, 0), (2, 2), (15, 63)]);
    // Marks that are cleared between two instructions hold what the second wrote, and no more.
    let state = State { vlr: 2, ..State::enabled() };
    let add = |vc: u16| Instruction { opcode: 0x80, control_word: 0x0120 | vc, scalar: 0 };
    let (state, marks, _) = execute(&state, &Marks::clear(), &add(3), &Memory::none()).unwrap();
    assert_eq!(marks, marks_of(&[(3, 0b11)]));
    let (after, kept, _) = execute(&state, &marks, &add(4), &Memory::none()).unwrap();
    assert_eq!(kept, marks_of(&[(3, 0b11), (4, 0b11)]));
    let (after_cleared, cleared, _) = execute(&state, &Marks::clear(), &add(4), &Memory::none()).unwrap();
    assert_eq!((after_cleared, cleared), (after, marks_of(&[(4, 0b11)])));
}

#[test]
fn operated_elements_are_marked() {
    let mut state = State { vlr: 5, vmr: 0xFFFF_FFFF_FFFF_FFF6, ..State::enabled() };
    // 1 in every element, as F_floating: nothing overflows, and no divisor is zero.
    state.registers = [[ONE; 64]; 16];
    for opcode in OPERATE {
        // V3 = V1 op V2; in the place of Va 1 is also a conversion, L to F.
        assert_eq!(added(&state, opcode, 0x0123), marks_of(&[(3, 0b11111)]), "{opcode:02X}");
        assert_eq!(added(&state, opcode, MTF | 0x0123), marks_of(&[(3, 0b11111)]), "{opcode:02X}");
        // Masked: VMR<4:0> is 10110, and only elements below VLR count.
        assert_eq!(added(&state, opcode, MOE | MTF | 0x0123), marks_of(&[(3, 0b10110)]), "{opcode:02X}");
        assert_eq!(added(&state, opcode, MOE | 0x0123), marks_of(&[(3, 0b01001)]), "{opcode:02X}");
        // The first and the last register; a source that is the destination.
        assert_eq!(added(&state, opcode, 0x0120), marks_of(&[(0, 0b11111)]), "{opcode:02X}");
        assert_eq!(added(&state, opcode, MOE | MTF | 0x01FF), marks_of(&[(15, 0b10110)]), "{opcode:02X}");
        for (vlr, word) in [(0, 0), (1, 1), (63, u64::MAX >> 1), (64, u64::MAX)] {
            let state = State { vlr, ..state.clone() };
            assert_eq!(added(&state, opcode, 0x0123), marks_of(&[(3, word)]), "{opcode:02X}");
        }
        // All masked off.
        let state = State { vlr: 64, vmr: 0, ..state.clone() };
        assert_eq!(added(&state, opcode, MOE | MTF | 0x0123), marks_of(NONE), "{opcode:02X}");
    }
}

#[test]
fn contents_that_do_not_change_are_written() {
    // V1 = V1 or V1; V3 = V3 + 0; V0 = V0 merged with V0.
    let mut state = State { vlr: 3, ..State::enabled() };
    (state.registers[1], state.registers[3]) = ([7; 64], [9; 64]);
    for (opcode, word, vc) in [(0xC8, 0x0111, 1), (0x80, 0x0233, 3), (0xEE, 0x0000, 0)] {
        assert_eq!(one(&state, opcode, word, 0), Ok(state.clone()));
        assert_eq!(added(&state, opcode, word), marks_of(&[(vc, 0b111)]));
    }
    // IOTA by a stride of 0 into zeros, and a load of what is there.
    let iota = added_with(&state, 0xED, 0x0002, 0, &Memory::none());
    assert_eq!((one(&state, 0xED, 0x0002, 0).unwrap().registers, iota), (state.registers, marks_of(&[(2, 0b111)])));
    let zeros = Memory { base: 0, stride: 4, window: vec![0; 12], origin: 0 };
    assert_eq!(added_with(&state, 0x34, 0x0002, 0, &zeros), marks_of(&[(2, 0b111)]));
}

#[test]
fn merge_marks_every_element_below_vlr() {
    let state = State { vlr: 6, vmr: 0x5555_5555_5555_5515, ..State::enabled() };
    for opcode in [0xEE, 0xEF] {
        for flags in [0, MOE, MTF, MOE | MTF] {
            assert_eq!(added(&state, opcode, flags | 0x0124), marks_of(&[(4, 0b111111)]), "{opcode:02X} {flags:04X}");
            for (vlr, word) in [(0, 0), (1, 1), (64, u64::MAX)] {
                let state = State { vlr, ..state.clone() };
                assert_eq!(added(&state, opcode, flags | 0x0124), marks_of(&[(4, word)]));
            }
        }
    }
}

#[test]
fn iota_marks_the_first_vcr() {
    // Document 01's example 10: VCR is 3 with MTF 1, and 1 with MTF 0; MOE is ignored. VCR as it was plays no part.
    for vcr in [0, 2, 64] {
        let state = State { vlr: 4, vmr: 0xB, vcr, ..State::enabled() };
        for flags in [0, MOE, EXC] {
            assert_eq!(added(&state, 0xED, flags | MTF | 6), marks_of(&[(6, 0b111)]));
            assert_eq!(added(&state, 0xED, flags | 6), marks_of(&[(6, 0b1)]));
        }
    }
    // VLR, VMR, and the elements marked with MTF 1 and with MTF 0.
    let cases = [
        (0, u64::MAX, 0, 0),
        (0, 0, 0, 0),
        (64, u64::MAX, u64::MAX, 0),
        (64, 0, 0, u64::MAX),
        (63, u64::MAX, u64::MAX >> 1, 0),
        // One match, at the last element: it goes to the first.
        (64, 1 << 63, 1, u64::MAX >> 1),
        // Two matches below VLR, and others past it.
        (8, 0xFF84, 0b11, 0b111111),
    ];
    for (vlr, vmr, with_1, with_0) in cases {
        let state = State { vlr, vmr, vcr: 5, ..State::enabled() };
        assert_eq!(added(&state, 0xED, MTF | 9), marks_of(&[(9, with_1)]));
        assert_eq!(added(&state, 0xED, 9), marks_of(&[(9, with_0)]));
    }
}

#[test]
fn compare_marks_nothing() {
    let mut state = State { vlr: 64, vmr: 0xF0, ..State::enabled() };
    (state.registers[1], state.registers[2]) = ([ONE; 64], [0x4100; 64]);
    for opcode in [0xC0, 0xC1, 0xC4, 0xC5] {
        // The relation is no register, for longwords with bit <3> either.
        for relation in [0, 1, 2, 4, 5, 6, 8, 14] {
            if relation < 8 || opcode < 0xC4 {
                for flags in [0, MOE, MOE | MTF] {
                    assert_eq!(added(&state, opcode, flags | 0x0120 | relation), marks_of(NONE));
                }
            }
        }
    }
    // It records a reserved operand, and marks nothing all the same.
    state.registers[2][7] = RESERVED;
    assert_eq!(one(&state, 0xC4, 0x0120, 0).unwrap().vaer, 4);
    assert_eq!(added(&state, 0xC4, 0x0120), marks_of(NONE));
}

#[test]
fn loads_mark_and_stores_do_not() {
    let mut state = State { vlr: 5, vmr: 0b0110, ..State::enabled() };
    // Offsets of quadwords, the same one twice.
    state.registers[2][..5].copy_from_slice(&[8, 0, 32, 0, 16]);
    let memory = Memory { base: 64, stride: 8, window: vec![0x5A; 40], origin: 64 };
    for opcode in [0x34, 0x36, 0x35, 0x37] {
        let flag = |flags: u16| added_with(&state, opcode, flags | 0x0027, 0, &memory);
        assert_eq!(flag(0), marks_of(&[(7, 0b11111)]), "{opcode:02X}");
        assert_eq!(flag(EXC), marks_of(&[(7, 0b11111)]), "{opcode:02X}");
        assert_eq!(flag(MOE | MTF), marks_of(&[(7, 0b00110)]), "{opcode:02X}");
        assert_eq!(flag(MOE), marks_of(&[(7, 0b11001)]), "{opcode:02X}");
        let none = State { vlr: 0, ..state.clone() };
        assert_eq!(added_with(&none, opcode, 0x0027, 0, &memory), marks_of(NONE), "{opcode:02X}");
    }
    for opcode in [0x9C, 0x9E, 0x9D, 0x9F] {
        for flags in [0, MOE, MOE | MTF] {
            assert_eq!(added_with(&state, opcode, flags | 0x0027, 0, &memory), marks_of(NONE), "{opcode:02X}");
        }
    }
    // An element that is masked off is not looked at: its offset is misaligned, and the rest is loaded.
    state.registers[2][3] = 1;
    assert_eq!(added_with(&state, 0x35, MOE | MTF | 0x0027, 0, &memory), marks_of(&[(7, 0b00110)]));
}

#[test]
fn an_exceptions_result_is_written() {
    let mut state = State { vlr: 3, vmr: 0b100, ..State::enabled() };
    // V1 = 1, reserved, the greatest; V2 = 2, 1, the same.
    state.registers[1][..3].copy_from_slice(&[ONE, RESERVED, GREATEST]);
    state.registers[2][..3].copy_from_slice(&[0x4100, ONE, GREATEST]);
    state.registers[4][..3].copy_from_slice(&[0x7FFF_FFFF, 1, 0x7FFF_FFFF]);
    let cases = [
        // Opcode, control word, VAER. V1 + V2: 8004 and 8008. V1 / V6, which is zero: 8002 and 8006. V4 + V4: longword
        // overflow. V1 rounded to longwords: a reserved source writes zero.
        (0x84, 0x0125, 0x0020_000C),
        (0xAC, 0x0165, 0x0020_0006),
        (0x80, EXC | 0x0445, 0x0020_0020),
        (0xEC, 0x0515, 0x0020_0004),
    ];
    for (opcode, word, vaer) in cases {
        let after = one(&state, opcode, word, 0).unwrap();
        assert_eq!((after.vaer, after.vpsr), (vaer, AEX), "{opcode:02X}");
        assert_eq!(added(&state, opcode, word), marks_of(&[(5, 0b111)]), "{opcode:02X}");
    }
    // The greatest plus itself alone, the rest masked off.
    assert_eq!(one(&state, 0x84, MOE | MTF | 0x0125, 0).unwrap().vaer, 0x0020_0008);
    assert_eq!(added(&state, 0x84, MOE | MTF | 0x0125), marks_of(&[(5, 0b100)]));
    // What it left is disabled: a second instruction gets 3, and adds no mark.
    let add = Instruction { opcode: 0x84, control_word: 0x0125, scalar: 0 };
    let (after, marks, _) = execute(&state, &some_marks(), &add, &Memory::none()).unwrap();
    assert_eq!(execute(&after, &marks, &add, &Memory::none()), Err(refused(3, 0)));
}

#[test]
fn a_refused_call_changes_no_mark() {
    let (marks, state) = (some_marks(), State { vlr: 4, ..State::enabled() });
    let at = |state: &State, opcode, control_word, memory: &Memory| {
        execute(state, &marks, &Instruction { opcode, control_word, scalar: 0 }, memory).map(|(_, marks, _)| marks)
    };
    let none = Memory::none();
    assert_eq!(at(&State { vcr: 65, ..state.clone() }, 0x80, 0x0123, &none), Err(refused(12, 0)));
    assert_eq!(at(&state, 0x82, 0x0123, &none), Err(refused(1, 0)));
    assert_eq!(at(&State { vpsr: 0, ..state.clone() }, 0x80, 0x0123, &none), Err(refused(3, 0)));
    assert_eq!(at(&state, 0xEC, 0x0023, &none), Err(refused(2, 0)));
    assert_eq!(at(&state, 0x34, 0x0003, &Memory { origin: 4, ..none.clone() }), Err(refused(4, 0)));
    // Elements 0 and 1 could be loaded; 2 is misaligned, or lies outside.
    let mut gathers = state.clone();
    gathers.registers[2][..4].copy_from_slice(&[0, 4, 6, 8]);
    let window = Memory { base: 0, stride: 4, window: vec![0; 8], origin: 0 };
    assert_eq!(at(&gathers, 0x35, 0x0023, &window), Err(refused(5, 2)));
    assert_eq!(at(&state, 0x34, 0x0003, &window), Err(refused(6, 2)));
    // A queue and a list: the instruction at position 0 is as good as any, and so are steps 0 and 1.
    let add = Instruction { opcode: 0x80, control_word: 0x0123, scalar: 0 };
    let with = |opcode, control_word| Queue::of(&[add, Instruction { opcode, control_word, scalar: 0 }]);
    let long = Queue::of(&[add; 17]);
    let cases = [
        (with(0x82, 0), refused(1, 1)),
        (with(0x34, 0), refused(7, 1)),
        (with(0xC0, 3), refused(2, 1)),
        (long, refused(8, 0)),
    ];
    for (queue, refusal) in cases {
        assert_eq!(run(&state, &marks, &queue), Err(refusal));
        assert_eq!(run_order(&state, &marks, &queue, &[0, 1]), Err(refusal));
    }
    let good = Queue::of(&[add]);
    assert_eq!(run(&State { vlr: 99, ..state.clone() }, &marks, &good), Err(refused(12, 0)));
    assert_eq!(run_order(&State { vpsr: AEX, ..state.clone() }, &marks, &good, &[]), Err(refused(3, 0)));
    assert_eq!(run_order(&state, &marks, &good, &[0, 1, 1, 2, 3]), Err(refused(9, 2)));
    assert_eq!(run_order(&state, &marks, &good, &[0, 1, 2]), Err(refused(9, 3)));
}

#[test]
fn a_file_sets_all_marks_and_holds_none() {
    let mut state = State { vlr: 3, vmr: 5, ..State::enabled() };
    state.registers[9][9] = 9;
    let file = save(&state, FILE_BYTES).unwrap();
    // A state that was written in is saved as it stands: of the marks nothing is in the file.
    assert_eq!(load(&file), Ok((state.clone(), Marks::all())));
    assert_eq!(file, file_of(&contents(&state)));
    assert_eq!(load(&file[..FILE_BYTES - 1]), Err(refused(10, 1_028)));
    assert_eq!(load(&[file, vec![0]].concat()), Err(refused(10, 1_029)));
    // Nothing can be added to them, until they are cleared.
    let add = Instruction { opcode: 0x80, control_word: 0x0123, scalar: 0 };
    let (_, marks, _) = execute(&state, &Marks::all(), &add, &Memory::none()).unwrap();
    assert_eq!(marks, Marks::all());
}

/// Straight, and by each list: the same marks, with others kept.
fn run_each_way(state: &State, queue: &Queue, lists: &[&[u64]]) -> Marks {
    let (_, own) = run(state, &Marks::clear(), queue).unwrap();
    for marks in [Marks::clear(), some_marks(), Marks::all()] {
        let straight = run(state, &marks, queue).unwrap();
        for register in 0..REGISTERS {
            assert_eq!(straight.1.words[register], marks.words[register] | own.words[register]);
        }
        for list in lists {
            assert_eq!(run_order(state, &marks, queue, list).as_ref(), Ok(&straight));
        }
    }
    own
}

#[test]
fn queues_and_lists_leave_the_same_marks() {
    let at = |opcode, control_word, scalar| Instruction { opcode, control_word, scalar };
    // Document 01's example 12: V3 = V1 + V2, V1 = V4 + V5.
    let state = State { vlr: 2, ..State::enabled() };
    let queue = Queue::of(&[at(0x80, 0x0123, 0), at(0x80, 0x0451, 0)]);
    let lists: [&[u64]; 3] = [&[0, 1, 64, 65], &[0, 64, 1, 65], &[1, 0, 65, 64]];
    assert_eq!(run_each_way(&state, &queue, &lists), marks_of(&[(1, 0b11), (3, 0b11)]));
    // An empty queue adds none.
    assert_eq!(run_each_way(&state, &Queue::default(), &[&[]]), marks_of(NONE));
    // At VLR 0 only an IOTA has a step, and it writes no element.
    let empty = State { vlr: 0, vmr: u64::MAX, ..state.clone() };
    let iotas = Queue::of(&[at(0x80, 0x0123, 0), at(0xED, 0x4004, 1)]);
    assert_eq!(run_each_way(&empty, &iotas, &[&[64]]), marks_of(NONE));

    // V1 = 5, 9, VMR 10: masked, V3 = V1 + V1 marks element 1 alone. Then the mask becomes V1 < 7, which is 01; masked,
    // V4 = V1 + V1 marks element 0 alone. Where 128 comes before 65, mask bit 1 is still the old one at that time.
    let mut state = State { vlr: 2, vmr: 0b10, vcr: 9, ..State::enabled() };
    state.registers[1][..2].copy_from_slice(&[5, 9]);
    state.registers[2] = [7; 64];
    let masked = |vc| at(0x80, MOE | MTF | 0x0110 | vc, 0);
    let compare = at(0xC0, 0x0122, 0);
    let queue = Queue::of(&[masked(3), compare, masked(4)]);
    let lists: [&[u64]; 3] = [&[0, 1, 64, 65, 128, 129], &[0, 64, 128, 1, 65, 129], &[1, 65, 129, 0, 64, 128]];
    assert_eq!(run_each_way(&state, &queue, &lists), marks_of(&[(3, 0b10), (4, 0b01)]));
    // An IOTA after the compare has a count of 1, and a merge marks both elements whatever the mask is.
    let queue = Queue::of(&[compare, at(0xED, MTF | 5, 1), at(0xEE, MOE | MTF | 0x0126, 0)]);
    let lists: [&[u64]; 3] = [&[0, 1, 64, 128, 129], &[1, 129, 0, 128, 64], &[0, 128, 1, 64, 129]];
    assert_eq!(run_each_way(&state, &queue, &lists), marks_of(&[(5, 0b1), (6, 0b11)]));
    // One register written by two instructions, under the mask and under its opposite.
    let queue = Queue::of(&[masked(3), at(0x80, MOE | 0x0113, 0)]);
    let lists: [&[u64]; 2] = [&[0, 1, 64, 65], &[1, 65, 0, 64]];
    assert_eq!(run_each_way(&state, &queue, &lists), marks_of(&[(3, 0b11)]));
    // An exception at element 1: V7 = 1 / V8, of which V8[0] is 1 and V8[1] zero.
    state.registers[8][0] = ONE;
    let queue = Queue::of(&[at(0xAD, 0x0087, ONE), at(0x80, 0x0129, 0)]);
    let lists: [&[u64]; 2] = [&[65, 64, 1, 0], &[0, 64, 1, 65]];
    assert_eq!(run_each_way(&state, &queue, &lists), marks_of(&[(7, 0b11), (9, 0b11)]));
    assert_eq!(queue_state(&state, &queue).unwrap().vaer, 0x0080_0002);
}
