//! Document 01's settled examples, its "Also run", and each refusal in its place.

use independent::float::F;
use independent::machine::*;
use independent::marks::Marks;
use independent::queue::*;
use independent::saved::*;
use independent::text;

// The calls that take marks, without them: marks are document 02's, and tried there.

fn execute(state: &State, instruction: &Instruction, memory: &Memory) -> Result<(State, Vec<u8>), Refusal> {
    let done = independent::machine::execute(state, &Marks::clear(), instruction, memory);
    done.map(|(state, _, window)| (state, window))
}

fn run(state: &State, queue: &Queue) -> Result<State, Refusal> {
    independent::queue::run(state, &Marks::clear(), queue).map(|(state, _)| state)
}

fn run_order(state: &State, queue: &Queue, order: &[u64]) -> Result<State, Refusal> {
    independent::queue::run_order(state, &Marks::clear(), queue, order).map(|(state, _)| state)
}

fn load(file: &[u8]) -> Result<State, Refusal> {
    independent::saved::load(file).map(|(state, _)| state)
}

/// Runs one register instruction.
fn one(state: &State, opcode: u8, control_word: u16, scalar: u64) -> Result<State, Refusal> {
    let instruction = Instruction { opcode, control_word, scalar };
    execute(state, &instruction, &Memory::none()).map(|(state, _)| state)
}

fn refused(number: u32, beside: u64) -> Refusal {
    Refusal { number, beside }
}

/// V1[0] and V2[0] hold the operands, V3 the result; EXC as said, VLR 1.
fn two_operands(opcode: u8, a: u64, b: u64, exc: bool) -> (u64, u64, u64) {
    let mut state = State { vlr: 1, ..State::enabled() };
    state.registers[1][0] = a;
    state.registers[2][0] = b;
    let after = one(&state, opcode, if exc { 0x2123 } else { 0x0123 }, 0).unwrap();
    (after.registers[3][0], after.vaer, after.vpsr)
}

/// V2[0] converted into V3[0].
fn converted(conversion: u16, b: u64, exc: bool) -> (u64, u64, u64) {
    let mut state = State { vlr: 1, ..State::enabled() };
    state.registers[2][0] = b;
    let after = one(&state, 0xEC, u16::from(exc) << 13 | conversion << 8 | 0x23, 0).unwrap();
    (after.registers[3][0], after.vaer, after.vpsr)
}

#[test]
fn example_1() {
    let mut state = State { vlr: 2, ..State::enabled() };
    state.registers[2][0] = 0x7FFF_FFFF;
    state.registers[2][1] = 4;
    state.registers[5] = [9; 64];
    let after = one(&state, 0x81, 0x2025, 1).unwrap();
    let mut expected = state.clone();
    expected.registers[5][0] = 0x8000_0000;
    expected.registers[5][1] = 5;
    expected.vaer = 0x0020_0020;
    expected.vpsr = 0x80;
    assert_eq!(after, expected);
    assert_eq!(one(&after, 0x81, 0x2025, 1), Err(refused(3, 0)));
}

#[test]
fn examples_2_and_3() {
    assert_eq!(two_operands(0xA0, 0x8000_0000, 0xFFFF_FFFF, true), (0x8000_0000, 0x0008_0020, 0x80));
    assert_eq!(two_operands(0x88, 0, 0x8000_0000, true), (0x8000_0000, 0x0008_0020, 0x80));
    assert_eq!(two_operands(0xA0, 0x8000_0000, 0xFFFF_FFFF, false), (0x8000_0000, 0, 1));
}

#[test]
fn examples_4_to_6() {
    assert_eq!(two_operands(0x84, 0x4080, 0x4080, true), (0x4100, 0, 1));
    assert_eq!(two_operands(0x84, 0xFFFF_7FFF, 0xFFFF_7FFF, true), (0x8008, 0x0008_0008, 0x80));
    assert_eq!(two_operands(0xA4, 0x0080, 0x4000, false), (0, 0, 1));
    assert_eq!(two_operands(0xA4, 0x0080, 0x4000, true), (0x8001, 0x0008_0001, 0x80));
}

#[test]
fn examples_7_to_9() {
    assert_eq!(converted(1, 16_777_217, true), (0x0001_4C80, 0, 1));
    assert_eq!(converted(5, 0x4120, true), (3, 0, 1));
    assert_eq!(converted(4, 0x4120, true), (2, 0, 1));
    assert_eq!(converted(4, 0xC120, true), (0xFFFF_FFFE, 0, 1));
    for conversion in [4, 5] {
        assert_eq!(converted(conversion, 0x5000, true), (0x8000_0000, 0x0008_0020, 0x80));
        assert_eq!(converted(conversion, 0xD000, true), (0x8000_0000, 0, 1));
        assert_eq!(converted(conversion, 0x8004, true), (0, 0x0008_0004, 0x80));
        assert_eq!(converted(conversion, 0x8004, false), (0, 0x0008_0004, 0x80));
    }
}

#[test]
fn example_10() {
    let mut state = State { vlr: 4, vmr: 0xB, ..State::enabled() };
    state.registers[6] = [0xABCD_0000_0000_0007; 64];
    let after = one(&state, 0xED, 0x6006, 8).unwrap();
    let mut expected = State { vcr: 3, ..state.clone() };
    for (next, offset) in [0, 8, 24].into_iter().enumerate() {
        expected.registers[6][next] = 0xABCD_0000_0000_0000 + offset;
    }
    assert_eq!(after, expected);
    let after = one(&state, 0xED, 0x2006, 8).unwrap();
    let mut expected = State { vcr: 1, ..state.clone() };
    expected.registers[6][0] = 0xABCD_0000_0000_0010;
    assert_eq!(after, expected);
}

#[test]
fn example_11() {
    let state = State { vlr: 2, ..State::enabled() };
    let load = Instruction { opcode: 0x34, control_word: 0x0001, scalar: 0 };
    let decoded = fields(work_of(0x34).unwrap(), &load);
    let memory = Memory { base: 0xFFFF_FFFC, stride: 4, window: vec![7; 16], origin: 0 };
    assert_eq!(address(&decoded, &state, &memory, 1), 0);
    // Element 0 lies outside a window at 0; with it masked off, element 1 is loaded from 0.
    assert_eq!(execute(&state, &load, &memory), Err(refused(6, 0)));
    let masked = Instruction { control_word: 0xC001, ..load };
    let (after, window) = execute(&State { vmr: 2, ..state }, &masked, &memory).unwrap();
    assert_eq!((after.registers[1][0], after.registers[1][1]), (0, 0x0707_0707));
    assert_eq!(window, memory.window);
}

#[test]
fn example_12() {
    let mut state = State { vlr: 2, ..State::enabled() };
    (state.registers[1][0], state.registers[1][1]) = (1, 2);
    (state.registers[4][0], state.registers[4][1]) = (3, 4);
    let queue = Queue { opcodes: vec![0x80, 0x80], control_words: vec![0x2123, 0x2451], scalars: vec![0, 0] };
    let after = run_order(&state, &queue, &[0, 64, 1, 65]).unwrap();
    assert_eq!(after.registers[3][..2], [1, 2]);
    assert_eq!(after.registers[1][..2], [3, 4]);
    assert_eq!(run(&state, &queue), Ok(after));
    assert_eq!(run_order(&state, &queue, &[64, 0, 1, 65]), Err(refused(9, 0)));
    assert_eq!(run_order(&state, &queue, &[0, 65, 1, 64]), Err(refused(9, 1)));
    assert_eq!(run_order(&state, &queue, &[0, 1, 0, 64]), Err(refused(9, 2)));
    assert_eq!(run_order(&state, &queue, &[0, 1, 2]), Err(refused(9, 2)));
    assert_eq!(run_order(&state, &queue, &[0, 1, 65]), Err(refused(9, 3)));
    assert_eq!(run_order(&state, &queue, &[0, 1, 64, 65, u64::MAX]), Err(refused(9, 4)));
}

#[test]
fn vlr_0_1_64() {
    for vlr in [0, 1, 64] {
        let mut state = State { vlr, ..State::enabled() };
        state.registers[2] = [5; 64];
        let after = one(&state, 0x81, 0x2023, 1).unwrap();
        for element in 0..64 {
            assert_eq!(after.registers[3][element], if (element as u64) < vlr { 6 } else { 0 });
        }
        let after = one(&state, 0xED, 0x0003, 3).unwrap();
        assert_eq!((after.vcr, after.registers[3][63]), (vlr, if vlr == 64 { 189 } else { 0 }));
    }
}

#[test]
fn write_of_65() {
    for control in [Control::Vlr, Control::Vcr] {
        for value in [65, 256, 1 << 32, (1 << 32) + 1, u64::MAX] {
            assert_eq!(write_control(&State::enabled(), control, value), Err(refused(11, 0)));
        }
        assert_eq!(write_control(&State::zero(), control, 65), Err(refused(3, 0)));
        let after = write_control(&State::enabled(), control, 64).unwrap();
        assert_eq!(read_control(&after, control), Ok(64));
    }
}

#[test]
fn empty_window_and_window_end() {
    let state = State { vlr: 1, ..State::enabled() };
    let go = |state: &State, opcode, base, stride, window: usize, origin| {
        let memory = Memory { base, stride, window: vec![0; window], origin };
        let instruction = Instruction { opcode, control_word: 1, scalar: 0 };
        execute(state, &instruction, &memory).map(|(_, window)| window)
    };
    assert_eq!(go(&state, 0x9C, 0, 4, 0, 0), Err(refused(6, 0)));
    let empty = State { vlr: 0, ..State::enabled() };
    assert_eq!(go(&empty, 0x9C, 0, 4, 0, 0), Ok(vec![]));
    assert_eq!(go(&empty, 0x9C, 0, 4, 0, 4), Err(refused(4, 0)));
    for origin in [0, 64] {
        let end = origin as u32 + 16;
        assert_eq!(go(&state, 0x34, end - 3, 4, 16, origin), Err(refused(5, 0)));
        assert!(go(&state, 0x34, end - 4, 4, 16, origin).is_ok());
        assert_eq!(go(&state, 0x36, end - 4, 4, 16, origin), Err(refused(5, 0)));
        // One byte short: aligned, and outside.
        assert_eq!(go(&state, 0x34, end - 4, 4, 15, origin), Err(refused(6, 0)));
        assert_eq!(go(&state, 0x34, end, 4, 16, origin), Err(refused(6, 0)));
    }
    // The window itself.
    assert!(go(&empty, 0x34, 0, 4, 65_536, (1 << 32) - 65_536).is_ok());
    assert_eq!(go(&empty, 0x34, 0, 4, 65_537, 0), Err(refused(4, 0)));
    assert_eq!(go(&empty, 0x34, 0, 4, 9, (1 << 32) - 8), Err(refused(4, 0)));
    assert!(go(&empty, 0x34, 0, 4, 0, 1 << 32).is_ok());
    assert_eq!(go(&state, 0x34, 0, 4, 0, 1 << 32), Err(refused(6, 0)));
    assert_eq!(go(&empty, 0x34, 0, 4, 0, u64::MAX - 7), Err(refused(4, 0)));
    // The lowest bad element, over both tests: 3 lies outside, 5 would be misaligned.
    let mut state = State { vlr: 64, ..State::enabled() };
    for element in 0..64 {
        state.registers[2][element] = if element == 5 { 1 } else { 4 * element as u64 };
    }
    let gather = Instruction { opcode: 0x35, control_word: 0x0021, scalar: 0 };
    let memory = Memory { base: 0, stride: 0, window: vec![0; 12], origin: 0 };
    assert_eq!(execute(&state, &gather, &memory), Err(refused(6, 3)));
    let memory = Memory { window: vec![0; 32], ..memory };
    assert_eq!(execute(&state, &gather, &memory), Err(refused(5, 5)));
}

#[test]
fn stride_0() {
    let mut state = State { vlr: 64, ..State::enabled() };
    for element in 0..64 {
        state.registers[1][element] = 0x0101_0101_0101_0101 * element as u64;
    }
    let memory = Memory { base: 8, stride: 0, window: vec![0xAA; 24], origin: 0 };
    for (opcode, bytes) in [(0x9C, 4), (0x9E, 8)] {
        let store = Instruction { opcode, control_word: 1, scalar: 0 };
        let (after, window) = execute(&state, &store, &memory).unwrap();
        // The highest wins, and nothing else is written.
        let mut expected = memory.window.clone();
        expected[8..8 + bytes].fill(63);
        assert_eq!((after, window), (state.clone(), expected));
    }
    let load = Instruction { opcode: 0x36, control_word: 2, scalar: 0 };
    let (after, _) = execute(&state, &load, &memory).unwrap();
    assert_eq!(after.registers[2], [0xAAAA_AAAA_AAAA_AAAA; 64]);
}

#[test]
fn opcode_table() {
    let accepted: Vec<u8> = (0..=255).filter(|&opcode| work_of(opcode).is_some()).collect();
    // Document 01's 38, and document 02's two of divide.
    assert_eq!(accepted.len(), 40);
    for opcode in accepted {
        let work = work_of(opcode).unwrap();
        let operate = (0x80..=0x8F).contains(&opcode) || opcode >= 0xA0;
        assert_eq!(operate, !work.is_memory());
        let decoded = fields(work, &Instruction { opcode, control_word: 0, scalar: 0 });
        assert_eq!(decoded.scalar_form, operate && opcode % 2 == 1);
        let offsets = matches!(work, Work::Gather { .. } | Work::Scatter { .. });
        assert_eq!(offsets, !operate && opcode % 2 == 1);
    }
}

#[test]
fn high_halves() {
    let mut state = State { vlr: 1, ..State::enabled() };
    state.registers[1][0] = 0x1111_1111_0000_0002;
    state.registers[2][0] = 0x2222_2222_8000_0001;
    state.registers[3][0] = 0x3333_3333_4444_4444;
    let result =
        |opcode, control_word| one(&state, opcode, control_word, 0x5555_5555_0000_0003).unwrap().registers[3][0];
    assert_eq!(result(0x80, 0x0123), 0x3333_3333_8000_0003);
    assert_eq!(result(0xC8, 0x0123), 0x2222_2222_8000_0003);
    assert_eq!(result(0xE9, 0x0123), 0x2222_2222_8000_0002);
    assert_eq!(result(0xCC, 0x0123), 0x2222_2222_8000_0001);
    assert_eq!(result(0xE0, 0x0123), 0x3333_3333_2000_0000);
    assert_eq!(result(0xE5, 0x0123), 0x3333_3333_0000_0008);
    // VMR<0> is 0: with MTF 1 merge takes Vb, with MTF 0 all 64 bits of the scalar.
    assert_eq!(result(0xEF, 0x4123), 0x2222_2222_8000_0001);
    assert_eq!(result(0xEF, 0x0123), 0x5555_5555_0000_0003);
}

#[test]
fn compares() {
    let mut state = State { vlr: 3, vmr: 0xF0, ..State::enabled() };
    state.registers[1][..3].copy_from_slice(&[0xFFFF_FFFF, 5, 7]);
    state.registers[2][..3].copy_from_slice(&[5, 5, 5]);
    for (relation, mask) in [(0, 4), (1, 2), (2, 1), (4, 3), (5, 5), (6, 6)] {
        assert_eq!(one(&state, 0xC0, 0x0120 | relation, 0).unwrap().vmr, 0xF0 | mask);
        assert_eq!(one(&state, 0xC0, 0x0128 | relation, 0).unwrap().vmr, 0xF0 | mask);
        assert_eq!(one(&state, 0xC4, 0x0128 | relation, 0), Err(refused(2, 0)));
    }
    for relation in [3, 7, 11, 15] {
        assert_eq!(one(&state, 0xC0, 0x0120 | relation, 0), Err(refused(2, 0)));
        assert_eq!(one(&state, 0xC5, 0x0120 | relation, 0), Err(refused(2, 0)));
    }
    // A reserved operand clears its bit, for "not equal" too, and records bit 2 alone.
    state.vmr = 7;
    state.registers[1][1] = 0x8000;
    state.registers[2][..3].copy_from_slice(&[0x4080, 0x4080, 0x4080]);
    let after = one(&state, 0xC4, 0x0125, 0).unwrap();
    assert_eq!((after.vmr, after.vaer, after.vpsr), (5, 4, 0x80));
}

#[test]
fn orders_of_refusal() {
    let bad = State { vlr: 65, vpsr: 0, ..State::zero() };
    assert_eq!(one(&bad, 0x00, 0, 0), Err(refused(12, 0)));
    assert_eq!(one(&State::zero(), 0x31, 0, 0), Err(refused(1, 0)));
    assert_eq!(one(&State::zero(), 0xC0, 3, 0), Err(refused(3, 0)));
    let queue = |opcodes: &[u8], words: &[u16]| Queue {
        opcodes: opcodes.to_vec(),
        control_words: words.to_vec(),
        scalars: vec![0; opcodes.len()],
    };
    assert_eq!(run(&bad, &queue(&[0; 17], &[0; 3])), Err(refused(12, 0)));
    assert_eq!(run(&State::zero(), &queue(&[0; 17], &[0; 17])), Err(refused(8, 0)));
    assert_eq!(run(&State::zero(), &queue(&[0; 2], &[0; 3])), Err(refused(8, 0)));
    assert_eq!(run(&State::zero(), &queue(&[0; 16], &[0; 16])), Err(refused(3, 0)));
    assert_eq!(run(&State::zero(), &queue(&[], &[])), Err(refused(3, 0)));
    let enabled = State::enabled();
    assert_eq!(run(&enabled, &queue(&[0x80, 0x35, 0x00], &[0, 0, 0])), Err(refused(7, 1)));
    assert_eq!(run(&enabled, &queue(&[0x80, 0xC0, 0x00], &[0, 3, 0])), Err(refused(2, 1)));
    assert_eq!(run(&enabled, &queue(&[0x80, 0x82, 0x35], &[0, 0, 0])), Err(refused(1, 1)));
    assert_eq!(run(&enabled, &queue(&[], &[])), Ok(enabled.clone()));
    assert_eq!(run_order(&enabled, &queue(&[], &[]), &[]), Ok(enabled.clone()));
    assert_eq!(run_order(&enabled, &queue(&[], &[]), &[0]), Err(refused(9, 0)));
    assert_eq!(run_order(&enabled, &queue(&[0x00], &[0]), &[5]), Err(refused(1, 0)));
    // At VLR 0 only an IOTA has a step, and two of them are bound by VCR.
    assert_eq!(run_order(&enabled, &queue(&[0x80], &[0]), &[]), Ok(enabled.clone()));
    assert_eq!(run_order(&enabled, &queue(&[0xED, 0xED], &[0, 1]), &[0, 64]), Ok(enabled.clone()));
    assert_eq!(run_order(&enabled, &queue(&[0xED, 0xED], &[0, 1]), &[64, 0]), Err(refused(9, 0)));
    assert_eq!(run_order(&enabled, &queue(&[0xED], &[0]), &[]), Err(refused(9, 0)));
    assert_eq!(run_order(&enabled, &queue(&[0xED], &[0]), &[1]), Err(refused(9, 0)));
}

#[test]
fn a_queue_is_disabled_at_its_end() {
    let mut state = State { vlr: 1, vaer: 1, vpsr: VEN | AEX, ..State::zero() };
    state.registers[1][0] = 0x7FFF_FFFF;
    let queue = Queue { opcodes: vec![0x81, 0x81], control_words: vec![0x2012, 0x2013], scalars: vec![1, 2] };
    let after = run(&state, &queue).unwrap();
    assert_eq!((after.registers[2][0], after.registers[3][0]), (0x8000_0000, 0x8000_0001));
    assert_eq!((after.vaer, after.vpsr), (0x000C_0021, AEX));
    assert_eq!(run(&after, &queue), Err(refused(3, 0)));
    // AEX and VAER set already, nothing recorded in this run: VEN stays.
    let quiet = Queue { scalars: vec![0, 0], ..queue };
    assert_eq!(run(&state, &quiet).unwrap().vpsr, VEN | AEX);
}

#[test]
fn vpsr_writes() {
    let state = State { vaer: 0x0001_0001, vpsr: AEX, ..State::zero() };
    let write = |value| write_control(&state, Control::Vpsr, value).map(|after| (after.vaer, after.vpsr));
    for low in 0..16 {
        let expected = match low {
            0 | 4 | 8 => Ok((0x0001_0001, AEX)),
            1 | 9 => Ok((0x0001_0001, AEX | VEN)),
            2 => Ok((0, 0)),
            3 => Ok((0, VEN)),
            _ => Err(refused(11, 0)),
        };
        assert_eq!(write(low), expected);
    }
    assert_eq!(write(0x81), Ok((0, VEN)));
    assert_eq!(write(0x80), Ok((0, 0)));
    for place in 0..32 {
        let refuses = place == 4 || (8..=23).contains(&place) || (26..=30).contains(&place);
        assert_eq!(write(1 << place) == Err(refused(11, 0)), refuses, "bit {place}");
    }
    assert_eq!(write(0x8300_0064), Ok((0x0001_0001, AEX)));
    let bad = State { vcr: 65, ..state.clone() };
    assert_eq!(write_control(&bad, Control::Vpsr, 3), Err(refused(12, 0)));
    assert_eq!(read_control(&state, Control::Vaer), Ok(0x0001_0001));
    assert_eq!(read_control(&state, Control::Vpsr), Ok(AEX));
    assert_eq!(read_control(&state, Control::Vlr), Err(refused(3, 0)));
}

#[test]
fn mask_halves() {
    let state = State { vmr: 0x1111_2222_3333_4444, ..State::enabled() };
    assert_eq!(read_control(&state, Control::VmrLow), Ok(0x3333_4444));
    assert_eq!(read_control(&state, Control::VmrHigh), Ok(0x1111_2222));
    assert_eq!(write_control(&state, Control::VmrLow, 5).unwrap().vmr, 0x1111_2222_0000_0005);
    assert_eq!(write_control(&state, Control::VmrHigh, 5).unwrap().vmr, 0x0000_0005_3333_4444);
}

#[test]
fn saved_files() {
    let mut state = State { vlr: 4, vmr: u64::MAX, vcr: 64, vaer: VAER_BITS, vpsr: AEX, ..State::zero() };
    state.registers[15][63] = 0x0123_4567_89AB_CDEF;
    let file = save(&state, FILE_BYTES + 5).unwrap();
    assert_eq!((file.len(), load(&file)), (FILE_BYTES, Ok(state.clone())));
    assert_eq!(file[1_023 * 16..1_024 * 16], [0xFF, 3, 0, 0, 0, 0, 0, 0, 0xEF, 0xCD, 0xAB, 0x89, 0x67, 0x45, 0x23, 1]);
    assert_eq!(save(&state, FILE_BYTES - 1), Err(refused(10, 1_028)));
    assert_eq!(save(&state, 0), Err(refused(10, 0)));
    assert_eq!(save(&State { vaer: 16, ..state.clone() }, 0), Err(refused(12, 0)));
    for length in [0, 15, 16, 17, 16_448, 16_463] {
        assert_eq!(load(&file[..length]), Err(refused(10, length as u64 / 16)));
    }
    let mut long = file.clone();
    long.push(0);
    assert_eq!(load(&long), Err(refused(10, 1_029)));
    for byte in (0..FILE_BYTES).step_by(7) {
        let mut damaged = long.clone();
        damaged[byte] ^= 0x40;
        let record = byte / 16;
        // Any contents do for an element and VMR; in VAER's, bytes 2 and 3 (10 and 11) are registers.
        let may_change = record < 1_024 || record == 1_025 || record == 1_027 && matches!(byte % 16, 10 | 11);
        let counts = byte % 16 < 8 || !may_change;
        let expected = if counts { record } else { 1_029 };
        assert_eq!(load(&damaged), Err(refused(10, expected as u64)), "byte {byte}");
    }
}

#[test]
fn readings() {
    let mut state = State::zero();
    state.registers[2][5] = 0xFFFF_FFFF_0000_40C0;
    state.registers[2][6] = 0x8000_0001;
    state.registers[2][7] = 0xABCD_8074;
    assert_eq!(reading(&state, 2, 5, 0), Ok(Reading::Binary64(1.5f64.to_bits())));
    assert_eq!(reading(&state, 2, 6, 1), Ok(Reading::Longword(-0x7FFF_FFFF)));
    assert_eq!(reading(&state, 2, 6, 0), Ok(Reading::Binary64(0)));
    assert_eq!(reading(&state, 2, 7, 0), Ok(Reading::Reserved(4)));
    for (register, element, kind) in [(16, 0, 0), (0, 64, 0), (0, 0, 2), (256, 0, 0), (0, 256, 0), (0, 0, 256)] {
        assert_eq!(reading(&state, register, element, kind), Err(refused(13, 0)));
    }
    let bad = State { vpsr: 2, ..state };
    assert_eq!(reading(&bad, 16, 0, 0), Err(refused(12, 0)));
    assert_eq!(F.binary64(0x0001_0080), Some(2f64.powi(-128).to_bits() + (1 << 29)));
}

#[test]
fn listing() {
    let mut state = State { vlr: 4, ..State::enabled() };
    state.registers[5][3] = 7;
    let file = save(&state, FILE_BYTES).unwrap();
    let expected = "V05[03] 0000000000000007\nVLR 4\nVMR 0000000000000000\nVCR 0\nVAER 00000000\nVPSR 00000001\n";
    assert_eq!(text::lister(&file), expected);
    assert_eq!(text::lister(&file[..100]), "bad record 6\n");
    let mut input = file.clone();
    assert_eq!(text::runner(&input), format!("0 0\n{expected}"));
    input.extend(text::instruction_record(&Instruction { opcode: 0x35, control_word: 0, scalar: 0 }));
    assert_eq!(text::runner(&input), "7 0\n");
    input.push(0);
    assert_eq!(text::runner(&input), "8 0\n");
    assert_eq!(text::runner(&file[..FILE_BYTES - 1]), "10 1028\n");
}
