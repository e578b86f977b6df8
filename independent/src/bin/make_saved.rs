//! Writes runs of the lister and the runner: what they read and what they have to print.
//!
//!     make_saved FOLDER
//!
//! makes FOLDER/lister/NAME/ and FOLDER/runner/NAME/, each with `stdin` and `stdout`.

use independent::machine::*;
use independent::saved::{contents, file_of, FILE_BYTES};
use independent::text::{instruction_record, lister, runner};
use std::path::Path;

fn file(state: &State) -> Vec<u8> {
    assert!(state.in_range());
    file_of(&contents(state))
}

/// Document 01's listing.
fn example() -> State {
    let mut state = State { vlr: 4, ..State::enabled() };
    state.registers[5][3] = 7;
    state
}

/// Every kind of line, first and last of each, every hex digit, and the widest numbers.
fn every_line() -> State {
    let mut state =
        State { vlr: 64, vmr: 0x0123_4567_89AB_CDEF, vcr: 10, vaer: VAER_BITS, vpsr: VEN | AEX, ..State::zero() };
    state.registers[0][0] = 1;
    state.registers[0][63] = 0xFEDC_BA98_7654_3210;
    state.registers[1][0] = u64::MAX;
    state.registers[9][9] = 0xA;
    state.registers[10][10] = 1 << 63;
    state.registers[15][63] = 0x0000_0001_0000_0000;
    state
}

/// All 1,024 elements nonzero and all different.
fn full() -> State {
    let mut state = State { vlr: 9, vmr: u64::MAX, vcr: 64, vaer: 0x8000_0020, vpsr: AEX, ..State::zero() };
    for r in 0..REGISTERS {
        for e in 0..ELEMENTS {
            state.registers[r][e] = (r as u64 * 64 + e as u64 + 1).wrapping_mul(0x9E37_79B9_7F4A_7C15);
        }
    }
    state
}

fn lister_inputs() -> Vec<(&'static str, Vec<u8>)> {
    let good = file(&every_line());
    let with = |at: usize, byte: u8| {
        let mut file = good.clone();
        assert_ne!(file[at], byte);
        file[at] = byte;
        file
    };
    let longer = |by: usize| [good.clone(), vec![0; by]].concat();
    vec![
        ("example", file(&example())),
        ("every_line", good.clone()),
        ("full", file(&full())),
        ("zero", file(&State::zero())),
        ("empty_file", Vec::new()),
        ("cut_in_first", good[..15].to_vec()),
        ("cut_between", good[..16 * 700].to_vec()),
        ("cut_in_last", good[..FILE_BYTES - 1].to_vec()),
        ("extra_byte", longer(1)),
        ("extra_record", longer(16)),
        ("number_low", with(16 * 5, 6)),
        ("number_high", with(16 * 300 + 1, 0)),
        ("filler", with(16 * 1_023 + 7, 1)),
        ("vlr_65", with(16 * 1_024 + 8, 65)),
        ("vlr_wide", with(16 * 1_024 + 15, 1)),
        ("vcr_65", with(16 * 1_026 + 8, 65)),
        ("vaer_bit_4", with(16 * 1_027 + 8, 0x3F)),
        ("vaer_wide", with(16 * 1_027 + 12, 1)),
        ("vpsr_bit_25", with(16 * 1_028 + 11, 2)),
        ("bad_and_extra", [with(16 * 5, 6), vec![0]].concat()),
    ]
}

fn one(opcode: u8, control_word: u16, scalar: u64) -> Instruction {
    Instruction { opcode, control_word, scalar }
}

fn runner_inputs() -> Vec<(&'static str, Vec<u8>)> {
    let input = |state: &State, instructions: &[Instruction]| {
        let records: Vec<u8> = instructions.iter().flat_map(instruction_record).collect();
        [file(state), records].concat()
    };
    let mut example_1 = State { vlr: 2, ..State::enabled() };
    (example_1.registers[2][0], example_1.registers[2][1]) = (0x7FFF_FFFF, 4);
    example_1.registers[5] = [9; 64];
    let mut example_12 = State { vlr: 2, ..State::enabled() };
    (example_12.registers[1][0], example_12.registers[1][1]) = (1, 2);
    (example_12.registers[4][0], example_12.registers[4][1]) = (3, 4);
    let add = one(0x81, 0x2025, 1);
    let good = input(&example_1, &[add]);
    let with = |at: usize, byte: u8| {
        let mut bytes = good.clone();
        bytes[at] = byte;
        bytes
    };
    let mut mixed = full();
    (mixed.vpsr, mixed.vlr) = (VEN, 64);
    let all_sixteen: Vec<Instruction> = [
        one(0x80, 0x0123, 0),
        one(0x89, 0x2044, 7),
        one(0xA0, 0x0345, 0),
        one(0xC1, 0x0050, 9),
        one(0xC8, 0x8126, 0),
        one(0xE9, 0xC027, 0xFFFF_0000),
        one(0xCC, 0x0158, 0),
        one(0xE1, 0x0029, 5),
        one(0xE4, 0x012A, 0),
        one(0x84, 0x812B, 0),
        one(0x8D, 0x002C, 0x4080),
        one(0xA4, 0xE12D, 0),
        one(0xC4, 0x0126, 0),
        one(0xEC, 0x252E, 0),
        one(0xED, 0x400F, 12),
        one(0xEE, 0x4121, 0),
    ]
    .to_vec();
    let seventeen = vec![add; 17];
    // Each sort of quotient: exact, rounded up and down, overflow, underflow, by zero and by a dirty zero, of
    // a reserved operand and by one, a zero over a number.
    let mut quotients = State { vlr: 16, vmr: 0x5555, ..State::enabled() };
    let pairs: [(u64, u64); 16] = [
        (0x41C0, 0x4140),
        (0x4080, 0x4140),
        (0x41A0, 0xC140),
        (0xFFFE_407F, 0xFFFF_407F),
        (0xFFFF_7FFF, 0xFFFF_407F),
        (0xFFFF_7FFF, 0x4080),
        (0x0080, 0x0001_4080),
        (0xFFFE_00FF, 0xFFFF_40FF),
        (0x4080, 0),
        (0, 0xFFFF_007F),
        (0x1234_8056, 0),
        (0x8000, 0xFFFF_007F),
        (0x8000, 0x4080),
        (0x4080, 0x1234_8056),
        (0xFFFF_007F, 0x8000),
        (0xFFFF_007F, 0xC080),
    ];
    for (element, (a, b)) in pairs.into_iter().enumerate() {
        quotients.registers[1][element] = 0xAAAA_AAAA << 32 | a;
        quotients.registers[2][element] = 0xBBBB_BBBB << 32 | b;
    }
    quotients.registers[3] = [0x3333_3333_3333_3333; 64];
    let divisions = [
        one(0xAC, 0x2123, 0),
        one(0xAC, 0x0124, 0),
        one(0xAD, 0x2025, 0x4080),
        one(0xAC, 0xE316, 0),
        one(0xAD, 0x8020, 0),
    ];
    // Products about the smallest number, 2^47 units: 2 units and half a place below it, which round up to it; 2 units
    // below half way, a place below it, and one that rounds up to half of it, which underflow; the number itself.
    let mut products = State { vlr: 12, vmr: 0x0C3A, ..State::enabled() };
    let pairs: [(u64, u64); 6] = [
        (0xFFFE_407F, 0x0001_0080),
        (0x4078, 0x2108_0084),
        (0xF87B_406D, 0xB29A_0089),
        (0xFFFF_407F, 0x0080),
        (0xFFFE_3FFF, 0x0001_0080),
        (0x4080, 0x0080),
    ];
    for (element, (a, b)) in pairs.into_iter().flat_map(|(a, b)| [(a, b), (b, 0x8000 | a)]).enumerate() {
        products.registers[1][element] = 0xAAAA_AAAA << 32 | a;
        products.registers[2][element] = 0xBBBB_BBBB << 32 | b;
    }
    products.registers[3] = [0x3333_3333_3333_3333; 64];
    let multiplications = [
        one(0xA4, 0x0123, 0),
        one(0xA4, 0xE124, 0),
        one(0xA5, 0x0025, 0xFFFE_407F),
        one(0xA4, 0x2126, 0),
        one(0xA5, 0xA027, 0x0001_8080),
    ];
    vec![
        ("example_1", good.clone()),
        ("example_12", input(&example_12, &[one(0x80, 0x2123, 0), one(0x80, 0x2451, 0)])),
        ("sixteen", input(&mixed, &all_sixteen)),
        ("division", input(&quotients, &divisions)),
        ("small_products", input(&products, &multiplications)),
        ("no_records", input(&example_1, &[])),
        ("bad_file", with(16 * 77 + 2, 1)),
        ("short_file", good[..FILE_BYTES - 3].to_vec()),
        ("cut_record", good[..good.len() - 1].to_vec()),
        ("filler_1", with(FILE_BYTES + 1, 1)),
        ("filler_7", with(FILE_BYTES + 7, 1)),
        ("seventeen", input(&example_1, &seventeen)),
        ("disabled", input(&State::zero(), &[one(0x00, 0, 0)])),
        ("reserved_opcode", input(&example_1, &[add, one(0x82, 0, 0)])),
        ("memory_opcode", input(&example_1, &[add, add, one(0x34, 0, 0)])),
        ("reserved_relation", input(&example_1, &[one(0xC0, 3, 0), one(0x00, 0, 0)])),
    ]
}

fn write(folder: &Path, runs: Vec<(&str, Vec<u8>)>, print: fn(&[u8]) -> String) -> std::io::Result<()> {
    for (name, input) in runs {
        let at = folder.join(name);
        std::fs::create_dir_all(&at)?;
        std::fs::write(at.join("stdout"), print(&input))?;
        std::fs::write(at.join("stdin"), input)?;
    }
    Ok(())
}

fn main() -> std::io::Result<()> {
    let Some(folder) = std::env::args().nth(1) else {
        eprintln!("usage: make_saved FOLDER");
        std::process::exit(2);
    };
    let folder = Path::new(&folder);
    write(&folder.join("lister"), lister_inputs(), lister)?;
    write(&folder.join("runner"), runner_inputs(), runner)
}
