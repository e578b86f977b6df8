//! What the programs print: the lister (document 01) and the runner (the C interface's programs). Neither prints
//! marks.

use crate::machine::{Instruction, Refusal, State, BAD_QUEUE};
use crate::marks::Marks;
use crate::queue::{run, Queue};
use crate::saved::{load, FILE_BYTES};
use std::fmt::Write;

/// The listing of a state.
pub fn listing(state: &State) -> String {
    let mut text = String::new();
    for (r, register) in state.registers.iter().enumerate() {
        for (e, &element) in register.iter().enumerate() {
            if element != 0 {
                writeln!(text, "V{r:02}[{e:02}] {element:016X}").unwrap();
            }
        }
    }
    writeln!(text, "VLR {}", state.vlr).unwrap();
    writeln!(text, "VMR {:016X}", state.vmr).unwrap();
    writeln!(text, "VCR {}", state.vcr).unwrap();
    writeln!(text, "VAER {:08X}", state.vaer).unwrap();
    writeln!(text, "VPSR {:08X}", state.vpsr).unwrap();
    text
}

/// What the lister prints for a file.
pub fn lister(file: &[u8]) -> String {
    match load(file) {
        Ok((state, _)) => listing(&state),
        Err(refusal) => format!("bad record {}\n", refusal.beside),
    }
}

/// What the runner prints for a saved file followed by instruction records.
pub fn runner(input: &[u8]) -> String {
    match runner_state(input) {
        Ok((state, _)) => format!("0 0\n{}", listing(&state)),
        Err(Refusal { number, beside }) => format!("{number} {beside}\n"),
    }
}

fn runner_state(input: &[u8]) -> Result<(State, Marks), Refusal> {
    let (file, records) = input.split_at(input.len().min(FILE_BYTES));
    let (state, marks) = load(file)?;
    let instructions = instruction_records(records).ok_or(Refusal { number: BAD_QUEUE, beside: 0 })?;
    run(&state, &marks, &Queue::of(&instructions))
}

/// Opcode, a zero byte, control word (2), 4 zero bytes, scalar (8); at most 16 of them.
fn instruction_records(records: &[u8]) -> Option<Vec<Instruction>> {
    if records.len() % 16 != 0 || records.len() > 16 * 16 {
        return None;
    }
    records
        .chunks(16)
        .map(|record| {
            let filler_is_zero = record[1] == 0 && record[4..8].iter().all(|&byte| byte == 0);
            filler_is_zero.then(|| Instruction {
                opcode: record[0],
                control_word: u16::from_le_bytes([record[2], record[3]]),
                scalar: u64::from_le_bytes(record[8..16].try_into().expect("eight bytes")),
            })
        })
        .collect()
}

/// The record that `runner` reads for an instruction.
pub fn instruction_record(instruction: &Instruction) -> [u8; 16] {
    let mut record = [0; 16];
    record[0] = instruction.opcode;
    record[2..4].copy_from_slice(&instruction.control_word.to_le_bytes());
    record[8..16].copy_from_slice(&instruction.scalar.to_le_bytes());
    record
}
