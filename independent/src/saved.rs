//! Saved state and readings (document 01, "Saved state and readings").

use crate::float::F;
use crate::machine::*;
use crate::marks::Marks;

pub const RECORDS: usize = 1_029;
pub const FILE_BYTES: usize = 16_464;

/// The contents of the 1,029 records in their order.
pub fn contents(state: &State) -> Vec<u64> {
    let mut all: Vec<u64> = state.registers.iter().flatten().copied().collect();
    all.extend([state.vlr, state.vmr, state.vcr, state.vaer, state.vpsr]);
    all
}

/// The bytes of the file, with no test of the state.
pub fn file_of(contents: &[u64]) -> Vec<u8> {
    let mut file = Vec::new();
    for (number, content) in contents.iter().enumerate() {
        file.extend((number as u16).to_le_bytes());
        file.extend([0; 6]);
        file.extend(content.to_le_bytes());
    }
    file
}

/// Saving into `room` bytes: 12, then 10 with the first record that has no room.
pub fn save(state: &State, room: usize) -> Result<Vec<u8>, Refusal> {
    if !state.in_range() {
        return refuse(STATE_OUT_OF_RANGE, 0);
    }
    if room < FILE_BYTES {
        return refuse(BAD_FILE, (room / 16) as u64);
    }
    Ok(file_of(&contents(state)))
}

fn content_in_range(record: usize, content: u64) -> bool {
    match record {
        1_024 | 1_026 => content <= 64,
        1_027 => content & !VAER_BITS == 0,
        1_028 => content & !VPSR_BITS == 0,
        _ => true,
    }
}

/// The state of a file, or 10 with its first bad record. The marks are not in it: all are set, whichever were before.
pub fn load(file: &[u8]) -> Result<(State, Marks), Refusal> {
    let mut state = State::zero();
    for record in 0..RECORDS {
        let Some(bytes) = file.get(record * 16..record * 16 + 16) else {
            return refuse(BAD_FILE, record as u64);
        };
        let number = u16::from_le_bytes([bytes[0], bytes[1]]);
        let content = u64::from_le_bytes(bytes[8..16].try_into().expect("eight bytes"));
        let filler_is_zero = bytes[2..8].iter().all(|&byte| byte == 0);
        if usize::from(number) != record || !filler_is_zero || !content_in_range(record, content) {
            return refuse(BAD_FILE, record as u64);
        }
        match record {
            1_024 => state.vlr = content,
            1_025 => state.vmr = content,
            1_026 => state.vcr = content,
            1_027 => state.vaer = content,
            1_028 => state.vpsr = content,
            _ => state.registers[record / 64][record % 64] = content,
        }
    }
    if file.len() > FILE_BYTES {
        return refuse(BAD_FILE, RECORDS as u64);
    }
    Ok((state, Marks::all()))
}

#[derive(Clone, Copy, PartialEq, Eq, Debug)]
pub enum Reading {
    /// The bits of a binary64 number.
    Binary64(u64),
    Longword(i32),
    /// A reserved operand, with its code.
    Reserved(u8),
}

/// A reading: 12, 13.
pub fn reading(state: &State, register: u32, element: u32, kind: u32) -> Result<Reading, Refusal> {
    if !state.in_range() {
        return refuse(STATE_OUT_OF_RANGE, 0);
    }
    if register > 15 || element > 63 || kind > 1 {
        return refuse(NO_SUCH_FIELD, 0);
    }
    let low = state.registers[register as usize][element as usize] as u32;
    Ok(if kind == 1 {
        Reading::Longword(low as i32)
    } else {
        match F.binary64(low.into()) {
            Some(bits) => Reading::Binary64(bits),
            None => Reading::Reserved(low as u8 % 16),
        }
    })
}
