//! The vector processor of document 01, with document 02's divide and marks: state, opcodes,
//! one instruction, memory, control moves. Sections follow document 01's order. Calls take a state, and
//! marks if they write elements, and give new ones, so that a refusal can change nothing.

use crate::float::{relation_holds, F, INTEGER_OVERFLOW};
use crate::marks::Marks;

// ---------------------------------------------------------------------------------------- The state

pub const REGISTERS: usize = 16;
pub const ELEMENTS: usize = 64;

/// Bits that VAER and VPSR use.
pub const VAER_BITS: u64 = 0xFFFF_002F;
pub const VPSR_BITS: u64 = VEN | AEX;
pub const VEN: u64 = 1;
pub const AEX: u64 = 1 << 7;

/// The controls are plain 64-bit numbers, so that a state out of range can be put.
#[derive(Clone, PartialEq, Eq, Debug)]
pub struct State {
    pub registers: [[u64; ELEMENTS]; REGISTERS],
    pub vlr: u64,
    pub vmr: u64,
    pub vcr: u64,
    pub vaer: u64,
    pub vpsr: u64,
}

impl State {
    pub fn zero() -> State {
        State { registers: [[0; ELEMENTS]; REGISTERS], vlr: 0, vmr: 0, vcr: 0, vaer: 0, vpsr: 0 }
    }

    pub fn enabled() -> State {
        State { vpsr: VEN, ..State::zero() }
    }

    pub fn in_range(&self) -> bool {
        self.vlr <= 64 && self.vcr <= 64 && self.vaer & !VAER_BITS == 0 && self.vpsr & !VPSR_BITS == 0
    }

    fn is_enabled(&self) -> bool {
        self.vpsr & VEN != 0
    }

    fn mask_bit(&self, element: usize) -> bool {
        self.vmr >> element & 1 == 1
    }

    fn set_mask_bit(&mut self, element: usize, bit: bool) {
        self.vmr = self.vmr & !(1 << element) | u64::from(bit) << element;
    }

    /// "When an instruction records anything, VEN is cleared and AEX set at its end."
    pub(crate) fn end(&mut self, recorded: bool) {
        if recorded {
            self.vpsr = self.vpsr & !VEN | AEX;
        }
    }
}

// ---------------------------------------------------------------------------- Numbers given back

/// A number other than 0, and what stands beside it.
#[derive(Clone, Copy, PartialEq, Eq, Debug)]
pub struct Refusal {
    pub number: u32,
    pub beside: u64,
}

pub fn refuse<T>(number: u32, beside: u64) -> Result<T, Refusal> {
    Err(Refusal { number, beside })
}

pub const RESERVED_OPCODE: u32 = 1;
pub const RESERVED_CONTROL_WORD: u32 = 2;
pub const DISABLED: u32 = 3;
pub const WINDOW_NOT_ALLOWED: u32 = 4;
pub const MISALIGNED: u32 = 5;
pub const OUTSIDE_WINDOW: u32 = 6;
pub const MEMORY_IN_QUEUE: u32 = 7;
pub const BAD_QUEUE: u32 = 8;
pub const ORDER_NOT_PERMITTED: u32 = 9;
pub const BAD_FILE: u32 = 10;
pub const CONTROL_VALUE: u32 = 11;
pub const STATE_OUT_OF_RANGE: u32 = 12;
pub const NO_SUCH_FIELD: u32 = 13;

// ------------------------------------------------------------------------------------------ Opcodes

#[derive(Clone, Copy, PartialEq, Eq, Debug)]
pub enum Work {
    AddL,
    SubtractL,
    MultiplyL,
    CompareL,
    BitSet,
    ExclusiveOr,
    BitClear,
    ShiftRight,
    ShiftLeft,
    AddF,
    SubtractF,
    MultiplyF,
    DivideF,
    CompareF,
    Convert,
    Iota,
    Merge,
    /// Loads and stores; `bytes` is 4 or 8.
    Load {
        bytes: usize,
    },
    Gather {
        bytes: usize,
    },
    Store {
        bytes: usize,
    },
    Scatter {
        bytes: usize,
    },
}

/// The opcode table: the byte after FD. None is a reserved opcode.
pub fn work_of(opcode: u8) -> Option<Work> {
    Some(match opcode {
        0x80 | 0x81 => Work::AddL,
        0x88 | 0x89 => Work::SubtractL,
        0xA0 | 0xA1 => Work::MultiplyL,
        0xC0 | 0xC1 => Work::CompareL,
        0xC8 | 0xC9 => Work::BitSet,
        0xE8 | 0xE9 => Work::ExclusiveOr,
        0xCC | 0xCD => Work::BitClear,
        0xE0 | 0xE1 => Work::ShiftRight,
        0xE4 | 0xE5 => Work::ShiftLeft,
        0x84 | 0x85 => Work::AddF,
        0x8C | 0x8D => Work::SubtractF,
        0xA4 | 0xA5 => Work::MultiplyF,
        0xAC | 0xAD => Work::DivideF,
        0xC4 | 0xC5 => Work::CompareF,
        0xEC => Work::Convert,
        0xED => Work::Iota,
        0xEE | 0xEF => Work::Merge,
        0x34 => Work::Load { bytes: 4 },
        0x36 => Work::Load { bytes: 8 },
        0x35 => Work::Gather { bytes: 4 },
        0x37 => Work::Gather { bytes: 8 },
        0x9C => Work::Store { bytes: 4 },
        0x9E => Work::Store { bytes: 8 },
        0x9D => Work::Scatter { bytes: 4 },
        0x9F => Work::Scatter { bytes: 8 },
        _ => return None,
    })
}

impl Work {
    pub fn is_memory(&self) -> bool {
        matches!(self, Work::Load { .. } | Work::Gather { .. } | Work::Store { .. } | Work::Scatter { .. })
    }

    pub fn is_compare(&self) -> bool {
        matches!(self, Work::CompareL | Work::CompareF)
    }
}

/// One instruction as it is handed in.
#[derive(Clone, Copy, PartialEq, Eq, Debug)]
pub struct Instruction {
    pub opcode: u8,
    pub control_word: u16,
    pub scalar: u64,
}

/// An instruction whose opcode and control word were accepted.
#[derive(Clone, Copy, PartialEq, Eq, Debug)]
pub struct Decoded {
    pub work: Work,
    /// Of an operate opcode: the scalar stands for Va (for IOTA it is the stride).
    pub scalar_form: bool,
    pub moe: bool,
    pub mtf: bool,
    pub exc: bool,
    pub va: usize,
    pub vb: usize,
    pub vc: usize,
    pub scalar: u64,
}

impl Decoded {
    /// The conversion stands in Va's field, the relation in <2:0> of Vc's.
    fn conversion(&self) -> usize {
        self.va
    }

    fn relation(&self) -> u32 {
        self.vc as u32 & 7
    }
}

/// The fields of the control word; what it refuses is `control_word_is_reserved`.
pub fn fields(work: Work, instruction: &Instruction) -> Decoded {
    let word = usize::from(instruction.control_word);
    Decoded {
        work,
        scalar_form: !work.is_memory() && instruction.opcode % 2 == 1,
        moe: word >> 15 & 1 == 1,
        mtf: word >> 14 & 1 == 1,
        exc: word >> 13 & 1 == 1,
        va: word >> 8 & 15,
        vb: word >> 4 & 15,
        vc: word & 15,
        scalar: instruction.scalar,
    }
}

pub fn control_word_is_reserved(decoded: &Decoded) -> bool {
    match decoded.work {
        Work::CompareL => matches!(decoded.relation(), 3 | 7),
        Work::CompareF => matches!(decoded.relation(), 3 | 7) || decoded.vc >= 8,
        Work::Convert => !matches!(decoded.conversion(), 1 | 4 | 5),
        Work::Gather { .. } => decoded.vb == decoded.vc,
        _ => false,
    }
}

// ------------------------------------------------------------------------ What an element receives

/// What one element's work leaves: a destination's 64 bits, or the mask bit of a compare; and the
/// VAER type bits recorded.
#[derive(Clone, Copy, PartialEq, Eq, Debug)]
pub struct Left {
    pub value: u64,
    pub types: u32,
}

/// The work on one operated element: `a` is Va[i] or the scalar, `b` is Vb[i], `c` is what Vc[i]
/// held, `bit` is VMR<i>. Every work but IOTA and memory.
pub fn element_work(d: &Decoded, a: u64, b: u64, c: u64, bit: bool) -> Left {
    let (a32, b32) = (a as u32, b as u32);
    let high_of = |of: u64, low: u32| of >> 32 << 32 | u64::from(low);
    let longword = |exact: i64| {
        let low = exact as u32;
        let overflowed = i64::from(low as i32) != exact;
        Left { value: high_of(c, low), types: if overflowed && d.exc { INTEGER_OVERFLOW } else { 0 } }
    };
    let (la, lb) = (i64::from(a32 as i32), i64::from(b32 as i32));
    let quiet = |value: u64| Left { value, types: 0 };
    let floating =
        |outcome: crate::float::Outcome| Left { value: high_of(c, outcome.value as u32), types: outcome.types };
    let (fa, fb) = (u64::from(a32), u64::from(b32));
    match d.work {
        Work::AddL => longword(la + lb),
        Work::SubtractL => longword(la - lb),
        Work::MultiplyL => longword(la * lb),
        Work::CompareL => quiet(relation_holds(d.relation(), la.cmp(&lb)).expect("an accepted relation").into()),
        Work::BitSet => quiet(high_of(b, a32 | b32)),
        Work::ExclusiveOr => quiet(high_of(b, a32 ^ b32)),
        Work::BitClear => quiet(high_of(b, !a32 & b32)),
        Work::ShiftRight => quiet(high_of(c, b32 >> (a32 % 32))),
        Work::ShiftLeft => quiet(high_of(c, b32 << (a32 % 32))),
        Work::AddF => floating(F.add(fa, fb, d.exc)),
        Work::SubtractF => floating(F.subtract(fa, fb, d.exc)),
        Work::MultiplyF => floating(F.multiply(fa, fb, d.exc)),
        Work::DivideF => floating(F.divide(fa, fb, d.exc)),
        Work::CompareF => {
            let outcome = F.compare(fa, fb, d.relation()).expect("an accepted relation");
            Left { value: outcome.value, types: outcome.types }
        }
        Work::Convert => floating(match d.conversion() {
            5 => F.to_longword(fb, true, d.exc),
            4 => F.to_longword(fb, false, d.exc),
            1 => F.from_longword(b32),
            _ => unreachable!("an accepted conversion"),
        }),
        Work::Merge => quiet(if bit == d.mtf { a } else { b }),
        Work::Iota | Work::Load { .. } | Work::Gather { .. } | Work::Store { .. } | Work::Scatter { .. } => {
            unreachable!("not the work of one element")
        }
    }
}

/// "Element i is operated on when i < VLR and (MOE = 0 or VMR<i> = MTF)"; merge ignores MOE.
pub fn is_operated(d: &Decoded, state: &State, element: usize) -> bool {
    let ignores_mask = d.work == Work::Merge || !d.moe;
    (element as u64) < state.vlr && (ignores_mask || state.mask_bit(element) == d.mtf)
}

/// VAER gathers bits by or: the types, and 16+n for Vn. Compare records no register.
fn record(state: &mut State, d: &Decoded, types: u32) -> bool {
    if types == 0 {
        return false;
    }
    state.vaer |= u64::from(types);
    if !d.work.is_compare() {
        state.vaer |= 1 << (16 + d.vc);
    }
    true
}

/// What element i's work on `before` leaves, put into `after`; written, it is marked, whatever it held. True if it
/// recorded anything.
fn element_into(d: &Decoded, element: usize, before: &State, after: &mut State, marks: &mut Marks) -> bool {
    if !is_operated(d, before, element) {
        return false;
    }
    let a = if d.scalar_form { d.scalar } else { before.registers[d.va][element] };
    let b = before.registers[d.vb][element];
    let c = before.registers[d.vc][element];
    let left = element_work(d, a, b, c, before.mask_bit(element));
    if d.work.is_compare() {
        after.set_mask_bit(element, left.value == 1);
    } else {
        after.registers[d.vc][element] = left.value;
        marks.set(d.vc, element);
    }
    record(after, d, left.types)
}

fn iota(d: &Decoded, state: &mut State, marks: &mut Marks) {
    let mut next = 0;
    for i in 0..state.vlr as usize {
        if state.mask_bit(i) == d.mtf {
            let offset = (i as u32).wrapping_mul(d.scalar as u32);
            let kept = state.registers[d.vc][next] >> 32 << 32;
            state.registers[d.vc][next] = kept | u64::from(offset);
            marks.set(d.vc, next);
            next += 1;
        }
    }
    state.vcr = next as u64;
}

/// A whole register instruction: every element looks at the state the instruction began with.
/// VEN and AEX are left to the caller. True if anything was recorded.
pub fn whole_instruction(d: &Decoded, state: &mut State, marks: &mut Marks) -> bool {
    if d.work == Work::Iota {
        iota(d, state, marks);
        return false;
    }
    let before = state.clone();
    let mut recorded = false;
    for element in 0..before.vlr as usize {
        recorded |= element_into(d, element, &before, state, marks);
    }
    recorded
}

/// One step of a register instruction, on what the last step left.
pub fn step(d: &Decoded, element: usize, state: &mut State, marks: &mut Marks) -> bool {
    if d.work == Work::Iota {
        iota(d, state, marks);
        return false;
    }
    let before = state.clone();
    element_into(d, element, &before, state, marks)
}

// ------------------------------------------------------------------------------------------- Memory

/// What a memory instruction takes besides. The origin is any whole number of 64 bits.
#[derive(Clone, PartialEq, Eq, Debug)]
pub struct Memory {
    pub base: u32,
    pub stride: u32,
    pub window: Vec<u8>,
    pub origin: u64,
}

impl Memory {
    pub fn none() -> Memory {
        Memory { base: 0, stride: 0, window: Vec::new(), origin: 0 }
    }
}

fn window_is_allowed(memory: &Memory) -> bool {
    let length = memory.window.len() as u128;
    length <= 65_536 && memory.origin % 8 == 0 && u128::from(memory.origin) + length <= 1 << 32
}

/// The address of element i: base + i times stride, or base + Vb[i]<31:0>, modulo 2^32.
pub fn address(d: &Decoded, state: &State, memory: &Memory, element: usize) -> u64 {
    let base = u64::from(memory.base);
    let offset = match d.work {
        Work::Gather { .. } | Work::Scatter { .. } => state.registers[d.vb][element] % (1 << 32),
        _ => element as u64 * u64::from(memory.stride),
    };
    (base + offset) % (1 << 32)
}

fn memory_instruction(d: &Decoded, state: &mut State, marks: &mut Marks, memory: &mut Memory) -> Result<(), Refusal> {
    if !window_is_allowed(memory) {
        return refuse(WINDOW_NOT_ALLOWED, 0);
    }
    let (bytes, stores) = match d.work {
        Work::Load { bytes } | Work::Gather { bytes } => (bytes, false),
        Work::Store { bytes } | Work::Scatter { bytes } => (bytes, true),
        _ => unreachable!("a memory work"),
    };
    let operated: Vec<usize> = (0..ELEMENTS).filter(|&i| is_operated(d, state, i)).collect();
    // All are tested before anything is moved.
    for &i in &operated {
        let at = address(d, state, memory, i);
        if at % bytes as u64 != 0 {
            return refuse(MISALIGNED, i as u64);
        }
        let end = memory.origin + memory.window.len() as u64;
        if at < memory.origin || at + bytes as u64 > end {
            return refuse(OUTSIDE_WINDOW, i as u64);
        }
    }
    let before = state.clone();
    for &i in &operated {
        let at = (address(d, &before, memory, i) - memory.origin) as usize;
        for byte in 0..bytes {
            let places = 8 * byte as u32;
            if stores {
                memory.window[at + byte] = (state.registers[d.vc][i] >> places) as u8;
            } else {
                let element = &mut state.registers[d.vc][i];
                *element = *element & !(0xFF << places) | u64::from(memory.window[at + byte]) << places;
            }
        }
        if !stores {
            marks.set(d.vc, i);
        }
    }
    Ok(())
}

// ---------------------------------------------------------------------------------- One instruction

/// One instruction: 12, 1, 3, 2, then for memory 4, 5 or 6. Gives the new state, marks and window.
pub fn execute(
    state: &State,
    marks: &Marks,
    instruction: &Instruction,
    memory: &Memory,
) -> Result<(State, Marks, Vec<u8>), Refusal> {
    if !state.in_range() {
        return refuse(STATE_OUT_OF_RANGE, 0);
    }
    let Some(work) = work_of(instruction.opcode) else {
        return refuse(RESERVED_OPCODE, 0);
    };
    if !state.is_enabled() {
        return refuse(DISABLED, 0);
    }
    let decoded = fields(work, instruction);
    if control_word_is_reserved(&decoded) {
        return refuse(RESERVED_CONTROL_WORD, 0);
    }
    let (mut state, mut marks, mut memory) = (state.clone(), *marks, memory.clone());
    if work.is_memory() {
        memory_instruction(&decoded, &mut state, &mut marks, &mut memory)?;
    } else {
        let recorded = whole_instruction(&decoded, &mut state, &mut marks);
        state.end(recorded);
    }
    Ok((state, marks, memory.window))
}

// ------------------------------------------------------------------------------------ Control moves

#[derive(Clone, Copy, PartialEq, Eq, Debug)]
pub enum Control {
    Vlr,
    Vcr,
    VmrLow,
    VmrHigh,
    Vaer,
    Vpsr,
}

pub const CONTROLS: [Control; 6] =
    [Control::Vlr, Control::Vcr, Control::VmrLow, Control::VmrHigh, Control::Vaer, Control::Vpsr];

/// VAER is only read.
pub const WRITTEN_CONTROLS: [Control; 5] =
    [Control::Vlr, Control::Vcr, Control::VmrLow, Control::VmrHigh, Control::Vpsr];

pub fn read_control(state: &State, control: Control) -> Result<u64, Refusal> {
    if !state.in_range() {
        return refuse(STATE_OUT_OF_RANGE, 0);
    }
    let read_when_disabled = matches!(control, Control::Vaer | Control::Vpsr);
    if !state.is_enabled() && !read_when_disabled {
        return refuse(DISABLED, 0);
    }
    Ok(match control {
        Control::Vlr => state.vlr,
        Control::Vcr => state.vcr,
        Control::VmrLow => state.vmr % (1 << 32),
        Control::VmrHigh => state.vmr >> 32,
        Control::Vaer => state.vaer,
        Control::Vpsr => state.vpsr,
    })
}

/// A write: 12, 3, 11; of VPSR 12, 11. VAER has no write. VLR and VCR take any 64 bits, the rest any 32.
pub fn write_control(state: &State, control: Control, value: u64) -> Result<State, Refusal> {
    assert!(matches!(control, Control::Vlr | Control::Vcr) || value < 1 << 32, "mask halves and VPSR have 32 bits");
    if !state.in_range() {
        return refuse(STATE_OUT_OF_RANGE, 0);
    }
    if !state.is_enabled() && control != Control::Vpsr {
        return refuse(DISABLED, 0);
    }
    let mut state = state.clone();
    match control {
        Control::Vlr if value > 64 => return refuse(CONTROL_VALUE, 0),
        Control::Vlr => state.vlr = value,
        Control::Vcr if value > 64 => return refuse(CONTROL_VALUE, 0),
        Control::Vcr => state.vcr = value,
        Control::VmrLow => state.vmr = state.vmr >> 32 << 32 | value,
        Control::VmrHigh => state.vmr = (value << 32) | state.vmr % (1 << 32),
        Control::Vaer => panic!("VAER has no write call"),
        Control::Vpsr => {
            let bit = |place: u32| value >> place & 1 == 1;
            let reserved_setting = !matches!(value % 16, 0 | 1 | 2 | 3 | 4 | 8 | 9);
            let must_be_zero = bit(4) || (8..=23).any(bit) || (26..=30).any(bit);
            if reserved_setting || must_be_zero {
                return refuse(CONTROL_VALUE, 0);
            }
            if bit(1) {
                state.vpsr = 0;
                state.vaer = 0;
            }
            if bit(7) {
                state.vpsr &= !AEX;
                state.vaer = 0;
            }
            state.vpsr = state.vpsr & !VEN | u64::from(bit(0));
        }
    }
    Ok(state)
}
