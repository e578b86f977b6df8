//! Queues and orders (document 01, "Queues and orders"). Whether a list is permitted is judged by the
//! plain definition: the places each step touches, compared pair by pair.

use crate::machine::*;
use crate::marks::Marks;

/// The parts of a queue, which may be of unequal length.
#[derive(Clone, PartialEq, Eq, Debug, Default)]
pub struct Queue {
    pub opcodes: Vec<u8>,
    pub control_words: Vec<u16>,
    pub scalars: Vec<u64>,
}

impl Queue {
    pub fn of(instructions: &[Instruction]) -> Queue {
        Queue {
            opcodes: instructions.iter().map(|i| i.opcode).collect(),
            control_words: instructions.iter().map(|i| i.control_word).collect(),
            scalars: instructions.iter().map(|i| i.scalar).collect(),
        }
    }
}

/// 12, 8, 3, then per position from 0: 1, 7, 2.
pub fn accept(state: &State, queue: &Queue) -> Result<Vec<Decoded>, Refusal> {
    if !state.in_range() {
        return refuse(STATE_OUT_OF_RANGE, 0);
    }
    let length = queue.opcodes.len();
    if length > 16 || queue.control_words.len() != length || queue.scalars.len() != length {
        return refuse(BAD_QUEUE, 0);
    }
    if state.vpsr & VEN == 0 {
        return refuse(DISABLED, 0);
    }
    let mut accepted = Vec::new();
    for position in 0..length {
        let instruction = Instruction {
            opcode: queue.opcodes[position],
            control_word: queue.control_words[position],
            scalar: queue.scalars[position],
        };
        let beside = position as u64;
        let Some(work) = work_of(instruction.opcode) else {
            return refuse(RESERVED_OPCODE, beside);
        };
        if work.is_memory() {
            return refuse(MEMORY_IN_QUEUE, beside);
        }
        let decoded = fields(work, &instruction);
        if control_word_is_reserved(&decoded) {
            return refuse(RESERVED_CONTROL_WORD, beside);
        }
        accepted.push(decoded);
    }
    Ok(accepted)
}

/// Straight through: each instruction whole, on what the last one left. Gives the new state and marks.
pub fn run(state: &State, marks: &Marks, queue: &Queue) -> Result<(State, Marks), Refusal> {
    let instructions = accept(state, queue)?;
    let (mut state, mut marks) = (state.clone(), *marks);
    let mut recorded = false;
    for instruction in &instructions {
        recorded |= whole_instruction(instruction, &mut state, &mut marks);
    }
    state.end(recorded);
    Ok((state, marks))
}

/// By a list: each step on what the last step left. Each adds the marks of what it writes itself.
pub fn run_order(state: &State, marks: &Marks, queue: &Queue, order: &[u64]) -> Result<(State, Marks), Refusal> {
    let instructions = accept(state, queue)?;
    if let Some(bad) = first_bad_entry(&steps(&instructions, state.vlr as usize), order) {
        return refuse(ORDER_NOT_PERMITTED, bad as u64);
    }
    let (mut state, mut marks) = (state.clone(), *marks);
    let mut recorded = false;
    for &entry in order {
        let (position, element) = (entry as usize / 64, entry as usize % 64);
        recorded |= step(&instructions[position], element, &mut state, &mut marks);
    }
    state.end(recorded);
    Ok((state, marks))
}

/// What a step may touch.
#[derive(Clone, Copy, PartialEq, Eq, Debug)]
pub enum Place {
    Element { register: usize, element: usize },
    MaskBit(usize),
    Count,
}

#[derive(Clone, PartialEq, Eq, Debug)]
pub struct Step {
    pub position: usize,
    pub element: usize,
    pub reads: Vec<Place>,
    pub writes: Vec<Place>,
}

impl Step {
    /// As a list names it.
    pub fn entry(&self) -> u64 {
        (self.position * 64 + self.element) as u64
    }

    /// Whether this step must follow `other`.
    pub fn must_follow(&self, other: &Step) -> bool {
        let shares = |some: &[Place], others: &[Place]| some.iter().any(|place| others.contains(place));
        other.position < self.position
            && (shares(&self.writes, &other.writes)
                || shares(&self.writes, &other.reads)
                || shares(&self.reads, &other.writes))
    }
}

/// Every step of an accepted queue, in the order of the straight run.
pub fn steps(instructions: &[Decoded], vlr: usize) -> Vec<Step> {
    let mut all = Vec::new();
    for (position, d) in instructions.iter().enumerate() {
        if d.work == Work::Iota {
            let mut writes: Vec<Place> = (0..vlr).map(|element| Place::Element { register: d.vc, element }).collect();
            writes.push(Place::Count);
            let reads = (0..vlr).map(Place::MaskBit).collect();
            all.push(Step { position, element: 0, reads, writes });
            continue;
        }
        for element in 0..vlr {
            let mut reads = vec![Place::Element { register: d.vb, element }];
            if !d.scalar_form && d.work != Work::Convert {
                reads.push(Place::Element { register: d.va, element });
            }
            if d.moe || d.work == Work::Merge {
                reads.push(Place::MaskBit(element));
            }
            let writes = if d.work.is_compare() {
                vec![Place::MaskBit(element)]
            } else {
                vec![Place::Element { register: d.vc, element }]
            };
            all.push(Step { position, element, reads, writes });
        }
    }
    all
}

/// The first entry that is no step, or a repeat, or comes while a step it must follow has not yet
/// come; else the list's length if steps are missing; else None: the list is permitted.
pub fn first_bad_entry(steps: &[Step], order: &[u64]) -> Option<usize> {
    let mut come = vec![false; steps.len()];
    for (k, &entry) in order.iter().enumerate() {
        let Some(index) = steps.iter().position(|step| step.entry() == entry) else {
            return Some(k);
        };
        if come[index] {
            return Some(k);
        }
        let too_early = steps.iter().zip(&come).any(|(other, &came)| !came && steps[index].must_follow(other));
        if too_early {
            return Some(k);
        }
        come[index] = true;
    }
    if come.iter().all(|&came| came) {
        None
    } else {
        Some(order.len())
    }
}
