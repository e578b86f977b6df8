//! Compares the whole proved library, over its C interface, with the independent program.
//!
//!     compare_face [cases] [seed]
//!
//! Each call is put `cases` times (20,000 if not said; lists a quarter as often). Number, what stands
//! beside it, all elements, all controls, all marks and all memory are compared, guard bytes around every
//! lent slice too. A queue that is done is put once more, to what it left; and sequences of calls hand
//! state and marks on from one to the next. The exit status is 1 if anything differed, or if some number
//! that a call can give, some accepted opcode done, some kind of list, some kind of division, some product
//! about the smallest number, some way in which marks are set or kept, or some number that only a cut
//! would let through, never came up.

use independent::generate::*;
use independent::machine::*;
use independent::marks::Marks;
use independent::queue::{accept, first_bad_entry, run, run_order, steps, Queue};
use independent::random::Random;
use independent::saved::{load, reading, save, Reading};
use independent::smallest::Met;
use independent::vectors::{check, directory, instruction_of, Arithmetic, Result32, F_TABLES, L_TABLES};
use std::cell::Cell;
use std::collections::{BTreeMap, BTreeSet};
use std::process::ExitCode;

// The control record goes as five numbers: to a call it is the same as the header's struct.
extern "C" {
    fn kuj_execute(
        elements: *mut u64,
        control: *mut u64,
        marks: *mut u64,
        opcode: u8,
        cntrl: u16,
        scalar: u64,
        base: u32,
        stride: u32,
        window: *mut u8,
        window_len: usize,
        origin: u64,
        beside: *mut u64,
    ) -> u32;
    fn kuj_run(
        elements: *mut u64,
        control: *mut u64,
        marks: *mut u64,
        opcodes: *const u8,
        n_opcodes: usize,
        cntrls: *const u16,
        n_cntrls: usize,
        scalars: *const u64,
        n_scalars: usize,
        beside: *mut u64,
    ) -> u32;
    fn kuj_run_order(
        elements: *mut u64,
        control: *mut u64,
        marks: *mut u64,
        opcodes: *const u8,
        n_opcodes: usize,
        cntrls: *const u16,
        n_cntrls: usize,
        scalars: *const u64,
        n_scalars: usize,
        order: *const u64,
        n_order: usize,
        beside: *mut u64,
    ) -> u32;
    fn kuj_save(elements: *const u64, control: *const u64, file: *mut u8, n: usize, beside: *mut u64) -> u32;
    fn kuj_load(
        elements: *mut u64,
        control: *mut u64,
        marks: *mut u64,
        file: *const u8,
        n: usize,
        beside: *mut u64,
    ) -> u32;
    fn kuj_clear_marks(marks: *mut u64, beside: *mut u64) -> u32;
    fn kuj_reading(
        elements: *const u64,
        control: *const u64,
        reg: u32,
        element: u32,
        kind: u32,
        kind_read: *mut u64,
        bits: *mut u64,
        beside: *mut u64,
    ) -> u32;
    fn kuj_read_vlr(control: *const u64, beside: *mut u64) -> u32;
    fn kuj_read_vcr(control: *const u64, beside: *mut u64) -> u32;
    fn kuj_read_vmr_low(control: *const u64, beside: *mut u64) -> u32;
    fn kuj_read_vmr_high(control: *const u64, beside: *mut u64) -> u32;
    fn kuj_read_vaer(control: *const u64, beside: *mut u64) -> u32;
    fn kuj_read_vpsr(control: *const u64, beside: *mut u64) -> u32;
    fn kuj_write_vlr(control: *mut u64, value: u64, beside: *mut u64) -> u32;
    fn kuj_write_vcr(control: *mut u64, value: u64, beside: *mut u64) -> u32;
    fn kuj_write_vmr_low(control: *mut u64, value: u32, beside: *mut u64) -> u32;
    fn kuj_write_vmr_high(control: *mut u64, value: u32, beside: *mut u64) -> u32;
    fn kuj_write_vpsr(control: *mut u64, value: u32, beside: *mut u64) -> u32;
}

/// What a call cannot leave there by chance.
const UNWRITTEN: u64 = 0xDEAD_BEEF_0BAD_F00D;

/// A slice lent to a call, with guards on both sides.
struct Lent<T> {
    cells: Vec<T>,
    guard: T,
}

impl<T: Copy + PartialEq> Lent<T> {
    fn new(cells: &[T], guard: T) -> Lent<T> {
        Lent { cells: [&[guard; GUARD][..], cells, &[guard; GUARD][..]].concat(), guard }
    }

    /// Null for an empty slice: its pointer is never read.
    fn pointer(&mut self) -> *mut T {
        if self.cells.len() == 2 * GUARD {
            return std::ptr::null_mut();
        }
        self.cells[GUARD..].as_mut_ptr()
    }

    fn is_now(&self, cells: &[T]) -> bool {
        let end = self.cells.len() - GUARD;
        self.cells[GUARD..end] == *cells
            && self.cells[..GUARD].iter().chain(&self.cells[end..]).all(|&cell| cell == self.guard)
    }
}

fn elements_of(state: &State) -> Vec<u64> {
    state.registers.iter().flatten().copied().collect()
}

fn control_of(state: &State) -> [u64; 5] {
    [state.vlr, state.vmr, state.vcr, state.vaer, state.vpsr]
}

/// A state lent to a call, with its marks.
struct LentState {
    elements: Lent<u64>,
    control: Lent<u64>,
    marks: Lent<u64>,
    beside: u64,
}

impl LentState {
    fn new(state: &State, marks: &Marks) -> LentState {
        LentState {
            elements: Lent::new(&elements_of(state), UNWRITTEN),
            control: Lent::new(&control_of(state), UNWRITTEN),
            marks: Lent::new(&marks.words, UNWRITTEN),
            beside: UNWRITTEN,
        }
    }

    /// For a call that takes no marks.
    fn unmarked(state: &State) -> LentState {
        LentState::new(state, &Marks::clear())
    }

    /// What is not as it should be.
    fn differing(&self, state: &State, marks: &Marks) -> Vec<&'static str> {
        differing([
            ("elements", self.elements.is_now(&elements_of(state))),
            ("control", self.control.is_now(&control_of(state))),
            ("marks", self.marks.is_now(&marks.words)),
        ])
    }
}

/// The names of those parts that are not the same.
fn differing<const N: usize>(parts: [(&'static str, bool); N]) -> Vec<&'static str> {
    parts.into_iter().filter(|(_, same)| !same).map(|(name, _)| name).collect()
}

/// Number and what stands beside it.
type Answer = (u32, u64);

fn answer<T>(result: &Result<T, Refusal>, done: impl Fn(&T) -> u64) -> Answer {
    match result {
        Ok(value) => (0, done(value)),
        Err(refusal) => (refusal.number, refusal.beside),
    }
}

#[derive(Default)]
struct Report {
    /// How often each call gave each number.
    numbers: BTreeMap<&'static str, BTreeMap<u32, u64>>,
    /// How often each opcode was done by `execute`.
    done: BTreeMap<u8, u64>,
    /// How often each kind of list came up.
    lists: BTreeMap<&'static str, u64>,
    /// How often each kind of division came up, in an instruction, a queue and a list.
    divisions: BTreeMap<&'static str, u64>,
    /// The products about the smallest number, in instructions of each form, queues and lists.
    products: BTreeMap<&'static str, Met>,
    /// How often marks were set or kept in each of the ways that are told apart.
    marks: BTreeMap<&'static str, u64>,
    /// How often each call gave each number other than 0, handed marks that were not clear.
    refused_with_marks: BTreeMap<&'static str, BTreeMap<u32, u64>>,
    /// How often each number was refused that would be accepted if it were cut.
    wide: BTreeMap<&'static str, u64>,
    differences: u64,
}

const SHOWN: u64 = 20;

impl Report {
    /// `differing`: what is not as it should be, but for the answer.
    fn case(
        &mut self,
        call: &'static str,
        given: Answer,
        expected: Answer,
        differing: &[&'static str],
        input: impl Fn() -> String,
    ) {
        *self.numbers.entry(call).or_default().entry(expected.0).or_default() += 1;
        if given != expected || !differing.is_empty() {
            self.differences += 1;
            if self.differences <= SHOWN {
                let rest: String = differing.iter().map(|part| format!("; {part} differ")).collect();
                println!("DIFFERS: {call}: given {given:?}, expected {expected:?}{rest}: {}", input());
            }
        }
    }

    fn count_marks(&mut self, way: &'static str, came: bool) {
        assert!(MARKS.contains(&way), "{way}");
        *self.marks.entry(way).or_default() += u64::from(came);
    }
}

fn controls_text(state: &State) -> String {
    let [vlr, vmr, vcr, vaer, vpsr] = control_of(state);
    format!("VLR {vlr} VMR {vmr:016X} VCR {vcr} VAER {vaer:X} VPSR {vpsr:X}")
}

/// A state and its marks, handed on from call to call: as they should be, and as they are lent to the library.
struct Held {
    state: State,
    marks: Marks,
    lent: LentState,
    /// Nothing has differed so far.
    same: bool,
}

/// What a call should leave.
type Left = Result<(State, Marks), Refusal>;

impl Held {
    fn new(state: &State, marks: &Marks) -> Held {
        Held { state: state.clone(), marks: *marks, lent: LentState::new(state, marks), same: true }
    }

    /// Compares what a call gave and left with what it should, and hands that on.
    fn compare(
        &mut self,
        call: &'static str,
        number: u32,
        expected: &Left,
        others: Vec<&'static str>,
        report: &mut Report,
        input: impl Fn() -> String,
    ) {
        let (given, answer) = ((number, self.lent.beside), answer(expected, |_| 0));
        let before = (&self.state, &self.marks);
        let (state, marks) = expected.as_ref().map_or(before, |(state, marks)| (state, marks));
        let differing = [self.lent.differing(state, marks), others].concat();
        report.case(call, given, answer, &differing, || {
            format!("{}; {}; marks {:X?}", input(), controls_text(&self.state), self.marks.words)
        });
        if expected.is_err() && !self.marks.is_clear() {
            *report.refused_with_marks.entry(call).or_default().entry(answer.0).or_default() += 1;
        }
        self.same &= given == answer && differing.is_empty();
        self.lent.beside = UNWRITTEN;
        if let Ok((state, marks)) = expected {
            (self.state, self.marks) = (state.clone(), *marks);
        }
    }

    fn execute(&mut self, call: &'static str, instruction: &Instruction, memory: &Memory, report: &mut Report) -> Left {
        let result = execute(&self.state, &self.marks, instruction, memory);
        let mut window = Lent::new(&memory.window, 0xC3);
        // SAFETY: every pointer is to a lent vector of the length that the interface asks for.
        let number = unsafe {
            kuj_execute(
                self.lent.elements.pointer(),
                self.lent.control.pointer(),
                self.lent.marks.pointer(),
                instruction.opcode,
                instruction.control_word,
                instruction.scalar,
                memory.base,
                memory.stride,
                window.pointer(),
                memory.window.len(),
                memory.origin,
                &mut self.lent.beside,
            )
        };
        let window_after = result.as_ref().map_or(&memory.window, |(_, _, window)| window);
        let others = differing([("window", window.is_now(window_after))]);
        let expected = result.map(|(state, marks, _)| (state, marks));
        if let Some(work) = work_of(instruction.opcode) {
            count_marks_of_instruction(&fields(work, instruction), (&self.state, &self.marks), &expected, report);
        }
        self.compare(call, number, &expected, others, report, || {
            format!(
                "{instruction:X?} base {:X} stride {:X} origin {:X} length {}",
                memory.base,
                memory.stride,
                memory.origin,
                memory.window.len()
            )
        });
        expected
    }

    fn run(&mut self, call: &'static str, queue: &Queue, report: &mut Report) -> Left {
        let expected = run(&self.state, &self.marks, queue);
        let (mut opcodes, mut words, mut scalars) = lend_queue(queue);
        // SAFETY: as above.
        let number = unsafe {
            kuj_run(
                self.lent.elements.pointer(),
                self.lent.control.pointer(),
                self.lent.marks.pointer(),
                opcodes.pointer(),
                queue.opcodes.len(),
                words.pointer(),
                queue.control_words.len(),
                scalars.pointer(),
                queue.scalars.len(),
                &mut self.lent.beside,
            )
        };
        count_marks_of_queue(queue, (&self.state, &self.marks), &expected, report);
        self.compare(call, number, &expected, Vec::new(), report, || format!("{queue:X?}"));
        expected
    }

    fn run_order(&mut self, call: &'static str, queue: &Queue, order: &[u64], report: &mut Report) -> Left {
        let expected = run_order(&self.state, &self.marks, queue, order);
        // Demand 3, within the independent program itself.
        if let Ok(after) = &expected {
            let straight = run(&self.state, &self.marks, queue);
            assert_eq!(Ok(after), straight.as_ref(), "a permitted list ends as the straight run");
        }
        let (mut opcodes, mut words, mut scalars) = lend_queue(queue);
        let mut list = Lent::new(order, UNWRITTEN);
        // SAFETY: as above.
        let number = unsafe {
            kuj_run_order(
                self.lent.elements.pointer(),
                self.lent.control.pointer(),
                self.lent.marks.pointer(),
                opcodes.pointer(),
                queue.opcodes.len(),
                words.pointer(),
                queue.control_words.len(),
                scalars.pointer(),
                queue.scalars.len(),
                list.pointer(),
                order.len(),
                &mut self.lent.beside,
            )
        };
        count_marks_of_list(queue, order, (&self.state, &self.marks), &expected, report);
        let others = differing([("list", list.is_now(order))]);
        self.compare(call, number, &expected, others, report, || format!("{queue:X?} list of {}", order.len()));
        expected
    }

    fn load(&mut self, call: &'static str, bytes: &[u8], report: &mut Report) -> Left {
        let expected = load(bytes);
        let mut file = Lent::new(bytes, 0xC3);
        // SAFETY: as above.
        let number = unsafe {
            kuj_load(
                self.lent.elements.pointer(),
                self.lent.control.pointer(),
                self.lent.marks.pointer(),
                file.pointer(),
                bytes.len(),
                &mut self.lent.beside,
            )
        };
        let some = !self.marks.is_clear() && self.marks != Marks::all();
        report.count_marks("newly set by a file, beside others", expected.is_ok() && some);
        let others = differing([("file", file.is_now(bytes))]);
        self.compare(call, number, &expected, others, report, || format!("a file of {} bytes", bytes.len()));
        expected
    }

    /// Never refused.
    fn clear_marks(&mut self, call: &'static str, report: &mut Report) {
        // SAFETY: the marks have 16 words.
        let number = unsafe { kuj_clear_marks(self.lent.marks.pointer(), &mut self.lent.beside) };
        report.count_marks("cleared", !self.marks.is_clear());
        let expected = Ok((self.state.clone(), Marks::clear()));
        self.compare(call, number, &expected, Vec::new(), report, || "clearing".into());
    }

    /// A control write takes no marks.
    fn write(&mut self, call: &'static str, (control, put): (Control, WriteCall), value: u64, report: &mut Report) {
        let marks = self.marks;
        let expected = write_control(&self.state, control, value).map(|state| (state, marks));
        // SAFETY: the control has five numbers.
        let number = unsafe { put.call(self.lent.control.pointer(), value, &mut self.lent.beside) };
        self.compare(call, number, &expected, Vec::new(), report, || format!("{control:?} value {value:X}"));
    }

    /// The caller's own writing of elements, which are his between the calls: no mark comes of it.
    fn put_registers(&mut self, state: &State) {
        self.state.registers = state.registers;
        self.lent.elements = Lent::new(&elements_of(&self.state), UNWRITTEN);
    }
}

/// The ways in which marks are set or kept (document 02, Q-3): each has to come up. "Newly set" and "left clear" are
/// of bits that were clear before: of others a wrong mark would not show.
const MARKS: [&str; 25] = [
    "newly set by an operate instruction",
    "newly set by a masked operate instruction, others below VLR left clear",
    "newly set by a merge with MOE set, where the mask does not match",
    "newly set by an IOTA, others below VLR left clear",
    "newly set by an IOTA past the old VCR",
    "left clear by an IOTA below the old VCR",
    "newly set by a load",
    "newly set by a gather",
    "newly set by a masked load or gather, others below VLR left clear",
    "newly set by an exception",
    "newly set where the contents stayed",
    "newly set by a file, beside others",
    "newly set by a queue's first instruction and no other",
    "newly set by a list",
    "left clear by a list, where an instruction was masked otherwise at an earlier step",
    "kept in the register written",
    "kept in another register",
    "left clear by a compare, in the register of its relation's number",
    "left clear by a store",
    "left clear by a scatter",
    "left clear by a load or gather refused past an element",
    "left clear by a queue refused past an instruction",
    "left clear by a list refused past an entry",
    "cleared",
    "newly set after a clear in a sequence",
];

/// Counts an instruction's marks, by the state and marks it was handed and what it should leave.
fn count_marks_of_instruction(d: &Decoded, (before, marks): (&State, &Marks), result: &Left, report: &mut Report) {
    let clear = |&i: &usize| !marks.is_set(d.vc, i);
    let operated: Vec<usize> = (0..ELEMENTS).filter(|&i| is_operated(d, before, i)).collect();
    let (after, marks_after) = match result {
        Ok((after, marks_after)) => (after, marks_after),
        Err(refusal) => {
            let loads = matches!(d.work, Work::Load { .. } | Work::Gather { .. });
            let at_element = loads && matches!(refusal.number, MISALIGNED | OUTSIDE_WINDOW);
            let past = operated.iter().any(|i| clear(i) && (*i as u64) < refusal.beside);
            report.count_marks("left clear by a load or gather refused past an element", at_element && past);
            return;
        }
    };
    let new: Vec<usize> = (0..ELEMENTS).filter(|i| clear(i) && marks_after.is_set(d.vc, *i)).collect();
    let (any, vlr) = (!new.is_empty(), before.vlr as usize);
    let masked = any && (0..vlr).any(|i| clear(&i) && !operated.contains(&i));
    let operated_clear = operated.iter().any(clear);
    match d.work {
        Work::CompareL | Work::CompareF => {
            report.count_marks("left clear by a compare, in the register of its relation's number", operated_clear);
        }
        Work::Store { .. } => report.count_marks("left clear by a store", operated_clear),
        Work::Scatter { .. } => report.count_marks("left clear by a scatter", operated_clear),
        Work::Load { .. } | Work::Gather { .. } => {
            let gathers = matches!(d.work, Work::Gather { .. });
            report.count_marks(if gathers { "newly set by a gather" } else { "newly set by a load" }, any);
            report.count_marks("newly set by a masked load or gather, others below VLR left clear", masked);
        }
        Work::Merge => {
            let unmatched = new.iter().any(|&i| (before.vmr >> i & 1 == 1) != d.mtf);
            report.count_marks("newly set by a merge with MOE set, where the mask does not match", d.moe && unmatched);
        }
        Work::Iota => {
            let (old, count) = (before.vcr as usize, after.vcr as usize);
            let left = any && (count..vlr).any(|i| clear(&i));
            report.count_marks("newly set by an IOTA, others below VLR left clear", left);
            report.count_marks("newly set by an IOTA past the old VCR", new.iter().any(|&i| i >= old));
            report.count_marks("left clear by an IOTA below the old VCR", (count..old).any(|i| clear(&i)));
        }
        _ => {
            report.count_marks("newly set by an operate instruction", any);
            report.count_marks("newly set by a masked operate instruction, others below VLR left clear", masked);
            let recorded = |&i: &usize| {
                let a = if d.scalar_form { d.scalar } else { before.registers[d.va][i] };
                element_work(d, a, before.registers[d.vb][i], before.registers[d.vc][i], false).types != 0
            };
            report.count_marks("newly set by an exception", new.iter().any(recorded));
        }
    }
    let stayed = new.iter().any(|&i| after.registers[d.vc][i] == before.registers[d.vc][i]);
    report.count_marks("newly set where the contents stayed", stayed);
    let written = |i: usize| if d.work == Work::Iota { (i as u64) < after.vcr } else { operated.contains(&i) };
    let kept_beside = (0..ELEMENTS).any(|i| marks.is_set(d.vc, i) && !written(i));
    report.count_marks("kept in the register written", any && kept_beside);
    let kept_elsewhere = (0..REGISTERS).any(|register| register != d.vc && marks.words[register] != 0);
    report.count_marks("kept in another register", any && kept_elsewhere);
}

/// The same of a queue.
fn count_marks_of_queue(queue: &Queue, (before, marks): (&State, &Marks), result: &Left, report: &mut Report) {
    match result {
        Ok(_) => {
            let mut state = before.clone();
            let marks_of = |d: &Decoded| {
                let mut own = Marks::clear();
                whole_instruction(d, &mut state, &mut own);
                own
            };
            let each: Vec<Marks> = accept(before, queue).expect("an accepted queue").iter().map(marks_of).collect();
            let alone = each.split_first().is_some_and(|(first, others)| {
                let elsewhere = |register: usize| others.iter().fold(0, |word, marks| word | marks.words[register]);
                (0..REGISTERS).any(|r| first.words[r] & !marks.words[r] & !elsewhere(r) != 0) && !others.is_empty()
            });
            report.count_marks("newly set by a queue's first instruction and no other", alone);
        }
        Err(refusal) => {
            let at_position = matches!(refusal.number, RESERVED_OPCODE | MEMORY_IN_QUEUE | RESERVED_CONTROL_WORD)
                && refusal.beside > 0;
            let first_marks = || {
                let first = Queue {
                    opcodes: queue.opcodes[..1].to_vec(),
                    control_words: queue.control_words[..1].to_vec(),
                    scalars: queue.scalars[..1].to_vec(),
                };
                run(before, marks, &first).is_ok_and(|(_, marks_after)| marks_after != *marks)
            };
            report.count_marks("left clear by a queue refused past an instruction", at_position && first_marks());
        }
    }
}

/// The same of a list, for a queue that is accepted.
fn count_marks_of_list(
    queue: &Queue,
    order: &[u64],
    (before, marks): (&State, &Marks),
    result: &Left,
    report: &mut Report,
) {
    let Ok(instructions) = accept(before, queue) else { return };
    match result {
        Ok((_, marks_after)) => {
            report.count_marks("newly set by a list", marks_after != marks);
            let wrong = marks_by_whole_instructions(&instructions, order, before, marks);
            let way = "left clear by a list, where an instruction was masked otherwise at an earlier step";
            report.count_marks(way, wrong != *marks_after);
        }
        Err(refusal) => {
            let mut added = *marks;
            if refusal.beside > 0 {
                let (position, element) = (order[0] as usize / 64, order[0] as usize % 64);
                step(&instructions[position], element, &mut before.clone(), &mut added);
            }
            report.count_marks("left clear by a list refused past an entry", added != *marks);
        }
    }
}

/// What a list would leave if each step marked all that its instruction would write at that time. That a step marks its
/// own element alone shows only where these marks are others: where a mask bit is changed between two steps.
fn marks_by_whole_instructions(instructions: &[Decoded], order: &[u64], before: &State, marks: &Marks) -> Marks {
    let (mut state, mut wrong) = (before.clone(), *marks);
    for &entry in order {
        let d = &instructions[entry as usize / 64];
        if d.work != Work::Iota && !d.work.is_compare() {
            (0..ELEMENTS).filter(|&i| is_operated(d, &state, i)).for_each(|i| wrong.set(d.vc, i));
        }
        step(d, entry as usize % 64, &mut state, &mut wrong);
    }
    wrong
}

fn compare_execute(random: &mut Random, cases: u64, report: &mut Report) {
    let accepted: Vec<u8> = [accepted_opcodes(false), accepted_opcodes(true)].concat();
    for case in 0..cases {
        let mut state = state(random);
        // Every accepted opcode in turn, memory ones twice as often, and any opcode now and then.
        let opcode = match case % 8 {
            0 => random.bits() as u8,
            1 | 2 => random.pick(&accepted_opcodes(true)),
            _ => accepted[(case / 8 % accepted.len() as u64) as usize],
        };
        let mut instruction = instruction(random, opcode);
        let decoded = fields(work_of(opcode).unwrap_or(Work::Load { bytes: 4 }), &instruction);
        let memory = memory(random, &decoded, &mut state);
        if decoded.work == Work::DivideF && random.flip() {
            quotients(random, &mut instruction, &mut state);
        }
        if decoded.work == Work::MultiplyF && random.flip() {
            small_products(random, &mut instruction, &mut state);
        }
        let Ok((after, _)) = Held::new(&state, &marks(random)).execute("execute", &instruction, &memory, report) else {
            continue;
        };
        *report.done.entry(opcode).or_default() += 1;
        if decoded.work == Work::DivideF {
            for (code, kind) in QUOTIENT_CODES {
                let written =
                    (0..64).any(|i| is_operated(&decoded, &state, i) && after.registers[decoded.vc][i] as u32 == code);
                *report.divisions.entry(kind).or_default() += u64::from(written);
            }
        }
        if decoded.work == Work::MultiplyF {
            let form = if decoded.scalar_form { "instructions with a scalar" } else { "instructions with registers" };
            count_products(&fields(decoded.work, &instruction), &state, report.products.entry(form).or_default());
        }
    }
}

/// What a division writes for its exceptions: each has to come up in a done instruction.
const QUOTIENT_CODES: [(u32, &str); 5] = [
    (0x8001, "instructions done that wrote 8001"),
    (0x8002, "instructions done that wrote 8002"),
    (0x8004, "instructions done that wrote 8004"),
    (0x8006, "instructions done that wrote 8006"),
    (0x8008, "instructions done that wrote 8008"),
];

const DIVISIONS_IN_QUEUES: [&str; 5] = [
    "queues done with a division",
    "lists done with a division",
    "lists done with a division that recorded a zero divisor",
    "lists refused at a division's step",
    "lists refused for the Va of a division alone",
];

/// Where products about the smallest number have to come up (document 02, Q-2).
const PRODUCTS: [&str; 4] = ["instructions with registers", "instructions with a scalar", "queues", "lists"];

/// Counts those of a multiplication that is done on a state.
fn count_products(multiply: &Decoded, state: &State, met: &mut Met) {
    for i in (0..64).filter(|&i| is_operated(multiply, state, i)) {
        let a = if multiply.scalar_form { multiply.scalar } else { state.registers[multiply.va][i] };
        met.count(a as u32, state.registers[multiply.vb][i] as u32, multiply.exc);
    }
}

/// Those of an accepted queue's first instruction, whose operands are the state's own, also by a permitted list.
fn count_first_products(queue: &Queue, state: &State, met: &mut Met) {
    let instructions = accept(state, queue).expect("an accepted queue");
    if let Some(first) = instructions.first().filter(|first| first.work == Work::MultiplyF) {
        count_products(first, state, met);
    }
}

/// The positions of a queue's divisions.
fn divisions_of(queue: &Queue) -> Vec<usize> {
    (0..queue.opcodes.len()).filter(|&position| work_of(queue.opcodes[position]) == Some(Work::DivideF)).collect()
}

fn lend_queue(queue: &Queue) -> (Lent<u8>, Lent<u16>, Lent<u64>) {
    (Lent::new(&queue.opcodes, 0xC3), Lent::new(&queue.control_words, 0xC3C3), Lent::new(&queue.scalars, UNWRITTEN))
}

fn compare_run(random: &mut Random, cases: u64, report: &mut Report) {
    for _ in 0..cases {
        let (mut state, mut queue) = (state(random), any_queue(random));
        if random.once_in(8) {
            small_products_first(random, &mut queue, &mut state);
        }
        let mut held = Held::new(&state, &marks(random));
        // A second call on what a done one left: 3 where something was recorded.
        for _ in 0..2 {
            let before = held.state.clone();
            if held.run("run", &queue, report).is_err() {
                break;
            }
            if before.vlr > 0 && !divisions_of(&queue).is_empty() {
                *report.divisions.entry("queues done with a division").or_default() += 1;
            }
            count_first_products(&queue, &before, report.products.entry("queues").or_default());
        }
    }
}

/// A list for a queue: permitted, damaged, against one binding, or (for a queue that is refused) anything.
fn list_for(random: &mut Random, state: &State, queue: &Queue) -> Vec<u64> {
    let Ok(instructions) = accept(state, queue) else {
        return (0..random.below(5)).map(|_| random.below(1_100)).collect();
    };
    let vlr = state.vlr as usize;
    if random.once_in(3) {
        if let Some(order) = order_against_one_binding(random, &instructions, vlr) {
            return order;
        }
    }
    let mut order = permitted_order(random, &instructions, vlr);
    if random.flip() {
        for _ in 0..random.between(1, 2) {
            damage_order(random, &mut order);
        }
    }
    order
}

/// What a list's case is counted as, so that a kind that never comes up is noticed. The longest lists are
/// counted with an exception too: few queues of 16 on all elements record none.
fn kinds_of_list(after: Result<&State, ()>, entries: usize) -> Vec<&'static str> {
    let Ok(after) = after else { return vec!["refused"] };
    let mut kinds = vec![if after.vpsr & VEN == 0 { "done with an exception" } else { "done" }];
    if entries == 1024 {
        kinds.push("done, 1,024 entries");
    }
    kinds
}

const KINDS_OF_LISTS: [&str; 4] = ["refused", "done", "done with an exception", "done, 1,024 entries"];

/// A state and a queue for a list: now and then at VLR 1 or 2, and as long as they come.
fn listed(random: &mut Random) -> (State, Queue) {
    let (mut state, queue) = (state(random), any_queue(random));
    match random.below(16) {
        0..=1 => state.vlr = random.between(1, 2),
        2 => {
            state.vlr = 64;
            return (state, full_queue(random));
        }
        _ => (),
    }
    (state, queue)
}

fn compare_run_order(random: &mut Random, cases: u64, report: &mut Report) {
    for _ in 0..cases {
        let (mut state, mut queue) = listed(random);
        if random.once_in(8) {
            small_products_first(random, &mut queue, &mut state);
        }
        let order = list_for(random, &state, &queue);
        let accepted = accept(&state, &queue).is_ok();
        let mut held = Held::new(&state, &marks(random));
        // A second call on what a done one left: 3 where something was recorded.
        for call in 0..2 {
            let before = held.state.clone();
            let expected = held.run_order("run_order", &queue, &order, report);
            if call == 0 && accepted {
                for kind in kinds_of_list(expected.as_ref().map(|(after, _)| after).map_err(|_| ()), order.len()) {
                    *report.lists.entry(kind).or_default() += 1;
                }
                count_divisions(&before, &queue, &order, &expected, report);
            }
            if expected.is_err() {
                break;
            }
            count_first_products(&queue, &before, report.products.entry("lists").or_default());
        }
    }
}

/// Counts an accepted queue's list by what becomes of its divisions.
fn count_divisions(before: &State, queue: &Queue, order: &[u64], result: &Left, report: &mut Report) {
    let positions = divisions_of(queue);
    if positions.is_empty() || before.vlr == 0 {
        return;
    }
    let mut count = |kind: &'static str, came: bool| *report.divisions.entry(kind).or_default() += u64::from(came);
    match result {
        Ok((after, _)) => {
            count("lists done with a division", true);
            let recorded = before.vaer & 2 == 0 && after.vaer & 2 != 0;
            count("lists done with a division that recorded a zero divisor", recorded);
        }
        Err(refusal) => {
            // A step that comes too early, or a repeat of it.
            let entry = order.get(refusal.beside as usize).copied().unwrap_or(u64::MAX);
            let step = positions.iter().any(|&position| entry / 64 == position as u64) && entry % 64 < before.vlr;
            count("lists refused at a division's step", step);
            // As if no division read Va: the list would be permitted, or refused later.
            let mut instructions = accept(before, queue).expect("an accepted queue");
            positions.iter().for_each(|&position| instructions[position].scalar_form = true);
            let otherwise = first_bad_entry(&steps(&instructions, before.vlr as usize), order);
            count("lists refused for the Va of a division alone", otherwise != Some(refusal.beside as usize));
        }
    }
}

fn compare_files(random: &mut Random, cases: u64, report: &mut Report) {
    for _ in 0..cases {
        let (state, room) = (state(random), room(random));
        let expected = save(&state, room);
        let held: Vec<u8> = (0..room).map(|_| random.bits() as u8).collect();
        let mut lent = LentState::unmarked(&state);
        let mut file = Lent::new(&held, 0xC3);
        // SAFETY: as above.
        let number = unsafe {
            kuj_save(lent.elements.pointer(), lent.control.pointer(), file.pointer(), room, &mut lent.beside)
        };
        let mut after = held.clone();
        if let Ok(bytes) = &expected {
            after[..bytes.len()].copy_from_slice(bytes);
        }
        let mut parts = lent.differing(&state, &Marks::clear());
        parts.extend(differing([("file", file.is_now(&after))]));
        report.case("save", (number, lent.beside), answer(&expected, |_| 0), &parts, || {
            format!("room {room}; {}", controls_text(&state))
        });

        let _ = Held::new(&state, &marks(random)).load("load", &saved_file(random), report);
    }
}

fn compare_clear_marks(random: &mut Random, cases: u64, report: &mut Report) {
    let state = State::enabled();
    for _ in 0..cases {
        Held::new(&state, &marks(random)).clear_marks("clear_marks", report);
    }
}

fn compare_readings(random: &mut Random, cases: u64, report: &mut Report) {
    const FIELDS: u64 = 32;
    for _ in 0..cases.div_ceil(FIELDS) {
        let mut state = state(random);
        // More zeros and reserved operands than a run of instructions would want.
        for register in state.registers.iter_mut() {
            for element in register.iter_mut() {
                if random.once_in(4) {
                    *element = *element >> 32 << 32 | u64::from(exponent_zero(random));
                }
            }
        }
        let mut lent = LentState::unmarked(&state);
        for _ in 0..FIELDS {
            let mut field = |limit: u64| field_number(random, limit);
            let (register, element, kind) = (field(16), field(64), field(2));
            let expected = reading(&state, register, element, kind);
            let (mut kind_read, mut bits) = (UNWRITTEN, UNWRITTEN);
            lent.beside = UNWRITTEN;
            // SAFETY: as above.
            let number = unsafe {
                kuj_reading(
                    lent.elements.pointer(),
                    lent.control.pointer(),
                    register,
                    element,
                    kind,
                    &mut kind_read,
                    &mut bits,
                    &mut lent.beside,
                )
            };
            let read = match expected {
                Ok(Reading::Binary64(bits)) => (0, bits),
                Ok(Reading::Longword(value)) => (1, u64::from(value as u32)),
                Ok(Reading::Reserved(code)) => (2, u64::from(code)),
                Err(_) => (UNWRITTEN, UNWRITTEN),
            };
            // Each kind of reading counts as a number of its own, from 100 on.
            let expected_answer = answer(&expected, |_| 0);
            let mut parts = lent.differing(&state, &Marks::clear());
            parts.extend(differing([("reading", (kind_read, bits) == read)]));
            report.case("reading", (number, lent.beside), expected_answer, &parts, || {
                format!("V{register}[{element}] kind {kind}: read {kind_read} {bits:X}, expected {read:X?}")
            });
            if expected.is_ok() {
                *report.numbers.get_mut("reading").unwrap().entry(100 + read.0 as u32).or_default() += 1;
            }
            let cut = |number: u32| number % 256;
            if state.in_range() && cut(register) < 16 && cut(element) < 64 && cut(kind) < 2 {
                for (name, number) in [("register", register), ("element", element), ("kind", kind)] {
                    if number > 255 {
                        *report.wide.entry(name).or_default() += 1;
                    }
                }
            }
        }
    }
}

type ReadCall = unsafe extern "C" fn(*const u64, *mut u64) -> u32;

#[derive(Clone, Copy)]
enum WriteCall {
    /// VLR and VCR.
    Length(unsafe extern "C" fn(*mut u64, u64, *mut u64) -> u32),
    /// The halves of VMR, and VPSR.
    Word(unsafe extern "C" fn(*mut u64, u32, *mut u64) -> u32),
}

impl WriteCall {
    /// # Safety
    ///
    /// The control has five numbers.
    unsafe fn call(self, control: *mut u64, value: u64, beside: *mut u64) -> u32 {
        match self {
            WriteCall::Length(put) => put(control, value, beside),
            WriteCall::Word(put) => put(control, u32::try_from(value).expect("32 bits"), beside),
        }
    }
}

const READS: [(&str, Control, ReadCall); 6] = [
    ("read_vlr", Control::Vlr, kuj_read_vlr),
    ("read_vcr", Control::Vcr, kuj_read_vcr),
    ("read_vmr_low", Control::VmrLow, kuj_read_vmr_low),
    ("read_vmr_high", Control::VmrHigh, kuj_read_vmr_high),
    ("read_vaer", Control::Vaer, kuj_read_vaer),
    ("read_vpsr", Control::Vpsr, kuj_read_vpsr),
];

const WRITES: [(&str, Control, WriteCall); 5] = [
    ("write_vlr", Control::Vlr, WriteCall::Length(kuj_write_vlr)),
    ("write_vcr", Control::Vcr, WriteCall::Length(kuj_write_vcr)),
    ("write_vmr_low", Control::VmrLow, WriteCall::Word(kuj_write_vmr_low)),
    ("write_vmr_high", Control::VmrHigh, WriteCall::Word(kuj_write_vmr_high)),
    ("write_vpsr", Control::Vpsr, WriteCall::Word(kuj_write_vpsr)),
];

fn compare_control_moves(random: &mut Random, cases: u64, report: &mut Report) {
    let bare = State::zero();
    for _ in 0..cases {
        let mut state = State { vlr: length(random), vmr: mask(random), vcr: length(random), ..bare.clone() };
        state.vaer = random.bits() & VAER_BITS;
        state.vpsr = random.pick(&[0, VEN, VEN, VEN, AEX, VEN | AEX]);
        if random.once_in(16) {
            break_range(random, &mut state);
        }
        for (name, control, call) in READS {
            let mut lent = LentState::unmarked(&state);
            // SAFETY: the control has five numbers.
            let number = unsafe { call(lent.control.pointer(), &mut lent.beside) };
            let expected = answer(&read_control(&state, control), |&value| value);
            let parts = differing([("control", lent.control.is_now(&control_of(&state)))]);
            report.case(name, (number, lent.beside), expected, &parts, || controls_text(&state));
        }
        for (name, control, call) in WRITES {
            let word = control_value(random);
            let value = if matches!(call, WriteCall::Length(_)) { length_value(random) } else { word.into() };
            let expected = write_control(&state, control, value);
            let mut lent = LentState::unmarked(&state);
            // SAFETY: the control has five numbers.
            let number = unsafe { call.call(lent.control.pointer(), value, &mut lent.beside) };
            if expected.as_ref().is_err_and(|refusal| refusal.number == CONTROL_VALUE)
                && value >> 32 != 0
                && value as u32 <= 64
            {
                *report.wide.entry(name).or_default() += 1;
            }
            let after = control_of(expected.as_ref().unwrap_or(&state));
            let parts = differing([("control", lent.control.is_now(&after))]);
            report.case(name, (number, lent.beside), answer(&expected, |_| 0), &parts, || {
                format!("value {value:X}; {}", controls_text(&state))
            });
        }
    }
}

/// The calls of sequences, counted by themselves; the control writes together.
const IN_SEQUENCES: [&str; 6] = [
    "execute, in sequences",
    "run, in sequences",
    "run_order, in sequences",
    "load, in sequences",
    "clear_marks, in sequences",
    "control writes, in sequences",
];

/// Sequences of calls on one state and one set of marks, handed on from each to the next.
fn compare_sequences(random: &mut Random, sequences: u64, report: &mut Report) {
    const CALLS: usize = 32;
    let [executes, runs, lists, loads, clears, writes] = IN_SEQUENCES;
    let accepted: Vec<u8> = [accepted_opcodes(false), accepted_opcodes(true), accepted_opcodes(true)].concat();
    for _ in 0..sequences {
        let first_marks = if random.flip() { Marks::clear() } else { marks(random) };
        let mut held = Held::new(&state(random), &first_marks);
        let mut cleared = false;
        for _ in 0..CALLS {
            let before = held.marks;
            // Most are refused by a state out of range, which only a file mends, and by one that is disabled, which a
            // write of VPSR enables: so that these come often enough, and soon enough are over.
            let (in_range, enabled) = (held.state.in_range(), held.state.vpsr & VEN != 0);
            let call = match random.below(16) {
                _ if !in_range && random.once_in(8) => 2,
                _ if !enabled && random.flip() => 3,
                drawn => drawn,
            };
            match call {
                0 | 1 => {
                    held.clear_marks(clears, report);
                    cleared |= !before.is_clear();
                }
                2 => drop(held.load(loads, &saved_file(random), report)),
                3..=5 => {
                    let [.., vpsr] = WRITES;
                    let (_, control, put) = if !enabled && random.flip() { vpsr } else { random.pick(&WRITES) };
                    let value = match control {
                        Control::Vlr | Control::Vcr if random.once_in(4) => length_value(random),
                        Control::Vlr | Control::Vcr => length(random),
                        Control::Vpsr if random.once_in(4) => control_value(random).into(),
                        Control::Vpsr => random.pick(&[0x81, 0x81, 0x83, 1, 1, 0]),
                        _ => mask(random) >> 32,
                    };
                    held.write(writes, (control, put), value, report);
                }
                6..=9 => {
                    let opcode = if random.once_in(16) { random.bits() as u8 } else { random.pick(&accepted) };
                    let instruction = instruction(random, opcode);
                    let decoded = fields(work_of(opcode).unwrap_or(Work::Load { bytes: 4 }), &instruction);
                    let mut state = held.state.clone();
                    let memory = memory(random, &decoded, &mut state);
                    if state != held.state {
                        held.put_registers(&state);
                    }
                    drop(held.execute(executes, &instruction, &memory, report));
                }
                10..=12 => drop(held.run(runs, &any_queue(random), report)),
                _ => {
                    let queue = any_queue(random);
                    let order = list_for(random, &held.state, &queue);
                    drop(held.run_order(lists, &queue, &order, report));
                }
            }
            if !held.same {
                break;
            }
            let added = (0..REGISTERS).any(|register| held.marks.words[register] & !before.words[register] != 0);
            report.count_marks("newly set after a clear in a sequence", cleared && added && call > 5);
        }
    }
}

/// The numbers each call can give; for readings also 100 and its kind.
fn numbers_of(call: &str) -> &'static [u32] {
    match call.strip_suffix(", in sequences").unwrap_or(call) {
        "execute" => &[0, 1, 2, 3, 4, 5, 6, 12],
        "run" => &[0, 1, 2, 3, 7, 8, 12],
        "run_order" => &[0, 1, 2, 3, 7, 8, 9, 12],
        "save" => &[0, 10, 12],
        "load" => &[0, 10],
        "clear_marks" => &[0],
        "control writes" => &[0, 3, 11, 12],
        "reading" => &[0, 12, 13, 100, 101, 102],
        "read_vaer" | "read_vpsr" => &[0, 12],
        "write_vlr" | "write_vcr" => &[0, 3, 11, 12],
        "write_vpsr" => &[0, 11, 12],
        _ => &[0, 3, 12],
    }
}

/// The outside vectors through `kuj_execute`: V1[0], or the scalar, and V2[0] in, V3[0] or VMR<0> out.
struct Executed {
    scalar: bool,
    /// How often the marks were not V3[0]'s alone, or of a compare not clear.
    marks_differ: Cell<usize>,
}

impl Executed {
    /// Conversions have no form with a scalar.
    fn tables<'a>(&self, tables: &[&'a str]) -> Vec<&'a str> {
        tables.iter().copied().filter(|table| !(self.scalar && table.starts_with("CVT"))).collect()
    }
}

impl Arithmetic for Executed {
    fn work(&self, table: &str, a: u32, b: u32, exc: bool, relation: u32) -> Result32 {
        let (vector_opcode, va) = instruction_of(table);
        // With a scalar, V1[0] is not what is wanted.
        let (opcode, scalar, first) = if self.scalar { (vector_opcode | 1, a, !a) } else { (vector_opcode, 0, a) };
        let compare = table.starts_with("CMP");
        let vc = if compare { relation as u16 } else { 3 };
        let cntrl = u16::from(exc) << 13 | va << 8 | 2 << 4 | vc;
        let mut elements = vec![0u64; 1024];
        elements[64] = first.into();
        elements[128] = b.into();
        let mut control = [1u64, 0, 0, 0, 1];
        let (mut marks, mut expected_marks) = (Marks::clear(), Marks::clear());
        let (mut beside, mut window) = (0u64, [0u8; 1]);
        // SAFETY: 1,024 elements, 5 control numbers, 16 words of marks, an empty window, one number beside.
        let number = unsafe {
            kuj_execute(
                elements.as_mut_ptr(),
                control.as_mut_ptr(),
                marks.words.as_mut_ptr(),
                opcode,
                cntrl,
                scalar.into(),
                0,
                0,
                window.as_mut_ptr(),
                0,
                0,
                &mut beside,
            )
        };
        assert_eq!((number, beside), (0, 0), "{table} is accepted");
        if !compare {
            expected_marks.set(3, 0);
        }
        self.marks_differ.set(self.marks_differ.get() + usize::from(marks != expected_marks));
        let value = if compare { control[1] as u32 } else { elements[192] as u32 };
        (value, control[3] as u32 & 0x3F)
    }
}

/// Of the 256 opcodes (document 02, Q-1).
const RESERVED_OPCODES: usize = 216;

/// All 256 opcodes with all 65,536 control words, at VLR 0 and with an empty window: which number
/// each gets. None writes an element, and no mark changes.
fn compare_acceptance(report: &mut Report) {
    let mut reserved = BTreeSet::new();
    let mut elements = vec![0u64; 1024];
    let mut window = [0u8; 1];
    let handed: [u64; REGISTERS] = std::array::from_fn(|register| 0x9249_2492_4924_9249 << (register % 3));
    for opcode in 0..=255u8 {
        for cntrl in 0..=65_535u16 {
            let mut control = [0u64, 0, 0, 0, 1];
            let (mut marks, mut beside) = (handed, 99u64);
            // SAFETY: as above.
            let number = unsafe {
                kuj_execute(
                    elements.as_mut_ptr(),
                    control.as_mut_ptr(),
                    marks.as_mut_ptr(),
                    opcode,
                    cntrl,
                    0,
                    0,
                    0,
                    window.as_mut_ptr(),
                    0,
                    0,
                    &mut beside,
                )
            };
            if number == RESERVED_OPCODE {
                reserved.insert(opcode);
            }
            let instruction = Instruction { opcode, control_word: cntrl, scalar: 0 };
            let expected = match work_of(opcode) {
                None => RESERVED_OPCODE,
                Some(work) if control_word_is_reserved(&fields(work, &instruction)) => RESERVED_CONTROL_WORD,
                Some(_) => 0,
            };
            if (number, beside, marks) != (expected, 0, handed) {
                report.differences += 1;
                if report.differences <= SHOWN {
                    let rest = if marks == handed { "" } else { "; marks differ" };
                    println!("DIFFERS: opcode {opcode:02X}, control word {cntrl:04X}: {number} {beside}, expected {expected} 0{rest}");
                }
            }
        }
    }
    report.differences += u64::from(reserved.len() != RESERVED_OPCODES);
    println!(
        "acceptance: 16777216 opcodes and control words; {} opcodes reserved, {RESERVED_OPCODES} expected",
        reserved.len()
    );
}

fn main() -> ExitCode {
    let arguments: Vec<u64> =
        std::env::args().skip(1).map(|text| text.parse().expect("arguments are whole numbers")).collect();
    let cases = arguments.first().copied().unwrap_or(20_000);
    let seed = arguments.get(1).copied().unwrap_or(1);
    println!("{cases} cases a call, seed {seed}");
    let mut random = Random::new(seed);
    let mut report = Report::default();
    compare_control_moves(&mut random, cases, &mut report);
    compare_execute(&mut random, cases, &mut report);
    compare_run(&mut random, cases, &mut report);
    compare_run_order(&mut random, cases.div_ceil(4), &mut report);
    compare_files(&mut random, cases.div_ceil(4), &mut report);
    compare_clear_marks(&mut random, cases, &mut report);
    compare_sequences(&mut random, cases.div_ceil(40), &mut report);
    compare_readings(&mut random, cases, &mut report);
    compare_acceptance(&mut report);
    for (form, scalar) in [("registers", false), ("a scalar", true)] {
        let executed = Executed { scalar, marks_differ: Cell::new(0) };
        for tables in [&F_TABLES[..], &L_TABLES[..]] {
            let found =
                check(&directory(), &executed.tables(tables), &executed).expect("the outside vectors can be read");
            for difference in found.differences.iter().take(20) {
                println!("DIFFERS: with {form}: {difference}");
            }
            println!("outside vectors with {form}: {found}");
            report.differences += found.differences.len() as u64;
        }
        let marks_differ = executed.marks_differ.get() as u64;
        if marks_differ > 0 {
            println!("DIFFERS: with {form}: the marks of {marks_differ} results");
        }
        report.differences += marks_differ;
    }

    let mut missing = 0;
    for (call, numbers) in &report.numbers {
        let counts: Vec<String> = numbers.iter().map(|(number, count)| format!("{number}: {count}")).collect();
        println!("{call}: {}", counts.join(", "));
        for number in numbers_of(call) {
            if !numbers.contains_key(number) {
                println!("{call} never came to {number}");
                missing += 1;
            }
        }
    }
    let accepted = [accepted_opcodes(false), accepted_opcodes(true)].concat();
    let done: Vec<u64> = accepted.iter().map(|opcode| report.done.get(opcode).copied().unwrap_or(0)).collect();
    println!("accepted opcodes: {}, each done {} times or more", accepted.len(), done.iter().min().unwrap());
    for (opcode, _) in accepted.iter().zip(&done).filter(|(_, &count)| count == 0) {
        println!("execute never did opcode {opcode:02X}");
        missing += 1;
    }
    for kind in KINDS_OF_LISTS {
        let count = report.lists.get(kind).copied().unwrap_or(0);
        println!("lists {kind}: {count}");
        if count == 0 {
            missing += 1;
        }
    }
    for kind in DIVISIONS_IN_QUEUES.into_iter().chain(QUOTIENT_CODES.map(|(_, kind)| kind)) {
        let count = report.divisions.get(kind).copied().unwrap_or(0);
        println!("divisions, {kind}: {count}");
        if count == 0 {
            missing += 1;
        }
    }
    for place in PRODUCTS {
        let met = report.products.entry(place).or_default();
        let least = met.least(&[false, true]);
        println!("{place}: {met}; each of either sign, EXC clear and set, {least} times or more");
        if least == 0 {
            missing += 1;
        }
    }
    for way in MARKS {
        let count = report.marks.get(way).copied().unwrap_or(0);
        println!("marks {way}: {count}");
        if count == 0 {
            missing += 1;
        }
    }
    for call in ["execute", "run", "run_order", "load"] {
        let refused = report.refused_with_marks.entry(call).or_default();
        let counts = numbers_of(call).iter().filter(|&&number| number != 0);
        let counts: Vec<u64> = counts.map(|number| refused.get(number).copied().unwrap_or(0)).collect();
        let least = counts.iter().min().unwrap();
        println!("marks not clear, kept by a refusal of {call}: each number {least} times or more");
        if *least == 0 {
            missing += 1;
        }
    }
    for number in ["register", "element", "kind", "write_vlr", "write_vcr"] {
        let count = report.wide.get(number).copied().unwrap_or(0);
        println!("{number} refused that would be accepted if it were cut: {count}");
        if count == 0 {
            missing += 1;
        }
    }
    println!("{} differ", report.differences);
    // Those that take a state, clear_marks, and the calls of sequences.
    let calls = READS.len() + WRITES.len() + 6 + 1 + IN_SEQUENCES.len();
    let same = report.differences == 0 && missing == 0 && report.numbers.len() == calls;
    println!("{}", if same { "SAME" } else { "DIFFERENT" });
    if same {
        ExitCode::SUCCESS
    } else {
        ExitCode::FAILURE
    }
}
