//! Marks (document 02, Q-3): which elements were written since the last clear. They stand beside the state, and are
//! not saved. An element is marked in the one place where it is written, so that no list of what each work writes
//! is needed here; that the marks are those which Q-3 lists is tried in `generate.rs`.

use crate::machine::{ELEMENTS, REGISTERS};

/// One word a register; bit i of it is element i's.
#[derive(Clone, Copy, PartialEq, Eq, Debug)]
pub struct Marks {
    pub words: [u64; REGISTERS],
}

impl Marks {
    /// "new marks start clear". Clearing old ones gives the same.
    pub fn clear() -> Marks {
        Marks { words: [0; REGISTERS] }
    }

    /// "Loading a file sets all bits."
    pub fn all() -> Marks {
        Marks { words: [u64::MAX; REGISTERS] }
    }

    pub fn set(&mut self, register: usize, element: usize) {
        assert!(element < ELEMENTS);
        self.words[register] |= 1 << element;
    }

    pub fn is_set(&self, register: usize, element: usize) -> bool {
        self.words[register] >> element & 1 == 1
    }

    /// The elements marked, register after register.
    pub fn elements(&self) -> Vec<(usize, usize)> {
        let all = (0..REGISTERS).flat_map(|register| (0..ELEMENTS).map(move |element| (register, element)));
        all.filter(|&(register, element)| self.is_set(register, element)).collect()
    }

    pub fn is_clear(&self) -> bool {
        *self == Marks::clear()
    }
}
