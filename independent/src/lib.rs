//! A second program for document 01 and document 02's, written from the papers alone. It shares no
//! code with the proved library and takes the plainest way everywhere: it is what the proved library is
//! compared with.

pub mod float;
pub mod generate;
pub mod machine;
pub mod marks;
pub mod queue;
pub mod random;
pub mod saved;
pub mod smallest;
pub mod text;
pub mod vectors;
pub mod whole;
