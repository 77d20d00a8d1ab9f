//! The proved library, linked as a caller links it, and held against the original.
//! "The rules" are docs/RULES.md, which fixes what the library must answer.

pub mod buffers;
pub mod call;
pub mod differ;
mod ffi;
pub mod images;
mod memcheck;
pub mod refusals;
pub mod sheet;
