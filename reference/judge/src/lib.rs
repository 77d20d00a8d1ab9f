//! The judge: cases, the original's answers to them, and an independent model of the rules.
//! "The rules" are docs/RULES.md, which fixes what the port must answer.

pub mod answer;
pub mod case;
pub mod cases;
pub mod compare;
pub mod leb128;
pub mod model;
pub mod options;
pub mod original;
pub mod parallel;
pub mod record;
pub mod rng;
pub mod tell;
pub mod text;
