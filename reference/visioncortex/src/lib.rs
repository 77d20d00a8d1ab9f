//! The original `color_clusters` of visioncortex. Its nine files are compiled unchanged from where
//! they lie; this crate adds only the root module and stand-ins for the files that are not taken.

// point.rs names these two crates; the traits that it takes from them are among the stand-ins.
extern crate self as flo_curves;
extern crate self as num_traits;

mod stand_ins;

pub use stand_ins::*;

include!(concat!(env!("OUT_DIR"), "/root.rs"));
