//! The calls of the library, without their pointers.

use std::ptr;
use std::sync::atomic::{AtomicUsize, Ordering};

use judge::case::{Case, KeyingAction, Settings};
use judge::text;

use crate::buffers::Buffers;
use crate::ffi::{
    color_clusters_paint, color_clusters_row_check, color_clusters_run,
    color_clusters_run_and_paint, color_clusters_store,
};
use crate::sheet::Sheet;

pub use crate::ffi::Answer;

/// What a run is given besides buffers; nothing here needs to be what the rules accept.
#[derive(Clone, Copy, Debug)]
pub struct Call<'a> {
    /// The settings; `action` stands for their keying action.
    pub settings: &'a Settings,
    /// 0 keeps pixels of the key colour, any other number discards them.
    pub action: u32,
    pub width: u32,
    pub height: u32,
    pub image: &'a [u8],
}

impl<'a> Call<'a> {
    /// The call that a case asks for.
    pub fn of(case: &'a Case) -> Self {
        Self {
            settings: &case.settings,
            action: match case.settings.keying_action {
                KeyingAction::Keep => 0,
                KeyingAction::Discard => 1,
            },
            width: case.width,
            height: case.height,
            image: &case.image,
        }
    }

    /// The call as a line in the judge's form of a case.
    pub fn line(&self) -> String {
        text::format_case(&Case {
            settings: self.settings.clone(),
            width: self.width,
            height: self.height,
            image: self.image.to_vec(),
        })
    }
}

/// How many numbers more than it has each buffer is said to have: 0, but where a fault is wanted.
static TOO_MANY: AtomicUsize = AtomicUsize::new(0);

/// From now on the library is told that each buffer of numbers is one longer than it is. This shows
/// that a memory checker sees what lies beyond.
pub fn lend_short() {
    TOO_MANY.store(1, Ordering::Relaxed);
}

/// The length of a buffer that the library is told.
fn told<T>(buffer: &[T]) -> usize {
    if size_of::<T>() == size_of::<u32>() {
        buffer.len() + TOO_MANY.load(Ordering::Relaxed)
    } else {
        buffer.len()
    }
}

/// The pointer to a buffer that the library is given; where the buffer is empty it is NULL, as C
/// programs have it.
fn pointer<T>(buffer: &mut [T]) -> *mut T {
    if buffer.is_empty() {
        ptr::null_mut()
    } else {
        buffer.as_mut_ptr()
    }
}

/// The same of what is only read.
fn const_pointer<T>(buffer: &[T]) -> *const T {
    if buffer.is_empty() {
        ptr::null()
    } else {
        buffer.as_ptr()
    }
}

/// Calls a function of the library with numbers, slices and numbers again. A slice becomes a pointer
/// and a length.
macro_rules! pass {
    ($function:ident($($number:expr),*; $($slice:expr),*; $($last:expr),*)) => {
        // SAFETY: each pointer comes with the length of its own slice, where no fault is wanted.
        // The slices are borrowed at the same time and mutably, so no two overlap; the image is
        // borrowed beside them. The call keeps none of them.
        unsafe { $function($($number,)* $(pointer(&mut $slice[..]), told(&$slice),)* $($last),*) }
    };
}

/// Calls a function that takes all that a run takes, and then perhaps a picture.
macro_rules! pass_run {
    ($function:ident, $call:expr, $buffers:expr $(, $picture:expr)?) => {{
        let Call { settings, action, width, height, image } = *$call;
        let [key_r, key_g, key_b, key_a] = settings.key;
        let Buffers { labels, links, table, outputs, work } = $buffers;
        pass!($function(
            settings.is_same_color_a,
            settings.is_same_color_b,
            settings.hierarchical,
            settings.good_min_area,
            settings.good_max_area,
            settings.hollow_neighbours,
            settings.deepen_diff,
            key_r, key_g, key_b, key_a, action, width, height, const_pointer(image), image.len();
            labels, links, table, outputs, work $(, $picture)?;
        ))
    }};
}

/// Runs the library.
pub fn run(call: &Call, buffers: &mut Buffers) -> Answer {
    pass_run!(color_clusters_run, call, buffers)
}

/// Runs the library and paints.
pub fn run_and_paint(call: &Call, buffers: &mut Buffers, picture: &mut [u8]) -> Answer {
    pass_run!(color_clusters_run_and_paint, call, buffers, picture)
}

/// Paints a sheet. What is only read is borrowed mutably all the same, here and below: should the
/// library write to it, that is seen, and nothing is undefined.
pub fn paint(sheet: Sheet, buffers: &mut Buffers, picture: &mut [u8]) -> u32 {
    pass!(color_clusters_paint(
        sheet.width, sheet.height;
        buffers.links, buffers.table, buffers.outputs, picture;
        sheet.n, sheet.m
    ))
}

/// Checks the call for a row of a picture.
pub fn row_check((width, height): (u32, u32), picture: &mut [u8], y: u32) -> u32 {
    pass!(color_clusters_row_check(width, height; picture; y))
}

/// Stores a sheet.
pub fn store(sheet: Sheet, buffers: &mut Buffers, destination: &mut [u8]) -> u32 {
    pass!(color_clusters_store(
        sheet.width, sheet.height;
        buffers.labels, buffers.links, buffers.table, buffers.outputs, destination;
        sheet.n, sheet.m
    ))
}
