//! What valgrind's memcheck is told of lent memory, and asked. Where the program runs without
//! valgrind, nothing happens.

use std::arch::asm;

/// The requests, as in valgrind's memcheck.h.
const MAKE_UNDEFINED: usize = 0x4d43_0001;
const MAKE_DEFINED: usize = 0x4d43_0002;
const CHECK_DEFINED: usize = 0x4d43_0005;

/// What is in this memory must not matter: valgrind reports a decision on it as an error.
pub fn undefined<T>(memory: &[T]) {
    request(MAKE_UNDEFINED, memory);
}

/// What is in this memory may be read again.
pub fn defined<T>(memory: &[T]) {
    request(MAKE_DEFINED, memory);
}

/// Valgrind reports an error where something in this memory is still undefined.
pub fn check_defined<T>(memory: &[T]) {
    request(CHECK_DEFINED, memory);
}

fn request<T>(number: usize, memory: &[T]) {
    let start = memory.as_ptr() as usize;
    let arguments = [number, start, size_of_val(memory), 0, 0, 0];
    // SAFETY: these instructions change nothing; valgrind knows them and reads the arguments. The
    // memory keeps what it holds.
    unsafe {
        asm!(
            "rol rdi, 3",
            "rol rdi, 13",
            "rol rdi, 61",
            "rol rdi, 51",
            "xchg rbx, rbx",
            in("rax") &arguments,
            inout("rdx") 0usize => _,
        );
    }
}
