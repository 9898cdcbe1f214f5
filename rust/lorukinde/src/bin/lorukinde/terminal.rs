//! Whether a person sees a stream. The standard library tells since Rust 1.70; with 1.63 the C library is asked.

/// A stream, with the number that POSIX gives it.
#[derive(Clone, Copy)]
pub enum Stream {
    Output = 1,
    Error = 2,
}

extern "C" {
    fn isatty(descriptor: i32) -> i32;
}

pub fn is_terminal(stream: Stream) -> bool {
    // Sound: a number goes in and a number comes out; any number has an answer.
    unsafe { isatty(stream as i32) == 1 }
}
