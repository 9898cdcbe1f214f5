//! What the shared library has besides the proved calls: sentences in plain words, and many sheets in one call.
//! include/lorukinde.h says what each call does; nothing is worked out here that the crate `lorukinde` does not say.
use std::os::raw::c_char;

mod days;
mod lent;
mod parts;
mod say;
mod tally;

/// The version, ended by a byte 0.
#[no_mangle]
pub extern "C" fn lorukinde_version() -> *const c_char {
    concat!(env!("CARGO_PKG_VERSION"), "\0").as_ptr().cast()
}
