//! JSON (RFC 8259), CBOR (RFC 8949), and scripts and tapes of calls, by a proved library: bytes in, bytes out.
//!
//! ```
//! use sval_proved::{compact, from_cbor, to_cbor, Error};
//!
//! assert_eq!(compact(b"{\"a\" : [1, 2]}"), Ok(b"{\"a\":[1,2]}".to_vec()));
//! assert_eq!(compact(b"[1,]"), Err(Error::BadJson { at: 3 }));
//! assert_eq!(from_cbor(&to_cbor(b"[1, null]")?), Ok(b"[1,null]".to_vec()));
//! # Ok::<(), Error>(())
//! ```
//!
//! A value of a program's own is written by a [`TapeWriter`], whose [`Tape`] the library writes as JSON or CBOR.
//!
//! Each call has two forms. The one that answers a `Vec` asks for its memory by the global allocator, which ends the
//! process where there is none. The one with `_into` writes to a buffer of the caller's.

mod error;
mod ffi;
mod filter;
mod names;
mod operands;
mod tape;
mod writer;

pub use error::Error;
pub use filter::{filter, filter_into, Rule};
pub use names::{tags, Index, Label, Tag};
pub use tape::Tape;
pub use writer::TapeWriter;

/// Whether bytes are JSON.
///
/// # Errors
///
/// [`Error::NotUtf8`], [`Error::BadJson`] and [`Error::NoMemory`].
pub fn check(input: &[u8]) -> Result<(), Error> {
    ffi::check(input).map(|_| ())
}

/// JSON without white space. The number `-0` is written as `0`.
///
/// # Errors
///
/// Those of [`check`].
pub fn compact(input: &[u8]) -> Result<Vec<u8>, Error> {
    in_vec(ffi::compact, input, input.len())
}

/// Does what [`compact`] does, and answers how many bytes of `out` were written.
///
/// # Errors
///
/// Those of [`compact`], and [`Error::TooShort`]. Any error leaves `out` as it was.
pub fn compact_into(input: &[u8], out: &mut [u8]) -> Result<usize, Error> {
    ffi::compact(input, out)
}

/// JSON with a line for each element and member, and two spaces for each level. The number `-0` is written as `0`.
///
/// # Errors
///
/// Those of [`check`].
pub fn pretty(input: &[u8]) -> Result<Vec<u8>, Error> {
    in_vec(ffi::pretty, input, input.len().saturating_mul(2))
}

/// Does what [`pretty`] does, and answers how many bytes of `out` were written.
///
/// # Errors
///
/// Those of [`pretty`], and [`Error::TooShort`]. Any error leaves `out` as it was.
pub fn pretty_into(input: &[u8], out: &mut [u8]) -> Result<usize, Error> {
    ffi::pretty(input, out)
}

/// The CBOR of the value that JSON denotes.
///
/// # Errors
///
/// Those of [`check`], and [`Error::NotInteger`].
pub fn to_cbor(input: &[u8]) -> Result<Vec<u8>, Error> {
    in_vec(ffi::to_cbor, input, input.len())
}

/// Does what [`to_cbor`] does, and answers how many bytes of `out` were written.
///
/// # Errors
///
/// Those of [`to_cbor`], and [`Error::TooShort`]. Any error leaves `out` as it was.
pub fn to_cbor_into(input: &[u8], out: &mut [u8]) -> Result<usize, Error> {
    ffi::to_cbor(input, out)
}

/// The JSON of one item of CBOR. A byte string is written as an array of numbers.
///
/// # Errors
///
/// [`Error::BadCbor`], [`Error::InvalidKey`] and [`Error::NoMemory`].
pub fn from_cbor(input: &[u8]) -> Result<Vec<u8>, Error> {
    in_vec(ffi::from_cbor, input, input.len().saturating_mul(2))
}

/// Does what [`from_cbor`] does, and answers how many bytes of `out` were written.
///
/// # Errors
///
/// Those of [`from_cbor`], and [`Error::TooShort`]. Any error leaves `out` as it was.
pub fn from_cbor_into(input: &[u8], out: &mut [u8]) -> Result<usize, Error> {
    ffi::from_cbor(input, out)
}

/// The JSON of the one value that a script of calls spells.
///
/// # Errors
///
/// [`Error::BadLine`], [`Error::BadCall`], [`Error::Unfinished`], [`Error::InvalidKey`], [`Error::InvalidNumber`] and
/// [`Error::NoMemory`].
pub fn script_to_json(script: &[u8]) -> Result<Vec<u8>, Error> {
    in_vec(ffi::script_to_json, script, script.len())
}

/// Does what [`script_to_json`] does, and answers how many bytes of `out` were written.
///
/// # Errors
///
/// Those of [`script_to_json`], and [`Error::TooShort`]. Any error leaves `out` as it was.
pub fn script_to_json_into(script: &[u8], out: &mut [u8]) -> Result<usize, Error> {
    ffi::script_to_json(script, out)
}

/// Calls with the room that is expected, and where that is too short once more with the room that is due.
fn in_vec(
    call: impl Fn(&[u8], &mut [u8]) -> Result<usize, Error>,
    input: &[u8],
    expected: usize,
) -> Result<Vec<u8>, Error> {
    // `vec![0; expected]` takes glibc's `calloc`, which finds no room that was let go just before.
    let mut out = Vec::with_capacity(expected);
    out.resize(expected, 0);
    loop {
        match call(input, &mut out) {
            Ok(written) => {
                out.truncate(written);
                return Ok(out);
            }
            Err(Error::TooShort { due }) => out.resize(due, 0),
            Err(error) => return Err(error),
        }
    }
}
