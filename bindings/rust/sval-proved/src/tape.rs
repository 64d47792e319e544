//! Tapes: calls as bytes, which the library writes as JSON and CBOR.

use crate::error::Error;
use crate::ffi::{self, Style};
use crate::in_vec;

/// The bytes of calls, which should spell one value. The library reads and checks them each time that it writes.
///
/// ```
/// use sval_proved::{Tape, TapeWriter};
///
/// let mut writer = TapeWriter::new();
/// writer.seq_begin(Some(1));
/// writer.seq_value_begin();
/// writer.text("a \"b\"");
/// writer.seq_value_end();
/// writer.seq_end();
/// assert_eq!(writer.tape().to_json()?, br#"["a \"b\""]"#);
///
/// let kept: Vec<u8> = writer.into_bytes();
/// assert_eq!(Tape::new(&kept).to_cbor()?, b"\x9f\x65a \"b\"\xff");
/// # Ok::<(), sval_proved::Error>(())
/// ```
#[derive(Clone, Copy, Debug, PartialEq, Eq)]
pub struct Tape<'a> {
    bytes: &'a [u8],
}

impl<'a> Tape<'a> {
    /// The tape of these bytes. They are read where the tape is written.
    pub fn new(bytes: &'a [u8]) -> Self {
        Tape { bytes }
    }

    /// The bytes.
    pub fn bytes(&self) -> &'a [u8] {
        self.bytes
    }

    /// How many bytes are expected of what is written. JSON is rarely longer, since fields end with their labels too.
    fn expected(&self) -> usize {
        self.bytes.len().saturating_mul(2).saturating_add(16)
    }

    /// The JSON of the value, without white space.
    ///
    /// # Errors
    ///
    /// - [`Error::BadTape`] where the bytes are no calls.
    /// - [`Error::RefusedCall`] and [`Error::Unfinished`] where the calls are not one whole value.
    /// - [`Error::InvalidKey`], [`Error::InvalidNumber`] and [`Error::NoMemory`].
    pub fn to_json(&self) -> Result<Vec<u8>, Error> {
        in_vec(
            ffi::tape_to_json(Style::Compact),
            self.bytes,
            self.expected(),
        )
    }

    /// Does what [`to_json`](Tape::to_json) does, and answers how many bytes of `out` were written.
    ///
    /// # Errors
    ///
    /// Those of [`to_json`](Tape::to_json), and [`Error::TooShort`]. Any error leaves `out` as it was.
    pub fn to_json_into(&self, out: &mut [u8]) -> Result<usize, Error> {
        ffi::tape_to_json(Style::Compact)(self.bytes, out)
    }

    /// The JSON of the value with a line for each element and member, and two spaces for each level.
    ///
    /// # Errors
    ///
    /// Those of [`to_json`](Tape::to_json).
    pub fn to_json_pretty(&self) -> Result<Vec<u8>, Error> {
        in_vec(
            ffi::tape_to_json(Style::Pretty),
            self.bytes,
            self.expected(),
        )
    }

    /// Does what [`to_json_pretty`](Tape::to_json_pretty) does, and answers how many bytes of `out` were written.
    ///
    /// # Errors
    ///
    /// Those of [`to_json`](Tape::to_json), and [`Error::TooShort`]. Any error leaves `out` as it was.
    pub fn to_json_pretty_into(&self, out: &mut [u8]) -> Result<usize, Error> {
        ffi::tape_to_json(Style::Pretty)(self.bytes, out)
    }

    /// The value as one item of CBOR. A binary is written as an array of numbers.
    ///
    /// # Errors
    ///
    /// Those of [`to_json`](Tape::to_json), [`Error::Raw`] and [`Error::NotInteger`].
    pub fn to_cbor(&self) -> Result<Vec<u8>, Error> {
        in_vec(ffi::tape_to_cbor, self.bytes, self.expected())
    }

    /// Does what [`to_cbor`](Tape::to_cbor) does, and answers how many bytes of `out` were written.
    ///
    /// # Errors
    ///
    /// Those of [`to_cbor`](Tape::to_cbor), and [`Error::TooShort`]. Any error leaves `out` as it was.
    pub fn to_cbor_into(&self, out: &mut [u8]) -> Result<usize, Error> {
        ffi::tape_to_cbor(self.bytes, out)
    }
}
