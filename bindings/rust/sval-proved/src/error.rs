//! Why a call gave no bytes.

use std::error;
use std::fmt;

/// Why a call gave no bytes.
#[derive(Clone, Copy, Debug, PartialEq, Eq)]
#[non_exhaustive]
pub enum Error {
    /// This line of a script, counted from 1, is the first that is no call.
    BadLine { line: u64 },
    /// No value goes on with the call of this line of a script, counted from 1.
    BadCall { line: u64 },
    /// No value goes on with this call of a tape, counted from 1.
    RefusedCall { call: u64 },
    /// The calls of a script or a tape are not one whole value.
    Unfinished,
    /// A key of a map can't be a key of JSON.
    InvalidKey,
    /// Text that stands for a number is none.
    InvalidNumber,
    /// The buffer is too short for the bytes that are due.
    TooShort {
        /// How many bytes are due.
        due: usize,
    },
    /// Memory was wanting.
    NoMemory,
    /// The input is not UTF-8.
    NotUtf8 {
        /// The length of its longest front that is UTF-8.
        at: u64,
    },
    /// The input is not JSON.
    BadJson {
        /// The offset of the first byte that no JSON text could have there, or the length where the text ends too early.
        at: u64,
    },
    /// The value has text that says it is JSON, which CBOR can't hold.
    Raw,
    /// A number has a fraction or an exponent, or isn't from -2^127 to 2^128-1.
    NotInteger,
    /// The input is not one item of CBOR, in the profile that is read.
    BadCbor,
    /// The bytes are no tape.
    BadTape {
        /// The offset of the first byte at which no call begins. The bytes before it are a tape.
        at: u64,
    },
    /// This path, counted from 1, is none: a name in it is empty, or it has a line feed.
    BadPath { path: u64 },
    /// The library answered a status that this crate doesn't know, so the two don't belong together.
    UnknownStatus(u8),
}

impl Error {
    /// The status that the library answered, a number of `enum sval_status` in `bindings/c/sval.h`.
    pub fn status(&self) -> u8 {
        match self {
            Error::BadLine { .. } => 3,
            Error::BadCall { .. } | Error::RefusedCall { .. } => 4,
            Error::Unfinished => 5,
            Error::InvalidKey => 6,
            Error::InvalidNumber => 7,
            Error::TooShort { .. } => 8,
            Error::NoMemory => 10,
            Error::NotUtf8 { .. } => 12,
            Error::BadJson { .. } => 13,
            Error::Raw => 14,
            Error::NotInteger => 15,
            Error::BadCbor => 16,
            Error::BadTape { .. } => 18,
            Error::BadPath { .. } => 20,
            Error::UnknownStatus(status) => *status,
        }
    }

    /// The place of the fault, where it has one: a line, a call or a path, counted from 1, or the offset of a byte.
    pub fn place(&self) -> Option<u64> {
        match self {
            Error::BadLine { line } | Error::BadCall { line } => Some(*line),
            Error::RefusedCall { call } => Some(*call),
            Error::NotUtf8 { at } | Error::BadJson { at } | Error::BadTape { at } => Some(*at),
            Error::BadPath { path } => Some(*path),
            _ => None,
        }
    }
}

impl fmt::Display for Error {
    fn fmt(&self, f: &mut fmt::Formatter<'_>) -> fmt::Result {
        match self {
            Error::BadLine { line } => write!(f, "line {line} is no call"),
            Error::BadCall { line } => write!(f, "no value goes on with the call of line {line}"),
            Error::RefusedCall { call } => write!(f, "no value goes on with call {call}"),
            Error::Unfinished => f.write_str("the calls are not one whole value"),
            Error::InvalidKey => f.write_str("a key of a map can't be a key of JSON"),
            Error::InvalidNumber => f.write_str("invalid number"),
            Error::TooShort { due } => write!(f, "the buffer is too short for {due} bytes"),
            Error::NoMemory => f.write_str("out of memory"),
            Error::NotUtf8 { at } => write!(f, "invalid UTF-8 at byte {at}"),
            Error::BadJson { at } => write!(f, "invalid JSON at byte {at}"),
            Error::Raw => f.write_str("text that says it is JSON has no CBOR"),
            Error::NotInteger => f.write_str("a number is no integer from -2^127 to 2^128-1"),
            Error::BadCbor => f.write_str("invalid CBOR"),
            Error::BadTape { at } => write!(f, "invalid tape at byte {at}"),
            Error::BadPath { path } => write!(f, "path {path} has an empty name or a line feed"),
            Error::UnknownStatus(status) => write!(f, "unknown status {status}"),
        }
    }
}

impl error::Error for Error {}
