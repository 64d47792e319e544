//! Why a value has no bytes.

use serde::ser;
use std::fmt;

/// Why a value has no bytes.
#[derive(Clone, Debug, PartialEq, Eq)]
pub enum Error {
    /// What the value's `Serialize` says.
    Value(String),
    /// What the library says of the value's tape.
    Library(sval_proved::Error),
}

impl fmt::Display for Error {
    fn fmt(&self, f: &mut fmt::Formatter<'_>) -> fmt::Result {
        match self {
            Error::Value(message) => f.write_str(message),
            Error::Library(error) => error.fmt(f),
        }
    }
}

impl std::error::Error for Error {}

impl From<sval_proved::Error> for Error {
    fn from(error: sval_proved::Error) -> Self {
        Error::Library(error)
    }
}

impl ser::Error for Error {
    fn custom<T: fmt::Display>(message: T) -> Self {
        Error::Value(message.to_string())
    }
}
