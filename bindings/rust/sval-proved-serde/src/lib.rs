//! Values of serde as JSON (RFC 8259) and CBOR (RFC 8949), by the proved library of [`sval_proved`].
//!
//! A value's calls become a tape, whose calls the library checks: it writes JSON only where they are one whole value.
//! That this tape says what the value's `Serialize` says is the work of this crate, which no proof covers.
//!
//! ```
//! assert_eq!(sval_proved_serde::to_json(&vec![Some(1.5), None]).unwrap(), b"[1.5,null]");
//! ```
//!
//! # Calls
//!
//! | value of serde | calls |
//! |---|---|
//! | number, truth value, text, bytes, character | of its type; a character is a text |
//! | float | its shortest digits under the tag `NUMBER`, or `null` where it is no number |
//! | number of serde_json with `arbitrary_precision` | its digits under the tag `NUMBER` |
//! | unit, unit struct, `None` | `null` |
//! | `Some` | its value |
//! | sequence, map | sequence, map |
//! | tuple, tuple struct | tuple, with the struct's name as its label |
//! | struct | record with the struct's name and the names of its fields as labels |
//! | newtype struct | tagged value with the struct's name as its label |
//! | variant | enum with the enum's name as its label; in it a tag, a tagged value, a tuple or a record with the variant's name and number |
//!
//! No label has the tag `VALUE_IDENT`, since serde's `rename` gives any text for a name.

mod elements;
mod error;
mod members;
mod serializer;

pub use error::Error;

use serde::Serialize;
use serializer::Serializer;
use sval_proved::TapeWriter;

/// The JSON of a value, without white space.
///
/// Structs and maps become objects, variants with content objects of one member, bytes arrays of numbers. A float that is no
/// number becomes null, as in serde_json.
///
/// # Errors
///
/// [`Error::Value`] with what the value's `Serialize` says, and [`Error::Library`] where the library gives no bytes: so for a key
/// that can't be one, as a sequence, bytes, or a variant with content, and for an array or a map with another number of elements than it tells.
pub fn to_json<T: Serialize + ?Sized>(value: &T) -> Result<Vec<u8>, Error> {
    Ok(to_tape(value)?.tape().to_json()?)
}

/// The JSON of a value with a line for each element and member, and two spaces for each level.
///
/// # Errors
///
/// Those of [`to_json`].
pub fn to_json_pretty<T: Serialize + ?Sized>(value: &T) -> Result<Vec<u8>, Error> {
    Ok(to_tape(value)?.tape().to_json_pretty()?)
}

/// The CBOR of a value, of the same shape as its JSON.
///
/// # Errors
///
/// Those of [`to_json`]; and [`sval_proved::Error::NotInteger`] for each float that is a number, `1.0` too.
pub fn to_cbor<T: Serialize + ?Sized>(value: &T) -> Result<Vec<u8>, Error> {
    Ok(to_tape(value)?.tape().to_cbor()?)
}

/// The calls of a value, which can be kept and written later.
///
/// # Errors
///
/// [`Error::Value`] with what the value's `Serialize` says. The calls are checked where the tape is written.
pub fn to_tape<T: Serialize + ?Sized>(value: &T) -> Result<TapeWriter, Error> {
    let mut tape = TapeWriter::with_capacity(256);
    write_tape(&mut tape, value)?;
    Ok(tape)
}

/// Writes the calls of a value behind those that the tape has.
///
/// # Errors
///
/// Those of [`to_tape`]. The tape then has the calls so far.
pub fn write_tape<T: Serialize + ?Sized>(tape: &mut TapeWriter, value: &T) -> Result<(), Error> {
    value.serialize(Serializer::new(tape))
}
