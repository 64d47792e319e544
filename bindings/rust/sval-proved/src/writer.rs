//! A writer of tapes, with a method for each call.

use crate::names::{Index, Label, Tag};
use crate::operands;
use crate::tape::Tape;

/// The number of the call that ends a field of a record.
const RECORD_VALUE_END: u8 = 45;

/// Writes calls as a tape.
///
/// There are 48 calls, under the names that they have in sval. A value is a list of calls, whose rules
/// `docs/SPECIFICATION.md` has: each begin has its end of the same name, and each size is exact. The writer takes any
/// calls, and the library checks them where the tape is read.
#[derive(Clone, Debug, Default, PartialEq, Eq)]
pub struct TapeWriter {
    bytes: Vec<u8>,
}

/// Methods for the calls without operands.
macro_rules! alone {
    ($($(#[$doc:meta])* $method:ident = $number:literal;)*) => {
        $($(#[$doc])*
        #[inline]
        pub fn $method(&mut self) {
            self.bytes.push($number);
        })*
    };
}

/// Methods for whole numbers, each written by a function as a number of a type.
macro_rules! numbers {
    ($($(#[$doc:meta])* $method:ident($type:ty) = $number:literal, $write:ident as $wide:ty;)*) => {
        $($(#[$doc])*
        #[inline]
        pub fn $method(&mut self, value: $type) {
            self.bytes.push($number);
            operands::$write(&mut self.bytes, value as $wide);
        })*
    };
}

/// Methods for the calls with a size alone.
macro_rules! sized {
    ($($(#[$doc:meta])* $method:ident = $number:literal;)*) => {
        $($(#[$doc])*
        #[inline]
        pub fn $method(&mut self, size: Option<usize>) {
            self.bytes.push($number);
            operands::size(&mut self.bytes, size);
        })*
    };
}

/// Methods for fragments.
macro_rules! fragments {
    ($($(#[$doc:meta])* $method:ident($type:ty) = $number:literal;)*) => {
        $($(#[$doc])*
        #[inline]
        pub fn $method(&mut self, fragment: $type) {
            operands::block_behind(&mut self.bytes, [$number, 0], fragment.as_ref());
        })*
    };
}

/// Methods for the calls with a name alone.
macro_rules! named {
    ($($(#[$doc:meta])* $method:ident = $number:literal;)*) => {
        $($(#[$doc])*
        #[inline]
        pub fn $method(&mut self, tag: Option<&Tag>, label: Option<&Label>, index: Option<&Index>) {
            operands::named(&mut self.bytes, $number, tag, label, index);
        })*
    };
}

/// Methods for the begins with a name and a size.
macro_rules! named_sized {
    ($($(#[$doc:meta])* $method:ident = $number:literal;)*) => {
        $($(#[$doc])*
        #[inline]
        pub fn $method(
            &mut self,
            tag: Option<&Tag>,
            label: Option<&Label>,
            index: Option<&Index>,
            size: Option<usize>,
        ) {
            operands::named(&mut self.bytes, $number, tag, label, index);
            operands::size(&mut self.bytes, size);
        })*
    };
}

/// Methods for the begins and ends of a record's fields.
macro_rules! fields {
    ($($(#[$doc:meta])* $method:ident = $number:literal;)*) => {
        $($(#[$doc])*
        #[inline]
        pub fn $method(&mut self, tag: Option<&Tag>, label: &Label) {
            operands::field(&mut self.bytes, $number, tag, label);
        })*
    };
}

/// Methods for the begins and ends of a tuple's fields.
macro_rules! places {
    ($($(#[$doc:meta])* $method:ident = $number:literal;)*) => {
        $($(#[$doc])*
        #[inline]
        pub fn $method(&mut self, tag: Option<&Tag>, index: &Index) {
            self.bytes.push($number);
            operands::tag(&mut self.bytes, tag);
            operands::index(&mut self.bytes, index);
        })*
    };
}

/// Methods for the begins and ends of the fields of a record that is a tuple too.
macro_rules! field_places {
    ($($(#[$doc:meta])* $method:ident = $number:literal;)*) => {
        $($(#[$doc])*
        #[inline]
        pub fn $method(&mut self, tag: Option<&Tag>, label: &Label, index: &Index) {
            operands::field(&mut self.bytes, $number, tag, label);
            operands::index(&mut self.bytes, index);
        })*
    };
}

/// The 48 calls, in the order of their numbers.
impl TapeWriter {
    alone! {
        /// No value.
        null = 0;
    }

    /// A truth value.
    #[inline]
    pub fn bool(&mut self, value: bool) {
        self.bytes.extend_from_slice(&[1, u8::from(value)]);
    }

    numbers! {
        /// A whole number of 8 bits.
        u8(u8) = 2, number as u64;
        /// A whole number of 16 bits.
        u16(u16) = 3, number as u64;
        /// A whole number of 32 bits.
        u32(u32) = 4, number as u64;
        /// A whole number of 64 bits.
        u64(u64) = 5, number as u64;
        /// A whole number of 128 bits.
        u128(u128) = 6, wide_number as u128;
        /// A whole number of 8 bits with its sign.
        i8(i8) = 7, signed as i64;
        /// A whole number of 16 bits with its sign.
        i16(i16) = 8, signed as i64;
        /// A whole number of 32 bits with its sign.
        i32(i32) = 9, signed as i64;
        /// A whole number of 64 bits with its sign.
        i64(i64) = 10, signed as i64;
        /// A whole number of 128 bits with its sign.
        i128(i128) = 11, wide_signed as i128;
    }

    sized! {
        /// A text begins, of `size` bytes where that is given.
        text_begin = 12;
    }

    fragments! {
        /// A part of a text.
        text_fragment(&str) = 13;
        /// A part of a text that whoever reads the tape should copy.
        text_fragment_computed(&str) = 14;
    }

    alone! {
        /// A text ends.
        text_end = 15;
    }

    sized! {
        /// A binary begins, of `size` bytes where that is given.
        binary_begin = 16;
    }

    fragments! {
        /// A part of a binary.
        binary_fragment(&[u8]) = 17;
        /// A part of a binary that whoever reads the tape should copy.
        binary_fragment_computed(&[u8]) = 18;
    }

    alone! {
        /// A binary ends.
        binary_end = 19;
    }

    named! {
        /// A name that is a value.
        tag = 20;
    }

    /// A hint of what the value around it is for.
    #[inline]
    pub fn tag_hint(&mut self, tag: &Tag) {
        self.bytes.push(21);
        self.bytes.extend_from_slice(&tag.operand()[1..]);
    }

    named! {
        /// An enum begins.
        enum_begin = 22;
        /// An enum ends.
        enum_end = 23;
        /// A value with a name of its own begins.
        tagged_begin = 24;
        /// A value with a name of its own ends.
        tagged_end = 25;
    }

    sized! {
        /// A sequence begins, of `size` items where that is given.
        seq_begin = 26;
        /// A map begins, of `size` entries where that is given.
        map_begin = 27;
    }

    named_sized! {
        /// A record begins, of `size` fields where that is given.
        record_begin = 28;
        /// A tuple begins, of `size` fields where that is given.
        tuple_begin = 29;
        /// A record that is a tuple too begins, of `size` fields where that is given.
        record_tuple_begin = 30;
    }

    alone! {
        /// A sequence ends.
        seq_end = 31;
        /// A map ends.
        map_end = 32;
    }

    named! {
        /// A record ends.
        record_end = 33;
        /// A tuple ends.
        tuple_end = 34;
        /// A record that is a tuple too ends.
        record_tuple_end = 35;
    }

    alone! {
        /// An item of a sequence begins.
        seq_value_begin = 36;
        /// A key of a map begins.
        map_key_begin = 37;
        /// A value of a map begins.
        map_value_begin = 38;
    }

    fields! {
        /// A field of a record begins.
        record_value_begin = 39;
    }

    places! {
        /// A field of a tuple begins.
        tuple_value_begin = 40;
    }

    field_places! {
        /// A field of a record that is a tuple too begins.
        record_tuple_value_begin = 41;
    }

    alone! {
        /// An item of a sequence ends.
        seq_value_end = 42;
        /// A key of a map ends.
        map_key_end = 43;
        /// A value of a map ends.
        map_value_end = 44;
    }

    fields! {
        /// A field of a record ends.
        record_value_end = 45;
    }

    places! {
        /// A field of a tuple ends.
        tuple_value_end = 46;
    }

    field_places! {
        /// A field of a record that is a tuple too ends.
        record_tuple_value_end = 47;
    }
}

/// Values of more than one call, and the tape.
impl TapeWriter {
    /// A writer that has taken no call.
    pub fn new() -> Self {
        TapeWriter::default()
    }

    /// A writer that has taken no call, with room for so many bytes.
    pub fn with_capacity(capacity: usize) -> Self {
        TapeWriter {
            bytes: Vec::with_capacity(capacity),
        }
    }

    /// A whole text, with its size.
    #[inline]
    pub fn text(&mut self, text: &str) {
        if text.len() < 128 {
            let size = text.len() as u8;
            self.bytes.extend_from_slice(&[12, 1, size, 13, size]);
            self.bytes.extend_from_slice(text.as_bytes());
        } else {
            self.text_begin(Some(text.len()));
            self.text_fragment(text);
        }
        self.text_end();
    }

    /// A whole binary, with its size.
    #[inline]
    pub fn binary(&mut self, bytes: &[u8]) {
        self.binary_begin(Some(bytes.len()));
        self.binary_fragment(bytes);
        self.binary_end();
    }

    /// A number by its digits: an optional sign, digits, and perhaps a fraction and an exponent. `NaN` and `inf` become
    /// `null`. The library checks the digits.
    pub fn number(&mut self, digits: &str) {
        self.bytes.extend_from_slice(b"\x18\x01\x06NUMBER\0\0");
        self.text(digits);
        self.bytes.extend_from_slice(b"\x19\x01\x06NUMBER\0\0");
    }

    /// A field of a record: its begin, what `value` writes, and its end.
    ///
    /// ```
    /// use sval_proved::{Error, Label, TapeWriter};
    ///
    /// let mut tape = TapeWriter::new();
    /// tape.record_begin(None, None, None, Some(1));
    /// tape.record_value(None, &Label::new("user"), |tape| Ok::<_, Error>(tape.u64(42)))?;
    /// tape.record_end(None, None, None);
    /// assert_eq!(tape.tape().to_json()?, br#"{"user":42}"#);
    /// # Ok::<(), Error>(())
    /// ```
    ///
    /// # Errors
    ///
    /// Those of `value`. The field then has no end.
    #[inline]
    pub fn record_value<E>(
        &mut self,
        tag: Option<&Tag>,
        label: &Label,
        value: impl FnOnce(&mut Self) -> Result<(), E>,
    ) -> Result<(), E> {
        let begin = self.bytes.len();
        self.record_value_begin(tag, label);
        let end = self.bytes.len();
        value(self)?;
        // The end says what the begin does.
        let at = self.bytes.len();
        self.bytes.extend_from_within(begin..end);
        self.bytes[at] = RECORD_VALUE_END;
        Ok(())
    }

    /// The bytes so far.
    pub fn bytes(&self) -> &[u8] {
        &self.bytes
    }

    /// The tape so far.
    pub fn tape(&self) -> Tape<'_> {
        Tape::new(&self.bytes)
    }

    /// The bytes, as their own.
    pub fn into_bytes(self) -> Vec<u8> {
        self.bytes
    }

    /// Forgets all calls, and keeps the room.
    pub fn clear(&mut self) {
        self.bytes.clear();
    }
}
