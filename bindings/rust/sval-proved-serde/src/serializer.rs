//! serde's calls for one value.

use crate::elements::{Items, Places};
use crate::error::Error;
use crate::members::{Entries, Fields};
use serde::{ser, Serialize};
use std::fmt::{self, Write};
use sval_proved::{Index, Label, TapeWriter};

/// The names of a variant.
#[derive(Clone, Copy)]
pub struct Variant {
    /// The name of its enum.
    pub of: &'static str,
    pub name: &'static str,
    /// Its number, from 0 on.
    pub number: u32,
}

impl Variant {
    pub fn label(&self) -> Label<'static> {
        Label::new(self.name)
    }

    pub fn index(&self) -> Index {
        Index::new_u64(u64::from(self.number))
    }

    pub fn begin_enum(&self, tape: &mut TapeWriter) {
        tape.enum_begin(None, Some(&Label::new(self.of)), None);
    }

    pub fn end_enum(&self, tape: &mut TapeWriter) {
        tape.enum_end(None, Some(&Label::new(self.of)), None);
    }
}

/// Writes a text as it is formatted, a fragment at a time.
struct Fragments<'a>(&'a mut TapeWriter);

impl Write for Fragments<'_> {
    fn write_str(&mut self, text: &str) -> fmt::Result {
        self.0.text_fragment(text);
        Ok(())
    }
}

/// Takes serde's calls for one value, and writes them on a tape.
pub struct Serializer<'a> {
    tape: &'a mut TapeWriter,
}

impl<'a> Serializer<'a> {
    pub fn new(tape: &'a mut TapeWriter) -> Self {
        Serializer { tape }
    }

    /// A float by the shortest digits that read back as the same float; null where it is no number.
    fn float(self, is_finite: bool, float: impl ryu::Float) -> Result<(), Error> {
        if is_finite {
            self.tape.number(ryu::Buffer::new().format_finite(float));
        } else {
            self.tape.null();
        }
        Ok(())
    }
}

/// Methods for values that have a call of their type.
macro_rules! calls {
    ($($method:ident: $type:ty => $call:ident),*) => {
        $(#[inline]
        fn $method(self, value: $type) -> Result<(), Error> {
            self.tape.$call(value);
            Ok(())
        })*
    };
}

impl<'a> ser::Serializer for Serializer<'a> {
    type Ok = ();
    type Error = Error;
    type SerializeSeq = Items<'a>;
    type SerializeTuple = Places<'a>;
    type SerializeTupleStruct = Places<'a>;
    type SerializeTupleVariant = Places<'a>;
    type SerializeMap = Entries<'a>;
    type SerializeStruct = Fields<'a>;
    type SerializeStructVariant = Fields<'a>;

    calls!(
        serialize_bool: bool => bool,
        serialize_u8: u8 => u8,
        serialize_u16: u16 => u16,
        serialize_u32: u32 => u32,
        serialize_u64: u64 => u64,
        serialize_u128: u128 => u128,
        serialize_i8: i8 => i8,
        serialize_i16: i16 => i16,
        serialize_i32: i32 => i32,
        serialize_i64: i64 => i64,
        serialize_i128: i128 => i128,
        serialize_str: &str => text,
        serialize_bytes: &[u8] => binary
    );

    fn serialize_f32(self, value: f32) -> Result<(), Error> {
        self.float(value.is_finite(), value)
    }

    fn serialize_f64(self, value: f64) -> Result<(), Error> {
        self.float(value.is_finite(), value)
    }

    fn serialize_char(self, value: char) -> Result<(), Error> {
        self.serialize_str(value.encode_utf8(&mut [0; 4]))
    }

    fn collect_str<T: fmt::Display + ?Sized>(self, value: &T) -> Result<(), Error> {
        self.tape.text_begin(None);
        write!(Fragments(self.tape), "{value}").map_err(<Error as ser::Error>::custom)?;
        self.tape.text_end();
        Ok(())
    }

    fn serialize_none(self) -> Result<(), Error> {
        self.serialize_unit()
    }

    fn serialize_some<T: Serialize + ?Sized>(self, value: &T) -> Result<(), Error> {
        value.serialize(self)
    }

    fn serialize_unit(self) -> Result<(), Error> {
        self.tape.null();
        Ok(())
    }

    fn serialize_unit_struct(self, _name: &'static str) -> Result<(), Error> {
        self.serialize_unit()
    }

    fn serialize_unit_variant(
        self,
        of: &'static str,
        number: u32,
        name: &'static str,
    ) -> Result<(), Error> {
        let variant = Variant { of, name, number };
        variant.begin_enum(self.tape);
        self.tape
            .tag(None, Some(&variant.label()), Some(&variant.index()));
        variant.end_enum(self.tape);
        Ok(())
    }

    fn serialize_newtype_struct<T: Serialize + ?Sized>(
        self,
        name: &'static str,
        value: &T,
    ) -> Result<(), Error> {
        let label = Label::new(name);
        self.tape.tagged_begin(None, Some(&label), None);
        value.serialize(Serializer::new(self.tape))?;
        self.tape.tagged_end(None, Some(&label), None);
        Ok(())
    }

    fn serialize_newtype_variant<T: Serialize + ?Sized>(
        self,
        of: &'static str,
        number: u32,
        name: &'static str,
        value: &T,
    ) -> Result<(), Error> {
        let variant = Variant { of, name, number };
        variant.begin_enum(self.tape);
        self.tape
            .tagged_begin(None, Some(&variant.label()), Some(&variant.index()));
        value.serialize(Serializer::new(self.tape))?;
        self.tape
            .tagged_end(None, Some(&variant.label()), Some(&variant.index()));
        variant.end_enum(self.tape);
        Ok(())
    }

    fn serialize_seq(self, size: Option<usize>) -> Result<Items<'a>, Error> {
        Ok(Items::new(self.tape, size))
    }

    fn serialize_tuple(self, size: usize) -> Result<Places<'a>, Error> {
        Ok(Places::new(self.tape, None, size))
    }

    fn serialize_tuple_struct(self, name: &'static str, size: usize) -> Result<Places<'a>, Error> {
        Ok(Places::new(self.tape, Some(name), size))
    }

    fn serialize_tuple_variant(
        self,
        of: &'static str,
        number: u32,
        name: &'static str,
        size: usize,
    ) -> Result<Places<'a>, Error> {
        let variant = Variant { of, name, number };
        Ok(Places::of_variant(self.tape, variant, size))
    }

    fn serialize_map(self, size: Option<usize>) -> Result<Entries<'a>, Error> {
        Ok(Entries::new(self.tape, size))
    }

    fn serialize_struct(self, name: &'static str, _size: usize) -> Result<Fields<'a>, Error> {
        Ok(Fields::new(self.tape, name))
    }

    fn serialize_struct_variant(
        self,
        of: &'static str,
        number: u32,
        name: &'static str,
        _size: usize,
    ) -> Result<Fields<'a>, Error> {
        let variant = Variant { of, name, number };
        Ok(Fields::of_variant(self.tape, variant))
    }
}
