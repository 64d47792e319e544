//! serde's calls for the members of maps and structs.

use crate::error::Error;
use crate::serializer::{Serializer, Variant};
use serde::{ser, Serialize};
use sval_proved::{tags, Label, TapeWriter};

/// Takes the entries of a map.
pub struct Entries<'a> {
    tape: &'a mut TapeWriter,
}

impl<'a> Entries<'a> {
    pub fn new(tape: &'a mut TapeWriter, size: Option<usize>) -> Self {
        tape.map_begin(size);
        Entries { tape }
    }
}

impl ser::SerializeMap for Entries<'_> {
    type Ok = ();
    type Error = Error;

    fn serialize_key<T: Serialize + ?Sized>(&mut self, key: &T) -> Result<(), Error> {
        self.tape.map_key_begin();
        key.serialize(Serializer::new(self.tape))?;
        self.tape.map_key_end();
        Ok(())
    }

    fn serialize_value<T: Serialize + ?Sized>(&mut self, value: &T) -> Result<(), Error> {
        self.tape.map_value_begin();
        value.serialize(Serializer::new(self.tape))?;
        self.tape.map_value_end();
        Ok(())
    }

    fn end(self) -> Result<(), Error> {
        self.tape.map_end();
        Ok(())
    }
}

/// The struct and the field that serde_json has for a number with its feature `arbitrary_precision`. The field is a text.
const NUMBER: &str = "$serde_json::private::Number";

/// What the fields belong to.
enum Owner {
    Struct(&'static str),
    Variant(Variant),
    Number,
}

/// Takes the fields of a struct, or of a variant with named fields.
pub struct Fields<'a> {
    tape: &'a mut TapeWriter,
    owner: Owner,
}

impl<'a> Fields<'a> {
    // A field may be left out (`skip_field`), so the number of fields is not told.
    #[inline]
    pub fn new(tape: &'a mut TapeWriter, name: &'static str) -> Self {
        if name == NUMBER {
            tape.tagged_begin(Some(&tags::NUMBER), None, None);
            return Fields {
                tape,
                owner: Owner::Number,
            };
        }
        tape.record_begin(None, Some(&Label::new(name)), None, None);
        Fields {
            tape,
            owner: Owner::Struct(name),
        }
    }

    pub fn of_variant(tape: &'a mut TapeWriter, variant: Variant) -> Self {
        variant.begin_enum(tape);
        tape.record_begin(None, Some(&variant.label()), Some(&variant.index()), None);
        Fields {
            tape,
            owner: Owner::Variant(variant),
        }
    }

    #[inline]
    fn field<T: Serialize + ?Sized>(&mut self, name: &'static str, value: &T) -> Result<(), Error> {
        if let Owner::Number = self.owner {
            return value.serialize(Serializer::new(self.tape));
        }
        self.tape.record_value(None, &Label::new(name), |tape| {
            value.serialize(Serializer::new(tape))
        })
    }

    #[inline]
    fn finish(self) {
        match self.owner {
            Owner::Number => self.tape.tagged_end(Some(&tags::NUMBER), None, None),
            Owner::Struct(name) => self.tape.record_end(None, Some(&Label::new(name)), None),
            Owner::Variant(variant) => {
                self.tape
                    .record_end(None, Some(&variant.label()), Some(&variant.index()));
                variant.end_enum(self.tape);
            }
        }
    }
}

/// The traits that take fields.
macro_rules! takes_fields {
    ($($trait:ident),*) => {
        $(impl ser::$trait for Fields<'_> {
            type Ok = ();
            type Error = Error;

            #[inline]
            fn serialize_field<T: Serialize + ?Sized>(&mut self, name: &'static str, value: &T) -> Result<(), Error> {
                self.field(name, value)
            }

            #[inline]
            fn end(self) -> Result<(), Error> {
                self.finish();
                Ok(())
            }
        })*
    };
}

takes_fields!(SerializeStruct, SerializeStructVariant);
