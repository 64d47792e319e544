//! serde's calls for the elements of sequences and tuples.

use crate::error::Error;
use crate::serializer::{Serializer, Variant};
use serde::{ser, Serialize};
use sval_proved::{Index, Label, TapeWriter};

/// Takes the elements of a sequence.
pub struct Items<'a> {
    tape: &'a mut TapeWriter,
}

impl<'a> Items<'a> {
    pub fn new(tape: &'a mut TapeWriter, size: Option<usize>) -> Self {
        tape.seq_begin(size);
        Items { tape }
    }
}

impl ser::SerializeSeq for Items<'_> {
    type Ok = ();
    type Error = Error;

    fn serialize_element<T: Serialize + ?Sized>(&mut self, value: &T) -> Result<(), Error> {
        self.tape.seq_value_begin();
        value.serialize(Serializer::new(self.tape))?;
        self.tape.seq_value_end();
        Ok(())
    }

    fn end(self) -> Result<(), Error> {
        self.tape.seq_end();
        Ok(())
    }
}

/// Takes the elements of a tuple, a tuple struct or a tuple variant.
pub struct Places<'a> {
    tape: &'a mut TapeWriter,
    /// The name of a struct.
    name: Option<&'static str>,
    variant: Option<Variant>,
    /// The place of the next element.
    next: usize,
}

impl<'a> Places<'a> {
    /// A tuple, with a name where it is a struct.
    pub fn new(tape: &'a mut TapeWriter, name: Option<&'static str>, size: usize) -> Self {
        let label = name.map(Label::new);
        tape.tuple_begin(None, label.as_ref(), None, Some(size));
        Places {
            tape,
            name,
            variant: None,
            next: 0,
        }
    }

    pub fn of_variant(tape: &'a mut TapeWriter, variant: Variant, size: usize) -> Self {
        variant.begin_enum(tape);
        tape.tuple_begin(
            None,
            Some(&variant.label()),
            Some(&variant.index()),
            Some(size),
        );
        Places {
            tape,
            name: None,
            variant: Some(variant),
            next: 0,
        }
    }

    fn element<T: Serialize + ?Sized>(&mut self, value: &T) -> Result<(), Error> {
        let index = Index::new(self.next);
        self.tape.tuple_value_begin(None, &index);
        value.serialize(Serializer::new(self.tape))?;
        self.tape.tuple_value_end(None, &index);
        self.next += 1;
        Ok(())
    }

    fn finish(self) {
        match self.variant {
            Some(variant) => {
                self.tape
                    .tuple_end(None, Some(&variant.label()), Some(&variant.index()));
                variant.end_enum(self.tape);
            }
            None => self
                .tape
                .tuple_end(None, self.name.map(Label::new).as_ref(), None),
        }
    }
}

/// The traits that take the elements of a tuple, by their methods.
macro_rules! takes_places {
    ($($trait:ident: $method:ident),*) => {
        $(impl ser::$trait for Places<'_> {
            type Ok = ();
            type Error = Error;

            fn $method<T: Serialize + ?Sized>(&mut self, value: &T) -> Result<(), Error> {
                self.element(value)
            }

            fn end(self) -> Result<(), Error> {
                self.finish();
                Ok(())
            }
        })*
    };
}

takes_places!(
    SerializeTuple: serialize_element,
    SerializeTupleStruct: serialize_field,
    SerializeTupleVariant: serialize_field
);
