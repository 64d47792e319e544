//! Reads standard input in one format of serde and writes it in another, without a value between: `yardsticks json json`.

use serde::de::{DeserializeSeed, Deserializer, Error as _, MapAccess, SeqAccess, Visitor};
use serde::ser::{Error as _, Serialize, SerializeMap, SerializeSeq, Serializer};
use std::cell::Cell;
use std::error::Error;
use std::fmt;
use std::io::{self, BufWriter, Read, Write};

/// What a deserializer reads, as a value that can be serialized once.
struct Passed<D>(Cell<Option<D>>);

impl<D> Passed<D> {
    fn new(from: D) -> Self {
        Passed(Cell::new(Some(from)))
    }
}

impl<'de, D: Deserializer<'de>> Serialize for Passed<D> {
    fn serialize<S: Serializer>(&self, to: S) -> Result<S::Ok, S::Error> {
        let from = self.0.take().expect("it is serialized once");
        from.deserialize_any(Into(to)).map_err(S::Error::custom)
    }
}

/// Writes what it is told.
struct Into<S>(S);

/// A visit of a value that is whole.
macro_rules! whole {
    ($($visit:ident, $type:ty, $write:ident;)*) => {
        $(fn $visit<E: serde::de::Error>(self, value: $type) -> Result<S::Ok, E> {
            self.0.$write(value).map_err(E::custom)
        })*
    };
}

impl<'de, S: Serializer> Visitor<'de> for Into<S> {
    type Value = S::Ok;

    fn expecting(&self, f: &mut fmt::Formatter<'_>) -> fmt::Result {
        f.write_str("any value")
    }

    whole! {
        visit_bool, bool, serialize_bool;
        visit_i64, i64, serialize_i64;
        visit_u64, u64, serialize_u64;
        visit_f64, f64, serialize_f64;
        visit_str, &str, serialize_str;
        visit_bytes, &[u8], serialize_bytes;
    }

    fn visit_unit<E: serde::de::Error>(self) -> Result<S::Ok, E> {
        self.0.serialize_unit().map_err(E::custom)
    }

    fn visit_seq<A: SeqAccess<'de>>(self, mut from: A) -> Result<S::Ok, A::Error> {
        let mut to = self.0.serialize_seq(from.size_hint()).map_err(A::Error::custom)?;
        while from.next_element_seed(Item(&mut to))?.is_some() {}
        to.end().map_err(A::Error::custom)
    }

    fn visit_map<A: MapAccess<'de>>(self, mut from: A) -> Result<S::Ok, A::Error> {
        let mut to = self.0.serialize_map(from.size_hint()).map_err(A::Error::custom)?;
        while from.next_key_seed(Key(&mut to))?.is_some() {
            from.next_value_seed(Value(&mut to))?;
        }
        to.end().map_err(A::Error::custom)
    }
}

/// A part of a sequence or a map, which is written as it is read.
macro_rules! part {
    ($part:ident, $trait:ident, $write:ident) => {
        struct $part<'s, S>(&'s mut S);

        impl<'de, S: $trait> DeserializeSeed<'de> for $part<'_, S> {
            type Value = ();

            fn deserialize<D: Deserializer<'de>>(self, from: D) -> Result<(), D::Error> {
                self.0.$write(&Passed::new(from)).map_err(D::Error::custom)
            }
        }
    };
}

part!(Item, SerializeSeq, serialize_element);
part!(Key, SerializeMap, serialize_key);
part!(Value, SerializeMap, serialize_value);

fn main() -> Result<(), Box<dyn Error>> {
    let words: Vec<String> = std::env::args().skip(1).collect();
    let words: Vec<&str> = words.iter().map(String::as_str).collect();
    let mut input = Vec::new();
    io::stdin().lock().read_to_end(&mut input)?;
    let mut out = BufWriter::with_capacity(1 << 16, io::stdout().lock());
    match words[..] {
        ["json", "json"] => {
            let mut from = serde_json::Deserializer::from_slice(&input);
            Passed::new(&mut from).serialize(&mut serde_json::Serializer::new(&mut out))?;
        }
        ["json", "cbor"] => {
            let mut from = serde_json::Deserializer::from_slice(&input);
            let to = serde_cbor::ser::IoWrite::new(&mut out);
            Passed::new(&mut from).serialize(&mut serde_cbor::Serializer::new(to))?;
        }
        ["cbor", "json"] => {
            let mut from = serde_cbor::Deserializer::from_slice(&input);
            Passed::new(&mut from).serialize(&mut serde_json::Serializer::new(&mut out))?;
        }
        _ => return Err("usage: yardsticks json json | json cbor | cbor json".into()),
    }
    out.flush()?;
    Ok(())
}
