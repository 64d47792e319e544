//! Values of each kind, beside what serde_json writes of them.

use serde::ser::{SerializeMap, SerializeSeq};
use serde::{Serialize, Serializer};
use serde_json::Value;
use std::collections::BTreeMap;
use sval_proved::{Index, Label, TapeWriter};
use sval_proved_serde::{to_cbor, to_json, to_json_pretty, to_tape, write_tape, Error};

#[derive(Serialize)]
struct Event<'a> {
    ts: &'a str,
    level: Level,
    #[serde(skip_serializing_if = "Option::is_none")]
    user: Option<u64>,
    tags: Vec<String>,
    load: (f32, f64),
    unit: (),
}

#[derive(Serialize)]
enum Level {
    Info,
    Code(i8),
    Pair(bool, char),
    Named { name: &'static str },
}

#[derive(Serialize)]
struct Metres(f64);

#[derive(Serialize)]
struct Point(i8, Option<char>);

#[derive(Serialize)]
struct Origin;

/// Names that JSON escapes.
#[derive(Serialize)]
#[serde(rename = "a \"name\"")]
struct Renamed {
    #[serde(rename = "a\n\"b\"")]
    field: Renames,
}

#[derive(Serialize)]
enum Renames {
    #[serde(rename = "\\")]
    Unit,
    #[serde(rename = "\u{1}")]
    Held(Option<Level>),
}

#[derive(Serialize, PartialEq, Eq, PartialOrd, Ord)]
enum Key {
    Name,
    Other,
}

/// Both write the same value.
fn compare<T: Serialize>(value: &T) {
    let ours = to_json(value).expect("the value has JSON");
    let theirs = serde_json::to_vec(value).expect("the value has JSON");
    let read = |json: &[u8]| serde_json::from_slice::<Value>(json).expect("it is JSON");
    assert_eq!(
        numbers(read(&ours)),
        numbers(read(&theirs)),
        "{}",
        String::from_utf8_lossy(&ours)
    );
}

/// The value with floats in place of numbers, since the two write some floats by other digits.
fn numbers(value: Value) -> Value {
    match value {
        Value::Number(number) if number.to_string().contains(['.', 'e']) => {
            Value::from(number.to_string().parse::<f64>().expect("a float"))
        }
        Value::Array(values) => values.into_iter().map(numbers).collect(),
        Value::Object(members) => members
            .into_iter()
            .map(|(name, value)| (name, numbers(value)))
            .collect(),
        value => value,
    }
}

fn event(level: Level, user: Option<u64>) -> Event<'static> {
    let tags = vec!["a\n\"é".to_owned(), String::new()];
    Event {
        ts: "2024-01-02T03:04:05Z",
        level,
        user,
        tags,
        load: (0.5, 1e300),
        unit: (),
    }
}

#[test]
fn structs_and_enums() {
    compare(&event(Level::Info, Some(u64::MAX)));
    compare(&event(Level::Code(-128), None));
    compare(&event(Level::Pair(true, '\u{1f600}'), None));
    compare(&event(Level::Named { name: "n" }, Some(0)));
    compare(&Metres(-0.0));
    compare(&(Point(-1, Some('"')), Point(1, None), Origin));
}

#[test]
fn names_that_are_escaped() {
    compare(&Renamed {
        field: Renames::Unit,
    });
    compare(&Renamed {
        field: Renames::Held(None),
    });
    compare(&Renamed {
        field: Renames::Held(Some(Level::Code(1))),
    });
    compare(&Renamed {
        field: Renames::Held(Some(Level::Named { name: "\t" })),
    });
}

#[test]
fn the_calls_of_a_struct() {
    let (metres, named) = (Label::new("Metres"), Label::new("Named"));
    let mut due = TapeWriter::new();
    due.tagged_begin(None, Some(&metres), None);
    due.number("1.5");
    due.tagged_end(None, Some(&metres), None);
    due.enum_begin(None, Some(&Label::new("Level")), None);
    due.record_begin(None, Some(&named), Some(&Index::new(3)), None);
    due.record_value_begin(None, &Label::new("name"));
    due.text("n");
    due.record_value_end(None, &Label::new("name"));
    due.record_end(None, Some(&named), Some(&Index::new(3)));
    due.enum_end(None, Some(&Label::new("Level")), None);
    let mut tape = to_tape(&Metres(1.5)).unwrap();
    write_tape(&mut tape, &Level::Named { name: "n" }).unwrap();
    assert_eq!(tape, due);
}

#[test]
fn laid_out() {
    assert_eq!(to_json_pretty(&[1]).unwrap(), b"[\n  1\n]");
}

#[test]
fn numbers_of_each_type() {
    compare(&(
        i8::MIN,
        i16::MIN,
        i32::MIN,
        i64::MIN,
        u8::MAX,
        u16::MAX,
        u32::MAX,
        u64::MAX,
    ));
    assert_eq!(
        to_json(&(i128::MIN, u128::MAX)).unwrap(),
        format!("[{},{}]", i128::MIN, u128::MAX).into_bytes()
    );
    for float in [
        0.0,
        1.0,
        -1.5,
        0.1,
        1e16,
        1e-7,
        f64::MIN_POSITIVE,
        f64::MAX,
        f64::NAN,
        f64::INFINITY,
    ] {
        compare(&float);
        compare(&(float as f32));
    }
}

#[test]
fn maps() {
    compare(&BTreeMap::from([("b", vec![Some(1), None]), ("a", vec![])]));
    compare(&BTreeMap::from([(2, true), (1, false)]));
    let value: Value = serde_json::from_str(r#"{"a":[1.50,-2e+7,null]}"#).unwrap();
    assert_eq!(to_json(&value).unwrap(), value.to_string().into_bytes());
    compare(&format_args!("{}\n{:?}", 1, "a"));
    compare(&BTreeMap::from([(Key::Name, 1), (Key::Other, 2)]));
    assert_eq!(to_cbor(&[1, 2]).unwrap(), b"\x9f\x01\x02\xff");
}

/// A sequence that tells another number of elements than it has.
struct Liar;

impl Serialize for Liar {
    fn serialize<S: Serializer>(&self, serializer: S) -> Result<S::Ok, S::Error> {
        let mut seq = serializer.serialize_seq(Some(2))?;
        seq.serialize_element(&1)?;
        seq.end()
    }
}

/// A map whose key is an array.
struct BadKey;

impl Serialize for BadKey {
    fn serialize<S: Serializer>(&self, serializer: S) -> Result<S::Ok, S::Error> {
        let mut map = serializer.serialize_map(None)?;
        map.serialize_entry(&[1], &2)?;
        map.end()
    }
}

#[test]
fn errors() {
    assert_eq!(
        to_json(&BadKey),
        Err(Error::Library(sval_proved::Error::InvalidKey))
    );
    assert_eq!(
        to_cbor(&1.5),
        Err(Error::Library(sval_proved::Error::NotInteger))
    );
    // A size is a promise, which the library checks.
    assert_eq!(
        to_json(&Liar),
        Err(Error::Library(sval_proved::Error::RefusedCall { call: 5 }))
    );
}
