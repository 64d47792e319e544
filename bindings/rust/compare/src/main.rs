//! The proved library beside serde_json: over random texts of JSON and texts that are no JSON, and in speed.
//!
//! - `compare [NUMBER [SEED]]` does both, with so many random texts.
//! - `compare speed` only measures. Without the feature `exact` serde_json is as quick as it can be.

mod events;
mod random;
mod speed;

use random::Random;
use serde_json::Value;
use std::env;
use std::time::{SystemTime, UNIX_EPOCH};
use sval_proved::{check, compact, from_cbor, pretty, to_cbor, Error};

/// Both read a text, or both refuse it, and what the library writes is the value that serde_json reads.
fn compare(text: &[u8]) {
    let ours = compact(text);
    assert_eq!(
        check(text),
        ours.as_ref().map(|_| ()).map_err(|error| *error)
    );
    match serde_json::from_slice::<Value>(text) {
        Ok(value) => {
            let json =
                ours.unwrap_or_else(|error| panic!("{error}: {}", String::from_utf8_lossy(text)));
            let again: Value = serde_json::from_slice(&json).expect("the library writes JSON");
            let value = settled(value);
            assert_eq!(again, value);
            compare_tape(&value);
            compare_pretty(text, &json);
            compare_cbor(text, &json);
        }
        Err(error) => assert!(ours.is_err(), "{error}: {}", String::from_utf8_lossy(text)),
    }
}

/// By serde and a tape the value is what serde_json writes of it.
fn compare_tape(value: &Value) {
    let json = serde_json::to_vec(value).expect("it has JSON");
    let laid = sval_proved_serde::to_json_pretty(value);
    assert_eq!(compact(&laid.expect("it has JSON")).as_ref(), Ok(&json));
    match sval_proved_serde::to_cbor(value) {
        Ok(cbor) => assert_eq!(Ok(cbor), to_cbor(&json)),
        Err(error) => assert_eq!(error, Error::NotInteger.into()),
    }
    assert_eq!(sval_proved_serde::to_json(value), Ok(json));
}

/// Laid out, the text is without white space what the library writes so at once, and is laid out the same again.
fn compare_pretty(text: &[u8], json: &[u8]) {
    let laid = pretty(text).expect("the text is JSON");
    assert_eq!(compact(&laid).as_deref(), Ok(json));
    assert_eq!(pretty(&laid).as_deref(), Ok(&laid[..]));
}

/// CBOR is as JSON again what the library writes at once, unless it can't hold a number.
fn compare_cbor(text: &[u8], json: &[u8]) {
    match to_cbor(text) {
        Ok(cbor) => assert_eq!(from_cbor(&cbor).as_deref(), Ok(json)),
        Err(error) => assert_eq!(error, Error::NotInteger),
    }
}

/// The value with 0 for each number -0.
fn settled(value: Value) -> Value {
    match value {
        Value::Number(number) if number.to_string() == "-0" => Value::from(0),
        Value::Array(values) => Value::Array(values.into_iter().map(settled).collect()),
        Value::Object(members) => members
            .into_iter()
            .map(|(name, value)| (name, settled(value)))
            .collect(),
        value => value,
    }
}

fn main() {
    let words: Vec<String> = env::args().skip(1).collect();
    if words == ["speed"] {
        return speed::print_all();
    }
    let mut words = words
        .iter()
        .map(|word| word.parse::<u64>().expect("a number"));
    let number = words.next().unwrap_or(10_000);
    let now = || {
        SystemTime::now()
            .duration_since(UNIX_EPOCH)
            .map_or(1, |it| it.as_nanos() as u64)
    };
    let seed = words.next().unwrap_or_else(now);
    println!("rust: {number} random inputs, seed {seed}, serde_json");
    let mut random = Random::new(seed);
    for _ in 0..number {
        let text = random.json(3);
        compare(&text);
        compare(&random.changed(text));
    }
    speed::print_all();
    println!("rust: ok");
}
