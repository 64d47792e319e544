//! Fields dropped and kept by their paths.

use sval_proved::{filter, filter_into, Error, Rule};

const JSON: &[u8] = br#"{"user": {"name": "a", "key": 1}, "key": [true]}"#;

#[test]
fn drops_and_keeps() {
    let due = |json: &str| Ok(json.as_bytes().to_vec());
    assert_eq!(
        filter(JSON, Rule::Drop, &["user.key"]),
        due(r#"{"user":{"name":"a"},"key":[true]}"#)
    );
    assert_eq!(filter(JSON, Rule::Drop, &["user", "key"]), due("{}"));
    assert_eq!(
        filter(JSON, Rule::Keep, &["user.name"]),
        due(r#"{"user":{"name":"a"}}"#)
    );
    assert_eq!(
        filter(JSON, Rule::Drop, &[]),
        due(r#"{"user":{"name":"a","key":1},"key":[true]}"#)
    );
    assert_eq!(filter(JSON, Rule::Keep, &["key"]), due(r#"{"key":[true]}"#));
}

#[test]
fn keeps_to_the_buffer() {
    let mut out = [7; 4];
    let paths = ["user", "key"];
    assert_eq!(filter_into(JSON, Rule::Drop, &paths, &mut out), Ok(2));
    assert_eq!(&out, b"{}\x07\x07");
    assert_eq!(
        filter_into(JSON, Rule::Drop, &paths, &mut out[..1]),
        Err(Error::TooShort { due: 2 })
    );
}

#[test]
fn bad_paths_and_bad_json() {
    let bad = |path| Err(Error::BadPath { path });
    assert_eq!(filter(JSON, Rule::Drop, &[""]), bad(1));
    assert_eq!(filter(JSON, Rule::Drop, &["a", "b..c"]), bad(2));
    assert_eq!(filter(JSON, Rule::Keep, &["a", "b", "c\nd"]), bad(3));
    assert_eq!(
        filter(b"{", Rule::Keep, &["a"]),
        Err(Error::BadJson { at: 1 })
    );
}
