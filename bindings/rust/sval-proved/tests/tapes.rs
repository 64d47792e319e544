//! What the library makes of tapes: JSON, CBOR and faults.

use sval_proved::{tags, Error, Index, Label, Tape, TapeWriter};

/// A record of a name, a number in digits, and a variant.
fn event() -> TapeWriter {
    let (event, level) = (Label::new("Event"), Label::new("Level"));
    let mut tape = TapeWriter::new();
    tape.record_begin(None, Some(&event), None, Some(3));
    tape.record_value_begin(None, &Label::new("say \"hi\""));
    tape.text("a\n\u{e9}");
    tape.record_value_end(None, &Label::new("say \"hi\""));
    tape.record_value_begin(None, &Label::new("load"));
    tape.number("+01.50");
    tape.record_value_end(None, &Label::new("load"));
    tape.record_value_begin(None, &Label::new("level"));
    tape.enum_begin(None, Some(&level), None);
    tape.tagged_begin(None, Some(&Label::new("Code")), Some(&Index::new(1)));
    tape.binary(&[0, 255]);
    tape.tagged_end(None, Some(&Label::new("Code")), Some(&Index::new(1)));
    tape.enum_end(None, Some(&level), None);
    tape.record_value_end(None, &Label::new("level"));
    tape.record_end(None, Some(&event), None);
    tape
}

/// A sequence of one item.
fn sequence(item: impl Fn(&mut TapeWriter)) -> TapeWriter {
    let mut tape = TapeWriter::with_capacity(8);
    tape.seq_begin(Some(1));
    tape.seq_value_begin();
    item(&mut tape);
    tape.seq_value_end();
    tape.seq_end();
    tape
}

#[test]
fn a_tape_is_written() {
    let json = r#"{"say \"hi\"":"a\né","load":1.50,"level":{"Code":[0,255]}}"#;
    assert_eq!(event().tape().to_json(), Ok(json.as_bytes().to_vec()));
    let tape = sequence(|it| it.u8(200));
    assert_eq!(tape.tape().to_json(), Ok(b"[200]".to_vec()));
    assert_eq!(tape.tape().to_json_pretty(), Ok(b"[\n  200\n]".to_vec()));
    assert_eq!(tape.tape().to_cbor(), Ok(b"\x9f\x18\xc8\xff".to_vec()));
}

#[test]
fn a_tape_is_written_to_a_buffer() {
    let tape = sequence(TapeWriter::null);
    let tape = tape.tape();
    let mut out = [7; 12];
    assert_eq!(tape.to_json_into(&mut out), Ok(6));
    assert_eq!(tape.to_json_pretty_into(&mut out), Ok(10));
    assert_eq!(&out, b"[\n  null\n]\x07\x07");
    assert_eq!(tape.to_cbor_into(&mut out), Ok(3));
    assert_eq!(
        tape.to_json_into(&mut out[..5]),
        Err(Error::TooShort { due: 6 })
    );
    assert_eq!(&out[..5], b"\x9f\xf6\xff n");
}

#[test]
fn a_writer_is_used_again() {
    let mut tape = sequence(TapeWriter::null);
    tape.clear();
    assert_eq!(tape, TapeWriter::new());
    tape.bool(true);
    assert_eq!(
        Tape::new(&tape.into_bytes()).to_json(),
        Ok(b"true".to_vec())
    );
}

#[test]
fn longer_than_expected() {
    let text = "\u{1}".repeat(1000);
    let mut tape = TapeWriter::new();
    tape.text(&text);
    let json = format!("\"{}\"", "\\u0001".repeat(1000));
    assert_eq!(tape.tape().to_json(), Ok(json.into_bytes()));
}

#[test]
fn bad_tapes() {
    let json = |bytes: &[u8]| Tape::new(bytes).to_json();
    assert_eq!(json(&[0, 48]), Err(Error::BadTape { at: 1 }));
    assert_eq!(json(&[13, 2, b'a']), Err(Error::BadTape { at: 0 }));
    assert_eq!(json(&[0, 0]), Err(Error::RefusedCall { call: 2 }));
    assert_eq!(json(&[]), Err(Error::Unfinished));
    assert_eq!(json(&[26, 0]), Err(Error::Unfinished));
    let mut tape = TapeWriter::new();
    tape.number("1x");
    assert_eq!(tape.tape().to_json(), Err(Error::InvalidNumber));
    let short = sequence(|it| it.text_begin(Some(2)));
    assert_eq!(short.tape().to_json(), Err(Error::RefusedCall { call: 4 }));
    let mut tape = TapeWriter::new();
    tape.map_begin(None);
    tape.map_key_begin();
    tape.binary(&[]);
    tape.map_key_end();
    tape.map_value_begin();
    tape.null();
    tape.map_value_end();
    tape.map_end();
    assert_eq!(tape.tape().to_json(), Err(Error::InvalidKey));
    assert_eq!(tape.tape().to_cbor(), Err(Error::InvalidKey));
}

#[test]
fn cbor_holds_no_fraction_and_no_json() {
    let mut tape = TapeWriter::new();
    tape.number("1.5");
    assert_eq!(tape.tape().to_cbor(), Err(Error::NotInteger));
    tape.clear();
    tape.tagged_begin(Some(&tags::JSON_VALUE), None, None);
    tape.text("[1, 2]");
    tape.tagged_end(Some(&tags::JSON_VALUE), None, None);
    assert_eq!(tape.tape().to_cbor(), Err(Error::Raw));
    assert_eq!(tape.tape().to_json(), Ok(b"[1, 2]".to_vec()));
}

#[test]
fn errors_have_a_status_a_place_and_a_text() {
    let rows = [
        (
            Error::BadTape { at: 3 },
            18,
            Some(3),
            "invalid tape at byte 3",
        ),
        (
            Error::RefusedCall { call: 2 },
            4,
            Some(2),
            "no value goes on with call 2",
        ),
        (
            Error::BadJson { at: 0 },
            13,
            Some(0),
            "invalid JSON at byte 0",
        ),
        (
            Error::Unfinished,
            5,
            None,
            "the calls are not one whole value",
        ),
        (
            Error::TooShort { due: 9 },
            8,
            None,
            "the buffer is too short for 9 bytes",
        ),
        (
            Error::BadPath { path: 1 },
            20,
            Some(1),
            "path 1 has an empty name or a line feed",
        ),
    ];
    for (error, status, place, text) in rows {
        assert_eq!((error.status(), error.place()), (status, place));
        assert_eq!(error.to_string(), text);
    }
}
