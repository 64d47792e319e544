//! Each call, its errors with their places, and buffers of each length.

use sval_proved::{
    check, compact, compact_into, from_cbor, from_cbor_into, pretty, pretty_into, script_to_json,
    script_to_json_into, to_cbor, to_cbor_into, Error,
};

#[test]
fn gives_what_is_due() {
    assert_eq!(check(b" [1, 2] "), Ok(()));
    assert_eq!(
        compact(b" {\"a\" : [1, -0]} "),
        Ok(b"{\"a\":[1,0]}".to_vec())
    );
    assert_eq!(pretty(b"[1,[]]"), Ok(b"[\n  1,\n  []\n]".to_vec()));
    assert_eq!(to_cbor(b"[1,\"a\"]"), Ok(b"\x9f\x01\x61a\xff".to_vec()));
    assert_eq!(from_cbor(b"\x9f\x01\x61a\xff"), Ok(b"[1,\"a\"]".to_vec()));
    assert_eq!(script_to_json(b"bool true\n"), Ok(b"true".to_vec()));
}

#[test]
fn gives_more_than_was_expected() {
    // Each byte of a byte string is up to four of JSON.
    let cbor = [&b"\x58\xc8"[..], &[200; 200]].concat();
    let json = format!("[{}]", ["200"; 200].join(","));
    assert_eq!(from_cbor(&cbor), Ok(json.into_bytes()));
}

#[test]
fn tells_the_place() {
    assert_eq!(check(b"[1,]"), Err(Error::BadJson { at: 3 }));
    assert_eq!(compact(b""), Err(Error::BadJson { at: 0 }));
    assert_eq!(compact(b"\"\xff\""), Err(Error::NotUtf8 { at: 1 }));
    assert_eq!(pretty(b"{"), Err(Error::BadJson { at: 1 }));
    assert_eq!(to_cbor(b"[1.5]"), Err(Error::NotInteger));
    assert_eq!(from_cbor(b"\x62\xc3"), Err(Error::BadCbor));
    assert_eq!(from_cbor(b"\xa1\x80\x01"), Err(Error::InvalidKey));
    assert_eq!(
        script_to_json(b"null\nnonsense\n"),
        Err(Error::BadLine { line: 2 })
    );
    assert_eq!(
        script_to_json(b"null\nnull\n"),
        Err(Error::BadCall { line: 2 })
    );
    assert_eq!(script_to_json(b"seq_begin -\n"), Err(Error::Unfinished));
}

#[test]
fn keeps_to_the_buffer() {
    type Into = fn(&[u8], &mut [u8]) -> Result<usize, Error>;
    let rows: [(Into, &[u8], &[u8]); 5] = [
        (compact_into, b"[ 1 ]", b"[1]"),
        (pretty_into, b"[ 1 ]", b"[\n  1\n]"),
        (to_cbor_into, b"[1]", b"\x9f\x01\xff"),
        (from_cbor_into, b"\x81\x01", b"[1]"),
        (script_to_json_into, b"null\n", b"null"),
    ];
    for (call, input, due) in rows {
        for room in 0..due.len() + 2 {
            let mut out = vec![7; room];
            let answer = call(input, &mut out);
            if room < due.len() {
                assert_eq!(answer, Err(Error::TooShort { due: due.len() }));
                assert_eq!(out, vec![7; room]);
            } else {
                assert_eq!(answer, Ok(due.len()));
                assert_eq!(&out[..due.len()], due);
                assert!(out[due.len()..].iter().all(|byte| *byte == 7));
            }
        }
    }
}
