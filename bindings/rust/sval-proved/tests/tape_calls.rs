//! The tape of each call, beside what the library's own writer writes.

use std::collections::BTreeSet;
use sval_proved::{tags, Index, Label, TapeWriter};

/// A call as a line of a script, and the same call by the writer.
type Row = (&'static str, fn(&mut TapeWriter));

/// The calls of `tape_calls.txt`, in its order.
const CALLS: [Row; 88] = [
    ("null", |it| it.null()),
    ("bool false", |it| it.bool(false)),
    ("bool true", |it| it.bool(true)),
    ("u8 0", |it| it.u8(0)),
    ("u8 255", |it| it.u8(u8::MAX)),
    ("u16 128", |it| it.u16(128)),
    ("u16 65535", |it| it.u16(u16::MAX)),
    ("u32 4294967295", |it| it.u32(u32::MAX)),
    ("u64 127", |it| it.u64(127)),
    ("u64 16384", |it| it.u64(16384)),
    ("u64 18446744073709551615", |it| it.u64(u64::MAX)),
    ("u128 0", |it| it.u128(0)),
    ("u128 18446744073709551616", |it| it.u128(1 << 64)),
    ("u128 340282366920938463463374607431768211455", |it| {
        it.u128(u128::MAX)
    }),
    ("i8 -128", |it| it.i8(i8::MIN)),
    ("i8 127", |it| it.i8(i8::MAX)),
    ("i16 -7", |it| it.i16(-7)),
    ("i16 32767", |it| it.i16(i16::MAX)),
    ("i32 0", |it| it.i32(0)),
    ("i32 -2147483648", |it| it.i32(i32::MIN)),
    ("i64 9223372036854775807", |it| it.i64(i64::MAX)),
    ("i64 -9223372036854775808", |it| it.i64(i64::MIN)),
    ("i128 -1", |it| it.i128(-1)),
    ("i128 -170141183460469231731687303715884105728", |it| {
        it.i128(i128::MIN)
    }),
    ("i128 170141183460469231731687303715884105727", |it| {
        it.i128(i128::MAX)
    }),
    ("text_begin -", |it| it.text_begin(None)),
    ("text_begin 2", |it| it.text_begin(Some(2))),
    ("text_begin 18446744073709551615", |it| {
        it.text_begin(Some(usize::MAX))
    }),
    ("text_fragment =6869", |it| it.text_fragment("hi")),
    ("text_fragment =", |it| it.text_fragment("")),
    ("text_fragment_computed =c3a9", |it| {
        it.text_fragment_computed("é")
    }),
    ("text_end", |it| it.text_end()),
    ("binary_begin -", |it| it.binary_begin(None)),
    ("binary_begin 300", |it| it.binary_begin(Some(300))),
    ("binary_fragment =007fff", |it| {
        it.binary_fragment(b"\x00\x7f\xff")
    }),
    ("binary_fragment_computed =", |it| {
        it.binary_fragment_computed(b"")
    }),
    ("binary_end", |it| it.binary_end()),
    ("tag - - -", |it| it.tag(None, None, None)),
    (
        "tag RUST_OPTION_NONE =4e6f6e65:VALUE_IDENT 0:VALUE_OFFSET",
        |it| {
            it.tag(
                Some(&tags::RUST_OPTION_NONE),
                Some(&Label::new("None").with_tag(&tags::VALUE_IDENT)),
                Some(&Index::new(0).with_tag(&tags::VALUE_OFFSET)),
            )
        },
    ),
    ("tag RUST_UNIT - -", |it| {
        it.tag(Some(&tags::RUST_UNIT), None, None)
    }),
    ("tag_hint NUMBER", |it| it.tag_hint(&tags::NUMBER)),
    ("tag_hint CONSTANT_SIZE", |it| {
        it.tag_hint(&tags::CONSTANT_SIZE)
    }),
    ("tag_hint JSON_TEXT", |it| it.tag_hint(&tags::JSON_TEXT)),
    ("enum_begin - =5368617065:VALUE_IDENT -", |it| {
        it.enum_begin(
            None,
            Some(&Label::new("Shape").with_tag(&tags::VALUE_IDENT)),
            None,
        )
    }),
    ("enum_begin - - -", |it| it.enum_begin(None, None, None)),
    ("enum_end - =5368617065:VALUE_IDENT -", |it| {
        it.enum_end(
            None,
            Some(&Label::new("Shape").with_tag(&tags::VALUE_IDENT)),
            None,
        )
    }),
    ("enum_end - - 7", |it| {
        it.enum_end(None, None, Some(&Index::new(7)))
    }),
    ("tagged_begin NUMBER - -", |it| {
        it.tagged_begin(Some(&tags::NUMBER), None, None)
    }),
    (
        "tagged_begin RUST_OPTION_SOME =536f6d65:VALUE_IDENT 1:VALUE_OFFSET",
        |it| {
            it.tagged_begin(
                Some(&tags::RUST_OPTION_SOME),
                Some(&Label::new("Some").with_tag(&tags::VALUE_IDENT)),
                Some(&Index::new(1).with_tag(&tags::VALUE_OFFSET)),
            )
        },
    ),
    ("tagged_begin JSON_VALUE - -1", |it| {
        it.tagged_begin(Some(&tags::JSON_VALUE), None, Some(&Index::new_i64(-1)))
    }),
    ("tagged_end NUMBER - -", |it| {
        it.tagged_end(Some(&tags::NUMBER), None, None)
    }),
    ("tagged_end JSON_NUMBER =6122c3a9 -64:VALUE_OFFSET", |it| {
        it.tagged_end(
            Some(&tags::JSON_NUMBER),
            Some(&Label::new("a\"é")),
            Some(&Index::new_i64(-64).with_tag(&tags::VALUE_OFFSET)),
        )
    }),
    ("seq_begin -", |it| it.seq_begin(None)),
    ("seq_begin 0", |it| it.seq_begin(Some(0))),
    ("map_begin -", |it| it.map_begin(None)),
    ("map_begin 128", |it| it.map_begin(Some(128))),
    ("record_begin - =52 - 1", |it| {
        it.record_begin(None, Some(&Label::new("R")), None, Some(1))
    }),
    ("record_begin - - - -", |it| {
        it.record_begin(None, None, None, None)
    }),
    ("tuple_begin - - - 2", |it| {
        it.tuple_begin(None, None, None, Some(2))
    }),
    (
        "tuple_begin - =50:VALUE_IDENT 18446744073709551615 -",
        |it| {
            it.tuple_begin(
                None,
                Some(&Label::new("P").with_tag(&tags::VALUE_IDENT)),
                Some(&Index::new_u64(u64::MAX)),
                None,
            )
        },
    ),
    ("record_tuple_begin RUST_UNIT =52 4:NUMBER 300", |it| {
        it.record_tuple_begin(
            Some(&tags::RUST_UNIT),
            Some(&Label::new("R")),
            Some(&Index::new(4).with_tag(&tags::NUMBER)),
            Some(300),
        )
    }),
    ("record_tuple_begin - - -9223372036854775808 -", |it| {
        it.record_tuple_begin(None, None, Some(&Index::new_i64(i64::MIN)), None)
    }),
    ("seq_end", |it| it.seq_end()),
    ("map_end", |it| it.map_end()),
    ("record_end - =52 -", |it| {
        it.record_end(None, Some(&Label::new("R")), None)
    }),
    ("record_end - - -", |it| it.record_end(None, None, None)),
    ("tuple_end - =50 -", |it| {
        it.tuple_end(None, Some(&Label::new("P")), None)
    }),
    ("tuple_end - - -", |it| it.tuple_end(None, None, None)),
    ("record_tuple_end RUST_UNIT =52 4", |it| {
        it.record_tuple_end(
            Some(&tags::RUST_UNIT),
            Some(&Label::new("R")),
            Some(&Index::new(4)),
        )
    }),
    ("record_tuple_end - - -", |it| {
        it.record_tuple_end(None, None, None)
    }),
    ("seq_value_begin", |it| it.seq_value_begin()),
    ("map_key_begin", |it| it.map_key_begin()),
    ("map_value_begin", |it| it.map_value_begin()),
    ("record_value_begin - =6964:VALUE_IDENT", |it| {
        it.record_value_begin(None, &Label::new("id").with_tag(&tags::VALUE_IDENT))
    }),
    ("record_value_begin VALUE_IDENT =", |it| {
        it.record_value_begin(Some(&tags::VALUE_IDENT), &Label::new(""))
    }),
    ("tuple_value_begin - 0:VALUE_OFFSET", |it| {
        it.tuple_value_begin(None, &Index::new(0).with_tag(&tags::VALUE_OFFSET))
    }),
    ("tuple_value_begin RUST_UNIT 200", |it| {
        it.tuple_value_begin(Some(&tags::RUST_UNIT), &Index::new(200))
    }),
    ("record_tuple_value_begin - =78 -3", |it| {
        it.record_tuple_value_begin(None, &Label::new("x"), &Index::new_i64(-3))
    }),
    (
        "record_tuple_value_begin JSON_NUMBER =78:VALUE_IDENT 1:VALUE_OFFSET",
        |it| {
            it.record_tuple_value_begin(
                Some(&tags::JSON_NUMBER),
                &Label::new("x").with_tag(&tags::VALUE_IDENT),
                &Index::new(1).with_tag(&tags::VALUE_OFFSET),
            )
        },
    ),
    ("seq_value_end", |it| it.seq_value_end()),
    ("map_key_end", |it| it.map_key_end()),
    ("map_value_end", |it| it.map_value_end()),
    ("record_value_end - =6964:VALUE_IDENT", |it| {
        it.record_value_end(None, &Label::new("id").with_tag(&tags::VALUE_IDENT))
    }),
    ("record_value_end VALUE_IDENT =", |it| {
        it.record_value_end(Some(&tags::VALUE_IDENT), &Label::new(""))
    }),
    ("tuple_value_end - 0:VALUE_OFFSET", |it| {
        it.tuple_value_end(None, &Index::new(0).with_tag(&tags::VALUE_OFFSET))
    }),
    ("tuple_value_end RUST_UNIT 200", |it| {
        it.tuple_value_end(Some(&tags::RUST_UNIT), &Index::new(200))
    }),
    ("record_tuple_value_end - =78 -3", |it| {
        it.record_tuple_value_end(None, &Label::new("x"), &Index::new_i64(-3))
    }),
    (
        "record_tuple_value_end JSON_NUMBER =78:VALUE_IDENT 1:VALUE_OFFSET",
        |it| {
            it.record_tuple_value_end(
                Some(&tags::JSON_NUMBER),
                &Label::new("x").with_tag(&tags::VALUE_IDENT),
                &Index::new(1).with_tag(&tags::VALUE_OFFSET),
            )
        },
    ),
];

/// The call and the tape of each line of `tape_calls.txt`.
fn expected() -> impl Iterator<Item = (&'static str, Vec<u8>)> {
    let lines = include_str!("tape_calls.txt").lines().skip(1);
    lines.map(|line| {
        let (call, hex) = line.split_once('\t').expect("a call and a tape");
        let byte = |at| u8::from_str_radix(&hex[at..at + 2], 16).expect("hex");
        (call, (0..hex.len()).step_by(2).map(byte).collect())
    })
}

#[test]
fn each_call_has_the_bytes_of_the_proved_writer() {
    assert_eq!(expected().count(), CALLS.len());
    let mut all = TapeWriter::new();
    let mut due = Vec::new();
    for ((call, bytes), (written, write)) in expected().zip(CALLS) {
        assert_eq!(call, written);
        let mut tape = TapeWriter::new();
        write(&mut tape);
        assert_eq!(tape.bytes(), bytes, "{call}");
        write(&mut all);
        due.extend_from_slice(&bytes);
    }
    assert_eq!(all.into_bytes(), due);
}

#[test]
fn the_rows_have_all_calls() {
    let numbers: BTreeSet<u8> = expected().map(|(_, bytes)| bytes[0]).collect();
    assert_eq!(numbers, (0..48).collect());
}
