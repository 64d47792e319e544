//! Log events: a time, a level, a message in two fragments, a user and a code.

use serde::ser::{Serialize, SerializeStruct, Serializer};
use sval_proved::{tags, Index, Label, TapeWriter};

const LEVELS: [&str; 5] = ["Trace", "Debug", "Info", "Warn", "Error"];
const MESSAGES: [&str; 5] = [
    "user login",
    "request served in",
    "bad \"token\" for",
    "cache miss on",
    "na\u{ef}ve retry of",
];

pub struct Event {
    ts: String,
    /// Its number in `LEVELS`.
    level: usize,
    message: &'static str,
    tail: String,
    user: Option<u64>,
    code: Option<u64>,
}

fn ident(text: &str) -> Label<'_> {
    Label::new(text).with_tag(&tags::VALUE_IDENT)
}

fn place(number: usize) -> Index {
    Index::new(number).with_tag(&tags::VALUE_OFFSET)
}

/// A field of the record tuple that sval's derive makes of a struct.
fn field(tape: &mut TapeWriter, name: &str, at: usize, value: impl FnOnce(&mut TapeWriter)) {
    tape.record_tuple_value_begin(None, &ident(name), &place(at));
    value(tape);
    tape.record_tuple_value_end(None, &ident(name), &place(at));
}

fn option(tape: &mut TapeWriter, value: Option<u64>) {
    match value {
        Some(value) => {
            let (label, index) = (ident("Some"), place(1));
            tape.tagged_begin(Some(&tags::RUST_OPTION_SOME), Some(&label), Some(&index));
            tape.u64(value);
            tape.tagged_end(Some(&tags::RUST_OPTION_SOME), Some(&label), Some(&index));
        }
        None => tape.tag(
            Some(&tags::RUST_OPTION_NONE),
            Some(&ident("None")),
            Some(&place(0)),
        ),
    }
}

impl Event {
    /// The event of this number.
    pub fn of(number: usize) -> Self {
        let (hour, minute, second) = (number / 3600 % 24, number / 60 % 60, number % 60);
        let user = number as u64 * 7919 % 100_000;
        Event {
            ts: format!("2024-01-02T{hour:02}:{minute:02}:{second:02}Z"),
            level: number * 7 % 5,
            message: MESSAGES[number % 5],
            tail: format!(" #{number}"),
            user: if number % 4 == 0 { None } else { Some(user) },
            code: if number % 9 == 0 { Some(500) } else { None },
        }
    }

    fn level(&self, tape: &mut TapeWriter) {
        let label = ident("Level");
        tape.enum_begin(None, Some(&label), None);
        tape.tag(
            None,
            Some(&ident(LEVELS[self.level])),
            Some(&place(self.level)),
        );
        tape.enum_end(None, Some(&label), None);
    }

    fn message(&self, tape: &mut TapeWriter) {
        tape.text_begin(Some(self.message.len() + self.tail.len()));
        tape.text_fragment(self.message);
        tape.text_fragment(&self.tail);
        tape.text_end();
    }

    /// The calls of sval's derive, with all its tags.
    pub fn tape(&self) -> TapeWriter {
        let label = ident("Event");
        let mut tape = TapeWriter::with_capacity(640);
        tape.record_tuple_begin(None, Some(&label), None, Some(5));
        field(&mut tape, "ts", 0, |tape| tape.text(&self.ts));
        field(&mut tape, "lvl", 1, |tape| self.level(tape));
        field(&mut tape, "msg", 2, |tape| self.message(tape));
        field(&mut tape, "user", 3, |tape| option(tape, self.user));
        field(&mut tape, "err", 4, |tape| option(tape, self.code));
        tape.record_tuple_end(None, Some(&label), None);
        tape
    }
}

impl Serialize for Event {
    fn serialize<S: Serializer>(&self, serializer: S) -> Result<S::Ok, S::Error> {
        let mut event = serializer.serialize_struct("Event", 5)?;
        event.serialize_field("ts", &self.ts)?;
        event.serialize_field("lvl", LEVELS[self.level])?;
        event.serialize_field("msg", &format_args!("{}{}", self.message, self.tail))?;
        event.serialize_field("user", &self.user)?;
        event.serialize_field("err", &self.code)?;
        event.end()
    }
}
