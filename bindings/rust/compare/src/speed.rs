//! How long the library and serde_json take for the same JSON.

use crate::events::Event;
use serde::Serialize;
use serde_json::Value;
use std::hint::black_box;
use std::os::raw::c_long;
use sval_proved::{compact, TapeWriter};

/// How many events, and how many structs, are written in a run.
const COUNT: usize = 20_000;

extern "C" {
    /// The processor time of this process in microseconds, by the C library of Linux.
    fn clock() -> c_long;
}

/// The least processor time of nine runs, in milliseconds.
fn best(mut run: impl FnMut()) -> f64 {
    // SAFETY: it takes nothing, and answers a number.
    let now = || unsafe { clock() } as f64 / 1e3;
    let times = (0..9).map(|_| {
        let start = now();
        run();
        now() - start
    });
    times.fold(f64::MAX, f64::min)
}

fn print(what: &str, ours: f64, others: &str, theirs: f64) {
    let ratio = ours / theirs;
    println!("rust: {what} {ours:.1} ms, {others} {theirs:.1} ms, ratio {ratio:.2}");
}

/// A text of JSON without white space, and serde_json's `Value` there and back.
fn time_compact() {
    let event = r#"{"ts": "2024-01-02T03:04:05Z", "level": "Info", "message": "user login", "user": 42, "tags": ["a", "b"]}"#;
    let text = format!("[{}]", vec![event; COUNT].join(", ")).into_bytes();
    let ours = best(|| drop(black_box(compact(&text).expect("it is JSON"))));
    let theirs = best(|| {
        let value: Value = serde_json::from_slice(&text).expect("it is JSON");
        drop(black_box(serde_json::to_vec(&value).expect("it has JSON")));
    });
    print(
        &format!("compact of {} bytes", text.len()),
        ours,
        "serde_json's Value there and back",
        theirs,
    );
}

#[derive(Serialize)]
struct User {
    id: u64,
    name: &'static str,
    mail: &'static str,
    active: bool,
    score: f64,
    age: Option<u8>,
    offset: i32,
    logins: u16,
}

/// A struct of eight fields by serde, and serde_json's `to_vec`.
fn time_struct() {
    let user = User {
        id: 1_234_567_890,
        name: "Zo\u{eb} Example",
        mail: "zoe@example.org",
        active: true,
        score: 17.25,
        age: Some(42),
        offset: -3600,
        logins: 507,
    };
    let json = serde_json::to_vec(&user).expect("it has JSON");
    assert_eq!(sval_proved_serde::to_json(&user), Ok(json));
    let ours = best(|| {
        for _ in 0..COUNT {
            drop(black_box(sval_proved_serde::to_json(black_box(&user))));
        }
    });
    let theirs = best(|| {
        for _ in 0..COUNT {
            drop(black_box(serde_json::to_vec(black_box(&user))));
        }
    });
    print(
        &format!("{COUNT} structs of eight fields by serde"),
        ours,
        "serde_json's to_vec",
        theirs,
    );
}

/// Events as tapes, written as lines of JSON by one and by another buffer, and what capturing them takes.
fn time_events() {
    let events: Vec<Event> = (0..COUNT).map(Event::of).collect();
    let tapes: Vec<TapeWriter> = events.iter().map(Event::tape).collect();
    for (event, tape) in events.iter().zip(&tapes) {
        let json = serde_json::to_vec(event).expect("it has JSON");
        assert_eq!(tape.tape().to_json(), Ok(json));
    }
    let mut out = vec![0; 1 << 16];
    let ours = best(|| {
        for tape in &tapes {
            let written = tape.tape().to_json_into(&mut out).expect("there is room");
            black_box(&out[..written]);
        }
    });
    let mut lines = Vec::with_capacity(1 << 16);
    let theirs = best(|| {
        for event in &events {
            lines.clear();
            serde_json::to_writer(&mut lines, black_box(event)).expect("it has JSON");
            black_box(&lines);
        }
    });
    print(
        &format!("{COUNT} events from tapes to JSON"),
        ours,
        "serde_json's to_writer of structs",
        theirs,
    );
    let ours = best(|| {
        for event in &events {
            drop(black_box(black_box(event).tape()));
        }
    });
    print(
        &format!("{COUNT} events captured as tapes"),
        ours,
        "their JSON by serde_json",
        theirs,
    );
}

/// Times each.
pub fn print_all() {
    time_compact();
    time_struct();
    time_events();
}
