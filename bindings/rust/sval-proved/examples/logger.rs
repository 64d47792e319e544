//! A logger: events are captured as tapes where they happen, and written later as lines of JSON.
//!
//! Capturing calls no code of the library and makes no JSON, so it is quick. The logger keeps the newest events, and says
//! how many older ones it had to drop.

use std::collections::VecDeque;
use std::fmt::{self, Write as _};
use std::io::{self, Write};
use std::sync::{Mutex, MutexGuard, PoisonError};
use std::time::Instant;
use sval_proved::{Index, Label, Tape, TapeWriter};

/// How grave an event is, the gravest first.
#[derive(Clone, Copy, PartialEq, Eq, PartialOrd, Ord)]
enum Level {
    Error,
    Warn,
    Info,
    Debug,
}

impl Level {
    fn name(self) -> &'static str {
        match self {
            Level::Error => "Error",
            Level::Warn => "Warn",
            Level::Info => "Info",
            Level::Debug => "Debug",
        }
    }
}

/// What a field of an event can hold.
trait Field {
    fn write(&self, tape: &mut TapeWriter);
}

impl Field for u64 {
    fn write(&self, tape: &mut TapeWriter) {
        tape.u64(*self);
    }
}

impl Field for &str {
    fn write(&self, tape: &mut TapeWriter) {
        tape.text(self);
    }
}

impl Field for Level {
    fn write(&self, tape: &mut TapeWriter) {
        let label = Label::new("Level");
        tape.enum_begin(None, Some(&label), None);
        tape.tag(
            None,
            Some(&Label::new(self.name())),
            Some(&Index::new(*self as usize)),
        );
        tape.enum_end(None, Some(&label), None);
    }
}

impl<T: Field> Field for Option<T> {
    fn write(&self, tape: &mut TapeWriter) {
        match self {
            Some(value) => value.write(tape),
            None => tape.null(),
        }
    }
}

/// A message is written as it is formatted, a fragment at a time.
struct Fragments<'a>(&'a mut TapeWriter);

impl fmt::Write for Fragments<'_> {
    fn write_str(&mut self, text: &str) -> fmt::Result {
        self.0.text_fragment(text);
        Ok(())
    }
}

impl Field for fmt::Arguments<'_> {
    fn write(&self, tape: &mut TapeWriter) {
        tape.text_begin(None);
        // What fails is the `Display` of an argument, whose text then ends early.
        let _ = Fragments(tape).write_fmt(*self);
        tape.text_end();
    }
}

/// Writes a field of an event.
fn field(tape: &mut TapeWriter, name: &str, value: &dyn Field) {
    let label = Label::new(name);
    tape.record_value_begin(None, &label);
    value.write(tape);
    tape.record_value_end(None, &label);
}

/// The newest events.
struct Ring {
    tapes: VecDeque<TapeWriter>,
    /// How many events were dropped since events were written.
    dropped: u64,
}

/// Keeps events until they are written.
struct Logger {
    start: Instant,
    /// Less grave events are not kept.
    least: Level,
    /// How many events there is room for, at least one.
    room: usize,
    ring: Mutex<Ring>,
}

impl Logger {
    fn new(least: Level, room: usize) -> Self {
        let tapes = VecDeque::with_capacity(room);
        Logger {
            start: Instant::now(),
            least,
            room,
            ring: Mutex::new(Ring { tapes, dropped: 0 }),
        }
    }

    fn ring(&self) -> MutexGuard<'_, Ring> {
        self.ring.lock().unwrap_or_else(PoisonError::into_inner)
    }

    /// Captures an event, in place of the oldest one where there is no room.
    fn log(&self, level: Level, message: fmt::Arguments<'_>, fields: &[(&str, &dyn Field)]) {
        if level > self.least {
            return;
        }
        let mut tape = TapeWriter::with_capacity(256);
        tape.record_begin(None, Some(&Label::new("Event")), None, None);
        field(&mut tape, "ms", &(self.start.elapsed().as_millis() as u64));
        field(&mut tape, "level", &level);
        field(&mut tape, "message", &message);
        for (name, value) in fields {
            field(&mut tape, name, *value);
        }
        tape.record_end(None, Some(&Label::new("Event")), None);
        let mut ring = self.ring();
        if ring.tapes.len() == self.room {
            ring.tapes.pop_front();
            ring.dropped += 1;
        }
        ring.tapes.push_back(tape);
    }

    /// Writes the events as lines of JSON, and forgets them. Others may be captured meanwhile.
    fn write_lines(&self, out: &mut impl Write) -> io::Result<()> {
        let (tapes, dropped) = {
            let mut ring = self.ring();
            let dropped = std::mem::take(&mut ring.dropped);
            (std::mem::take(&mut ring.tapes), dropped)
        };
        if dropped > 0 {
            writeln!(out, "{{\"dropped\":{dropped}}}")?;
        }
        for tape in &tapes {
            write_line(tape.tape(), out)?;
        }
        out.flush()
    }
}

/// Writes an event as a line. Compact JSON has no line feed.
fn write_line(tape: Tape<'_>, out: &mut impl Write) -> io::Result<()> {
    let to_io = |error| io::Error::new(io::ErrorKind::InvalidData, error);
    let mut json = tape.to_json().map_err(to_io)?;
    json.push(b'\n');
    out.write_all(&json)
}

/// Logs by a logger, a level, a message as of `format!`, and fields.
macro_rules! log {
    ($logger:ident, $level:ident, $($message:expr),+ $(; $($name:ident = $value:expr),+)?) => {
        $logger.log(
            Level::$level,
            format_args!($($message),+),
            &[$($((stringify!($name), &$value as &dyn Field)),+)?],
        )
    };
}

fn main() -> io::Result<()> {
    let logger = Logger::new(Level::Info, 4);
    for attempt in 1..=3_u64 {
        log!(logger, Info, "try {attempt}"; attempt = attempt);
    }
    log!(logger, Debug, "too little to keep");
    std::thread::scope(|scope| {
        scope.spawn(|| {
            let user = Some("Zo\u{eb}");
            log!(logger, Error, "disk {:?} is full", "a"; code = 507_u64, user = user);
        });
    });
    log!(logger, Warn, "a line\nand another"; user = None::<&str>);
    logger.write_lines(&mut io::stdout())
}
