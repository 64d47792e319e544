//! The library's functions, as `bindings/c/sval.h` declares them.

use crate::error::Error;
use crate::filter::Rule;

/// What a call answers.
#[repr(C)]
struct Report {
    status: u8,
    written: usize,
    at: u64,
}

extern "C" {
    fn sval_json_check(input: *const u8, input_length: usize) -> Report;
    fn sval_json_compact(
        input: *const u8,
        input_length: usize,
        out: *mut u8,
        out_length: usize,
    ) -> Report;
    fn sval_json_pretty(
        input: *const u8,
        input_length: usize,
        out: *mut u8,
        out_length: usize,
    ) -> Report;
    fn sval_json_to_cbor(
        input: *const u8,
        input_length: usize,
        out: *mut u8,
        out_length: usize,
    ) -> Report;
    fn sval_cbor_to_json(
        input: *const u8,
        input_length: usize,
        out: *mut u8,
        out_length: usize,
    ) -> Report;
    fn sval_script_to_json(
        input: *const u8,
        input_length: usize,
        out: *mut u8,
        out_length: usize,
    ) -> Report;
    fn sval_tape_to_json(
        tape: *const u8,
        tape_length: usize,
        style: u32,
        out: *mut u8,
        out_length: usize,
    ) -> Report;
    fn sval_tape_to_cbor(
        tape: *const u8,
        tape_length: usize,
        out: *mut u8,
        out_length: usize,
    ) -> Report;
    fn sval_json_filter(
        input: *const u8,
        input_length: usize,
        rule: u32,
        paths: *const u8,
        paths_length: usize,
        out: *mut u8,
        out_length: usize,
    ) -> Report;
}

/// How JSON is laid out.
#[derive(Clone, Copy)]
pub(crate) enum Style {
    /// Without white space.
    Compact,
    /// A line for each element and member.
    Pretty,
}

fn result_of(report: Report) -> Result<usize, Error> {
    Err(match report.status {
        0 => return Ok(report.written),
        3 => Error::BadLine { line: report.at },
        4 => Error::BadCall { line: report.at },
        5 => Error::Unfinished,
        6 => Error::InvalidKey,
        7 => Error::InvalidNumber,
        8 => Error::TooShort {
            due: report.written,
        },
        10 => Error::NoMemory,
        12 => Error::NotUtf8 { at: report.at },
        13 => Error::BadJson { at: report.at },
        14 => Error::Raw,
        15 => Error::NotInteger,
        16 => Error::BadCbor,
        18 => Error::BadTape { at: report.at },
        20 => Error::BadPath { path: report.at },
        status => Error::UnknownStatus(status),
    })
}

/// The result of a call over a tape, which has calls where a script has lines.
fn result_of_tape(report: Report) -> Result<usize, Error> {
    result_of(report).map_err(|error| match error {
        Error::BadCall { line: call } => Error::RefusedCall { call },
        error => error,
    })
}

// In each call below a slice is its bytes: they have values, are shorter than 2^63, and a pointer to none of them isn't
// null. A `&mut` overlaps no other reference.

pub(crate) fn check(input: &[u8]) -> Result<usize, Error> {
    // SAFETY: see above.
    result_of(unsafe { sval_json_check(input.as_ptr(), input.len()) })
}

pub(crate) fn compact(input: &[u8], out: &mut [u8]) -> Result<usize, Error> {
    // SAFETY: see above.
    result_of(unsafe {
        sval_json_compact(input.as_ptr(), input.len(), out.as_mut_ptr(), out.len())
    })
}

pub(crate) fn pretty(input: &[u8], out: &mut [u8]) -> Result<usize, Error> {
    // SAFETY: see above.
    result_of(unsafe { sval_json_pretty(input.as_ptr(), input.len(), out.as_mut_ptr(), out.len()) })
}

pub(crate) fn to_cbor(input: &[u8], out: &mut [u8]) -> Result<usize, Error> {
    // SAFETY: see above.
    result_of(unsafe {
        sval_json_to_cbor(input.as_ptr(), input.len(), out.as_mut_ptr(), out.len())
    })
}

pub(crate) fn from_cbor(input: &[u8], out: &mut [u8]) -> Result<usize, Error> {
    // SAFETY: see above.
    result_of(unsafe {
        sval_cbor_to_json(input.as_ptr(), input.len(), out.as_mut_ptr(), out.len())
    })
}

pub(crate) fn script_to_json(script: &[u8], out: &mut [u8]) -> Result<usize, Error> {
    // SAFETY: see above.
    result_of(unsafe {
        sval_script_to_json(script.as_ptr(), script.len(), out.as_mut_ptr(), out.len())
    })
}

pub(crate) fn tape_to_json(style: Style) -> impl Fn(&[u8], &mut [u8]) -> Result<usize, Error> {
    let style = match style {
        Style::Compact => 0,
        Style::Pretty => 1,
    };
    move |tape, out| {
        // SAFETY: see above.
        result_of_tape(unsafe {
            sval_tape_to_json(
                tape.as_ptr(),
                tape.len(),
                style,
                out.as_mut_ptr(),
                out.len(),
            )
        })
    }
}

pub(crate) fn tape_to_cbor(tape: &[u8], out: &mut [u8]) -> Result<usize, Error> {
    // SAFETY: see above.
    result_of_tape(unsafe {
        sval_tape_to_cbor(tape.as_ptr(), tape.len(), out.as_mut_ptr(), out.len())
    })
}

/// `paths` is the paths, each on a line.
pub(crate) fn filter(
    input: &[u8],
    rule: Rule,
    paths: &[u8],
    out: &mut [u8],
) -> Result<usize, Error> {
    let rule = match rule {
        Rule::Drop => 0,
        Rule::Keep => 1,
    };
    // SAFETY: see above.
    result_of(unsafe {
        sval_json_filter(
            input.as_ptr(),
            input.len(),
            rule,
            paths.as_ptr(),
            paths.len(),
            out.as_mut_ptr(),
            out.len(),
        )
    })
}
