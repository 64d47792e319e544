//! The bytes of calls and operands, as the crate `sval_tape` of the library defines them.
//!
//! Bytes that are known together are written together, since each write looks for room.

use crate::names::{Index, Label, Tag};

/// A number as LEB128 in the shortest form.
#[inline]
pub fn number(out: &mut Vec<u8>, mut number: u64) {
    while number >= 128 {
        out.push(number as u8 | 128);
        number >>= 7;
    }
    out.push(number as u8);
}

/// A number of up to 128 bits as LEB128 in the shortest form.
#[inline]
pub fn wide_number(out: &mut Vec<u8>, mut wide: u128) {
    while wide > u128::from(u64::MAX) {
        out.push(wide as u8 | 128);
        wide >>= 7;
    }
    number(out, wide as u64);
}

/// A signed number: 0, -1, 1, -2 are 0, 1, 2, 3.
#[inline]
pub fn signed(out: &mut Vec<u8>, value: i64) {
    number(out, ((value << 1) ^ (value >> 63)) as u64);
}

/// A signed number of up to 128 bits.
#[inline]
pub fn wide_signed(out: &mut Vec<u8>, value: i128) {
    wide_number(out, ((value << 1) ^ (value >> 127)) as u128);
}

/// Some bytes, and then the number of a block's bytes and the block.
#[inline]
pub fn block_behind<const N: usize>(out: &mut Vec<u8>, mut front: [u8; N], block: &[u8]) {
    // The last of the bytes in front is the room for a short length.
    if block.len() < 128 {
        front[N - 1] = block.len() as u8;
        out.extend_from_slice(&front);
    } else {
        out.extend_from_slice(&front[..N - 1]);
        number(out, block.len() as u64);
    }
    out.extend_from_slice(block);
}

/// A size, where one is given.
#[inline]
pub fn size(out: &mut Vec<u8>, size: Option<usize>) {
    match size {
        Some(size) if size < 128 => out.extend_from_slice(&[1, size as u8]),
        Some(size) => {
            out.push(1);
            number(out, size as u64);
        }
        None => out.push(0),
    }
}

/// A tag, where one is given.
#[inline]
pub fn tag(out: &mut Vec<u8>, tag: Option<&Tag>) {
    match tag {
        Some(tag) => out.extend_from_slice(tag.operand()),
        None => out.push(0),
    }
}

/// An index.
#[inline]
pub fn index(out: &mut Vec<u8>, index: &Index) {
    wide_number(out, index.zigzag);
    tag(out, index.tag());
}

/// A call with a tag, where one is given, and a label.
#[inline]
pub fn field(out: &mut Vec<u8>, call: u8, before: Option<&Tag>, label: &Label) {
    match (before, label.tag()) {
        (None, None) if label.text.len() < SHORT => plain_field(out, call, label.text.as_bytes()),
        (before, tag) => tagged_field(out, call, before, label.text.as_bytes(), tag),
    }
}

/// How many bytes the label of a field has at most that is written as one piece.
const SHORT: usize = 28;

/// A call with a short label and no tag, as one piece.
#[inline]
fn plain_field(out: &mut Vec<u8>, call: u8, label: &[u8]) {
    let mut bytes = [0; SHORT + 4];
    bytes[0] = call;
    bytes[2] = label.len() as u8;
    for (byte, at) in label.iter().zip(&mut bytes[3..]) {
        *at = *byte;
    }
    out.extend_from_slice(&bytes[..label.len() + 4]);
}

/// A call with a label and perhaps tags.
fn tagged_field(
    out: &mut Vec<u8>,
    call: u8,
    before: Option<&Tag>,
    label: &[u8],
    behind: Option<&Tag>,
) {
    match before {
        Some(_) => {
            out.push(call);
            tag(out, before);
            block_behind(out, [0], label);
        }
        None => block_behind(out, [call, 0, 0], label),
    }
    tag(out, behind);
}

/// A call with a name: a tag, a label and an index, each where it is given.
#[inline]
pub fn named(
    out: &mut Vec<u8>,
    call: u8,
    before: Option<&Tag>,
    label: Option<&Label>,
    place: Option<&Index>,
) {
    out.push(call);
    tag(out, before);
    match label {
        Some(label) => {
            block_behind(out, [1, 0], label.text.as_bytes());
            tag(out, label.tag());
        }
        None => out.push(0),
    }
    match place {
        Some(place) => {
            out.push(1);
            index(out, place);
        }
        None => out.push(0),
    }
}
