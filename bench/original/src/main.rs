//! Reads a script of calls from standard input, and writes the JSON of the value that they spell to standard output.
//! `direct` streams the calls straight into `sval_json`, `buffered` collects them into a `sval_buffer::ValueBuf` first.

use std::io::{self, BufRead, BufWriter, Read, Write};
use std::{env, error::Error, str, thread};

use sval::tags::*;
use sval_buffer::ValueBuf;
use sval_json::tags::*;

type Result<T> = std::result::Result<T, Box<dyn Error + Send + Sync>>;

#[derive(Default)]
struct Script {
    lines: Vec<Line>,
    /// What the fields of lines decode to.
    store: Vec<u8>,
    /// The sizes behind names, in the order of the lines: they would make each line bigger.
    sizes: Vec<Size>,
}

/// What a field of a line says.
trait Field: Sized {
    fn parse(field: &[u8], script: &mut Script) -> Option<Self>;

    /// Parses the first of the fields that are left of a line.
    fn next(fields: &mut Option<&[u8]>, script: &mut Script) -> Option<Self> {
        let (field, behind) = cut((*fields)?, b' ');
        *fields = behind;
        Self::parse(field, script)
    }
}

/// The bytes before the first `byte`, and those behind it.
fn cut(bytes: &[u8], byte: u8) -> (&[u8], Option<&[u8]>) {
    match bytes.iter().position(|&b| b == byte) {
        Some(at) => (&bytes[..at], Some(&bytes[at + 1..])),
        None => (bytes, None),
    }
}

/// `-` is none.
impl<T: Field> Field for Option<T> {
    fn parse(field: &[u8], script: &mut Script) -> Option<Self> {
        if field == b"-" { Some(None) } else { T::parse(field, script).map(Some) }
    }
}

macro_rules! literals {
    ($($Type:ty)*) => {$(
        /// Decimals are without `+`, `-0` and leading zeros.
        impl Field for $Type {
            fn parse(field: &[u8], _: &mut Script) -> Option<Self> {
                match field {
                    [b'+', ..] | [b'0', _, ..] | [b'-', b'0', ..] => None,
                    _ => str::from_utf8(field).ok()?.parse().ok(),
                }
            }
        }
    )*};
}

literals!(bool u8 u16 u32 u64 u128 usize i8 i16 i32 i64 i128);

macro_rules! known_tags {
    ($($NAME:ident)*) => {
        #[derive(Clone, Copy)]
        #[allow(non_camel_case_types)]
        enum Tag { $($NAME),* }

        impl Tag {
            fn get(self) -> &'static sval::Tag { match self { $(Tag::$NAME => &$NAME),* } }
        }

        impl Field for Tag {
            fn parse(field: &[u8], _: &mut Script) -> Option<Self> {
                match field {
                    $(_ if field == stringify!($NAME).as_bytes() => Some(Tag::$NAME),)*
                    _ => None,
                }
            }
        }
    };
}

known_tags! {
    RUST_OPTION_SOME RUST_OPTION_NONE RUST_UNIT NUMBER CONSTANT_SIZE VALUE_IDENT VALUE_OFFSET
    JSON_VALUE JSON_TEXT JSON_NUMBER
}

/// A start and an end in the store.
#[derive(Clone, Copy)]
struct Bytes(u32, u32);

impl Bytes {
    fn get(self, script: &Script) -> &[u8] {
        &script.store[self.0 as usize..self.1 as usize]
    }
}

impl Field for Bytes {
    fn parse(field: &[u8], Script { store, .. }: &mut Script) -> Option<Self> {
        let digits = field.strip_prefix(b"=")?;
        let start = store.len();
        store.resize(start + digits.len() / 2, 0);
        hex::decode_to_slice(digits, &mut store[start..]).ok()?;
        Some(Bytes(start.try_into().ok()?, store.len().try_into().ok()?))
    }
}

/// Bytes that are UTF-8.
#[derive(Clone, Copy)]
struct Text(Bytes);

impl Text {
    fn get(self, script: &Script) -> &str {
        // SAFETY: `parse` has checked it, and the store only grows.
        unsafe { str::from_utf8_unchecked(self.0.get(script)) }
    }
}

impl Field for Text {
    fn parse(field: &[u8], script: &mut Script) -> Option<Self> {
        let bytes = Bytes::parse(field, script)?;
        str::from_utf8(bytes.get(script)).ok().map(|_| Text(bytes))
    }

    /// Takes all that's left, which may be long: a space is no digit.
    fn next(fields: &mut Option<&[u8]>, script: &mut Script) -> Option<Self> {
        Self::parse(fields.take()?, script)
    }
}

/// A tag may stand behind `:`.
impl<T: Field> Field for (T, Option<Tag>) {
    fn parse(field: &[u8], script: &mut Script) -> Option<Self> {
        let (part, tag) = cut(field, b':');
        Some((T::parse(part, script)?, tag.map_or(Some(None), |tag| Tag::parse(tag, script).map(Some))?))
    }
}

type Label = (Text, Option<Tag>);

fn label((text, tag): Label, script: &Script) -> sval::Label<'_> {
    let label = sval::Label::new_computed(text.get(script));
    match tag {
        Some(tag) => label.with_tag(tag.get()),
        None => label,
    }
}

#[derive(Clone, Copy)]
enum Index {
    Unsigned(u64, Option<Tag>),
    Negative(i64, Option<Tag>),
}

impl Index {
    fn get(self) -> sval::Index {
        let (index, tag) = match self {
            Index::Unsigned(n, tag) => (sval::Index::new_u64(n), tag),
            Index::Negative(n, tag) => (sval::Index::new_i64(n), tag),
        };
        tag.map_or(index, |tag| index.with_tag(tag.get()))
    }
}

impl Field for Index {
    fn parse(field: &[u8], script: &mut Script) -> Option<Self> {
        match field {
            [b'-', ..] => Field::parse(field, script).map(|(n, tag)| Index::Negative(n, tag)),
            _ => Field::parse(field, script).map(|(n, tag)| Index::Unsigned(n, tag)),
        }
    }
}

/// The next of the script's sizes.
#[derive(Clone, Copy)]
struct NextSize;

impl Field for NextSize {
    fn parse(field: &[u8], script: &mut Script) -> Option<Self> {
        let size = Field::parse(field, script)?;
        script.sizes.push(size);
        Some(NextSize)
    }
}

type Size = Option<usize>;
type MayTag = Option<Tag>;
type MayLabel = Option<Label>;
type MayIndex = Option<Index>;

/// What a stream takes for a field of the type.
macro_rules! argument {
    (Tag $field:ident $script:ident $sizes:ident) => { $field.get() };
    (Index $field:ident $script:ident $sizes:ident) => { &$field.get() };
    (Label $field:ident $script:ident $sizes:ident) => { &label($field, $script) };
    (MayTag $field:ident $script:ident $sizes:ident) => { $field.map(Tag::get) };
    (MayIndex $field:ident $script:ident $sizes:ident) => { $field.map(Index::get).as_ref() };
    (MayLabel $field:ident $script:ident $sizes:ident) => { $field.map(|field| label(field, $script)).as_ref() };
    (Text $field:ident $script:ident $sizes:ident) => { $field.get($script) };
    (Bytes $field:ident $script:ident $sizes:ident) => { $field.get($script) };
    (NextSize $field:ident $script:ident $sizes:ident) => { $sizes.next().and_then(|&size| size) };
    ($Literal:ident $field:ident $script:ident $sizes:ident) => { $field };
}

/// The lines of scripts: how they're kept, parsed and streamed. Their words are the names of the stream's methods.
macro_rules! lines {
    ($($Call:ident $call:ident($($field:ident: $Type:ident),*);)*) => {
        enum Line { $($Call($($Type),*)),* }

        impl Line {
            fn parse(line: &[u8], script: &mut Script) -> Option<Self> {
                let (word, mut fields) = cut(line, b' ');
                let line = match word {
                    $(_ if word == stringify!($call).as_bytes() => Line::$Call($($Type::next(&mut fields, script)?),*),)*
                    _ => return None,
                };
                fields.is_none().then_some(line)
            }
        }

        impl sval::Value for Script {
            #[allow(unused_variables)]
            fn stream<'sval, S: sval::Stream<'sval> + ?Sized>(&'sval self, stream: &mut S) -> sval::Result {
                let mut sizes = self.sizes.iter();
                for line in &self.lines {
                    match *line {
                        $(Line::$Call($($field),*) => stream.$call($(argument!($Type $field self sizes)),*)?,)*
                    }
                }
                Ok(())
            }
        }
    };
}

lines! {
    Null null(); Bool bool(b: bool);
    U8 u8(n: u8); U16 u16(n: u16); U32 u32(n: u32); U64 u64(n: u64); U128 u128(n: u128);
    I8 i8(n: i8); I16 i16(n: i16); I32 i32(n: i32); I64 i64(n: i64); I128 i128(n: i128);
    TextBegin text_begin(n: Size); TextEnd text_end();
    TextFragment text_fragment(text: Text); TextFragmentComputed text_fragment_computed(text: Text);
    BinaryBegin binary_begin(n: Size); BinaryEnd binary_end();
    BinaryFragment binary_fragment(bytes: Bytes); BinaryFragmentComputed binary_fragment_computed(bytes: Bytes);
    MapBegin map_begin(n: Size); MapEnd map_end(); MapKeyBegin map_key_begin(); MapKeyEnd map_key_end();
    MapValueBegin map_value_begin(); MapValueEnd map_value_end();
    SeqBegin seq_begin(n: Size); SeqEnd seq_end(); SeqValueBegin seq_value_begin(); SeqValueEnd seq_value_end();
    EnumBegin enum_begin(t: MayTag, l: MayLabel, i: MayIndex); EnumEnd enum_end(t: MayTag, l: MayLabel, i: MayIndex);
    TaggedBegin tagged_begin(t: MayTag, l: MayLabel, i: MayIndex); TaggedEnd tagged_end(t: MayTag, l: MayLabel, i: MayIndex);
    Tag tag(t: MayTag, l: MayLabel, i: MayIndex); TagHint tag_hint(t: Tag);
    RecordBegin record_begin(t: MayTag, l: MayLabel, i: MayIndex, n: NextSize);
    RecordValueBegin record_value_begin(t: MayTag, l: Label); RecordValueEnd record_value_end(t: MayTag, l: Label);
    RecordEnd record_end(t: MayTag, l: MayLabel, i: MayIndex); TupleEnd tuple_end(t: MayTag, l: MayLabel, i: MayIndex);
    TupleBegin tuple_begin(t: MayTag, l: MayLabel, i: MayIndex, n: NextSize);
    TupleValueBegin tuple_value_begin(t: MayTag, i: Index); TupleValueEnd tuple_value_end(t: MayTag, i: Index);
    RecordTupleBegin record_tuple_begin(t: MayTag, l: MayLabel, i: MayIndex, n: NextSize);
    RecordTupleValueBegin record_tuple_value_begin(t: MayTag, l: Label, i: Index);
    RecordTupleValueEnd record_tuple_value_end(t: MayTag, l: Label, i: Index);
    RecordTupleEnd record_tuple_end(t: MayTag, l: MayLabel, i: MayIndex);
}

const _: () = assert!(size_of::<Line>() == 32);

fn read() -> Result<Script> {
    let mut input = Vec::new();
    io::stdin().lock().read_to_end(&mut input)?;
    let mut script = Script { store: Vec::with_capacity(input.len() / 2), ..Script::default() };
    let mut rest = &*input;
    while !rest.is_empty() {
        let start = rest;
        let line = start[..rest.skip_until(b'\n')?].strip_suffix(b"\n");
        let line = line.and_then(|line| Line::parse(line, &mut script));
        script.lines.push(line.ok_or_else(|| format!("line {} is no call", script.lines.len() + 1))?);
    }
    Ok(script)
}

fn write(value: &impl sval::Value) -> Result<()> {
    let mut out = BufWriter::new(io::stdout().lock());
    sval_json::stream_to_io_write(&mut out, value)?;
    Ok(out.flush()?)
}

fn run(mode: Option<&str>) -> Result<()> {
    match mode {
        Some("direct") => write(&read()?),
        Some("buffered") => write(&ValueBuf::collect(&read()?)?),
        _ => Err("the mode is `direct` or `buffered`".into()),
    }
}

fn main() -> Result<()> {
    let mode = env::args().nth(1);
    // deep values are replayed by recursion
    let worker = thread::Builder::new().stack_size(1 << 30).spawn(move || run(mode.as_deref()))?;
    worker.join().map_err(|_| "the worker panicked")?
}
