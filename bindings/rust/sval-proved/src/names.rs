//! Names on calls: tags, labels and indexes.

/// A hint of what a label, an index or a value is for. The library reads ten of them, which [`tags`] has.
#[derive(Clone, Copy, Debug, PartialEq, Eq)]
pub struct Tag {
    /// The tag as an operand that is given: 1, the length of its text, and the text.
    operand: &'static str,
}

impl Tag {
    /// The text by which the tag is known.
    pub fn as_str(&self) -> &'static str {
        &self.operand[2..]
    }

    /// The tag as an operand that is given.
    #[inline]
    pub(crate) fn operand(&self) -> &'static [u8] {
        self.operand.as_bytes()
    }
}

/// The tags that the library reads. The text of each is its name.
pub mod tags {
    use super::Tag;

    /// The value of an optional value that is there.
    pub const RUST_OPTION_SOME: Tag = Tag {
        operand: "\u{1}\u{10}RUST_OPTION_SOME",
    };

    /// An optional value that isn't there.
    pub const RUST_OPTION_NONE: Tag = Tag {
        operand: "\u{1}\u{10}RUST_OPTION_NONE",
    };

    /// The value of a type that has one value.
    pub const RUST_UNIT: Tag = Tag {
        operand: "\u{1}\u{9}RUST_UNIT",
    };

    /// A number in a text.
    pub const NUMBER: Tag = Tag {
        operand: "\u{1}\u{6}NUMBER",
    };

    /// A value whose size its type fixes.
    pub const CONSTANT_SIZE: Tag = Tag {
        operand: "\u{1}\u{d}CONSTANT_SIZE",
    };

    /// A label that is a name in the program's text. JSON writes a field's label with this tag without escapes, so only
    /// a text that needs none may have it.
    pub const VALUE_IDENT: Tag = Tag {
        operand: "\u{1}\u{b}VALUE_IDENT",
    };

    /// An index that is a place in an order.
    pub const VALUE_OFFSET: Tag = Tag {
        operand: "\u{1}\u{c}VALUE_OFFSET",
    };

    /// A text that is a value of JSON. It is written as it is, and nothing checks it.
    pub const JSON_VALUE: Tag = Tag {
        operand: "\u{1}\u{a}JSON_VALUE",
    };

    /// A text as it may stand between the quotes of JSON. It is written as it is, and nothing checks it.
    pub const JSON_TEXT: Tag = Tag {
        operand: "\u{1}\u{9}JSON_TEXT",
    };

    /// A text that is a number of JSON. It is written as it is, and nothing checks it.
    pub const JSON_NUMBER: Tag = Tag {
        operand: "\u{1}\u{b}JSON_NUMBER",
    };
}

/// A name as a text: that of a field, a variant or a type.
#[derive(Clone, Copy, Debug)]
pub struct Label<'a> {
    pub(crate) text: &'a str,
    pub(crate) tag: Option<Tag>,
}

impl<'a> Label<'a> {
    /// The label with this text, without a tag.
    #[inline]
    pub fn new(text: &'a str) -> Self {
        Label { text, tag: None }
    }

    /// This label with this tag, in place of its own if it had one.
    #[inline]
    pub fn with_tag(self, tag: &Tag) -> Self {
        Label {
            tag: Some(*tag),
            ..self
        }
    }

    /// The text.
    #[inline]
    pub fn as_str(&self) -> &'a str {
        self.text
    }

    /// The tag, if it has one.
    #[inline]
    pub fn tag(&self) -> Option<&Tag> {
        self.tag.as_ref()
    }
}

/// A name as a number: the place of a field or of a variant, from -2^63 to 2^64-1.
#[derive(Clone, Copy, Debug)]
pub struct Index {
    /// The number without a sign: 0, -1, 1, -2 are 0, 1, 2, 3.
    pub(crate) zigzag: u128,
    pub(crate) tag: Option<Tag>,
}

impl Index {
    /// The index with this number, without a tag.
    #[inline]
    pub fn new(number: usize) -> Self {
        Index::new_u64(number as u64)
    }

    /// The index with this number, without a tag.
    #[inline]
    pub fn new_u64(number: u64) -> Self {
        Index {
            zigzag: u128::from(number) << 1,
            tag: None,
        }
    }

    /// The index with this number, without a tag.
    #[inline]
    pub fn new_i64(number: i64) -> Self {
        Index {
            zigzag: u128::from(((number << 1) ^ (number >> 63)) as u64),
            tag: None,
        }
    }

    /// This index with this tag, in place of its own if it had one.
    #[inline]
    pub fn with_tag(self, tag: &Tag) -> Self {
        Index {
            tag: Some(*tag),
            ..self
        }
    }

    /// The tag, if it has one.
    #[inline]
    pub fn tag(&self) -> Option<&Tag> {
        self.tag.as_ref()
    }
}
