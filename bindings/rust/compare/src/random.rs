//! Random texts of JSON.

const TEXTS: [&str; 8] = [
    "",
    "a",
    "é",
    "\\u0000\\u001f",
    "\\\"\\\\\\/",
    "😀",
    "\\ud83d\\ude00",
    "key key key key",
];
const NUMBERS: [&str; 8] = [
    "0",
    "-0",
    "17",
    "-1",
    "18446744073709551616",
    "-9223372036854775809",
    "1.50",
    "-2e+7",
];
const SPACES: [&str; 4] = ["", "", " ", "\n\t\r "];

/// A generator of numbers (xorshift64*).
pub struct Random {
    state: u64,
}

impl Random {
    pub fn new(seed: u64) -> Self {
        Random { state: seed | 1 }
    }

    /// A number below `bound`.
    fn below(&mut self, bound: usize) -> usize {
        self.state ^= self.state >> 12;
        self.state ^= self.state << 25;
        self.state ^= self.state >> 27;
        (self.state.wrapping_mul(0x2545_F491_4F6C_DD1D) >> 33) as usize % bound
    }

    fn pick<'a>(&mut self, words: &[&'a str]) -> &'a str {
        words[self.below(words.len())]
    }

    /// A text of JSON, at most `depth` arrays and objects deep.
    pub fn json(&mut self, depth: usize) -> Vec<u8> {
        let mut out = String::new();
        self.value(depth, &mut out);
        out.into_bytes()
    }

    fn space(&mut self, out: &mut String) {
        out.push_str(self.pick(&SPACES));
    }

    fn text(&mut self, out: &mut String) {
        out.push('"');
        for _ in 0..self.below(3) {
            out.push_str(self.pick(&TEXTS));
        }
        out.push('"');
    }

    fn value(&mut self, depth: usize, out: &mut String) {
        self.space(out);
        match self.below(if depth > 0 { 6 } else { 4 }) {
            0 => out.push_str(self.pick(&["null", "true", "false"])),
            1 => out.push_str(self.pick(&NUMBERS)),
            2 => out.push_str(&self.below(1 << 30).to_string()),
            3 => self.text(out),
            4 => self.parts("[", "]", depth, |_, _| {}, out),
            _ => self.parts("{", "}", depth, Self::name, out),
        }
        self.space(out);
    }

    fn name(&mut self, out: &mut String) {
        self.space(out);
        self.text(out);
        self.space(out);
        out.push(':');
    }

    /// Parts between two brackets, each with what stands before its value.
    fn parts(
        &mut self,
        begin: &str,
        end: &str,
        depth: usize,
        before: fn(&mut Self, &mut String),
        out: &mut String,
    ) {
        out.push_str(begin);
        for at in 0..self.below(5) {
            if at > 0 {
                out.push(',');
            }
            before(self, out);
            self.value(depth - 1, out);
        }
        self.space(out);
        out.push_str(end);
    }

    /// The text with one byte dropped, replaced or added, or cut off.
    pub fn changed(&mut self, mut text: Vec<u8>) -> Vec<u8> {
        let at = self.below(text.len());
        let byte = b"[]{}:,\"\\-0.e tfn\xff"[self.below(17)];
        match self.below(4) {
            0 => text.truncate(at),
            1 => drop(text.remove(at)),
            2 => text[at] = byte,
            _ => text.insert(at, byte),
        }
        text
    }
}
