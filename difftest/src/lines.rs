//! Calls as lines of text, answered by the Rust: the format of the program that executes calls from its input.
//!
//! A line is a call's name and its words with single spaces between: numbers in decimal, byte strings as pairs of
//! hexadecimal digits, `-` where empty, `+N` after the digits for N zero bytes. The answer follows ` => `.

mod fields;
mod packets;
mod paths;
mod records;
mod runs;

use crate::tally::{Exception, Source, Tally};

/// The words of a line, the answer that is made of them, and whose answer that is.
pub struct Line<'a> {
    words: Vec<&'a str>,
    answer: String,
    source: Source,
}

impl<'a> Line<'a> {
    /// Splits a line.
    fn new(line: &'a str) -> Self {
        Self { words: line.split(' ').collect(), answer: String::new(), source: Source::Rust }
    }

    /// Says that the answer falls under an exception.
    fn except(&mut self, exception: Exception) {
        self.source = Source::Excepted(exception);
    }

    /// Word `k` as a number; 0 where there is none.
    fn number(&self, k: usize) -> u64 {
        self.words.get(k).map_or(0, |word| word.parse().expect("a number"))
    }

    /// Word `k` as a byte.
    fn byte(&self, k: usize) -> u8 {
        u8::try_from(self.number(k)).expect("a byte")
    }

    /// Word `k` as an index.
    fn index(&self, k: usize) -> usize {
        self.number(k) as usize
    }

    /// Word `k` as a flag.
    fn flag(&self, k: usize) -> bool {
        self.number(k) == 1
    }

    /// Word `k` as bytes.
    fn bytes(&self, k: usize) -> Vec<u8> {
        parse_bytes(self.words[k])
    }

    /// Adds a number to the answer.
    fn add(&mut self, number: impl ToString) -> &mut Self {
        self.answer.push(' ');
        self.answer.push_str(&number.to_string());
        self
    }

    /// Adds a flag to the answer.
    fn add_flag(&mut self, on: bool) -> &mut Self {
        self.add(u8::from(on))
    }

    /// Adds bytes to the answer.
    fn add_bytes(&mut self, bytes: &[u8]) -> &mut Self {
        self.add(crate::tally::hex(bytes))
    }
}

/// The bytes that a word spells.
pub fn parse_bytes(word: &str) -> Vec<u8> {
    let (digits, zeros) = word.split_once('+').unwrap_or((word, "0"));
    let mut bytes = Vec::new();
    if digits != "-" {
        let pairs = digits.as_bytes().chunks(2).map(|pair| std::str::from_utf8(pair).expect("digits"));
        bytes.extend(pairs.map(|pair| u8::from_str_radix(pair, 16).expect("two digits")));
    }
    bytes.resize(bytes.len() + zeros.parse::<usize>().expect("a number"), 0);
    bytes
}

/// The answer to a call, as text, and whose it is; none where it is no call or one that the Rust can't be asked.
pub fn answer(text: &str) -> Option<(String, Source)> {
    let mut line = Line::new(text);
    let is_known = paths::answer(&mut line)
        || fields::answer(&mut line)
        || packets::answer(&mut line)
        || runs::answer(&mut line)
        || records::answer(&mut line);
    is_known.then_some((line.answer, line.source))
}

/// What a line with a stored answer turns out to be.
pub enum Verdict {
    /// No call, or one that is none of the program's (`?`).
    NoCall,
    /// One that the Rust can't be asked.
    Unasked,
    Same(Source),
    Differs {
        source: Source,
        expected: String,
    },
}

/// Compares the answer stored in a line with the Rust's, or with document 01's where the Rust has none.
pub fn verdict(line: &str) -> Verdict {
    let Some((call, stored)) = line.split_once(" =>") else { return Verdict::NoCall };
    if stored == " ?" {
        return Verdict::NoCall;
    }
    match answer(call) {
        None => Verdict::Unasked,
        Some((expected, source)) if expected == stored => Verdict::Same(source),
        Some((expected, source)) => Verdict::Differs { source, expected },
    }
}

/// The stored answers that were compared.
#[derive(Default)]
pub struct Replayed {
    pub by_rust: usize,
    pub by_model: usize,
    pub differed: usize,
    pub unasked: usize,
    /// The exceptions among them, by name.
    pub tally: Tally,
}

impl Replayed {
    /// Counts an answer by whose it is to be.
    fn count(&mut self, source: Source) {
        if source.is_rust() {
            self.by_rust += 1;
        } else {
            self.by_model += 1;
        }
        if let Source::Excepted(exception) = source {
            self.tally.except(exception);
        }
    }
}

/// Compares the answers in a file of lines.
pub fn replay(text: &str, replayed: &mut Replayed) {
    for line in text.lines() {
        match verdict(line) {
            Verdict::NoCall => {}
            Verdict::Unasked => {
                replayed.unasked += 1;
                println!("not asked: {line}");
            }
            Verdict::Same(source) => replayed.count(source),
            Verdict::Differs { source, expected } => {
                replayed.count(source);
                replayed.differed += 1;
                println!("DIFFERS {line}\n    expected {expected}");
            }
        }
    }
}
