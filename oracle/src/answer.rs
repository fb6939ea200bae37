//! Answers as the two sides give them: named parts that are compared one by one.

use crate::points::pattern;
use std::fmt;

/// One part of an answer; a later module adds its own kind of value here.
#[derive(PartialEq)]
pub enum Value {
    Number(u64),
    Bytes(Vec<u8>),
    /// Floats by their bits; `floats` takes every NaN as one.
    Floats(Vec<u32>),
    Indices(Vec<u16>),
    Text(String),
}

/// All that a call answers, the memory it leaves included.
#[derive(PartialEq, Default)]
pub struct Answer {
    parts: Vec<(String, Value)>,
}

impl Answer {
    /// An answer with a refusal number and a count.
    pub fn counted(number: u8, count: usize) -> Self {
        Self::default().number("number", u64::from(number)).number("count", count as u64)
    }

    /// The answer with a number more.
    pub fn number(self, name: &str, number: u64) -> Self {
        self.with(name, Value::Number(number))
    }

    /// The answer with bytes more.
    pub fn bytes(self, name: &str, bytes: &[u8]) -> Self {
        self.with(name, Value::Bytes(bytes.to_vec()))
    }

    /// The answer with floats more.
    pub fn floats(self, name: &str, floats: &[f32]) -> Self {
        self.with(name, Value::Floats(floats.iter().copied().map(pattern).collect()))
    }

    /// The answer with floats more, each NaN by its own bits.
    pub fn exact_floats(self, name: &str, floats: &[f32]) -> Self {
        self.with(name, Value::Floats(floats.iter().map(|float| float.to_bits()).collect()))
    }

    /// The answer with indices more.
    pub fn indices(self, name: &str, indices: &[u16]) -> Self {
        self.with(name, Value::Indices(indices.to_vec()))
    }

    /// The answer with a signed number more.
    pub fn signed(self, name: &str, number: i32) -> Self {
        self.with(name, Value::Text(number.to_string()))
    }

    /// The answer with what became of the memory that the call may not write.
    pub fn surroundings(self, found: &str) -> Self {
        self.with("other memory", Value::Text(found.to_string()))
    }

    /// The answer and then another.
    pub fn and(mut self, other: Answer) -> Self {
        self.parts.extend(other.parts);
        self
    }

    /// The answer with one part more.
    fn with(mut self, name: &str, value: Value) -> Self {
        self.parts.push((name.to_string(), value));
        self
    }

    /// Says at which part this answer first differs from another, and how.
    pub fn difference(&self, other: &Answer) -> String {
        let pairs = self.parts.iter().zip(&other.parts);
        match pairs.clone().find(|(one, two)| one != two) {
            Some(((name, one), (_, two))) => format!("{name}{}", places(one, two)),
            None => "the number of parts".to_string(),
        }
    }
}

impl fmt::Display for Answer {
    fn fmt(&self, to: &mut fmt::Formatter) -> fmt::Result {
        let parts: Vec<String> = self.parts.iter().map(|(name, value)| format!("{name} {value}")).collect();
        write!(to, "{}", parts.join("; "))
    }
}

impl fmt::Display for Value {
    fn fmt(&self, to: &mut fmt::Formatter) -> fmt::Result {
        match self {
            Value::Number(number) => write!(to, "{number}"),
            Value::Bytes(bytes) => write!(to, "{}", shown(bytes)),
            Value::Floats(patterns) => write!(to, "{}", floats(patterns)),
            Value::Indices(indices) => write!(to, "{indices:?}"),
            Value::Text(text) => write!(to, "{text}"),
        }
    }
}

/// Where two values of the same name differ.
fn places(one: &Value, two: &Value) -> String {
    let (one, two) = match (one, two) {
        (Value::Bytes(one), Value::Bytes(two)) => (one, two),
        (Value::Floats(one), Value::Floats(two)) => return values(one, two, |bits| float(*bits)),
        (Value::Indices(one), Value::Indices(two)) => return values(one, two, u16::to_string),
        _ => return String::new(),
    };
    match one.iter().zip(two).position(|(a, b)| a != b) {
        Some(place) => format!(" at byte {place}: {:02x} and {:02x}", one[place], two[place]),
        None => format!(", the length: {} and {}", one.len(), two.len()),
    }
}

/// Where two lists of floats or indices differ.
fn values<T: PartialEq>(one: &[T], two: &[T], shown: impl Fn(&T) -> String) -> String {
    match one.iter().zip(two).position(|(a, b)| a != b) {
        Some(place) => format!(" at value {place}: {} and {}", shown(&one[place]), shown(&two[place])),
        None => format!(", the length: {} and {}", one.len(), two.len()),
    }
}

/// A float's bits in hexadecimal, and its value.
pub fn float(bits: u32) -> String {
    format!("{bits:08x} ({:?})", f32::from_bits(bits))
}

/// At most so many runs of floats are shown.
const SHOWN_FLOATS: usize = 40;

/// Floats by their bits, with `*N` behind one that stands N times in a row.
pub fn floats(patterns: &[u32]) -> String {
    let mut runs = patterns.chunk_by(|a, b| a == b);
    let times = |run: &[u32]| if run.len() == 1 { float(run[0]) } else { format!("{}*{}", float(run[0]), run.len()) };
    let mut text: Vec<String> = runs.by_ref().take(SHOWN_FLOATS).map(times).collect();
    if runs.next().is_some() {
        text.push(format!(".. ({} values)", patterns.len()));
    }
    if text.is_empty() { "none".to_string() } else { text.join(", ") }
}

/// At most so many runs of bytes are shown.
const SHOWN_RUNS: usize = 400;

/// Bytes in hexadecimal, with `*N` behind a byte that stands N times in a row.
pub fn shown(bytes: &[u8]) -> String {
    if bytes.is_empty() {
        return "none".to_string();
    }
    let mut runs = bytes.chunk_by(|a, b| a == b);
    let mut text: Vec<String> = runs.by_ref().take(SHOWN_RUNS).map(run).collect();
    if runs.next().is_some() {
        text.push(format!(".. ({} bytes)", bytes.len()));
    }
    text.join(" ")
}

/// One run of equal bytes.
fn run(bytes: &[u8]) -> String {
    if bytes.len() == 1 { format!("{:02x}", bytes[0]) } else { format!("{:02x}*{}", bytes[0], bytes.len()) }
}
