// The lines of the replay list.
use std::fmt::Write;
use std::time::Duration;

pub struct List {
    pub text: String,
}

impl List {
    pub fn new() -> List {
        List {
            text: String::new(),
        }
    }

    pub fn comment(&mut self, comment: &str) {
        self.text.push_str(&format!("# {comment}\n"));
    }

    pub fn call(&mut self, name: &str, key: &[u8], value: &[u8], numbers: &[u64], answer: &[u64]) {
        let (key, value) = (hex(key), hex(value));
        let (numbers, answer) = (spaced(numbers), spaced(answer));
        self.text
            .push_str(&format!("{name} {key} {value}{numbers} ={answer}\n"));
    }
}

// 0 and the words that a call writes, or the number of the refusal.
pub fn answer<const WORDS: usize>(rust: Result<[u64; WORDS], u64>) -> Vec<u64> {
    match rust {
        Ok(words) => [&[0], &words[..]].concat(),
        Err(refusal) => {
            assert!(
                (1..8).contains(&refusal),
                "the Rust has no refusal {refusal}"
            );
            vec![refusal]
        }
    }
}

// 0, then 1 and what was found, or 0 alone: what a line lacks is 0.
pub fn found<const WORDS: usize>(rust: Option<[u64; WORDS]>) -> Vec<u64> {
    rust.map_or(vec![0, 0], |words| [&[0, 1], &words[..]].concat())
}

fn spaced(numbers: &[u64]) -> String {
    numbers.iter().fold(String::new(), |mut text, number| {
        let _ = write!(text, " {number}");
        text
    })
}

fn hex(bytes: &[u8]) -> String {
    if bytes.is_empty() {
        return "-".to_string();
    }
    bytes.iter().fold(String::new(), |mut text, byte| {
        let _ = write!(text, "{byte:02x}");
        text
    })
}

// A number where there is a duration, its seconds and its nanoseconds, or zeros.
pub fn optional(there: u64, duration: Option<Duration>) -> [u64; 3] {
    duration.map_or([0; 3], |duration| {
        [there, duration.as_secs(), duration.subsec_nanos().into()]
    })
}

// The checksum of crates/replay: exclusive or, product modulo 2^64, rotation.
pub fn joined(sum: u64, word: u64) -> u64 {
    (sum ^ word)
        .wrapping_mul(0x9e37_79b9_7f4a_7c15)
        .rotate_left(27)
}

pub fn with_words(sum: u64, words: &[u64]) -> u64 {
    words.iter().fold(sum, |sum, &word| joined(sum, word))
}

pub fn with_bytes(sum: u64, bytes: &[u8]) -> u64 {
    bytes
        .iter()
        .fold(sum, |sum, &byte| joined(sum, byte.into()))
}
