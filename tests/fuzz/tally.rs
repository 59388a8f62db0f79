// How often each export gave each answer.
use crate::exports::EXPORTS;

const ANSWERS: usize = 17;

pub struct Tally {
    counts: [[u64; ANSWERS]; EXPORTS.len()],
}

impl Tally {
    pub fn new() -> Tally {
        Tally {
            counts: [[0; ANSWERS]; EXPORTS.len()],
        }
    }

    // An answer past the last one is reported elsewhere.
    pub fn count(&mut self, export: usize, answer: u64) {
        if let Some(count) = self.counts[export].get_mut(answer as usize) {
            *count += 1;
        }
    }

    pub fn print(&self) {
        let heads: String = (0..ANSWERS).map(|answer| format!("{answer:>9}")).collect();
        println!("{:<24}{heads}", "calls by answer");
        for (export, counts) in EXPORTS.iter().zip(&self.counts) {
            let cell = |&count: &u64| match count {
                0 => format!("{:>9}", "."),
                _ => format!("{count:>9}"),
            };
            let cells: String = counts.iter().map(cell).collect();
            println!("{:<24}{cells}", export.name);
        }
    }

    // The answers that an export may give and never gave.
    pub fn missing(&self) -> String {
        let mut missing = Vec::new();
        for (export, counts) in EXPORTS.iter().zip(&self.counts) {
            let never = export.answers.iter().filter(|&&n| counts[n as usize] == 0);
            missing.extend(never.map(|answer| format!("{} {answer}", export.name)));
        }
        missing.join(", ")
    }
}
