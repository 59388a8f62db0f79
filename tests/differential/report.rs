// Counts the cases of each group and prints the first differences of each.
use std::fmt::Debug;
use std::time::Instant;

const PRINTED: u64 = 10;

// A line about a long input is cut here.
const LINE: usize = 1000;

pub struct Run {
    // How many random cases a group has.
    pub random: u64,
    // Only groups with this in their name are run.
    only: String,
    cases: u64,
    differences: u64,
}

impl Run {
    pub fn new(random: u64, only: String) -> Run {
        Run {
            random,
            only,
            cases: 0,
            differences: 0,
        }
    }

    // A group that runs with both builds of the Rust.
    pub fn both(&mut self, name: &str, large: fn(&mut Group, u64), small: fn(&mut Group, u64)) {
        self.group(&format!("{name}, large target"), large);
        self.group(&format!("{name}, small target"), small);
    }

    pub fn group(&mut self, name: &str, compare: impl FnOnce(&mut Group, u64)) {
        if !name.contains(&self.only) {
            return;
        }
        let mut group = Group {
            name: name.to_string(),
            start: Instant::now(),
            cases: 0,
            differences: 0,
        };
        compare(&mut group, self.random);
        let seconds = group.start.elapsed().as_secs_f64();
        println!(
            "{name}: {} cases, {} differences ({seconds:.1} s)",
            group.cases, group.differences
        );
        self.cases += group.cases;
        self.differences += group.differences;
    }

    // Prints the sum, and tells whether there was no difference.
    pub fn end(&self) -> bool {
        println!("{} cases, {} differences", self.cases, self.differences);
        self.differences == 0
    }
}

pub struct Group {
    name: String,
    start: Instant,
    cases: u64,
    differences: u64,
}

impl Group {
    // A part of a long group is done: how far it is by now.
    pub fn done(&self, part: &str) {
        let (cases, seconds) = (self.cases, self.start.elapsed().as_secs_f64());
        println!("  {part}: {cases} cases by now ({seconds:.1} s)");
    }

    // The port's answer against the Rust's.
    pub fn rust<T: PartialEq + Debug>(
        &mut self,
        call: &str,
        port: T,
        rust: T,
        input: impl FnOnce() -> String,
    ) {
        self.same(call, port, "Rust", rust, input);
    }

    // The port's answer against a rule of this test, where the Rust has no answer of its own.
    pub fn rule<T: PartialEq + Debug>(
        &mut self,
        call: &str,
        port: T,
        rule: T,
        input: impl FnOnce() -> String,
    ) {
        self.same(call, port, "rule", rule, input);
    }

    // What the port left in an area against the bytes or words that belong there.
    pub fn area<T: PartialEq + Debug>(
        &mut self,
        call: &str,
        port: &[T],
        wanted: &[T],
        input: impl FnOnce() -> String,
    ) {
        self.cases += 1;
        if port == wanted {
            return;
        }
        let at = (0..port.len()).find(|&i| port.get(i) != wanted.get(i));
        let at = at.unwrap_or(port.len());
        let (left, right) = (port.get(at), wanted.get(at));
        self.print(
            call,
            &format!("place {at}: port {left:x?}, wanted {right:x?}"),
            input,
        );
    }

    fn same<T: PartialEq + Debug>(
        &mut self,
        call: &str,
        port: T,
        source: &str,
        wanted: T,
        input: impl FnOnce() -> String,
    ) {
        self.cases += 1;
        if port != wanted {
            self.print(call, &format!("port {port:?}, {source} {wanted:?}"), input);
        }
    }

    fn print(&mut self, call: &str, answers: &str, input: impl FnOnce() -> String) {
        self.differences += 1;
        if self.differences > PRINTED {
            return;
        }
        let input = input();
        let shown: String = input.chars().take(LINE).collect();
        let cut = if shown.len() < input.len() { " .." } else { "" };
        println!(
            "difference in {}: {call}({shown}{cut}): {answers}",
            self.name
        );
    }
}
