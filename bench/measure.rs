// The rounds of a row, and the table.
use std::hint::black_box;
use std::time::Duration;

pub const ROUNDS: usize = 9;

// The time of a call and a number that stands for its answers.
pub type Pass = (Duration, u64);

#[repr(C)]
struct Timespec {
    secs: i64,
    nanos: i64,
}

unsafe extern "C" {
    fn clock_gettime(clock: i32, time: *mut Timespec) -> i32;
    safe fn mallopt(parameter: i32, value: i32) -> i32;
}

// The processor time of this thread: what others run on the same core doesn't count.
fn processor_time() -> Duration {
    const CLOCK_THREAD_CPUTIME_ID: i32 = 3;
    let mut time = Timespec { secs: 0, nanos: 0 };
    // SAFETY: the time is written where it points to, and lives.
    let status = unsafe { clock_gettime(CLOCK_THREAD_CPUTIME_ID, &mut time) };
    assert_eq!(status, 0, "no clock of the thread");
    Duration::new(time.secs as u64, time.nanos as u32)
}

// What is freed stays with the process: after the first round neither side's memory is new, which
// would cost the Rust, that allocates in every round, a page fault for each 4 KiB.
pub fn keep_freed_memory() {
    const M_TRIM_THRESHOLD: i32 = -1;
    const M_MMAP_MAX: i32 = -4;
    assert_eq!(mallopt(M_TRIM_THRESHOLD, i32::MAX), 1);
    assert_eq!(mallopt(M_MMAP_MAX, 0), 1);
}

pub fn timed(call: impl FnOnce() -> u64) -> Pass {
    let start = processor_time();
    let answers = black_box(call());
    (processor_time() - start, answers)
}

// The best time of each side, and the lowest and highest ratio of the two in one round.
#[derive(Clone, Copy)]
pub struct Measured {
    pub rust: Duration,
    pub port: Duration,
    lowest: f64,
    highest: f64,
}

impl Measured {
    const NONE: Measured = Measured {
        rust: Duration::MAX,
        port: Duration::MAX,
        lowest: f64::MAX,
        highest: 0.0,
    };

    fn count(&mut self, rust: Duration, port: Duration) {
        let ratio = port.as_secs_f64() / rust.as_secs_f64();
        self.rust = self.rust.min(rust);
        self.port = self.port.min(port);
        self.lowest = self.lowest.min(ratio);
        self.highest = self.highest.max(ratio);
    }
}

pub fn each(time: Duration, operations: usize) -> f64 {
    time.as_nanos() as f64 / operations as f64
}

// Both sides take turns, also in going first; the best of each counts, since what else runs on the
// machine only adds. Both must give the same answers. The round before the first isn't counted.
pub fn rounds<const N: usize>(
    name: &str,
    count: usize,
    mut rust: impl FnMut() -> [Pass; N],
    mut port: impl FnMut() -> [Pass; N],
) -> [Measured; N] {
    let mut measured = [Measured::NONE; N];
    for round in 0..=count {
        let first = (round % 2 == 0).then(&mut rust);
        let ports = port();
        let rusts = first.unwrap_or_else(&mut rust);
        for (measured, (rust, port)) in measured.iter_mut().zip(rusts.iter().zip(&ports)) {
            assert_eq!(rust.1, port.1, "{name}: answers differ");
            if round > 0 {
                measured.count(rust.0, port.0);
            }
        }
    }
    measured
}

pub struct Table {
    rounds: usize,
}

impl Table {
    pub fn new(title: &str, rounds: usize) -> Table {
        println!("\n### {title}\n");
        println!("| row | Rust ns | port ns | ratio | in one round |");
        println!("|---|---:|---:|---:|---:|");
        Table { rounds }
    }

    // A pass does so many operations.
    pub fn row(
        &mut self,
        name: &str,
        operations: usize,
        mut rust: impl FnMut() -> Pass,
        mut port: impl FnMut() -> Pass,
    ) {
        self.rows([(name, operations)], || [rust()], || [port()]);
    }

    // Rows whose passes come one after the other.
    pub fn rows<const N: usize>(
        &mut self,
        rows: [(&str, usize); N],
        rust: impl FnMut() -> [Pass; N],
        port: impl FnMut() -> [Pass; N],
    ) {
        let measured = rounds(rows[0].0, self.rounds, rust, port);
        for ((name, operations), measured) in rows.iter().zip(&measured) {
            let rust = each(measured.rust, *operations);
            let port = each(measured.port, *operations);
            let Measured {
                lowest, highest, ..
            } = measured;
            println!(
                "| {name} | {rust:.1} | {port:.1} | {:.2} | {lowest:.2} to {highest:.2} |",
                port / rust
            );
        }
    }
}
