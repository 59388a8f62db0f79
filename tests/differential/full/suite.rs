// The suite of full size: the largest sets and arenas, and rebuilds of them.
use crate::large::full as large;
use crate::report::Run;
use crate::small::full as small;

pub fn run(run: &mut Run) {
    run.both("totals", large::sets::totals, small::sets::totals);
    run.both("spreads", large::sets::spreads, small::sets::spreads);
    run.both(
        "rebuild lines",
        large::rebuild_lines::lines,
        small::rebuild_lines::lines,
    );
    run.both("1 GiB", large::sets::gibibytes, small::sets::gibibytes);
    run.both(
        "most records",
        large::sets::most_records,
        small::sets::most_records,
    );
    if let Some(memory) = peak_memory() {
        println!("peak memory: {memory}");
    }
}

// As the system counts it; nothing where it doesn't.
fn peak_memory() -> Option<String> {
    let status = std::fs::read_to_string("/proc/self/status").ok()?;
    let line = status
        .lines()
        .find_map(|line| line.strip_prefix("VmHWM:"))?;
    Some(line.trim().to_string())
}
