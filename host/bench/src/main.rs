//! Prints a table: what the proved library takes, what plain Rust takes for the same job, and the
//! ratio of the two. Each way clears its arrays within the time that is taken. With the word `texts`
//! it has only the jobs on texts in the .real format.

mod clock;
mod plain;
mod texts;

use clock::{keep, row, Row};
use nufsadeem::{gate, import_real, Circuit, Job, Verdict};
use texts::texts;

const RUNS: usize = 15;
const VECTORS: usize = 2048;
const GATES: usize = 1024;
const CLASS_NAMES: [&str; 4] = [
    "stuck-at",
    "missing gate",
    "missing control",
    "extra control",
];

fn main() {
    let mut numbers = Numbers { state: 2026 };
    let wide = numbers.gates(32);
    let narrow = numbers.gates(12);
    let vectors: Vec<u32> = (0..VECTORS).map(|_| numbers.next()).collect();
    let mut rows = Vec::new();
    if std::env::args().nth(1).as_deref() != Some("texts") {
        rows.extend(judging(&wide, &vectors));
        rows.push(covering(&wide, &vectors));
        rows.push(compacting(&narrow));
        rows.extend(jobs(wide, vectors));
    }
    rows.extend(importing(&texts(&mut numbers)));
    rows.push(exporting());
    print(&rows);
}

fn judging(gates: &[u32], vectors: &[u32]) -> Vec<Row> {
    let classes = CLASS_NAMES.iter().zip(1u32..);
    classes
        .map(|(name, class)| {
            let job = format!("judge, {}", name);
            let library = || {
                let verdict = Circuit::new(32, keep(gates)).judge(keep(vectors), class);
                verdict.map(as_plain).ok()
            };
            let plain = || plain::judge(32, keep(gates), keep(vectors), class);
            row(&job, RUNS, library, plain)
        })
        .collect()
}

fn covering(gates: &[u32], vectors: &[u32]) -> Row {
    let library = || {
        let verdict = Circuit::new(32, keep(gates)).cover(keep(vectors), 1u32);
        verdict.map(as_plain).ok()
    };
    let plain = || plain::cover(32, keep(gates), keep(vectors), 1);
    let whole = row("coverage, one vector added", RUNS, library, plain);
    Row {
        library: whole.library / VECTORS as f64,
        plain: whole.plain / VECTORS as f64,
        ..whole
    }
}

fn compacting(gates: &[u32]) -> Row {
    let library = || Circuit::new(12, keep(gates)).compact_set().ok();
    let plain = || plain::compact_set(12, keep(gates));
    row("compact set", RUNS, library, plain)
}

fn jobs(gates: Vec<u32>, vectors: Vec<u32>) -> Vec<Row> {
    let job = Job {
        lines: 32,
        classes: 15,
        gates,
        vectors,
    };
    let same_job = plain::Job {
        lines: job.lines,
        classes: job.classes,
        gates: job.gates.clone(),
        vectors: job.vectors.clone(),
    };
    let image = job.write().expect("the job keeps the rules");
    let read = row(
        "read the longest job",
        RUNS,
        || {
            Job::read(keep(&image))
                .map(|job| (job.gates, job.vectors))
                .ok()
        },
        || plain::read(keep(&image)).map(|job| (job.gates, job.vectors)),
    );
    let write = row(
        "write the longest job",
        RUNS,
        || keep(&job).write().ok(),
        || plain::write(keep(&same_job)),
    );
    let report = row(
        "report on the longest job",
        RUNS,
        || Some(nufsadeem::report(keep(&image))),
        || plain::report(keep(&image)),
    );
    vec![read, write, report]
}

fn importing(texts: &[(&str, String)]) -> Vec<Row> {
    let rows = texts.iter().map(|(job, text)| {
        let text = text.as_bytes();
        let library = || {
            let read = import_real(keep(text));
            let read = read.map(|read| (read.lines, read.gates));
            read.map_err(|refusal| (refusal.number, refusal.place))
        };
        row(job, RUNS, library, || plain::import(keep(text)))
    });
    rows.collect()
}

fn exporting() -> Row {
    let gates = [u32::MAX >> 1, 0, 31].repeat(GATES);
    let library = || Circuit::new(32, keep(&gates)).export_real().ok();
    let plain = || plain::export(32, keep(&gates));
    row("export the longest text", RUNS, library, plain)
}

fn as_plain(verdict: Verdict) -> plain::Verdict {
    let first = verdict.first_uncaught.map(|fault| fault.into());
    (verdict.caught, verdict.total, first)
}

fn print(rows: &[Row]) {
    println!("| Job | Library, µs | Plain Rust, µs | Ratio |");
    println!("|---|---:|---:|---:|");
    for row in rows {
        let (library, plain) = (1e6 * row.library, 1e6 * row.plain);
        let ratio = library / plain;
        println!(
            "| {} | {:.1} | {:.1} | {:.2} |",
            row.job, library, plain, ratio
        );
    }
    println!();
    println!("Medians of {} runs, library and plain in turn.", RUNS);
    let popcnt = cfg!(target_feature = "popcnt");
    println!(
        "The plain code was compiled with the instruction that counts ones: {}.",
        popcnt
    );
}

/// Numbers that are the same in every run (splitmix64).
struct Numbers {
    state: u64,
}

impl Numbers {
    fn next(&mut self) -> u32 {
        self.state = self.state.wrapping_add(0x9e37_79b9_7f4a_7c15);
        let mixed = (self.state ^ self.state >> 30).wrapping_mul(0xbf58_476d_1ce4_e5b9);
        let mixed = (mixed ^ mixed >> 27).wrapping_mul(0x94d0_49bb_1331_11eb);
        ((mixed ^ mixed >> 31) >> 32) as u32
    }

    /// Gates with none to three controls.
    fn gates(&mut self, lines: u32) -> Vec<u32> {
        let mut words = Vec::new();
        for _ in 0..GATES {
            let target = self.next() % lines;
            let controls: Vec<u32> = (0..self.next() % 4)
                .map(|_| self.next() % lines)
                .filter(|line| *line != target)
                .collect();
            words.extend(gate(&controls, target).expect("the lines are below 32"));
        }
        words
    }
}
