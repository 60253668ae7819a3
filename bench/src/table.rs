//! A table of times and ratios, printed row by row.
use std::env;

/// Times in seconds.
pub struct Row {
    name: String,
    ours: f64,
    tuned: Option<f64>,
    /// In memory, and with files.
    original: Option<(f64, Option<f64>)>,
}

impl Row {
    pub fn new(name: String, ours: f64) -> Self {
        Self { name, ours, tuned: None, original: None }
    }

    pub fn tuned(self, seconds: f64) -> Self {
        Self { tuned: Some(seconds), ..self }
    }

    pub fn original(self, memory: f64, files: Option<f64>) -> Self {
        Self { original: Some((memory, files)), ..self }
    }
}

pub struct Table;

fn milliseconds(seconds: Option<f64>) -> String {
    seconds.map_or("".into(), |s| format!("{:.2}", s * 1e3))
}

/// The other's time over ours, to two figures at least.
fn ratio(ours: f64, other: Option<f64>) -> String {
    let figures = |x: f64| match x {
        x if x < 0.1 => format!("{x:.4}"),
        x if x < 10.0 => format!("{x:.2}"),
        x => format!("{x:.0}"),
    };
    other.map_or("".into(), |o| figures(o / ours))
}

impl Table {
    /// Says on what machine, and prints the head.
    pub fn begin() -> Self {
        println!("{}\n", machine());
        let times = "ours, ms | tuned, ms | original in memory, ms | with files, ms";
        println!("| | {times} | tuned / ours | memory / ours | files / ours |");
        println!("|---|---|---|---|---|---|---|---|");
        Self
    }

    pub fn put(&mut self, row: Row) {
        let (memory, files) = (row.original.map(|o| o.0), row.original.and_then(|o| o.1));
        let others = [row.tuned, memory, files];
        let times: Vec<String> = [Some(row.ours)].into_iter().chain(others).map(milliseconds).collect();
        let ratios = others.map(|o| ratio(row.ours, o));
        println!("| {} | {} | {} |", row.name, times.join(" | "), ratios.join(" | "));
    }
}

/// The date, the machine's kind (both from `bench/run`) and its processor.
fn machine() -> String {
    let kind = env::var("BENCH_MACHINE").unwrap_or_default();
    let info = std::fs::read_to_string("/proc/cpuinfo").unwrap_or_default();
    let model = info.lines().find_map(|l| l.strip_prefix("model name")).unwrap_or("");
    let model = model.trim_start_matches([' ', '\t', ':']);
    let emulated = ", x86-64 code under an emulator: ratios are roughly those of instructions";
    let note = if kind.ends_with("x86_64") { "" } else { emulated };
    format!("{kind} {model}{note}")
}
