//! One run: every call timed on every input, its rows kept for the tables.

use std::hint::black_box;
use std::process::exit;
use std::time::Instant;

extern "C" {
    /// Nanoseconds of the processor that this thread has had.
    fn limit_clock() -> u64;
}

/// A call and its input.
#[derive(Clone)]
pub struct Input {
    pub call: &'static str,
    pub shape: String,
    /// Cells of the box, entries of the matrix, or calls.
    pub size: usize,
    /// 0 for a call that takes none.
    pub width: u32,
    /// What document 01's steps count.
    pub steps: u64,
    /// Whether it is a line of the table, beside being one of the growth.
    pub listed: bool,
}

/// The programs on one input, made ready.
pub struct Programs<'a> {
    pub rust: Option<&'a mut dyn FnMut()>,
    /// The part of the Rust's recovery that is the stand-in's; or, for a call on bytes, the call on u64; or, for a moved form,
    /// the conversion of the same box.
    pub beside: Option<&'a mut dyn FnMut()>,
    pub c: &'a mut dyn FnMut(),
    pub ours: &'a mut dyn FnMut(),
}

/// Seconds of each program on one input.
pub struct Row {
    pub input: Input,
    pub rust: Option<f64>,
    pub beside: Option<f64>,
    pub c: f64,
    pub ours: f64,
}

/// Rows of one call between which one thing grows.
pub struct Series {
    pub call: &'static str,
    pub grows: &'static str,
    pub steps: &'static str,
    /// Shape and width of each.
    pub inputs: Vec<(String, u32)>,
}

pub struct Session {
    pub quick: bool,
    /// Calls whose name does not have this in it are left out.
    pub only: Option<String>,
    pub rows: Vec<Row>,
    pub series: Vec<Series>,
}

impl Session {
    /// Times the programs on one input, in seconds of the processor.
    pub fn time(&mut self, input: Input, programs: Programs) {
        if self.only.as_ref().is_some_and(|only| !input.call.contains(only.as_str())) {
            return;
        }
        let Programs { rust, beside, c, ours } = programs;
        let (some_rust, some_beside) = (rust.is_some(), beside.is_some());
        let mut runs = vec![ours, c];
        runs.extend(rust);
        runs.extend(beside);
        let mut times = medians(&mut runs, self.quick).into_iter();
        let mut next = |there: bool| if there { times.next() } else { None };
        let (ours, c) = (next(true).expect("a time"), next(true).expect("a time"));
        let row = Row { input, rust: next(some_rust), beside: next(some_beside), c, ours };
        if row.input.listed {
            println!("{}", crate::report::line(&row));
        }
        self.rows.push(row);
    }

    pub fn row(&self, call: &str, shape: &str, width: u32) -> Option<&Row> {
        self.rows.iter().find(|row| {
            let input = &row.input;
            input.call == call && input.shape == shape && input.width == width
        })
    }
}

/// Ends the run where an answer is not right.
pub fn check(right: bool, what: &str) {
    if !right {
        eprintln!("speed: {what}");
        exit(1)
    }
}

/// A run of a call whose result is thrown away.
pub fn run<T>(mut call: impl FnMut() -> T) -> impl FnMut() {
    move || {
        black_box(call());
    }
}

/// The median time of each run. Rounds in which each has its turn, so that a slow moment of the machine
/// meets all; a run too short for the clock is repeated within its turn.
fn medians(runs: &mut [&mut dyn FnMut()], quick: bool) -> Vec<f64> {
    let (least, most, patience) = if quick { (1, 5, 0.2) } else { (3, 25, 1.5) };
    let repeats: Vec<u32> = runs.iter_mut().map(|run| repeats(run)).collect();
    let mut times = vec![Vec::new(); runs.len()];
    let start = Instant::now();
    let patient = |done: usize| done < least || start.elapsed().as_secs_f64() < patience;
    while times[0].len() < most && patient(times[0].len()) {
        for ((run, &repeats), times) in runs.iter_mut().zip(&repeats).zip(&mut times) {
            times.push(timed(run, repeats) / f64::from(repeats));
        }
    }
    times.iter_mut().for_each(|t| t.sort_by(f64::total_cmp));
    times.iter().map(|t| t[t.len() / 2]).collect()
}

fn timed(run: &mut dyn FnMut(), repeats: u32) -> f64 {
    let start = unsafe { limit_clock() };
    (0..repeats).for_each(|_| run());
    (unsafe { limit_clock() } - start) as f64 / 1e9
}

/// How often a run fits into two milliseconds, at least once.
fn repeats(run: &mut dyn FnMut()) -> u32 {
    let mut repeats = 1;
    while timed(run, repeats) < 0.002 && repeats < 1 << 20 {
        repeats *= 2;
    }
    repeats
}
