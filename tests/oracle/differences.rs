//! docs/DIFFERENCES.md: at each listed difference the Rust as it is and the library are called, and both
//! answers are held to the list. What cannot be run (calls that do not end or exhaust the memory, lent
//! tables that the Rust does not have) is not here.

use crate::differences_boxes::{conversion_rows, form_rows, recovery_rows};
use crate::differences_leaves::{key_rows, leaf_rows};
use crate::differences_solving::{fit_rows, solver_rows};
use crate::group::{Answer, Case, Group, Source, UNSET};
use std::panic::{catch_unwind, set_hook, take_hook, AssertUnwindSafe};
use std::sync::atomic::{AtomicBool, Ordering};
use std::sync::OnceLock;

pub const LISTED: Group = Group {
    name: "listed differences",
    names: &["row"],
    small: |give| (0..rows().len() as u64).for_each(|row| give(Case::of([row]))),
    random: None,
    cost: 1,
    judged: |c| {
        let row = &rows()[c.u64(0) as usize];
        Answer::default().words(row.input, row.rust.clone()).words("here", row.here.clone())
    },
    expected: |c| {
        let row = &rows()[c.u64(0) as usize];
        let listed = |cells: &[u64]| cells.to_vec();
        (Source::Rust, Answer::default().words(row.input, listed(row.listed)).words("here", listed(row.listed_here)))
    },
};

/// The call with its input, what the Rust and the library say, and what is listed of both: 0 and the
/// cells or the value of an accepted call, a refusal alone, PANICS or NOTHING.
pub struct Row {
    input: &'static str,
    rust: Vec<u64>,
    here: Vec<u64>,
    listed: &'static [u64],
    listed_here: &'static [u64],
}

/// A panic in one of the Rust's own files, or in the memory that one of them asks for.
pub const PANICS: u64 = u64::MAX - 1;
/// The Rust's `None`, where it is no refusal.
pub const NOTHING: u64 = u64::MAX - 2;

/// Where the build links the Rust's files to, and the standard library's for a vector's memory.
const RUST_FILES: [&str; 2] = ["target/oracle/src/", "alloc/src/raw_vec"];

pub fn row(
    input: &'static str,
    rust: impl FnOnce() -> Vec<u64>,
    here: Vec<u64>,
    listed: &'static [u64],
    listed_here: &'static [u64],
) -> Row {
    static IN_THE_RUST: AtomicBool = AtomicBool::new(false);
    let hook = take_hook();
    set_hook(Box::new(|why| {
        let from = |file: &str| RUST_FILES.iter().any(|part| file.contains(part));
        let in_the_rust = why.location().is_some_and(|at| from(at.file()));
        IN_THE_RUST.store(in_the_rust, Ordering::Relaxed);
    }));
    let said = catch_unwind(AssertUnwindSafe(rust));
    set_hook(hook);
    let rust = said.unwrap_or_else(|_| {
        assert!(IN_THE_RUST.load(Ordering::Relaxed), "{input}: a panic of the driver, not of the Rust");
        vec![PANICS]
    });
    Row { input, rust, here, listed, listed_here }
}

fn rows() -> &'static [Row] {
    static ROWS: OnceLock<Vec<Row>> = OnceLock::new();
    let subjects = [leaf_rows, key_rows, form_rows, conversion_rows, recovery_rows, solver_rows, fit_rows];
    ROWS.get_or_init(|| subjects.iter().flat_map(|rows| rows()).collect())
}

pub fn accepted(cells: impl IntoIterator<Item = u64>) -> Vec<u64> {
    std::iter::once(0).chain(cells).collect()
}

/// The library's answer with its value, or its refusal alone.
pub fn with_value(call: impl FnOnce(&mut u64) -> u32) -> Vec<u64> {
    let mut value = UNSET;
    match call(&mut value) {
        0 => vec![0, value],
        refusal => vec![u64::from(refusal)],
    }
}

/// The library's answer with its table, or its refusal alone.
pub fn with_table(size: usize, call: impl FnOnce(&mut [u64]) -> u32) -> Vec<u64> {
    let mut table = vec![UNSET; size];
    match call(&mut table) {
        0 => accepted(table),
        refusal => vec![u64::from(refusal)],
    }
}
