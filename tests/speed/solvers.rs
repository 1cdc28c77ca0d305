//! Both solvers, on systems whose columns all have an odd pivot. The bare solver works in its lent
//! tables: every run copies them first.

use crate::boxes::low_bits;
use crate::library_boxes::systems as library;
use crate::passes::weighted_poly_fit::{solve_2adic, solve_2adic_fixed};
use crate::random::Random;
use crate::session::{check, run, Input, Programs, Series, Session};
use crate::shapes::WIDE;
use std::hint::black_box;

extern "C" {
    fn limit_solve(matrix: *mut u64, right: *mut u64, rows: usize, cols: usize, width: u32, answer: *mut u64) -> i32;
    fn limit_solve4(matrix: *const u64, right: *const u64, width: u32, answer: *mut u64) -> i32;
}

const CALL: &str = "solve_2adic";
const SIDES: [usize; 7] = [4, 8, 16, 32, 64, 128, 256];

pub fn time(session: &mut Session) {
    SIDES.iter().for_each(|&n| row(session, n, n, WIDE, n != 8));
    for (rows, cols) in [(16, 4), (256, 28), (1024, 64), (4096, 16)] {
        row(session, rows, cols, WIDE, true);
    }
    [16, 64, 256].iter().for_each(|&n| row(session, n, n, 16, true));
    let inputs = SIDES.iter().map(|&n| (named(n, n), WIDE)).collect();
    session.series.push(Series { call: CALL, grows: "square systems", steps: ELIMINATION, inputs });
    [64, 16].iter().for_each(|&width| fixed(session, width));
}

pub const ELIMINATION: &str = "sum over columns c of (rows - 1 - c)(columns - c)";

/// The entries that elimination alters from each pivot's column on, right sides apart.
pub fn elimination(rows: usize, cols: usize) -> u64 {
    (0..cols.min(rows)).map(|c| ((rows - 1 - c) * (cols - c)) as u64).sum()
}

pub fn named(rows: usize, cols: usize) -> String {
    format!("{rows} x {cols}")
}

/// Rows, right sides and the answer, modulo 2^width: the first rows are a lower times an upper triangle
/// with odd diagonals, the others are any.
struct System {
    matrix: Vec<u64>,
    right: Vec<u64>,
    answer: Vec<u64>,
}

fn system(rows: usize, cols: usize, width: u32) -> System {
    let (mut r, mask) = (Random::new(1, "speed of systems"), low_bits(u64::from(width)));
    let mut triangle = |keep: fn(usize, usize) -> bool| -> Vec<u64> {
        let entry = |i: usize| match (i / cols, i % cols) {
            (a, b) if a == b => r.next() | 1,
            (a, b) if keep(a, b) => r.next(),
            _ => 0,
        };
        (0..cols * cols).map(entry).collect()
    };
    let (lower, upper) = (triangle(|a, b| b < a), triangle(|a, b| a < b));
    let product = |i: usize, j: usize| {
        let term = |t: usize| lower[i * cols + t].wrapping_mul(upper[t * cols + j]);
        (0..cols).fold(0u64, |sum, t| sum.wrapping_add(term(t)))
    };
    let mut r = Random::new(2, "speed of systems");
    let mut entry = |i: usize| if i / cols < cols { product(i / cols, i % cols) } else { r.next() };
    let matrix: Vec<u64> = (0..rows * cols).map(|i| entry(i) & mask).collect();
    let answer: Vec<u64> = (0..cols).map(|_| r.next() & mask).collect();
    let side = |row: &[u64]| row.iter().zip(&answer).fold(0u64, |sum, (a, x)| sum.wrapping_add(a.wrapping_mul(*x)));
    let right = matrix.chunks(cols).map(|row| side(row) & mask).collect();
    System { matrix, right, answer }
}

fn row(session: &mut Session, rows: usize, cols: usize, width: u32, listed: bool) {
    let System { matrix, right, answer } = system(rows, cols, width);
    let fresh = || (matrix.clone(), right.clone(), vec![0; cols]);
    type Lent = (Vec<u64>, Vec<u64>, Vec<u64>);
    let copy = |lent: &mut Lent| {
        lent.0.copy_from_slice(&matrix);
        lent.1.copy_from_slice(&right);
    };
    let by_library = |lent: &mut Lent| unsafe {
        copy(lent);
        let (m, r, a) = (lent.0.as_mut_ptr(), lent.1.as_mut_ptr(), lent.2.as_mut_ptr());
        library::cobra_solve_2adic(m, rows * cols, r, rows, cols, width, a, cols)
    };
    let by_limit = |lent: &mut Lent| unsafe {
        copy(lent);
        limit_solve(lent.0.as_mut_ptr(), lent.1.as_mut_ptr(), rows, cols, width, lent.2.as_mut_ptr())
    };
    let by_rust = |lent: &mut Lent| {
        copy(lent);
        solve_2adic(&mut lent.0, &mut lent.1, cols, low_bits(u64::from(width)), width)
    };

    let (mut ours, mut limit, mut rust) = (fresh(), fresh(), fresh());
    check(by_rust(&mut rust) == Some(answer.clone()), "the Rust does not solve a system");
    check(by_library(&mut ours) == 0 && ours.2 == answer, "the library's answer is not the Rust's");
    check(ours.0 == rust.0 && ours.1 == rust.1, "the library's elimination is not the Rust's");
    check(by_limit(&mut limit) == 1 && limit.2 == answer, "the C's answer is not the Rust's");
    let (shape, size, steps) = (named(rows, cols), rows * cols, elimination(rows, cols));
    session.time(
        Input { call: CALL, shape, size, width, steps, listed },
        Programs {
            rust: Some(&mut run(|| by_rust(black_box(&mut rust)))),
            beside: None,
            c: &mut run(|| by_limit(black_box(&mut limit))),
            ours: &mut run(|| by_library(black_box(&mut ours))),
        },
    );
}

fn fixed(session: &mut Session, width: u32) {
    let System { matrix, right, answer } = system(4, 4, width);
    let rows: [[u64; 4]; 4] = std::array::from_fn(|i| std::array::from_fn(|j| matrix[i * 4 + j]));
    let sides: [u64; 4] = std::array::from_fn(|i| right[i]);
    let by_rust = || {
        let (mut rows, mut sides) = (black_box(rows), black_box(sides));
        solve_2adic_fixed(&mut rows, &mut sides, low_bits(u64::from(width)), width)
    };
    let by_library = |out: &mut [u64]| unsafe {
        library::cobra_solve_2adic_fixed(matrix.as_ptr(), 16, right.as_ptr(), 4, width, out.as_mut_ptr(), 4)
    };
    let by_limit = |out: &mut [u64]| unsafe { limit_solve4(matrix.as_ptr(), right.as_ptr(), width, out.as_mut_ptr()) };
    let (mut ours, mut limit) = (vec![0; 4], vec![0; 4]);
    check(by_rust().is_some_and(|found| found[..] == answer), "the Rust does not solve four rows");
    check(by_library(&mut ours) == 0 && ours == answer, "the library's four by four is not the Rust's");
    check(by_limit(&mut limit) == 1 && limit == answer, "the C's four by four is not the Rust's");
    session.time(
        Input { call: "solve_2adic_fixed", shape: named(4, 4), size: 16, width, steps: elimination(4, 4), listed: true },
        Programs {
            rust: Some(&mut run(by_rust)),
            beside: None,
            c: &mut run(|| by_limit(black_box(&mut limit))),
            ours: &mut run(|| by_library(black_box(&mut ours))),
        },
    );
}
