//! Samples of the Rust's solvers and of its fit for a replay without Rust: one case a line, decimal
//! numbers with single blanks, to 128 numbers before the answer.
//!
//! - `6 WIDTH COLUMNS ROWS ENTRIES m0 .. r0 ..`, ROWS times COLUMNS entries and ROWS right sides; the answer is
//!   `NUMBER`, COLUMNS values, and matrix and right side as they are left.
//! - `7 WIDTH m0 .. m15 r0 .. r3`: the four by four solver; `NUMBER` and four values.
//! - `8 WIDTH MAX GRID K ROWS ENTRIES CELLS w0 .. t0 ..`, ROWS weights and ROWS targets, for a matrix of
//!   ENTRIES and an answer of CELLS; `NUMBER`, degree_used and CELLS coefficients. The support is 0 to
//!   K - 1 in order, and there are no other variables.

use crate::random::Random;
use crate::reference as rust;
use crate::sample::Printed;
use crate::settings::{columns, power, Settings};

/// Document 01's row and random systems: 24 of the bare solver, 12 of four by four, 24 fits.
pub fn print_systems(printed: Printed) {
    print_system(printed, 3, 2, &[4, 1, 0, 4], &[2, 0]);
    print_system(printed, 8, 1, &[256], &[0]);
    let mut r = Random::new(1, "sample of systems");
    for i in 0..22 {
        let (columns, width) = (r.between(1, 5), r.between(2, 64));
        let rows = columns + r.below(4);
        let (matrix, right) = system(rows, columns, width, i % 3, &mut r);
        print_system(printed, width, columns, &matrix, &right);
    }
    for i in 0..12 {
        let width = r.between(2, 64);
        let (matrix, right) = system(4, 4, width, i % 3, &mut r);
        print_four(printed, width, &matrix, &right);
    }
    print_fit(printed, 8, 1, 1, 1, &[2, 2], &[2, 6]);
    for i in 0..23 {
        let (k, max, grid) = SHAPES[i % SHAPES.len()];
        let width = r.between(2, 64);
        let rows = power(grid + 1, k as usize).expect("a small grid");
        let weight = |r: &mut Random| if i % 4 == 3 { r.word() } else { r.next() | 1 };
        let weights: Vec<u64> = (0..rows).map(|_| weight(&mut r)).collect();
        let (a, b) = (r.word(), r.word());
        let mut targets: Vec<u64> = (0..rows)
            .map(|n| a.wrapping_add(b.wrapping_mul(n % (grid + 1))).wrapping_mul(weights[n as usize]))
            .collect();
        if i % 3 == 2 {
            targets[0] ^= 1 << r.below(width);
        }
        print_fit(printed, width, max, grid, k, &weights, &targets);
    }
}

/// Variables, max_degree, grid_degree, at most 60 grid points.
const SHAPES: [(u64, u64, u64); 9] =
    [(1, 1, 3), (1, 2, 2), (1, 5, 9), (1, 7, 3), (2, 1, 2), (2, 2, 3), (2, 4, 2), (3, 1, 1), (3, 0, 2)];

/// A system with a solution, with another right side at one row, or with any right side; entries with
/// twos.
fn system(rows: u64, columns: u64, width: u64, kind: u64, r: &mut Random) -> (Vec<u64>, Vec<u64>) {
    let matrix: Vec<u64> = (0..rows * columns).map(|_| r.word() << r.below(width.min(3))).collect();
    let x = r.words(columns);
    let value = |i: u64| {
        let term = |c: u64| matrix[(i * columns + c) as usize].wrapping_mul(x[c as usize]);
        (0..columns).fold(0u64, |sum, c| sum.wrapping_add(term(c)))
    };
    let mut right: Vec<u64> = (0..rows).map(value).collect();
    match kind {
        1 => right[r.below(rows) as usize] ^= 1 << r.below(width),
        2 => right = r.words(rows),
        _ => {}
    }
    (matrix, right)
}

fn print_system(printed: Printed, width: u64, columns: u64, matrix: &[u64], right: &[u64]) {
    let head = [6, width, columns, right.len() as u64, matrix.len() as u64];
    let (mut left, mut side) = (matrix.to_vec(), right.to_vec());
    let found = rust::solver(&mut left, &mut side, columns as usize, width as u32);
    let (number, x) = said(found, columns as usize);
    printed.line(&[&head[..], matrix, right].concat(), &[vec![number], x, left, side].concat());
}

fn print_four(printed: Printed, width: u64, matrix: &[u64], right: &[u64]) {
    let mut rows = [[0; 4]; 4];
    rows.iter_mut().flatten().zip(matrix).for_each(|(to, &from)| *to = from);
    let mut side = [right[0], right[1], right[2], right[3]];
    let found = rust::solver4(&mut rows, &mut side, width as u32).map(|x| x.to_vec());
    let (number, x) = said(found, 4);
    printed.line(&[&[7, width][..], matrix, right].concat(), &[vec![number], x].concat());
}

fn print_fit(
    printed: Printed,
    width: u64,
    max: u64,
    grid: u64,
    k: u64,
    weights: &[u64],
    targets: &[u64],
) {
    let (least, rows, variables) = (max.min(grid), weights.len() as u64, k as usize);
    let count = columns(variables, least as u8, max as u8).expect("few columns");
    let cells = power(least + 1, variables).expect("a small box");
    let head = [8, width, max, grid, k, rows, rows * count, cells];
    let support: Vec<u64> = (0..k).collect();
    let s = Settings { support: &support, total: k as u32, width: width as u32, degree: max as u8 };
    let (found, used) = match rust::fit(targets, weights, &s, grid as u8) {
        Ok((cells, used)) => (Ok(cells), u64::from(used)),
        Err(number) => (Err(number), 0),
    };
    let (number, out) = said(found, cells as usize);
    printed.line(&[&head[..], weights, targets].concat(), &[vec![number, used], out].concat());
}

fn said(found: Result<Vec<u64>, u32>, size: usize) -> (u64, Vec<u64>) {
    match found {
        Ok(cells) => (0, cells),
        Err(10) => (10, vec![0; size]),
        Err(other) => panic!("refusal {other} in a sample"),
    }
}
