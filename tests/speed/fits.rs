//! The weighted fit, on tables of u64 and on bytes. Matrix and right side are lent to the library and the
//! C, and kept inside the call on bytes; the Rust makes its own within the call.

use crate::core::evaluator::Evaluator;
use crate::library_boxes::{bytes, fit as library};
use crate::passes::weighted_poly_fit::{recover_weighted_poly, WeightFn};
use crate::random::Random;
use crate::reference as rust;
use crate::session::{check, run, Input, Programs, Series, Session};
use crate::settings::{columns, power, Settings};
use crate::shapes::{variables, WIDE};
use crate::solvers::{elimination, named, ELIMINATION};
use crate::tables::{as_bytes, as_words};
use std::hint::black_box;

extern "C" {
    fn limit_fit(
        weights: *const u64, targets: *const u64, variables: usize, width: u32, max: u32, grid: u32,
        matrix: *mut u64, right: *mut u64, out: *mut u64, degree_used: *mut u64,
    ) -> u32;
}

/// Variables, max_degree, grid_degree.
type Shape = (usize, u8, u8);

const SMALL: [Shape; 2] = [(1, 3, 7), (2, 2, 3)];
const NARROW: [Shape; 3] = [(2, 6, 15), (3, 4, 7), (2, 9, 31)];
/// Of at most 4,096 entries, as the call on bytes takes them.
const MIDDLE: [Shape; 3] = [(2, 4, 15), (1, 60, 66), (1, 63, 63)];
/// The second has columns that are zero at all points, and so no answer.
const WIDER: [Shape; 2] = [(1, 60, 200), (1, 255, 255)];
/// At most points of these grids most falling factorials of the columns are zero.
const ZEROS: [Shape; 3] = [(8, 8, 1), (4, 12, 3), (2, 15, 15)];
/// Four rows to a column.
const GROWTH: [Shape; 6] = [(1, 1, 7), (1, 3, 15), (1, 7, 31), (1, 15, 63), (1, 31, 127), (1, 63, 255)];

#[derive(Clone, Copy)]
enum Weights {
    Odd,
    /// Half of them even, a quarter multiples of 4, and so on.
    Any,
}

pub fn time(session: &mut Session) {
    let all = [&SMALL[..], &MIDDLE, &NARROW, &WIDER, &ZEROS].concat();
    let tall = [&SMALL[..], &NARROW, &WIDER[..1]].concat();
    for (weights, wide) in [(Weights::Odd, all), (Weights::Any, tall)] {
        for shape in wide {
            row(session, WORDS, shape, weights, WIDE, true);
        }
        for shape in [&NARROW[..], &WIDER[..1]].concat() {
            row(session, WORDS, shape, weights, 16, true);
        }
        let inputs = GROWTH.iter().map(|&shape| row(session, WORDS, shape, weights, WIDE, false)).collect();
        let grows = match weights {
            Weights::Odd => "1 variable, 4 rows to a column, odd weights",
            Weights::Any => "1 variable, 4 rows to a column, any weights",
        };
        session.series.push(Series { call: WORDS, grows, steps: ELIMINATION, inputs });
    }
    for shape in [&SMALL[..], &MIDDLE].concat() {
        row(session, BYTES, shape, Weights::Odd, WIDE, true);
    }
}

const WORDS: &str = "recover_weighted_poly";
const BYTES: &str = "cobra_fit";

/// Rows, columns and cells of the answer.
fn sizes((k, max, grid): Shape) -> (usize, usize, usize) {
    let least = max.min(grid);
    let rows = power(u64::from(grid) + 1, k).expect("a grid within the limit");
    let cols = columns(k, least, max).expect("columns");
    let cells = power(u64::from(least) + 1, k).expect("a box");
    (rows as usize, cols as usize, cells as usize)
}

fn described(shape: Shape, weights: Weights) -> String {
    let ((k, max, grid), (rows, cols, _)) = (shape, sizes(shape));
    let kind = match weights {
        Weights::Odd => "odd",
        Weights::Any => "any",
    };
    format!("{}, degrees {max} and {grid}, {}, {kind} weights", variables(k), named(rows, cols))
}

/// Tables that a fit writes.
struct Tables {
    matrix: Vec<u64>,
    right: Vec<u64>,
    out: Vec<u64>,
    bytes: Vec<u8>,
    used: u64,
}

/// Times one fit. The result is the name of its input.
fn row(
    session: &mut Session, call: &'static str, shape: Shape, kind: Weights, width: u32, listed: bool,
) -> (String, u32) {
    let crossed = call == BYTES;
    let ((k, max, grid), (rows, cols, cells)) = (shape, sizes(shape));
    let support: Vec<u64> = (0..k as u64).collect();
    let s = Settings { support: &support, total: k as u32, width, degree: max };
    let (weights, targets) = input(shape, rows, kind);
    let lent = || {
        let (matrix, right, out, bytes) = (vec![0; rows * cols], vec![0; rows], vec![1; cells], vec![1; cells * 8]);
        Tables { matrix, right, out, bytes, used: 1 }
    };
    let by_library = |t: &mut Tables| unsafe {
        library::cobra_recover_weighted_poly(
            weights.as_ptr(), rows, targets.as_ptr(), rows, support.as_ptr(), k, s.total, width, max, grid,
            t.matrix.as_mut_ptr(), rows * cols, t.right.as_mut_ptr(), rows, t.out.as_mut_ptr(), cells, &mut t.used,
        )
    };
    let (factors, wanted, indices) = (as_bytes(&weights), as_bytes(&targets), as_bytes(&support));
    let by_bytes = |t: &mut Tables| unsafe {
        bytes::cobra_fit(
            factors.as_ptr(), rows * 8, wanted.as_ptr(), rows * 8, indices.as_ptr(), k * 8, k as u64, s.total, width,
            max, grid, t.bytes.as_mut_ptr(), cells * 8, &mut t.used,
        )
    };
    let by_limit = |t: &mut Tables| unsafe {
        limit_fit(
            weights.as_ptr(), targets.as_ptr(), k, width, u32::from(max), u32::from(grid),
            t.matrix.as_mut_ptr(), t.right.as_mut_ptr(), t.out.as_mut_ptr(), &mut t.used,
        )
    };
    let (support32, base) = (s.support32(), usize::from(grid) + 1);
    let by_rust = || {
        let target = Evaluator::from_grid(black_box(&targets), &support32, grid);
        let weight: WeightFn =
            Box::new(|point, _| weights[point.iter().rev().fold(0, |cell, &x| cell * base + x as usize)]);
        recover_weighted_poly(&target, &weight, &support32, s.total, width, max, grid)
    };

    let (number, expected, used) = match rust::fit(&targets, &weights, &s, grid) {
        Ok((cells, used)) => (0, cells, u64::from(used)),
        Err(number) => (number, vec![0; cells], 0),
    };
    let (mut ours, mut limit) = (lent(), lent());
    let said = if crossed { by_bytes(&mut ours) } else { by_library(&mut ours) };
    if crossed {
        ours.out = as_words(&ours.bytes);
    }
    let right = |t: &Tables| t.out == expected && t.used == used;
    check(said == number && right(&ours), "the library's fit is not the Rust's");
    check(by_limit(&mut limit) == number && right(&limit), "the C's fit is not the Rust's");

    let mut lent_too = lent();
    let mut words_run = run(|| by_library(black_box(&mut lent_too)));
    let mut bytes_run = run(|| by_bytes(black_box(&mut ours)));
    let (ours, beside): (&mut dyn FnMut(), Option<&mut dyn FnMut()>) =
        if crossed { (&mut bytes_run, Some(&mut words_run)) } else { (&mut words_run, None) };
    let shape = described(shape, kind) + if number == 0 { "" } else { ", no answer" };
    session.time(
        Input { call, shape: shape.clone(), size: rows * cols, width, steps: elimination(rows, cols), listed },
        Programs {
            rust: Some(&mut run(by_rust)),
            beside,
            c: &mut run(|| by_limit(black_box(&mut limit))),
            ours,
        },
    );
    (shape, width)
}

/// Weights, and targets that are the weight times a polynomial of falling factorials on the columns.
fn input((k, max, grid): Shape, rows: usize, kind: Weights) -> (Vec<u64>, Vec<u64>) {
    let mut r = Random::new(1, "speed of the fit");
    let (least, base) = (u64::from(max.min(grid)), usize::from(grid) + 1);
    let mut weight = |_| match kind {
        Weights::Odd => r.next() | 1,
        Weights::Any => r.next(),
    };
    let weights: Vec<u64> = (0..rows).map(&mut weight).collect();
    let mut exponents = vec![0u64; k];
    let mut terms = Vec::new();
    loop {
        if exponents.iter().sum::<u64>() <= u64::from(max) {
            terms.push((r.next(), exponents.clone()));
        }
        let Some(at) = exponents.iter().position(|&e| e < least) else { break };
        exponents[..at].fill(0);
        exponents[at] += 1;
    }
    let falling = |x: u64, n: u64| (0..n).fold(1u64, |p, i| p.wrapping_mul(x.wrapping_sub(i)));
    let value = |row: usize| {
        let term = |(h, es): &(u64, Vec<u64>)| {
            let mut rest = row;
            es.iter().fold(*h, |p, &e| {
                let x = (rest % base) as u64;
                rest /= base;
                p.wrapping_mul(falling(x, e))
            })
        };
        terms.iter().fold(0u64, |sum, t| sum.wrapping_add(term(t))).wrapping_mul(weights[row])
    };
    let targets = (0..rows).map(value).collect();
    (weights, targets)
}
