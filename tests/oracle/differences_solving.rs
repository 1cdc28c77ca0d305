//! The listed differences of both solvers and of the fit.

use crate::bytes::bytes_of;
use crate::core::arith::bitmask;
use crate::core::evaluator::Evaluator;
use crate::differences::{accepted, row, with_table, Row, PANICS};
use crate::group::UNSET;
use crate::library_boxes::{bytes, fit, systems};
use crate::passes::weighted_poly_fit::{recover_weighted_poly, solve_2adic, solve_2adic_fixed, WeightFn};

pub fn solver_rows() -> Vec<Row> {
    let solve = |matrix: &[u64], right: &[u64], columns: usize, w: u32| {
        let (mut matrix, mut right) = (matrix.to_vec(), right.to_vec());
        with_table(columns, |out| unsafe {
            let (m, r) = ((matrix.as_mut_ptr(), matrix.len()), (right.as_mut_ptr(), right.len()));
            systems::cobra_solve_2adic(m.0, m.1, r.0, r.1, columns, w, out.as_mut_ptr(), columns)
        })
    };
    let rust_solve = |matrix: &[u64], right: &[u64], columns, w: u32| {
        let (mut matrix, mut right) = (matrix.to_vec(), right.to_vec());
        solve_2adic(&mut matrix, &mut right, columns, bitmask(w), w).map_or(vec![10], accepted)
    };
    // entry and right side of one row of one column, as the call leaves them
    let left = |entry: u64, side: u64, w: u32| {
        let (mut entry, mut side, mut out) = (entry, side, 0);
        unsafe { systems::cobra_solve_2adic(&mut entry, 1, &mut side, 1, 1, w, &mut out, 1) };
        vec![entry, side]
    };
    let rust_left = |entry: u64, side: u64, w: u32| {
        let (mut matrix, mut right) = ([entry], [side]);
        solve_2adic(&mut matrix, &mut right, 1, bitmask(w), w);
        vec![matrix[0], right[0]]
    };
    let identity: [u64; 16] = std::array::from_fn(|i| u64::from(i % 5 == 0));
    let corner: [u64; 16] = std::array::from_fn(|i| if i == 0 { 256 } else { identity[i] });
    let fixed = |square: &[u64; 16], w| {
        with_table(4, |out| unsafe {
            systems::cobra_solve_2adic_fixed(square.as_ptr(), 16, [0; 4].as_ptr(), 4, w, out.as_mut_ptr(), 4)
        })
    };
    let rust_fixed = |square: &[u64; 16], w| {
        let mut rows: [[u64; 4]; 4] = std::array::from_fn(|i| std::array::from_fn(|c| square[4 * i + c]));
        solve_2adic_fixed(&mut rows, &mut [0; 4], bitmask(w), w).map_or(vec![10], accepted)
    };
    vec![
        row("solver w 8, row 256 | 0", || rust_solve(&[256], &[0], 1, 8), solve(&[256], &[0], 1, 8), &[0, 0], &[10]),
        row(
            "solver w 8, rows 1 | 5 and 0 | 256",
            || rust_solve(&[1, 0], &[5, 256], 1, 8),
            solve(&[1, 0], &[5, 256], 1, 8),
            &[10],
            &[0, 5],
        ),
        row(
            "solver w 8, row 257 | 261, entry and right side after",
            || rust_left(257, 261, 8),
            left(257, 261, 8),
            &[257, 261],
            &[1, 5],
        ),
        row("solver, no columns", || rust_solve(&[], &[], 0, 8), solve(&[], &[], 0, 8), &[PANICS], &[9]),
        row("solver w 0, row 1 | 1", || rust_solve(&[1], &[1], 1, 0), solve(&[1], &[1], 1, 0), &[0, 0], &[3]),
        row("solver w 1, row 1 | 1", || rust_solve(&[1], &[1], 1, 1), solve(&[1], &[1], 1, 1), &[0, 1], &[3]),
        row("solver w 65, row 1 | 1", || rust_solve(&[1], &[1], 1, 65), solve(&[1], &[1], 1, 65), &[0, 1], &[3]),
        row(
            "solver w 8, row 3, right sides 6 7",
            || rust_solve(&[3], &[6, 7], 1, 8),
            solve(&[3], &[6, 7], 1, 8),
            &[0, 2],
            &[9],
        ),
        row(
            "solver w 8, rows 1 and 1, right side 6",
            || rust_solve(&[1, 1], &[6], 1, 8),
            solve(&[1, 1], &[6], 1, 8),
            &[PANICS],
            &[9],
        ),
        row(
            "solver w 8, entries 1 0 0 1 9 in two columns, right sides 5 6",
            || rust_solve(&[1, 0, 0, 1, 9], &[5, 6], 2, 8),
            solve(&[1, 0, 0, 1, 9], &[5, 6], 2, 8),
            &[0, 5, 6],
            &[9],
        ),
        row(
            "solver w 8, 65,537 rows 1 | 1",
            || rust_solve(&[1; 65_537], &[1; 65_537], 1, 8),
            solve(&[1; 65_537], &[1; 65_537], 1, 8),
            &[0, 1],
            &[8],
        ),
        row(
            "solver w 8, no rows, 65,537 columns",
            || rust_solve(&[], &[], 65_537, 8),
            solve(&[], &[], 65_537, 8),
            &[10],
            &[8],
        ),
        row(
            "four by four solver w 8, 256 in the first corner",
            || rust_fixed(&corner, 8),
            fixed(&corner, 8),
            &[0, 0, 0, 0, 0],
            &[10],
        ),
        row(
            "four by four solver w 0, ones below each other",
            || rust_fixed(&identity, 0),
            fixed(&identity, 0),
            &[0, 0, 0, 0, 0],
            &[3],
        ),
        row(
            "four by four solver w 1, ones below each other",
            || rust_fixed(&identity, 1),
            fixed(&identity, 1),
            &[0, 0, 0, 0, 0],
            &[3],
        ),
        row(
            "four by four solver w 65, ones below each other",
            || rust_fixed(&identity, 65),
            fixed(&identity, 65),
            &[0, 0, 0, 0, 0],
            &[3],
        ),
    ]
}

/// Fits at width 64 with targets 0 and weights 1.
pub fn fit_rows() -> Vec<Row> {
    let fit = |support: &[u64], rows: usize, columns: usize, degree: u8, grid| {
        let (weights, targets) = (vec![1; rows], vec![0; rows]);
        let (mut matrix, mut right) = (vec![0; rows * columns], vec![0; rows]);
        let (mut used, k) = (UNSET, support.len());
        let mut out = vec![0; (usize::from(degree.min(grid)) + 1).pow(k as u32)];
        let number = unsafe {
            fit::cobra_recover_weighted_poly(
                weights.as_ptr(), rows, targets.as_ptr(), rows, support.as_ptr(), k, 8, 64, degree, grid,
                matrix.as_mut_ptr(), matrix.len(), right.as_mut_ptr(), rows, out.as_mut_ptr(), out.len(), &mut used,
            )
        };
        vec![u64::from(number)]
    };
    // one variable
    let by_bytes = |degree: u8, grid: u8| {
        let rows = usize::from(grid) + 1;
        let (mut weights, mut targets, mut on) = (bytes_of(&vec![1; rows]), bytes_of(&vec![0; rows]), bytes_of(&[0]));
        let (mut out, mut used) = (bytes_of(&vec![0; usize::from(degree.min(grid)) + 1]), UNSET);
        let (n, m) = (weights.len(), out.len());
        let (from, to) = ((weights.at(), targets.at()), out.at());
        let number = unsafe {
            bytes::cobra_fit(from.0, n, from.1, n, on.at(), 8, 1, 8, 64, degree, grid, to, m, &mut used)
        };
        vec![u64::from(number)]
    };
    // 0 for an answer, 10 for the Rust's FIT_FAILED
    let rust_fit = |support: &[u32], degree, grid| {
        let (target, weight): (_, WeightFn) = (Evaluator::new(|_| 0), Box::new(|_, _| 1));
        let answer = recover_weighted_poly(&target, &weight, support, 8, 64, degree, grid).into_answer();
        vec![answer.map_or_else(|subcode| if subcode == 5 { 10 } else { subcode.into() }, |_| 0)]
    };
    let eight: Vec<u32> = (0..8).collect();
    let eight_here: Vec<u64> = (0..8).collect();
    vec![
        row(
            "fit on 256^8 points, max_degree 0",
            || rust_fit(&eight, 0, 255),
            fit(&eight_here, 1, 1, 0, 255),
            &[10],
            &[8],
        ),
        row(
            "fit of 1,024 rows and 78 columns",
            || rust_fit(&[0, 1], 11, 31),
            fit(&[0, 1], 1_024, 78, 11, 31),
            &[0],
            &[8],
        ),
        row("fit of 65 rows and 64 columns, here on bytes", || rust_fit(&[0], 63, 64), by_bytes(63, 64), &[0], &[8]),
        row("fit with support 0 0, degrees 1", || rust_fit(&[0, 0], 1, 1), fit(&[0, 0], 4, 3, 1, 1), &[0], &[7]),
    ]
}
