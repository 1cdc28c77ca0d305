//! The Rust's references as plain functions on flat boxes. An answer is a box, or the number by
//! which document 01 refuses the call. In a box zero means absent.

use crate::core::arith::bitmask;
use crate::core::evaluator::Evaluator;
use crate::ir::basis_transform::{to_factorial_basis, to_monomial_basis};
use crate::ir::math_utils::degree_cap;
use crate::ir::multivar_poly_recovery::recover_multivar_poly;
use crate::ir::poly::{CoeffMap, NormalizedPoly, PolyIR};
use crate::ir::poly_normalizer::normalize_polynomial;
use crate::ir::singleton_power_recovery::recover_singleton_powers;
use crate::ir::MonomialKey;
use crate::passes::weighted_poly_fit::{recover_weighted_poly, solve_2adic, solve_2adic_fixed};
use crate::settings::{columns, power, within, Settings, LIMIT};

pub type Refusal = u32;

/// The map of a box's non-zero cells.
pub fn map_of_box(cells: &[u64], s: &Settings) -> CoeffMap {
    let mut map = PolyIR::empty(s.total as u8, s.width).terms;
    for (cell, &coefficient) in cells.iter().enumerate() {
        if coefficient != 0 {
            map.insert(key_of_cell(cell, s), coefficient);
        }
    }
    map
}

fn key_of_cell(mut cell: usize, s: &Settings) -> MonomialKey {
    let base = usize::from(s.degree) + 1;
    let mut key = MonomialKey::zero();
    for &var in s.support {
        key = key.with_exponent(var as u8, (cell % base) as u8);
        cell /= base;
    }
    key
}

/// The box of a map. A term outside the box cannot be written into it and ends the run.
pub fn box_of_map(map: &CoeffMap, s: &Settings) -> Vec<u64> {
    let base = usize::from(s.degree) + 1;
    let mut cells = vec![0; s.cells().expect("a box within the limit") as usize];
    for (key, &coefficient) in map {
        let exponents = s.support.iter().map(|&var| usize::from(key.exponent_at(var as u8)));
        let cell = exponents.rev().fold(0, |cell, e| cell * base + e);
        assert_eq!(key_of_cell(cell, s), *key, "a term outside the box");
        cells[cell] = coefficient;
    }
    cells
}

/// Recovery of a coefficient box from the values on the grid.
pub fn recovery(values: &[u64], s: &Settings) -> Result<Vec<u64>, Refusal> {
    let guard = s.guard(true);
    if guard.is_none() {
        if let Some(refusal) = s.refusal(true, &[values.len()]) {
            return Err(refusal);
        }
    }
    let support = s.support32();
    let evaluator = Evaluator::from_grid(values, &support, s.degree);
    let answer = recover_multivar_poly(&evaluator, &support, s.total, s.width, s.degree);
    match answer.into_answer() {
        Ok(poly) => Ok(box_of_map(&poly.coeffs, s)),
        Err(subcode) => {
            assert!(guard.is_none() || guard == Some(u32::from(subcode)), "another guard");
            Err(u32::from(subcode))
        }
    }
}

/// The fit: the box of the smaller of the two degrees, and degree_used. The settings' degree is
/// max_degree.
pub fn fit(
    targets: &[u64],
    weights: &[u64],
    s: &Settings,
    grid_degree: u8,
) -> Result<(Vec<u64>, u8), Refusal> {
    let base = usize::from(grid_degree) + 1;
    let least = Settings { degree: s.degree.min(grid_degree), ..*s };
    let guard = s.guard(false);
    if guard.is_none() {
        let rows = power(base as u64, s.support.len());
        let size = rows.and_then(|rows| {
            columns(s.support.len(), least.degree, s.degree).and_then(|cols| within(rows * cols))
        });
        if let Some(refusal) = s.added(size, &[(targets.len(), rows), (weights.len(), rows)]) {
            return Err(refusal);
        }
    }
    let support = s.support32();
    let target = Evaluator::from_grid(targets, &support, grid_degree);
    let weight: Box<dyn Fn(&[u64], u32) -> u64> = Box::new(|point, _| {
        weights[point.iter().rev().fold(0, |cell, &x| cell * base + x as usize)]
    });
    let answer =
        recover_weighted_poly(&target, &weight, &support, s.total, s.width, s.degree, grid_degree);
    match answer.into_answer() {
        Ok(found) => Ok((box_of_map(&found.poly.coeffs, &least), found.degree_used)),
        Err(subcode) => {
            let refusal = match subcode {
                12 if s.support.is_empty() => 1,
                12 => 5,
                10 => 2,
                11 => 3,
                5 => 10,
                other => panic!("a subcode that the fit does not have: {other}"),
            };
            assert!(guard.is_none() || guard == Some(refusal), "another guard");
            Err(refusal)
        }
    }
}

/// Singletons: `degree_cap(width)` cells per variable, variable after variable, in and out. The
/// Rust evaluates one function, so the values at the origin must agree modulo 2^width.
pub fn singletons(values: &[u64], total: u32, width: u32) -> Result<Vec<u64>, Refusal> {
    if total > 20 {
        return Err(2); // the Rust has no such limit
    }
    let in_range = (2..=64).contains(&width);
    let cap = if in_range { degree_cap(width) as usize } else { 0 };
    if in_range && values.len() != total as usize * cap {
        return Err(9);
    }
    let origins = values.iter().step_by(cap.max(1)).map(|v| v & bitmask(width));
    assert!(!in_range || origins.clone().all(|v| Some(v) == origins.clone().next()), "one origin");
    let evaluator = Evaluator::new(|point| {
        let var = point.iter().position(|&x| x != 0).unwrap_or(0);
        values[var * cap + point[var] as usize]
    });
    let Ok(found) = recover_singleton_powers(&evaluator, total, width) else {
        return Err(if in_range { 6 } else { 3 });
    };
    let mut cells = vec![0; values.len()];
    for (var, poly) in found.per_var.iter().enumerate() {
        for term in &poly.terms {
            cells[var * cap + usize::from(term.degree)] = term.coeff;
        }
    }
    Ok(cells)
}

/// What the Rust's conversions take and give: terms, the number of variables, the width.
pub type Convert = fn(&CoeffMap, u8, u32) -> CoeffMap;

/// From powers to falling factorials, the Rust's answer as it is: with no exponent above 1 it comes
/// back unmasked, where the port reduces modulo 2^width (`reduced`).
pub fn to_falling(cells: &[u64], s: &Settings) -> Result<Vec<u64>, Refusal> {
    converted(cells, s, to_factorial_basis)
}

/// From falling factorials to powers, likewise.
pub fn to_powers(cells: &[u64], s: &Settings) -> Result<Vec<u64>, Refusal> {
    converted(cells, s, to_monomial_basis)
}

/// The normal form of a box of powers.
pub fn normal_form(cells: &[u64], s: &Settings) -> Result<Vec<u64>, Refusal> {
    converted(cells, s, normalized)
}

/// The Rust's normal form of terms.
pub fn normalized(terms: &CoeffMap, num_vars: u8, bitwidth: u32) -> CoeffMap {
    normalize_polynomial(&PolyIR { num_vars, bitwidth, terms: terms.clone() }).coeffs
}

/// The Rust's normal form of a box of falling factorials, over all variables: to powers, and to the normal form of these. The
/// box is reduced first, since with no exponent above 1 it would come back from the powers unmasked.
pub fn normal_form_of_falling(cells: &[u64], s: &Settings) -> NormalizedPoly {
    let (num_vars, bitwidth) = (s.total as u8, s.width);
    let terms = to_monomial_basis(&map_of_box(&reduced(cells, bitwidth), s), num_vars, bitwidth);
    normalize_polynomial(&PolyIR { num_vars, bitwidth, terms })
}

/// How many terms the Rust's passes of both conversions meet there at most.
pub fn steps_to_normal_form(s: &Settings) -> u64 {
    let (cells, k) = (s.cells().expect("a box within the limit"), s.support.len() as u64);
    match u64::from(s.degree) {
        0 | 1 => cells,
        degree => cells * (u64::from(s.total) + k * (degree - 1) / 2),
    }
}

fn converted(cells: &[u64], s: &Settings, convert: Convert) -> Result<Vec<u64>, Refusal> {
    match s.refusal(false, &[cells.len()]) {
        Some(refusal) => Err(refusal),
        None => Ok(unguarded(cells, s, convert)),
    }
}

/// A conversion as the Rust makes it of a box within the limit, whatever the other settings.
pub fn unguarded(cells: &[u64], s: &Settings, convert: Convert) -> Vec<u64> {
    box_of_map(&convert(&map_of_box(cells, s), s.total as u8, s.width), s)
}

/// The cells modulo 2^width.
pub fn reduced(cells: &[u64], width: u32) -> Vec<u64> {
    cells.iter().map(|c| c & bitmask(width)).collect()
}

/// The form that a box stands for.
pub fn form(cells: &[u64], s: &Settings) -> NormalizedPoly {
    NormalizedPoly { num_vars: s.total as u8, bitwidth: s.width, coeffs: map_of_box(cells, s) }
}

/// Whether a box is a normal form. A bad width is a no, and no other setting may be refused.
pub fn is_valid(cells: &[u64], s: &Settings) -> bool {
    form(cells, s).is_valid()
}

/// The bare solver. Entries are reduced modulo 2^width first, which the port adds; matrix and right
/// side are left as the elimination leaves them. A refused call but 10 leaves them as they were.
pub fn solver(
    matrix: &mut [u64],
    right: &mut [u64],
    columns: usize,
    width: u32,
) -> Result<Vec<u64>, Refusal> {
    if !(2..=64).contains(&width) {
        return Err(3);
    }
    if matrix.len() as u64 > LIMIT || columns as u64 > LIMIT {
        return Err(8);
    }
    if columns == 0 || matrix.len() % columns != 0 || right.len() != matrix.len() / columns {
        return Err(9);
    }
    let mask = bitmask(width);
    let as_they_are = askable(matrix.iter().chain(right.iter()), mask)
        .then(|| solve_2adic(&mut matrix.to_vec(), &mut right.to_vec(), columns, mask, width));
    matrix.iter_mut().chain(right.iter_mut()).for_each(|x| *x &= mask);
    let answer = solve_2adic(matrix, right, columns, mask, width);
    assert!(as_they_are.map_or(true, |other| other == answer), "{UNLISTED}");
    answer.ok_or(10)
}

/// The four by four solver, with the same reduction of its entries. The right side goes to the Rust as
/// it is: its bits above the width never count there.
pub fn solver4(
    matrix: &mut [[u64; 4]; 4],
    right: &mut [u64; 4],
    width: u32,
) -> Result<[u64; 4], Refusal> {
    if !(2..=64).contains(&width) {
        return Err(3);
    }
    let mask = bitmask(width);
    let as_they_are = askable(matrix.iter().flatten(), mask)
        .then(|| solve_2adic_fixed(&mut matrix.clone(), &mut right.clone(), mask, width));
    matrix.iter_mut().flatten().for_each(|x| *x &= mask);
    let answer = solve_2adic_fixed(matrix, right, mask, width);
    assert!(as_they_are.map_or(true, |other| other == answer), "{UNLISTED}");
    answer.ok_or(10)
}

/// Whether the Rust can be asked without the reduction too: a number has bits above the width, and none
/// is a multiple of 2^width but 0, which docs/DIFFERENCES.md lists.
fn askable<'a>(entries: impl Iterator<Item = &'a u64> + Clone, mask: u64) -> bool {
    let multiple = |&x: &u64| x != 0 && x & mask == 0;
    entries.clone().any(|&x| x > mask) && !entries.copied().any(|x| multiple(&x))
}

const UNLISTED: &str = "without the reduction the Rust answers otherwise, and no entry is a multiple of 2^width";
