//! The references alone, held to document 01's definitions on random boxes: supports in any order,
//! several variables, values with bits above the width. This catches a stand-in that reads a table
//! in another order, which the checked rows of one variable cannot.

use crate::boxes::{digits, low_bits, twos_of_cells};
use crate::core::arith::bitmask;
use crate::group::{Answer, Case, Group, Source};
use crate::ir::math_utils::degree_cap;
use crate::random::Random;
use crate::reference as rust;
use crate::settings::{columns, power, within, Settings};
use std::collections::HashMap;

pub const GROUPS: [&Group; 5] = [&RECOVERY, &CONVERSIONS, &FIT, &SINGLETONS, &SOLVERS];

/// The twos in the factorials of an exponent list, by counting them.
fn twos(exponents: &[u64]) -> u32 {
    exponents.iter().map(|&e| (1..=e).map(|i| i.trailing_zeros()).sum::<u32>()).sum()
}

pub fn falling(x: u64, e: u64) -> u64 {
    (0..e).fold(1, |product: u64, i| product.wrapping_mul(x.wrapping_sub(i)))
}

fn raised(x: u64, e: u64) -> u64 {
    (0..e).fold(1, |product: u64, _| product.wrapping_mul(x))
}

/// The value of a box at a point, modulo 2^width, in falling factorials or in powers.
pub fn value(cells: &[u64], s: &Settings, point: &[u64], basis: fn(u64, u64) -> u64) -> u64 {
    let mut sum = 0u64;
    for (cell, &coefficient) in cells.iter().enumerate().filter(|(_, &c)| c != 0) {
        let exponents = digits(cell as u64, u64::from(s.degree) + 1, point.len());
        let factors = point.iter().zip(exponents).map(|(&x, e)| basis(x, e));
        sum = sum.wrapping_add(factors.fold(coefficient, u64::wrapping_mul));
    }
    sum & bitmask(s.width)
}

/// Sameness of two forms whose settings pass, coefficient by coefficient: for each exponent list over all variables that one of
/// the two boxes has, both coefficients are equal modulo 2^(width - q).
pub fn same(a: &[u64], s: &Settings, b: &[u64], t: &Settings) -> bool {
    matched(a, s, b, t, below_the_bound) && matched(b, t, a, s, below_the_bound)
}

/// The bits that count at a cell, from the width and its q.
pub fn below_the_bound(width: u32, q: u32) -> u64 {
    low_bits(u64::from(width.saturating_sub(q)))
}

/// Whether totals and widths are equal and each coefficient of a box is, in the bits that count, the one that the other box has
/// at its exponents, or 0 where it has none.
pub fn matched(a: &[u64], s: &Settings, b: &[u64], t: &Settings, count: fn(u32, u32) -> u64) -> bool {
    let others: HashMap<_, _> = exponent_lists(t).zip(b).collect();
    let mut lists = exponent_lists(s).zip(twos_of_cells(s.degree, s.support.len())).zip(a);
    (s.total, s.width) == (t.total, t.width)
        && lists.all(|((list, q), x)| {
            let other = others.get(&list).map_or(0, |&&y| y);
            (x ^ other) & count(s.width, q) == 0
        })
}

/// Of each cell the exponents of all variables that there can be.
fn exponent_lists<'a>(s: &'a Settings) -> impl Iterator<Item = [u8; 20]> + 'a {
    let (cells, base) = (s.cells().expect("a box within the limit"), u64::from(s.degree) + 1);
    (0..cells).map(move |cell| {
        let mut list = [0; 20];
        let exponents = digits(cell, base, s.support.len());
        s.support.iter().zip(exponents).for_each(|(&var, e)| list[var as usize] = e as u8);
        list
    })
}

/// A random normal form whose exponents have a sum of at most `most`.
fn normal_form(s: &Settings, most: u64, r: &mut Random) -> Vec<u64> {
    let coefficient = |cell: u64| {
        let exponents = digits(cell, u64::from(s.degree) + 1, s.support.len());
        let bits = s.width.saturating_sub(twos(&exponents));
        let present = exponents.iter().sum::<u64>() <= most && !r.one_in(3);
        if present {
            r.word() & bitmask(bits)
        } else {
            0
        }
    };
    (0..s.cells().expect("a small box")).map(coefficient).collect()
}

/// Some support of k variables in any order, and a total that has room for it.
fn support(k: u64, r: &mut Random) -> (Vec<u64>, u32) {
    let total = r.between(k, 20);
    let mut all: Vec<u64> = (0..total).collect();
    (0..k as usize).for_each(|i| all.swap(i, r.between(i as u64, total - 1) as usize));
    all.truncate(k as usize);
    (all, total as u32)
}

/// A value with the bits above the width made up.
fn noisy(value: u64, width: u32, r: &mut Random) -> u64 {
    value | (r.next() & !bitmask(width))
}

fn answer(number: u32, cells: Vec<u64>) -> Answer {
    Answer::number(number).words("cells", cells)
}

fn said(answered: Result<Vec<u64>, u32>) -> Answer {
    match answered {
        Ok(cells) => answer(0, cells),
        Err(refusal) => answer(refusal, Vec::new()),
    }
}

const SHAPES: &[(u64, u64)] = &[(1, 9), (1, 20), (2, 3), (2, 5), (3, 2), (4, 1), (5, 1)];

fn random_shape(r: &mut Random) -> Case {
    let (variables, most) = r.pick(SHAPES);
    Case::of([variables, r.between(1, most), r.between(2, 64), r.below(1 << 20)])
}

fn no_small(_: &mut dyn FnMut(Case)) {}

/// The settings and numbers that a case [variables, degree, width, seed] stands for.
/// A number below its range stands for the least one in it.
fn with_shape<T>(c: &Case, then: impl FnOnce(&Settings, &mut Random) -> T) -> T {
    let mut r = Random::new(c.u64(3), "shape");
    let (support, total) = support(c.u64(0).max(1), &mut r);
    let (width, degree) = (c.u32(2).max(2), c.u8(1).max(1));
    then(&Settings { support: &support, total, width, degree }, &mut r)
}

const RECOVERY: Group = Group {
    name: "recovery, the reference alone",
    names: &["variables", "degree", "width", "seed"],
    small: no_small,
    random: Some(random_shape),
    cost: 10,
    judged: |c| {
        with_shape(c, |s, r| {
            let cells = normal_form(s, u64::MAX, r);
            let point = |cell| digits(cell, u64::from(s.degree) + 1, s.support.len());
            let on_grid = |cell| value(&cells, s, &point(cell as u64), falling);
            let values: Vec<_> = (0..cells.len()).map(|i| noisy(on_grid(i), s.width, r)).collect();
            said(rust::recovery(&values, s))
        })
    },
    expected: |c| with_shape(c, |s, r| (Source::Rust, answer(0, normal_form(s, u64::MAX, r)))),
};

/// Values at some points: of the converted boxes, and of the box that they come from.
const CONVERSIONS: Group = Group {
    name: "conversions, the references alone",
    names: &["variables", "degree", "width", "seed"],
    small: no_small,
    random: Some(random_shape),
    cost: 10,
    judged: |c| {
        with_shape(c, |s, r| {
            let cells = r.words(s.cells().expect("a small box"));
            let point = r.words(s.support.len() as u64);
            let unrefused = |answered: Result<Vec<u64>, u32>| answered.expect("settings that pass");
            let normal = unrefused(rust::normal_form(&cells, s));
            answer(
                u32::from(!rust::is_valid(&normal, s)),
                vec![
                    value(&unrefused(rust::to_falling(&cells, s)), s, &point, falling),
                    value(&normal, s, &point, falling),
                    value(&unrefused(rust::to_powers(&cells, s)), s, &point, raised),
                ],
            )
        })
    },
    expected: |c| {
        with_shape(c, |s, r| {
            let cells = r.words(s.cells().expect("a small box"));
            let point = r.words(s.support.len() as u64);
            let (raised, falling) =
                (value(&cells, s, &point, raised), value(&cells, s, &point, falling));
            (Source::Rust, answer(0, vec![raised, raised, falling]))
        })
    },
};

/// With odd weights the fit finds the one normal form among its columns, unless a column is zero
/// modulo 2^width.
const FIT: Group = Group {
    name: "fit, the reference alone",
    names: &["variables", "max_degree", "width", "seed", "grid_degree"],
    small: no_small,
    random: Some(|r| {
        let mut case = random_shape(r);
        case.numbers.push(r.between(0, 3));
        case
    }),
    cost: 10,
    judged: |c| {
        with_fit(c, |s, grid, cells, r| {
            let base = u64::from(grid) + 1;
            let rows = power(base, s.support.len()).expect("a small grid");
            let least = Settings { degree: s.degree.min(grid), ..*s };
            let weights: Vec<u64> = (0..rows).map(|_| r.next() | 1).collect();
            let point = |row| digits(row as u64, base, s.support.len());
            let at =
                |row: usize| weights[row].wrapping_mul(value(cells, &least, &point(row), falling));
            let targets: Vec<_> = (0..rows as usize).map(at).collect();
            said(
                rust::fit(&targets, &weights, s, grid)
                    .map(|(cells, degree)| [cells, vec![u64::from(degree)]].concat()),
            )
        })
    },
    expected: |c| {
        with_fit(c, |s, grid, cells, _| {
            let least = s.degree.min(grid);
            let list = |i: u64| digits(i, u64::from(least) + 1, s.support.len());
            let listed = |i: &u64| list(*i).iter().sum::<u64>() <= u64::from(s.degree);
            let all = 0..cells.len() as u64;
            let used =
                all.clone().filter(|&i| cells[i as usize] != 0).map(|i| list(i).iter().sum());
            let degree: u64 = used.max().unwrap_or(0);
            if all.filter(listed).any(|i| twos(&list(i)) >= s.width) {
                (Source::Rust, answer(10, Vec::new()))
            } else {
                (Source::Rust, answer(0, [cells.to_vec(), vec![degree]].concat()))
            }
        })
    },
};

/// The settings of a fit, its grid's degree, and the normal form that it has to find. A matrix that
/// would be above the limit gets a grid of degree 0.
fn with_fit<T>(c: &Case, then: impl FnOnce(&Settings, u8, &[u64], &mut Random) -> T) -> T {
    with_shape(c, |s, r| {
        let (k, mut grid) = (s.support.len(), c.u8(4));
        let listed = columns(k, s.degree.min(grid), s.degree);
        let rows = power(u64::from(grid) + 1, k);
        if rows.zip(listed).and_then(|(rows, listed)| within(rows * listed)).is_none() {
            grid = 0;
        }
        let least = Settings { degree: s.degree.min(grid), ..*s };
        let cells = normal_form(&least, u64::from(s.degree), r);
        then(s, grid, &cells, r)
    })
}

const SINGLETONS: Group = Group {
    name: "singletons, the reference alone",
    names: &["variables", "width", "seed"],
    small: no_small,
    random: Some(|r| Case::of([r.between(0, 4), r.between(2, 64), r.below(1 << 20)])),
    cost: 10,
    judged: |c| {
        let (width, mut r) = (c.u32(1).max(2), Random::new(c.u64(2), "values"));
        let (cap, constant) = (u64::from(degree_cap(width)), r.word());
        let line = Settings { support: &[0], total: 1, width, degree: (cap - 1) as u8 };
        let mut values = Vec::new();
        for cells in singleton_cells(c).chunks(cap as usize) {
            let at = |x| constant.wrapping_add(value(cells, &line, &[x], falling)) & bitmask(width);
            values.extend((0..cap).map(|x| noisy(at(x), width, &mut r)));
        }
        said(rust::singletons(&values, c.u32(0), width))
    },
    expected: |c| (Source::Rust, answer(0, singleton_cells(c))),
};

fn singleton_cells(c: &Case) -> Vec<u64> {
    let (width, mut r) = (c.u32(1).max(2), Random::new(c.u64(2), "cells"));
    let degree = (degree_cap(width) - 1) as u8;
    let line = Settings { support: &[0], total: 1, width, degree };
    let cells = |_| [vec![0], normal_form(&line, u64::MAX, &mut r)[1..].to_vec()].concat();
    (0..c.u64(0)).flat_map(cells).collect()
}

/// A system with odd determinant has one solution, and both solvers find it.
const SOLVERS: Group = Group {
    name: "solvers, the references alone",
    names: &["columns", "width", "seed"],
    small: no_small,
    random: Some(|r| {
        Case::of([r.pick(&[1, 2, 3, 4, 4, 4, 7]), r.between(2, 64), r.below(1 << 20)])
    }),
    cost: 10,
    judged: |c| {
        let (width, mut r) = (c.u32(1).max(2), Random::new(c.u64(2), "system"));
        let (solution, n) = (solution(c), c.u64(0).max(1) as usize);
        // rows of a lower triangle, then times an upper one, both with odd diagonals
        let mut triangle = |lower: bool| -> Vec<u64> {
            let kept = |i: usize, j: usize| if lower { j < i } else { i < j };
            let entry = |i: usize, r: &mut Random| match (i / n, i % n) {
                (i, j) if i == j => r.word() | 1,
                (i, j) if kept(i, j) => r.word(),
                _ => 0,
            };
            (0..n * n).map(|i| entry(i, &mut r)).collect()
        };
        let (low, up) = (triangle(true), triangle(false));
        let dot = |a: &dyn Fn(usize) -> u64| (0..n).fold(0u64, |sum, m| sum.wrapping_add(a(m)));
        let product = |i: usize| dot(&|m| low[i / n * n + m].wrapping_mul(up[m * n + i % n]));
        let mut matrix: Vec<u64> = (0..n * n).map(product).collect();
        let side = |i: usize| dot(&|m| matrix[i * n + m].wrapping_mul(solution[m]));
        let mut right: Vec<u64> = (0..n).map(side).collect();
        if n != 4 || c.u64(2) % 2 == 0 {
            return said(rust::solver(&mut matrix, &mut right, n, width));
        }
        let mut rows: [[u64; 4]; 4] =
            std::array::from_fn(|i| std::array::from_fn(|j| matrix[4 * i + j]));
        let mut right: [u64; 4] = std::array::from_fn(|i| right[i]);
        said(rust::solver4(&mut rows, &mut right, width).map(|x| x.to_vec()))
    },
    expected: |c| (Source::Rust, answer(0, rust::reduced(&solution(c), c.u32(1).max(2)))),
};

fn solution(c: &Case) -> Vec<u64> {
    Random::new(c.u64(2), "solution").words(c.u64(0).max(1))
}
