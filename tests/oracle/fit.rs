//! The weighted fit, held to the Rust's reference.
//!
//! The degree of a case's settings is the grid's; max_degree stands behind the shared numbers, so that
//! settings, causes and boxes are those of `boxes.rs`.

use crate::boxes::{
    every_set_of_causes, filled, length, lent, low_bits, settings, shape, spoil, support, width,
    NUMBERS,
};
use crate::bytes::{beside, bytes_of, words_of, LIMIT};
use crate::group::{Answer, Case, Group, Lent, Source, UNSET};
use crate::library_boxes::bytes as byte_calls;
use crate::library_boxes::fit as ours;
use crate::random::Random;
use crate::reference as rust;
use crate::settings::{columns, within, Settings};

/// The call on u64 and the one on bytes.
const HAS_CALLS: bool = cfg!(all(cobra_recover_weighted_poly, cobra_fit));

/// Each group with whether the library has its calls.
pub const GROUPS: [(&Group, bool); 5] = [
    (&EVERY_SMALL_FIT, HAS_CALLS),
    (&FITS, HAS_CALLS),
    (&ANY_TARGETS, HAS_CALLS),
    (&LARGE_FITS, HAS_CALLS),
    (&REFUSED, HAS_CALLS),
];

const NAMES: &[&str] = &[
    NUMBERS[0],
    NUMBERS[1],
    "grid_degree",
    NUMBERS[3],
    NUMBERS[4],
    "max_degree",
    "support",
    "weights",
    "targets",
];

/// Without degree 0, which recovery alone refuses.
const CAUSES: [u32; 7] = [1, 2, 3, 5, 7, 8, 9];

/// All weights and targets at width 2 on grids of two and three points.
const EVERY_SMALL_FIT: Group = Group {
    name: "recover_weighted_poly, every small fit",
    names: NAMES,
    small: |give| {
        for (grid, points) in [(0u64, 1u32), (1, 2), (2, 3)] {
            for max in 0..=3 {
                for number in 0..1u64 << (4 * points) {
                    let entry = |i: u32| number >> (2 * i) & 3;
                    let (weights, targets) = (0..points, points..2 * points);
                    let case = Case::of([1, 2, grid, 0, number, max]).with(vec![0]);
                    give(case.with(weights.map(entry).collect()).with(targets.map(entry).collect()));
                }
            }
        }
    },
    random: None,
    cost: 1,
    judged,
    expected,
};

/// Targets that are a polynomial on the columns times the weight, as they are or with one damaged cell.
const FITS: Group = Group {
    name: "recover_weighted_poly, fits",
    names: NAMES,
    small: |_| {},
    random: Some(|r| {
        let most = r.pick(&[9, 27, 27, 64, 128]);
        any_fit(most, true, r)
    }),
    cost: 1,
    judged,
    expected,
};

/// Targets that nothing need fit.
const ANY_TARGETS: Group = Group {
    name: "recover_weighted_poly, any targets",
    names: NAMES,
    small: |_| {},
    random: Some(|r| {
        let most = r.pick(&[4, 9, 27, 64]);
        any_fit(most, false, r)
    }),
    cost: 1,
    judged,
    expected,
};

/// Matrices to 65,536 entries.
const LARGE_FITS: Group = Group {
    name: "recover_weighted_poly, large fits",
    names: NAMES,
    small: |give| {
        let ones = |points: usize| vec![1; points];
        for (k, max, grid, points) in
            [(1, 255, 255, 256), (16, 0, 1, 65_536), (2, 20, 15, 256), (20, 9, 0, 1), (1, 60, 200, 201)]
        {
            let case = Case::of([20, 64, grid, 0, 0, max]).with((0..k).rev().collect());
            give(case.with(ones(points)).with((0..points as u64).map(|i| i * i + 1).collect()));
        }
    },
    random: Some(|r| {
        let most = r.pick(&[512, 1_024, 4_096]);
        any_fit(most, !r.one_in(4), r)
    }),
    cost: 100,
    judged,
    expected,
};

/// Settings and lengths that are refused.
const REFUSED: Group = Group {
    name: "recover_weighted_poly, settings and lengths",
    names: NAMES,
    small: |give| {
        for max in [0, 2, 5] {
            let weights = (1..=27).collect();
            let targets = (3..=29).collect();
            let base = Case::of([5, 8, 2, 0, 0, max]).with(vec![3, 0, 2]).with(weights).with(targets);
            every_set_of_causes(&base, &CAUSES, number, give);
        }
        // the grid fits and the matrix does not, by one step; and the last that does
        for (k, max, grid, points) in [(1, 255, 255, 256), (2, 22, 50, 2_601), (2, 4, 70, 5_041), (16, 1, 1, 65_536), (4, 4, 9, 10_000)] {
            let case = Case::of([20, 8, grid, 0, 0, max]).with((0..k).collect());
            give(case.with(vec![1; points]).with(vec![2; points]));
        }
    },
    random: Some(|r| {
        let mut c = any_fit(27, true, r);
        spoil(&mut c, &CAUSES, r);
        c
    }),
    cost: 4,
    judged,
    expected,
};

/// A fit on a grid of at most `most` points, whose matrix is within the limit.
fn any_fit(most: u64, fitting: bool, r: &mut Random) -> Case {
    loop {
        let mut c = any_settings(most, r);
        if sizes(&c).1.is_none() {
            continue;
        }
        let (weights, low) = (any_weights(&c, r), low_bits(c.u64(1)));
        let mut targets = if fitting { fitted(&c, &weights, r) } else { words(&c, r) };
        if fitting && r.one_in(3) {
            let cell = r.below(targets.len() as u64) as usize;
            targets[cell] ^= 1 << r.below(c.u64(1));
        }
        if r.one_in(3) {
            targets.iter_mut().for_each(|v| *v = *v & low | r.next() & !low);
        }
        c.tables.push(weights);
        c.tables.push(targets);
        return c;
    }
}

/// Settings on such a grid, whatever the matrix; the tables but the support still to be added.
pub fn any_settings(most: u64, r: &mut Random) -> Case {
    let (k, grid) = shape(r.pick(&[0, 1, 1, 2]), most, r);
    let (support, total) = support(k, r);
    let max = match r.below(4) {
        0 => r.below(3),
        1 => r.between(0, grid),
        2 => (grid * k).min(255),
        _ => (grid + r.below(4)).min(255),
    };
    Case::of([total, width(r), grid, 0, r.next(), max]).with(support)
}

fn words(c: &Case, r: &mut Random) -> Vec<u64> {
    (0..sizes(c).0.expect("rows")).map(|_| r.word()).collect()
}

/// Odd weights, even ones, zeros among them, all one, or any.
fn any_weights(c: &Case, r: &mut Random) -> Vec<u64> {
    let kind = r.below(6);
    let weight = |r: &mut Random| match kind {
        0 => 1,
        1 | 2 => r.next() | 1,
        3 => r.next() << r.below(4),
        4 if r.one_in(3) => 0,
        _ => r.word(),
    };
    (0..sizes(c).0.expect("rows")).map(|_| weight(r)).collect()
}

/// The weight times the value of some polynomial on the columns, at every grid point.
fn fitted(c: &Case, weights: &[u64], r: &mut Random) -> Vec<u64> {
    let s = settings(c);
    let (k, base, least) = (s.support.len(), usize::from(s.degree) + 1, s.degree.min(c.u8(5)));
    let term = |r: &mut Random| -> Vec<u64> {
        let mut left = c.u64(5);
        let mut exponents = vec![0; k];
        (0..r.below(4)).for_each(|_| {
            let at = r.below(k as u64) as usize;
            let e = r.below(left.min(u64::from(least) - exponents[at]) + 1);
            exponents[at] += e;
            left -= e;
        });
        exponents
    };
    let terms: Vec<_> = (0..r.between(0, 4)).map(|_| (r.word(), term(r))).collect();
    let falling = |x: usize, n: u64| (0..n).fold(1u64, |p, i| p.wrapping_mul((x as u64).wrapping_sub(i)));
    let value = |(point, &weight): (usize, &u64)| {
        let at = |exponents: &[u64]| {
            let mut rest = point;
            exponents.iter().fold(1u64, |p, &e| {
                let x = rest % base;
                rest /= base;
                p.wrapping_mul(falling(x, e))
            })
        };
        let sum = terms.iter().fold(0u64, |sum, (h, e)| sum.wrapping_add(h.wrapping_mul(at(e))));
        sum.wrapping_mul(weight)
    };
    weights.iter().enumerate().map(value).collect()
}

/// Grid points, entries of the matrix, and cells of the answer; nothing above the limit.
fn sizes(c: &Case) -> (Option<u64>, Option<u64>, Option<u64>) {
    let s = settings(c);
    let least = Settings { degree: s.degree.min(c.u8(5)), ..s };
    let entries = s.cells().and_then(|rows| {
        columns(s.support.len(), least.degree, c.u8(5)).and_then(|n| within(rows * n))
    });
    (s.cells(), entries, least.cells())
}

/// Weights, targets, matrix, right side and output before the call.
fn tables(c: &Case) -> [Vec<u64>; 5] {
    let (rows, entries, cells) = sizes(c);
    let (weights, targets) = (&c.tables[1], &c.tables[2]);
    let of = |table, exact: Option<u64>, given| length(c.u64(3), table, 5, exact, given);
    [
        lent(weights, of(0, rows, weights.len())),
        lent(targets, of(1, rows, targets.len())),
        filled(c.u64(4) + 1, of(2, entries, 7)),
        filled(c.u64(4) + 2, of(3, rows, weights.len())),
        filled(c.u64(4), of(4, cells, 5)),
    ]
}

/// The refusal before anything is eliminated.
pub fn number(c: &Case) -> u32 {
    let (s, tables) = (settings(c), tables(c));
    let (rows, entries, cells) = sizes(c);
    let exact = [rows, rows, entries, rows, cells];
    let lengths: Vec<_> = tables.iter().map(Vec::len).zip(exact).collect();
    s.guard(false).or_else(|| s.added(entries, &lengths)).unwrap_or(0)
}

fn left(number: u32, degree_used: u64, tables: [Vec<u64>; 5], support: &[u64]) -> Answer {
    let [weights, targets, matrix, right, out] = tables;
    let said = Answer::number(number).and_value(degree_used).words("output", out);
    let said = said.words("matrix", matrix).words("right side", right);
    said.words("weights", weights).words("targets", targets).words("support", support.to_vec())
}

pub fn judged(c: &Case) -> Answer {
    let (s, mut used) = (settings(c), UNSET);
    let [weights, targets, matrix, right, out] = &mut tables(c).map(|t| Lent::new(&t));
    let mut support = Lent::new(s.support);
    let (w, t, m, n, o) = (weights.len(), targets.len(), matrix.len(), right.len(), out.len());
    let (w_at, t_at, m_at, n_at) = (weights.at(), targets.at(), matrix.at(), right.at());
    let (o_at, s_at, k) = (out.at(), support.at(), support.len());
    let (total, width, max, grid) = (s.total, s.width, c.u8(5), s.degree);
    let number = unsafe {
        ours::cobra_recover_weighted_poly(
            w_at, w, t_at, t, s_at, k, total, width, max, grid, m_at, m, n_at, n, o_at, o, &mut used,
        )
    };
    let all = [&*weights, targets, matrix, right, out];
    let outside = support.outside() + all.iter().map(|t| t.outside()).sum::<usize>();
    let contents = all.map(|t| t.content());
    let scratch = [contents[2].clone(), contents[3].clone()];
    let words = left(number, used, contents, &support.content()).outside(outside);
    if scratch_spoilt(c) {
        return words;
    }
    let (bytes, large) = (by_bytes(c, &scratch), above(c).then(|| turned_down(c, &scratch)));
    beside(words, bytes, large)
}

/// The refusal is for the scratch tables, which the call on bytes does not have.
fn scratch_spoilt(c: &Case) -> bool {
    let ((rows, _, cells), [weights, targets, _, _, out]) = (sizes(c), tables(c));
    let exact = [(weights.len(), rows), (targets.len(), rows), (out.len(), cells)];
    number(c) == 9 && exact.iter().all(|&(len, exact)| exact == Some(len as u64))
}

/// The call on bytes says 8 where the other goes on.
fn above(c: &Case) -> bool {
    matches!(number(c), 0 | 9) && sizes(c).1 > Some(LIMIT)
}

fn turned_down(c: &Case, scratch: &[Vec<u64>; 2]) -> Answer {
    let ([weights, targets, _, _, out], [matrix, right]) = (tables(c), scratch.clone());
    left(8, 0, [weights, targets, matrix, right, out], settings(c).support).outside(0)
}

/// The call on bytes; the scratch tables of its answer are those of the call on u64.
fn by_bytes(c: &Case, scratch: &[Vec<u64>; 2]) -> Answer {
    let (s, mut used) = (settings(c), UNSET);
    let [weights, targets, _, _, out] = &mut tables(c).map(|t| bytes_of(&t));
    let mut support = bytes_of(s.support);
    let (w, t, o, k) = (weights.len(), targets.len(), out.len(), support.len());
    let (w_at, t_at, o_at, s_at) = (weights.at(), targets.at(), out.at(), support.at());
    let (count, total, width) = (s.support.len() as u64, s.total, s.width);
    let (max, grid) = (c.u8(5), s.degree);
    let number = unsafe {
        byte_calls::cobra_fit(
            w_at, w, t_at, t, s_at, k, count, total, width, max, grid, o_at, o, &mut used,
        )
    };
    let all = [&*weights, targets, out];
    let outside = support.outside() + all.iter().map(|t| t.outside()).sum::<usize>();
    let ([weights, targets, out], [matrix, right]) = (all.map(|t| words_of(t)), scratch.clone());
    let tables = [weights, targets, matrix, right, out];
    left(number, used, tables, &words_of(&support)).outside(outside)
}

/// The Rust has 1, 2, 3, 5 and 10; 7, 8 and 9 are added and never sent to it.
fn expected(c: &Case) -> (Source, Answer) {
    let (s, mut tables) = (settings(c), tables(c));
    let refusal = number(c);
    if refusal > 5 {
        return (Source::Document, left(refusal, 0, tables, s.support).outside(0));
    }
    let max = Settings { degree: c.u8(5), ..s };
    let (number, used) = match rust::fit(&tables[1], &tables[0], &max, s.degree) {
        Ok((cells, used)) => {
            tables[4] = cells;
            (0, u64::from(used))
        }
        Err(number) => {
            if number == 10 {
                tables[4].fill(0);
            }
            (number, 0)
        }
    };
    if number == 0 || number == 10 {
        tables[2].fill(0);
        tables[3].fill(0);
    }
    (Source::Rust, left(number, used, tables, s.support).outside(0))
}
