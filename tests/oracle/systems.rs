//! The bare solver and the four by four solver, held to the Rust's. The Rust's entries are reduced
//! modulo 2^width first, which the port adds.

use crate::boxes::{filled, length, lent, low_bits, width};
use crate::group::{Answer, Case, Group, Lent, Source};
use crate::library_boxes::systems as ours;
use crate::random::Random;
use crate::reference as rust;
use crate::settings::LIMIT;

/// Each group with whether the library has its call.
pub const GROUPS: [(&Group, bool); 6] = [
    (&EVERY_SMALL_SYSTEM, cfg!(cobra_solve_2adic)),
    (&SYSTEMS, cfg!(cobra_solve_2adic)),
    (&LARGE_SYSTEMS, cfg!(cobra_solve_2adic)),
    (&REFUSED, cfg!(cobra_solve_2adic)),
    (&FOUR_BY_FOUR, cfg!(cobra_solve_2adic_fixed)),
    (&FOUR_BY_FOUR_REFUSED, cfg!(cobra_solve_2adic_fixed)),
];

/// A case's numbers, then its tables. Lengths are those that rows and columns give, unless
/// `wrong_length` says otherwise: matrix, right side, answer.
const NAMES: &[&str] = &["width", "columns", "rows", "wrong_length", "fill", "matrix", "right"];

/// All two by two systems at widths 2 and 3, and all of three rows at width 2.
const EVERY_SMALL_SYSTEM: Group = Group {
    name: "solve_2adic, every small system",
    names: NAMES,
    small: |give| {
        for (w, rows, columns) in [(2u64, 1, 1), (2, 1, 2), (2, 2, 1), (2, 2, 2), (3, 2, 2), (2, 3, 2)] {
            let entries = rows * columns + rows;
            for number in 0..1u64 << (w * entries) {
                let entry = |i: u64| number >> (w * i) & ((1 << w) - 1);
                let matrix = (0..rows * columns).map(entry).collect();
                let right = (rows * columns..entries).map(entry).collect();
                give(Case::of([w, columns, rows, 0, number]).with(matrix).with(right));
            }
        }
    },
    random: None,
    cost: 1,
    judged: solved,
    expected,
};

/// Accepted, rank-deficient and inconsistent systems, and such that do not divide.
const SYSTEMS: Group = Group {
    name: "solve_2adic, systems",
    names: NAMES,
    small: |_| {},
    random: Some(|r| {
        let columns = r.between(1, 8);
        let rows = if r.one_in(8) { r.below(12) } else { columns + r.below(5) };
        any_system(rows, columns, r)
    }),
    cost: 1,
    judged: solved,
    expected,
};

/// Matrices to 65,536 entries, square, tall and wide.
const LARGE_SYSTEMS: Group = Group {
    name: "solve_2adic, large systems",
    names: NAMES,
    small: |give| {
        for (rows, columns) in [(1, 65_536), (65_536, 1), (256, 256), (2, 32_768), (32_768, 2)] {
            let matrix = (0..rows * columns).map(|i| i * i + 3 * i + 1).collect();
            give(Case::of([64, columns, rows, 0, 0]).with(matrix).with((0..rows).collect()));
        }
    },
    random: Some(|r| {
        let columns = r.pick(&[3, 17, 40, 61, 100]);
        let rows = r.between(columns, (LIMIT / columns).min(columns + 300));
        any_system(rows, columns, r)
    }),
    cost: 250,
    judged: solved,
    expected,
};

/// Widths, sizes and lengths that are refused, every set of causes at once.
const REFUSED: Group = Group {
    name: "solve_2adic, settings and lengths",
    names: NAMES,
    small: |give| {
        for w in (0..=70).chain([255, 256, 4_294_967_295]) {
            for (columns, rows) in [(2, 3), (0, 3), (65_537, 1), (65_536, 2), (65_537, 0), (1 << 40, 0)] {
                for wrong in 0..24 {
                    let entries = if columns == 2 { 6 } else { 0 };
                    let case = Case::of([w, columns, rows, wrong, 9]);
                    give(case.with((1..=entries).collect()).with(vec![1, 2, 3]));
                }
            }
        }
    },
    random: Some(|r| {
        let (columns, rows) = (r.between(1, 5), r.below(6));
        let mut c = any_system(rows, columns, r);
        match r.below(4) {
            0 => c.numbers[0] = r.width(),
            1 => c.numbers[1] = r.pick(&[0, 65_536, 65_537, 1 << 32]),
            _ => c.numbers[3] = r.between(1, 24),
        }
        c
    }),
    cost: 10,
    judged: solved,
    expected,
};

/// A system with a solution, without pivots in some columns, with another right side, or any.
fn any_system(rows: u64, columns: u64, r: &mut Random) -> Case {
    let w = width(r);
    let twos = if r.one_in(2) { 0 } else { r.below(w) };
    let entry = |r: &mut Random| match r.below(6) {
        0 => 0,
        1 => r.word() << r.below(twos + 1),
        2 => (r.next() | 1) << r.below(twos + 1),
        _ => r.word(),
    };
    let mut matrix: Vec<u64> = (0..rows * columns).map(|_| entry(r)).collect();
    if r.one_in(4) && rows > 1 {
        // a row that is a multiple of another
        let (from, to, by) = (r.below(rows), r.below(rows), r.word());
        for c in 0..columns {
            matrix[(to * columns + c) as usize] = matrix[(from * columns + c) as usize].wrapping_mul(by);
        }
    }
    if r.one_in(6) {
        // a column that is a multiple of another, or zero
        let (from, to, by) = (r.below(columns), r.below(columns), r.pick(&[0, 1, 2, 3, 1 << 20]));
        for i in 0..rows {
            matrix[(i * columns + to) as usize] = matrix[(i * columns + from) as usize].wrapping_mul(by);
        }
    }
    let x = r.words(columns);
    let value = |i: u64| {
        let term = |c: u64| matrix[(i * columns + c) as usize].wrapping_mul(x[c as usize]);
        (0..columns).fold(0u64, |sum, c| sum.wrapping_add(term(c)))
    };
    let mut right: Vec<u64> = (0..rows).map(value).collect();
    match r.below(4) {
        0 if rows > 0 => right[r.below(rows) as usize] ^= 1 << r.below(w),
        1 => right.iter_mut().for_each(|v| *v = r.word()),
        _ => {}
    }
    if r.one_in(3) {
        matrix.iter_mut().chain(right.iter_mut()).for_each(|v| *v &= low_bits(w));
    }
    Case::of([w, columns, rows, 0, r.next()]).with(matrix).with(right)
}

/// Matrix, right side and answer before the call.
fn tables(c: &Case) -> [Vec<u64>; 3] {
    let (columns, rows, wrong) = (c.u64(1), c.u64(2), c.u64(3));
    let of = |table, exact: u64| length(wrong, table, 3, Some(exact), 0);
    let shown = columns.min(LIMIT + 3); // an answer for very many columns is not laid out
    let matrix = lent(&c.tables[0], of(0, rows.saturating_mul(columns).min(2 * LIMIT)));
    [matrix, lent(&c.tables[1], of(1, rows)), filled(c.u64(4), of(2, shown))]
}

fn answer(number: u32, [matrix, right, out]: [Vec<u64>; 3]) -> Answer {
    Answer::number(number).words("answer table", out).words("matrix", matrix).words("right side", right)
}

fn solved(c: &Case) -> Answer {
    let [matrix, right, out] = tables(c);
    let (mut matrix, mut right, mut out) = (Lent::new(&matrix), Lent::new(&right), Lent::new(&out));
    let (m, n, k) = (matrix.len(), right.len(), out.len());
    let (m_at, n_at, k_at) = (matrix.at(), right.at(), out.at());
    let columns = c.u64(1) as usize;
    let number = unsafe { ours::cobra_solve_2adic(m_at, m, n_at, n, columns, c.u32(0), k_at, k) };
    let outside = matrix.outside() + right.outside() + out.outside();
    answer(number, [matrix.content(), right.content(), out.content()]).outside(outside)
}

/// The Rust divides by no columns, and has no limits; those calls are never sent to it.
fn expected(c: &Case) -> (Source, Answer) {
    let [mut matrix, mut right, out] = tables(c);
    let (w, columns) = (c.u32(0), c.u64(1) as usize);
    let fits = columns > 0 && matrix.len() == right.len().saturating_mul(columns);
    let refusal = match () {
        () if !(2..=64).contains(&w) => 3,
        () if matrix.len() as u64 > LIMIT || columns as u64 > LIMIT => 8,
        () if !fits || out.len() != columns => 9,
        () => 0,
    };
    if refusal != 0 {
        return (Source::Document, answer(refusal, [matrix, right, out]).outside(0));
    }
    let (number, out) = match rust::solver(&mut matrix, &mut right, columns, w) {
        Ok(x) => (0, x),
        Err(number) => (number, vec![0; columns]),
    };
    (Source::Rust, answer(number, [matrix, right, out]).outside(0))
}

const FOUR_NAMES: &[&str] = &["width", "wrong_length", "fill", "matrix", "right"];

const FOUR_BY_FOUR: Group = Group {
    name: "solve_2adic_fixed, systems",
    names: FOUR_NAMES,
    small: |give| {
        // at width 2, every matrix of zeros, ones and twos in its first two rows and columns
        for number in 0..6_561u64 {
            let entry = |i: u32| number / 3u64.pow(i) % 3;
            let mut matrix = vec![0; 16];
            for (i, place) in [0, 1, 4, 5, 10, 15, 11, 14].into_iter().enumerate() {
                matrix[place] = entry(i as u32);
            }
            give(Case::of([2, 0, number]).with(matrix).with(vec![entry(0), entry(3), 2, entry(1)]));
        }
    },
    random: Some(|r| {
        let c = any_system(4, 4, r);
        let [matrix, right] = [c.tables[0].clone(), c.tables[1].clone()];
        Case::of([c.u64(0), 0, c.u64(4)]).with(matrix).with(right)
    }),
    cost: 1,
    judged: solved_fixed,
    expected: expected_fixed,
};

const FOUR_BY_FOUR_REFUSED: Group = Group {
    name: "solve_2adic_fixed, settings and lengths",
    names: FOUR_NAMES,
    small: |give| {
        for w in (0..=70).chain([255, 256, 4_294_967_295]) {
            for wrong in 0..40 {
                give(Case::of([w, wrong, 5]).with((1..=16).collect()).with(vec![1, 2, 3, 4]));
            }
        }
    },
    random: None,
    cost: 1,
    judged: solved_fixed,
    expected: expected_fixed,
};

fn fixed_tables(c: &Case) -> [Vec<u64>; 3] {
    let of = |table, exact| length(c.u64(1), table, 3, Some(exact), 0);
    [lent(&c.tables[0], of(0, 16)), lent(&c.tables[1], of(1, 4)), filled(c.u64(2), of(2, 4))]
}

fn solved_fixed(c: &Case) -> Answer {
    let [matrix, right, out] = fixed_tables(c);
    let (mut matrix, mut right, mut out) = (Lent::new(&matrix), Lent::new(&right), Lent::new(&out));
    let (m, n, k) = (matrix.len(), right.len(), out.len());
    let (m_at, n_at, k_at) = (matrix.at(), right.at(), out.at());
    let number = unsafe { ours::cobra_solve_2adic_fixed(m_at, m, n_at, n, c.u32(0), k_at, k) };
    let outside = matrix.outside() + right.outside() + out.outside();
    answer(number, [matrix.content(), right.content(), out.content()]).outside(outside)
}

/// Matrix and right side are taken by value, so that the lent ones stay.
fn expected_fixed(c: &Case) -> (Source, Answer) {
    let [matrix, right, out] = fixed_tables(c);
    let w = c.u32(0);
    let refusal = match () {
        () if !(2..=64).contains(&w) => 3,
        () if matrix.len() != 16 || right.len() != 4 || out.len() != 4 => 9,
        () => 0,
    };
    if refusal != 0 {
        return (Source::Document, answer(refusal, [matrix, right, out]).outside(0));
    }
    let mut rows = [[0; 4]; 4];
    rows.iter_mut().flatten().zip(&matrix).for_each(|(to, &from)| *to = from);
    let mut side = [right[0], right[1], right[2], right[3]];
    let (number, out) = match rust::solver4(&mut rows, &mut side, w) {
        Ok(x) => (0, x.to_vec()),
        Err(number) => (number, vec![0; 4]),
    };
    (Source::Rust, answer(number, [matrix, right, out]).outside(0))
}
