//! What the groups on boxes share: how a case stands for settings and lent tables, random settings,
//! causes of refusal, and values on a grid.
//!
//! A case of one box begins with the numbers of `NUMBERS` and its first table is the support. Its
//! other tables are contents: the lent table has the exact length, zeros where the content is
//! shorter, unless `wrong_length` says otherwise. So a case keeps its meaning when it gets smaller.

use crate::group::{Answer, Case, Lent};
use crate::library_boxes::InOut;
use crate::random::Random;
use crate::settings::{power, Settings};
use std::sync::OnceLock;

/// `wrong_length` is 0 where all lengths are exact. `fill` decides what an output table holds before.
pub const NUMBERS: [&str; 5] = ["total", "width", "degree", "wrong_length", "fill"];

const WRONG: usize = 3;
const FILL: usize = 4;

pub fn settings(c: &Case) -> Settings<'_> {
    Settings { support: &c.tables[0], total: c.u32(0), width: c.u32(1), degree: c.u8(2) }
}

/// The length that a table gets. From 1 on `wrong` names one of the call's tables, or all of them, and
/// by how much it is too long or too short. Above the limit the content's length stays.
pub fn length(wrong: u64, table: u64, tables: u64, exact: Option<u64>, given: usize) -> usize {
    let Some(exact) = exact else { return given };
    if wrong == 0 {
        return exact as usize;
    }
    let (which, how) = ((wrong - 1) % (tables + 1), (wrong - 1) / (tables + 1));
    let by = how / 2 + 1;
    match () {
        () if which != table && which != tables => exact as usize,
        () if how % 2 == 0 => (exact + by) as usize,
        () => exact.saturating_sub(by) as usize,
    }
}

/// A table with the content of the case, zeros behind it.
pub fn lent(content: &[u64], length: usize) -> Vec<u64> {
    let mut cells = content.to_vec();
    cells.resize(length, 0);
    cells
}

/// An output table before the call: a pattern that no answer is likely to be.
pub fn filled(fill: u64, length: usize) -> Vec<u64> {
    let first = fill ^ 0x5a5a_5a5a_5a5a_5a5a;
    (0..length as u64).map(|i| first.wrapping_add(i)).collect()
}

/// The lengths of the N tables of a call on one box, which all have its cells.
pub fn lengths<const N: usize>(c: &Case) -> [usize; N] {
    let (cells, given) = (settings(c).cells(), c.tables[1].len());
    std::array::from_fn(|i| length(c.u64(WRONG), i as u64, N as u64, cells, given))
}

/// The tables of a call with one table in and one out.
pub fn in_and_out(c: &Case) -> (Vec<u64>, Vec<u64>) {
    let [cells, out] = lengths(c);
    (lent(&c.tables[1], cells), filled(c.u64(FILL), out))
}

/// Makes such a call.
pub fn called(c: &Case, call: InOut) -> Answer {
    let (s, (cells, out)) = (settings(c), in_and_out(c));
    let (mut cells, mut support, mut out) =
        (Lent::new(&cells), Lent::new(s.support), Lent::new(&out));
    let (n, k, m) = (cells.len(), support.len(), out.len());
    let (total, width, degree) = (s.total, s.width, s.degree);
    let answer = unsafe { call(cells.at(), n, support.at(), k, total, width, degree, out.at(), m) };
    let outside = cells.outside() + support.outside() + out.outside();
    left(answer, out.content(), cells.content(), support.content()).outside(outside)
}

/// What such a call leaves behind.
pub fn left(answer: u32, out: Vec<u64>, cells: Vec<u64>, support: Vec<u64>) -> Answer {
    Answer::number(answer).words("output", out).words("input", cells).words("support", support)
}

/// What it has to leave behind: the inputs, and `out`.
pub fn must_leave(c: &Case, answer: u32, out: Vec<u64>) -> Answer {
    left(answer, out, in_and_out(c).0, c.tables[0].clone()).outside(0)
}

/// Some support of k variables in any order, and a total that has room for it.
pub fn support(k: u64, r: &mut Random) -> (Vec<u64>, u64) {
    let total = if r.one_in(4) { k } else { r.between(k, 20) };
    let mut all: Vec<u64> = (0..total).collect();
    (0..k as usize).for_each(|i| all.swap(i, r.between(i as u64, total - 1) as usize));
    all.truncate(k as usize);
    (all, total)
}

/// Widths 2 to 64, the ends and small ones more often.
pub fn width(r: &mut Random) -> u64 {
    match r.below(8) {
        0 => r.pick(&[2, 3, 4, 63, 64]),
        1 | 2 => r.between(2, 12),
        _ => r.between(2, 64),
    }
}

/// Variables and degree of a box of at most `most` cells.
pub fn shape(least_degree: u64, most: u64, r: &mut Random) -> (u64, u64) {
    let fits = |k: u64, degree: u64| power(degree + 1, k as usize).is_some_and(|n| n <= most);
    let most_variables = (1..=20).rev().find(|&k| fits(k, least_degree)).expect("a box");
    let mut k = r.between(1, most_variables);
    if !r.one_in(3) {
        k = k.min(r.between(1, most_variables));
    }
    let most_degree = (least_degree..=255).rev().find(|&d| fits(k, d)).expect("a degree");
    let degree = match r.below(4) {
        0 => most_degree,
        1 => r.between(least_degree, most_degree.min(least_degree.max(4))),
        _ => r.between(least_degree, most_degree),
    };
    (k, degree)
}

/// A case of one box with settings that pass, all tables but the support still to be added.
pub fn random_box(least_degree: u64, most: u64, r: &mut Random) -> Case {
    let (k, degree) = shape(least_degree, most, r);
    let (support, total) = support(k, r);
    Case::of([total, width(r), degree, 0, r.next()]).with(support)
}

/// A case of many cells: the shapes that fill the limit, or any.
pub fn large_box(r: &mut Random) -> Case {
    if r.one_in(2) {
        let most = r.pick(&[4_096, 16_384, 65_536]);
        return random_box(r.pick(&[1, 2, 3]), most, r);
    }
    let (k, degree) = r.pick(&[(2, 255), (4, 15), (8, 3), (16, 1)]);
    let (support, total) = support(k, r);
    Case::of([total, width(r), degree, 0, r.next()]).with(support)
}

/// How many cells the box of a case has.
pub fn cells(c: &Case) -> u64 {
    settings(c).cells().expect("a box within the limit")
}

/// A few cells most of the time, sometimes many.
pub fn most_cells(r: &mut Random) -> u64 {
    match r.below(64) {
        0 => 1_024,
        1..=7 => 256,
        8..=23 => 81,
        _ => 27,
    }
}

/// Coefficients: any words, or few that are not zero, or with bits up to the width alone.
pub fn coefficients(c: &Case, r: &mut Random) -> Vec<u64> {
    let kind = r.below(4);
    let cut = if r.one_in(3) { low_bits(c.u64(1)) } else { u64::MAX };
    let cell = |r: &mut Random| match kind {
        0 if !r.one_in(4) => 0,
        1 => r.next(),
        _ => r.word(),
    };
    (0..cells(c)).map(|_| cell(r) & cut).collect()
}

/// The lowest bits, all of them from 64 on.
pub fn low_bits(width: u64) -> u64 {
    if width >= 64 {
        u64::MAX
    } else {
        (1 << width) - 1
    }
}

/// Document 01's causes in its order; not every call has them all.
pub const CAUSES: [u32; 8] = [1, 2, 3, 4, 5, 7, 8, 9];

/// Lets a cause hold in a case of at least three support variables, in one of several ways. In any
/// set of causes that are applied in the order of `APPLIED` the first of document 01's order holds.
fn with_cause(c: &mut Case, cause: u32, way: u64) {
    let total = c.u64(0);
    match cause {
        8 => {
            let (k, degree) = [(3, 255), (3, 40), (17, 1), (5, 15), (8, 255), (16, 255), (20, 3)]
                [way as usize % 7];
            c.numbers[0] = total.max(k);
            c.numbers[2] = degree;
            c.tables[0] = (0..k).rev().collect();
        }
        4 => c.numbers[2] = 0,
        7 => *c.tables[0].last_mut().expect("a support") = c.tables[0][0],
        2 => c.numbers[0] = [21, 22, 255, 256, 259, 65_539, 4_294_967_295][way as usize % 7],
        5 => {
            // also indices whose low 8, 16 or 32 bits are within the range
            let large = [total, total + 1, 255, 256, 65_537, 1 << 32, u64::MAX];
            c.tables[0][1] = large[way as usize % 7].max(total);
        }
        3 => c.numbers[1] = [0, 1, 65, 66, 255, 264, 4_294_967_295][way as usize % 7],
        1 => c.tables[0].clear(),
        9 => c.numbers[WRONG] = way + 1,
        _ => unreachable!("no such cause"),
    }
}

const APPLIED: [u32; 8] = [8, 4, 7, 2, 5, 3, 1, 9];

/// Every set of the call's causes at once, in several ways, from a case that is accepted. The first
/// one in order must win, which is what the settings' refusal is held to here.
pub fn every_set_of_causes(
    base: &Case,
    causes: &[u32],
    number: fn(&Case) -> u32,
    give: &mut dyn FnMut(Case),
) {
    for way in 0..14 {
        for set in 0..1u32 << causes.len() {
            let holds = |cause: u32| {
                causes.iter().position(|&x| x == cause).is_some_and(|i| set >> i & 1 == 1)
            };
            let mut c = base.clone();
            APPLIED.iter().filter(|&&x| holds(x)).for_each(|&x| with_cause(&mut c, x, way));
            let first = causes.iter().copied().find(|&x| holds(x)).unwrap_or(0);
            assert_eq!(number(&c), first, "the first cause of {c:?}");
            give(c);
        }
    }
}

/// Spoils the settings or lengths of a random case in one or two ways.
pub fn spoil(c: &mut Case, causes: &[u32], r: &mut Random) {
    for _ in 0..r.between(1, 2) {
        let way = r.below(60);
        match r.pick(causes) {
            1 => c.tables[0].clear(),
            5 if !c.tables[0].is_empty() => {
                let (at, any) = (r.below(c.tables[0].len() as u64) as usize, r.word());
                c.tables[0][at] = r.pick(&[c.u64(0), 255, 256, 1 << 32, any]);
            }
            7 => {
                let again = c.tables[0].first().copied().unwrap_or(0);
                let times = if r.one_in(20) { 1_000 } else { 1 };
                c.tables[0].extend(vec![again; times]);
            }
            cause @ (2 | 3 | 4 | 9) => with_cause(c, cause, way),
            8 => {
                c.numbers[2] = r.between(c.u64(2), 255);
                let room = c.u64(0).min(20);
                (0..r.below(20)).for_each(|_| c.tables[0].push(r.below(room.max(1))));
                if r.one_in(2) {
                    c.tables[0] = (0..room).collect();
                }
            }
            _ => {}
        }
    }
}

/// The exponent list, or the grid point, of a cell.
pub fn digits(mut cell: u64, base: u64, k: usize) -> Vec<u64> {
    let mut next = || {
        let digit = cell % base;
        cell /= base;
        digit
    };
    (0..k).map(|_| next()).collect()
}

/// The number that a cell has in another box, where its exponents have a place there.
pub fn place(cell: usize, s: &Settings, t: &Settings) -> Option<usize> {
    let exponents = digits(cell as u64, u64::from(s.degree) + 1, s.support.len());
    let (degree, mut found) = (u64::from(t.degree), 0);
    for (&var, e) in s.support.iter().zip(exponents).filter(|&(_, e)| e > 0) {
        let i = t.support.iter().position(|&other| other == var).filter(|_| e <= degree)?;
        found += e * (degree + 1).pow(i as u32);
    }
    Some(found as usize)
}

/// The coefficients of a box in another one: each where its exponents have their place, and what has none left out.
pub fn moved(cells: &[u64], s: &Settings, t: &Settings) -> Vec<u64> {
    let mut there = vec![0; t.cells().expect("a box within the limit") as usize];
    for (cell, &coefficient) in cells.iter().enumerate() {
        if let Some(place) = place(cell, s, t) {
            there[place] = coefficient;
        }
    }
    there
}

/// The twos in the factorials of a cell's exponents.
pub fn twos_of_cells(degree: u8, k: usize) -> Vec<u32> {
    let twos = |e: u64| (1..=e).map(|i| i.trailing_zeros()).sum::<u32>();
    let line: Vec<u32> = (0..=u64::from(degree)).map(twos).collect();
    let mut found = vec![0];
    for _ in 0..k {
        found = line.iter().flat_map(|q| found.iter().map(move |p| p + q)).collect();
    }
    found
}

/// What a coefficient is multiplied by. A box of Newton's differences has the binomials' values.
#[derive(Clone, Copy)]
pub enum Basis {
    Falling,
    Powers,
    Binomials,
}

pub const SIDE: usize = 256;

/// Row x, column e, modulo 2^64, for x and e to 255.
pub fn factors(basis: Basis) -> &'static [u64] {
    static TABLES: OnceLock<[Vec<u64>; 3]> = OnceLock::new();
    let [falling, powers, binomials] = TABLES.get_or_init(|| {
        let mut tables = [(); 3].map(|()| vec![0u64; SIDE * SIDE]);
        for x in 0..SIDE {
            tables.iter_mut().for_each(|t| t[x * SIDE] = 1);
            for e in 1..SIDE {
                let (here, before) = (x * SIDE + e, x * SIDE + e - 1);
                let less = (x as u64).wrapping_sub(e as u64 - 1);
                tables[0][here] = tables[0][before].wrapping_mul(less);
                tables[1][here] = tables[1][before].wrapping_mul(x as u64);
                if x > 0 {
                    let above = &tables[2][(x - 1) * SIDE..];
                    tables[2][here] = above[e - 1].wrapping_add(above[e]);
                }
            }
        }
        tables
    });
    match basis {
        Basis::Falling => falling,
        Basis::Powers => powers,
        Basis::Binomials => binomials,
    }
}

/// The values of a box at all points of its grid, modulo 2^64.
pub fn on_grid(cells: &[u64], degree: u8, k: usize, basis: Basis) -> Vec<u64> {
    let factors = factors(basis);
    along_each(cells, degree, k, |_, x| &factors[x * SIDE..])
}

/// A table transformed variable by variable, modulo 2^64: along each, place x of a line gets the sum of the line's entries, each
/// times its factor in the row of this variable and place.
pub fn along_each<'a>(cells: &[u64], degree: u8, k: usize, row: impl Fn(usize, usize) -> &'a [u64]) -> Vec<u64> {
    let base = usize::from(degree) + 1;
    let (mut now, mut stride) = (cells.to_vec(), 1);
    for variable in 0..k {
        let at = |i: usize| {
            let x = i / stride % base;
            let (start, row) = (i - x * stride, row(variable, x));
            let term = |e: usize| now[start + e * stride].wrapping_mul(row[e]);
            (0..base).fold(0u64, |sum, e| sum.wrapping_add(term(e)))
        };
        now = (0..now.len()).map(at).collect();
        stride *= base;
    }
    now
}
