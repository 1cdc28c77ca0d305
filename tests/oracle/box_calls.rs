//! is_valid, value, sum and reduction. The Rust has is_valid; the others are document 01's definitions, computed here cell by
//! cell.

use crate::boxes::{
    coefficients, every_set_of_causes, filled, large_box, left, length, lengths, lent, low_bits,
    most_cells, random_box, settings, spoil, twos_of_cells, NUMBERS,
};
use crate::bytes::{self, beside, LIMIT};
use crate::definitions::{falling, value};
use crate::group::{Answer, Case, Group, Lent, Source, UNSET};
use crate::library_boxes::poly as ours;
use crate::random::Random;
use crate::reference as rust;
use crate::settings::Settings;

/// Each group with whether the library has its call.
pub const GROUPS: [(&Group, bool); 4] = [
    (&IS_VALID, cfg!(cobra_box_is_valid)),
    (&VALUE, cfg!(all(cobra_box_value, cobra_value))),
    (&SUM, cfg!(cobra_box_sum)),
    (&REDUCE, cfg!(cobra_reduce)),
];

/// Without degree 0, which recovery alone refuses.
pub const PLAIN: [u32; 7] = [1, 2, 3, 5, 7, 8, 9];
/// is_valid says no to a bad width and goes on.
const WIDTHLESS: [u32; 6] = [1, 2, 5, 7, 8, 9];

/// A case that all calls of one box accept, with causes' room: three variables in mixed order.
pub fn accepted(width: u64, tables: usize) -> Case {
    let mut c = Case::of([5, width, 2, 0, 0]).with(vec![3, 0, 2]);
    (0..tables).for_each(|i| c.tables.push((i as u64..27).collect()));
    c
}

/// Boxes above the limit with tables of just their length.
pub fn above_the_limit(tables: usize, give: &mut dyn FnMut(Case)) {
    for (k, degree, cells) in [(3, 40, 68_921), (17, 1, 131_072), (2, 255, 65_536)] {
        let mut c = Case::of([20, 8, degree, 0, 0]).with((0..k).collect());
        (0..tables).for_each(|_| c.tables.push(vec![1; cells]));
        give(c);
    }
}

/// Small boxes, and large ones now and then.
pub fn any_box(r: &mut Random) -> Case {
    if r.one_in(400) {
        large_box(r)
    } else {
        let (least_degree, most) = (r.pick(&[0, 1, 2, 2]), most_cells(r));
        random_box(least_degree, most, r)
    }
}

fn with_value(answer: u32, value: u64, cells: Vec<u64>, support: Vec<u64>) -> Answer {
    let said = Answer::number(answer).and_value(value);
    said.words("coefficients", cells).words("support", support)
}

const IS_VALID: Group = Group {
    name: "box_is_valid",
    names: &[NUMBERS[0], NUMBERS[1], NUMBERS[2], NUMBERS[3], NUMBERS[4], "support", "coefficients"],
    small: |give| {
        for width in [8, 0, 1, 65, 4_294_967_295] {
            every_set_of_causes(&accepted(width, 1), &WIDTHLESS, valid_number, give);
        }
        above_the_limit(1, give);
        // each cell of some boxes at its bound, below it and above it
        for width in (0..=70).chain([255, 4_294_967_295]) {
            for (k, degree) in [(1u64, 66), (2, 4), (3, 2)] {
                let base = Case::of([20, width, degree, 0, 0]).with((0..k).rev().collect());
                let twos = twos_of_cells(degree as u8, k as usize);
                for (cell, &q) in twos.iter().enumerate() {
                    let bound = low_bits(width.saturating_sub(u64::from(q)));
                    for coefficient in [bound.wrapping_sub(1), bound, bound.wrapping_add(1)] {
                        let mut cells = vec![0; twos.len()];
                        cells[cell] = coefficient;
                        give(base.clone().with(cells));
                    }
                }
            }
        }
    },
    random: Some(|r| {
        let mut c = any_box(r);
        let s = settings(&c);
        let mut cells: Vec<u64> = twos_of_cells(s.degree, s.support.len())
            .iter()
            .map(|&q| low_bits(c.u64(1).saturating_sub(u64::from(q))))
            .map(|bound| if r.one_in(3) { bound } else { r.word() & bound })
            .collect();
        if r.one_in(2) {
            let cell = r.below(cells.len() as u64) as usize;
            cells[cell] = if r.one_in(2) { r.word() } else { cells[cell].wrapping_add(1) };
        }
        c.tables.push(cells);
        match r.below(8) {
            0 => spoil(&mut c, &WIDTHLESS, r),
            1 => spoil(&mut c, &[3], r),
            2 => spoil(&mut c, &PLAIN, r),
            _ => {}
        }
        c
    }),
    cost: 1,
    judged: |c| {
        let (s, cells) = (settings(c), one_table(c));
        let (mut cells, mut support, mut value) = (Lent::new(&cells), Lent::new(s.support), UNSET);
        let (n, k) = (cells.len(), support.len());
        let (at, on) = (cells.at(), support.at());
        let answer = unsafe {
            ours::cobra_box_is_valid(at, n, on, k, s.total, s.width, s.degree, &mut value)
        };
        let outside = cells.outside() + support.outside();
        with_value(answer, value, cells.content(), support.content()).outside(outside)
    },
    expected: |c| {
        let (s, cells) = (settings(c), one_table(c));
        let number = valid_number(c);
        let (from, value) = match number {
            0 => (Source::Rust, u64::from(rust::is_valid(&cells, &s))),
            _ => (Source::Document, 0),
        };
        (from, with_value(number, value, cells, s.support.to_vec()).outside(0))
    },
};

/// The table of a call on one box.
pub fn one_table(c: &Case) -> Vec<u64> {
    let [cells] = lengths(c);
    lent(&c.tables[1], cells)
}

/// The refusal, where any width passes.
fn valid_number(c: &Case) -> u32 {
    let s = Settings { width: 8, ..settings(c) };
    s.refusal(false, &lengths::<1>(c)).unwrap_or(0)
}

const VALUE: Group = Group {
    name: "box_value",
    names: &[
        NUMBERS[0],
        NUMBERS[1],
        NUMBERS[2],
        NUMBERS[3],
        NUMBERS[4],
        "support",
        "coefficients",
        "point",
    ],
    small: |give| {
        let with_point = |mut c: Case| {
            c.tables[2] = vec![1, 2, 3];
            c
        };
        every_set_of_causes(&with_point(accepted(8, 2)), &PLAIN, value_number, give);
        above_the_limit(2, &mut |c| give(with_point(c)));
        // one coefficient at a time: each product of falling factorials by itself
        for width in [2, 3, 8, 33, 63, 64] {
            for x in (0..=9).chain([255, 256, 1 << 63, u64::MAX - 1, u64::MAX]) {
                for e in 0..=9 {
                    let mut cells = vec![0; 10];
                    cells[e] = u64::MAX;
                    let line = Case::of([1, width, 9, 0, 0]).with(vec![0]);
                    give(line.with(cells.clone()).with(vec![x]));
                }
            }
        }
    },
    random: Some(|r| {
        let mut c = any_box(r);
        c.tables.push(coefficients(&c, r));
        let k = c.tables[0].len() as u64;
        let small = r.one_in(3);
        let coordinate = |r: &mut Random| if small { r.below(300) } else { r.word() };
        c.tables.push((0..k).map(|_| coordinate(r)).collect());
        if r.one_in(8) {
            spoil(&mut c, &PLAIN, r);
        }
        c
    }),
    cost: 1,
    judged: |c| {
        let (s, (cells, point)) = (settings(c), value_tables(c));
        let (mut cells, mut support, mut point, mut value) =
            (Lent::new(&cells), Lent::new(s.support), Lent::new(&point), UNSET);
        let (n, k, m) = (cells.len(), support.len(), point.len());
        let (cell, on, at) = (cells.at(), support.at(), point.at());
        let answer = unsafe {
            ours::cobra_box_value(cell, n, on, k, s.total, s.width, s.degree, at, m, &mut value)
        };
        let outside = cells.outside() + support.outside() + point.outside();
        let said = with_value(answer, value, cells.content(), support.content());
        let above = matches!(value_number(c), 0 | 9) && s.cells() > Some(LIMIT);
        let large = above.then(|| value_left(c, 8, 0));
        let words = said.words("point", point.content()).outside(outside);
        beside(words, value_by_bytes(c), large)
    },
    expected: |c| {
        let (s, (cells, point)) = (settings(c), value_tables(c));
        let number = value_number(c);
        let value = if number == 0 { value(&cells, &s, &point, falling) } else { 0 };
        (Source::Document, value_left(c, number, value))
    },
};

/// What a call has to leave behind that says this.
fn value_left(c: &Case, number: u32, value: u64) -> Answer {
    let (s, (cells, point)) = (settings(c), value_tables(c));
    let said = with_value(number, value, cells, s.support.to_vec());
    said.words("point", point).outside(0)
}

/// The call on bytes.
fn value_by_bytes(c: &Case) -> Answer {
    let (cells, point) = value_tables(c);
    let (answer, value, [cells, support, point], outside) = bytes::value(&cells, &settings(c), &point);
    with_value(answer, value, cells, support).words("point", point).outside(outside)
}

fn value_tables(c: &Case) -> (Vec<u64>, Vec<u64>) {
    let ([cells, _], coordinates) = (lengths::<2>(c), settings(c).support.len());
    let point = length(c.u64(3), 1, 2, Some(coordinates as u64), 0);
    (lent(&c.tables[1], cells), lent(&c.tables[2], point))
}

fn value_number(c: &Case) -> u32 {
    let (s, (cells, point)) = (settings(c), value_tables(c));
    let lengths = [(cells.len(), s.cells()), (point.len(), Some(s.support.len() as u64))];
    s.guard(false).or_else(|| s.added(s.cells(), &lengths)).unwrap_or(0)
}

const SUM: Group = Group {
    name: "box_sum",
    names: &[NUMBERS[0], NUMBERS[1], NUMBERS[2], NUMBERS[3], NUMBERS[4], "support", "a", "b"],
    small: |give| {
        every_set_of_causes(&accepted(8, 2), &PLAIN, sum_number, give);
        above_the_limit(2, give);
        // sums that carry out of each cell's bits
        for width in 2..=64 {
            for (k, degree) in [(1u64, 66), (2, 4), (4, 1)] {
                let base = Case::of([20, width, degree, 0, 7]).with((0..k).rev().collect());
                let cells = twos_of_cells(degree as u8, k as usize).len();
                give(base.clone().with(vec![u64::MAX; cells]).with(vec![1; cells]));
                give(base.with(vec![u64::MAX; cells]).with(vec![u64::MAX; cells]));
            }
        }
    },
    random: Some(|r| {
        let mut c = any_box(r);
        c.tables.push(coefficients(&c, r));
        c.tables.push(coefficients(&c, r));
        if r.one_in(8) {
            spoil(&mut c, &PLAIN, r);
        }
        c
    }),
    cost: 1,
    judged: |c| {
        let (s, [a, b, out]) = (settings(c), sum_tables(c));
        let (mut a, mut b, mut out) = (Lent::new(&a), Lent::new(&b), Lent::new(&out));
        let mut support = Lent::new(s.support);
        let (an, bn, on, k) = (a.len(), b.len(), out.len(), support.len());
        let (total, width, degree) = (s.total, s.width, s.degree);
        let (a_at, b_at, out_at, at) = (a.at(), b.at(), out.at(), support.at());
        let answer = unsafe {
            ours::cobra_box_sum(a_at, an, b_at, bn, at, k, total, width, degree, out_at, on)
        };
        let outside = a.outside() + b.outside() + out.outside() + support.outside();
        let said = left(answer, out.content(), a.content(), support.content());
        said.words("second input", b.content()).outside(outside)
    },
    expected: |c| {
        let (s, [a, b, mut out]) = (settings(c), sum_tables(c));
        let number = sum_number(c);
        if number == 0 {
            let kept = |q: u32| low_bits(u64::from(s.width.saturating_sub(q)));
            let twos = twos_of_cells(s.degree, s.support.len());
            let sum = |i: usize| a[i].wrapping_add(b[i]) & kept(twos[i]);
            out = (0..out.len()).map(sum).collect();
        }
        let said = left(number, out, a, s.support.to_vec());
        (Source::Document, said.words("second input", b).outside(0))
    },
};

fn sum_tables(c: &Case) -> [Vec<u64>; 3] {
    let [a, b, out] = lengths(c);
    [lent(&c.tables[1], a), lent(&c.tables[2], b), filled(c.u64(4), out)]
}

fn sum_number(c: &Case) -> u32 {
    settings(c).refusal(false, &lengths::<3>(c)).unwrap_or(0)
}

const REDUCE: Group = Group {
    name: "box_reduce",
    names: &[NUMBERS[0], NUMBERS[1], NUMBERS[2], NUMBERS[3], NUMBERS[4], "support", "coefficients"],
    small: |give| {
        every_set_of_causes(&accepted(8, 1), &PLAIN, form_number, give);
        above_the_limit(1, give);
        // all bits of each cell, and one above its bound
        for width in 2..=64 {
            for (k, degree) in [(1u64, 66), (2, 4), (4, 1), (2, 15), (3, 9)] {
                let base = Case::of([20, width, degree, 0, 7]).with((0..k).rev().collect());
                let twos = twos_of_cells(degree as u8, k as usize);
                let bound = |&q: &u32| low_bits(width.saturating_sub(u64::from(q))).wrapping_add(1);
                give(base.clone().with(vec![u64::MAX; twos.len()]));
                give(base.with(twos.iter().map(bound).collect()));
            }
        }
    },
    random: Some(|r| {
        let mut c = any_box(r);
        c.tables.push(coefficients(&c, r));
        if r.one_in(8) {
            spoil(&mut c, &PLAIN, r);
        }
        c
    }),
    cost: 1,
    judged: |c| {
        let (s, coeffs) = (settings(c), one_table(c));
        let (mut coeffs, mut support) = (Lent::new(&coeffs), Lent::new(s.support));
        let (n, k, from, at) = (coeffs.len(), support.len(), coeffs.at(), support.at());
        let answer = unsafe { ours::cobra_reduce(from, n, at, k, s.total, s.width, s.degree) };
        let outside = coeffs.outside() + support.outside();
        let said = Answer::number(answer).words("coefficients", coeffs.content());
        said.words("support", support.content()).outside(outside)
    },
    expected: |c| {
        let (s, mut coeffs, number) = (settings(c), one_table(c), form_number(c));
        if number == 0 {
            let twos = twos_of_cells(s.degree, s.support.len());
            let kept = |q: u32| low_bits(u64::from(s.width.saturating_sub(q)));
            coeffs.iter_mut().zip(&twos).for_each(|(x, &q)| *x &= kept(q));
        }
        let said = Answer::number(number).words("coefficients", coeffs);
        (Source::Document, said.words("support", s.support.to_vec()).outside(0))
    },
};

/// The refusal of a call whose one table is the box.
pub fn form_number(c: &Case) -> u32 {
    settings(c).refusal(false, &lengths::<1>(c)).unwrap_or(0)
}
