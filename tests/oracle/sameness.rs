//! Sameness of two forms: a yes exactly when totals and widths are equal and both have equal values modulo 2^width at every
//! whole-number point. Support, its order and the degrees may differ; a box that is no normal form counts as the polynomial in
//! falling factorials that it holds. Several judges say what is right, and the run ends where they disagree: the definition,
//! coefficient by coefficient; the Rust's normal forms of both, and its equality of the forms as they are where they are
//! normal; for small forms the values themselves.

use crate::box_calls::{above_the_limit, accepted, form_number, one_table, PLAIN};
use crate::boxes::{
    cells, coefficients, digits, every_set_of_causes, factors, low_bits, most_cells, moved, place, random_box, settings,
    spoil, twos_of_cells, width, Basis, SIDE,
};
use crate::definitions::{self, below_the_bound, matched};
use crate::group::{Answer, Case, Group, Lent, Source, UNSET};
use crate::library_boxes::poly as ours;
use crate::random::Random;
use crate::reference as rust;
use crate::settings::{power, Settings};
use std::mem::{swap, take};

/// Each group with whether the library has its call.
pub const GROUPS: [(&Group, bool); 3] = [
    (&SAME, cfg!(cobra_box_same)),
    (&SMALL_FORMS, cfg!(cobra_box_same)),
    (&LARGE_FORMS, cfg!(cobra_box_same)),
];

const NAMES: &[&str] = &[
    "a_total",
    "a_width",
    "a_degree",
    "a_wrong_length",
    "b_total",
    "b_width",
    "b_degree",
    "b_wrong_length",
    "a_support",
    "a",
    "b_support",
    "b",
];

const SAME: Group = Group {
    name: "box_same",
    names: NAMES,
    small: |give| {
        let base = accepted(8, 1);
        let mut spoilt = Vec::new();
        every_set_of_causes(&base, &PLAIN, form_number, &mut |c| spoilt.push(c));
        let pairs = |c: &Case| c.u64(3) < 2 && c.tables[0].len() < 4;
        for c in &spoilt {
            give(together(&[c, &base]));
            give(together(&[&base, c]));
        }
        // a cause in each form: the first form's wins
        for a in PLAIN.iter().enumerate().map(|(i, _)| &spoilt[1 << i]) {
            spoilt.iter().filter(|b| pairs(b)).for_each(|b| give(together(&[a, b])));
        }
        above_the_limit(1, &mut |c| give(together(&[&c, &c])));
        every_pair_of_settings(give);
        at_every_bound(give);
    },
    random: Some(|r| {
        let (least_degree, most) = (r.pick(&[0, 1, 2, 2]), most_cells(r));
        let mut a = random_box(least_degree, most, r);
        a.tables.push(coefficients(&a, r));
        let mut b = if r.one_in(4) {
            let mut b = a.clone();
            (0..r.below(3)).for_each(|_| change(&mut b, r));
            b
        } else {
            let other = other_box(&a, r);
            second_form(&mut a, &other, r)
        };
        if r.one_in(2) {
            swap(&mut a, &mut b);
        }
        match r.below(12) {
            0 => spoil(&mut a, &PLAIN, r),
            1 => spoil(&mut b, &PLAIN, r),
            2 => {
                spoil(&mut a, &PLAIN, r);
                spoil(&mut b, &PLAIN, r);
            }
            _ => {}
        }
        together(&[&a, &b])
    }),
    cost: 1,
    judged,
    expected: |c| must_say(c, definition_and_rust),
};

/// The same few coefficients under all of these settings, two at a time.
fn every_pair_of_settings(give: &mut dyn FnMut(Case)) {
    let boxes: [(u64, u64, u64, &[u64]); 12] = [
        (4, 8, 3, &[0]),
        (4, 8, 3, &[1]),
        (3, 8, 3, &[0]),
        (4, 9, 3, &[0]),
        (4, 8, 1, &[0]),
        (4, 8, 1, &[0, 1]),
        (4, 8, 1, &[1, 0]),
        (4, 8, 2, &[0, 1]),
        (4, 8, 2, &[3, 0]),
        (4, 8, 0, &[0]),
        (4, 8, 0, &[0, 1, 2]),
        (4, 8, 2, &[0]),
    ];
    let contents: [&[u64]; 6] = [&[], &[5], &[1, 1], &[257, 1], &[0, 0, 1], &[0, 0, 128]];
    for content in contents {
        let forms = boxes.map(|(total, width, degree, support)| {
            Case::of([total, width, degree, 0, 0]).with(support.to_vec()).with(content.to_vec())
        });
        for a in &forms {
            forms.iter().for_each(|b| give(together(&[a, b])));
        }
    }
}

/// One coefficient at its bound and beside it, everything else being 0: against zeros in the same box, and against a box that
/// has the constant alone.
fn at_every_bound(give: &mut dyn FnMut(Case)) {
    for width in [2, 3, 8, 16, 33, 63, 64] {
        for (k, degree) in [(1u64, 66), (2, 4), (3, 2)] {
            let form = |degree: u64, support: Vec<u64>| Case::of([20, width, degree, 0, 0]).with(support);
            let zeros = form(degree, (0..k).rev().collect()).with(vec![]);
            let constant = form(0, vec![7]).with(vec![]);
            for (cell, &q) in twos_of_cells(degree as u8, k as usize).iter().enumerate() {
                let most = below_the_bound(width as u32, q);
                let highest_bit = most - (most >> 1);
                for coefficient in [highest_bit, most, most.wrapping_add(1), most.wrapping_add(2)] {
                    let mut one = zeros.clone();
                    one.tables[1] = vec![0; cell];
                    one.tables[1].push(coefficient);
                    give(together(&[&one, &zeros]));
                    give(together(&[&one, &constant]));
                    give(together(&[&constant, &one]));
                }
            }
        }
    }
}

/// Forms of one or two variables out of three at widths 2 and 3, degrees 0 to 3.
const SMALL_FORMS: Group = Group {
    name: "box_same, small forms",
    names: NAMES,
    small: |give| {
        for width in [2, 3] {
            for (a_support, b_support) in MEETINGS {
                let most = if a_support.iter().any(|var| b_support.contains(var)) { 512 } else { 64 };
                let b_forms = every_form(width, b_support, most);
                for a in every_form(width, a_support, most) {
                    b_forms.iter().for_each(|b| give(together(&[&a, b])));
                }
            }
        }
        let mut r = Random::new(1, "small forms");
        for width in [2, 3] {
            for (a_support, b_support) in SUPPORTS.iter().flat_map(|a| SUPPORTS.map(|b| (*a, b))) {
                for degrees in (0..16).map(|i| (i % 4, i / 4)) {
                    (0..DRAWN).for_each(|_| give(drawn(width, (a_support, b_support), degrees, &mut r)));
                }
            }
        }
    },
    random: Some(|r| {
        let supports = (r.pick(&SUPPORTS), r.pick(&SUPPORTS));
        let degrees = (r.below(4), r.below(4));
        drawn(r.between(2, 3), supports, degrees, r)
    }),
    cost: 1,
    judged,
    expected: |c| {
        must_say(c, |a, s, b, t| {
            let mut said = definition_and_rust(a, s, b, t);
            let settings = (s.total, s.width) == (t.total, t.width);
            said.push((Judge::Values, settings && values_to_3(a, s) == values_to_3(b, t)));
            said
        })
    },
};

/// One or two variables out of three, in any order.
const SUPPORTS: [&[u64]; 9] = [&[0], &[1], &[2], &[0, 1], &[1, 0], &[0, 2], &[2, 0], &[1, 2], &[2, 1]];

/// All ways in which two such supports can meet, but for the names of the variables.
const MEETINGS: [(&[u64], &[u64]); 14] = [
    (&[1], &[1]),
    (&[0], &[2]),
    (&[0], &[0, 1]),
    (&[2], &[0, 2]),
    (&[1], &[2, 0]),
    (&[1, 2], &[1]),
    (&[2, 1], &[1]),
    (&[0, 2], &[1]),
    (&[0, 2], &[0, 2]),
    (&[0, 1], &[1, 0]),
    (&[0, 1], &[0, 2]),
    (&[1, 2], &[0, 1]),
    (&[2, 0], &[0, 1]),
    (&[0, 2], &[1, 2]),
];

/// How many pairs are drawn of each pair of widths, supports and degrees.
const DRAWN: u64 = 40;

/// Every form with coefficients below 2^width, of each degree that has at most so many.
pub fn every_form(width: u64, support: &[u64], most: u64) -> Vec<Case> {
    let mut forms = Vec::new();
    for degree in 0..=3 {
        let cells = power(degree + 1, support.len()).expect("a small box");
        let tables = 1u64 << (width * cells).min(63);
        for number in (0..tables).take_while(|_| tables <= most) {
            let coefficient = |cell| number >> (width * cell) & low_bits(width);
            let form = Case::of([3, width, degree, 0, 0]).with(support.to_vec());
            forms.push(form.with((0..cells).map(coefficient).collect()));
        }
    }
    forms
}

/// Two forms of telling coefficients: 0, 1, the bound and its neighbours, the highest bit of the width and the one above it,
/// numbers with high bits. Mostly the second has the values of the first.
fn drawn(width: u64, supports: (&[u64], &[u64]), degrees: (u64, u64), r: &mut Random) -> Case {
    let telling = |support: &[u64], degree: u64, r: &mut Random| {
        let cell = |q: u32| {
            let bound = below_the_bound(width as u32, q) + 1;
            r.pick(&[0, 0, 1, bound - 1, bound, bound + 1, 1 << (width - 1), 1 << width, 1 << 63, u64::MAX])
        };
        let cells = twos_of_cells(degree as u8, support.len()).into_iter().map(cell).collect();
        Case::of([3, width, degree, 0, 0]).with(support.to_vec()).with(cells)
    };
    let mut a = telling(supports.0, degrees.0, r);
    let b = if r.one_in(4) {
        telling(supports.1, degrees.1, r)
    } else {
        second_form(&mut a, &(supports.1.to_vec(), degrees.1), r)
    };
    together(&[&a, &b])
}

/// The values at the points whose coordinates in all three variables are 0 to 3, modulo 2^width. They decide all others where
/// no exponent is above 3: at any whole-number point a value is the sum of Newton's differences at the origin, each times
/// binomials of the coordinates, which are whole numbers. Those of order 0 to 3 in every variable are sums and differences
/// of the values here, and those of a higher order in some variable are 0.
fn values_to_3(cells: &[u64], s: &Settings) -> Vec<u64> {
    let (base, falling) = (u64::from(s.degree) + 1, factors(Basis::Falling));
    let lists: Vec<_> = (0..cells.len() as u64).map(|cell| digits(cell, base, s.support.len())).collect();
    let value = |point: u64| {
        let factor = |(var, &e): (&u64, &u64)| falling[(point >> (2 * var) & 3) as usize * SIDE + e as usize];
        let term = |(list, &coefficient): (&Vec<u64>, &u64)| {
            s.support.iter().zip(list).map(factor).fold(coefficient, u64::wrapping_mul)
        };
        lists.iter().zip(cells).map(term).fold(0, u64::wrapping_add) & low_bits(u64::from(s.width))
    };
    (0..64).map(value).collect()
}

/// Forms of 65,536 cells and somewhat fewer: the second in the same box, with its variables in another order, or in another.
const LARGE_FORMS: Group = Group {
    name: "box_same, large forms",
    names: NAMES,
    small: |_| {},
    random: Some(|r| {
        let (k, degree) = r.pick(&LARGE);
        let (other_k, other_degree) = if r.one_in(2) { (k, degree) } else { r.pick(&LARGE) };
        let total = r.between(k.max(other_k), 20);
        let variables = shuffled(total, r);
        let first = if r.one_in(4) { r.between(0, total - other_k) } else { 0 };
        let mut other = variables[first as usize..][..other_k as usize].to_vec();
        if !r.one_in(3) {
            shuffle(&mut other, r);
        }
        let mut a = Case::of([total, width(r), degree, 0, 0]).with(variables[..k as usize].to_vec());
        a.tables.push(coefficients(&a, r));
        let mut b = second_form(&mut a, &(other, other_degree), r);
        if r.one_in(2) {
            swap(&mut a, &mut b);
        }
        together(&[&a, &b])
    }),
    cost: 400,
    judged,
    expected: |c| must_say(c, definition_and_rust),
};

/// Variables and degree.
const LARGE: [(u64, u64); 14] = [
    (16, 1),
    (8, 3),
    (4, 15),
    (2, 255),
    (16, 1),
    (8, 3),
    (4, 15),
    (2, 255),
    (15, 1),
    (10, 2),
    (6, 5),
    (5, 8),
    (3, 39),
    (2, 254),
];

fn judged(c: &Case) -> Answer {
    let (a, b) = (form(c, 0), form(c, 1));
    let (s, t) = (settings(&a), settings(&b));
    let (mut cells, mut others) = (Lent::new(&one_table(&a)), Lent::new(&one_table(&b)));
    let (mut support, mut other) = (Lent::new(s.support), Lent::new(t.support));
    let (an, bn, ak, bk) = (cells.len(), others.len(), support.len(), other.len());
    let (a_at, b_at, as_at, bs_at) = (cells.at(), others.at(), support.at(), other.at());
    let mut value = UNSET;
    let answer = unsafe {
        ours::cobra_box_same(
            a_at, an, as_at, ak, s.total, s.width, s.degree, b_at, bn, bs_at, bk, t.total, t.width, t.degree, &mut value,
        )
    };
    let outside = cells.outside() + others.outside() + support.outside() + other.outside();
    let (first, second) = (cells.content(), others.content());
    left(answer, value, first, support.content(), second, other.content()).outside(outside)
}

fn left(answer: u32, value: u64, a: Vec<u64>, a_support: Vec<u64>, b: Vec<u64>, b_support: Vec<u64>) -> Answer {
    let first = Answer::number(answer).and_truth(value).words("a", a).words("a's support", a_support);
    first.words("b", b).words("b's support", b_support)
}

/// The call on two boxes.
pub fn called(a: &[u64], s: &Settings, b: &[u64], t: &Settings, value: &mut u64) -> u32 {
    let (on, k, other_on, other_k) = (s.support.as_ptr(), s.support.len(), t.support.as_ptr(), t.support.len());
    unsafe {
        ours::cobra_box_same(
            a.as_ptr(), a.len(), on, k, s.total, s.width, s.degree,
            b.as_ptr(), b.len(), other_on, other_k, t.total, t.width, t.degree, value,
        )
    }
}

/// Its yes or no; a refusal cannot be missed.
pub fn said(a: &[u64], s: &Settings, b: &[u64], t: &Settings) -> u64 {
    let mut value = UNSET;
    match called(a, s, b, t, &mut value) {
        0 => value,
        refusal => u64::MAX - u64::from(refusal),
    }
}

/// Who says whether two forms are the same.
#[derive(Clone, Copy, Debug, PartialEq, Eq)]
enum Judge {
    Definition,
    RustNormalForms,
    RustEquality,
    Values,
}

type Judges = fn(&[u64], &Settings, &[u64], &Settings) -> Vec<(Judge, bool)>;

/// What the call has to leave behind, and whether the Rust was among the judges, which all have to say the same.
fn must_say(c: &Case, judges: Judges) -> (Source, Answer) {
    let (a, b) = (form(c, 0), form(c, 1));
    let number = match form_number(&a) {
        0 => form_number(&b),
        first => first,
    };
    let (cells, others) = (one_table(&a), one_table(&b));
    let (mut from, mut same) = (Source::Document, false);
    if number == 0 {
        let said = judges(&cells, &settings(&a), &others, &settings(&b));
        same = said[0].1;
        assert!(said.iter().all(|judge| judge.1 == same), "the judges disagree, {said:?}: {}", SAME.show(c));
        if said.iter().any(|judge| judge.0 == Judge::RustNormalForms) {
            from = Source::Rust;
        }
    }
    let (support, other) = (a.tables[0].clone(), b.tables[0].clone());
    (from, left(number, same.into(), cells, support, others, other).outside(0))
}

/// The steps of the Rust's conversions up to which it is asked.
const MOST_STEPS: u64 = 150_000;

fn definition_and_rust(a: &[u64], s: &Settings, b: &[u64], t: &Settings) -> Vec<(Judge, bool)> {
    let mut said = vec![(Judge::Definition, definitions::same(a, s, b, t))];
    if rust::steps_to_normal_form(s) + rust::steps_to_normal_form(t) <= MOST_STEPS {
        let same = rust::normal_form_of_falling(a, s) == rust::normal_form_of_falling(b, t);
        said.push((Judge::RustNormalForms, same));
        let (first, second) = (rust::form(a, s), rust::form(b, t));
        if first.is_valid() && second.is_valid() {
            said.push((Judge::RustEquality, first == second));
        }
    }
    said
}

/// One case from the cases of several forms, and each of them back.
pub fn together(forms: &[&Case]) -> Case {
    Case {
        numbers: forms.iter().flat_map(|c| &c.numbers[..4]).copied().collect(),
        tables: forms.iter().flat_map(|c| &c.tables[..2]).cloned().collect(),
    }
}

pub fn form(c: &Case, which: usize) -> Case {
    let numbers = [&c.numbers[4 * which..4 * which + 4], &[0]].concat();
    Case { numbers, tables: c.tables[2 * which..2 * which + 2].to_vec() }
}

/// Changes one setting or flips one bit, mostly so that the settings still pass.
fn change(c: &mut Case, r: &mut Random) {
    match r.below(6) {
        0 => c.numbers[0] = (c.u64(0) + 1).min(20),
        1 => c.numbers[1] = r.between(2, 64),
        2 => c.numbers[2] = c.u64(2).saturating_sub(1),
        3 => {
            let k = c.tables[0].len() as u64;
            let (i, j) = (r.below(k) as usize, r.below(k) as usize);
            c.tables[0].swap(i, j);
        }
        _ => {
            let cell = r.below(c.tables[1].len() as u64) as usize;
            c.tables[1][cell] ^= 1 << r.below(64);
        }
    }
}

/// A support and a degree.
pub type OtherBox = (Vec<u64>, u64);

/// Another box for a form: its variables in any order, some of them left out or a few more, a degree that is up to two away.
pub fn other_box(c: &Case, r: &mut Random) -> OtherBox {
    let most = cells(c).max(256);
    loop {
        let (mut support, mut degree) = (c.tables[0].clone(), c.u64(2));
        if r.one_in(2) {
            shuffle(&mut support, r);
        }
        if r.one_in(2) {
            degree = r.between(degree.saturating_sub(2), (degree + 2).min(255));
        }
        match r.below(4) {
            0 => support.truncate(r.between(1, support.len() as u64) as usize),
            1 => {
                let mut more = shuffled(c.u64(0), r);
                more.retain(|var| !support.contains(var));
                more.truncate(r.between(1, 2) as usize);
                more.into_iter().for_each(|var| support.insert(r.below(support.len() as u64 + 1) as usize, var));
            }
            _ => {}
        }
        if power(degree + 1, support.len()).is_some_and(|cells| cells <= most) {
            return (support, degree);
        }
    }
}

pub fn shuffle(list: &mut [u64], r: &mut Random) {
    (1..list.len()).rev().for_each(|i| list.swap(i, r.below(i as u64 + 1) as usize));
}

fn shuffled(total: u64, r: &mut Random) -> Vec<u64> {
    let mut all: Vec<u64> = (0..total).collect();
    shuffle(&mut all, r);
    all
}

/// A second form with the values of the first in another box; but half of the time one coefficient of either is changed, by
/// something that counts or not.
fn second_form(a: &mut Case, other: &OtherBox, r: &mut Random) -> Case {
    clear_outside(a, other);
    let mut b = in_other_box(a, other);
    spoil_above_the_bounds(a, r);
    spoil_above_the_bounds(&mut b, r);
    if r.one_in(2) {
        change_a_coefficient(if r.one_in(2) { a } else { &mut b }, r);
    }
    b
}

/// Makes a coefficient that has no place in the other box 0 modulo its bound.
pub fn clear_outside(c: &mut Case, other: &OtherBox) {
    let mut cells = take(&mut c.tables[1]);
    let (s, t) = both_settings(c, other);
    let twos = twos_of_cells(s.degree, s.support.len());
    for (cell, coefficient) in cells.iter_mut().enumerate() {
        if place(cell, &s, &t).is_none() {
            *coefficient &= !below_the_bound(s.width, twos[cell]);
        }
    }
    c.tables[1] = cells;
}

/// The form in the other box, which has a place for all that it has.
pub fn in_other_box(c: &Case, other: &OtherBox) -> Case {
    let (s, t) = both_settings(c, other);
    let cells = moved(&c.tables[1], &s, &t);
    Case::of([c.u64(0), c.u64(1), other.1, 0, 0]).with(other.0.clone()).with(cells)
}

fn both_settings<'a>(c: &'a Case, (support, degree): &'a OtherBox) -> (Settings<'a>, Settings<'a>) {
    let s = settings(c);
    (s, Settings { support, degree: *degree as u8, ..s })
}

/// Adds multiples of the bounds to some coefficients, or to none.
pub fn spoil_above_the_bounds(c: &mut Case, r: &mut Random) {
    let often = r.pick(&[1, 4, 20, u64::MAX]);
    for (coefficient, bits) in bits_that_count(c) {
        let above = !low_bits(bits);
        if r.one_in(often) {
            let lowest = above & above.wrapping_neg();
            *coefficient = coefficient.wrapping_add(if r.one_in(2) { lowest } else { r.next() & above });
        }
    }
}

/// Changes one coefficient, by a bit that counts or by one that does not; the two beside the bound more often.
pub fn change_a_coefficient(c: &mut Case, r: &mut Random) {
    let counts = !r.one_in(4);
    let mut able: Vec<_> = bits_that_count(c).filter(|&(_, bits)| if counts { bits > 0 } else { bits < 64 }).collect();
    if able.is_empty() {
        return; // at 64 bits with no exponent above 1 all bits count
    }
    let (coefficient, bits) = able.swap_remove(r.below(able.len() as u64) as usize);
    let bit = match (counts, r.one_in(2)) {
        (true, true) => bits - 1,
        (true, false) => r.below(bits),
        (false, true) => bits,
        (false, false) => r.between(bits, 63),
    };
    *coefficient ^= 1 << bit;
}

/// Each coefficient of a form with the number of its bits that count.
fn bits_that_count(c: &mut Case) -> impl Iterator<Item = (&mut u64, u64)> {
    let s = settings(c);
    let (width, twos) = (s.width, twos_of_cells(s.degree, s.support.len()));
    c.tables[1].iter_mut().zip(twos).map(move |(coefficient, q)| (coefficient, u64::from(width.saturating_sub(q))))
}

/// Statements that are close to the rule and false: the self-test has to refute each of them.
pub const REFUTED: [(&Group, bool); 5] = [
    (&READ_WHOLE, cfg!(cobra_box_same)),
    (&ALL_BITS_OF_THE_WIDTH, cfg!(cobra_box_same)),
    (&FIRST_FORM_ALONE, cfg!(cobra_box_same)),
    (&BY_PLACE, cfg!(cobra_box_same)),
    (&SAME_BOX_ALONE, cfg!(cobra_box_same)),
];

/// Coefficients are read whole.
const READ_WHOLE: Group = Group {
    name: "box_same, coefficients read whole",
    expected: |c| {
        must_say(c, |a, s, b, t| {
            let whole = |_, _| u64::MAX;
            stated(matched(a, s, b, t, whole) && matched(b, t, a, s, whole))
        })
    },
    ..SMALL_FORMS
};

/// At every cell all bits of the width count.
const ALL_BITS_OF_THE_WIDTH: Group = Group {
    name: "box_same, all bits of the width count",
    expected: |c| {
        must_say(c, |a, s, b, t| {
            let reduced = |width, _| below_the_bound(width, 0);
            stated(matched(a, s, b, t, reduced) && matched(b, t, a, s, reduced))
        })
    },
    ..SMALL_FORMS
};

/// What the second form alone has does not count.
const FIRST_FORM_ALONE: Group = Group {
    name: "box_same, exponents that the first form has",
    expected: |c| must_say(c, |a, s, b, t| stated(matched(a, s, b, t, below_the_bound))),
    ..SMALL_FORMS
};

/// A variable is known by its place in the support.
const BY_PLACE: Group = Group {
    name: "box_same, variables by their place in the support",
    expected: |c| {
        must_say(c, |a, s, b, t| {
            let [first, second] = [s, t].map(|s| (0..s.support.len() as u64).collect::<Vec<u64>>());
            stated(definitions::same(a, &Settings { support: &first, ..*s }, b, &Settings { support: &second, ..*t }))
        })
    },
    ..SMALL_FORMS
};

/// Forms in two boxes are never the same.
const SAME_BOX_ALONE: Group = Group {
    name: "box_same, one support and one degree",
    expected: |c| {
        must_say(c, |a, s, b, t| {
            stated((s.support, s.degree) == (t.support, t.degree) && definitions::same(a, s, b, t))
        })
    },
    ..SMALL_FORMS
};

fn stated(same: bool) -> Vec<(Judge, bool)> {
    vec![(Judge::Definition, same)]
}
