//! Both conversions and the normal form, held to the Rust's references.

use crate::boxes::{
    called, coefficients, every_set_of_causes, in_and_out, large_box, lengths, most_cells,
    must_leave, random_box, settings, spoil, NUMBERS,
};
use crate::group::{Answer, Case, Group, Source};
use crate::library_boxes::{conversions as ours, InOut};
use crate::random::Random;
use crate::reference as rust;
use crate::settings::Settings;

/// Each group with whether the library has its calls.
pub const GROUPS: [(&Group, bool); 4] = [
    (&TO_FACTORIAL_BASIS, cfg!(cobra_to_factorial_basis)),
    (&TO_MONOMIAL_BASIS, cfg!(cobra_to_monomial_basis)),
    (&NORMALIZE_POLYNOMIAL, cfg!(cobra_normalize_polynomial)),
    (
        &LARGE_BOXES,
        cfg!(all(cobra_to_factorial_basis, cobra_to_monomial_basis, cobra_normalize_polynomial)),
    ),
];

const CAUSES: [u32; 7] = [1, 2, 3, 5, 7, 8, 9];

const NAMES: &[&str] =
    &[NUMBERS[0], NUMBERS[1], NUMBERS[2], NUMBERS[3], NUMBERS[4], "support", "coefficients"];

const TO_FACTORIAL_BASIS: Group = Group {
    name: "to_factorial_basis",
    names: NAMES,
    small,
    random: Some(random),
    cost: 1,
    judged: |c| called(c, ours::cobra_to_factorial_basis),
    expected: |c| expected(c, rust::to_falling),
};

const TO_MONOMIAL_BASIS: Group = Group {
    name: "to_monomial_basis",
    names: NAMES,
    small,
    random: Some(random),
    cost: 1,
    judged: |c| called(c, ours::cobra_to_monomial_basis),
    expected: |c| expected(c, rust::to_powers),
};

const NORMALIZE_POLYNOMIAL: Group = Group {
    name: "normalize_polynomial",
    names: NAMES,
    small,
    random: Some(random),
    cost: 1,
    judged: |c| called(c, ours::cobra_normalize_polynomial),
    expected: |c| expected(c, rust::normal_form),
};

/// All three on boxes to the limit.
const LARGE_BOXES: Group = Group {
    name: "conversions, large boxes",
    names: &[
        NUMBERS[0],
        NUMBERS[1],
        NUMBERS[2],
        NUMBERS[3],
        NUMBERS[4],
        "call",
        "support",
        "coefficients",
    ],
    small: |_| {},
    random: Some(|r| {
        let mut c = large_box(r);
        c.tables.push(coefficients(&c, r));
        c.numbers.push(r.below(3));
        c
    }),
    cost: 2_500,
    judged: |c| {
        let calls: [InOut; 3] = [
            ours::cobra_to_factorial_basis,
            ours::cobra_to_monomial_basis,
            ours::cobra_normalize_polynomial,
        ];
        called(c, calls[c.u64(5) as usize % 3])
    },
    expected: |c| {
        let references = [rust::to_falling, rust::to_powers, rust::normal_form];
        expected(c, references[c.u64(5) as usize % 3])
    },
};

/// Sets of causes; every box of some small settings.
fn small(give: &mut dyn FnMut(Case)) {
    let accepted = Case::of([5, 8, 2, 0, 0]).with(vec![3, 0, 2]).with((0..27).collect());
    every_set_of_causes(&accepted, &CAUSES, number, give);
    for (k, degree, cells) in [(3, 40, 68_921), (17, 1, 131_072)] {
        give(Case::of([20, 8, degree, 0, 0]).with((0..k).collect()).with(vec![1; cells]));
    }
    for (k, degree) in [(1, 0), (3, 0), (20, 0), (1, 1), (1, 2), (2, 1), (1, 3), (1, 4)] {
        let cells = (0..k).fold(1, |n, _| n * (degree + 1)) as u32;
        for width in [2u64, 3] {
            let boxes = 1u64 << (width as u32 * cells);
            for number in (0..boxes).take_while(|_| boxes <= 5_000) {
                let cell = |i: u32| number >> (width as u32 * i) & ((1 << width) - 1);
                let case = Case::of([k, width, degree, 0, number]).with((0..k).rev().collect());
                give(case.with((0..cells).map(cell).collect()));
            }
        }
    }
    // single powers to the highest degree, whose Stirling numbers are large
    for degree in [5, 16, 34, 66, 67, 255] {
        for width in [2, 8, 31, 64] {
            let mut cells = vec![0; degree as usize + 1];
            cells[degree as usize] = 1;
            give(Case::of([1, width, degree, 0, 0]).with(vec![0]).with(cells));
        }
    }
}

fn random(r: &mut Random) -> Case {
    let (least_degree, most) = (r.pick(&[0, 1, 2, 2, 2, 2]), most_cells(r).min(256));
    let mut c = random_box(least_degree, most, r);
    let mut cells = coefficients(&c, r);
    if r.one_in(8) {
        no_exponent_above_1(&mut cells, &settings(&c));
    }
    c.tables.push(cells);
    if r.one_in(8) {
        spoil(&mut c, &CAUSES, r);
    }
    c
}

fn above_1(cell: usize, s: &Settings) -> bool {
    let base = usize::from(s.degree) + 1;
    let mut rest = cell;
    (0..s.support.len()).any(|_| {
        let e = rest % base;
        rest /= base;
        e > 1
    })
}

fn no_exponent_above_1(cells: &mut [u64], s: &Settings) {
    for (cell, coefficient) in cells.iter_mut().enumerate() {
        if above_1(cell, s) {
            *coefficient = 0;
        }
    }
}

fn number(c: &Case) -> u32 {
    settings(c).refusal(false, &lengths::<2>(c)).unwrap_or(0)
}

/// The Rust's answer modulo 2^width. With no exponent above 1 its conversions return their input
/// unmasked: docs/DIFFERENCES.md, "conversions with highest exponent at most 1".
fn expected(
    c: &Case,
    reference: fn(&[u64], &Settings) -> Result<Vec<u64>, u32>,
) -> (Source, Answer) {
    let (s, (cells, out)) = (settings(c), in_and_out(c));
    let refusal = number(c);
    if refusal != 0 {
        return (Source::Document, must_leave(c, refusal, out));
    }
    let rust = reference(&cells, &s).expect("settings that pass");
    let reduced = rust::reduced(&rust, s.width);
    if rust == reduced {
        return (Source::Rust, must_leave(c, 0, reduced));
    }
    let high = cells.iter().enumerate().any(|(cell, &x)| x != 0 && above_1(cell, &s));
    assert!(!high, "the Rust returns bits above the width although an exponent is above 1");
    (Source::Document, must_leave(c, 0, reduced))
}
