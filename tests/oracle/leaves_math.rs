//! Leaves of `math_utils.rs`. Outside document 01's ranges the Rust panics, does not end or answers
//! out of range: there refusal 11, or 9 for a table's length, is expected and the Rust isn't called.

use crate::group::{Answer, Case, Group, Lent, Source, UNSET};
use crate::ir::math_utils as rust;
use crate::library as ours;
use crate::random::{all_widths, corner_words, few_words, Random, CORNER_NUMBERS};

pub const GROUPS: [&Group; 7] = [
    &TWOS_IN_FACTORIAL,
    &PRECISION_BITS,
    &DEGREE_CAP,
    &ODD_PART_FACTORIAL,
    &MOD_INVERSE_ODD,
    &STIRLING_SECOND_KIND,
    &STIRLING_FIRST_KIND,
];

const TWOS_IN_FACTORIAL: Group = Group {
    name: "twos_in_factorial",
    names: &["k"],
    small: |give| (0..=70_000).chain(CORNER_NUMBERS).for_each(|k| give(Case::of([k]))),
    random: Some(|r| Case::of([r.word() & 0xffff_ffff])),
    cost: 1,
    judged: |c| Answer::number(unsafe { ours::cobra_twos_in_factorial(c.u32(0)) }),
    expected: |c| (Source::Rust, Answer::number(rust::twos_in_factorial(c.u32(0)))),
};

const PRECISION_BITS: Group = Group {
    name: "precision_bits",
    names: &["weight", "width"],
    small: |give| {
        for weight in (0..=300).chain(CORNER_NUMBERS) {
            all_widths().iter().for_each(|&width| give(Case::of([weight, width])));
        }
    },
    random: Some(|r| {
        let width = r.width();
        let near = width.saturating_sub(3) + r.below(7);
        let weight = if r.one_in(3) { near.min(0xffff_ffff) } else { r.number() };
        Case::of([weight, width])
    }),
    cost: 1,
    judged: |c| Answer::number(unsafe { ours::cobra_precision_bits(c.u32(0), c.u32(1)) }),
    expected: |c| {
        let bits = rust::precision_bits(c.u32(0), c.u32(1));
        (Source::Rust, Answer::number(bits.unwrap_or(0)))
    },
};

/// An answer with a value: what the Rust says within the range, refusal 11 and 0 outside.
fn ranged(within: bool, value: impl FnOnce() -> u64) -> (Source, Answer) {
    if within {
        (Source::Rust, Answer::number(0).and_value(value()))
    } else {
        (Source::Document, Answer::number(11).and_value(0))
    }
}

/// Calls the library with a place for the value.
fn valued(call: impl FnOnce(*mut u64) -> u32) -> Answer {
    let mut value = UNSET;
    let answer = call(&mut value);
    Answer::number(answer).and_value(value)
}

const DEGREE_CAP: Group = Group {
    name: "degree_cap",
    names: &["width"],
    small: |give| (0..=300).chain(all_widths()).for_each(|w| give(Case::of([w]))),
    random: Some(|r| Case::of([r.width()])),
    cost: 1,
    judged: |c| valued(|value| unsafe { ours::cobra_degree_cap(c.u32(0), value) }),
    expected: |c| {
        let width = c.u32(0);
        ranged((2..=64).contains(&width), || u64::from(rust::degree_cap(width)))
    },
};

const ODD_PART_FACTORIAL: Group = Group {
    name: "odd_part_factorial",
    names: &["k", "width"],
    small: |give| {
        for k in (0..=300).chain(CORNER_NUMBERS) {
            all_widths().iter().for_each(|&width| give(Case::of([k, width])));
        }
    },
    random: Some(|r| {
        let k = if r.one_in(4) { r.number() } else { r.below(260) };
        Case::of([k, r.width()])
    }),
    cost: 1,
    judged: |c| {
        valued(|value| unsafe { ours::cobra_odd_part_factorial(c.u32(0), c.u32(1), value) })
    },
    expected: |c| {
        let (k, width) = (c.u32(0), c.u32(1));
        let within = k <= 255 && (1..=64).contains(&width);
        ranged(within, || rust::odd_part_factorial(k, width))
    },
};

const MOD_INVERSE_ODD: Group = Group {
    name: "mod_inverse_odd",
    names: &["x", "bits"],
    small: |give| {
        for &bits in &all_widths() {
            (0..=300).for_each(|x| give(Case::of([x, bits])));
            corner_words().iter().for_each(|&x| give(Case::of([x, bits])));
        }
    },
    random: Some(|r| {
        let x = r.word();
        Case::of([if r.one_in(8) { x } else { x | 1 }, r.width()])
    }),
    cost: 1,
    judged: |c| valued(|value| unsafe { ours::cobra_mod_inverse_odd(c.u64(0), c.u32(1), value) }),
    expected: |c| {
        let (x, bits) = (c.u64(0), c.u32(1));
        ranged(x & 1 == 1 && (1..=64).contains(&bits), || rust::mod_inverse_odd(x, bits))
    },
};

const STIRLING_NAMES: &[&str] = &["degree", "width", "cells_too_many", "cells_too_few", "fill"];

const STIRLING_SECOND_KIND: Group = Group {
    name: "stirling_second_kind",
    names: STIRLING_NAMES,
    small: stirling_small,
    random: Some(stirling_random),
    cost: 1,
    judged: |c| stirling(c, ours::cobra_stirling_second_kind),
    expected: |c| stirling_expected(c, rust::build_stirling_second_kind),
};

const STIRLING_FIRST_KIND: Group = Group {
    name: "stirling_first_kind",
    names: STIRLING_NAMES,
    small: stirling_small,
    random: Some(stirling_random),
    cost: 1,
    judged: |c| stirling(c, ours::cobra_stirling_first_kind),
    expected: |c| stirling_expected(c, rust::build_stirling_first_kind),
};

/// All widths at some degrees, all degrees at some widths, then lengths beside the exact one.
fn stirling_small(give: &mut dyn FnMut(Case)) {
    for degree in [0, 1, 2, 3, 4, 5, 8, 15, 16, 33, 66, 255] {
        let widths = all_widths();
        widths.iter().for_each(|&width| give(Case::of([degree, width, 0, 0, degree + width])));
    }
    for degree in 0..=255 {
        [2, 3, 8, 32, 63, 64].iter().for_each(|&width| give(Case::of([degree, width, 0, 0, 1])));
    }
    for degree in [0, 1, 2, 3, 7, 16, 254, 255] {
        let cells = (degree + 1) * (degree + 1);
        for width in [0, 1, 2, 8, 64, 65] {
            for wrong in [1, 2, degree + 1, degree + 2, 2 * degree + 3, cells - 1, cells] {
                give(Case::of([degree, width, wrong, 0, 2]));
                give(Case::of([degree, width, 0, wrong, 2]));
            }
        }
    }
}

fn stirling_random(r: &mut Random) -> Case {
    let most = if r.one_in(200) {
        255
    } else if r.one_in(8) {
        64
    } else {
        16
    };
    let degree = r.between(0, most);
    let (mut many, mut few) = (0, 0);
    match r.below(16) {
        0 => many = r.between(1, 9),
        1 => few = r.between(1, 9),
        2 => few = r.below((degree + 1) * (degree + 1) + 2),
        _ => {}
    }
    Case::of([degree, r.width(), many, few, r.word()])
}

/// The lent table as it is before the call: as many cells as the case says, with a pattern.
fn stirling_table(c: &Case) -> Vec<u64> {
    let side = c.u64(0) + 1;
    let length = (side * side + c.u64(2)).saturating_sub(c.u64(3));
    let words = few_words();
    (0..length as usize).map(|i| words[i % words.len()] ^ c.u64(4)).collect()
}

fn stirling(c: &Case, call: unsafe extern "C" fn(u8, u32, *mut u64, usize) -> u32) -> Answer {
    let mut table = Lent::new(&stirling_table(c));
    let answer = unsafe { call(c.u8(0), c.u32(1), table.at(), table.len()) };
    Answer::number(answer).words("table", table.content()).outside(table.outside())
}

fn stirling_expected(c: &Case, build: fn(u8, u32) -> Vec<Vec<u64>>) -> (Source, Answer) {
    let (degree, width, before) = (c.u8(0), c.u32(1), stirling_table(c));
    let side = usize::from(degree) + 1;
    let (source, answer, table) = if !(2..=64).contains(&width) {
        (Source::Document, 11, before)
    } else if before.len() != side * side {
        (Source::Document, 9, before)
    } else {
        (Source::Rust, 0, build(degree, width).concat())
    };
    (source, Answer::number(answer).words("table", table).outside(0))
}
