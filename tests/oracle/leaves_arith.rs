//! Leaves of `arith.rs`: total functions, so every answer expected is the Rust's.

use crate::core::arith;
use crate::group::{Answer, Case, Group, Source};
use crate::library as ours;
use crate::random::{all_widths, corner_words, few_words, Random};

pub const GROUPS: [&Group; 6] = [&WRAPPING_MUL, &BITMASK, &MOD_ADD, &MOD_SUB, &MOD_MUL, &MOD_NEG];

const WORDS_AND_WIDTH: &[&str] = &["a", "b", "width"];

fn rust(value: u64) -> (Source, Answer) {
    (Source::Rust, Answer::value(value))
}

const WRAPPING_MUL: Group = Group {
    name: "wrapping_mul",
    names: &["a", "b"],
    small: |give| {
        for &a in &corner_words() {
            corner_words().iter().for_each(|&b| give(Case::of([a, b])));
        }
    },
    random: Some(|r| Case::of([r.word(), r.word()])),
    cost: 1,
    judged: |c| Answer::value(unsafe { ours::cobra_wrapping_mul(c.u64(0), c.u64(1)) }),
    expected: |c| rust(c.u64(0).wrapping_mul(c.u64(1))),
};

const BITMASK: Group = Group {
    name: "bitmask",
    names: &["width"],
    small: |give| (0..=300).chain(all_widths()).for_each(|w| give(Case::of([w]))),
    random: Some(|r| Case::of([r.number()])),
    cost: 1,
    judged: |c| Answer::value(unsafe { ours::cobra_bitmask(c.u32(0)) }),
    expected: |c| rust(arith::bitmask(c.u32(0))),
};

fn pairs_at_all_widths(give: &mut dyn FnMut(Case)) {
    for &width in &all_widths() {
        for &a in &few_words() {
            few_words().iter().for_each(|&b| give(Case::of([a, b, width])));
        }
    }
}

fn random_pair(r: &mut Random) -> Case {
    Case::of([r.word(), r.word(), r.width()])
}

const MOD_ADD: Group = Group {
    name: "mod_add",
    names: WORDS_AND_WIDTH,
    small: pairs_at_all_widths,
    random: Some(random_pair),
    cost: 1,
    judged: |c| Answer::value(unsafe { ours::cobra_mod_add(c.u64(0), c.u64(1), c.u32(2)) }),
    expected: |c| rust(arith::mod_add(c.u64(0), c.u64(1), c.u32(2))),
};

const MOD_SUB: Group = Group {
    name: "mod_sub",
    names: WORDS_AND_WIDTH,
    small: pairs_at_all_widths,
    random: Some(random_pair),
    cost: 1,
    judged: |c| Answer::value(unsafe { ours::cobra_mod_sub(c.u64(0), c.u64(1), c.u32(2)) }),
    expected: |c| rust(arith::mod_sub(c.u64(0), c.u64(1), c.u32(2))),
};

pub const MOD_MUL: Group = Group {
    name: "mod_mul",
    names: WORDS_AND_WIDTH,
    small: pairs_at_all_widths,
    random: Some(random_pair),
    cost: 1,
    judged: |c| Answer::value(unsafe { ours::cobra_mod_mul(c.u64(0), c.u64(1), c.u32(2)) }),
    expected: |c| rust(arith::mod_mul(c.u64(0), c.u64(1), c.u32(2))),
};

const MOD_NEG: Group = Group {
    name: "mod_neg",
    names: &["a", "width"],
    small: |give| {
        for &width in &all_widths() {
            corner_words().iter().for_each(|&a| give(Case::of([a, width])));
        }
    },
    random: Some(|r| Case::of([r.word(), r.width()])),
    cost: 1,
    judged: |c| Answer::value(unsafe { ours::cobra_mod_neg(c.u64(0), c.u32(1)) }),
    expected: |c| rust(arith::mod_neg(c.u64(0), c.u32(1))),
};
