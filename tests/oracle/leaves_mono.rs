//! Leaves of `mono.rs`. A key crosses as a table of 20 bytes. The Rust's asserts are refusal 11; a
//! key table of another length is refusal 9; 11 comes before 9.

use crate::group::{Answer, Case, Group, Lent, Source, UNSET};
use crate::ir::{MonomialKey, MAX_POLY_VARS};
use crate::library as ours;
use crate::random::Random;

pub const GROUPS: [&Group; 7] = [
    &FROM_EXPONENTS,
    &TO_EXPONENTS,
    &EXPONENT_AT,
    &WITH_EXPONENT,
    &TOTAL_DEGREE,
    &MAX_DEGREE,
    &V2_FACTORIAL_WEIGHT,
];

const KEY: u64 = MAX_POLY_VARS as u64;

/// Lengths around that of a key.
const LENGTHS: [u64; 9] = [0, 1, 2, 10, 19, KEY, 21, 22, 40];

/// Bytes that differ from place to place and from pattern to pattern.
fn pattern(len: u64, kind: u64) -> Vec<u64> {
    let byte = |i: u64| match kind {
        0 => 0,
        1 => 255,
        2 => (i + 1) % 256,
        3 => 255 - i % 256,
        4 => 1 << (i % 8),
        kind => u64::from(i == kind - 5) * 255,
    };
    (0..len).map(byte).collect()
}

fn random_length(r: &mut Random) -> u64 {
    match r.below(12) {
        0 => r.below(45),
        1 => r.pick(&[19, 21]),
        _ => KEY,
    }
}

/// An index or a count: mostly within the key, sometimes at its end or anywhere.
fn random_place(r: &mut Random) -> u64 {
    match r.below(8) {
        0 => r.pick(&[19, 20, 21]),
        1 => r.below(256),
        _ => r.below(21),
    }
}

/// The key of a table of 20 bytes.
fn key_of(bytes: &[u8]) -> MonomialKey {
    MonomialKey { exponents: bytes.try_into().expect("twenty exponents") }
}

/// 11 where an assert of the Rust fails, 9 where the key's table has another length, else 0.
fn refusal(asserted: bool, key: &[u8]) -> u32 {
    match () {
        () if !asserted => 11,
        () if key.len() != MAX_POLY_VARS => 9,
        () => 0,
    }
}

fn source(refusal: u32) -> Source {
    if refusal == 0 {
        Source::Rust
    } else {
        Source::Document
    }
}

const FROM_EXPONENTS: Group = Group {
    name: "key_from_exponents",
    names: &["num_vars", "exps", "key"],
    small: two_tables,
    random: Some(random_two_tables),
    cost: 1,
    judged: |c| {
        let (mut exps, mut key) = (Lent::new(&c.bytes(0)), Lent::new(&c.bytes(1)));
        let (exps_len, key_len) = (exps.len(), key.len());
        let answer = unsafe {
            ours::cobra_key_from_exponents(exps.at(), exps_len, c.u8(0), key.at(), key_len)
        };
        two_tables_answer(answer, &exps, &key)
    },
    expected: |c| {
        let (num_vars, exps, mut key) = (c.u8(0), c.bytes(0), c.bytes(1));
        let n = usize::from(num_vars);
        let answer = refusal(n <= MAX_POLY_VARS && exps.len() >= n, &key);
        if answer == 0 {
            key = MonomialKey::from_exponents(&exps, num_vars).exponents.to_vec();
        }
        (source(answer), two_tables_answer(answer, &Lent::new(&exps), &Lent::new(&key)))
    },
};

const TO_EXPONENTS: Group = Group {
    name: "key_to_exponents",
    names: &["num_vars", "out", "key"],
    small: two_tables,
    random: Some(random_two_tables),
    cost: 1,
    judged: |c| {
        let (mut out, mut key) = (Lent::new(&c.bytes(0)), Lent::new(&c.bytes(1)));
        let (out_len, key_len) = (out.len(), key.len());
        let answer =
            unsafe { ours::cobra_key_to_exponents(key.at(), key_len, out.at(), out_len, c.u8(0)) };
        two_tables_answer(answer, &out, &key)
    },
    expected: |c| {
        let (num_vars, mut out, key) = (c.u8(0), c.bytes(0), c.bytes(1));
        let n = usize::from(num_vars);
        let answer = refusal(n <= MAX_POLY_VARS && out.len() >= n, &key);
        if answer == 0 {
            key_of(&key).to_exponents(&mut out, num_vars);
        }
        (source(answer), two_tables_answer(answer, &Lent::new(&out), &Lent::new(&key)))
    },
};

fn two_tables_answer(answer: u32, exps: &Lent<u8>, key: &Lent<u8>) -> Answer {
    let tables = Answer::number(answer).bytes("exponents", exps.content());
    tables.bytes("key", key.content()).outside(exps.outside() + key.outside())
}

/// All counts with exponent lists of all lengths to 24, and keys of lengths around 20.
fn two_tables(give: &mut dyn FnMut(Case)) {
    for num_vars in 0..=255 {
        for exps in (0..=24).chain([num_vars, num_vars + 1]) {
            for key in LENGTHS {
                give(Case::of([num_vars]).with(pattern(exps, 2)).with(pattern(key, 3)));
            }
        }
    }
}

fn random_two_tables(r: &mut Random) -> Case {
    let num_vars = random_place(r);
    let exps = if r.one_in(2) { num_vars + r.below(3) } else { r.below(30) };
    let key = random_length(r);
    Case::of([num_vars]).with(r.bytes(exps)).with(r.bytes(key))
}

const WITH_EXPONENT: Group = Group {
    name: "key_with_exponent",
    names: &["var_index", "new_val", "key"],
    small: |give| {
        for var in 0..=255 {
            for len in 0..=41 {
                give(Case::of([var, 7]).with(pattern(len, 3)));
            }
            (0..=255).for_each(|val| give(Case::of([var, val]).with(pattern(KEY, 2))));
        }
    },
    random: Some(|r| {
        let len = random_length(r);
        Case::of([random_place(r), r.byte()]).with(r.bytes(len))
    }),
    cost: 1,
    judged: |c| {
        let mut key = Lent::new(&c.bytes(0));
        let len = key.len();
        let answer = unsafe { ours::cobra_key_with_exponent(key.at(), len, c.u8(0), c.u8(1)) };
        Answer::number(answer).bytes("key", key.content()).outside(key.outside())
    },
    expected: |c| {
        let (var, mut key) = (c.u8(0), c.bytes(0));
        let answer = refusal(usize::from(var) < MAX_POLY_VARS, &key);
        if answer == 0 {
            key = key_of(&key).with_exponent(var, c.u8(1)).exponents.to_vec();
        }
        (source(answer), Answer::number(answer).bytes("key", key).outside(0))
    },
};

const EXPONENT_AT: Group = Group {
    name: "key_exponent_at",
    names: &["var_index", "key"],
    small: one_table,
    random: Some(random_one_table),
    cost: 1,
    judged: |c| one_table_judged(c, ours::cobra_key_exponent_at),
    expected: |c| {
        let within = usize::from(c.u8(0)) < MAX_POLY_VARS;
        one_table_expected(c, within, |key| u64::from(key.exponent_at(c.u8(0))))
    },
};

const TOTAL_DEGREE: Group = Group {
    name: "key_total_degree",
    names: &["num_vars", "key"],
    small: one_table,
    random: Some(random_one_table),
    cost: 1,
    judged: |c| one_table_judged(c, ours::cobra_key_total_degree),
    expected: |c| {
        let within = usize::from(c.u8(0)) <= MAX_POLY_VARS;
        one_table_expected(c, within, |key| u64::from(key.total_degree(c.u8(0))))
    },
};

const MAX_DEGREE: Group = Group {
    name: "key_max_degree",
    names: &["num_vars", "key"],
    small: one_table,
    random: Some(random_one_table),
    cost: 1,
    judged: |c| one_table_judged(c, ours::cobra_key_max_degree),
    expected: |c| {
        let within = usize::from(c.u8(0)) <= MAX_POLY_VARS;
        one_table_expected(c, within, |key| u64::from(key.max_degree(c.u8(0))))
    },
};

const V2_FACTORIAL_WEIGHT: Group = Group {
    name: "key_v2_factorial_weight",
    names: &["num_vars", "key"],
    small: one_table,
    random: Some(random_one_table),
    cost: 1,
    judged: |c| one_table_judged(c, ours::cobra_key_v2_factorial_weight),
    expected: |c| {
        let within = usize::from(c.u8(0)) <= MAX_POLY_VARS;
        one_table_expected(c, within, |key| u64::from(key.v2_factorial_weight(c.u8(0))))
    },
};

/// All places with keys of all lengths to 41, and with 25 keys of the right length.
fn one_table(give: &mut dyn FnMut(Case)) {
    for place in 0..=255 {
        (0..=41).for_each(|len| give(Case::of([place]).with(pattern(len, 2))));
        (0..25).for_each(|kind| give(Case::of([place]).with(pattern(KEY, kind))));
    }
}

fn random_one_table(r: &mut Random) -> Case {
    let len = random_length(r);
    Case::of([random_place(r)]).with(r.bytes(len))
}

fn one_table_judged(
    c: &Case,
    call: unsafe extern "C" fn(*const u8, usize, u8, *mut u64) -> u32,
) -> Answer {
    let (mut key, mut value) = (Lent::new(&c.bytes(0)), UNSET);
    let len = key.len();
    let answer = unsafe { call(key.at(), len, c.u8(0), &mut value) };
    let answer = Answer::number(answer).and_value(value);
    answer.bytes("key", key.content()).outside(key.outside())
}

fn one_table_expected(
    c: &Case,
    within: bool,
    value: impl FnOnce(MonomialKey) -> u64,
) -> (Source, Answer) {
    let key = c.bytes(0);
    let answer = refusal(within, &key);
    let value = if answer == 0 { value(key_of(&key)) } else { 0 };
    (source(answer), Answer::number(answer).and_value(value).bytes("key", key).outside(0))
}
