//! Both Stirling tables, falling products, and leaves called by pointer for a row of arguments.

use crate::core::arith;
use crate::ir::math_utils as rust;
use crate::library;
use crate::random::Random;
use crate::session::{check, run, Input, Programs, Series, Session};
use crate::shapes::WIDE;
use std::hint::black_box;

extern "C" {
    fn limit_stirling1(degree: u8, width: u32, table: *mut u64);
    fn limit_stirling2(degree: u8, width: u32, table: *mut u64);
    fn limit_falling_product(x: u64, n: u64, width: u32, factors: *mut u64) -> u64;
    fn limit_falling_products(x: u64, width: u32, table: *mut u64, len: usize) -> u64;
    fn limit_bitmask(width: u32) -> u64;
    fn limit_wrapping_mul(a: u64, b: u64) -> u64;
    fn limit_mod_add(a: u64, b: u64, width: u32) -> u64;
    fn limit_mod_sub(a: u64, b: u64, width: u32) -> u64;
    fn limit_mod_neg(a: u64, width: u32) -> u64;
    fn limit_precision_bits(weight: u32, width: u32) -> u32;
    fn limit_mod_mul(a: u64, b: u64, width: u32) -> u64;
    fn limit_mod_inverse_odd(x: u64, bits: u32) -> u64;
    fn limit_twos_in_factorial(k: u32) -> u32;
    fn limit_degree_cap(width: u32) -> u32;
    fn limit_odd_part_factorial(k: u32, width: u32) -> u64;
}

const DEGREES: [u8; 7] = [3, 7, 15, 31, 63, 127, 255];

pub fn time(session: &mut Session) {
    let kinds: [(&'static str, Kind); 2] = [
        ("stirling_second_kind", (rust::build_stirling_second_kind, limit_stirling2, library::cobra_stirling_second_kind)),
        ("stirling_first_kind", (rust::build_stirling_first_kind, limit_stirling1, library::cobra_stirling_first_kind)),
    ];
    for (call, kind) in kinds {
        DEGREES.iter().for_each(|&degree| table(session, call, kind, degree));
        let inputs = DEGREES.iter().map(|&degree| (named(degree), WIDE)).collect();
        session.series.push(Series { call, grows: "degree", steps: "d (d + 1) / 2", inputs });
    }
    FALLING.iter().for_each(|row| falling(session, row));
    FALLING_TABLES.iter().for_each(|&(length, width)| falling_table(session, length, width));
    leaves(session);
}

fn named(degree: u8) -> String {
    format!("degree {degree}")
}

type Kind = (
    fn(u8, u32) -> Vec<Vec<u64>>,
    unsafe extern "C" fn(u8, u32, *mut u64),
    unsafe extern "C" fn(u8, u32, *mut u64, usize) -> u32,
);

fn table(session: &mut Session, call: &'static str, (rust, limit, library): Kind, degree: u8) {
    let (side, width) = (usize::from(degree) + 1, WIDE);
    let size = side * side;
    let by_rust = || rust(black_box(degree), width);
    let by_limit = |out: &mut [u64]| unsafe { limit(degree, width, out.as_mut_ptr()) };
    let by_library = |out: &mut [u64]| unsafe { library(degree, width, out.as_mut_ptr(), size) };
    let (mut ours, mut plain) = (vec![1; size], vec![1; size]);
    check(by_library(&mut ours) == 0 && ours == by_rust().concat(), "the library's Stirling numbers are not the Rust's");
    by_limit(&mut plain);
    check(plain == ours, "the C's Stirling numbers are not the Rust's");
    let steps = (side * (side - 1) / 2) as u64;
    let listed = matches!(degree, 3 | 15 | 63 | 255);
    session.time(
        Input { call, shape: named(degree), size, width, steps, listed },
        Programs {
            rust: Some(&mut run(by_rust)),
            beside: None,
            c: &mut run(|| by_limit(black_box(&mut plain))),
            ours: &mut run(|| by_library(black_box(&mut ours))),
        },
    );
}

/// Falling products of many numbers: what they are, x out of any number, how many factors are asked for, the width.
type Falling = (&'static str, fn(u64) -> u64, u64, u32);

/// 60 factors have 56 twos at least and mostly fewer than 64, so that at width 64 nearly all are taken; 66 have 64 twos.
const FALLING: [Falling; 6] = [
    ("any x, 4 factors", |x| x, 4, WIDE),
    ("any x, 60 factors", |x| x, 60, WIDE),
    ("any x, 2^64 - 1 factors", |x| x, u64::MAX, WIDE),
    ("x below 16, 2^64 - 1 factors", |x| x % 16, u64::MAX, WIDE),
    ("any x, 4 factors", |x| x, 4, 8),
    ("any x, 60 factors", |x| x, 60, 8),
];

fn falling(session: &mut Session, &(what, x_of, n, width): &Falling) {
    let mut r = Random::new(1, "speed of falling products");
    let xs: Vec<u64> = (0..CALLS).map(|_| x_of(r.next())).collect();
    let all = |product: fn(u64, u64, u32) -> [u64; 2]| {
        let (product, n, width) = (black_box(product), black_box(n), black_box(width));
        xs.iter().fold([0u64; 2], |[sum, taken], &x| {
            let [value, factors] = product(x, n, width);
            [sum.wrapping_mul(3).wrapping_add(value), taken + factors]
        })
    };
    let by_limit: fn(u64, u64, u32) -> [u64; 2] = |x, n, width| {
        let mut factors = 0;
        let value = unsafe { limit_falling_product(x, n, width, &mut factors) };
        [value, factors]
    };
    let by_library: fn(u64, u64, u32) -> [u64; 2] = |x, n, width| {
        let (mut value, mut factors) = (0, 0);
        unsafe { library::cobra_falling_product(x, n, width, &mut value, &mut factors) };
        [value, factors]
    };
    let found = all(by_library);
    check(found == all(by_limit), "the library's falling products are not the C's");
    let shape = format!("{CALLS} calls, {what}");
    session.time(
        Input { call: "falling_product", shape, size: CALLS, width, steps: found[1], listed: true },
        Programs { rust: None, beside: None, c: &mut run(|| all(by_limit)), ours: &mut run(|| all(by_library)) },
    );
}

/// Entries of the table, and the width.
const FALLING_TABLES: [(usize, u32); 5] = [(4, WIDE), (16, WIDE), (66, WIDE), (256, WIDE), (256, 8)];

fn falling_table(session: &mut Session, length: usize, width: u32) {
    let x = Random::new(1, "speed of falling products").next();
    let by_limit = |out: &mut [u64]| unsafe { limit_falling_products(black_box(x), width, out.as_mut_ptr(), length) };
    let by_library = |out: &mut [u64]| {
        valued(|taken| unsafe { library::cobra_falling_products(black_box(x), width, out.as_mut_ptr(), length, taken) })
    };
    let (mut ours, mut plain) = (vec![1; length], vec![1; length]);
    let taken = by_library(&mut ours);
    check(taken == by_limit(&mut plain) && ours == plain, "the library's table of falling products is not the C's");
    session.time(
        Input { call: "falling_products", shape: "any x".into(), size: length, width, steps: taken, listed: true },
        Programs {
            rust: None,
            beside: None,
            c: &mut run(|| by_limit(black_box(&mut plain))),
            ours: &mut run(|| by_library(black_box(&mut ours))),
        },
    );
}

/// A leaf of each program as a function of two arguments and a width. Within its range the library's
/// number is 0, and its value goes through a pointer.
struct Leaf {
    call: &'static str,
    rust: fn(u64, u64, u32) -> u64,
    c: fn(u64, u64, u32) -> u64,
    ours: fn(u64, u64, u32) -> u64,
}

fn valued(call: impl FnOnce(&mut u64) -> u32) -> u64 {
    let mut value = 0;
    call(&mut value);
    value
}

const LEAVES: [Leaf; 11] = [
    Leaf {
        call: "wrapping_mul",
        rust: |a, b, _| a.wrapping_mul(b),
        c: |a, b, _| unsafe { limit_wrapping_mul(a, b) },
        ours: |a, b, _| unsafe { library::cobra_wrapping_mul(a, b) },
    },
    Leaf {
        call: "bitmask",
        rust: |a, _, _| arith::bitmask(a as u32 & 127),
        c: |a, _, _| unsafe { limit_bitmask(a as u32 & 127) },
        ours: |a, _, _| unsafe { library::cobra_bitmask(a as u32 & 127) },
    },
    Leaf {
        call: "mod_add",
        rust: |a, b, width| arith::mod_add(a, b, width),
        c: |a, b, width| unsafe { limit_mod_add(a, b, width) },
        ours: |a, b, width| unsafe { library::cobra_mod_add(a, b, width) },
    },
    Leaf {
        call: "mod_sub",
        rust: |a, b, width| arith::mod_sub(a, b, width),
        c: |a, b, width| unsafe { limit_mod_sub(a, b, width) },
        ours: |a, b, width| unsafe { library::cobra_mod_sub(a, b, width) },
    },
    Leaf {
        call: "mod_neg",
        rust: |a, _, width| arith::mod_neg(a, width),
        c: |a, _, width| unsafe { limit_mod_neg(a, width) },
        ours: |a, _, width| unsafe { library::cobra_mod_neg(a, width) },
    },
    Leaf {
        call: "precision_bits",
        rust: |a, _, width| u64::from(rust::precision_bits(a as u32 & 127, width).unwrap_or(0)),
        c: |a, _, width| u64::from(unsafe { limit_precision_bits(a as u32 & 127, width) }),
        ours: |a, _, width| u64::from(unsafe { library::cobra_precision_bits(a as u32 & 127, width) }),
    },
    Leaf {
        call: "mod_mul",
        rust: |a, b, width| arith::mod_mul(a, b, width),
        c: |a, b, width| unsafe { limit_mod_mul(a, b, width) },
        ours: |a, b, width| unsafe { library::cobra_mod_mul(a, b, width) },
    },
    Leaf {
        call: "mod_inverse_odd",
        rust: |a, _, width| rust::mod_inverse_odd(a | 1, width),
        c: |a, _, width| unsafe { limit_mod_inverse_odd(a | 1, width) },
        ours: |a, _, width| valued(|value| unsafe { library::cobra_mod_inverse_odd(a | 1, width, value) }),
    },
    Leaf {
        call: "twos_in_factorial",
        rust: |a, _, _| u64::from(rust::twos_in_factorial(a as u32)),
        c: |a, _, _| u64::from(unsafe { limit_twos_in_factorial(a as u32) }),
        ours: |a, _, _| u64::from(unsafe { library::cobra_twos_in_factorial(a as u32) }),
    },
    Leaf {
        call: "degree_cap",
        rust: |_, _, width| u64::from(rust::degree_cap(width)),
        c: |_, _, width| u64::from(unsafe { limit_degree_cap(width) }),
        ours: |_, _, width| valued(|value| unsafe { library::cobra_degree_cap(width, value) }),
    },
    Leaf {
        call: "odd_part_factorial",
        rust: |a, _, width| rust::odd_part_factorial((a & 255) as u32, width),
        c: |a, _, width| unsafe { limit_odd_part_factorial((a & 255) as u32, width) },
        ours: |a, _, width| valued(|value| unsafe { library::cobra_odd_part_factorial((a & 255) as u32, width, value) }),
    },
];

const CALLS: usize = 1000;

fn leaves(session: &mut Session) {
    for Leaf { call, rust, c, ours } in LEAVES {
        let mut r = Random::new(1, "speed of leaves");
        let arguments: Vec<(u64, u64)> = (0..CALLS).map(|_| (r.next(), r.next())).collect();
        let all = |leaf: fn(u64, u64, u32) -> u64| {
            let (leaf, width) = (black_box(leaf), black_box(WIDE));
            arguments.iter().fold(0u64, |sum, &(a, b)| sum.wrapping_mul(3).wrapping_add(leaf(a, b, width)))
        };
        check(all(ours) == all(rust), "the library's leaf is not the Rust's");
        check(all(c) == all(rust), "the C's leaf is not the Rust's");
        let (shape, steps) = (format!("{CALLS} calls"), CALLS as u64);
        session.time(
            Input { call, shape, size: CALLS, width: WIDE, steps, listed: true },
            Programs {
                rust: Some(&mut run(|| all(rust))),
                beside: None,
                c: &mut run(|| all(c)),
                ours: &mut run(|| all(ours)),
            },
        );
    }
}
