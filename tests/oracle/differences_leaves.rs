//! The listed differences of the leaves and of keys.

use crate::differences::{accepted, row, with_table, with_value, Row, NOTHING, PANICS};
use crate::ir::math_utils as rust;
use crate::ir::MonomialKey;
use crate::library as ours;

pub fn leaf_rows() -> Vec<Row> {
    let cap = |w| with_value(|v| unsafe { ours::cobra_degree_cap(w, v) });
    let rust_cap = |w| accepted([rust::degree_cap(w).into()]);
    let odd = |k, w| with_value(|v| unsafe { ours::cobra_odd_part_factorial(k, w, v) });
    let rust_odd = |k, w| accepted([rust::odd_part_factorial(k, w)]);
    let inverse = |x, b| with_value(|v| unsafe { ours::cobra_mod_inverse_odd(x, b, v) });
    let rust_inverse = |x, b| accepted([rust::mod_inverse_odd(x, b)]);
    let bits = |weight, w| accepted([unsafe { ours::cobra_precision_bits(weight, w) }.into()]);
    let rust_bits = |weight, w| rust::precision_bits(weight, w).map_or(vec![NOTHING], |b| accepted([b.into()]));
    let second = |w| with_table(9, |t| unsafe { ours::cobra_stirling_second_kind(2, w, t.as_mut_ptr(), 9) });
    let rust_second = |w| accepted(rust::build_stirling_second_kind(2, w).concat());
    let first = |w| with_table(9, |t| unsafe { ours::cobra_stirling_first_kind(2, w, t.as_mut_ptr(), 9) });
    let rust_first = |w| accepted(rust::build_stirling_first_kind(2, w).concat());
    vec![
        row("degree_cap of width 0", || rust_cap(0), cap(0), &[0, 0], &[11]),
        row("degree_cap of width 1", || rust_cap(1), cap(1), &[0, 2], &[11]),
        row("degree_cap of width 65", || rust_cap(65), cap(65), &[0, 68], &[11]),
        row("odd_part_factorial of 0 at width 0", || rust_odd(0, 0), odd(0, 0), &[0, 1], &[11]),
        row("odd_part_factorial of 3 at width 65", || rust_odd(3, 65), odd(3, 65), &[0, 3], &[11]),
        row("odd_part_factorial of 256 at width 8", || rust_odd(256, 8), odd(256, 8), &[0, 139], &[11]),
        row("mod_inverse_odd of 2 at 8 bits", || rust_inverse(2, 8), inverse(2, 8), &[PANICS], &[11]),
        row("mod_inverse_odd of 3 at 0 bits", || rust_inverse(3, 0), inverse(3, 0), &[PANICS], &[11]),
        row(
            "mod_inverse_odd of 3 at 65 bits",
            || rust_inverse(3, 65),
            inverse(3, 65),
            &[0, 12_297_829_382_473_034_411],
            &[11],
        ),
        row("precision_bits of weight 8 at width 8", || rust_bits(8, 8), bits(8, 8), &[NOTHING], &[0, 0]),
        row(
            "Stirling, second kind, degree 2, width 0",
            || rust_second(0),
            second(0),
            &[0, 1, 0, 0, 0, 0, 0, 0, 0, 0],
            &[11],
        ),
        row(
            "Stirling, second kind, degree 2, width 1",
            || rust_second(1),
            second(1),
            &[0, 1, 0, 0, 0, 1, 0, 0, 1, 1],
            &[11],
        ),
        row(
            "Stirling, second kind, degree 2, width 65",
            || rust_second(65),
            second(65),
            &[0, 1, 0, 0, 0, 1, 0, 0, 1, 1],
            &[11],
        ),
        row(
            "Stirling, first kind, degree 2, width 0",
            || rust_first(0),
            first(0),
            &[0, 1, 0, 0, 0, 0, 0, 0, 0, 0],
            &[11],
        ),
        row(
            "Stirling, first kind, degree 2, width 1",
            || rust_first(1),
            first(1),
            &[0, 1, 0, 0, 0, 1, 0, 0, 1, 1],
            &[11],
        ),
        row(
            "Stirling, first kind, degree 2, width 65",
            || rust_first(65),
            first(65),
            &[0, 1, 0, 0, 0, 1, 0, 0, u64::MAX, 1],
            &[11],
        ),
    ]
}

/// The asserts of `mono.rs`.
pub fn key_rows() -> Vec<Row> {
    let zero = MonomialKey::zero();
    let made = |exps: &[u8], n| {
        let mut key = [0u8; 20];
        let number = unsafe { ours::cobra_key_from_exponents(exps.as_ptr(), exps.len(), n, key.as_mut_ptr(), 20) };
        vec![u64::from(number)]
    };
    let rust_made = |exps: &[u8], n| accepted([u64::from(MonomialKey::from_exponents(exps, n).exponent_at(0))]);
    let listed = |len: usize, n| {
        let mut out = vec![0u8; len];
        let number = unsafe { ours::cobra_key_to_exponents([0u8; 20].as_ptr(), 20, out.as_mut_ptr(), len, n) };
        vec![u64::from(number)]
    };
    let rust_listed = |len: usize, n| {
        zero.to_exponents(&mut vec![0; len], n);
        accepted([])
    };
    let changed = vec![u64::from(unsafe { ours::cobra_key_with_exponent([0u8; 20].as_mut_ptr(), 20, 20, 1) })];
    let rust_changed = || accepted([zero.with_exponent(20, 1).exponent_at(0).into()]);
    let measured = |call: unsafe extern "C" fn(*const u8, usize, u8, *mut u64) -> u32, n| {
        with_value(|v| unsafe { call([0u8; 20].as_ptr(), 20, n, v) })
    };
    vec![
        row("key of 21 exponents", || rust_made(&[1; 21], 21), made(&[1; 21], 21), &[PANICS], &[11]),
        row("key of 2 exponents from a list of 1", || rust_made(&[1], 2), made(&[1], 2), &[PANICS], &[11]),
        row("21 exponents of a key", || rust_listed(21, 21), listed(21, 21), &[PANICS], &[11]),
        row("2 exponents of a key to a list of 1", || rust_listed(1, 2), listed(1, 2), &[PANICS], &[11]),
        row(
            "exponent of variable 20 of a key",
            || accepted([zero.exponent_at(20).into()]),
            measured(ours::cobra_key_exponent_at, 20),
            &[PANICS],
            &[11],
        ),
        row("a key with another exponent of variable 20", rust_changed, changed, &[PANICS], &[11]),
        row(
            "total degree of a key, 21 variables",
            || accepted([zero.total_degree(21).into()]),
            measured(ours::cobra_key_total_degree, 21),
            &[PANICS],
            &[11],
        ),
        row(
            "highest exponent of a key, 21 variables",
            || accepted([zero.max_degree(21).into()]),
            measured(ours::cobra_key_max_degree, 21),
            &[PANICS],
            &[11],
        ),
        row(
            "twos in the factorials of a key, 21 variables",
            || accepted([zero.v2_factorial_weight(21).into()]),
            measured(ours::cobra_key_v2_factorial_weight, 21),
            &[PANICS],
            &[11],
        ),
    ]
}
