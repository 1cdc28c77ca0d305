//! The calls on keys of twenty exponents. A key crosses as twenty bytes, so the Rust's part makes its key
//! of them first, as the library does.

use crate::ir::MonomialKey;
use crate::library;
use crate::random::Random;
use crate::session::{check, run, Input, Programs, Session};
use std::hint::black_box;

type Key = [u8; 20];

extern "C" {
    fn limit_key_from_exponents(exps: *const u8, n: u8, key: *mut u8);
    fn limit_key_to_exponents(key: *const u8, out: *mut u8, n: u8);
    fn limit_key_exponent_at(key: *const u8, var: u8) -> u64;
    fn limit_key_with_exponent(key: *mut u8, var: u8, exponent: u8);
    fn limit_key_total_degree(key: *const u8, n: u8) -> u64;
    fn limit_key_max_degree(key: *const u8, n: u8) -> u64;
    fn limit_key_v2_factorial_weight(key: *const u8, n: u8) -> u64;
}

/// A call of each program, of a key and a variable, as a number; where a key or a list comes back, the
/// number is its entry at the variable.
struct Call {
    call: &'static str,
    rust: fn(&Key, u8) -> u64,
    c: fn(&Key, u8) -> u64,
    ours: fn(&Key, u8) -> u64,
}

fn made(key: &Key) -> MonomialKey {
    MonomialKey::from_exponents(key, 20)
}

fn filled(var: u8, fill: impl FnOnce(&mut Key)) -> u64 {
    let mut out = [0; 20];
    fill(&mut out);
    u64::from(out[usize::from(var)])
}

fn altered(key: &Key, var: u8, alter: impl FnOnce(&mut Key)) -> u64 {
    filled(var, |out| {
        *out = *key;
        alter(out);
    })
}

fn valued(call: impl FnOnce(&mut u64) -> u32) -> u64 {
    let mut value = 0;
    call(&mut value);
    value
}

const CALLS: [Call; 7] = [
    Call {
        call: "key_from_exponents",
        rust: |key, var| u64::from(made(key).exponent_at(var)),
        c: |key, var| filled(var, |out| unsafe { limit_key_from_exponents(key.as_ptr(), 20, out.as_mut_ptr()) }),
        ours: |key, var| {
            filled(var, |out| unsafe {
                library::cobra_key_from_exponents(key.as_ptr(), 20, 20, out.as_mut_ptr(), 20);
            })
        },
    },
    Call {
        call: "key_to_exponents",
        rust: |key, var| filled(var, |out| made(key).to_exponents(out, 20)),
        c: |key, var| filled(var, |out| unsafe { limit_key_to_exponents(key.as_ptr(), out.as_mut_ptr(), 20) }),
        ours: |key, var| {
            filled(var, |out| unsafe {
                library::cobra_key_to_exponents(key.as_ptr(), 20, out.as_mut_ptr(), 20, 20);
            })
        },
    },
    Call {
        call: "key_exponent_at",
        rust: |key, var| u64::from(made(key).exponent_at(var)),
        c: |key, var| unsafe { limit_key_exponent_at(key.as_ptr(), var) },
        ours: |key, var| valued(|value| unsafe { library::cobra_key_exponent_at(key.as_ptr(), 20, var, value) }),
    },
    Call {
        call: "key_with_exponent",
        rust: |key, var| u64::from(made(key).with_exponent(var, 7).exponent_at(var)),
        c: |key, var| altered(key, var, |out| unsafe { limit_key_with_exponent(out.as_mut_ptr(), var, 7) }),
        ours: |key, var| {
            altered(key, var, |out| unsafe {
                library::cobra_key_with_exponent(out.as_mut_ptr(), 20, var, 7);
            })
        },
    },
    Call {
        call: "key_total_degree",
        rust: |key, _| u64::from(made(key).total_degree(20)),
        c: |key, _| unsafe { limit_key_total_degree(key.as_ptr(), 20) },
        ours: |key, _| valued(|value| unsafe { library::cobra_key_total_degree(key.as_ptr(), 20, 20, value) }),
    },
    Call {
        call: "key_max_degree",
        rust: |key, _| u64::from(made(key).max_degree(20)),
        c: |key, _| unsafe { limit_key_max_degree(key.as_ptr(), 20) },
        ours: |key, _| valued(|value| unsafe { library::cobra_key_max_degree(key.as_ptr(), 20, 20, value) }),
    },
    Call {
        call: "key_v2_factorial_weight",
        rust: |key, _| u64::from(made(key).v2_factorial_weight(20)),
        c: |key, _| unsafe { limit_key_v2_factorial_weight(key.as_ptr(), 20) },
        ours: |key, _| valued(|value| unsafe { library::cobra_key_v2_factorial_weight(key.as_ptr(), 20, 20, value) }),
    },
];

const KEYS: usize = 1000;

pub fn time(session: &mut Session) {
    let mut r = Random::new(1, "speed of keys");
    let keys: Vec<(Key, u8)> =
        (0..KEYS).map(|i| (std::array::from_fn(|_| r.next() as u8), (i % 20) as u8)).collect();
    for Call { call, rust, c, ours } in CALLS {
        let all = |of_key: fn(&Key, u8) -> u64| {
            let of_key = black_box(of_key);
            keys.iter().fold(0u64, |sum, (key, var)| sum.wrapping_mul(3).wrapping_add(of_key(key, *var)))
        };
        check(all(ours) == all(rust), "the library's call on keys is not the Rust's");
        check(all(c) == all(rust), "the C's call on keys is not the Rust's");
        let input = Input { call, shape: format!("{KEYS} calls"), size: KEYS, width: 0, steps: KEYS as u64, listed: true };
        session.time(
            input,
            Programs {
                rust: Some(&mut run(|| all(rust))),
                beside: None,
                c: &mut run(|| all(c)),
                ours: &mut run(|| all(ours)),
            },
        );
    }
}
