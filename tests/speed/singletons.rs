//! Singletons: a line of values for each variable. The stand-in hands the Rust the values in the order
//! in which it asks for them.

use crate::boxes::{on_grid, Basis};
use crate::core::evaluator::Evaluator;
use crate::ir::math_utils::degree_cap;
use crate::ir::singleton_power_recovery::recover_singleton_powers;
use crate::library_boxes::singletons as library;
use crate::random::Random;
use crate::reference;
use crate::session::{check, run, Input, Programs, Series, Session};
use crate::shapes::{variables, WIDE};
use std::cell::Cell;
use std::hint::black_box;

extern "C" {
    fn limit_singletons(values: *const u64, variables: usize, cap: usize, width: u32, out: *mut u64) -> u32;
}

const CALL: &str = "recover_singleton_powers";
const COUNTS: [usize; 6] = [1, 2, 4, 8, 16, 20];
const WIDTHS: [u32; 4] = [8, 16, 32, 64];

pub fn time(session: &mut Session) {
    COUNTS.iter().for_each(|&k| row(session, k, WIDE, matches!(k, 1 | 4 | 20)));
    WIDTHS[..3].iter().for_each(|&width| row(session, 4, width, true));
    let steps = "k cap (cap - 1) / 2";
    let inputs = COUNTS.iter().map(|&k| (variables(k), WIDE)).collect();
    session.series.push(Series { call: CALL, grows: "variables at width 64", steps, inputs });
    let inputs = WIDTHS.iter().map(|&width| (variables(4), width)).collect();
    session.series.push(Series { call: CALL, grows: "widths 8, 16, 32, 64 at 4 variables", steps, inputs });
}

fn row(session: &mut Session, k: usize, width: u32, listed: bool) {
    let cap = degree_cap(width) as usize;
    let size = k * cap;
    let mut r = Random::new(1, "speed of singletons");
    let origin = r.next();
    let mut line = || {
        let coeffs: Vec<u64> = (0..cap).map(|e| if e == 0 { origin } else { r.next() }).collect();
        on_grid(&coeffs, (cap - 1) as u8, 1, Basis::Falling)
    };
    let values: Vec<u64> = (0..k).flat_map(|_| line()).collect();

    let by_library = |out: &mut [u64]| unsafe {
        library::cobra_recover_singleton_powers(values.as_ptr(), size, k as u32, width, out.as_mut_ptr(), size)
    };
    let by_limit = |out: &mut [u64]| unsafe { limit_singletons(values.as_ptr(), k, cap, width, out.as_mut_ptr()) };
    let by_rust = || {
        let (at, values) = (Cell::new(0), black_box(&values));
        let evaluator = Evaluator::new(|_| {
            let i = at.get();
            at.set(i + 1);
            values[i]
        });
        recover_singleton_powers(&evaluator, k as u32, width)
    };

    let expected = reference::singletons(&values, k as u32, width).expect("lines of polynomials");
    let (mut our_out, mut limit_out) = (vec![0; size], vec![0; size]);
    check(by_library(&mut our_out) == 0 && our_out == expected, "the library's singletons are not the Rust's");
    check(by_limit(&mut limit_out) == 0 && limit_out == expected, "the C's singletons are not the Rust's");
    let in_order = by_rust().expect("lines of polynomials").per_var;
    let term = |(var, e): (usize, u16)| expected[var * cap + usize::from(e)];
    let mut terms = in_order.iter().enumerate().flat_map(|(var, p)| p.terms.iter().map(move |t| (var, t)));
    check(terms.all(|(var, t)| t.coeff == term((var, t.degree))), "values in order change the Rust's answer");

    let steps = (size * (cap - 1) / 2) as u64;
    session.time(
        Input { call: CALL, shape: variables(k), size, width, steps, listed },
        Programs {
            rust: Some(&mut run(by_rust)),
            beside: None,
            c: &mut run(|| by_limit(black_box(&mut limit_out))),
            ours: &mut run(|| by_library(black_box(&mut our_out))),
        },
    );
}
