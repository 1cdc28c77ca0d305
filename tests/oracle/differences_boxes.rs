//! The listed differences of forms, conversions, recovery and singletons.

use crate::bytes::recovered;
use crate::core::evaluator::Evaluator;
use crate::differences::{accepted, row, with_table, with_value, Row, PANICS};
use crate::ir::basis_transform::{to_factorial_basis, to_monomial_basis};
use crate::ir::multivar_poly_recovery::recover_multivar_poly;
use crate::ir::poly::CoeffMap;
use crate::ir::singleton_power_recovery::recover_singleton_powers;
use crate::ir::MonomialKey;
use crate::library_boxes::{conversions, poly, recovery, singletons, InOut};
use crate::reference::{form, is_valid, map_of_box, normalized, unguarded, Convert};
use crate::sameness;
use crate::settings::Settings;

/// One variable at width 8, to degree 1 and 2.
const LINE: Settings = Settings { support: &[0], total: 1, width: 8, degree: 1 };
const SQUARE: Settings = Settings { degree: 2, ..LINE };
/// No variables; one of 21; variable 1 where there is variable 0 alone.
const NO_VARIABLES: Settings = Settings { support: &[], total: 0, ..LINE };
const OF_21: Settings = Settings { total: 21, ..SQUARE };
const OUTSIDE: Settings = Settings { support: &[1], ..SQUARE };
/// 2^17 cells, and a form there: the product of all variables.
const SEVENTEEN: Settings =
    Settings { support: &[0, 1, 2, 3, 4, 5, 6, 7, 8, 9, 10, 11, 12, 13, 14, 15, 16], total: 17, ..LINE };

fn product_of_17() -> Vec<u64> {
    let mut cells = vec![0; 1 << 17];
    cells[(1 << 17) - 1] = 1;
    cells
}

/// Validity and sameness.
pub fn form_rows() -> Vec<Row> {
    let valid = |cells: &[u64], s: Settings| {
        let (n, k, on) = (cells.len(), s.support.len(), s.support.as_ptr());
        with_value(|v| unsafe { poly::cobra_box_is_valid(cells.as_ptr(), n, on, k, s.total, s.width, s.degree, v) })
    };
    let rust_valid = |cells: &[u64], s: Settings| accepted([is_valid(cells, &s).into()]);
    let same = |a: &[u64], b: &[u64], s: Settings| with_value(|v| sameness::called(a, &s, b, &s, v));
    let rust_same = |a: &[u64], b: &[u64], s: Settings| accepted([(form(a, &s) == form(b, &s)).into()]);
    let with_itself = |input, cells: &[u64], s: Settings, listed_here| {
        row(input, || rust_same(cells, cells, s), same(cells, cells, s), &[0, 1], listed_here)
    };
    let unequal = |input, a: &[u64], b: &[u64], s: Settings| {
        row(input, || rust_same(a, b, s), same(a, b, s), &[0, 0], &[0, 1])
    };
    let mut stored = form(&[1, 0], &LINE);
    stored.coeffs.insert(MonomialKey::zero().with_exponent(0, 1), 0);
    let pair = Settings { support: &[0, 1], total: 2, ..SQUARE };
    let quartic = Settings { width: 2, degree: 4, ..LINE };
    let cells = product_of_17();
    vec![
        row(
            "is_valid of 1 + 0x with the 0 stored, w 8",
            || accepted([stored.is_valid().into()]),
            valid(&[1, 0], LINE),
            &[0, 0],
            &[0, 1],
        ),
        row(
            "is_valid w 8, no variables, 7",
            || rust_valid(&[7], NO_VARIABLES),
            valid(&[7], NO_VARIABLES),
            &[0, 1],
            &[1],
        ),
        row("is_valid w 8, 21 variables, 0", || rust_valid(&[0; 3], OF_21), valid(&[0; 3], OF_21), &[0, 1], &[2]),
        row(
            "is_valid w 8, 21 variables, 1",
            || rust_valid(&[1, 0, 0], OF_21),
            valid(&[1, 0, 0], OF_21),
            &[PANICS],
            &[2],
        ),
        row(
            "is_valid w 8, one variable, 255 y(y-1)",
            || rust_valid(&[0, 0, 255], OUTSIDE),
            valid(&[0, 0, 255], OUTSIDE),
            &[0, 1],
            &[5],
        ),
        row(
            "is_valid w 8, the product of 17 variables",
            || rust_valid(&cells, SEVENTEEN),
            valid(&cells, SEVENTEEN),
            &[0, 1],
            &[8],
        ),
        row(
            "sameness of 1 and 1 + 0x with the 0 stored",
            || accepted([(form(&[1, 0], &LINE) == stored).into()]),
            same(&[1, 0], &[1, 0], LINE),
            &[0, 0],
            &[0, 1],
        ),
        unequal("sameness of 1 and 257, w 8", &[1, 0], &[257, 0], LINE),
        unequal("sameness of 0 and 128 x(x-1), w 8", &[0, 0, 0], &[0, 0, 128], SQUARE),
        unequal("sameness of x(x-1) and 129 x(x-1), w 8", &[0, 0, 1], &[0, 0, 129], SQUARE),
        unequal(
            "sameness of 0 and 64 x(x-1) y(y-1), w 8",
            &[0; 9],
            &[0, 0, 0, 0, 0, 0, 0, 0, 64],
            pair,
        ),
        unequal("sameness of 0 and x(x-1)(x-2)(x-3), w 2", &[0; 5], &[0, 0, 0, 0, 1], quartic),
        with_itself("sameness of 1 + x with itself, w 0", &[1, 1], Settings { width: 0, ..LINE }, &[3]),
        with_itself("sameness of 1 + x with itself, w 1", &[1, 1], Settings { width: 1, ..LINE }, &[3]),
        with_itself("sameness of 1 + x with itself, w 65", &[1, 1], Settings { width: 65, ..LINE }, &[3]),
        with_itself("sameness of 7 with itself, no variables", &[7], NO_VARIABLES, &[1]),
        with_itself("sameness of 1 with itself, 21 variables", &[1, 0, 0], OF_21, &[2]),
        with_itself("sameness of y with itself, one variable", &[0, 1, 0], OUTSIDE, &[5]),
        with_itself("sameness of the product of 17 variables with itself", &cells, SEVENTEEN, &[8]),
    ]
}

/// Exponents of variable 0 and coefficients, in order.
fn terms(map: &CoeffMap) -> Vec<u64> {
    let mut terms: Vec<_> = map.iter().map(|(key, &c)| (key.exponent_at(0), c)).collect();
    terms.sort_unstable();
    terms.into_iter().flat_map(|(e, c)| [u64::from(e), c]).collect()
}

fn in_out(call: InOut, cells: &[u64], s: &Settings) -> Vec<u64> {
    with_table(cells.len(), |out| unsafe {
        let (support, k) = (s.support.as_ptr(), s.support.len());
        call(cells.as_ptr(), cells.len(), support, k, s.total, s.width, s.degree, out.as_mut_ptr(), out.len())
    })
}

/// Conversions and the normal form, the Rust's and the library's.
pub fn conversion_rows() -> Vec<Row> {
    let falling: (Convert, InOut) = (to_factorial_basis, conversions::cobra_to_factorial_basis);
    let powers: (Convert, InOut) = (to_monomial_basis, conversions::cobra_to_monomial_basis);
    let normal: (Convert, InOut) = (normalized, conversions::cobra_normalize_polynomial);
    let of = |input, (rust, here): (Convert, InOut), cells: &[u64], s: Settings, listed, listed_here| {
        row(input, || accepted(unguarded(cells, &s, rust)), in_out(here, cells, &s), listed, listed_here)
    };
    let square = |input, calls, width, listed| of(input, calls, &[0, 0, 1], Settings { width, ..SQUARE }, listed, &[3]);
    let cells = product_of_17();
    let large = |input, (rust, here): (Convert, InOut)| {
        let converted = || accepted(terms(&rust(&map_of_box(&cells, &SEVENTEEN), 17, 8)));
        row(input, converted, in_out(here, &cells, &SEVENTEEN), &[0, 1, 1], &[8])
    };
    vec![
        of("to_factorial_basis w 8, 256 + 511x", falling, &[256, 511], LINE, &[0, 256, 511], &[0, 0, 255]),
        of("to_monomial_basis w 8, 256 + 511x", powers, &[256, 511], LINE, &[0, 256, 511], &[0, 0, 255]),
        square("to_factorial_basis w 0, x^2", falling, 0, &[0, 0, 0, 0]),
        square("to_factorial_basis w 1, x^2", falling, 1, &[0, 0, 1, 1]),
        square("to_factorial_basis w 65, x^2", falling, 65, &[0, 0, 1, 1]),
        square("to_monomial_basis w 0, x(x-1)", powers, 0, &[0, 0, 0, 0]),
        square("to_monomial_basis w 1, x(x-1)", powers, 1, &[0, 0, 1, 1]),
        square("to_monomial_basis w 65, x(x-1)", powers, 65, &[0, 0, u64::MAX, 1]),
        square("normalize_polynomial w 0, x^2", normal, 0, &[0, 0, 0, 0]),
        square("normalize_polynomial w 1, x^2", normal, 1, &[0, 0, 1, 0]),
        square("normalize_polynomial w 65, x^2", normal, 65, &[0, 0, 1, 1]),
        of("to_factorial_basis w 8, no variables, 300", falling, &[300], NO_VARIABLES, &[0, 300], &[1]),
        of("to_monomial_basis w 8, no variables, 300", powers, &[300], NO_VARIABLES, &[0, 300], &[1]),
        of("normalize_polynomial w 8, no variables, 300", normal, &[300], NO_VARIABLES, &[0, 44], &[1]),
        of("to_factorial_basis w 8, 21 variables, 0", falling, &[0, 0, 0], OF_21, &[0, 0, 0, 0], &[2]),
        of("to_factorial_basis w 8, 21 variables, x^2", falling, &[0, 0, 1], OF_21, &[PANICS], &[2]),
        of("to_monomial_basis w 8, 21 variables, 0", powers, &[0, 0, 0], OF_21, &[0, 0, 0, 0], &[2]),
        of("to_monomial_basis w 8, 21 variables, x(x-1)", powers, &[0, 0, 1], OF_21, &[PANICS], &[2]),
        of("normalize_polynomial w 8, 21 variables, 0", normal, &[0, 0, 0], OF_21, &[0, 0, 0, 0], &[2]),
        of("normalize_polynomial w 8, 21 variables, x^2", normal, &[0, 0, 1], OF_21, &[PANICS], &[2]),
        of("to_factorial_basis w 8, one variable, y^2", falling, &[0, 0, 1], OUTSIDE, &[0, 0, 0, 1], &[5]),
        of("to_monomial_basis w 8, one variable, y(y-1)", powers, &[0, 0, 1], OUTSIDE, &[0, 0, 0, 1], &[5]),
        of("normalize_polynomial w 8, one variable, 255 y^2", normal, &[0, 0, 255], OUTSIDE, &[0, 0, 0, 255], &[5]),
        large("to_factorial_basis w 8, the product of 17 variables; exponents and coefficients", falling),
        large("to_monomial_basis w 8, the product of 17 variables; exponents and coefficients", powers),
        large("normalize_polynomial w 8, the product of 17 variables; exponents and coefficients", normal),
    ]
}

/// Recovery and singletons.
pub fn recovery_rows() -> Vec<Row> {
    let rust_recovery = |read: fn(&[u64]) -> u64, s: &Settings| {
        let answer = recover_multivar_poly(&Evaluator::new(read), &s.support32(), s.total, s.width, s.degree);
        accepted(terms(&answer.into_answer().expect("an answer").coeffs))
    };
    let recovery = |values: &[u64], s: &Settings| in_out(recovery::cobra_recover_multivar_poly, values, s);
    let by_bytes = |values: &[u64], s: &Settings| vec![u64::from(recovered(values, s, values).0)];
    let twice = Settings { support: &[0, 0], ..LINE };
    let cube = Settings { support: &[0, 1, 2], total: 3, width: 8, degree: 40 };
    let wide = Settings { support: &[0, 1, 2, 3, 4, 5, 6, 7], total: 8, width: 8, degree: 255 };
    let plane = Settings { support: &[0, 1], total: 2, width: 8, degree: 64 };
    // 0 and how many terms there are; the one error beside a bad width is a difference
    let rust_singletons = |num_vars, w| match recover_singleton_powers(&Evaluator::new(|_| 0), num_vars, w) {
        Ok(found) => accepted([found.per_var.iter().map(|p| p.terms.len() as u64).sum()]),
        Err(_) => vec![if (2..=64).contains(&w) { 6 } else { 3 }],
    };
    let singletons = |num_vars, w| {
        with_table(84, |out| unsafe {
            singletons::cobra_recover_singleton_powers([0; 84].as_ptr(), 84, num_vars, w, out.as_mut_ptr(), 84)
        })
    };
    vec![
        row(
            "recovery of x, w 8, d 1, support 0 0; exponents and coefficients",
            || rust_recovery(|point| point[0], &twice),
            recovery(&[0, 0, 1, 1], &twice),
            &[0, 1, 1],
            &[7],
        ),
        row(
            "recovery of 7 on 41^3 points; exponents and coefficients",
            || rust_recovery(|_| 7, &cube),
            recovery(&[7; 68_921], &cube),
            &[0, 0, 7],
            &[8],
        ),
        row(
            "recovery of 7 on 256^8 points; exponents and coefficients",
            || rust_recovery(|_| 7, &wide),
            recovery(&[7], &wide),
            &[0],
            &[8],
        ),
        row(
            "recovery of 7 on 255^8 points",
            || rust_recovery(|_| 7, &Settings { degree: 254, ..wide }),
            recovery(&[7], &Settings { degree: 254, ..wide }),
            &[PANICS],
            &[8],
        ),
        row(
            "recovery of 7 on 65^2 points, here on bytes; exponents and coefficients",
            || rust_recovery(|_| 7, &plane),
            by_bytes(&[7; 4_225], &plane),
            &[0, 0, 7],
            &[8],
        ),
        row(
            "singletons of 21 variables, w 2, values 0; terms",
            || rust_singletons(21, 2),
            singletons(21, 2),
            &[0, 0],
            &[2],
        ),
        row("singletons of 21 variables, w 1", || rust_singletons(21, 1), singletons(21, 1), &[3], &[2]),
    ]
}
