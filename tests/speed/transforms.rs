//! Conversions, normal form, moved form and recovery: a box in, a box out.

use crate::boxes::{on_grid, Basis};
use crate::core::evaluator::Evaluator;
use crate::ir::basis_transform::{to_factorial_basis, to_monomial_basis};
use crate::ir::multivar_poly_recovery::recover_multivar_poly;
use crate::ir::poly::{CoeffMap, PolyIR};
use crate::ir::poly_normalizer::normalize_polynomial;
use crate::library_boxes::{bytes, conversions, datum, recovery, InOut};
use crate::random::Random;
use crate::reference::{box_of_map, map_of_box, reduced};
use crate::session::{check, run, Input, Programs, Session};
use crate::settings::Settings;
use crate::shapes::{self, Shape, BETWEEN, CELLS_4096, CELLS_65536, SMALL, WIDE};
use crate::tables::{as_bytes, as_words};
use std::hint::black_box;

type Limit = unsafe extern "C" fn(*const u64, usize, u32, u8, *mut u64) -> u32;

extern "C" {
    fn limit_to_factorial(coeffs: *const u64, cells: usize, width: u32, degree: u8, out: *mut u64) -> u32;
    fn limit_to_monomial(coeffs: *const u64, cells: usize, width: u32, degree: u8, out: *mut u64) -> u32;
    fn limit_normalize(coeffs: *const u64, cells: usize, width: u32, degree: u8, out: *mut u64) -> u32;
    fn limit_recover(values: *const u64, cells: usize, width: u32, degree: u8, out: *mut u64) -> u32;
    fn limit_move(
        coeffs: *const u64, cells: usize, width: u32, degree: u8, offsets: *const u64, out: *mut u64,
    ) -> u32;
}

#[derive(Clone, Copy, PartialEq)]
enum Call {
    ToFactorial,
    ToMonomial,
    Normalize,
    Recovery,
    RecoveryOfBytes,
}

impl Call {
    fn name(self) -> &'static str {
        match self {
            Self::ToFactorial => "to_factorial_basis",
            Self::ToMonomial => "to_monomial_basis",
            Self::Normalize => "normalize_polynomial",
            Self::Recovery => "recover_multivar_poly",
            Self::RecoveryOfBytes => "cobra_recover",
        }
    }

    fn recovers(self) -> bool {
        matches!(self, Self::Recovery | Self::RecoveryOfBytes)
    }

    fn limit(self) -> Limit {
        match self {
            Self::ToFactorial => limit_to_factorial,
            Self::ToMonomial => limit_to_monomial,
            Self::Normalize => limit_normalize,
            Self::Recovery | Self::RecoveryOfBytes => limit_recover,
        }
    }

    /// The library's call on tables of u64.
    fn ours(self) -> InOut {
        match self {
            Self::ToFactorial => conversions::cobra_to_factorial_basis,
            Self::ToMonomial => conversions::cobra_to_monomial_basis,
            Self::Normalize => conversions::cobra_normalize_polynomial,
            Self::Recovery | Self::RecoveryOfBytes => recovery::cobra_recover_multivar_poly,
        }
    }
}

pub fn time(session: &mut Session) {
    // the Rust leaves boxes of degree 1 untouched
    let converted = [&SMALL[..1], &SMALL[2..4], &CELLS_4096, &CELLS_65536[..3]].concat();
    for call in [Call::ToFactorial, Call::ToMonomial, Call::Normalize] {
        for (shape, listed) in shapes::all(&converted, 3) {
            row(session, call, shape, WIDE, listed);
        }
        shapes::grow(session, call.name(), "k cells d / 2", 3);
    }
    for (shape, listed) in shapes::all(&[&converted[..], &CELLS_65536[3..], &BETWEEN].concat(), 3) {
        moved(session, shape, listed);
    }
    shapes::grow(session, MOVED, "k cells d / 2", 3);
    let recovered = [&SMALL[..], &CELLS_4096, &CELLS_65536].concat();
    for (shape, listed) in shapes::all(&recovered, 3) {
        row(session, Call::Recovery, shape, WIDE, listed);
    }
    low_degree(session);
    shapes::grow(session, Call::Recovery.name(), "k cells d / 2", 3);
    for shape in [CELLS_4096, CELLS_65536].concat() {
        row(session, Call::Recovery, shape, 16, true);
    }
    for shape in [&SMALL[..], &CELLS_4096].concat() {
        row(session, Call::RecoveryOfBytes, shape, WIDE, true);
    }
}

/// Recovery of a grid whose polynomial has degree 4 in each of two variables, on a grid of degree 255.
fn low_degree(session: &mut Session) {
    let exponent = |cell: usize| (cell % 256).max(cell / 256);
    timed(session, Call::Recovery, (2, 255), WIDE, true, ", low degree", |cell| exponent(cell) <= 4);
}

fn row(session: &mut Session, call: Call, shape: Shape, width: u32, listed: bool) {
    timed(session, call, shape, width, listed, "", |_| true);
}

/// A row whose coefficients are zero but at the cells that are kept.
fn timed(
    session: &mut Session, call: Call, (k, degree): Shape, width: u32, listed: bool, note: &str, kept: impl Fn(usize) -> bool,
) {
    let support: Vec<u64> = (0..k as u64).collect();
    let s = Settings { support: &support, total: k as u32, width, degree };
    let cells = s.cells().expect("a box within the limit") as usize;
    let mut r = Random::new(1, "speed");
    let input: Vec<u64> = (0..cells).map(|cell| if kept(cell) { r.next() } else { 0 }).collect();
    let input = if call.recovers() {
        on_grid(&input, degree, k, Basis::Falling)
    } else {
        reduced(&input, width)
    };

    let rust = Rust::new(call, &input, &s);
    let (limit, library) = (call.limit(), call.ours());
    let by_limit = |out: &mut [u64]| unsafe { limit(input.as_ptr(), cells, width, degree, out.as_mut_ptr()) };
    let by_library = |out: &mut [u64]| unsafe {
        let (from, vars, to) = (input.as_ptr(), support.as_ptr(), out.as_mut_ptr());
        library(from, cells, vars, k, s.total, width, degree, to, cells)
    };
    let (values, indices) = (as_bytes(&input), as_bytes(&support));
    let by_bytes = |out: &mut [u8]| unsafe {
        let (from, vars, to) = (values.as_ptr(), indices.as_ptr(), out.as_mut_ptr());
        let (long, count) = (cells * 8, k as u64);
        bytes::cobra_recover(from, long, vars, k * 8, count, s.total, width, degree, to, long)
    };

    let (mut limit_out, mut our_out, mut bytes_out) = (vec![0; cells], vec![0; cells], vec![0; cells * 8]);
    let crossed = call == Call::RecoveryOfBytes;
    let said = if crossed { by_bytes(&mut bytes_out) } else { by_library(&mut our_out) };
    check(said == 0 && by_limit(&mut limit_out) == 0, "a box is refused");
    if crossed {
        our_out = as_words(&bytes_out);
    }
    check(our_out == rust.answer(), "the library's box is not the Rust's");
    check(our_out == limit_out, "the C's box is not the Rust's");

    let mut words_run = run(|| by_library(black_box(&mut our_out)));
    let mut bytes_run = run(|| by_bytes(black_box(&mut bytes_out)));
    let mut reading = run(|| rust.read());
    let (ours, beside): (&mut dyn FnMut(), Option<&mut dyn FnMut()>) = match call {
        Call::RecoveryOfBytes => (&mut bytes_run, Some(&mut words_run)),
        Call::Recovery => (&mut words_run, Some(&mut reading)),
        _ => (&mut words_run, None),
    };
    session.time(
        Input {
            call: call.name(),
            shape: shapes::named((k, degree)) + note,
            size: cells,
            width,
            steps: (k * cells * usize::from(degree) / 2) as u64,
            listed,
        },
        Programs {
            rust: Some(&mut run(|| rust.map())),
            beside,
            c: &mut run(|| by_limit(black_box(&mut limit_out))),
            ours,
        },
    );
}

const MOVED: &str = "move_datum";

/// A form moved by any offsets, beside the library's conversion of the same box to falling factorials. The Rust has no such call.
fn moved(session: &mut Session, (k, degree): Shape, listed: bool) {
    let support: Vec<u64> = (0..k as u64).collect();
    let s = Settings { support: &support, total: k as u32, width: WIDE, degree };
    let cells = s.cells().expect("a box within the limit") as usize;
    let mut r = Random::new(1, "speed of moved forms");
    let [input, offsets] = [cells, k].map(|many| (0..many).map(|_| r.next()).collect::<Vec<u64>>());
    let (from, on, by) = (input.as_ptr(), support.as_ptr(), offsets.as_ptr());
    let by_limit = |out: &mut [u64]| unsafe { limit_move(from, cells, WIDE, degree, by, out.as_mut_ptr()) };
    let by_library = |out: &mut [u64]| unsafe {
        datum::cobra_move_datum(from, cells, on, k, s.total, WIDE, degree, by, k, out.as_mut_ptr(), cells)
    };
    let converted = |out: &mut [u64]| unsafe {
        conversions::cobra_to_factorial_basis(from, cells, on, k, s.total, WIDE, degree, out.as_mut_ptr(), cells)
    };
    let [mut our_out, mut limit_out, mut other_out] = [(); 3].map(|()| vec![0; cells]);
    let said = [by_library(&mut our_out), by_limit(&mut limit_out), converted(&mut other_out)];
    check(said == [0; 3], "a box is refused");
    check(our_out == limit_out, "the library's moved form is not the C's");
    session.time(
        Input {
            call: MOVED,
            shape: shapes::named((k, degree)),
            size: cells,
            width: WIDE,
            steps: (k * cells * usize::from(degree) / 2) as u64,
            listed,
        },
        Programs {
            rust: None,
            beside: Some(&mut run(|| converted(black_box(&mut other_out)))),
            c: &mut run(|| by_limit(black_box(&mut limit_out))),
            ours: &mut run(|| by_library(black_box(&mut our_out))),
        },
    );
}

/// The Rust's call, its input made ready beforehand.
enum Rust<'a> {
    Convert(fn(&CoeffMap, u8, u32) -> CoeffMap, CoeffMap, &'a Settings<'a>),
    Normalize(PolyIR, &'a Settings<'a>),
    Recover(&'a [u64], Vec<u32>, &'a Settings<'a>),
}

impl<'a> Rust<'a> {
    fn new(call: Call, input: &'a [u64], s: &'a Settings<'a>) -> Self {
        let map = || map_of_box(input, s);
        match call {
            Call::ToFactorial => Self::Convert(to_factorial_basis, map(), s),
            Call::ToMonomial => Self::Convert(to_monomial_basis, map(), s),
            Call::Normalize => {
                let (num_vars, bitwidth) = (s.total as u8, s.width);
                Self::Normalize(PolyIR { num_vars, bitwidth, terms: map() }, s)
            }
            Call::Recovery | Call::RecoveryOfBytes => Self::Recover(input, s.support32(), s),
        }
    }

    fn map(&self) -> CoeffMap {
        match self {
            Self::Convert(convert, map, s) => convert(black_box(map), s.total as u8, s.width),
            Self::Normalize(poly, _) => normalize_polynomial(black_box(poly)).coeffs,
            Self::Recover(values, support, s) => {
                let evaluator = Evaluator::from_grid(black_box(values), support, s.degree);
                let said = recover_multivar_poly(&evaluator, support, s.total, s.width, s.degree);
                said.into_answer().expect("a grid of a polynomial").coeffs
            }
        }
    }

    /// The part of recovery that is the stand-in's: the evaluator at every point of the grid.
    fn read(&self) {
        let Self::Recover(values, support, s) = self else { return };
        let evaluator = Evaluator::from_grid(black_box(values), support, s.degree);
        let mut point = vec![0; s.total as usize];
        for _ in 0..values.len() {
            black_box(evaluator.eval(&point));
            for &var in support {
                let x = &mut point[var as usize];
                *x = if *x == u64::from(s.degree) { 0 } else { *x + 1 };
                if *x != 0 {
                    break;
                }
            }
        }
    }

    fn answer(&self) -> Vec<u64> {
        let (Self::Convert(_, _, s) | Self::Normalize(_, s) | Self::Recover(_, _, s)) = self;
        box_of_map(&self.map(), s)
    }
}
