//! Value, sum, reduction, validity and sameness of boxes. The Rust has no value, no sum and no reduction; its validity and its
//! equality go over the maps of the coefficients that are not zero.

use crate::boxes::{low_bits, moved, twos_of_cells};
use crate::library_boxes::{bytes, poly};
use crate::random::Random;
use crate::reference;
use crate::session::{check, run, Input, Programs, Session};
use crate::settings::Settings;
use crate::shapes::{self, Shape, CELLS_4096, CELLS_65536, SMALL, WIDE};
use crate::tables::as_bytes;
use std::hint::black_box;

extern "C" {
    fn limit_value(coeffs: *const u64, cells: usize, width: u32, degree: u8, point: *const u64, variables: usize) -> u64;
    fn limit_sum(a: *const u64, b: *const u64, cells: usize, width: u32, degree: u8, out: *mut u64);
    fn limit_reduce(coeffs: *mut u64, cells: usize, width: u32, degree: u8);
    fn limit_is_valid(coeffs: *const u64, cells: usize, width: u32, degree: u8) -> u32;
    fn limit_same(a: *const LimitForm, b: *const LimitForm, width: u32) -> u32;
}

/// A form as the C takes it.
#[repr(C)]
struct LimitForm {
    coeffs: *const u64,
    cells: usize,
    support: *const u64,
    variables: usize,
    degree: u8,
}

impl LimitForm {
    fn of(cells: &[u64], s: &Settings) -> Self {
        let (coeffs, support) = (cells.as_ptr(), s.support.as_ptr());
        Self { coeffs, cells: cells.len(), support, variables: s.support.len(), degree: s.degree }
    }
}

const SAME: &str = "box_same";
const SAME_OTHER: &str = "box_same_other";

pub fn time(session: &mut Session) {
    let boxes = [&SMALL[..], &CELLS_4096, &CELLS_65536].concat();
    let calls: [(&str, fn(&mut Session, &Form)); 6] = [
        ("box_value", |s, form| value(s, form, false)),
        ("box_sum", sum),
        ("box_reduce", reduce),
        ("box_is_valid", is_valid),
        (SAME, same),
        (SAME_OTHER, same_turned),
    ];
    for (call, timed) in calls {
        // one variable cannot be turned round
        let least = if call == SAME_OTHER { 2 } else { 1 };
        for (shape, listed) in shapes::all(&boxes, 2).into_iter().filter(|((k, _), _)| *k >= least) {
            Form::with(shape, WIDE, listed, |form| timed(session, form));
        }
        Form::with((6, 3), 16, true, |form| timed(session, form));
        shapes::grow(session, call, "cells", 2);
    }
    for (shape, degree) in [((2, 3), 5), ((4, 7), 15)] {
        Form::with(shape, WIDE, true, |form| same_enlarged(session, form, degree));
    }
    for shape in [&SMALL[..], &CELLS_4096].concat() {
        Form::with(shape, WIDE, true, |form| value(session, form, true));
    }
}

/// Settings, a normal form, and any two boxes.
struct Form<'a> {
    s: Settings<'a>,
    cells: usize,
    normal: Vec<u64>,
    any: [Vec<u64>; 2],
    listed: bool,
}

impl Form<'_> {
    fn with((k, degree): Shape, width: u32, listed: bool, then: impl FnOnce(&Form)) {
        let support: Vec<u64> = (0..k as u64).collect();
        let s = Settings { support: &support, total: k as u32, width, degree };
        let cells = s.cells().expect("a box within the limit") as usize;
        let mut r = Random::new(1, "speed of forms");
        let mut some = || (0..cells).map(|_| r.next()).collect::<Vec<u64>>();
        let any = [some(), some()];
        let twos = twos_of_cells(degree, k);
        let bounded = |(x, &q): (u64, &u32)| x & low_bits(u64::from(width.saturating_sub(q)));
        let normal = some().into_iter().zip(&twos).map(bounded).collect();
        then(&Form { s, cells, normal, any, listed });
    }

    fn input(&self, call: &'static str) -> Input {
        let shape = shapes::named((self.s.support.len(), self.s.degree));
        let (size, steps) = (self.cells, self.cells as u64);
        Input { call, shape, size, width: self.s.width, steps, listed: self.listed }
    }

    fn point(&self) -> Vec<u64> {
        let mut r = Random::new(1, "speed at a point");
        self.s.support.iter().map(|_| r.next()).collect()
    }
}

fn value(session: &mut Session, form: &Form, crossed: bool) {
    let (s, cells, point) = (&form.s, form.cells, form.point());
    let (k, degree, coeffs) = (s.support.len(), s.degree, &form.any[0]);
    let by_library = |value: &mut u64| unsafe {
        let (from, vars, at) = (coeffs.as_ptr(), s.support.as_ptr(), point.as_ptr());
        poly::cobra_box_value(from, cells, vars, k, s.total, s.width, degree, at, k, value)
    };
    let (from, vars, at) = (as_bytes(coeffs), as_bytes(s.support), as_bytes(&point));
    let by_bytes = |value: &mut u64| unsafe {
        let (from, vars, at, count) = (from.as_ptr(), vars.as_ptr(), at.as_ptr(), k as u64);
        bytes::cobra_value(from, cells * 8, vars, k * 8, count, s.total, s.width, degree, at, k * 8, value)
    };
    let by_limit = || unsafe { limit_value(coeffs.as_ptr(), cells, s.width, degree, point.as_ptr(), k) };
    let (mut of_words, mut of_bytes) = (0, 0);
    check(by_library(&mut of_words) == 0 && of_words == by_limit(), "the library's value is not the C's");
    if crossed {
        check(by_bytes(&mut of_bytes) == 0 && of_bytes == by_limit(), "the library's value of bytes is not the C's");
    }
    let mut words_run = run(|| by_library(black_box(&mut of_words)));
    let mut bytes_run = run(|| by_bytes(black_box(&mut of_bytes)));
    let (call, ours, beside): (_, &mut dyn FnMut(), Option<&mut dyn FnMut()>) = match crossed {
        true => ("cobra_value", &mut bytes_run, Some(&mut words_run)),
        false => ("box_value", &mut words_run, None),
    };
    session.time(form.input(call), Programs { rust: None, beside, c: &mut run(by_limit), ours });
}

fn sum(session: &mut Session, form: &Form) {
    let (s, cells, [a, b]) = (&form.s, form.cells, &form.any);
    let by_library = |out: &mut [u64]| unsafe {
        let (a, b, vars, k) = (a.as_ptr(), b.as_ptr(), s.support.as_ptr(), s.support.len());
        poly::cobra_box_sum(a, cells, b, cells, vars, k, s.total, s.width, s.degree, out.as_mut_ptr(), cells)
    };
    let by_limit =
        |out: &mut [u64]| unsafe { limit_sum(a.as_ptr(), b.as_ptr(), cells, s.width, s.degree, out.as_mut_ptr()) };
    let (mut our_out, mut limit_out) = (vec![0; cells], vec![0; cells]);
    by_limit(&mut limit_out);
    check(by_library(&mut our_out) == 0 && our_out == limit_out, "the library's sum is not the C's");
    session.time(
        form.input("box_sum"),
        Programs {
            rust: None,
            beside: None,
            c: &mut run(|| by_limit(black_box(&mut limit_out))),
            ours: &mut run(|| by_library(black_box(&mut our_out))),
        },
    );
}

fn reduce(session: &mut Session, form: &Form) {
    let (s, cells, given) = (&form.s, form.cells, &form.any[0]);
    let by_library = |coeffs: &mut [u64]| unsafe {
        let (vars, k) = (s.support.as_ptr(), s.support.len());
        poly::cobra_reduce(coeffs.as_mut_ptr(), cells, vars, k, s.total, s.width, s.degree)
    };
    let by_limit = |coeffs: &mut [u64]| unsafe { limit_reduce(coeffs.as_mut_ptr(), cells, s.width, s.degree) };
    let (mut ours, mut limit) = (given.clone(), given.clone());
    by_limit(&mut limit);
    check(by_library(&mut ours) == 0 && ours == limit, "the library's reduction is not the C's");
    session.time(
        form.input("box_reduce"),
        Programs {
            rust: None,
            beside: None,
            c: &mut run(|| by_limit(black_box(&mut limit))),
            ours: &mut run(|| by_library(black_box(&mut ours))),
        },
    );
}

fn is_valid(session: &mut Session, form: &Form) {
    let (s, cells, coeffs, rust) = (&form.s, form.cells, &form.normal, reference::form(&form.normal, &form.s));
    let by_library = |value: &mut u64| unsafe {
        let (from, vars, k) = (coeffs.as_ptr(), s.support.as_ptr(), s.support.len());
        poly::cobra_box_is_valid(from, cells, vars, k, s.total, s.width, s.degree, value)
    };
    let by_limit = || unsafe { limit_is_valid(coeffs.as_ptr(), cells, s.width, s.degree) };
    let mut found = 0;
    check(by_library(&mut found) == 0 && found == u64::from(rust.is_valid()), "the library's is_valid is not the Rust's");
    check(found == u64::from(by_limit()), "the C's is_valid is not the Rust's");
    session.time(
        form.input("box_is_valid"),
        Programs {
            rust: Some(&mut run(|| black_box(&rust).is_valid())),
            beside: None,
            c: &mut run(by_limit),
            ours: &mut run(|| by_library(black_box(&mut found))),
        },
    );
}

/// A normal form and its copy.
fn same(session: &mut Session, form: &Form) {
    time_same(session, form.input(SAME), form, (&form.normal.clone(), &form.s));
}

/// The form and the same polynomial with the support turned round.
fn same_turned(session: &mut Session, form: &Form) {
    let support: Vec<u64> = form.s.support.iter().rev().copied().collect();
    let s = Settings { support: &support, ..form.s };
    time_same(session, form.input(SAME_OTHER), form, (&moved(&form.normal, &form.s, &s), &s));
}

/// The form and the same polynomial in a box of a higher degree, whose cells are counted.
fn same_enlarged(session: &mut Session, form: &Form, degree: u8) {
    let s = Settings { degree, ..form.s };
    let cells = moved(&form.normal, &form.s, &s);
    let shape = format!("{}, degrees {} and {degree}", shapes::variables(s.support.len()), form.s.degree);
    let (size, steps) = (cells.len(), cells.len() as u64);
    time_same(session, Input { shape, size, steps, ..form.input(SAME_OTHER) }, form, (&cells, &s));
}

/// Sameness of a form and another one, which has the same values.
fn time_same(session: &mut Session, input: Input, form: &Form, other: (&[u64], &Settings)) {
    let ((a, s), (b, t)) = ((&form.normal, &form.s), other);
    let (rust_a, rust_b) = (reference::form(a, s), reference::form(b, t));
    let (limit_a, limit_b) = (LimitForm::of(a, s), LimitForm::of(b, t));
    let by_library = |value: &mut u64| unsafe {
        poly::cobra_box_same(
            a.as_ptr(), a.len(), s.support.as_ptr(), s.support.len(), s.total, s.width, s.degree,
            b.as_ptr(), b.len(), t.support.as_ptr(), t.support.len(), t.total, t.width, t.degree, value,
        )
    };
    let by_limit = || unsafe { limit_same(&limit_a, &limit_b, s.width) };
    let mut found = 0;
    check(rust_a == rust_b && by_limit() == 1, "two forms of one polynomial are not the same to the Rust or the C");
    check(by_library(&mut found) == 0 && found == 1, "two forms of one polynomial are not the same to the library");
    session.time(
        input,
        Programs {
            rust: Some(&mut run(|| black_box(&rust_a) == black_box(&rust_b))),
            beside: None,
            c: &mut run(by_limit),
            ours: &mut run(|| by_library(black_box(&mut found))),
        },
    );
}
