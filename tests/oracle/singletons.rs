//! Singletons, held to the Rust's reference where the values at the origin agree. The Rust evaluates
//! one function, so other tables have the definition alone: recovery of one variable after the
//! other, without its constant.

use crate::boxes::{filled, length, lent, low_bits, on_grid, Basis};
use crate::group::{Answer, Case, Group, Lent, Source};
use crate::ir::math_utils::degree_cap;
use crate::library_boxes::singletons as ours;
use crate::random::Random;
use crate::reference as rust;
use crate::settings::Settings;

/// The group with whether the library has its call.
pub const GROUPS: [(&Group, bool); 1] = [(&SINGLETONS, cfg!(cobra_recover_singleton_powers))];

const SINGLETONS: Group = Group {
    name: "recover_singleton_powers",
    names: &["num_vars", "width", "wrong_length", "fill", "values"],
    small: |give| {
        refused(give);
        every_small_table(give);
    },
    random: Some(random),
    cost: 1,
    judged: |c| {
        let (values, out) = tables(c);
        let (mut values, mut out) = (Lent::new(&values), Lent::new(&out));
        let (n, m) = (values.len(), out.len());
        let (num_vars, width) = (c.u32(0), c.u32(1));
        let (from, to) = (values.at(), out.at());
        let answer =
            unsafe { ours::cobra_recover_singleton_powers(from, n, num_vars, width, to, m) };
        let outside = values.outside() + out.outside();
        left(answer, out.content(), values.content()).outside(outside)
    },
    expected: |c| {
        let (values, out) = tables(c);
        let (from, answer) = right(c, &values, out.len());
        let (number, out) = match answer {
            Ok(cells) => (0, cells),
            Err(6) => (6, vec![0; out.len()]),
            Err(refusal) => (refusal, out),
        };
        (from, left(number, out, values).outside(0))
    },
};

fn left(answer: u32, out: Vec<u64>, values: Vec<u64>) -> Answer {
    Answer::number(answer).words("output", out).words("values", values)
}

/// `degree_cap`, where the width has one.
fn cap(c: &Case) -> Option<u64> {
    let width = c.u32(1);
    (2..=64).contains(&width).then(|| u64::from(degree_cap(width)))
}

/// The length that both tables must have, where there is one.
fn exact(c: &Case) -> Option<u64> {
    cap(c).filter(|_| c.u64(0) <= 20).map(|cap| cap * c.u64(0))
}

fn tables(c: &Case) -> (Vec<u64>, Vec<u64>) {
    let (values, exact) = (&c.tables[0], exact(c));
    let length = |table| length(c.u64(2), table, 2, exact, values.len());
    (lent(values, length(0)), filled(c.u64(3), length(1)))
}

fn right(c: &Case, values: &[u64], out: usize) -> (Source, Result<Vec<u64>, u32>) {
    let (num_vars, width) = (c.u32(0), c.u32(1));
    let Some(exact) = exact(c) else {
        // the Rust has no 2, and says of the width what document 01 says
        let from = if num_vars > 20 { Source::Document } else { Source::Rust };
        return (from, rust::singletons(values, num_vars, width));
    };
    if (values.len() as u64, out as u64) != (exact, exact) {
        return (Source::Document, Err(9));
    }
    let cap = cap(c).expect("a width that passes") as usize;
    let low = low_bits(u64::from(width));
    if values.chunks(cap).all(|line| (line[0] ^ values[0]) & low == 0) {
        return (Source::Rust, rust::singletons(values, num_vars, width));
    }
    let line = Settings { support: &[0], total: 1, width, degree: (cap - 1) as u8 };
    let without_constant = |mut cells: Vec<u64>| {
        cells[0] = 0;
        cells
    };
    let found: Result<Vec<_>, u32> = values
        .chunks(cap)
        .map(|values| rust::recovery(values, &line).map(without_constant))
        .collect();
    (Source::Document, found.map(|lines| lines.concat()))
}

/// Counts, widths and lengths that are refused, alone and together.
fn refused(give: &mut dyn FnMut(Case)) {
    for num_vars in [0, 1, 2, 20, 21, 22, 255, 256, 257, 65_536, 4_294_967_295] {
        for width in (0..=70).chain([255, 256, 264, 4_294_967_295]) {
            for wrong in 0..14 {
                for values in [vec![], vec![5; 4], vec![5; 8]] {
                    give(Case::of([num_vars, width, wrong, 3]).with(values));
                }
            }
        }
    }
}

/// Every table of one and two variables at width 2, of one variable at width 3.
fn every_small_table(give: &mut dyn FnMut(Case)) {
    for (num_vars, width) in [(1, 2), (1, 3), (2, 2)] {
        let cells = num_vars as u32 * degree_cap(width);
        for number in 0..1u64 << (width * cells) {
            let value = |i: u32| number >> (width * i) & ((1 << width) - 1);
            let case = Case::of([num_vars, u64::from(width), 0, number]);
            give(case.with((0..cells).map(value).collect()));
        }
    }
}

fn random(r: &mut Random) -> Case {
    let width = match r.below(8) {
        0 => r.width(),
        1..=3 => r.between(2, 12),
        _ => r.between(2, 64),
    };
    let num_vars = match r.below(16) {
        0 => r.number(),
        1 => r.between(0, 20),
        _ => r.between(0, 4),
    };
    let mut c = Case::of([num_vars, width, 0, r.next()]);
    let origin = r.word();
    let one_origin = !r.one_in(4);
    let damaged = r.one_in(3);
    let mut values = Vec::new();
    if let (Some(cap), Some(_)) = (cap(&c), exact(&c)) {
        for _ in 0..num_vars {
            let mut cells: Vec<u64> = r.words(cap);
            if one_origin {
                cells[0] = origin;
            }
            let basis = if r.one_in(4) { Basis::Powers } else { Basis::Falling };
            values.extend(on_grid(&cells, (cap - 1) as u8, 1, basis));
        }
        if damaged && !values.is_empty() {
            let cell = r.below(values.len() as u64) as usize;
            let by = 1u64 << r.below(width);
            values[cell] = values[cell].wrapping_add(by);
        }
        let low = low_bits(width);
        values.iter_mut().for_each(|v| *v = *v & low | r.next() & !low);
        if r.one_in(20) {
            values = r.words(values.len() as u64);
        }
    }
    if r.one_in(10) {
        c.numbers[2] = r.below(200);
    }
    c.with(values)
}
