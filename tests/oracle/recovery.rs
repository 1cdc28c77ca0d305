//! Recovery, held to the Rust's reference.

use crate::boxes::{
    called, cells, coefficients, every_set_of_causes, in_and_out, large_box, left, lengths, low_bits,
    most_cells, must_leave, on_grid, random_box, settings, spoil, twos_of_cells, Basis, CAUSES,
    NUMBERS,
};
use crate::bytes::{beside, recovered, LIMIT};
use crate::group::{Answer, Case, Group, Source};
use crate::library_boxes::recovery as ours;
use crate::random::Random;
use crate::reference as rust;
use crate::settings::Settings;

/// The call on u64 and the one on bytes.
const HAS_CALLS: bool = cfg!(all(cobra_recover_multivar_poly, cobra_recover));

/// Each group with whether the library has its calls.
pub const GROUPS: [(&Group, bool); 5] = [
    (&EVERY_SMALL_GRID, HAS_CALLS),
    (&POLYNOMIALS, HAS_CALLS),
    (&EDGES, HAS_CALLS),
    (&REFUSED, HAS_CALLS),
    (&LARGE_BOXES, HAS_CALLS),
];

const NAMES: &[&str] =
    &[NUMBERS[0], NUMBERS[1], NUMBERS[2], NUMBERS[3], NUMBERS[4], "support", "values"];

/// All values at widths 2 and 3, one variable to degree 5 and more variables while there are at most
/// some hundred thousand grids.
const EVERY_SMALL_GRID: Group = Group {
    name: "recover_multivar_poly, every small grid",
    names: NAMES,
    small: |give| {
        for (k, degree) in [(1, 1), (1, 2), (2, 1), (1, 3), (1, 4), (1, 5), (3, 1), (2, 2)] {
            let cells = (0..k).fold(1, |n, _| n * (degree + 1)) as u32;
            for width in [2u64, 3] {
                let grids = 1u64 << (width as u32 * cells);
                for number in (0..grids).take_while(|_| grids <= 300_000) {
                    let value = |i: u32| number >> (width as u32 * i) & ((1 << width) - 1);
                    let case = Case::of([k, width, degree, 0, number]).with((0..k).rev().collect());
                    give(case.with((0..cells).map(value).collect()));
                }
            }
        }
    },
    random: None,
    cost: 1,
    judged,
    expected,
};

/// Grids of random polynomials, as they are or with one damaged cell.
const POLYNOMIALS: Group = Group {
    name: "recover_multivar_poly, grids of polynomials",
    names: NAMES,
    small: |_| {},
    random: Some(|r| {
        let (least_degree, most) = (r.pick(&[1, 2, 2]), most_cells(r));
        let mut c = random_box(least_degree, most, r);
        let mut values = polynomial_values(&c, r);
        if r.one_in(2) {
            damage(&mut values, c.u64(1), r);
        }
        c.tables.push(noisy(values, c.u64(1), r));
        c
    }),
    cost: 1,
    judged,
    expected,
};

/// Differences at the edge of divisibility, and noise.
const EDGES: Group = Group {
    name: "recover_multivar_poly, edges and noise",
    names: NAMES,
    small: |_| {},
    random: Some(|r| {
        let (least_degree, most) = (r.pick(&[1, 2, 2]), most_cells(r));
        let mut c = random_box(least_degree, most, r);
        let values = any_values(&c, r);
        c.tables.push(noisy(values, c.u64(1), r));
        c
    }),
    cost: 1,
    judged,
    expected,
};

/// Settings and lengths that are refused.
const REFUSED: Group = Group {
    name: "recover_multivar_poly, settings and lengths",
    names: NAMES,
    small: |give| {
        let accepted = Case::of([5, 8, 2, 0, 0]).with(vec![3, 0, 2]).with(vec![7; 27]);
        every_set_of_causes(&accepted, &CAUSES, number, give);
        // the same with a grid that settings and lengths let through and a difference does not
        let mut refused = accepted;
        refused.tables[1][2] = 0;
        every_set_of_causes(&refused, &CAUSES, number, give);
        for (k, degree, cells) in [(3, 40, 68_921), (17, 1, 131_072), (2, 255, 65_536)] {
            give(Case::of([20, 8, degree, 0, 0]).with((0..k).collect()).with(vec![1; cells]));
        }
    },
    random: Some(|r| {
        let (least_degree, most) = (r.pick(&[1, 2, 2]), most_cells(r));
        let mut c = random_box(least_degree, most, r);
        c.tables.push(any_values(&c, r));
        spoil(&mut c, &CAUSES, r);
        c
    }),
    cost: 4,
    judged,
    expected,
};

const LARGE_BOXES: Group = Group {
    name: "recover_multivar_poly, large boxes",
    names: NAMES,
    small: |_| {},
    random: Some(|r| {
        let mut c = large_box(r);
        let values = match r.below(8) {
            0 => coefficients(&c, r),
            1 | 2 => edges(&c, r),
            _ => {
                let mut values = polynomial_values(&c, r);
                if r.one_in(3) {
                    damage(&mut values, c.u64(1), r);
                }
                values
            }
        };
        c.tables.push(noisy(values, c.u64(1), r));
        c
    }),
    cost: 500,
    judged,
    expected,
};

/// Values of a random polynomial, its coefficients those of falling factorials or of powers.
fn polynomial_values(c: &Case, r: &mut Random) -> Vec<u64> {
    let (s, cells) = (settings(c), coefficients(c, r));
    let basis = if r.one_in(3) { Basis::Powers } else { Basis::Falling };
    on_grid(&cells, s.degree, s.support.len(), basis)
}

fn any_values(c: &Case, r: &mut Random) -> Vec<u64> {
    if r.one_in(3) {
        coefficients(c, r)
    } else {
        edges(c, r)
    }
}

/// Edge values, short at some cell or at none.
fn edges(c: &Case, r: &mut Random) -> Vec<u64> {
    let (s, cells) = (settings(c), cells(c));
    let short = if r.one_in(3) { cells } else { r.below(cells) };
    edge_values(&s, short, r)
}

/// Values whose differences have just the twos that they need, or one too few at the cell `short`.
pub fn edge_values(s: &Settings, short: u64, r: &mut Random) -> Vec<u64> {
    let twos = twos_of_cells(s.degree, s.support.len());
    let difference = |(cell, &q): (usize, &u32)| {
        let needed = q.min(s.width);
        let missing = u32::from(cell as u64 == short && needed > 0);
        let odd = r.next() | 1;
        let present = missing == 1 || !r.one_in(3);
        if present && needed - missing < 64 {
            odd << (needed - missing)
        } else {
            0
        }
    };
    let differences: Vec<u64> = twos.iter().enumerate().map(difference).collect();
    on_grid(&differences, s.degree, s.support.len(), Basis::Binomials)
}

/// Alters one cell modulo 2^width, by some power of two often.
pub fn damage(values: &mut [u64], width: u64, r: &mut Random) {
    let cell = r.below(values.len() as u64) as usize;
    let by = if r.one_in(2) { 1 << r.below(width) } else { r.next() | 1 << r.below(width) };
    values[cell] = values[cell].wrapping_add(by);
}

/// Values with the bits above the width made up, left out, or as they are.
pub fn noisy(mut values: Vec<u64>, width: u64, r: &mut Random) -> Vec<u64> {
    let low = low_bits(width);
    match r.below(3) {
        0 => {}
        1 => values.iter_mut().for_each(|v| *v &= low),
        _ => values.iter_mut().for_each(|v| *v = *v & low | r.next() & !low),
    }
    values
}

/// The refusal before a difference is looked at.
fn number(c: &Case) -> u32 {
    settings(c).refusal(true, &lengths::<2>(c)).unwrap_or(0)
}

/// The call on u64, with the call on bytes beside it.
pub fn judged(c: &Case) -> Answer {
    let (s, (values, out)) = (settings(c), in_and_out(c));
    let (answer, [lent, values, support], outside) = recovered(&values, &s, &out);
    let left = left(answer, lent, values, support);
    let above = matches!(number(c), 0 | 9) && s.cells() > Some(LIMIT);
    let large = above.then(|| must_leave(c, 8, out));
    beside(called(c, ours::cobra_recover_multivar_poly), left.outside(outside), large)
}

/// The Rust has 1 to 5 and judges the differences; 7, 8 and 9 are added and never sent to it.
fn expected(c: &Case) -> (Source, Answer) {
    let (s, (values, out)) = (settings(c), in_and_out(c));
    let refusal = number(c);
    if refusal > 5 {
        return (Source::Document, must_leave(c, refusal, out));
    }
    let (answer, out) = match rust::recovery(&values, &s) {
        Ok(cells) => (0, cells),
        Err(6) => (6, vec![0; out.len()]),
        Err(guard) => (guard, out),
    };
    (Source::Rust, must_leave(c, answer, out))
}
