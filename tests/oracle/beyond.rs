//! Beyond the box: what recovery's answer says of larger grids, of points off the grid, and of polynomials
//! with exponents that the box does not have. A polynomial is a list of terms with exponents of any size;
//! it is evaluated modulo 2^64, which every 2^width divides. A whole number below zero stands in a case,
//! and crosses to the library, modulo 2^64 or modulo 2^width.

use crate::boxes::{self, digits, filled, low_bits, shape, width};
use crate::bytes::{self, LIMIT};
use crate::demand3::{in_box, random_case, recovered, value_of, with, NUMBERS};
use crate::group::{Answer, Case, Group, Source};
use crate::library::cobra_degree_cap;
use crate::random::Random;
use crate::recovery::{damage, edge_values, noisy};
use crate::reference as rust;
use crate::settings::Settings;

/// The calls on u64 and the ones on bytes.
const HAS_CALLS: bool = cfg!(all(cobra_recover_multivar_poly, cobra_box_value, cobra_recover, cobra_value));

/// Each group with whether the library has its calls.
pub const GROUPS: [(&Group, bool); 4] =
    [(&STAYS_REFUSED, HAS_CALLS), (&DECIDING, HAS_CALLS), (&LEFT_OPEN, HAS_CALLS), (&ANY_DEGREE, HAS_CALLS)];

/// Added to the number of a call on bytes that is not the right one beside the call on u64.
const ON_BYTES: u32 = 100;

/// Recovery by the call on u64, where the call on bytes agrees with it or, above its limit, says 8.
fn recovered_both(values: &[u64], s: &Settings) -> (u32, Vec<u64>) {
    let (said, before) = (recovered(values, s), filled(0, values.len()));
    let (number, [out, ..], outside) = bytes::recovered(values, s, &before);
    let right = if values.len() as u64 > LIMIT { (8, before) } else { said.clone() };
    if (number, &out) == (right.0, &right.1) && outside == 0 {
        said
    } else {
        (ON_BYTES + number, out)
    }
}

/// The value by the call on u64, where the call on bytes agrees with it or, above its limit, says 8.
fn value_both(cells: &[u64], s: &Settings, point: &[u64]) -> u64 {
    let value = value_of(cells, s, point);
    let (number, by_bytes, _, outside) = bytes::value(cells, s, point);
    let right = if cells.len() as u64 > LIMIT { (8, 0) } else { (0, value) };
    if (number, by_bytes) == right && outside == 0 {
        value
    } else {
        u64::MAX - u64::from(ON_BYTES + number)
    }
}

/// The library's `degree_cap` of a width that has one.
fn cap(width: u32) -> u64 {
    let mut value = 0;
    assert_eq!(unsafe { cobra_degree_cap(width, &mut value) }, 0, "a width that passes");
    value
}

/// A polynomial: terms one after the other, each a coefficient and the exponents of the variables, none
/// above `most`; coefficients below zero too.
fn polynomial(variables: u64, most: u64, r: &mut Random) -> Vec<u64> {
    let small = r.one_in(2);
    let coefficient = |r: &mut Random| match small {
        true => r.below(41).wrapping_sub(20),
        false => r.word().wrapping_sub(r.word()),
    };
    let exponent = |r: &mut Random| match r.below(4) {
        0 => r.below(4).min(most),
        1 => most - r.below(4).min(most),
        _ => r.between(0, most),
    };
    let mut terms = Vec::new();
    for _ in 0..r.between(1, 6) {
        terms.push(coefficient(r));
        terms.extend((0..variables).map(|_| exponent(r)));
    }
    terms
}

/// Its value at a point, modulo 2^64.
fn value_at(terms: &[u64], point: &[u64]) -> u64 {
    let power = |(x, &e): (&u64, &u64)| x.wrapping_pow(e as u32);
    let term = |t: &[u64]| point.iter().zip(&t[1..]).map(power).fold(t[0], u64::wrapping_mul);
    terms.chunks_exact(point.len() + 1).map(term).fold(0, u64::wrapping_add)
}

fn point_of(cell: usize, s: &Settings) -> Vec<u64> {
    digits(cell as u64, u64::from(s.degree) + 1, s.support.len())
}

/// Its values on the grid.
fn on_grid(terms: &[u64], s: &Settings) -> Vec<u64> {
    let cells = s.cells().expect("a box within the limit") as usize;
    (0..cells).map(|cell| value_at(terms, &point_of(cell, s))).collect()
}

fn low(s: &Settings) -> u64 {
    low_bits(u64::from(s.width))
}

/// The Rust's recovery: its number, and the output that belongs to it.
fn rust_said(values: &[u64], s: &Settings) -> (u32, Vec<u64>) {
    match rust::recovery(values, s) {
        Ok(cells) => (0, cells),
        Err(number) => (number, vec![0; values.len()]),
    }
}

/// A grid that is refused with 6 stays refused when it is enlarged, whatever the other values are.
const STAYS_REFUSED: Group = Group {
    name: "beyond the box, a refused grid stays refused",
    names: &[NUMBERS[0], NUMBERS[1], NUMBERS[2], NUMBERS[3], "more", "values of the larger grid"],
    small: |_| {},
    random: Some(|r| loop {
        let mut c = two_grids(r);
        c.tables.push(refused_values(&c, r));
        if with(&c, |s| rust_said(&part(&c, s), s).0) == 6 {
            return c;
        }
    }),
    cost: 2,
    judged: judged_twice,
    expected: |c| {
        with(c, |s| {
            let ((t, values), said) = (larger(c, s), rust_said(&part(c, s), s));
            // a case that was made smaller may be accepted, which says nothing of the larger grid
            let (number, out) = if said.0 == 6 { (6, vec![0; values.len()]) } else { rust_said(&values, &t) };
            (Source::Rust, both_said(said, out, [number; 2]))
        })
    },
};

/// The grid and the larger one.
fn judged_twice(c: &Case) -> Answer {
    with(c, |s| {
        let (t, values) = larger(c, s);
        let (number, out) = recovered_both(&values, &t);
        both_said(recovered_both(&part(c, s), s), out, [number, rust_said(&values, &t).0])
    })
}

/// What is said of a grid, and of a larger one here and in the Rust.
fn both_said((number, out): (u32, Vec<u64>), larger: Vec<u64>, numbers: [u32; 2]) -> Answer {
    let said = Answer::number(number).words("output", out).words("output of the larger grid", larger);
    said.words("the larger grid's numbers, here and in the Rust", numbers.map(u64::from).to_vec())
}

/// A case of a grid and a larger one, without values.
fn two_grids(r: &mut Random) -> Case {
    let most = r.pick(&[16, 16, 64, 64, 256, 256, 1_024, 4_096]);
    let (variables, degree) = shape(3, most, r);
    let more = r.between(1, degree - 2);
    Case::of([variables, degree - more, width(r), r.below(1 << 20), more])
}

fn larger_settings<'a>(c: &Case, s: &Settings<'a>) -> Settings<'a> {
    Settings { degree: s.degree + c.u8(4).max(1), ..*s }
}

/// The settings and values of the larger grid.
fn larger<'a>(c: &Case, s: &Settings<'a>) -> (Settings<'a>, Vec<u64>) {
    let t = larger_settings(c, s);
    (t, in_box(&c.tables[0], &t))
}

/// The number that a cell of the grid has in a larger one.
fn place(cell: usize, s: &Settings, t: &Settings) -> usize {
    boxes::place(cell, s, t).expect("a place in the larger grid")
}

/// The values of the smaller grid: the larger one's, with other bits above the width.
fn part(c: &Case, s: &Settings) -> Vec<u64> {
    let ((t, values), mut r) = (larger(c, s), Random::new(c.u64(3), "bits above the width"));
    let cells = s.cells().expect("a box within the limit") as usize;
    noisy((0..cells).map(|cell| values[place(cell, s, &t)]).collect(), u64::from(s.width), &mut r)
}

/// Values of a larger grid whose part is likely to be refused: all differences but one of the part's are
/// divisible; or the part is a polynomial's with one wrong reading, and the others are its values too, or
/// any; or all values are any.
fn refused_values(c: &Case, r: &mut Random) -> Vec<u64> {
    with(c, |s| {
        let t = larger_settings(c, s);
        let [cells, all] = [s, &t].map(|s| s.cells().expect("a box within the limit"));
        let terms = polynomial(c.u64(0), 2 * u64::from(t.degree), r);
        let mut values = match r.below(4) {
            0 => return edge_values(&t, place(r.below(cells) as usize, s, &t) as u64, r),
            1 => return r.words(all),
            2 => r.words(all),
            _ => on_grid(&terms, &t),
        };
        let mut part = on_grid(&terms, s);
        damage(&mut part, c.u64(2), r);
        part.iter().enumerate().for_each(|(cell, &v)| values[place(cell, s, &t)] = v);
        values
    })
}

/// How many points a case of `DECIDING` has.
const POINTS: u64 = 4;

/// From the degree `degree_cap` - 1 on the answer has the value of the polynomial at every point, whatever
/// its exponents are.
const DECIDING: Group = Group {
    name: "beyond the box, deciding grids",
    names: &[NUMBERS[0], "degree above the deciding one", NUMBERS[2], NUMBERS[3], "terms", "points"],
    small: |_| {},
    random: Some(|r| {
        let variables = r.between(1, 2);
        let width = match (variables, r.below(64)) {
            (2, 0) => r.between(17, 64),
            (2, 1..=7) => r.between(9, 16),
            (2, _) => r.between(2, 8),
            (_, 0..=15) => r.pick(&[8, 16, 32, 64]),
            _ => width(r),
        };
        let more = if r.one_in(3) { r.between(1, 3) } else { 0 };
        let c = Case::of([variables, more, width, r.below(1 << 20)]);
        let terms = polynomial(variables, 2 * cap(width as u32), r);
        let points = with_deciding(&c, 0, |_, s| (0..POINTS).flat_map(|_| off_the_grid(s, r)).collect());
        c.with(terms).with(points)
    }),
    cost: 4,
    judged: |c| with_deciding(c, 0, judged_off_the_grid),
    expected: |c| with_deciding(c, 0, expected_off_the_grid),
};

/// The settings of a case whose degree decides, or is short of that.
fn with_deciding<T>(c: &Case, short: u64, then: impl FnOnce(&Case, &Settings) -> T) -> T {
    with(c, |s| then(c, &Settings { degree: (cap(s.width) - 1 + c.u64(1) - short) as u8, ..*s }))
}

fn judged_off_the_grid(c: &Case, s: &Settings) -> Answer {
    let (number, cells) = recovered_both(&on_grid(&c.tables[0], s), s);
    let points = c.tables[1].chunks_exact(s.support.len());
    let values = points.map(|point| value_both(&cells, s, point)).collect();
    Answer::number(number).words("recovered", cells).words("values", values)
}

fn expected_off_the_grid(c: &Case, s: &Settings) -> (Source, Answer) {
    let cells = rust_said(&on_grid(&c.tables[0], s), s).1;
    let points = c.tables[1].chunks_exact(s.support.len());
    let values = points.map(|point| value_at(&c.tables[0], point) & low(s)).collect();
    (Source::Rust, Answer::number(0).words("recovered", cells).words("values", values))
}

/// A point whose first coordinate is no grid coordinate: large, or below zero modulo 2^64 or 2^width.
fn off_the_grid(s: &Settings, r: &mut Random) -> Vec<u64> {
    let coordinate = |r: &mut Random| match r.below(4) {
        0 => r.below(300).wrapping_neg(),
        1 => r.between(1, 300).wrapping_neg() & low(s),
        2 => r.below(2_000),
        _ => r.word(),
    };
    let mut point: Vec<u64> = s.support.iter().map(|_| coordinate(r)).collect();
    if point[0] <= u64::from(s.degree) {
        point[0] = !point[0];
    }
    point
}

/// Below the deciding degree x_(d+1) is zero on the grid and not at d + 1, so that nothing there tells it
/// from zero; the next larger grid does. At the deciding degree it is zero everywhere.
const LEFT_OPEN: Group = Group {
    name: "beyond the box, below the deciding degree",
    names: &NUMBERS,
    small: |give| {
        for width in 2..=64 {
            for degree in 1..cap(width) {
                let most = if width <= 16 { 2 } else { 1 };
                (1..=most).for_each(|k| give(Case::of([k, degree, u64::from(width), degree])));
            }
        }
    },
    random: None,
    cost: 1,
    judged: |c| {
        with(c, |s| {
            let t = Settings { degree: s.degree + 1, ..*s };
            let zeros = vec![0; s.cells().expect("a box within the limit") as usize];
            let mut product = in_box(&[], &t);
            product[usize::from(t.degree)] = 1;
            let at = |point: &[u64]| value_both(&product, &t, point);
            let (number, answer) = recovered_both(&zeros, s);
            let on_the_grid = (0..zeros.len()).map(|cell| at(&point_of(cell, s))).collect();
            let values: Vec<u64> = (0..product.len()).map(|cell| at(&point_of(cell, &t))).collect();
            let (second, other) = recovered_both(&values, &t);
            let said = Answer::number(number.max(second)).words("answer to zeros", answer);
            let said = said.words("x_(d+1) on the grid", on_the_grid).and_value(at(&next(s)));
            let open = u64::from(u64::from(t.degree) < cap(s.width));
            said.words("its answer on the next grid", other).words("whether it is left open", vec![open])
        })
    },
    expected: |c| {
        with(c, |s| {
            let t = Settings { degree: s.degree + 1, ..*s };
            let zeros = vec![0; s.cells().expect("a box within the limit") as usize];
            let factorial = (1..=u64::from(t.degree)).fold(1, u64::wrapping_mul) & low(s);
            let open = u64::from(factorial != 0);
            let mut product = in_box(&[], &t);
            product[usize::from(t.degree)] = open;
            let answer = rust::recovery(&zeros, s).unwrap_or_default();
            let said = Answer::number(0).words("answer to zeros", answer);
            let said = said.words("x_(d+1) on the grid", zeros).and_value(factorial);
            let said = said.words("its answer on the next grid", product);
            (Source::Rust, said.words("whether it is left open", vec![open]))
        })
    },
};

/// The point whose first coordinate is the first beside the grid.
fn next(s: &Settings) -> Vec<u64> {
    s.support.iter().enumerate().map(|(i, _)| if i == 0 { u64::from(s.degree) + 1 } else { 5 }).collect()
}

/// A polynomial is accepted on every grid, whatever its exponents are, and the answer has its values there.
const ANY_DEGREE: Group = Group {
    name: "beyond the box, polynomials of any degree",
    names: &[NUMBERS[0], NUMBERS[1], NUMBERS[2], NUMBERS[3], "terms"],
    small: |give| {
        // single powers
        for width in [2, 3, 8, 33, 64] {
            for degree in 1..=12 {
                for e in (0..=40).chain([63, 64, 65, 66, 127, 128, 255, 256, 1_000_000]) {
                    give(Case::of([1, degree, width, 0]).with(vec![1, e]));
                }
            }
        }
    },
    random: Some(|r| {
        let most = r.pick(&[9, 27, 64, 64, 256]);
        let c = random_case(most, r);
        let highest = r.pick(&[c.u64(1), 2 * c.u64(1) + 2, 140, 1_000, 1 << 31]);
        let terms = polynomial(c.u64(0), highest, r);
        c.with(terms)
    }),
    cost: 2,
    judged: |c| with(c, |s| judged_on_the_grid(on_grid(&c.tables[0], s), s)),
    expected: |c| with(c, |s| expected_on_the_grid(on_grid(&c.tables[0], s), s)),
};

fn judged_on_the_grid(values: Vec<u64>, s: &Settings) -> Answer {
    let (number, cells) = recovered_both(&values, s);
    let values = (0..cells.len()).map(|cell| value_of(&cells, s, &point_of(cell, s))).collect();
    Answer::number(number).words("recovered", cells).words("values", values)
}

fn expected_on_the_grid(values: Vec<u64>, s: &Settings) -> (Source, Answer) {
    let (cells, values) = (rust_said(&values, s).1, rust::reduced(&values, s.width));
    (Source::Rust, Answer::number(0).words("recovered", cells).words("values", values))
}

/// Statements that are close to the groups' and false: the self-test has to refute each of them.
pub const REFUTED: [(&Group, bool); 4] =
    [(&STAYS_ACCEPTED, HAS_CALLS), (&ONE_SHORT, HAS_CALLS), (&NEVER_OPEN, HAS_CALLS), (&WRONG_READING, HAS_CALLS)];

/// An accepted grid stays accepted when it is enlarged.
const STAYS_ACCEPTED: Group = Group {
    name: "beyond the box, an accepted grid stays accepted",
    random: Some(|r| {
        let mut c = two_grids(r);
        let values = with(&c, |s| on_grid(&polynomial(c.u64(0), 9, r), &larger_settings(&c, s)));
        c.tables.push(values);
        *c.tables[0].last_mut().expect("a grid") ^= 1;
        c
    }),
    judged: judged_twice,
    expected: |c| {
        with(c, |s| {
            let ((t, values), said) = (larger(c, s), rust_said(&part(c, s), s));
            let number = said.0;
            (Source::Rust, both_said(said, rust_said(&values, &t).1, [number; 2]))
        })
    },
    ..STAYS_REFUSED
};

/// A grid one degree short of the deciding one decides.
const ONE_SHORT: Group = Group {
    name: "beyond the box, grids one degree short decide",
    judged: |c| with_deciding(c, 1, judged_off_the_grid),
    expected: |c| with_deciding(c, 1, expected_off_the_grid),
    ..DECIDING
};

/// x_(d+1), which is zero on the grid, is zero at d + 1 too.
const NEVER_OPEN: Group = Group {
    name: "beyond the box, zero on the grid is zero beside it",
    expected: |c| {
        let (from, mut answer) = (LEFT_OPEN.expected)(c);
        answer.0.iter_mut().filter(|part| part.label == "value").for_each(|part| part.cells.fill(0));
        (from, answer)
    },
    ..LEFT_OPEN
};

/// A polynomial's values with a wrong last reading are accepted.
const WRONG_READING: Group = Group {
    name: "beyond the box, a wrong reading is accepted",
    judged: |c| with(c, |s| judged_on_the_grid(wrong_reading(c, s), s)),
    expected: |c| with(c, |s| expected_on_the_grid(wrong_reading(c, s), s)),
    ..ANY_DEGREE
};

fn wrong_reading(c: &Case, s: &Settings) -> Vec<u64> {
    let mut values = on_grid(&c.tables[0], s);
    *values.last_mut().expect("a grid") ^= 1;
    values
}
