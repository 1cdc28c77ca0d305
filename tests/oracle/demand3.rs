//! Consequences of demand 3 on the compiled code. Polynomials have whole-number coefficients and are
//! evaluated at whole-number points, negative ones too, in 128-bit arithmetic; a whole number below
//! zero stands in a case, and crosses to the library, modulo 2^64.

use crate::boxes::{digits, low_bits, moved, settings, shape, support, twos_of_cells, width};
use crate::definitions::{self, falling};
use crate::group::{Answer, Case, Group, Source};
use crate::ir::math_utils::degree_cap;
use crate::library_boxes::{conversions, poly, recovery, InOut};
use crate::random::Random;
use crate::reference as rust;
use crate::sameness::{
    self, change_a_coefficient, clear_outside, in_other_box, other_box, spoil_above_the_bounds,
};
use crate::settings::{power, Settings};

/// Each group with whether the library has its calls.
pub const GROUPS: [(&Group, bool); 8] = [
    (&VALUES, cfg!(all(cobra_recover_multivar_poly, cobra_box_value))),
    (
        &NORMAL_FORM,
        cfg!(all(cobra_recover_multivar_poly, cobra_normalize_polynomial, cobra_box_is_valid)),
    ),
    (&OTHER_FORM, cfg!(all(cobra_recover_multivar_poly, cobra_box_value))),
    (&DAMAGE, cfg!(cobra_recover_multivar_poly)),
    (&SUMS, cfg!(all(cobra_recover_multivar_poly, cobra_box_sum))),
    (&SAME_RECOVERIES, cfg!(all(cobra_recover_multivar_poly, cobra_box_same))),
    (&SAME_REDUCED, cfg!(all(cobra_reduce, cobra_box_same))),
    (&SAME_OF_THREE, cfg!(cobra_box_same)),
];

/// The numbers of a case; the seed decides the support. A number below its range stands for the least
/// one in it.
pub const NUMBERS: [&str; 4] = ["variables", "degree", "width", "seed"];

/// How many points a case with points has.
const POINTS: u64 = 4;

pub fn with<T>(c: &Case, then: impl FnOnce(&Settings) -> T) -> T {
    let mut r = Random::new(c.u64(3), "support");
    let (support, total) = support(c.u64(0).max(1), &mut r);
    let (width, degree) = (c.u32(2).max(2), c.u8(1).max(1));
    then(&Settings { support: &support, total: total as u32, width, degree })
}

pub fn random_case(most: u64, r: &mut Random) -> Case {
    let (variables, degree) = shape(1, most, r);
    Case::of([variables, degree, width(r), r.below(1 << 20)])
}

/// A polynomial of whole numbers in powers: few terms or many, small or of any size.
pub fn polynomial(c: &Case, r: &mut Random) -> Vec<u64> {
    let cells = power(c.u64(1) + 1, c.u64(0) as usize).expect("a small box");
    let (sparse, small) = (r.one_in(2), r.one_in(2));
    let coefficient = |r: &mut Random| match () {
        () if sparse && !r.one_in(4) => 0,
        () if small => r.below(41).wrapping_sub(20),
        () => r.word().wrapping_sub(r.word()),
    };
    (0..cells).map(|_| coefficient(r)).collect()
}

/// The value of a box at a point, modulo 2^128. An exponent e stands for the factors 0 to e - 1 of its coordinate.
pub fn value_at(coefficients: &[u64], s: &Settings, point: &[i128], factor: impl Fn(i128, u64) -> i128) -> u128 {
    let whole = |x: u64| i128::from(x as i64);
    let base = u64::from(s.degree) + 1;
    let mut sum = 0i128;
    for (cell, &coefficient) in coefficients.iter().enumerate().filter(|(_, &x)| x != 0) {
        let mut term = whole(coefficient);
        for (x, e) in point.iter().zip(digits(cell as u64, base, point.len())) {
            (0..e).for_each(|i| term = term.wrapping_mul(factor(*x, i)));
        }
        sum = sum.wrapping_add(term);
    }
    sum as u128
}

/// The factors of a power: all are the coordinate.
fn powers(x: i128, _: u64) -> i128 {
    x
}

/// The polynomial's values on the grid, modulo 2^64.
pub fn grid(coefficients: &[u64], s: &Settings) -> Vec<u64> {
    moved_grid(coefficients, s, &vec![0; s.support.len()])
}

/// Its values at the points of the grid with an offset added to each coordinate, modulo 2^64.
pub fn moved_grid(coefficients: &[u64], s: &Settings, offsets: &[u64]) -> Vec<u64> {
    let base = u64::from(s.degree) + 1;
    let value = |cell| {
        let point = digits(cell, base, s.support.len()).into_iter().map(i128::from);
        let moved: Vec<i128> = point.zip(offsets).map(|(x, &offset)| x + i128::from(offset)).collect();
        value_at(coefficients, s, &moved, powers) as u64
    };
    (0..s.cells().expect("a small box")).map(value).collect()
}

pub fn in_box(content: &[u64], s: &Settings) -> Vec<u64> {
    let mut cells = content.to_vec();
    cells.resize(s.cells().expect("a small box") as usize, 0);
    cells
}

fn call(call: InOut, cells: &[u64], s: &Settings) -> (u32, Vec<u64>) {
    let mut out = vec![0x5a; cells.len()];
    let (n, k, m) = (cells.len(), s.support.len(), out.len());
    let (from, on, to) = (cells.as_ptr(), s.support.as_ptr(), out.as_mut_ptr());
    let answer = unsafe { call(from, n, on, k, s.total, s.width, s.degree, to, m) };
    (answer, out)
}

/// Some points of a case, coordinate after coordinate.
pub fn points(c: &Case, r: &mut Random) -> Vec<u64> {
    let coordinate = |r: &mut Random| match r.below(3) {
        0 => r.below(2_000).wrapping_sub(1_000),
        1 => r.below(300).wrapping_neg(),
        _ => r.word(),
    };
    (0..POINTS * c.u64(0)).map(|_| coordinate(r)).collect()
}

pub fn recovered(values: &[u64], s: &Settings) -> (u32, Vec<u64>) {
    call(recovery::cobra_recover_multivar_poly, values, s)
}

/// The library's value of a box; a refusal cannot be missed.
pub fn value_of(cells: &[u64], s: &Settings, point: &[u64]) -> u64 {
    let (n, k, m, mut value) = (cells.len(), s.support.len(), point.len(), 0);
    let (from, on, at) = (cells.as_ptr(), s.support.as_ptr(), point.as_ptr());
    let answer = unsafe {
        poly::cobra_box_value(from, n, on, k, s.total, s.width, s.degree, at, m, &mut value)
    };
    if answer == 0 {
        value
    } else {
        u64::MAX - u64::from(answer)
    }
}

/// 3. An accepted answer has at every whole-number point the value of the polynomial.
const VALUES: Group = Group {
    name: "demand 3, values at whole-number points",
    names: &[NUMBERS[0], NUMBERS[1], NUMBERS[2], NUMBERS[3], "coefficients", "points"],
    small: |_| {},
    random: Some(|r| {
        let most = r.pick(&[9, 16, 27, 64]);
        let c = random_case(most, r);
        let coefficients = polynomial(&c, r);
        let points = points(&c, r);
        c.with(coefficients).with(points)
    }),
    cost: 1,
    judged: |c| {
        with(c, |s| {
            let (answer, cells) = recovered(&grid(&in_box(&c.tables[0], s), s), s);
            let points = c.tables[1].chunks_exact(s.support.len());
            let values = points.map(|point| value_of(&cells, s, point)).collect();
            Answer::number(answer).words("values", values)
        })
    },
    expected: |c| {
        with(c, |s| {
            let coefficients = in_box(&c.tables[0], s);
            let value = |point: &[u64]| {
                let point: Vec<i128> = point.iter().map(|&x| i128::from(x as i64)).collect();
                value_at(&coefficients, s, &point, powers) as u64 & low_bits(u64::from(s.width))
            };
            let values = c.tables[1].chunks_exact(s.support.len()).map(value).collect();
            (Source::Document, Answer::number(0).words("values", values))
        })
    },
};

/// 3 and 6. The answer is a normal form, and the polynomial's own.
const NORMAL_FORM: Group = Group {
    name: "demand 3, the polynomial's normal form",
    names: &[NUMBERS[0], NUMBERS[1], NUMBERS[2], NUMBERS[3], "coefficients"],
    small: |_| {},
    random: Some(|r| {
        let c = random_case(64, r);
        let coefficients = polynomial(&c, r);
        c.with(coefficients)
    }),
    cost: 2,
    judged: |c| {
        with(c, |s| {
            let coefficients = in_box(&c.tables[0], s);
            let (answer, found) = recovered(&grid(&coefficients, s), s);
            let (second, normal) = call(conversions::cobra_normalize_polynomial, &coefficients, s);
            let (n, k, mut valid) = (found.len(), s.support.len(), 0);
            let (from, on) = (found.as_ptr(), s.support.as_ptr());
            let third = unsafe {
                poly::cobra_box_is_valid(from, n, on, k, s.total, s.width, s.degree, &mut valid)
            };
            let said = Answer::number(answer.max(second).max(third)).and_value(valid);
            said.words("recovered", found).words("normal form", normal)
        })
    },
    expected: |c| {
        with(c, |s| {
            let normal =
                rust::normal_form(&in_box(&c.tables[0], s), s).expect("settings that pass");
            let said = Answer::number(0).and_value(1).words("recovered", normal.clone());
            (Source::Rust, said.words("normal form", normal))
        })
    },
};

/// 4. The answer agrees with the grid; a normal form that is another at one cell does not.
const OTHER_FORM: Group = Group {
    name: "demand 3, another normal form disagrees",
    names: &[NUMBERS[0], NUMBERS[1], NUMBERS[2], NUMBERS[3], "cell", "by", "coefficients"],
    small: |_| {},
    random: Some(|r| {
        let mut c = random_case(27, r);
        let coefficients = polynomial(&c, r);
        c.numbers.extend([r.below(coefficients.len() as u64), r.word()]);
        c.with(coefficients)
    }),
    cost: 4,
    judged: |c| {
        with(c, |s| {
            let values = grid(&in_box(&c.tables[0], s), s);
            let (answer, cells) = recovered(&values, s);
            let agrees = |cells: &[u64]| {
                let base = u64::from(s.degree) + 1;
                let differs = |cell: usize| {
                    let point = digits(cell as u64, base, s.support.len());
                    (value_of(cells, s, &point) ^ values[cell]) & low_bits(u64::from(s.width)) != 0
                };
                !(0..cells.len()).any(differs)
            };
            let mut other = cells.clone();
            let (cell, bits) = counting_cell(c.u64(4), s);
            let kept = low_bits(bits);
            let by = if c.u64(5) & kept == 0 { 1 } else { c.u64(5) };
            other[cell] = other[cell].wrapping_add(by) & kept;
            let agreeing = vec![u64::from(agrees(&cells)), u64::from(agrees(&other))];
            Answer::number(answer).words("whether the answer and the other agree", agreeing)
        })
    },
    expected: |_| {
        let said = Answer::number(0);
        (Source::Document, said.words("whether the answer and the other agree", vec![1, 0]))
    },
};

/// A cell and the number of its bits that count; cell 0 where none does.
fn counting_cell(number: u64, s: &Settings) -> (usize, u64) {
    let twos = twos_of_cells(s.degree, s.support.len());
    let cell = number as usize % twos.len();
    match s.width.saturating_sub(twos[cell]) {
        0 => (0, u64::from(s.width)),
        bits => (cell, u64::from(bits)),
    }
}

/// A grid of degree around `degree_cap` with one damaged cell: refused, or the answer is another.
const DAMAGE: Group = Group {
    name: "demand 3, one damaged cell",
    names: &[NUMBERS[0], NUMBERS[1], NUMBERS[2], NUMBERS[3], "cell", "by", "coefficients"],
    small: |_| {},
    random: Some(|r| {
        let width = width(r);
        let cap = u64::from(degree_cap(width as u32));
        let degree = r.between(cap - 2, cap + 1);
        let variables = if degree < 9 { r.between(1, 2) } else { 1 };
        let mut c = Case::of([variables, degree, width, r.below(1 << 20)]);
        let mut coefficients = polynomial(&c, r);
        if r.one_in(4) {
            coefficients.fill(0);
        }
        let by = 1 << r.below(width);
        c.numbers.extend([r.below(coefficients.len() as u64), by]);
        c.with(coefficients)
    }),
    cost: 4,
    judged: |c| {
        with(c, |s| {
            let mut values = grid(&in_box(&c.tables[0], s), s);
            let (answer, cells) = recovered(&values, s);
            let cell = c.u64(4) as usize % values.len();
            let none = c.u64(5) & low_bits(u64::from(s.width)) == 0;
            let by = if none { 1 } else { c.u64(5) };
            values[cell] = values[cell].wrapping_add(by);
            let (second, other) = recovered(&values, s);
            let told = match second {
                0 => other != cells,
                6 => other.iter().all(|&x| x == 0),
                _ => false,
            };
            Answer::number(answer).and_value(u64::from(told))
        })
    },
    expected: |_| (Source::Document, Answer::number(0).and_value(1)),
};

/// 5. The sum of two accepted grids is accepted, and its answer is the sum of theirs.
const SUMS: Group = Group {
    name: "demand 3, sums",
    names: &[NUMBERS[0], NUMBERS[1], NUMBERS[2], NUMBERS[3], "a", "b"],
    small: |_| {},
    random: Some(|r| {
        let c = random_case(64, r);
        let (a, b) = (polynomial(&c, r), polynomial(&c, r));
        c.with(a).with(b)
    }),
    cost: 2,
    judged: |c| {
        with(c, |s| {
            let (a, b) = (grid(&in_box(&c.tables[0], s), s), grid(&in_box(&c.tables[1], s), s));
            let (first, a_cells) = recovered(&a, s);
            let (second, b_cells) = recovered(&b, s);
            let (third, cells) = recovered(&sum_of_grids(&a, &b, s), s);
            let (fourth, sum) = sum_of(&a_cells, &b_cells, s);
            let said = Answer::number(first.max(second).max(third).max(fourth));
            said.words("answer of the sum", cells).words("sum of the answers", sum)
        })
    },
    expected: |c| {
        with(c, |s| {
            let (a, b) = (grid(&in_box(&c.tables[0], s), s), grid(&in_box(&c.tables[1], s), s));
            let cells = rust::recovery(&sum_of_grids(&a, &b, s), s).unwrap_or_default();
            let said = Answer::number(0).words("answer of the sum", cells.clone());
            (Source::Rust, said.words("sum of the answers", cells))
        })
    },
};

/// The library's sum of two boxes.
pub fn sum_of(a: &[u64], b: &[u64], s: &Settings) -> (u32, Vec<u64>) {
    let mut sum = vec![0x5a; a.len()];
    let (n, k) = (a.len(), s.support.len());
    let (a_at, b_at, on) = (a.as_ptr(), b.as_ptr(), s.support.as_ptr());
    let (total, width, degree, to) = (s.total, s.width, s.degree, sum.as_mut_ptr());
    let answer = unsafe { poly::cobra_box_sum(a_at, n, b_at, n, on, k, total, width, degree, to, n) };
    (answer, sum)
}

/// Cell by cell modulo 2^width.
fn sum_of_grids(a: &[u64], b: &[u64], s: &Settings) -> Vec<u64> {
    let low = low_bits(u64::from(s.width));
    a.iter().zip(b).map(|(&x, &y)| x.wrapping_add(y) & low).collect()
}

/// Two recoveries of one polynomial, on grids of other degrees and with the support in another order, are the same; those of
/// two polynomials are, where the two have one normal form.
const SAME_RECOVERIES: Group = Group {
    name: "demand 3, sameness of recoveries",
    names: &[NUMBERS[0], NUMBERS[1], NUMBERS[2], NUMBERS[3], "more", "cell", "by", "coefficients"],
    small: |_| {},
    random: Some(|r| {
        let mut c = random_case(27, r);
        let coefficients = polynomial(&c, r);
        let by = if r.one_in(2) { 1 << r.below(64) } else { r.word() };
        c.numbers.extend([r.pick(&[0, 1, 2, 2]), r.below(1 << 20), by]);
        c.with(coefficients)
    }),
    cost: 2,
    judged: |c| {
        with_two_grids(c, |s, t, values| {
            let (first, a) = recovered(&values[0], s);
            let [(second, b), (third, other)] = [&values[1], &values[2]].map(|values| recovered(values, t));
            let both_ways = |b: &[u64]| vec![sameness::said(&a, s, b, t), sameness::said(b, t, &a, s)];
            let said = Answer::number(first.max(second).max(third));
            let said = said.words("of one polynomial, both ways", both_ways(&b));
            said.words("of two polynomials, both ways", both_ways(&other))
        })
    },
    expected: |c| {
        with_two_grids(c, |s, t, values| {
            let form = |values: &[u64], s: &Settings| rust::form(&rust::recovery(values, s).expect("a polynomial"), s);
            let (one, other) = (form(&values[0], s), form(&values[2], t));
            assert!(form(&values[1], t) == one, "the Rust's two recoveries of one polynomial are not equal");
            let said = Answer::number(0).words("of one polynomial, both ways", vec![1; 2]);
            (Source::Rust, said.words("of two polynomials, both ways", vec![u64::from(one == other); 2]))
        })
    },
};

/// The settings of a case; others with a higher degree and the support in another order, which the seed decides; and three
/// grids: the polynomial's under both, and under the second that of another one, to which `by` times the falling factorials of
/// one cell of the larger box is added.
fn with_two_grids<T>(c: &Case, then: impl FnOnce(&Settings, &Settings, [Vec<u64>; 3]) -> T) -> T {
    with(c, |s| {
        let (mut turned, mut r) = (s.support.to_vec(), Random::new(c.u64(3), "another order"));
        sameness::shuffle(&mut turned, &mut r);
        let t = Settings { support: &turned, degree: s.degree + c.u8(4), ..*s };
        let coefficients = in_box(&c.tables[0], s);
        let larger = grid(&moved(&coefficients, s, &t), &t);
        let digits = |cell: u64| digits(cell, u64::from(t.degree) + 1, turned.len());
        let exponents = digits(c.u64(5) % larger.len() as u64);
        let added = |cell: usize| {
            let factors = digits(cell as u64).into_iter().zip(&exponents).map(|(x, &e)| falling(x, e));
            factors.fold(c.u64(6), u64::wrapping_mul)
        };
        let other = larger.iter().enumerate().map(|(cell, value)| value.wrapping_add(added(cell))).collect();
        then(s, &t, [grid(&coefficients, s), larger, other])
    })
}

/// What the library's reduction leaves of a box.
pub fn reduced(cells: &[u64], s: &Settings) -> (u32, Vec<u64>) {
    let mut reduced = cells.to_vec();
    let (n, k, at, on) = (reduced.len(), s.support.len(), reduced.as_mut_ptr(), s.support.as_ptr());
    let answer = unsafe { poly::cobra_reduce(at, n, on, k, s.total, s.width, s.degree) };
    (answer, reduced)
}

/// A form is the same as what reduction leaves of it, and not when one bit below a bound is another.
const SAME_REDUCED: Group = Group {
    name: "demand 3, sameness of a reduced form",
    names: &[NUMBERS[0], NUMBERS[1], NUMBERS[2], NUMBERS[3], "cell", "bit", "coefficients"],
    small: |_| {},
    random: Some(|r| {
        let most = r.pick(&[9, 27, 64, 256]);
        let mut c = random_case(most, r);
        let cells = power(c.u64(1) + 1, c.u64(0) as usize).expect("a small box");
        c.numbers.extend([r.below(cells), r.below(64)]);
        c.with(r.words(cells))
    }),
    cost: 1,
    judged: |c| {
        with(c, |s| {
            let cells = in_box(&c.tables[0], s);
            let (answer, reduced) = reduced(&cells, s);
            let mut other = reduced.clone();
            let (cell, bits) = counting_cell(c.u64(4), s);
            other[cell] ^= 1 << (c.u64(5) % bits);
            let both_ways = |b: &[u64]| vec![sameness::said(&cells, s, b, s), sameness::said(b, s, &cells, s)];
            let said = Answer::number(answer).words("with the reduced form, both ways", both_ways(&reduced));
            said.words("with another bit, both ways", both_ways(&other))
        })
    },
    expected: |_| {
        let said = Answer::number(0).words("with the reduced form, both ways", vec![1; 2]);
        (Source::Document, said.words("with another bit, both ways", vec![0; 2]))
    },
};

/// Among three forms, each in its own box, sameness is reflexive, symmetric and transitive.
const SAME_OF_THREE: Group = Group {
    name: "demand 3, sameness of three forms",
    names: &[NUMBERS[0], NUMBERS[1], NUMBERS[2], NUMBERS[3], "coefficients"],
    small: |_| {},
    random: Some(|r| {
        let c = random_case(27, r);
        let cells = power(c.u64(1) + 1, c.u64(0) as usize).expect("a small box");
        c.with(r.words(cells))
    }),
    cost: 2,
    judged: |c| {
        let all = each_with_each(c, sameness::said);
        let same = |i: usize, j: usize| all[3 * i + j] == 1;
        let holds = (0..27).map(|n| (n / 9, n / 3 % 3, n % 3)).all(|(i, j, k)| {
            same(i, i) && same(i, j) == same(j, i) && (same(i, k) || !same(i, j) || !same(j, k))
        });
        Answer::value(holds.into()).words("each form with each", all)
    },
    expected: |c| {
        let all = each_with_each(c, |a, s, b, t| definitions::same(a, s, b, t).into());
        (Source::Document, Answer::value(1).words("each form with each", all))
    },
};

/// The form of a case and two more in other boxes, with its values but for a coefficient here and there, which the seed
/// decides: what is said of each with each.
fn each_with_each(c: &Case, said: fn(&[u64], &Settings, &[u64], &Settings) -> u64) -> Vec<u64> {
    let mut r = Random::new(c.u64(3), "three forms");
    let mut first = with(c, |s| {
        let form = Case::of([s.total.into(), s.width.into(), s.degree.into(), 0, 0]).with(s.support.to_vec());
        form.with(in_box(&c.tables[0], s))
    });
    let boxes = [(); 2].map(|()| other_box(&first, &mut r));
    boxes.iter().for_each(|other| clear_outside(&mut first, other));
    let [second, third] = boxes.map(|other| in_other_box(&first, &other));
    let mut forms = [first, second, third];
    for form in &mut forms {
        spoil_above_the_bounds(form, &mut r);
        if r.one_in(4) {
            change_a_coefficient(form, &mut r);
        }
    }
    let pairs = forms.iter().flat_map(|a| forms.iter().map(move |b| (a, b)));
    pairs.map(|(a, b)| said(&a.tables[1], &settings(a), &b.tables[1], &settings(b))).collect()
}
