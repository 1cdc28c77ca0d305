//! The moved datum: the normal form of a box's polynomial with each variable replaced by itself plus its offset, modulo 2^width.
//! The Rust has no such call. Its recovery of the values at the moved grid points is that form, the only one that has these
//! values; the definition, coefficient by coefficient, has to say the same, else the run ends, and is alone at degree 0, which
//! recovery refuses. Whole numbers below zero stand in a case, and cross to the library, modulo 2^64 or modulo 2^width.

use crate::box_calls::{above_the_limit, accepted, PLAIN};
use crate::boxes::{
    along_each, coefficients, digits, every_set_of_causes, factors, filled, large_box, left, length, lent, low_bits, most_cells,
    random_box, settings, spoil, twos_of_cells, Basis, NUMBERS, SIDE,
};
use crate::definitions::{below_the_bound, falling, value};
use crate::demand3::{
    grid, in_box, moved_grid, points, polynomial, random_case, recovered, reduced, sum_of, value_at, value_of, with,
    NUMBERS as SHAPE,
};
use crate::group::{Answer, Case, Group, Lent, Source};
use crate::library_boxes::datum as ours;
use crate::random::Random;
use crate::reference as rust;
use crate::sameness::every_form;
use crate::settings::{power, Settings};

/// Each group with whether the library has its calls.
pub const GROUPS: [(&Group, bool); 9] = [
    (&WHOLE_BOXES, cfg!(cobra_move_datum)),
    (&LARGE_BOXES, cfg!(cobra_move_datum)),
    (&REFUSED, cfg!(cobra_move_datum)),
    (&SMALL_FORMS, cfg!(all(cobra_move_datum, cobra_box_value))),
    (&VALUES, cfg!(all(cobra_move_datum, cobra_box_value))),
    (&BY_ZERO, cfg!(all(cobra_move_datum, cobra_reduce))),
    (&TWICE, cfg!(cobra_move_datum)),
    (&SUMS, cfg!(all(cobra_move_datum, cobra_box_sum))),
    (&RECOVERED, cfg!(all(cobra_move_datum, cobra_recover_multivar_poly))),
];

const NAMES: &[&str] =
    &[NUMBERS[0], NUMBERS[1], NUMBERS[2], NUMBERS[3], NUMBERS[4], "support", "coefficients", "offsets"];

/// Random boxes, normal or not, and single falling factorials.
const WHOLE_BOXES: Group = Group {
    name: "move_datum",
    names: NAMES,
    small: |give| {
        for width in [2, 3, 8, 33, 63, 64] {
            for offset in (0..=9).chain([255, 256, 1 << 32, 1 << 63, u64::MAX - 1, u64::MAX]) {
                for e in (0..=9).chain([65, 66, 255]) {
                    let mut cells = vec![0; e + 1];
                    cells[e] = 1;
                    give(Case::of([1, width, e as u64, 0, offset]).with(vec![0]).with(cells).with(vec![offset]));
                }
            }
        }
    },
    random: Some(some_box),
    cost: 1,
    judged,
    expected: |c| must_leave(c, right),
};

/// Boxes to the limit.
const LARGE_BOXES: Group = Group {
    name: "move_datum, large boxes",
    names: NAMES,
    small: |_| {},
    random: Some(|r| {
        let c = large_box(r);
        with_tables(c, r)
    }),
    cost: 2_500,
    judged,
    expected: |c| must_leave(c, right),
};

/// Settings and lengths that are refused.
const REFUSED: Group = Group {
    name: "move_datum, settings and lengths",
    names: NAMES,
    small: |give| {
        let with_offsets = |mut c: Case| {
            c.tables[2] = vec![1, 2, 3];
            c
        };
        every_set_of_causes(&with_offsets(accepted(8, 2)), &PLAIN, number, give);
        above_the_limit(2, &mut |c| give(with_offsets(c)));
        // each table without entries, an entry too short and too long, and very long
        for (degree, support) in [(2, vec![0]), (2, vec![3, 0, 2]), (0, (0..20).rev().collect())] {
            let mut c = Case::of([20, 8, degree, 0, 0]).with(support).with(vec![5; 27]).with(vec![7; 20]);
            for (table, exact) in exact_lengths(&c).into_iter().enumerate() {
                let exact = exact.expect("a box within the limit");
                for len in [0, exact - 1, exact + 1, 1_000] {
                    c.numbers[3] = wrong_length(table as u64, exact, len);
                    give(c.clone());
                }
            }
        }
    },
    random: Some(|r| loop {
        let mut c = some_box(r);
        spoil(&mut c, &PLAIN, r);
        if number(&c) != 0 {
            return c;
        }
    }),
    cost: 4,
    judged,
    expected: |c| must_leave(c, right),
};

fn some_box(r: &mut Random) -> Case {
    let (least_degree, most) = (r.pick(&[0, 1, 2, 2]), most_cells(r).min(256));
    let c = random_box(least_degree, most, r);
    with_tables(c, r)
}

fn with_tables(mut c: Case, r: &mut Random) -> Case {
    c.tables.push(coefficients(&c, r));
    c.tables.push(offsets(c.tables[0].len() as u64, c.u64(1), r));
    c
}

/// An offset for each variable: any, small, below zero modulo 2^64 or 2^width, a multiple of 2^width and a little more; now and
/// then 0 for all but one.
fn offsets(k: u64, width: u64, r: &mut Random) -> Vec<u64> {
    let low = low_bits(width);
    let alone = if r.one_in(6) { Some(r.below(k)) } else { None };
    let offset = |r: &mut Random| match r.below(6) {
        0 => r.below(40),
        1 => r.below(300).wrapping_neg(),
        2 => r.below(300).wrapping_neg() & low,
        3 => (r.next() & !low) + r.below(3),
        _ => r.word(),
    };
    (0..k).map(|i| if alone.map_or(true, |one| one == i) { offset(r) } else { 0 }).collect()
}

/// The lent tables: coefficients, offsets, output.
const TABLES: u64 = 3;

fn exact_lengths(c: &Case) -> [Option<u64>; TABLES as usize] {
    let s = settings(c);
    [s.cells(), Some(s.support.len() as u64), s.cells()]
}

fn tables(c: &Case) -> [Vec<u64>; TABLES as usize] {
    let [cells, variables, out] = exact_lengths(c);
    let length = |table, exact| length(c.u64(3), table, TABLES, exact, c.tables[1].len());
    let (coefficients, offsets) = (lent(&c.tables[1], length(0, cells)), lent(&c.tables[2], length(1, variables)));
    [coefficients, offsets, filled(c.u64(4), length(2, out))]
}

/// The `wrong_length` that gives one table this length.
fn wrong_length(table: u64, exact: u64, len: u64) -> u64 {
    let how = 2 * (exact.abs_diff(len) - 1) + u64::from(len < exact);
    1 + table + (TABLES + 1) * how
}

fn number(c: &Case) -> u32 {
    let (s, lengths) = (settings(c), tables(c).map(|table| table.len()));
    let lengths: Vec<_> = lengths.into_iter().zip(exact_lengths(c)).collect();
    s.guard(false).or_else(|| s.added(s.cells(), &lengths)).unwrap_or(0)
}

fn judged(c: &Case) -> Answer {
    let (s, [coefficients, offsets, out]) = (settings(c), tables(c));
    let (mut cells, mut support) = (Lent::new(&coefficients), Lent::new(s.support));
    let (mut offsets, mut out) = (Lent::new(&offsets), Lent::new(&out));
    let (n, k, m, o) = (cells.len(), support.len(), offsets.len(), out.len());
    let (from, on, by, to) = (cells.at(), support.at(), offsets.at(), out.at());
    let answer = unsafe { ours::cobra_move_datum(from, n, on, k, s.total, s.width, s.degree, by, m, to, o) };
    let outside = cells.outside() + support.outside() + offsets.outside() + out.outside();
    let said = left(answer, out.content(), cells.content(), support.content());
    said.words("offsets", offsets.content()).outside(outside)
}

type Moved = fn(&[u64], &Settings, &[u64]) -> (Source, Vec<u64>);

/// What the call has to leave behind, where this is the moved form.
fn must_leave(c: &Case, moved: Moved) -> (Source, Answer) {
    let (s, [cells, offsets, out], number) = (settings(c), tables(c), number(c));
    let (from, out) = if number == 0 { moved(&cells, &s, &offsets) } else { (Source::Document, out) };
    (from, left(number, out, cells, s.support.to_vec()).words("offsets", offsets).outside(0))
}

/// The moved form by both judges.
fn right(cells: &[u64], s: &Settings, offsets: &[u64]) -> (Source, Vec<u64>) {
    let form = defined(cells, s, offsets, below_the_bound);
    if s.degree == 0 {
        return (Source::Document, form);
    }
    let recovered = rust::recovery(&moved_values(cells, s, offsets), s).expect("the values of a polynomial");
    assert!(recovered == form, "the judges disagree: {cells:?} over {:?} by {offsets:?}", s.support);
    (Source::Rust, recovered)
}

/// The values of a box at the moved points of its grid, modulo 2^64.
fn moved_values(cells: &[u64], s: &Settings, offsets: &[u64]) -> Vec<u64> {
    let base = usize::from(s.degree) + 1;
    let rows = |&offset: &u64| (0..base as u64).flat_map(|x| products(offset.wrapping_add(x), base)).collect();
    let rows: Vec<Vec<u64>> = offsets.iter().map(rows).collect();
    along_each(cells, s.degree, offsets.len(), |variable, x| &rows[variable][x * base..])
}

/// The falling factorials of x with 0, 1, 2, .. factors, modulo 2^64.
fn products(x: u64, many: usize) -> Vec<u64> {
    let mut all = vec![1u64];
    (1..many).for_each(|n| all.push(all[n - 1].wrapping_mul(x.wrapping_sub(n as u64 - 1))));
    all
}

/// Coefficient by coefficient, in the bits that count: the falling factorial of n factors of x + a is the sum over j of that of
/// j factors of x, times n over j, times that of n - j factors of a.
fn defined(cells: &[u64], s: &Settings, offsets: &[u64], count: fn(u32, u32) -> u64) -> Vec<u64> {
    let base = usize::from(s.degree) + 1;
    let of_offsets: Vec<_> = offsets.iter().map(|&offset| products(offset, base)).collect();
    in_bits(expanded(cells, s, &of_offsets), s, count)
}

/// The coefficients where each term of n factors of a variable is replaced by the sum over j of its term of j factors, times n
/// over j, times entry n - j of the list of its offset, modulo 2^64.
fn expanded(cells: &[u64], s: &Settings, of_offsets: &[Vec<u64>]) -> Vec<u64> {
    let (base, binomials) = (usize::from(s.degree) + 1, factors(Basis::Binomials));
    let entry = |list: &[u64], j: usize, n: usize| match n.checked_sub(j) {
        Some(rest) => binomials[n * SIDE + j].wrapping_mul(list[rest]),
        None => 0,
    };
    let rows = |list: &Vec<u64>| (0..base * base).map(|i| entry(list, i / base, i % base)).collect();
    let rows: Vec<Vec<u64>> = of_offsets.iter().map(rows).collect();
    along_each(cells, s.degree, rows.len(), |variable, j| &rows[variable][j * base..])
}

/// The bits of each coefficient that count.
fn in_bits(cells: Vec<u64>, s: &Settings, count: fn(u32, u32) -> u64) -> Vec<u64> {
    let twos = twos_of_cells(s.degree, s.support.len());
    cells.iter().zip(twos).map(|(cell, q)| cell & count(s.width, q)).collect()
}

/// The library's moved form.
fn moved(cells: &[u64], s: &Settings, offsets: &[u64]) -> (u32, Vec<u64>) {
    let mut out = vec![0x5a; cells.len()];
    let (n, k, m) = (cells.len(), s.support.len(), offsets.len());
    let (from, on, by, to) = (cells.as_ptr(), s.support.as_ptr(), offsets.as_ptr(), out.as_mut_ptr());
    let answer = unsafe { ours::cobra_move_datum(from, n, on, k, s.total, s.width, s.degree, by, m, to, n) };
    (answer, out)
}

/// A point plus offsets, two offsets or two boxes, entry by entry modulo 2^64.
fn plus(a: &[u64], b: &[u64]) -> Vec<u64> {
    a.iter().zip(b).map(|(&x, &y)| x.wrapping_add(y)).collect()
}

/// All boxes with entries below 2^width at widths 2 and 3, of one variable to degree 3 and some of two, by all offsets below
/// 2^width and two more. Beside the form stand its values at all points modulo 2^width, which decide those at all others.
const SMALL_FORMS: Group = Group {
    name: "move_datum, every small form",
    names: NAMES,
    small: |give| {
        for width in [2, 3] {
            let offsets: Vec<u64> = (0..1 << width).chain([1 << width, u64::MAX]).collect();
            for c in every_form(width, &[1], 4_096) {
                offsets.iter().for_each(|&a| give(c.clone().with(vec![a])));
            }
            for c in every_form(width, &[2, 0], 256) {
                let pairs = offsets.iter().flat_map(|&a| offsets.iter().map(move |&b| vec![a, b]));
                pairs.for_each(|pair| give(c.clone().with(pair)));
            }
        }
    },
    random: None,
    cost: 1,
    judged: |c| {
        let (s, said) = (settings(c), judged(c));
        let form = said.0[1].cells.clone();
        said.words(EVERY_POINT, at_every_point(c, |point| value_of(&form, &s, point)))
    },
    expected: |c| {
        let (s, [cells, offsets, _]) = (settings(c), tables(c));
        let (from, said) = must_leave(c, right);
        let values = at_every_point(c, |point| value(&cells, &s, &plus(point, &offsets), falling));
        (from, said.words(EVERY_POINT, values))
    },
};

const EVERY_POINT: &str = "values at every point";

/// Something of every point with coordinates below 2^width, where the settings and lengths pass.
fn at_every_point(c: &Case, value: impl Fn(&[u64]) -> u64) -> Vec<u64> {
    if number(c) != 0 {
        return Vec::new();
    }
    let (side, k) = (1u64 << c.u64(1), c.tables[0].len());
    (0..side.pow(k as u32)).map(|point| value(&digits(point, side, k))).collect()
}

/// The moved form has at every whole-number point the value that the box has at the moved point, in 128-bit arithmetic.
const VALUES: Group = Group {
    name: "move_datum, values at whole-number points",
    names: &[SHAPE[0], SHAPE[1], SHAPE[2], SHAPE[3], "coefficients", "offsets", "points"],
    small: |_| {},
    random: Some(|r| {
        let most = r.pick(&[9, 16, 27, 64]);
        let c = random_case(most, r);
        let (cells, offsets) = (any_cells(&c, r), any_offsets(&c, r));
        let points = points(&c, r);
        c.with(cells).with(offsets).with(points)
    }),
    cost: 1,
    judged: |c| {
        with_box(c, |s, cells| {
            let offsets = for_each_variable(&c.tables[1], s);
            let (answer, form) = moved(cells, s, &offsets);
            let points = || c.tables[2].chunks_exact(s.support.len());
            let there = points().map(|point| value_of(&form, s, point)).collect();
            let here = points().map(|point| value_of(cells, s, &plus(point, &offsets))).collect();
            Answer::number(answer).words("values of the moved form", there).words("values at the moved points", here)
        })
    },
    expected: |c| {
        with_box(c, |s, cells| {
            let offsets = for_each_variable(&c.tables[1], s);
            let value = |point: &[u64]| {
                let whole = |(&x, &offset): (&u64, &u64)| i128::from(x as i64) + i128::from(offset);
                let point: Vec<i128> = point.iter().zip(&offsets).map(whole).collect();
                let less = |x: i128, i: u64| x.wrapping_sub(i128::from(i));
                value_at(cells, s, &point, less) as u64 & low_bits(u64::from(s.width))
            };
            let values: Vec<u64> = c.tables[2].chunks_exact(s.support.len()).map(value).collect();
            let said = Answer::number(0).words("values of the moved form", values.clone());
            (Source::Document, said.words("values at the moved points", values))
        })
    },
};

/// The settings and the box of a case whose first table is the box.
fn with_box<T>(c: &Case, then: impl FnOnce(&Settings, &[u64]) -> T) -> T {
    with(c, |s| then(s, &in_box(&c.tables[0], s)))
}

fn for_each_variable(content: &[u64], s: &Settings) -> Vec<u64> {
    lent(content, s.support.len())
}

fn any_cells(c: &Case, r: &mut Random) -> Vec<u64> {
    r.words(power(c.u64(1) + 1, c.u64(0) as usize).expect("a small box"))
}

fn any_offsets(c: &Case, r: &mut Random) -> Vec<u64> {
    offsets(c.u64(0), c.u64(2), r)
}

/// Offset zero, modulo 2^width, leaves a normal form as it is, and of any box what reduction leaves.
const BY_ZERO: Group = Group {
    name: "move_datum, by zero",
    names: &[SHAPE[0], SHAPE[1], SHAPE[2], SHAPE[3], "coefficients", "multiples"],
    small: |_| {},
    random: Some(|r| {
        let most = most_cells(r).min(256);
        let c = random_case(most, r);
        let (cells, some) = (any_cells(&c, r), !r.one_in(2));
        let multiples = (0..c.u64(0)).map(|_| if some { r.word() } else { 0 }).collect();
        c.with(cells).with(multiples)
    }),
    cost: 4,
    judged: |c| {
        with_box(c, |s, cells| {
            let zero = |multiple: &u64| multiple.checked_shl(s.width).unwrap_or(0);
            let zeros: Vec<u64> = for_each_variable(&c.tables[1], s).iter().map(zero).collect();
            let (first, form) = moved(cells, s, &zeros);
            let (second, reduced) = reduced(cells, s);
            let (third, again) = moved(&reduced, s, &zeros);
            let said = Answer::number(first.max(second).max(third)).words("moved", form);
            said.words("reduced", reduced).words("the reduced form moved", again)
        })
    },
    expected: |c| {
        with_box(c, |s, cells| {
            let (from, form) = right(cells, s, &vec![0; s.support.len()]);
            let said = Answer::number(0).words("moved", form.clone());
            (from, said.words("reduced", form.clone()).words("the reduced form moved", form))
        })
    },
};

/// Moving by a and then by b is moving by their sum modulo 2^width, and moving back leaves the normal form.
const TWICE: Group = Group {
    name: "move_datum, twice",
    names: &[SHAPE[0], SHAPE[1], SHAPE[2], SHAPE[3], "coefficients", "a", "b"],
    small: |_| {},
    random: Some(|r| {
        let most = most_cells(r).min(256);
        let c = random_case(most, r);
        let (cells, a, b) = (any_cells(&c, r), any_offsets(&c, r), any_offsets(&c, r));
        c.with(cells).with(a).with(b)
    }),
    cost: 4,
    judged: |c| {
        with_box(c, |s, cells| {
            let [a, b] = [1, 2].map(|table| for_each_variable(&c.tables[table], s));
            let low = low_bits(u64::from(s.width));
            let sum: Vec<u64> = plus(&a, &b).iter().map(|offset| offset & low).collect();
            let back: Vec<u64> = a.iter().map(|offset| offset.wrapping_neg() & low).collect();
            let (first, by_a) = moved(cells, s, &a);
            let [(second, then_b), (third, there_and_back)] = [&b, &back].map(|by| moved(&by_a, s, by));
            let (fourth, at_once) = moved(cells, s, &sum);
            let said = Answer::number(first.max(second).max(third).max(fourth)).words("by a and then by b", then_b);
            said.words("by their sum", at_once).words("there and back", there_and_back)
        })
    },
    expected: |c| {
        with_box(c, |s, cells| {
            let [a, b] = [1, 2].map(|table| for_each_variable(&c.tables[table], s));
            let (from, form) = right(cells, s, &plus(&a, &b));
            let back = defined(cells, s, &vec![0; a.len()], below_the_bound);
            let said = Answer::number(0).words("by a and then by b", form.clone());
            (from, said.words("by their sum", form).words("there and back", back))
        })
    },
};

/// The moved sum of two boxes is the sum of the moved ones.
const SUMS: Group = Group {
    name: "move_datum, sums",
    names: &[SHAPE[0], SHAPE[1], SHAPE[2], SHAPE[3], "a", "b", "offsets"],
    small: |_| {},
    random: Some(|r| {
        let most = most_cells(r).min(256);
        let c = random_case(most, r);
        let (a, b, offsets) = (any_cells(&c, r), any_cells(&c, r), any_offsets(&c, r));
        c.with(a).with(b).with(offsets)
    }),
    cost: 4,
    judged: |c| {
        with_box(c, |s, a| {
            let (b, offsets) = (in_box(&c.tables[1], s), for_each_variable(&c.tables[2], s));
            let (first, sum) = sum_of(a, &b, s);
            let (second, moved_sum) = moved(&sum, s, &offsets);
            let [(third, a), (fourth, b)] = [a, &b].map(|cells| moved(cells, s, &offsets));
            let (fifth, sum) = sum_of(&a, &b, s);
            let said = Answer::number(first.max(second).max(third).max(fourth).max(fifth));
            said.words("the sum moved", moved_sum).words("the sum of the moved", sum)
        })
    },
    expected: |c| {
        with_box(c, |s, a| {
            let (b, offsets) = (in_box(&c.tables[1], s), for_each_variable(&c.tables[2], s));
            let (from, form) = right(&plus(a, &b), s, &offsets);
            (from, Answer::number(0).words("the sum moved", form.clone()).words("the sum of the moved", form))
        })
    },
};

/// A recovered form, moved, is the form recovered from the polynomial's values at the moved points.
const RECOVERED: Group = Group {
    name: "move_datum, recovered forms",
    names: &[SHAPE[0], SHAPE[1], SHAPE[2], SHAPE[3], "powers", "offsets"],
    small: |_| {},
    random: Some(|r| {
        let most = r.pick(&[9, 27, 27, 64]);
        let c = random_case(most, r);
        let (powers, offsets) = (polynomial(&c, r), any_offsets(&c, r));
        c.with(powers).with(offsets)
    }),
    cost: 4,
    judged: |c| {
        with_box(c, |s, powers| {
            let offsets = for_each_variable(&c.tables[1], s);
            let (first, form) = recovered(&grid(powers, s), s);
            let (second, there) = moved(&form, s, &offsets);
            let (third, again) = recovered(&moved_grid(powers, s, &offsets), s);
            let said = Answer::number(first.max(second).max(third)).words("recovered and moved", there);
            said.words("recovered from the moved values", again)
        })
    },
    expected: |c| {
        with_box(c, |s, powers| {
            let offsets = for_each_variable(&c.tables[1], s);
            let form = rust::recovery(&moved_grid(powers, s, &offsets), s).expect("a polynomial");
            let said = Answer::number(0).words("recovered and moved", form.clone());
            (Source::Rust, said.words("recovered from the moved values", form))
        })
    },
};

/// Statements that are close to the rule and false: the self-test has to refute each of them.
pub const REFUTED: [(&Group, bool); 6] = [
    (&LESS, cfg!(cobra_move_datum)),
    (&FIRST_ALONE, cfg!(cobra_move_datum)),
    (&BY_NUMBER, cfg!(cobra_move_datum)),
    (&LOW_32_BITS, cfg!(cobra_move_datum)),
    (&ALL_BITS_OF_THE_WIDTH, cfg!(cobra_move_datum)),
    (&OF_POWERS, cfg!(cobra_move_datum)),
];

/// The form by these offsets.
fn stated(cells: &[u64], s: &Settings, offsets: &[u64]) -> (Source, Vec<u64>) {
    (Source::Document, defined(cells, s, offsets, below_the_bound))
}

/// Each variable is replaced by itself less its offset.
const LESS: Group = Group {
    name: "move_datum, variables less their offsets",
    expected: |c| {
        must_leave(c, |cells, s, offsets| {
            let less: Vec<u64> = offsets.iter().map(|offset| offset.wrapping_neg()).collect();
            stated(cells, s, &less)
        })
    },
    ..WHOLE_BOXES
};

/// The first support variable alone is moved.
const FIRST_ALONE: Group = Group {
    name: "move_datum, the first variable alone",
    expected: |c| must_leave(c, |cells, s, offsets| stated(cells, s, &lent(&offsets[..1], offsets.len()))),
    ..WHOLE_BOXES
};

/// Offsets stand in the order of the variables' numbers, not of the support.
const BY_NUMBER: Group = Group {
    name: "move_datum, offsets by the variables' numbers",
    expected: |c| {
        must_leave(c, |cells, s, offsets| {
            let place = |var: &u64| s.support.iter().filter(|other| *other < var).count();
            let ordered: Vec<u64> = s.support.iter().map(|var| offsets[place(var)]).collect();
            stated(cells, s, &ordered)
        })
    },
    ..WHOLE_BOXES
};

/// Offsets count modulo 2^32.
const LOW_32_BITS: Group = Group {
    name: "move_datum, offsets of 32 bits",
    expected: |c| {
        must_leave(c, |cells, s, offsets| {
            let low: Vec<u64> = offsets.iter().map(|offset| offset & low_bits(32)).collect();
            stated(cells, s, &low)
        })
    },
    ..WHOLE_BOXES
};

/// Coefficients keep all bits of the width.
const ALL_BITS_OF_THE_WIDTH: Group = Group {
    name: "move_datum, all bits of the width are kept",
    expected: |c| {
        must_leave(c, |cells, s, offsets| {
            (Source::Document, defined(cells, s, offsets, |width, _| below_the_bound(width, 0)))
        })
    },
    ..WHOLE_BOXES
};

/// The box holds powers.
const OF_POWERS: Group = Group {
    name: "move_datum, powers of the moved variables",
    expected: |c| {
        must_leave(c, |cells, s, offsets| {
            let powers = |offset: &u64| (0..=u32::from(s.degree)).map(|e| offset.wrapping_pow(e)).collect();
            let powers: Vec<Vec<u64>> = offsets.iter().map(powers).collect();
            (Source::Document, in_bits(expanded(cells, s, &powers), s, below_the_bound))
        })
    },
    ..WHOLE_BOXES
};
