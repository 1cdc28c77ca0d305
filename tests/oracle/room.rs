//! Room: what recovery and the fit need, from their settings alone. The counts are those of the Rust's own steps. The number
//! is that of document 01's order, and beside it stands what the library's recovery or fit says of these settings with tables
//! of exact lengths.

use crate::boxes::{every_set_of_causes, large_box, most_cells, random_box, settings, spoil, NUMBERS};
use crate::fit;
use crate::group::{Answer, Case, Group, Lent, Source, UNSET};
use crate::library_boxes::room as ours;
use crate::recovery;
use crate::reference as rust;
use crate::settings::{columns, Settings};
use crate::steps;

const HAS_RECOVERY: bool = cfg!(all(cobra_recovery_room, cobra_recover_multivar_poly, cobra_recover));
const HAS_FIT: bool = cfg!(all(cobra_fit_room, cobra_recover_weighted_poly, cobra_fit));

/// Each group with whether the library has its calls.
pub const GROUPS: [(&Group, bool); 2] = [(&RECOVERY, HAS_RECOVERY), (&FIT, HAS_FIT)];

/// Without 9: no table is lent but the support.
const RECOVERY_CAUSES: [u32; 7] = [1, 2, 3, 4, 5, 7, 8];
/// Without degree 0 too, which recovery alone refuses.
const FIT_CAUSES: [u32; 6] = [1, 2, 3, 5, 7, 8];

const VARIABLES: [u64; 11] = [0, 1, 2, 3, 4, 5, 8, 16, 17, 20, 1_000];
const TOTALS: [u64; 6] = [0, 3, 19, 20, 21, 4_294_967_295];
const WIDTHS: [u64; 6] = [0, 1, 2, 8, 64, 65];
const DEGREES: [u64; 11] = [0, 1, 2, 3, 4, 5, 6, 15, 16, 40, 255];

/// In order; from 19 down; with the total at the end; with the first again at the end. More than twenty repeat themselves.
fn supports(k: u64, total: u64) -> [Vec<u64>; 4] {
    let ended = |last: u64| (0..k).map(|i| if i + 1 == k { last } else { i % 20 }).collect();
    [(0..k).map(|i| i % 20).collect(), (0..k).map(|i| 19 - i % 20).collect(), ended(total), ended(0)]
}

/// All of these supports, totals and widths.
fn every_setting(k: u64, give: &mut dyn FnMut(u64, u64, Vec<u64>)) {
    for total in TOTALS {
        for width in WIDTHS {
            supports(k, total).into_iter().for_each(|support| give(total, width, support));
        }
    }
}

const RECOVERY: Group = Group {
    name: "room of recovery",
    names: &[NUMBERS[0], NUMBERS[1], NUMBERS[2], "support"],
    small: |give| {
        for k in VARIABLES {
            for degree in DEGREES {
                every_setting(k, &mut |total, width, support| {
                    give(Case::of([total, width, degree]).with(support));
                });
            }
        }
        let accepted = Case::of([5, 8, 2]).with(vec![3, 0, 2]);
        every_set_of_causes(&accepted, &RECOVERY_CAUSES, recovery_number, give);
    },
    random: Some(|r| {
        let (least_degree, most) = (r.pick(&[1, 2, 2]), most_cells(r));
        let mut c = if r.one_in(500) { large_box(r) } else { random_box(least_degree, most, r) };
        c.numbers.truncate(3);
        if r.one_in(3) {
            spoil(&mut c, &RECOVERY_CAUSES, r);
        }
        c
    }),
    cost: 4,
    judged: |c| {
        let s = settings(c);
        let (mut support, [mut cells, mut made]) = (Lent::new(s.support), unset());
        let (k, at, cells_at, made_at) = (support.len(), support.at(), cells.at(), made.at());
        let number = unsafe {
            ours::cobra_recovery_room(at, k, s.total, s.width, s.degree, cells_at, made_at)
        };
        left(number, RECOVERY_COUNTS, [cells, made], support, recovery::judged(&recovery_case(c)))
    },
    expected: |c| recovery_told(c, steps::recovery),
};

const RECOVERY_COUNTS: [&str; 2] = ["cells", "subtractions"];

fn recovery_number(c: &Case) -> u32 {
    settings(c).refusal(true, &[]).unwrap_or(0)
}

/// The same settings with tables of exact lengths, all zero.
fn recovery_case(c: &Case) -> Case {
    Case::of([c.u64(0), c.u64(1), c.u64(2), 0, 0]).with(c.tables[0].clone()).with(Vec::new())
}

fn recovery_told(c: &Case, counted: fn(usize, u8) -> [u64; 2]) -> (Source, Answer) {
    let s = settings(c);
    let counts = || counted(s.support.len(), s.degree);
    expected(c, recovery_number(c), || rust::recovery(&[], &s).err(), RECOVERY_COUNTS, counts)
}

const FIT: Group = Group {
    name: "room of the fit",
    names: &[NUMBERS[0], NUMBERS[1], "grid_degree", "max_degree", "support"],
    small: |give| {
        for k in VARIABLES {
            for grid in DEGREES {
                for max in DEGREES {
                    give(Case::of([20, 8, grid, max]).with(supports(k, 20)[1].clone()));
                }
            }
        }
        for k in VARIABLES {
            for (grid, max) in [(0, 0), (0, 255), (1, 0), (1, 1), (1, 4), (2, 1), (255, 1), (255, 255)] {
                every_setting(k, &mut |total, width, support| {
                    give(Case::of([total, width, grid, max]).with(support));
                });
            }
        }
        for max in [0, 2, 5] {
            let accepted = Case::of([5, 8, 2, max]).with(vec![3, 0, 2]);
            every_set_of_causes(&accepted, &FIT_CAUSES, fit_number, give);
        }
    },
    random: Some(|r| {
        let most = r.pick(&[9, 27, 64, 128, 1_024]);
        let mut c = fit::any_settings(most, r);
        c.numbers = [0, 1, 2, 5].map(|i| c.u64(i)).to_vec();
        if r.one_in(3) {
            spoil(&mut c, &FIT_CAUSES, r);
        }
        c
    }),
    cost: 4,
    judged: |c| {
        let (s, max) = (settings(c), c.u8(3));
        let (mut support, [mut rows, mut columns, mut entries]) = (Lent::new(s.support), unset());
        let (k, at) = (support.len(), support.at());
        let (rows_at, columns_at, entries_at) = (rows.at(), columns.at(), entries.at());
        let (total, width, grid) = (s.total, s.width, s.degree);
        let number = unsafe {
            ours::cobra_fit_room(at, k, total, width, max, grid, rows_at, columns_at, entries_at)
        };
        left(number, FIT_COUNTS, [rows, columns, entries], support, fit::judged(&fit_case(c)))
    },
    expected: |c| fit_told(c, steps::fit),
};

const FIT_COUNTS: [&str; 3] = ["rows", "columns", "entries"];

fn fit_number(c: &Case) -> u32 {
    fit::number(&fit_case(c))
}

/// The same settings with tables of exact lengths: weights 1, targets 0.
fn fit_case(c: &Case) -> Case {
    let rows = settings(c).cells().unwrap_or(0) as usize;
    let case = Case::of([c.u64(0), c.u64(1), c.u64(2), 0, 0, c.u64(3)]).with(c.tables[0].clone());
    case.with(vec![1; rows]).with(Vec::new())
}

fn fit_told(c: &Case, counted: fn(usize, u8, u8) -> [u64; 2]) -> (Source, Answer) {
    let (s, max) = (settings(c), c.u8(3));
    let counts = || {
        let [rows, columns] = counted(s.support.len(), max, s.degree);
        [rows, columns, rows * columns]
    };
    let guard = || rust::fit(&[], &[], &Settings { degree: max, ..s }, s.degree).err();
    expected(c, fit_number(c), guard, FIT_COUNTS, counts)
}

fn unset<const N: usize>() -> [Lent<u64>; N] {
    std::array::from_fn(|_| Lent::new(&[UNSET]))
}

/// What a call left behind, and what the call that it speaks for said.
fn left<const N: usize>(
    number: u32,
    labels: [&'static str; N],
    counts: [Lent<u64>; N],
    support: Lent<u64>,
    call: Answer,
) -> Answer {
    let outside = support.outside() + counts.iter().map(Lent::outside).sum::<usize>();
    // 6 and 10 are for the values; without a number the call on bytes said something else
    let said = match call.refusal() {
        Some(6 | 10) => 0,
        said => said.map_or(UNSET, |number| number as u64),
    };
    told(number, labels, counts.map(|count| count.content()[0]), support.content(), said).outside(outside)
}

/// What it has to leave behind. The Rust has 1 to 5 and counts what is accepted; 7 and 8 are added and never sent to it.
fn expected<const N: usize>(
    c: &Case,
    number: u32,
    guard: impl FnOnce() -> Option<u32>,
    labels: [&'static str; N],
    counts: impl FnOnce() -> [u64; N],
) -> (Source, Answer) {
    let (from, number) = match number {
        0 => (Source::Rust, 0),
        1..=5 => (Source::Rust, guard().expect("one of the Rust's guards")),
        added => (Source::Document, added),
    };
    let counts = if number == 0 { counts() } else { [0; N] };
    (from, told(number, labels, counts, c.tables[0].clone(), u64::from(number)).outside(0))
}

fn told<const N: usize>(
    number: u32,
    labels: [&'static str; N],
    counts: [u64; N],
    support: Vec<u64>,
    said: u64,
) -> Answer {
    let parts = labels.into_iter().zip(counts);
    let answer = parts.fold(Answer::number(number), |answer, (label, count)| answer.words(label, vec![count]));
    answer.words("support", support).words("number of the call at exact lengths", vec![said])
}

/// Statements that are close to the groups' and false: the self-test has to refute each of them.
pub const REFUTED: [(&Group, bool); 4] = [
    (&A_PASS_TOO_MANY, HAS_RECOVERY),
    (&ONE_VARIABLE, HAS_RECOVERY),
    (&SMALLER_SUM, HAS_FIT),
    (&FOUR_OF_THE_FIT, HAS_FIT),
];

/// Each pass subtracts at the coordinate before its own too.
const A_PASS_TOO_MANY: Group = Group {
    name: "room of recovery, a pass too many",
    expected: |c| {
        recovery_told(c, |k, degree| {
            let [cells, _] = steps::recovery(k, degree);
            [cells, k as u64 * cells * (u64::from(degree) + 2) / 2]
        })
    },
    ..RECOVERY
};

/// One variable's passes are all.
const ONE_VARIABLE: Group = Group {
    name: "room of recovery, one variable's passes",
    expected: |c| {
        recovery_told(c, |k, degree| {
            let [cells, _] = steps::recovery(k, degree);
            [cells, cells * u64::from(degree) / 2]
        })
    },
    ..RECOVERY
};

/// The exponents' sum is held to the smaller degree.
const SMALLER_SUM: Group = Group {
    name: "room of the fit, sums to the smaller degree",
    expected: |c| {
        fit_told(c, |k, max, grid| {
            let (least, [rows, _]) = (max.min(grid), steps::fit(k, max, grid));
            [rows, columns(k, least, least).expect("columns within the limit")]
        })
    },
    ..FIT
};

/// The fit refuses degree 0 as recovery does.
const FOUR_OF_THE_FIT: Group = Group {
    name: "room of the fit, 4 at degree 0",
    expected: |c| {
        let refused = matches!(fit_number(c), 0 | 5..) && c.u64(3) == 0;
        let (from, mut answer) = (FIT.expected)(c);
        if refused {
            answer = told(4, FIT_COUNTS, [0; 3], c.tables[0].clone(), 4).outside(0);
        }
        (from, answer)
    },
    ..FIT
};
