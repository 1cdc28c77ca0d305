//! The room of recovery and of the fit, from settings alone, refused ones too. The Rust comes to the number of its columns by
//! listing them; that list is its part of the fit's room.

use crate::library_boxes::room as library;
use crate::session::{check, run, Input, Programs, Series, Session};
use crate::settings::{columns, power, within};
use crate::shapes::{self, variables, WIDE};
use crate::steps;
use std::hint::black_box;

extern "C" {
    fn limit_recovery_room(variables: usize, degree: u32, counts: *mut u64) -> u32;
    fn limit_fit_room(variables: usize, max: u32, grid: u32, counts: *mut u64) -> u32;
}

const GRIDS: [shapes::Shape; 5] = [(1, 3), (1, 255), (2, 255), (16, 1), (20, 255)];

/// Variables, max_degree, grid_degree.
type Shape = (usize, u8, u8);

const FITS: [Shape; 10] = [
    (1, 3, 7),
    (2, 9, 31),
    (1, 255, 255),
    (8, 8, 1),
    (16, 0, 1),
    (20, 255, 0),
    (16, 1, 1),
    (16, 16, 1),
    (16, 255, 1),
    (20, 255, 255),
];

/// The lists grow and the steps hardly.
const GROWTH: [(&str, [Shape; 7]); 2] = [
    (
        "max_degree at 8 variables, grid degree 1",
        [(8, 1, 1), (8, 2, 1), (8, 3, 1), (8, 4, 1), (8, 5, 1), (8, 6, 1), (8, 8, 1)],
    ),
    (
        "variables at max_degree 8, grid degree 1",
        [(2, 8, 1), (3, 8, 1), (4, 8, 1), (5, 8, 1), (6, 8, 1), (7, 8, 1), (8, 8, 1)],
    ),
];

const FIT: &str = "fit_room";

pub fn time(session: &mut Session) {
    GRIDS.iter().for_each(|&shape| recovery(session, shape));
    FITS.iter().for_each(|&shape| fit(session, shape, true));
    for (grows, shapes) in GROWTH {
        for shape in shapes {
            if session.row(FIT, &described(shape), WIDE).is_none() {
                fit(session, shape, false);
            }
        }
        let inputs = shapes.iter().map(|&shape| (described(shape), WIDE)).collect();
        session.series.push(Series { call: FIT, grows, steps: "k (max_degree + 1)", inputs });
    }
}

/// All variables that there can be, the first of which are the support.
const ALL: [u64; 20] = [0, 1, 2, 3, 4, 5, 6, 7, 8, 9, 10, 11, 12, 13, 14, 15, 16, 17, 18, 19];

fn recovery(session: &mut Session, shape: shapes::Shape) {
    let (k, degree) = shape;
    let cells = power(u64::from(degree) + 1, k);
    let by_library = |counts: &mut [u64; 2]| {
        let [cells, made] = counts;
        unsafe { library::cobra_recovery_room(ALL.as_ptr(), k, 20, WIDE, black_box(degree), cells, made) }
    };
    let by_limit = |counts: &mut [u64; 2]| unsafe {
        limit_recovery_room(k, u32::from(black_box(degree)), counts.as_mut_ptr())
    };
    let expected = cells.map_or((8, [0; 2]), |_| (0, steps::recovery(k, degree)));
    let (mut ours, mut limit) = ([1; 2], [1; 2]);
    check((by_library(&mut ours), ours) == expected, "the library's room of recovery is not the Rust's");
    check((by_limit(&mut limit), limit) == expected, "the C's room of recovery is not the Rust's");
    let shape = shapes::named(shape) + refused(cells);
    session.time(
        Input { call: "recovery_room", shape, size: cells.unwrap_or(0) as usize, width: WIDE, steps: k as u64, listed: true },
        Programs {
            rust: None,
            beside: None,
            c: &mut run(|| by_limit(black_box(&mut limit))),
            ours: &mut run(|| by_library(black_box(&mut ours))),
        },
    );
}

/// The number of lists, where it is within the limit, and the entries of the matrix.
fn sizes((k, max, grid): Shape) -> (Option<u64>, Option<u64>) {
    let listed = columns(k, max.min(grid), max);
    let rows = power(u64::from(grid) + 1, k);
    (listed, rows.zip(listed).and_then(|(rows, listed)| within(rows * listed)))
}

fn described(shape: Shape) -> String {
    let (k, max, grid) = shape;
    format!("{}, degrees {max} and {grid}", variables(k)) + refused(sizes(shape).1)
}

fn refused(size: Option<u64>) -> &'static str {
    if size.is_some() { "" } else { ", refused" }
}

fn fit(session: &mut Session, shape: Shape, listed: bool) {
    let ((k, max, grid), (lists, entries)) = (shape, sizes(shape));
    let by_library = |counts: &mut [u64; 3]| {
        let [rows, columns, entries] = counts;
        unsafe {
            library::cobra_fit_room(ALL.as_ptr(), k, 20, WIDE, black_box(max), grid, rows, columns, entries)
        }
    };
    let by_limit = |counts: &mut [u64; 3]| unsafe {
        limit_fit_room(k, u32::from(black_box(max)), u32::from(grid), counts.as_mut_ptr())
    };
    let by_rust = || steps::columns::listed(k as u32, black_box(max), max.min(grid));
    let expected = entries.map_or((8, [0; 3]), |entries| {
        let [rows, columns] = steps::fit(k, max, grid);
        check(rows * columns == entries, "the Rust's rows and columns are not the entries");
        (0, [rows, columns, entries])
    });
    let (mut ours, mut limit) = ([1; 3], [1; 3]);
    check((by_library(&mut ours), ours) == expected, "the library's room of the fit is not the Rust's");
    check((by_limit(&mut limit), limit) == expected, "the C's room of the fit is not the Rust's");
    check(lists.map_or(true, |lists| lists == by_rust()), "the Rust's list is not as long as counted");
    let (size, steps) = (lists.unwrap_or(0) as usize, k as u64 * (u64::from(max) + 1));
    let mut rust_run = run(by_rust);
    session.time(
        Input { call: FIT, shape: described(shape), size, width: WIDE, steps, listed },
        Programs {
            rust: lists.is_some().then_some(&mut rust_run as &mut dyn FnMut()),
            beside: None,
            c: &mut run(|| by_limit(black_box(&mut limit))),
            ours: &mut run(|| by_library(black_box(&mut ours))),
        },
    );
}
