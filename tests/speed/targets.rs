//! What each call is to reach, beside what the run found.

use crate::report::{a_product, degree};
use crate::session::{Row, Session};

/// What a figure is held to.
enum Bound {
    /// The library's time over the C's is at most this.
    OfC(f64),
    /// At most this of the C's time, and no longer than the Rust's.
    OfCAheadOfRust(f64),
    /// No longer than the Rust's.
    AheadOfRust,
    /// Nanoseconds at most.
    Nanoseconds(f64),
    /// Nanoseconds for each cell at most.
    NanosecondsACell(f64),
    /// For each product at most this of the time of the conversion beside it.
    OfAConversion(f64),
}
use Bound::*;

/// The call's name, which of its rows, and the bound.
struct Target {
    call: &'static str,
    which: &'static str,
    of: fn(&Row) -> bool,
    bound: Bound,
}

const fn target(call: &'static str, which: &'static str, of: fn(&Row) -> bool, bound: Bound) -> Target {
    Target { call, which, of, bound }
}

fn cells(row: &Row, cells: usize) -> bool {
    row.input.size == cells && row.input.width == 64
}

fn large(row: &Row) -> bool {
    row.input.size >= 256 && row.input.width == 64 && !low(row)
}

fn low(row: &Row) -> bool {
    row.input.shape.ends_with("low degree")
}

fn is(row: &Row, shape: &str, width: u32) -> bool {
    row.input.shape == shape && row.input.width == width
}

const TARGETS: &[Target] = &[
    target("recover_multivar_poly", "4 cells", |r| cells(r, 4), OfC(1.2)),
    target("recover_multivar_poly", "16 cells", |r| cells(r, 16), OfC(1.2)),
    target("recover_multivar_poly", "from 256 cells on, width 64", large, OfC(0.6)),
    target("recover_multivar_poly", "2 x 255, width 64", |r| is(r, "2 variables, degree 255", 64), OfC(0.3)),
    target("recover_multivar_poly", "16 x 1, width 64", |r| is(r, "16 variables, degree 1", 64), OfC(0.5)),
    target("recover_multivar_poly", "2 x 255, width 16", |r| is(r, "2 variables, degree 255", 16), OfC(0.15)),
    target("recover_multivar_poly", "2 x 255, low degree", low, OfC(0.15)),
    target("box_sum", "4 cells", |r| cells(r, 4), OfC(2.0)),
    target("box_sum", "16 cells", |r| cells(r, 16), OfC(1.5)),
    target("box_sum", "from 256 cells on", large, OfC(0.8)),
    target("box_reduce", "4 cells", |r| cells(r, 4), OfC(2.0)),
    target("box_reduce", "16 cells", |r| cells(r, 16), OfC(1.5)),
    target("box_reduce", "from 256 cells on", large, OfC(0.8)),
    target("box_is_valid", "4 cells", |r| cells(r, 4), OfC(2.0)),
    target("box_is_valid", "16 cells", |r| cells(r, 16), OfC(1.5)),
    target("box_is_valid", "from 256 cells on", large, OfC(0.8)),
    target("box_same", "every shape of the table", |r| r.input.listed, OfC(1.5)),
    target("box_same_other", "65,536 cells", |r| r.input.size == 65_536, NanosecondsACell(10.0)),
    target("normalize_polynomial", "4 cells", |r| cells(r, 4), OfC(2.0)),
    target("normalize_polynomial", "16 cells", |r| cells(r, 16), OfC(1.5)),
    target("normalize_polynomial", "from 256 cells on", large, OfC(1.0)),
    target("to_factorial_basis", "4 cells", |r| cells(r, 4), OfC(2.0)),
    target("to_factorial_basis", "16 cells", |r| cells(r, 16), OfC(1.5)),
    target("to_factorial_basis", "from 256 cells on", large, OfC(1.0)),
    target("to_monomial_basis", "4 cells", |r| cells(r, 4), OfC(2.0)),
    target("to_monomial_basis", "16 cells", |r| cells(r, 16), OfC(1.5)),
    target("to_monomial_basis", "from 256 cells on", large, OfC(1.0)),
    target("move_datum", "4 cells", |r| cells(r, 4), OfC(2.0)),
    target("move_datum", "16 cells", |r| cells(r, 16), OfC(1.5)),
    target("move_datum", "from 256 cells on", large, OfC(1.0)),
    // up to degree 3 the conversion's factors are 1 and 2, which take no products
    target("move_datum", "degree 4 and more", |r| degree(r) >= 4, OfAConversion(1.3)),
    target("stirling_second_kind", "every degree", |_| true, OfCAheadOfRust(1.3)),
    target("stirling_first_kind", "every degree", |_| true, OfCAheadOfRust(1.3)),
    target("solve_2adic", "4 x 4, 16 x 4", |r| r.input.size == 16 || r.input.size == 64, OfCAheadOfRust(1.6)),
    target("solve_2adic", "64 x 64 and on", |r| r.input.size >= 4096, OfC(1.0)),
    target("recover_weighted_poly", "8 x 4, 16 x 6", |r| r.input.size == 32 || r.input.size == 96, OfCAheadOfRust(1.6)),
    target("recovery_room", "every setting", |_| true, Nanoseconds(10_000.0)),
    target("fit_room", "every setting", |_| true, Nanoseconds(10_000.0)),
    target("cobra_recover", "4 cells", |r| cells(r, 4), Nanoseconds(60.0)),
    target("cobra_fit", "8 x 4", |r| r.input.size == 32, AheadOfRust),
];

/// Each target with the least and the greatest figure of its rows.
pub fn table(session: &Session) {
    println!("| call | which | ours / C | Rust / ours | ns | target | reached |\n|---|---|---|---|---|---|---|");
    for t in TARGETS {
        let rows: Vec<&Row> = session.rows.iter().filter(|r| r.input.call == t.call && (t.of)(r)).collect();
        if rows.is_empty() {
            continue;
        }
        let part = span(&rows, |r| Some(r.ours / r.c));
        let gain = span(&rows, |r| r.rust.map(|rust| rust / r.ours));
        let a_cell = |r: &Row| r.ours * 1e9 / r.input.size as f64;
        let of_conversion = |r: &Row| a_product(r).map(|[moved, converted]| moved / converted);
        let ns = match t.bound {
            NanosecondsACell(_) => span(&rows, |r| Some(a_cell(r))) + " a cell",
            OfAConversion(_) => span(&rows, of_conversion) + " of a conversion's product",
            _ => span(&rows, |r| Some(r.ours * 1e9)),
        };
        let (wanted, reached) = match t.bound {
            OfC(most) => (format!("{most} of C"), rows.iter().all(|r| r.ours <= most * r.c)),
            OfCAheadOfRust(most) => (
                format!("{most} of C, ahead of the Rust"),
                rows.iter().all(|r| r.ours <= most * r.c && r.rust.map_or(true, |rust| r.ours <= rust)),
            ),
            AheadOfRust => ("ahead of the Rust".into(), rows.iter().all(|r| r.rust.map_or(true, |rust| r.ours <= rust))),
            Nanoseconds(most) => (format!("{most} ns"), rows.iter().all(|r| r.ours * 1e9 <= most)),
            NanosecondsACell(most) => (format!("{most} ns a cell"), rows.iter().all(|r| a_cell(r) <= most)),
            OfAConversion(most) => (
                format!("{most} of a conversion's product"),
                rows.iter().all(|r| of_conversion(r).map_or(true, |part| part <= most)),
            ),
        };
        let reached = if reached { "yes" } else { "NO" };
        println!("| `{}` | {} | {part} | {gain} | {ns} | {wanted} | {reached} |", t.call, t.which);
    }
}

fn span(rows: &[&Row], of: impl Fn(&Row) -> Option<f64>) -> String {
    let mut found: Vec<f64> = rows.iter().filter_map(|row| of(row)).collect();
    found.sort_by(f64::total_cmp);
    let figure = |x: f64| if x < 10.0 { format!("{x:.2}") } else { format!("{x:.0}") };
    match found[..] {
        [] => "–".into(),
        [one] => figure(one),
        [least, .., greatest] => format!("{} to {}", figure(least), figure(greatest)),
    }
}
