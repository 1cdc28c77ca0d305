//! The tables, as docs/SPEED.md has them.

use crate::session::{Input, Row, Session};

pub const HEAD: &str = "| call | shape | cells | width | Rust us | C us | ours us | Rust / ours | ours / C |\n|---|---|---|---|---|---|---|---|---|";

/// One line of the table.
pub fn line(row: &Row) -> String {
    let input = &row.input;
    let (rust, gain) = match row.rust {
        Some(rust) => (us(rust), ratio(rust / row.ours)),
        None => ("–".into(), "–".into()),
    };
    let (c, ours, part) = (us(row.c), us(row.ours), ratio(row.ours / row.c));
    let (call, shape, size) = (input.call, &input.shape, input.size);
    let width = if input.width == 0 { "–".into() } else { input.width.to_string() };
    format!("| `{call}` | {shape} | {size} | {width} | {rust} | {c} | {ours} | {gain} | {part} |")
}

/// The growth: of each series the sizes, the steps counted, the library's time, and time per step.
pub fn growth(session: &Session) {
    println!("| call, and what grows | | | | | | | | |\n|---|---|---|---|---|---|---|---|---|");
    for series in &session.series {
        let found = |(shape, width): &(String, u32)| session.row(series.call, shape, *width);
        let rows: Vec<&Row> = series.inputs.iter().filter_map(found).collect();
        if rows.is_empty() {
            continue;
        }
        let print = |head: &str, cell: &dyn Fn(&Row) -> String| {
            let mut cells: Vec<String> = rows.iter().map(|&row| cell(row)).collect();
            cells.resize(7.max(cells.len()), String::new());
            println!("| {head} | {} |", cells.join(" | "));
        };
        let (call, grows, steps) = (series.call, series.grows, series.steps);
        print(&format!("`{call}`, {grows} | cells"), &|row| row.input.size.to_string());
        print(&format!("{steps} | steps"), &|row| row.input.steps.to_string());
        print("| ours us", &|row| us(row.ours));
        print("| ours ns a step", &|row| per_step(row.ours, row));
        print("| C ns a step", &|row| per_step(row.c, row));
        if rows.iter().any(|row| row.rust.is_some()) {
            print("| Rust ns a step", &|row| row.rust.map_or("–".into(), |t| per_step(t, row)));
        }
    }
}

fn per_step(seconds: f64, row: &Row) -> String {
    short(seconds * 1e9 / row.input.steps as f64)
}

/// What the ratios are gathered by: the call, and for a fit its weights, or that it has no answer or is refused.
fn group(row: &Row) -> String {
    let Input { call, shape, .. } = &row.input;
    let last = shape.rsplit(", ").next().unwrap_or_default();
    if last.ends_with("weights") || last == "no answer" || last == "refused" {
        return format!("`{call}`, {last}");
    }
    format!("`{call}`")
}

/// The least and the greatest ratio of each group in the table, in all and from 4,096 cells on.
pub fn extremes(session: &Session) {
    println!("| call | Rust / ours | ours / C | Rust / ours from 4,096 cells on | ours / C from 4,096 cells on |\n|---|---|---|---|---|");
    let listed: Vec<&Row> = session.rows.iter().filter(|row| row.input.listed).collect();
    let mut groups: Vec<String> = Vec::new();
    for row in &listed {
        if !groups.contains(&group(row)) {
            groups.push(group(row));
        }
    }
    for name in groups {
        let span = |least: usize, of: &dyn Fn(&Row) -> Option<f64>| {
            let rows = listed.iter().filter(|row| group(row) == name && row.input.size >= least);
            let mut ratios: Vec<f64> = rows.filter_map(|row| of(row)).collect();
            ratios.sort_by(f64::total_cmp);
            match ratios[..] {
                [] => "–".into(),
                [one] => ratio(one),
                [least, .., greatest] => format!("{} to {}", ratio(least), ratio(greatest)),
            }
        };
        let gain = |row: &Row| row.rust.map(|rust| rust / row.ours);
        let part = |row: &Row| Some(row.ours / row.c);
        let (all, large) = ((span(0, &gain), span(0, &part)), (span(4096, &gain), span(4096, &part)));
        println!("| {name} | {} | {} | {} | {} |", all.0, all.1, large.0, large.1);
    }
}

/// The calls on bytes beside those on tables of u64.
pub fn crossing(session: &Session) {
    println!("| call | shape | cells | on bytes us | on u64 us | bytes / u64 |\n|---|---|---|---|---|---|");
    for row in session.rows.iter().filter(|row| row.input.call.starts_with("cobra_")) {
        let (input, words) = (&row.input, row.beside.expect("the call on u64"));
        let times = format!("{} | {} | {}", us(row.ours), us(words), ratio(row.ours / words));
        println!("| `{}` | {} | {} | {times} |", input.call, input.shape, input.size);
    }
}

/// The products of a moved form beside those of the conversion of the same box.
pub fn products(session: &Session) {
    println!("| shape | cells | moved, ns a product | converted, ns a product | moved / converted |\n|---|---|---|---|---|");
    for row in session.rows.iter().filter(|row| row.input.call == "move_datum") {
        if let Some([moved, converted]) = a_product(row) {
            let (input, times) = (&row.input, [moved, converted].map(|t| short(t * 1e9)).join(" | "));
            println!("| {} | {} | {times} | {} |", input.shape, input.size, ratio(moved / converted));
        }
    }
}

/// The seconds of a product of a moved form, and of one of the conversion beside it, which makes (d - 1) / (d + 1) as many;
/// nothing where it makes none.
pub fn a_product(row: &Row) -> Option<[f64; 2]> {
    let (steps, d) = (row.input.steps as f64, degree(row) as f64);
    (d > 1.0).then_some([row.ours / steps, row.beside? / (steps * (d - 1.0) / (d + 1.0))])
}

/// The degree of a row's box, which ends the name of its shape.
pub fn degree(row: &Row) -> u8 {
    row.input.shape.rsplit(' ').next().and_then(|d| d.parse().ok()).expect("a shape that ends with its degree")
}

/// The share of the Rust's recovery that is the stand-in's.
pub fn reading(session: &Session) {
    let recovered = session.rows.iter().filter(|row| row.input.call == "recover_multivar_poly");
    let greatest = recovered.filter_map(|row| Some(row.beside? / row.rust?)).fold(0.0, f64::max);
    println!("Reading the grid, the stand-in's part of the Rust's recovery, is at most {greatest:.2} of its time.");
}

fn us(seconds: f64) -> String {
    short(seconds * 1e6)
}

/// About three digits.
fn short(x: f64) -> String {
    match x {
        x if x < 1.0 => format!("{x:.3}"),
        x if x < 10.0 => format!("{x:.2}"),
        x if x < 100.0 => format!("{x:.1}"),
        _ => format!("{x:.0}"),
    }
}

fn ratio(x: f64) -> String {
    if x < 10.0 { format!("{x:.2}") } else { format!("{x:.1}") }
}
