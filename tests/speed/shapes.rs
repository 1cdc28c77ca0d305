//! Boxes that are timed: those of the table, and those between which one thing grows.

use crate::session::{Series, Session};

/// Variables and degree.
pub type Shape = (usize, u8);

pub const SMALL: [Shape; 5] = [(1, 3), (1, 9), (2, 3), (3, 3), (2, 15)];
pub const CELLS_4096: [Shape; 4] = [(2, 63), (3, 15), (4, 7), (6, 3)];
pub const CELLS_65536: [Shape; 4] = [(2, 255), (4, 15), (8, 3), (16, 1)];
/// Degrees between those of the others.
pub const BETWEEN: [Shape; 4] = [(3, 5), (5, 5), (5, 8), (6, 4)];

const GROWTH: [(&str, &[Shape]); 3] = [
    ("variables at degree 3", &[(2, 3), (3, 3), (4, 3), (5, 3), (6, 3), (7, 3), (8, 3)]),
    ("degree at 2 variables", &[(2, 3), (2, 7), (2, 15), (2, 31), (2, 63), (2, 127), (2, 255)]),
    ("degree at 1 variable", &[(1, 3), (1, 7), (1, 15), (1, 31), (1, 63), (1, 127), (1, 255)]),
];

/// The width at which things grow.
pub const WIDE: u32 = 64;

/// The boxes of the table, then those that only the first few kinds of growth need; with each whether it
/// is of the table.
pub fn all(table: &[Shape], kinds: usize) -> Vec<(Shape, bool)> {
    let mut found: Vec<(Shape, bool)> = table.iter().map(|&shape| (shape, true)).collect();
    for &shape in GROWTH[..kinds].iter().flat_map(|(_, shapes)| *shapes) {
        if !found.iter().any(|&(other, _)| other == shape) {
            found.push((shape, false));
        }
    }
    found
}

/// Notes the growth of a call on boxes, of the first few kinds.
pub fn grow(session: &mut Session, call: &'static str, steps: &'static str, kinds: usize) {
    for &(grows, shapes) in &GROWTH[..kinds] {
        let inputs = shapes.iter().map(|&shape| (named(shape), WIDE)).collect();
        session.series.push(Series { call, grows, steps, inputs });
    }
}

pub fn named((k, degree): Shape) -> String {
    format!("{}, degree {degree}", variables(k))
}

pub fn variables(k: usize) -> String {
    format!("{k} variable{}", if k == 1 { "" } else { "s" })
}
