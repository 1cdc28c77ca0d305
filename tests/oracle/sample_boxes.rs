//! Samples of the Rust's answers on boxes for a replay without Rust: one case a line, decimal numbers
//! with single blanks, `OP WIDTH DEGREE K CELLS v0 .. NUMBER a0 ..`, as many answers as values. The
//! support is 0 to K - 1 in order, and there are no other variables.

use crate::boxes::{low_bits, on_grid, width, Basis};
use crate::ir::math_utils::degree_cap;
use crate::random::Random;
use crate::reference as rust;
use crate::sample::Printed;
use crate::settings::Settings;

struct Line {
    op: u64,
    width: u64,
    degree: u64,
    k: u64,
    cells: Vec<u64>,
}

impl Line {
    fn print(&self, printed: Printed, answer: Result<Vec<u64>, u32>) {
        let head = [self.op, self.width, self.degree, self.k, self.cells.len() as u64];
        let answer = match answer {
            Ok(cells) => [vec![0], cells].concat(),
            Err(6) => [vec![6], vec![0; self.cells.len()]].concat(),
            Err(other) => panic!("refusal {other} in a sample"),
        };
        printed.line(&[&head[..], &self.cells].concat(), &answer);
    }

    fn with<T>(&self, then: impl FnOnce(&Settings) -> T) -> T {
        let support: Vec<u64> = (0..self.k).collect();
        let (total, width) = (self.k as u32, self.width as u32);
        then(&Settings { support: &support, total, width, degree: self.degree as u8 })
    }
}

/// Variables and degrees, at most 81 cells.
const SHAPES: [(u64, u64); 14] = [
    (1, 2),
    (1, 3),
    (1, 4),
    (1, 9),
    (2, 1),
    (2, 2),
    (2, 3),
    (2, 8),
    (3, 1),
    (3, 2),
    (3, 3),
    (4, 1),
    (4, 2),
    (6, 1),
];

fn cell_count(k: u64, degree: u64) -> u64 {
    (0..k).fold(1, |n, _| n * (degree + 1))
}

/// Document 01's rows and single powers, then random boxes: 20 cases for each of 1 to_factorial_basis,
/// 2 to_monomial_basis, 3 normalize_polynomial.
pub fn print_conversions(printed: Printed) {
    let references = [rust::to_falling, rust::to_powers, rust::normal_form];
    for (op, reference) in (1..).zip(references) {
        let mut r = Random::new(1, &format!("sample of conversion {op}"));
        let row =
            |width, degree, cells: &[u64]| Line { op, width, degree, k: 1, cells: cells.to_vec() };
        let mut lines = vec![
            row(3, 2, &[0, 0, 4]),
            row(2, 4, &[0, 0, 0, 0, 1]),
            row(8, 3, &[0, 0, 0, 1]),
            row(64, 0, &[u64::MAX]),
            row(8, 1, &[255, 254]),
            row(64, 9, &[0, 0, 0, 0, 0, 0, 0, 0, 0, 1]),
        ];
        for (k, degree) in SHAPES {
            let width = width(&mut r);
            let cells = r.words(cell_count(k, degree));
            lines.push(Line { op, width, degree, k, cells });
        }
        for mut line in lines {
            let mut answer = line.with(|s| reference(&line.cells, s));
            if answer.as_ref().is_ok_and(|cells| *cells != rust::reduced(cells, line.width as u32))
            {
                // the Rust leaves bits above the width where no exponent is above 1
                line.cells = rust::reduced(&line.cells, line.width as u32);
                answer = line.with(|s| reference(&line.cells, s));
            }
            line.print(printed, answer);
        }
    }
}

/// Document 01's rows, then grids of polynomials, every third one damaged: 1 recovery (40 cases),
/// 2 singletons (20 cases, DEGREE 0, K variables of `degree_cap` cells each).
pub fn print_recovery(printed: Printed) {
    for line in recovery_lines() {
        line.print(printed, line.with(|s| rust::recovery(&line.cells, s)));
    }
    for line in singleton_lines() {
        let (k, width) = (line.k as u32, line.width as u32);
        line.print(printed, rust::singletons(&line.cells, k, width));
    }
}

fn recovery_lines() -> Vec<Line> {
    let row =
        |k, width, degree, cells: &[u64]| Line { op: 1, width, degree, k, cells: cells.to_vec() };
    let mut r = Random::new(1, "sample of recovery");
    let mut lines = vec![
        row(1, 8, 2, &[1, 2, 5]),
        row(1, 8, 2, &[0, 0, 1]),
        row(1, 8, 3, &[0, 0, 0, 6]),
        row(1, 2, 4, &[0, 0, 0, 0, 1]),
        row(1, 2, 4, &[0; 5]),
        row(2, 8, 1, &[0, 0, 0, 1]),
    ];
    for i in 0..34 {
        let (k, degree) = SHAPES[i % SHAPES.len()];
        let width = width(&mut r);
        let basis = if i % 4 == 3 { Basis::Powers } else { Basis::Falling };
        let coefficients = r.words(cell_count(k, degree));
        let mut cells = on_grid(&coefficients, degree as u8, k as usize, basis);
        if i % 3 == 2 {
            let cell = r.below(cells.len() as u64) as usize;
            cells[cell] = cells[cell].wrapping_add(1 + r.below(2));
        }
        if i % 2 == 0 {
            cells.iter_mut().for_each(|x| *x &= low_bits(width));
        }
        lines.push(Line { op: 1, width, degree, k, cells });
    }
    lines
}

fn singleton_lines() -> Vec<Line> {
    let row = |k, width, cells: &[u64]| Line { op: 2, width, degree: 0, k, cells: cells.to_vec() };
    let mut r = Random::new(1, "sample of singletons");
    let mut lines = vec![
        row(1, 2, &[3, 0, 1, 2]),
        row(1, 2, &[0, 0, 1, 0]),
        row(0, 64, &[]),
        row(2, 2, &[3, 0, 1, 2, 7, 7, 7, 7]),
    ];
    for (i, width) in
        [2, 3, 4, 5, 7, 8, 8, 12, 16, 20, 24, 31, 32, 33, 63, 64].into_iter().enumerate()
    {
        let cap = u64::from(degree_cap(width as u32));
        let k = r.between(1, (81 / cap).min(4));
        let (origin, mut cells) = (r.word(), Vec::new());
        for _ in 0..k {
            let mut line = r.words(cap);
            line[0] = origin;
            cells.extend(on_grid(&line, (cap - 1) as u8, 1, Basis::Falling));
        }
        if i % 3 == 2 {
            let cell = 1 + r.below(cap - 1) as usize;
            cells[cell] = cells[cell].wrapping_add(1 << r.below(width));
        }
        lines.push(Line { op: 2, width, degree: 0, k, cells });
    }
    lines
}
