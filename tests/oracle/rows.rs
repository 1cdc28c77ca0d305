//! The references alone on document 01's checked rows, so that a stand-in that misleads the Rust is
//! seen before anything is compared with it.

use crate::core::arith::bitmask;
use crate::group::{Answer, Case, Group, Source};
use crate::ir::math_utils::degree_cap;
use crate::reference as rust;
use crate::settings::Settings;
use std::sync::OnceLock;

pub const CHECKED_ROWS: Group = Group {
    name: "checked rows of the references",
    names: &["row"],
    small: |give| (0..rows().len() as u64).for_each(|row| give(Case::of([row]))),
    random: None,
    cost: 1,
    judged: |c| {
        let (what, said, _) = &rows()[c.u64(0) as usize];
        Answer::default().words(what, said.clone())
    },
    expected: |c| {
        let (what, _, right) = &rows()[c.u64(0) as usize];
        (Source::Rust, Answer::default().words(what, right.clone()))
    },
};

/// Words for the row, what the reference says, and what document 01 says: 0 and the cells, or the
/// refusal alone.
type Row = (&'static str, Vec<u64>, Vec<u64>);

fn said(answer: Result<Vec<u64>, u32>) -> Vec<u64> {
    match answer {
        Ok(cells) => [vec![0], cells].concat(),
        Err(refusal) => vec![u64::from(refusal)],
    }
}

fn one(width: u32, degree: u8) -> Settings<'static> {
    Settings { support: &[0], total: 1, width, degree }
}

fn rows() -> &'static [Row] {
    static ROWS: OnceLock<Vec<Row>> = OnceLock::new();
    ROWS.get_or_init(|| {
        [leaf_rows(), recovery_rows(), conversion_rows(), singleton_rows(), solving_rows()].concat()
    })
}

fn leaf_rows() -> Vec<Row> {
    let caps = [2, 8, 64].map(|w| u64::from(degree_cap(w)));
    let masks = [0, 64, 65, u32::MAX].map(bitmask);
    vec![
        ("degree_cap of 2, 8, 64", caps.to_vec(), vec![4, 10, 66]),
        ("bitmask of 0, 64, 65, 2^32 - 1", masks.to_vec(), vec![0, u64::MAX, u64::MAX, u64::MAX]),
    ]
}

fn recovery_rows() -> Vec<Row> {
    let line = |w, d, values: &[u64]| said(rust::recovery(values, &one(w, d)));
    let two = Settings { support: &[0, 1], total: 2, width: 8, degree: 1 };
    let swapped = Settings { support: &[3, 1], total: 5, width: 8, degree: 1 };
    let with = |s: Settings| said(rust::recovery(&[0, 0, 0, 1], &s));
    let wide = Settings { degree: 255, ..two };
    let cube = Settings { support: &[0, 1, 2], total: 3, width: 8, degree: 40 };
    let passes = |s: Settings, cells| said(rust::recovery(&vec![7; cells], &s))[0..2].to_vec();
    vec![
        ("recovery w 8, d 2, values 1 2 5", line(8, 2, &[1, 2, 5]), vec![0, 1, 1, 1]),
        ("recovery w 8, d 2, values 0 0 1", line(8, 2, &[0, 0, 1]), vec![6]),
        ("recovery w 8, d 3, values 0 0 0 6", line(8, 3, &[0, 0, 0, 6]), vec![0, 0, 0, 0, 1]),
        ("recovery w 2, d 4, values 0 0 0 0 1", line(2, 4, &[0, 0, 0, 0, 1]), vec![6]),
        ("recovery w 2, d 4, values all zero", line(2, 4, &[0; 5]), vec![0; 6]),
        ("recovery w 8, two variables, d 1, 0 0 0 1", with(two), vec![0, 0, 0, 0, 1]),
        (
            "recovery, first support variable fastest, 0 1 0 1",
            { said(rust::recovery(&[0, 1, 0, 1], &swapped)) },
            vec![0, 0, 1, 0, 0],
        ),
        ("recovery at width 1", line(1, 2, &[1, 2, 5]), vec![3]),
        ("recovery at width 65", line(65, 2, &[1, 2, 5]), vec![3]),
        ("recovery of 256 by 256 cells", passes(wide, 65_536), vec![0, 7]),
        ("recovery of 41 cubed cells", said(rust::recovery(&[], &cube)), vec![8]),
        ("recovery, empty support", with(Settings { support: &[], total: 21, ..two }), vec![1]),
        ("recovery, 21 variables", with(Settings { total: 21, width: 1, ..two }), vec![2]),
        ("recovery, degree 0", with(Settings { degree: 0, support: &[9], ..two }), vec![4]),
        ("recovery, index too large", with(Settings { support: &[0, 1 << 32], ..two }), vec![5]),
        ("recovery, repeated index", with(Settings { support: &[1, 1], ..two }), vec![7]),
        ("recovery, wrong length", line(8, 2, &[1, 2]), vec![9]),
    ]
}

fn conversion_rows() -> Vec<Row> {
    let normal = |w, d, cells: &[u64]| said(rust::normal_form(cells, &one(w, d)));
    let powers = |w, d, cells: &[u64]| said(rust::to_powers(cells, &one(w, d)));
    let falling = |w, d, cells: &[u64]| said(rust::to_falling(cells, &one(w, d)));
    let valid = |w, d, cells: &[u64]| vec![u64::from(rust::is_valid(cells, &one(w, d)))];
    let reduced = rust::to_falling(&[256, 511], &one(8, 1)).map(|cells| rust::reduced(&cells, 8));
    vec![
        ("normal form of 4x^2 at w 3", normal(3, 2, &[0, 0, 4]), vec![0, 0, 4, 0]),
        ("normal form of x^4 at w 2", normal(2, 4, &[0, 0, 0, 0, 1]), vec![0, 0, 1, 1, 0, 0]),
        ("x_(3) at w 8 in powers", powers(8, 3, &[0, 0, 0, 1]), vec![0, 0, 2, 253, 1]),
        ("x^3 at w 8 in falling factorials", falling(8, 3, &[0, 0, 0, 1]), vec![0, 0, 1, 3, 1]),
        ("256 + 511x at w 8, unmasked", falling(8, 1, &[256, 511]), vec![0, 256, 511]),
        ("256 + 511x at w 8, reduced", said(reduced), vec![0, 0, 255]),
        ("conversion at width 1", powers(1, 3, &[0, 0, 0, 1]), vec![3]),
        ("conversion of a wrong length", powers(8, 3, &[0, 0, 0]), vec![9]),
        ("is_valid, 1 + x_(2)", valid(3, 2, &[1, 0, 1]), vec![1]),
        ("is_valid, coefficient of 2^(w-q)", valid(3, 2, &[1, 0, 4]), vec![0]),
        ("is_valid at width 65", valid(65, 2, &[1, 0, 1]), vec![0]),
    ]
}

fn singleton_rows() -> Vec<Row> {
    let singles = |values: &[u64], total, w| said(rust::singletons(values, total, w));
    let two = [3, 0, 1, 2, 7, 7, 7, 7];
    vec![
        ("singleton w 2, values 3 0 1 2", singles(&[3, 0, 1, 2], 1, 2), vec![0, 0, 1, 0, 0]),
        ("singleton w 2, values 0 0 1 0", singles(&[0, 0, 1, 0], 1, 2), vec![6]),
        ("singletons of two variables", singles(&two, 2, 2), vec![0, 0, 1, 0, 0, 0, 0, 0, 0]),
        ("singletons of no variables", singles(&[], 0, 64), vec![0]),
        ("singletons of 21 variables", singles(&[], 21, 1), vec![2]),
        ("singletons at width 1", singles(&[], 1, 1), vec![3]),
        ("singletons, wrong length", singles(&[0, 0, 0], 1, 2), vec![9]),
    ]
}

fn solving_rows() -> Vec<Row> {
    let fit = |targets: &[u64], weights: &[u64], s: Settings, grid| {
        said(
            rust::fit(targets, weights, &s, grid)
                .map(|(cells, degree)| [cells, vec![u64::from(degree)]].concat()),
        )
    };
    let solve = |matrix: &[u64], right: &[u64], columns, w| {
        said(rust::solver(&mut matrix.to_vec(), &mut right.to_vec(), columns, w))
    };
    let solve4 = |first: u64| {
        let mut matrix = [[first, 0, 0, 0], [0, 1, 0, 0], [0, 0, 3, 0], [0, 0, 0, 4]];
        said(rust::solver4(&mut matrix, &mut [2, 5, 3, 8], 8).map(|x| x.to_vec()))
    };
    let far = Settings { support: &[7], ..one(8, 1) };
    let many = Settings { support: &[0, 1], total: 2, width: 8, degree: 255 };
    vec![
        (
            "fit w 8, weights 2 2, values 2 6, degrees 1",
            { fit(&[2, 6], &[2, 2], one(8, 1), 1) },
            vec![0, 1, 2, 1],
        ),
        ("fit without an answer", fit(&[1, 6], &[2, 2], one(8, 1), 1), vec![10]),
        ("fit of degree 0", fit(&[6, 6], &[2, 2], one(8, 0), 1), vec![0, 3, 0]),
        ("fit, empty support", fit(&[], &[], Settings { support: &[], ..far }, 1), vec![1]),
        ("fit, index too large", fit(&[2, 6], &[2, 2], far, 1), vec![5]),
        ("fit, 21 variables", fit(&[], &[], Settings { total: 21, ..far }, 1), vec![2]),
        ("fit at width 65", fit(&[2, 6], &[2, 2], one(65, 1), 1), vec![3]),
        ("fit, matrix above the limit", fit(&[], &[], many, 255), vec![8]),
        ("fit, wrong length", fit(&[2, 6], &[2], one(8, 1), 1), vec![9]),
        ("solver w 3, rows 4 1 | 2 and 0 4 | 0", solve(&[4, 1, 0, 4], &[2, 0], 2, 3), vec![10]),
        ("solver w 8, row 3 | 6", solve(&[3], &[6], 1, 8), vec![0, 2]),
        ("solver w 8, row 256 | 0, reduced first", solve(&[256], &[0], 1, 8), vec![10]),
        ("solver at width 1", solve(&[3], &[6], 1, 1), vec![3]),
        ("solver, no columns", solve(&[], &[], 0, 8), vec![9]),
        ("four by four solver", solve4(2), vec![0, 1, 5, 1, 2]),
        ("four by four solver without an answer", solve4(4), vec![10]),
    ]
}
