//! A sample of the Rust's answers on the leaves for a replay without Rust: one case a line, decimal
//! numbers with single blanks, `OP A B C ANSWERNUMBER ANSWERVALUE`. All cases are within document 01's
//! ranges.

use crate::core::arith;
use crate::ir::math_utils as rust;
use crate::random::Random;

const CASES: usize = 20;

/// The answer's value for an operation and its three arguments.
fn answer(op: u64, [a, b, c]: [u64; 3]) -> u64 {
    let number = |x: u64| u32::try_from(x).expect("a number of 32 bits");
    let entry = |table: Vec<Vec<u64>>| table.concat()[c as usize];
    match op {
        1 => a.wrapping_mul(b),
        2 => arith::bitmask(number(a)),
        3 => arith::mod_add(a, b, number(c)),
        4 => arith::mod_sub(a, b, number(c)),
        5 => arith::mod_mul(a, b, number(c)),
        6 => arith::mod_neg(a, number(b)),
        7 => u64::from(rust::twos_in_factorial(number(a))),
        8 => u64::from(rust::precision_bits(number(a), number(b)).unwrap_or(0)),
        9 => u64::from(rust::degree_cap(number(a))),
        10 => rust::odd_part_factorial(number(a), number(b)),
        11 => rust::mod_inverse_odd(a, number(b)),
        12 => entry(rust::build_stirling_second_kind(a as u8, number(b))),
        13 => entry(rust::build_stirling_first_kind(a as u8, number(b))),
        _ => unreachable!("operations are 1 to 13"),
    }
}

/// Cases that are always there: the ends of the ranges and document 01's own numbers.
fn corners(op: u64) -> Vec<[u64; 3]> {
    const TOP: u64 = u64::MAX;
    const MAX: u64 = u32::MAX as u64;
    match op {
        1 => vec![[0, TOP, 0], [1, TOP, 0], [TOP, TOP, 0], [1 << 32, 1 << 32, 0], [1 << 63, 2, 0]],
        2 => [0, 1, 2, 8, 32, 63, 64, 65, MAX].map(|w| [w, 0, 0]).to_vec(),
        3..=5 => {
            vec![[0, 0, 0], [TOP, 1, 64], [0, TOP, 63], [TOP, TOP, 1], [3, 255, 8], [9, 7, MAX]]
        }
        6 => vec![[0, 8, 0], [1, 8, 0], [TOP, 64, 0], [1 << 63, 64, 0], [5, 0, 0], [5, MAX, 0]],
        7 => [0, 1, 2, 3, 4, 10, 66, 255, 256, 1 << 31, MAX].map(|k| [k, 0, 0]).to_vec(),
        8 => vec![
            [0, 0, 0],
            [0, 64, 0],
            [63, 64, 0],
            [64, 64, 0],
            [3, 2, 0],
            [0, MAX, 0],
            [MAX, 1, 0],
        ],
        9 => [2, 3, 4, 7, 8, 16, 31, 32, 63, 64].map(|w| [w, 0, 0]).to_vec(),
        10 => vec![[0, 1, 0], [1, 1, 0], [3, 8, 0], [255, 64, 0], [255, 1, 0], [66, 64, 0]],
        11 => vec![[1, 1, 0], [TOP, 64, 0], [3, 64, 0], [3, 5, 0], [5, 6, 0], [TOP, 1, 0]],
        _ => vec![[0, 2, 0], [1, 64, 3], [3, 8, 6], [3, 8, 13], [4, 2, 22], [255, 64, 65_407]],
    }
}

fn random(op: u64, r: &mut Random) -> [u64; 3] {
    let (word, width) = (r.word(), r.between(1, 64));
    match op {
        1 => [word, r.word(), 0],
        2 => [r.between(0, 70), 0, 0],
        3..=5 => [word, r.word(), width],
        6 => [word, width, 0],
        7 => [word & 0xffff_ffff, 0, 0],
        8 => [r.between(0, width + 3), width, 0],
        9 => [r.between(2, 64), 0, 0],
        10 => [r.between(0, 255), width, 0],
        11 => [word | 1, width, 0],
        _ => {
            let degree = r.pick(&[2, 3, 5, 8, 13, 34, 66, 100]);
            let row = r.between(degree / 2, degree);
            [degree, r.between(2, 64), row * (degree + 1) + r.between(1, row)]
        }
    }
}

/// What of a line is printed.
#[derive(Clone, Copy)]
pub enum Printed {
    Whole,
    Cases,
    Answers,
}

impl Printed {
    pub fn line(self, case: &[u64], answer: &[u64]) {
        let numbers: Vec<u64> = match self {
            Self::Whole => [case, answer].concat(),
            Self::Cases => case.to_vec(),
            Self::Answers => answer.to_vec(),
        };
        println!("{}", numbers.iter().map(u64::to_string).collect::<Vec<_>>().join(" "));
    }
}

pub fn print_leaves(printed: Printed) {
    for op in 1..=13 {
        let mut r = Random::new(1, &format!("sample {op}"));
        let mut cases = corners(op);
        while cases.len() < CASES {
            let case = random(op, &mut r);
            if !cases.contains(&case) {
                cases.push(case);
            }
        }
        for case in cases {
            let [a, b, c] = case;
            printed.line(&[op, a, b, c], &[0, answer(op, case)]);
        }
    }
}
