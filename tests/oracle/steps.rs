//! The Rust's own steps, counted. The passes of its recovery and the list of its fit's columns stand in functions of its own,
//! so build.sh cuts both from its files as they are.

use crate::core::evaluator::Evaluator;
use crate::ir::multivar_poly_recovery::recover_multivar_poly;
use crate::passes::weighted_poly_fit::{recover_weighted_poly, WeightFn};
use std::cell::Cell;
use std::collections::BTreeMap;
use std::ops::BitAnd;
use std::sync::Mutex;

/// Of a recovery with these variables and this degree: the grid points that the Rust asks for, and the subtractions of
/// its passes.
pub fn recovery(k: usize, degree: u8) -> [u64; 2] {
    static KNOWN: Mutex<BTreeMap<(usize, u8), [u64; 2]>> = Mutex::new(BTreeMap::new());
    remembered(&KNOWN, (k, degree), || {
        let cells = asked(k, |values, support, total| {
            recover_multivar_poly(values, support, total, 64, degree);
        });
        [cells, subtractions(k, degree, cells as usize)]
    })
}

/// Of a fit with these variables, max_degree and grid_degree: the grid points that the Rust asks for, and the length of its
/// list of columns.
pub fn fit(k: usize, max: u8, grid: u8) -> [u64; 2] {
    static KNOWN: Mutex<BTreeMap<(usize, u8, u8), [u64; 2]>> = Mutex::new(BTreeMap::new());
    remembered(&KNOWN, (k, max, grid), || {
        let weight: WeightFn = Box::new(|_, _| 0);
        let rows = asked(k, |targets, support, total| {
            recover_weighted_poly(targets, &weight, support, total, 64, max, grid);
        });
        [rows, columns::listed(k as u32, max, max.min(grid))]
    })
}

fn remembered<K: Ord, V: Copy>(known: &Mutex<BTreeMap<K, V>>, key: K, made: impl FnOnce() -> V) -> V {
    *known.lock().expect("one thread").entry(key).or_insert_with(made)
}

/// How often a call evaluates a function of k variables, which is zero.
fn asked(k: usize, call: impl FnOnce(&Evaluator, &[u32], u32)) -> u64 {
    let (count, support) = (Cell::new(0), (0..k as u32).collect::<Vec<u32>>());
    let zero = Evaluator::new(|_| {
        count.set(count.get() + 1);
        0
    });
    call(&zero, &support, k as u32);
    count.get()
}

pub mod columns {
    include!("../../target/oracle/columns.rs");

    pub fn listed(k: u32, max: u8, most: u8) -> u64 {
        enumerate_basis(k, max, most).len() as u64
    }
}

/// A cell of a table that counts the subtractions made in it.
#[derive(Clone, Copy)]
struct Counting<'a>(&'a Cell<u64>);

impl Counting<'_> {
    fn wrapping_sub(self, _: Self) -> Self {
        self.0.set(self.0.get() + 1);
        self
    }
}

impl BitAnd<u64> for Counting<'_> {
    type Output = Self;

    fn bitand(self, _: u64) -> Self {
        self
    }
}

/// The Rust's passes over a table of counting cells, under the names that they have there.
fn subtractions(k: usize, max_degree: u8, table_size: usize) -> u64 {
    let (count, mask, base) = (Cell::new(0), u64::MAX, usize::from(max_degree) + 1);
    let mut table = vec![Counting(&count); table_size];
    include!("../../target/oracle/passes.rs");
    count.get()
}
