//! Running a group: every case is compared in one place, and a failing one is made smaller before
//! it is shown. The self-test spoils an answer just before that comparison.

use crate::group::{Answer, Case, Group, Source};
use crate::random::Random;
use std::time::{Duration, Instant};

/// A wrong answer planted for the self-test.
#[derive(Clone, Copy)]
pub enum Plant {
    Nothing,
    /// One bit of one cell of the part, in the n-th case (from 0) whose part has cells.
    Once {
        part: usize,
        nth: u64,
        salt: u64,
    },
    /// The lowest bit of the first part, wherever all three numbers have reached these limits.
    Reaching([u64; 3]),
}

#[derive(Clone)]
pub struct Failure {
    pub case: Case,
    pub judged: Answer,
    pub expected: Answer,
}

/// What came of a group.
#[derive(Default)]
pub struct Verdict {
    pub cases: u64,
    /// Of these, cases in which the Rust took part.
    pub by_rust: u64,
    /// Of these, how many were accepted (0) or refused, by number.
    pub numbers: [u64; 13],
    /// Of the accepted ones that are a no (0) or a yes (1), how many were which.
    pub truths: [u64; 2],
    /// For each part of the answer the number of cases in which it had cells.
    pub filled: Vec<u64>,
    /// The case that failed first, and the smallest one found from it.
    pub failure: Option<(Failure, Failure)>,
}

/// Compares one case; `seen` counts for each part the cases so far that had cells there.
fn compare(group: &Group, case: &Case, plant: Plant, seen: &[u64]) -> (Source, Answer, Answer) {
    let mut judged = (group.judged)(case);
    spoil(&mut judged, case, plant, seen);
    let (from, expected) = (group.expected)(case);
    (from, judged, expected)
}

fn spoil(answer: &mut Answer, case: &Case, plant: Plant, seen: &[u64]) {
    match plant {
        Plant::Nothing => {}
        Plant::Once { part, nth, salt } => {
            let Some(part_seen) = seen.get(part) else { return };
            let target = &mut answer.0[part];
            if !target.cells.is_empty() && *part_seen == nth {
                let cell = (salt >> 8) as usize % target.cells.len();
                target.cells[cell] ^= 1 << (salt % u64::from(target.bits));
            }
        }
        Plant::Reaching(limits) => {
            if case.numbers.iter().zip(limits).all(|(&n, limit)| n >= limit) {
                answer.0[0].cells[0] ^= 1;
            }
        }
    }
}

/// The small range, then `cases` random ones, up to the first that fails.
pub fn judge(group: &Group, seed: u64, cases: u64, plant: Plant) -> Verdict {
    let mut verdict = Verdict::default();
    (group.small)(&mut |case| judge_case(group, &case, plant, &mut verdict));
    if let Some(random) = group.random {
        let mut numbers = Random::new(seed, group.name);
        for _ in 0..cases.div_ceil(group.cost) {
            judge_case(group, &random(&mut numbers), plant, &mut verdict);
        }
    }
    verdict
}

fn judge_case(group: &Group, case: &Case, plant: Plant, verdict: &mut Verdict) {
    if verdict.failure.is_some() {
        return;
    }
    if verdict.filled.is_empty() {
        verdict.filled = vec![0; (group.judged)(case).0.len()];
    }
    let (from, judged, expected) = compare(group, case, plant, &verdict.filled);
    verdict.cases += 1;
    verdict.by_rust += u64::from(from == Source::Rust);
    if let Some(count) = expected.refusal().and_then(|n| verdict.numbers.get_mut(n)) {
        *count += 1;
    }
    if let Some(count) = expected.truth().and_then(|truth| verdict.truths.get_mut(truth)) {
        *count += 1;
    }
    for (count, part) in verdict.filled.iter_mut().zip(&judged.0) {
        *count += u64::from(!part.cells.is_empty());
    }
    if judged != expected {
        let case = case.clone();
        let first = Failure { case, judged, expected };
        let smallest = match plant {
            Plant::Once { .. } => first.clone(), // it shows at one case alone
            _ => shrink(group, first.clone(), plant),
        };
        verdict.failure = Some((first, smallest));
    }
}

/// Tries smaller cases as long as one of them fails too, for some seconds at most.
fn shrink(group: &Group, mut least: Failure, plant: Plant) -> Failure {
    let (mut trials, start) = (20_000, Instant::now());
    'again: loop {
        for case in smaller(&least.case) {
            if trials == 0 || start.elapsed() > Duration::from_secs(20) {
                return least;
            }
            trials -= 1;
            let (_, judged, expected) = compare(group, &case, plant, &[]);
            if judged != expected {
                least = Failure { case, judged, expected };
                continue 'again;
            }
        }
        return least;
    }
}

/// Cases one step below: a number made smaller, a table shorter, an entry smaller; big steps first.
fn smaller(case: &Case) -> Vec<Case> {
    let mut found = Vec::new();
    for i in 0..case.numbers.len() {
        for number in lower(case.numbers[i]) {
            let mut next = case.clone();
            next.numbers[i] = number;
            found.push(next);
        }
    }
    for (i, table) in case.tables.iter().enumerate() {
        for len in lower(table.len() as u64) {
            let mut next = case.clone();
            next.tables[i].truncate(len as usize);
            found.push(next);
        }
        if table.iter().any(|&x| x != 0) {
            let mut next = case.clone();
            next.tables[i].fill(0);
            found.push(next);
        }
        for j in 0..table.len().min(256) {
            for entry in lower(table[j]) {
                let mut next = case.clone();
                next.tables[i][j] = entry;
                found.push(next);
            }
        }
    }
    found
}

/// Numbers below `x`, in rising order: 0, 1, `x` without its highest bit, `x` without one to four
/// low bits, `x` without its lowest one, half of it, its predecessor.
fn lower(x: u64) -> Vec<u64> {
    if x == 0 {
        return Vec::new();
    }
    let highest = 1u64 << (63 - x.leading_zeros());
    let mut found = vec![0, 1, x - highest, highest, x / 2, x / 2 + 1, x & (x - 1), x - 1];
    found.extend((1..5).map(|k| x >> k << k));
    found.retain(|&y| y < x);
    found.sort_unstable();
    found.dedup();
    found
}
