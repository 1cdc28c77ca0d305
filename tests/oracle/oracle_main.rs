//! Compares the project's static library with the Rust that it comes from. README.md says how it is
//! built, what it prints and how to add a group.

mod beyond;
mod box_calls;
mod boxes;
mod bytes;
mod conversions;
mod core;
mod datum;
mod definitions;
mod demand3;
mod differences;
mod differences_boxes;
mod differences_leaves;
mod differences_solving;
mod falling;
mod fit;
mod group;
mod ir;
mod judge;
mod leaves_arith;
mod leaves_math;
mod leaves_mono;
mod library;
mod library_boxes;
mod passes;
mod random;
mod recovery;
mod reference;
mod room;
mod rows;
mod sameness;
mod settings;
mod singletons;
mod steps;
mod systems;

use group::{first_difference, Group};
use judge::{judge, Failure, Plant};
use random::mix;
use std::process::exit;

/// All groups in the order of the run, each with whether the library has its calls. A line that is
/// taken away here switches its groups off.
fn groups() -> Vec<(&'static Group, bool)> {
    let mut groups = Vec::new();
    groups.extend([&rows::CHECKED_ROWS, &differences::LISTED].map(always));
    groups.extend(definitions::GROUPS.map(always));
    groups.extend(leaves_arith::GROUPS.map(always));
    groups.extend(leaves_math::GROUPS.map(always));
    groups.extend(falling::GROUPS.map(always));
    groups.extend(leaves_mono::GROUPS.map(always));
    groups.extend(box_calls::GROUPS);
    groups.extend(sameness::GROUPS);
    groups.extend(datum::GROUPS);
    groups.extend(conversions::GROUPS);
    groups.extend(recovery::GROUPS);
    groups.extend(singletons::GROUPS);
    groups.extend(systems::GROUPS);
    groups.extend(fit::GROUPS);
    groups.extend(room::GROUPS);
    groups.extend(demand3::GROUPS);
    groups.extend(beyond::GROUPS);
    groups
}

fn always(group: &'static Group) -> (&'static Group, bool) {
    (group, true)
}

struct Options {
    seed: u64,
    cases: Option<u64>,
    only: Option<String>,
    selftest: bool,
    numbers: bool,
    complete: bool,
}

fn usage(why: &str) -> ! {
    eprintln!("oracle: {why}");
    eprintln!("usage: run [--seed N] [--cases N] [--only GROUP] [--numbers] [--complete] [--selftest]");
    eprintln!("   or: run --sample leaves|conversions|recovery|systems [--cases-only|--answers-only]");
    exit(2)
}

fn options() -> Options {
    let mut options = Options {
        seed: 1,
        cases: None,
        only: None,
        selftest: false,
        numbers: false,
        complete: false,
    };
    let mut words = std::env::args().skip(1);
    while let Some(word) = words.next() {
        let mut next = || words.next().unwrap_or_else(|| usage(&format!("{word} needs a word")));
        let number = |word: String| word.parse().unwrap_or_else(|_| usage("not a number"));
        match word.as_str() {
            "--seed" => options.seed = number(next()),
            "--cases" => options.cases = Some(number(next())),
            "--only" => options.only = Some(next()),
            "--selftest" => options.selftest = true,
            "--numbers" => options.numbers = true,
            "--complete" => options.complete = true,
            _ => usage(&format!("unknown word {word}")),
        }
    }
    options
}

fn main() {
    let options = options();
    let chosen = |g: &Group| options.only.as_ref().map_or(true, |name| g.name.starts_with(name));
    let groups: Vec<_> = groups().into_iter().filter(|(group, _)| chosen(group)).collect();
    if groups.is_empty() {
        usage("no group of that name");
    }
    let cases = options.cases.unwrap_or(if options.selftest { 1_000 } else { 100_000 });
    println!("oracle: seed {}, {} random cases a group", options.seed, commas(cases));
    let passed = if options.selftest {
        selftest(&groups, options.seed, cases)
    } else {
        compare_all(&groups, options.seed, cases, options.numbers)
    };
    let missing = groups.iter().filter(|(_, here)| !here).count();
    if missing > 0 {
        println!("oracle: {missing} groups are not in the library");
    }
    exit(i32::from(!passed || options.complete && missing > 0))
}

fn compare_all(groups: &[(&Group, bool)], seed: u64, cases: u64, numbers: bool) -> bool {
    let (mut total, mut total_by_rust) = (0, 0);
    for (group, here) in groups {
        if !here {
            println!("oracle: {}: not in the library", group.name);
            continue;
        }
        let verdict = judge(group, seed, cases, Plant::Nothing);
        if let Some((first, smallest)) = verdict.failure {
            let name = group.name;
            println!("oracle: {name}: DIFFERENCE at case {}", commas(verdict.cases));
            show(group, "first found", &first);
            show(group, "smallest found", &smallest);
            return false;
        }
        let (all, by_rust) = (commas(verdict.cases), verdict.by_rust);
        let how = match by_rust {
            n if n == verdict.cases => String::new(),
            n => format!(" ({} with the Rust, the others with document 01 alone)", commas(n)),
        };
        println!("oracle: {}: {all} cases agree{how}", group.name);
        if numbers {
            let counts = verdict.numbers.iter().enumerate().filter(|(_, &count)| count > 0);
            let shown = counts.map(|(n, &count)| format!("{n}: {}", commas(count)));
            println!("oracle:     by number: {}", shown.collect::<Vec<_>>().join("; "));
            let [no, yes] = verdict.truths.map(commas);
            if verdict.truths != [0, 0] {
                println!("oracle:     accepted: yes {yes}, no {no}");
            }
        }
        total += verdict.cases;
        total_by_rust += by_rust;
    }
    let n = groups.iter().filter(|(_, here)| *here).count();
    let (total, by_rust) = (commas(total), commas(total_by_rust));
    println!("oracle: {n} groups, {total} cases agree, {by_rust} of them with the Rust");
    true
}

fn show(group: &Group, which: &str, failure: &Failure) {
    let difference = first_difference(&failure.judged, &failure.expected);
    println!("oracle: {}: {which}: {}: {difference}", group.name, group.show(&failure.case));
}

/// Plants wrong answers in each group in turn, in every part of its answers, each in one of the first
/// 200,000 cases that have such a part; all must be caught.
fn selftest(groups: &[(&Group, bool)], seed: u64, cases: u64) -> bool {
    let (mut planted, mut caught) = (0, 0);
    for (group, here) in groups {
        if !here {
            println!("oracle: {}: not in the library", group.name);
            continue;
        }
        let clean = judge(group, seed, cases, Plant::Nothing);
        if let Some((_, smallest)) = clean.failure {
            show(group, "differs before anything is planted", &smallest);
            return false;
        }
        let (mut here, mut found) = (0, 0);
        for (part, &filled) in clean.filled.iter().enumerate() {
            let salt = mix(seed ^ mix(part as u64));
            let plant = Plant::Once { part, nth: mix(salt) % filled.clamp(1, 200_000), salt };
            here += 1;
            found += u64::from(judge(group, seed, cases, plant).failure.is_some());
        }
        println!("oracle: selftest: {}: {found} of {here} wrong answers caught", group.name);
        planted += here;
        caught += found;
    }
    let refuted = refutes_what_is_false(seed, cases);
    let shrinks = shrinks_to_the_least(seed, cases);
    println!("oracle: selftest: shrinking finds the least case: {}", if shrinks { "yes" } else { "NO" });
    println!("oracle: selftest: {caught} of {planted} planted wrong answers caught");
    caught == planted && refuted && shrinks
}

/// Statements that are false must be refuted by the cases of the true ones beside them.
fn refutes_what_is_false(seed: u64, cases: u64) -> bool {
    let mut all = true;
    let statements = beyond::REFUTED.into_iter().chain(room::REFUTED).chain(sameness::REFUTED);
    let statements = statements.chain(datum::REFUTED).chain(falling::REFUTED.map(always));
    for (group, _) in statements.filter(|(_, here)| *here) {
        match judge(group, seed, cases, Plant::Nothing).failure {
            Some((_, smallest)) => show(group, "false, and refuted", &smallest),
            None => {
                println!("oracle: {}: false, and NOT refuted", group.name);
                all = false;
            }
        }
    }
    all
}

/// A product that is wrong from given arguments on must be shown at just these arguments.
fn shrinks_to_the_least(seed: u64, cases: u64) -> bool {
    let limits = [1_000_003, 77, 13];
    let verdict = judge(&leaves_arith::MOD_MUL, seed, cases, Plant::Reaching(limits));
    verdict.failure.is_some_and(|(_, smallest)| smallest.case.numbers == limits)
}

/// 1234567 as 1,234,567.
fn commas(number: u64) -> String {
    let digits = number.to_string();
    let mut shown = String::new();
    for (i, digit) in digits.chars().enumerate() {
        if i > 0 && (digits.len() - i) % 3 == 0 {
            shown.push(',');
        }
        shown.push(digit);
    }
    shown
}
