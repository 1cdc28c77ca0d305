//! Times the Rust program, the project's static library and a plain C version on the same inputs in one
//! run. README.md says what is timed.

#![allow(dead_code)]

#[path = "../oracle/boxes.rs"]
mod boxes;
#[path = "../oracle/core.rs"]
mod core;
mod fits;
mod forms;
#[path = "../oracle/group.rs"]
mod group;
#[path = "../oracle/ir.rs"]
mod ir;
mod keys;
mod leaves;
#[path = "../oracle/library.rs"]
mod library;
#[path = "../oracle/library_boxes.rs"]
mod library_boxes;
#[path = "../oracle/passes.rs"]
mod passes;
#[path = "../oracle/random.rs"]
mod random;
#[path = "../oracle/reference.rs"]
mod reference;
mod report;
mod room;
mod session;
#[path = "../oracle/settings.rs"]
mod settings;
mod shapes;
mod singletons;
mod solvers;
#[path = "../oracle/steps.rs"]
mod steps;
mod tables;
mod targets;
mod transforms;

use crate::session::Session;
use std::process::exit;

extern "C" {
    fn limit_prepare();
}

fn main() {
    let (mut quick, mut only) = (false, None);
    let mut words = std::env::args().skip(1);
    while let Some(word) = words.next() {
        match word.as_str() {
            "--quick" => quick = true,
            "--only" => only = words.next(),
            _ => {
                eprintln!("usage: run [--quick] [--only CALL] [--record]");
                exit(2)
            }
        }
    }
    unsafe { limit_prepare() };
    let mut session = Session { quick, only, rows: Vec::new(), series: Vec::new() };
    println!("### All calls\n\n{}", report::HEAD);
    transforms::time(&mut session);
    singletons::time(&mut session);
    fits::time(&mut session);
    solvers::time(&mut session);
    room::time(&mut session);
    forms::time(&mut session);
    leaves::time(&mut session);
    keys::time(&mut session);
    println!();
    report::reading(&session);
    println!("\n### Growth\n");
    report::growth(&session);
    println!("\n### What crossing as bytes takes\n");
    report::crossing(&session);
    println!("\n### A moved form beside a conversion\n");
    report::products(&session);
    println!("\n### Targets\n");
    targets::table(&session);
    println!("\n### Ratios\n");
    report::extremes(&session);
}
