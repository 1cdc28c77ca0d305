//! Prints samples of the Rust's answers. A program of its own: it needs the Rust alone, and is built
//! without the project's library.

#![allow(dead_code)]

mod boxes;
mod core;
mod group;
mod ir;
mod library_boxes;
mod passes;
mod random;
mod reference;
mod sample;
mod sample_boxes;
mod sample_systems;
mod settings;

use sample::Printed;

fn usage() -> ! {
    eprintln!("usage: run --sample leaves|conversions|recovery|systems [--cases-only|--answers-only]");
    std::process::exit(2)
}

fn main() {
    let words: Vec<String> = std::env::args().skip(1).collect();
    let words: Vec<&str> = words.iter().map(String::as_str).collect();
    let (name, printed) = match words[..] {
        ["--sample", name] => (name, Printed::Whole),
        ["--sample", name, "--cases-only"] => (name, Printed::Cases),
        ["--sample", name, "--answers-only"] => (name, Printed::Answers),
        _ => usage(),
    };
    match name {
        "leaves" => sample::print_leaves(printed),
        "conversions" => sample_boxes::print_conversions(printed),
        "recovery" => sample_boxes::print_recovery(printed),
        "systems" => sample_systems::print_systems(printed),
        _ => usage(),
    }
}
