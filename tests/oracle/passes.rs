//! `crate::passes`: the Rust's fit as it is. Both of its solvers are visible inside one crate only,
//! which is why the driver and the Rust's files are one crate.

#![allow(dead_code)]

#[path = "../../target/oracle/src/crates/cobra-passes/src/weighted_poly_fit.rs"]
pub mod weighted_poly_fit;
