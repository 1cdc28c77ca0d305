//! `crate::ir`: the Rust's files as they are, with the one module that is not among them.

#![allow(dead_code, unused_imports)]

#[path = "../../target/oracle/src/crates/cobra-ir/src/basis_transform.rs"]
pub mod basis_transform;
#[path = "../../target/oracle/src/crates/cobra-ir/src/math_utils.rs"]
pub mod math_utils;
#[path = "../../target/oracle/src/crates/cobra-ir/src/mono.rs"]
pub mod mono;
#[path = "../../target/oracle/src/crates/cobra-ir/src/multivar_poly_recovery.rs"]
pub mod multivar_poly_recovery;
#[path = "../../target/oracle/src/crates/cobra-ir/src/poly.rs"]
pub mod poly;
#[path = "../../target/oracle/src/crates/cobra-ir/src/poly_normalizer.rs"]
pub mod poly_normalizer;
#[path = "../../target/oracle/src/crates/cobra-ir/src/singleton_power.rs"]
pub mod singleton_power;
#[path = "../../target/oracle/src/crates/cobra-ir/src/singleton_power_recovery.rs"]
pub mod singleton_power_recovery;

pub use mono::{MonomialKey, MAX_POLY_VARS};

/// Expressions are left out: the functions that need them are never called here.
pub mod poly_expr_builder {
    use std::sync::Arc;

    use crate::core::expr::Expr;
    use crate::core::result::Result;
    use crate::ir::poly::NormalizedPoly;

    pub fn build_poly_expr(_: &NormalizedPoly) -> Result<Arc<Expr>> {
        unreachable!("expressions are left out")
    }
}
