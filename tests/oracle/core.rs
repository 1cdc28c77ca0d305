//! `crate::core`: the Rust's `arith.rs` as it is, beside stand-ins for the modules that its other
//! files name and that are not among them.

#[allow(dead_code)]
#[path = "../../target/oracle/src/crates/cobra-core/src/arith.rs"]
pub mod arith;

/// The evaluator answers from a closure over the point, mostly one that reads a table.
pub mod evaluator {
    #[derive(Default)]
    pub struct Workspace;

    pub struct Evaluator<'a> {
        read: Box<dyn Fn(&[u64]) -> u64 + 'a>,
    }

    impl<'a> Evaluator<'a> {
        pub fn new(read: impl Fn(&[u64]) -> u64 + 'a) -> Self {
            Self {
                read: Box::new(read),
            }
        }

        /// Reads a grid of the given degree over the support: the cell's number is the sum of
        /// coordinate i times (degree + 1)^i, coordinates in the support's order.
        pub fn from_grid(values: &'a [u64], support: &'a [u32], degree: u8) -> Self {
            let base = usize::from(degree) + 1;
            Self::new(move |point| {
                let cell = support
                    .iter()
                    .rev()
                    .fold(0, |cell, &var| cell * base + point[var as usize] as usize);
                values[cell]
            })
        }

        pub fn eval(&self, point: &[u64]) -> u64 {
            (self.read)(point)
        }

        pub fn eval_with(&self, point: &[u64], _: &mut Workspace) -> u64 {
            self.eval(point)
        }
    }
}

/// What a call says: a result, or a reason that carries the subcode.
#[allow(dead_code)]
pub mod pass_contract {
    #[derive(Clone, Debug)]
    pub enum ReasonCategory {
        GuardFailed,
        NoSolution,
        SearchExhausted,
    }

    #[derive(Clone, Debug)]
    pub enum ReasonDomain {
        MultivarPoly,
        WeightedPolyFit,
    }

    #[derive(Clone, Debug)]
    pub struct ReasonCode {
        pub category: ReasonCategory,
        pub domain: ReasonDomain,
        pub subcode: u16,
    }

    #[derive(Clone, Debug)]
    pub struct ReasonFrame {
        pub code: ReasonCode,
        pub message: String,
        pub fields: Vec<(String, String)>,
    }

    #[derive(Clone, Debug)]
    pub struct ReasonDetail {
        pub top: ReasonFrame,
        pub causes: Vec<ReasonFrame>,
    }

    #[derive(Clone, Debug)]
    pub enum SolverResult<T> {
        Success(T),
        Inapplicable(ReasonDetail),
        Blocked(ReasonDetail),
    }

    impl<T> SolverResult<T> {
        pub fn take_payload(self) -> Option<T> {
            self.into_answer().ok()
        }

        /// The payload, or the subcode.
        pub fn into_answer(self) -> Result<T, u16> {
            match self {
                Self::Success(payload) => Ok(payload),
                Self::Inapplicable(why) | Self::Blocked(why) => Err(why.top.code.subcode),
            }
        }
    }
}

/// Errors as the singleton's recovery returns them.
#[allow(dead_code)]
pub mod result {
    #[derive(Clone, Copy, Debug)]
    pub enum CobraError {
        NoReduction,
    }

    #[derive(Clone, Debug)]
    pub struct Failure {
        pub error: CobraError,
        pub message: String,
    }

    pub type Result<T> = std::result::Result<T, Failure>;

    pub fn err(error: CobraError, message: String) -> Failure {
        Failure { error, message }
    }
}

/// Expressions are left out: the functions that need them are never called here.
pub mod expr {
    pub struct Expr;
}

pub struct Compiled;

pub fn compile(_: &expr::Expr, _: u32) -> Compiled {
    unreachable!("expressions are left out")
}

pub fn eval(_: &Compiled, _: &[u64], _: &mut Vec<u64>) -> u64 {
    unreachable!("expressions are left out")
}
