//! The calls of the static library on boxes, a module a subject. All tables are u64, the support too.
//! The library may lack some of them: the build passes each call that it has as a cfg of its name, and
//! one that is missing is stood in for here, so that the driver links; its groups are not run.

macro_rules! calls {
    ($($name:ident($($arg:ident: $type:ty),* $(,)?);)*) => {
        extern "C" {
            $(#[cfg($name)] pub fn $name($($arg: $type),*) -> u32;)*
        }
        $(#[cfg(not($name))] pub unsafe extern "C" fn $name($(_: $type),*) -> u32 {
            unreachable!("a call that is not in the library")
        })*
    };
}

/// A table in, settings, a table out.
pub type InOut = unsafe extern "C" fn(
    *const u64,
    usize,
    *const u64,
    usize,
    u32,
    u32,
    u8,
    *mut u64,
    usize,
) -> u32;

pub mod poly {
    calls! {
        cobra_box_is_valid(
            coeffs: *const u64, coeffs_len: usize, support: *const u64, support_len: usize,
            total: u32, width: u32, max_degree: u8, value: *mut u64,
        );
        cobra_box_same(
            a: *const u64, a_len: usize, a_support: *const u64, a_support_len: usize,
            a_total: u32, a_width: u32, a_degree: u8,
            b: *const u64, b_len: usize, b_support: *const u64, b_support_len: usize,
            b_total: u32, b_width: u32, b_degree: u8, value: *mut u64,
        );
        cobra_box_value(
            coeffs: *const u64, coeffs_len: usize, support: *const u64, support_len: usize,
            total: u32, width: u32, max_degree: u8,
            point: *const u64, point_len: usize, value: *mut u64,
        );
        cobra_box_sum(
            a: *const u64, a_len: usize, b: *const u64, b_len: usize,
            support: *const u64, support_len: usize, total: u32, width: u32, max_degree: u8,
            out: *mut u64, out_len: usize,
        );
        cobra_reduce(
            coeffs: *mut u64, coeffs_len: usize, support: *const u64, support_len: usize,
            total: u32, width: u32, max_degree: u8,
        );
    }
}

pub mod datum {
    calls! {
        cobra_move_datum(
            coeffs: *const u64, coeffs_len: usize, support: *const u64, support_len: usize,
            total: u32, width: u32, max_degree: u8,
            offsets: *const u64, offsets_len: usize, out: *mut u64, out_len: usize,
        );
    }
}

pub mod conversions {
    calls! {
        cobra_to_factorial_basis(
            coeffs: *const u64, coeffs_len: usize, support: *const u64, support_len: usize,
            total: u32, width: u32, max_degree: u8, out: *mut u64, out_len: usize,
        );
        cobra_to_monomial_basis(
            coeffs: *const u64, coeffs_len: usize, support: *const u64, support_len: usize,
            total: u32, width: u32, max_degree: u8, out: *mut u64, out_len: usize,
        );
        cobra_normalize_polynomial(
            coeffs: *const u64, coeffs_len: usize, support: *const u64, support_len: usize,
            total: u32, width: u32, max_degree: u8, out: *mut u64, out_len: usize,
        );
    }
}

/// What recovery and the fit need.
pub mod room {
    calls! {
        cobra_recovery_room(
            support: *const u64, support_len: usize, total: u32, width: u32, degree: u8,
            cells: *mut u64, subtractions: *mut u64,
        );
        cobra_fit_room(
            support: *const u64, support_len: usize, total: u32, width: u32,
            max_degree: u8, grid_degree: u8,
            rows: *mut u64, columns: *mut u64, entries: *mut u64,
        );
    }
}

pub mod recovery {
    calls! {
        cobra_recover_multivar_poly(
            values: *const u64, values_len: usize, support: *const u64, support_len: usize,
            total: u32, width: u32, max_degree: u8, out: *mut u64, out_len: usize,
        );
    }
}

pub mod singletons {
    calls! {
        cobra_recover_singleton_powers(
            values: *const u64, values_len: usize, num_vars: u32, width: u32,
            out: *mut u64, out_len: usize,
        );
    }
}

pub mod systems {
    calls! {
        cobra_solve_2adic(
            matrix: *mut u64, matrix_len: usize, right: *mut u64, right_len: usize,
            columns: usize, width: u32, answer: *mut u64, answer_len: usize,
        );
        cobra_solve_2adic_fixed(
            matrix: *const u64, matrix_len: usize, right: *const u64, right_len: usize,
            width: u32, answer: *mut u64, answer_len: usize,
        );
    }
}

/// The database's calls, on tables of bytes.
pub mod bytes {
    calls! {
        cobra_recover(
            values: *const u8, values_len: usize, support: *const u8, support_len: usize,
            count: u64, total: u32, width: u32, degree: u8, out: *mut u8, out_len: usize,
        );
        cobra_value(
            coeffs: *const u8, coeffs_len: usize, support: *const u8, support_len: usize,
            count: u64, total: u32, width: u32, degree: u8, point: *const u8, point_len: usize,
            value: *mut u64,
        );
        cobra_fit(
            weights: *const u8, weights_len: usize, targets: *const u8, targets_len: usize,
            support: *const u8, support_len: usize, count: u64, total: u32, width: u32,
            max_degree: u8, grid_degree: u8, out: *mut u8, out_len: usize,
            degree_used: *mut u64,
        );
    }
}

pub mod fit {
    calls! {
        cobra_recover_weighted_poly(
            weights: *const u64, weights_len: usize, targets: *const u64, targets_len: usize,
            support: *const u64, support_len: usize, total: u32, width: u32,
            max_degree: u8, grid_degree: u8, matrix: *mut u64, matrix_len: usize,
            right: *mut u64, right_len: usize, out: *mut u64, out_len: usize,
            degree_used: *mut u64,
        );
    }
}
