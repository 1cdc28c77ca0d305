//! The calls of the project's static library. A slice passes as a pointer and a length, a `&mut u64`
//! as a pointer. An answer number is 0 for accepted, else document 01's refusal.

extern "C" {
    pub fn cobra_wrapping_mul(a: u64, b: u64) -> u64;
    pub fn cobra_bitmask(width: u32) -> u64;
    pub fn cobra_mod_add(a: u64, b: u64, width: u32) -> u64;
    pub fn cobra_mod_sub(a: u64, b: u64, width: u32) -> u64;
    pub fn cobra_mod_mul(a: u64, b: u64, width: u32) -> u64;
    pub fn cobra_mod_neg(a: u64, width: u32) -> u64;

    pub fn cobra_twos_in_factorial(k: u32) -> u32;
    pub fn cobra_precision_bits(weight: u32, width: u32) -> u32;
    pub fn cobra_degree_cap(width: u32, value: *mut u64) -> u32;
    pub fn cobra_odd_part_factorial(k: u32, width: u32, value: *mut u64) -> u32;
    pub fn cobra_mod_inverse_odd(x: u64, bits: u32, value: *mut u64) -> u32;
    pub fn cobra_falling_product(
        x: u64,
        n: u64,
        width: u32,
        value: *mut u64,
        factors: *mut u64,
    ) -> u32;
    pub fn cobra_falling_products(
        x: u64,
        width: u32,
        table: *mut u64,
        len: usize,
        factors: *mut u64,
    ) -> u32;
    pub fn cobra_stirling_second_kind(
        max_degree: u8,
        width: u32,
        table: *mut u64,
        len: usize,
    ) -> u32;
    pub fn cobra_stirling_first_kind(
        max_degree: u8,
        width: u32,
        table: *mut u64,
        len: usize,
    ) -> u32;

    pub fn cobra_key_from_exponents(
        exps: *const u8,
        exps_len: usize,
        num_vars: u8,
        key: *mut u8,
        key_len: usize,
    ) -> u32;
    pub fn cobra_key_to_exponents(
        key: *const u8,
        key_len: usize,
        out: *mut u8,
        out_len: usize,
        num_vars: u8,
    ) -> u32;
    pub fn cobra_key_exponent_at(
        key: *const u8,
        key_len: usize,
        var_index: u8,
        value: *mut u64,
    ) -> u32;
    pub fn cobra_key_with_exponent(key: *mut u8, key_len: usize, var_index: u8, new_val: u8)
        -> u32;
    pub fn cobra_key_total_degree(
        key: *const u8,
        key_len: usize,
        num_vars: u8,
        value: *mut u64,
    ) -> u32;
    pub fn cobra_key_max_degree(
        key: *const u8,
        key_len: usize,
        num_vars: u8,
        value: *mut u64,
    ) -> u32;
    pub fn cobra_key_v2_factorial_weight(
        key: *const u8,
        key_len: usize,
        num_vars: u8,
        value: *mut u64,
    ) -> u32;
}
