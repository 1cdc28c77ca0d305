//! The database's calls on bytes, made beside the calls on u64 in every case: the same tables, eight
//! bytes to an entry, least first. Up to 4,096 entries both must say and leave the same; above that
//! the call on bytes must say 8 and leave everything.

use crate::group::{Answer, Lent, Part, UNSET};
use crate::library_boxes::bytes as ours;
use crate::settings::Settings;

/// The most entries of a table, and of the fit's matrix.
pub const LIMIT: u64 = 4_096;

/// A table as bytes.
pub fn bytes_of(table: &[u64]) -> Lent<u8> {
    Lent::new(&table.iter().flat_map(|entry| entry.to_le_bytes()).collect::<Vec<u8>>())
}

/// The table that bytes hold.
pub fn words_of(bytes: &Lent<u8>) -> Vec<u64> {
    let entry = |eight: &[u8]| u64::from_le_bytes(eight.try_into().expect("eight bytes"));
    bytes.content().chunks_exact(8).map(entry).collect()
}

/// Recovery on bytes: the answer; output, values and support as the call leaves them; how many bytes it
/// wrote beside them.
pub fn recovered(values: &[u64], s: &Settings, out: &[u64]) -> (u32, [Vec<u64>; 3], usize) {
    let (mut values, mut support, mut out) = (bytes_of(values), bytes_of(s.support), bytes_of(out));
    let (n, k, m, count) = (values.len(), support.len(), out.len(), s.support.len() as u64);
    let (from, on, to) = (values.at(), support.at(), out.at());
    let answer = unsafe { ours::cobra_recover(from, n, on, k, count, s.total, s.width, s.degree, to, m) };
    let outside = values.outside() + support.outside() + out.outside();
    (answer, [words_of(&out), words_of(&values), words_of(&support)], outside)
}

/// The value on bytes: the answer and the value; coefficients, support and point as the call leaves them;
/// how many bytes it wrote beside them.
pub fn value(cells: &[u64], s: &Settings, point: &[u64]) -> (u32, u64, [Vec<u64>; 3], usize) {
    let (mut cells, mut support, mut point) = (bytes_of(cells), bytes_of(s.support), bytes_of(point));
    let (n, k, m, count) = (cells.len(), support.len(), point.len(), s.support.len() as u64);
    let (cell, on, at) = (cells.at(), support.at(), point.at());
    let (total, width, degree, mut value) = (s.total, s.width, s.degree, UNSET);
    let answer =
        unsafe { ours::cobra_value(cell, n, on, k, count, total, width, degree, at, m, &mut value) };
    let outside = cells.outside() + support.outside() + point.outside();
    (answer, value, [words_of(&cells), words_of(&support), words_of(&point)], outside)
}

/// The answer of the call on u64 where the call on bytes agrees with it, or with `large` where that is
/// given; else an answer that no expected one equals.
pub fn beside(words: Answer, bytes: Answer, large: Option<Answer>) -> Answer {
    if bytes == *large.as_ref().unwrap_or(&words) {
        return words;
    }
    let told = |part: Part| Part { label: "of the call on bytes", ..part };
    Answer(bytes.0.into_iter().map(told).collect())
}
