//! Document 01's refusals of settings and lengths, in its order, for calls on boxes. Where the Rust
//! has a guard of its own the references let the Rust answer and hold its number to this one.

pub const LIMIT: u64 = 65_536;

/// Settings of a box.
#[derive(Clone, Copy)]
pub struct Settings<'a> {
    pub support: &'a [u64],
    pub total: u32,
    pub width: u32,
    pub degree: u8,
}

impl Settings<'_> {
    /// (degree + 1)^k, or nothing above the limit.
    pub fn cells(&self) -> Option<u64> {
        power(u64::from(self.degree) + 1, self.support.len())
    }

    /// The support as the Rust takes it. An index of more than 32 bits stays too large.
    pub fn support32(&self) -> Vec<u32> {
        let narrow = |&var: &u64| u32::try_from(var).unwrap_or(u32::MAX);
        self.support.iter().map(narrow).collect()
    }

    /// Refusals 1, 2, 3, 4 (recovery only) and 5: those that the Rust has too.
    pub fn guard(&self, recovery: bool) -> Option<u32> {
        let too_large = |&var: &u64| var >= u64::from(self.total);
        match self {
            s if s.support.is_empty() => Some(1),
            s if s.total > 20 => Some(2),
            s if !(2..=64).contains(&s.width) => Some(3),
            s if recovery && s.degree == 0 => Some(4),
            s if s.support.iter().any(too_large) => Some(5),
            _ => None,
        }
    }

    /// Refusals 7, 8 and 9 of a call that passed the guard. `size` is what the limit applies to;
    /// `lengths` pairs the length of each lent table with the exact one.
    pub fn added(&self, size: Option<u64>, lengths: &[(usize, Option<u64>)]) -> Option<u32> {
        let repeated =
            (1..self.support.len()).any(|i| self.support[..i].contains(&self.support[i]));
        let wrong = |&(len, exact): &(usize, Option<u64>)| exact != Some(len as u64);
        match size {
            _ if repeated => Some(7),
            None => Some(8),
            Some(_) if lengths.iter().any(wrong) => Some(9),
            Some(_) => None,
        }
    }

    /// All refusals of a call on boxes of these settings, whose tables have these lengths.
    pub fn refusal(&self, recovery: bool, lengths: &[usize]) -> Option<u32> {
        let cells = self.cells();
        let lengths: Vec<_> = lengths.iter().map(|&len| (len, cells)).collect();
        self.guard(recovery).or_else(|| self.added(cells, &lengths))
    }
}

/// base^k, or nothing above the limit.
pub fn power(base: u64, k: usize) -> Option<u64> {
    (0..k).try_fold(1, |product, _| within(product * base))
}

pub fn within(size: u64) -> Option<u64> {
    (size <= LIMIT).then_some(size)
}

/// How many exponent lists of k entries have no entry above `cap` and a sum of at most `most`;
/// nothing above the limit.
pub fn columns(k: usize, cap: u8, most: u8) -> Option<u64> {
    // ways[s] is the number of lists of the entries so far with sum s, cut above the limit
    let mut ways = vec![0u64; usize::from(most) + 1];
    ways[0] = 1;
    for _ in 0..k {
        let of = |s: usize| ways[s.saturating_sub(usize::from(cap))..=s].iter().sum::<u64>();
        ways = (0..ways.len()).map(|s| of(s).min(LIMIT + 1)).collect();
    }
    within(ways.iter().sum())
}
