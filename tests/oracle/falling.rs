//! Falling products: x (x - 1) (x - 2) .. modulo 2^width, one of them and a table of them, and how many factors were
//! taken. The Rust has no such calls: they are held to the definition alone, a plain product of all factors.

use crate::group::{Answer, Case, Group, Lent, Source, UNSET};
use crate::library as ours;
use crate::random::{all_widths, corner_words, few_words, Random};

pub const GROUPS: [&Group; 2] = [&PRODUCT, &PRODUCTS];

/// From here on every product is zero: it has 400! in it, and that has more than 64 twos.
const ENOUGH: u64 = 400;

/// The product of all n factors modulo 2^width, and the least number of leading ones whose product is zero, or n.
fn plain(x: u64, n: u64, width: u32) -> [u64; 2] {
    let mask = (1u128 << width) - 1;
    let (mut product, mut least) = (1u128, n);
    for i in 0..n.min(ENOUGH) {
        product = product * u128::from(x.wrapping_sub(i)) & mask;
        if product == 0 {
            least = least.min(i + 1);
        }
    }
    assert!(n <= ENOUGH || product == 0, "{ENOUGH} factors have too few twos");
    [product as u64, least]
}

fn taken(width: u32) -> bool {
    (2..=64).contains(&width)
}

const PRODUCT: Group = Group {
    name: "falling_product",
    names: &["x", "n", "width"],
    small: |give| {
        for x in 0..300 {
            for n in 0..300 {
                (2..=64).for_each(|width| give(Case::of([x, n, width])));
            }
        }
        for x in corner_words() {
            for n in LENGTHS {
                [0, 1, 2, 3, 8, 16, 32, 63, 64, 65].iter().for_each(|&width| give(Case::of([x, n, width])));
            }
        }
        for x in [0, 1, 5, u64::MAX] {
            for n in LENGTHS {
                all_widths().iter().for_each(|&width| give(Case::of([x, n, width])));
            }
        }
    },
    random: Some(|r| {
        let n = match r.below(8) {
            0 => r.next(),
            1 => u64::MAX - r.below(400),
            2 | 3 => r.below(401),
            _ => r.below(70),
        };
        Case::of([some_x(r), n, r.width()])
    }),
    cost: 1,
    judged: |c| {
        let mut at = [UNSET; 5];
        let [_, value, _, factors, _] = &mut at;
        let number = unsafe { ours::cobra_falling_product(c.u64(0), c.u64(1), c.u32(2), value, factors) };
        let beside = [0, 2, 4].iter().filter(|&&i| at[i] != UNSET).count();
        told(number, [at[1], at[3]]).outside(beside)
    },
    expected: |c| product_told(c, 11, plain),
};

/// Numbers of factors around the caps of some widths, and very large ones.
const LENGTHS: [u64; 17] =
    [0, 1, 2, 3, 4, 5, 9, 10, 11, 65, 66, 67, 400, 1 << 32, 1 << 63, u64::MAX - 1, u64::MAX];

/// Any number; one close below 2^64 or above 0; one close above a multiple of a power of two, where zeros come early or
/// late as the distance says.
fn some_x(r: &mut Random) -> u64 {
    match r.below(6) {
        0 => u64::MAX - r.below(400),
        1 => r.below(400),
        2 | 3 => {
            let (any, twos) = (r.next(), r.between(1, 63));
            (any << twos).wrapping_add(r.below(70))
        }
        _ => r.word(),
    }
}

fn told(number: u32, [value, factors]: [u64; 2]) -> Answer {
    Answer::number(number).and_value(value).words("factors", vec![factors])
}

fn product_told(c: &Case, refusal: u32, of: fn(u64, u64, u32) -> [u64; 2]) -> (Source, Answer) {
    let (x, n, width) = (c.u64(0), c.u64(1), c.u32(2));
    let answer = if taken(width) { told(0, of(x, n, width)) } else { told(refusal, [0, 0]) };
    (Source::Document, answer.outside(0))
}

const PRODUCTS: Group = Group {
    name: "falling_products",
    names: &["x", "width", "length", "fill"],
    small: |give| {
        for x in [0, 1, 2, 3, 5, 8, 9, 31, 64, 66, 79, 1 << 32, (1 << 63) + 7, u64::MAX] {
            for length in 0..=80 {
                all_widths().iter().for_each(|&width| give(Case::of([x, width, length, x ^ length])));
            }
        }
    },
    random: Some(|r| {
        let length = if r.one_in(100) { r.below(5_000) } else { r.below(81) };
        Case::of([some_x(r), r.width(), length, r.word()])
    }),
    cost: 1,
    judged: |c| {
        let (x, width) = (c.u64(0), c.u32(1));
        let (mut table, mut at) = (Lent::new(&before(c)), [UNSET; 3]);
        let number = unsafe { ours::cobra_falling_products(x, width, table.at(), table.len(), &mut at[1]) };
        let beside = table.outside() + [0, 2].iter().filter(|&&i| at[i] != UNSET).count();
        // what the call of a single product says of the last entry
        let mut last = [UNSET; 2];
        let [value, factors] = &mut last;
        unsafe { ours::cobra_falling_product(x, c.u64(2).saturating_sub(1), width, value, factors) };
        filled(number, at[1], table.content(), last).outside(beside)
    },
    expected: |c| products_told(c, |x, width, before| (0..before.len() as u64).map(|n| plain(x, n, width)[0]).collect()),
};

/// The lent table as it is before the call: as many entries as the case says, with a pattern.
fn before(c: &Case) -> Vec<u64> {
    let words = few_words();
    (0..c.u64(2) as usize).map(|i| words[i % words.len()] ^ c.u64(3)).collect()
}

fn filled(number: u32, factors: u64, table: Vec<u64>, last: [u64; 2]) -> Answer {
    let answer = Answer::number(number).words("factors", vec![factors]).words("table", table);
    answer.words("the last entry's product and factors", last.to_vec())
}

fn products_told(c: &Case, of: fn(u64, u32, &[u64]) -> Vec<u64>) -> (Source, Answer) {
    let (x, width, before) = (c.u64(0), c.u32(1), before(c));
    let answer = if taken(width) {
        let last = plain(x, (before.len() as u64).saturating_sub(1), width);
        filled(0, last[1], of(x, width, &before), last)
    } else {
        filled(11, 0, before, [0, 0])
    };
    (Source::Document, answer.outside(0))
}

/// Statements that are close to the groups' and false: the self-test has to refute each of them.
pub const REFUTED: [&Group; 6] =
    [&ALL_COUNTED, &ONE_TOO_MANY, &ZERO_OF_64_BITS, &THREE_FOR_A_WIDTH, &REST_LEFT, &POWERS];

/// All n factors are counted, though the product is zero before.
const ALL_COUNTED: Group = Group {
    name: "falling_product, all factors counted",
    expected: |c| product_told(c, 11, |x, n, width| [plain(x, n, width)[0], n]),
    ..PRODUCT
};

/// The zero is seen a factor later.
const ONE_TOO_MANY: Group = Group {
    name: "falling_product, stopping a factor late",
    expected: |c| {
        product_told(c, 11, |x, n, width| {
            let [product, least] = plain(x, n, width);
            [product, n.min(least + 1)]
        })
    },
    ..PRODUCT
};

/// It stops where all 64 bits are zero, not those of the width.
const ZERO_OF_64_BITS: Group = Group {
    name: "falling_product, stopping at 64 bits",
    expected: |c| product_told(c, 11, |x, n, width| [plain(x, n, width)[0], plain(x, n, 64)[1]]),
    ..PRODUCT
};

/// A width is refused as by the calls on boxes.
const THREE_FOR_A_WIDTH: Group = Group {
    name: "falling_product, 3 for a width",
    expected: |c| product_told(c, 3, plain),
    ..PRODUCT
};

/// Behind the first zero the table stays as it was.
const REST_LEFT: Group = Group {
    name: "falling_products, the rest left as it was",
    expected: |c| {
        products_told(c, |x, width, before| {
            let entry = |(n, &old): (usize, &u64)| {
                let [product, least] = plain(x, n as u64, width);
                if least < n as u64 { old } else { product }
            };
            before.iter().enumerate().map(entry).collect()
        })
    },
    ..PRODUCTS
};

/// Each factor is x.
const POWERS: Group = Group {
    name: "falling_products, powers of x",
    expected: |c| {
        products_told(c, |x, width, before| {
            let power = |n: usize| (0..n).fold(1u64, |p, _| p.wrapping_mul(x)) & (u64::MAX >> (64 - width));
            (0..before.len()).map(power).collect()
        })
    },
    ..PRODUCTS
};
