//! Patterns drawn by a fixed generator.

use crate::wide::Format;

/// The generator splitmix64.
pub struct Draws(pub u64);

impl Draws {
    pub fn word(&mut self) -> u64 {
        self.0 = self.0.wrapping_add(0x9E37_79B9_7F4A_7C15);
        let mut z = self.0;
        z = (z ^ (z >> 30)).wrapping_mul(0xBF58_476D_1CE4_E5B9);
        z = (z ^ (z >> 27)).wrapping_mul(0x94D0_49BB_1331_11EB);
        z ^ (z >> 31)
    }

    pub fn below(&mut self, n: u64) -> u64 {
        (self.word() as u128 * n as u128 >> 64) as u64
    }

    fn sign(&mut self, f: &Format) -> u64 {
        self.below(2) * f.sign()
    }

    // Any fraction, or one with few bits set or few clear.
    fn fraction(&mut self, f: &Format) -> u64 {
        let any = self.word() % f.lead();
        let by = self.below(f.digits as u64);
        match self.below(6) {
            0 => any >> by,
            1 => f.lead() - 1 - (any >> by),
            2 => any >> by << by,
            _ => any,
        }
    }

    fn number(&mut self, f: &Format, field: u64) -> u64 {
        self.sign(f) + field * f.lead() + self.fraction(f)
    }

    // A number whose exponent field is at most so far from this one.
    fn around(&mut self, f: &Format, field: u64, far: u64) -> u64 {
        let field = (field + self.below(2 * far + 1))
            .saturating_sub(far)
            .min(f.ones - 1);
        self.number(f, field)
    }

    fn any(&mut self, f: &Format) -> u64 {
        let field = self.below(f.ones);
        self.number(f, field)
    }

    // An infinity, a pattern that is not a number, or one with a bit above the sign.
    fn none(&mut self, f: &Format) -> u64 {
        if f.digits < 53 && self.below(2) == 0 {
            return self.any(f) + 2 * f.sign() * (1 + self.below(1 << 31));
        }
        let fraction = match self.below(4) {
            0 => 0,
            _ => self.fraction(f),
        };
        self.sign(f) + f.ones * f.lead() + fraction
    }
}

/// A named family of pairs, or of lists of so many patterns.
pub type Pairs = (&'static str, fn(&mut Draws, &Format) -> (u64, u64));
pub type Lists = (&'static str, fn(&mut Draws, &Format, usize) -> Vec<u64>);

pub const PAIRS: [Pairs; 7] = [
    ("all exponents", |d, f| (d.any(f), d.any(f))),
    ("near exponents", |d, f| {
        let field = d.below(f.ones);
        (d.number(f, field), d.around(f, field, f.digits as u64 + 4))
    }),
    ("ties", tie),
    ("subnormals", |d, f| {
        let (a, b) = (d.below(2), d.below(3));
        (d.number(f, a), d.number(f, b))
    }),
    ("cancellations", |d, f| {
        let a = d.any(f);
        (a, nearly_opposite(d, f, a))
    }),
    ("near the top", |d, f| {
        (
            d.around(f, f.ones - 1, 1),
            d.around(f, f.ones - 1, f.digits as u64 + 2),
        )
    }),
    ("no numbers", |d, f| match d.below(3) {
        0 => (d.none(f), d.any(f)),
        1 => (d.any(f), d.none(f)),
        _ => (d.none(f), d.none(f)),
    }),
];

// A number and half of the step above or below it, or the number next to that half on either side.
fn tie(d: &mut Draws, f: &Format) -> (u64, u64) {
    let digits = f.digits as u64;
    let field = digits + 2 + d.below(f.ones - digits - 2);
    let a = match d.below(3) {
        0 => d.sign(f) + field * f.lead(),
        _ => d.number(f, field),
    };
    let half = (field - digits - d.below(2)) * f.lead();
    (a, d.sign(f) + half + d.below(3) - 1)
}

// The opposite, give or take a few of the last bits, or one of the next exponents.
fn nearly_opposite(d: &mut Draws, f: &Format, a: u64) -> u64 {
    let turned = a ^ f.sign();
    let code = turned % f.sign();
    let other = match d.below(4) {
        0 => code,
        1 => (code + d.below(16)).saturating_sub(8),
        2 => code ^ (d.word() % f.lead()) >> d.below(f.digits as u64),
        _ => (code + f.lead()).saturating_sub(d.below(3) * f.lead()),
    };
    turned - code + other.min(f.top())
}

pub const LISTS: [Lists; 6] = [
    ("all exponents", |d, f, n| {
        (0..n).map(|_| d.any(f)).collect()
    }),
    ("near exponents", |d, f, n| {
        let field = d.below(f.ones);
        (0..n)
            .map(|_| d.around(f, field, f.digits as u64 / 2))
            .collect()
    }),
    ("ties", |d, f, n| {
        let (a, b) = tie(d, f);
        let mut list = vec![a, b];
        list.extend(pairs_that_cancel(d, f, n.saturating_sub(2)));
        list.truncate(n);
        shuffled(d, list)
    }),
    ("cancellations", |d, f, n| {
        let mut list = pairs_that_cancel(d, f, n.saturating_sub(3));
        let field = d.below(f.ones);
        list.extend((0..3).map(|_| d.around(f, field, 60)));
        list.truncate(n);
        shuffled(d, list)
    }),
    ("near the top", |d, f, n| {
        // Greatest numbers that cancel but for none, one or two of them, and a few halves of the last step.
        let step = (f.ones - 1 - f.digits as u64) * f.lead();
        let over = d.below(3) as usize;
        let side = d.sign(f);
        let mut list = vec![side + f.top(); over];
        list.extend((0..4).map(|_| d.sign(f) + step + d.below(3) - 1));
        while list.len() + 1 < n {
            list.extend([f.top(), f.sign() + f.top()]);
        }
        list.truncate(n);
        shuffled(d, list)
    }),
    ("no numbers among them", |d, f, n| {
        (0..n)
            .map(|_| {
                if d.below(4) == 0 {
                    d.none(f)
                } else {
                    d.around(f, f.ones / 2, 40)
                }
            })
            .collect()
    }),
];

fn pairs_that_cancel(d: &mut Draws, f: &Format, n: usize) -> Vec<u64> {
    (0..n / 2)
        .flat_map(|_| {
            let a = d.any(f);
            [a, a ^ f.sign()]
        })
        .collect()
}

fn shuffled(d: &mut Draws, mut list: Vec<u64>) -> Vec<u64> {
    for i in (1..list.len()).rev() {
        list.swap(i, d.below(i as u64 + 1) as usize);
    }
    list
}
