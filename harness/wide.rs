//! A whole number of a fixed width, and a number format's patterns, by Rust's own integers.

const LIMBS: usize = 36;

/// A whole number in two's complement, the lowest limb first.
#[derive(Clone, Copy, PartialEq, Eq)]
pub struct Wide([u64; LIMBS]);

impl Wide {
    pub const ZERO: Wide = Wide([0; LIMBS]);

    /// Adds a magnitude times 2^shift, or takes it away.
    pub fn add(&mut self, n: Signed) {
        let at = (n.shift / 64) as usize;
        let moved = (n.magnitude as u128) << (n.shift % 64);
        let parts = [moved as u64, (moved >> 64) as u64];
        let mut carry = false;
        for (i, limb) in self.0[at..].iter_mut().enumerate() {
            if i >= parts.len() && !carry {
                break;
            }
            let part = parts.get(i).copied().unwrap_or(0);
            (*limb, carry) = if n.negative {
                limb.borrowing_sub(part, carry)
            } else {
                limb.carrying_add(part, carry)
            };
        }
    }

    fn is_negative(&self) -> bool {
        self.0[LIMBS - 1] >> 63 == 1
    }

    fn magnitude(&self) -> Wide {
        let mut m = *self;
        if self.is_negative() {
            let mut carry = true;
            for limb in &mut m.0 {
                (*limb, carry) = (!*limb).overflowing_add(carry as u64);
            }
        }
        m
    }

    fn bit_length(&self) -> u32 {
        match self.0.iter().rposition(|&limb| limb != 0) {
            Some(i) => 64 * i as u32 + 64 - self.0[i].leading_zeros(),
            None => 0,
        }
    }

    fn bit(&self, at: u32) -> bool {
        self.0[(at / 64) as usize] >> (at % 64) & 1 == 1
    }

    fn any_below(&self, at: u32) -> bool {
        let i = (at / 64) as usize;
        self.0[..i].iter().any(|&limb| limb != 0) || self.0[i] & ((1 << (at % 64)) - 1) != 0
    }

    fn window(&self, at: u32) -> u64 {
        let i = (at / 64) as usize;
        let high = self.0.get(i + 1).copied().unwrap_or(0);
        (((high as u128) << 64 | self.0[i] as u128) >> (at % 64)) as u64
    }
}

/// A magnitude times 2^shift, with a sign.
#[derive(Clone, Copy)]
pub struct Signed {
    pub negative: bool,
    pub magnitude: u64,
    pub shift: u32,
}

impl Signed {
    fn opposite(self) -> Signed {
        Signed {
            negative: !self.negative,
            ..self
        }
    }
}

/// A binary format: its coefficient's digits, and the exponent field that is all ones.
pub struct Format {
    pub name: &'static str,
    pub digits: u32,
    pub ones: u64,
}

pub const BINARY64: Format = Format {
    name: "binary64",
    digits: 53,
    ones: 2047,
};
pub const BINARY32: Format = Format {
    name: "binary32",
    digits: 24,
    ones: 255,
};

impl Format {
    pub fn lead(&self) -> u64 {
        1 << (self.digits - 1)
    }

    pub fn sign(&self) -> u64 {
        (self.ones + 1) << (self.digits - 1)
    }

    pub fn top(&self) -> u64 {
        self.ones * self.lead() - 1
    }

    /// A pattern's worth in the format's smallest unit, if it is a number.
    pub fn worth(&self, p: u64) -> Option<Signed> {
        let field = p % self.sign() / self.lead();
        if p / 2 >= self.sign() || field == self.ones {
            return None;
        }
        let fraction = p % self.lead();
        Some(Signed {
            negative: p >= self.sign(),
            magnitude: if field == 0 {
                fraction
            } else {
                self.lead() + fraction
            },
            shift: field.saturating_sub(1) as u32,
        })
    }

    /// The sign of a whole number and the pattern of the number nearest to its magnitude, ties to even; none beyond the range.
    pub fn round(&self, z: &Wide) -> (bool, Option<u64>) {
        let m = z.magnitude();
        let size = m.bit_length();
        if size <= self.digits {
            return (z.is_negative(), Some(m.window(0)));
        }
        let mut drop = size - self.digits;
        let mut kept = m.window(drop) & (2 * self.lead() - 1);
        if m.bit(drop - 1) && (m.any_below(drop - 1) || kept % 2 == 1) {
            kept += 1;
        }
        if kept == 2 * self.lead() {
            kept /= 2;
            drop += 1;
        }
        let field = drop as u64 + 1;
        let code = field * self.lead() + (kept - self.lead());
        (z.is_negative(), (field < self.ones).then_some(code))
    }

    fn signed(&self, negative: bool, code: u64) -> u64 {
        if negative { self.sign() + code } else { code }
    }

    /// What the adder should answer: the nearest number to the exact sum and the exact rest, and two zeros where a pattern is no number.
    pub fn sum(&self, a: u64, b: u64) -> (u64, u64) {
        let (Some(x), Some(y)) = (self.worth(a), self.worth(b)) else {
            return (0, 0);
        };
        let mut left = Wide::ZERO;
        left.add(x);
        left.add(y);
        let (negative, code) = self.round(&left);
        let s = self.signed(negative, code.unwrap_or(self.top()));
        left.add(self.worth(s).unwrap().opposite());
        let (negative, code) = self.round(&left);
        let r = self.signed(negative, code.unwrap());
        left.add(self.worth(r).unwrap().opposite());
        assert!(
            left == Wide::ZERO,
            "the rest of {a:x} and {b:x} is no number"
        );
        (s, r)
    }

    /// What an account should read that accepts so many of these posts: a number, or all ones less 3 above the range and 4 below it.
    pub fn read(&self, patterns: &[u64], limit: usize) -> u64 {
        let mut total = Wide::ZERO;
        for n in patterns.iter().filter_map(|&p| self.worth(p)).take(limit) {
            total.add(n);
        }
        match self.round(&total) {
            (negative, Some(code)) => self.signed(negative, code),
            (false, None) => u64::MAX - 3,
            (true, None) => u64::MAX - 4,
        }
    }
}
