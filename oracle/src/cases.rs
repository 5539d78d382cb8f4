//! Inputs: short ones exhaustively, random ones around every boundary, damaged ones. Everything comes from a seed.

use crate::ours::Parts;
use crate::rule::{Frac, Run, fracs};

pub const ROOT: i64 = 3037000500;

pub struct Random(u64);

impl Random {
    pub fn new(seed: u64) -> Self {
        Random(seed.wrapping_mul(0x9e37_79b9_7f4a_7c15) | 1)
    }

    pub fn next(&mut self) -> u64 {
        self.0 ^= self.0 << 13;
        self.0 ^= self.0 >> 7;
        self.0 ^= self.0 << 17;
        self.0
    }

    pub fn below(&mut self, n: u64) -> u64 {
        (self.next() >> 11) % n
    }

    pub fn within(&mut self, a: i64, b: i64) -> i64 {
        a + self.below((b - a + 1) as u64) as i64
    }

    fn signed(&mut self, x: i64) -> i64 {
        if self.below(2) == 0 { x } else { -x }
    }

    /// A whole number of one of eight styles.
    fn whole(&mut self, style: u64) -> i64 {
        match style {
            0 => self.within(-3, 3),
            1 => self.within(-20, 20),
            2 => self.within(-30000, 30000),
            3 => {
                let x = ROOT + self.within(-2, 2);
                self.signed(x)
            }
            4 => {
                let x = i64::MAX - self.within(0, 3);
                self.signed(x)
            }
            5 => {
                let x = 1i64 << self.below(63);
                self.signed(x)
            }
            6 => (self.next() >> self.below(62)) as i64 >> 1,
            _ => {
                let s = self.below(7);
                self.whole(s)
            }
        }
    }

    /// A fraction in lowest terms.
    pub fn fraction(&mut self, style: u64) -> Frac {
        let n = self.whole(style).max(-i64::MAX);
        let d = match self.below(4) {
            0 => self.whole(style).max(-i64::MAX).abs().max(1),
            1 => self.within(1, 12),
            _ => 1,
        };
        lowest((n, d))
    }

    /// Canonical, of a degree from 0 to 31, or zero.
    pub fn poly(&mut self, style: u64, most: u64) -> Parts {
        let len = self.below(most + 1) as usize;
        let mut l: Vec<Frac> = (0..len).map(|_| self.fraction(style)).collect();
        while l.last().is_some_and(|c| c.0 == 0) {
            l.pop();
        }
        parts(&l)
    }

    /// Something that is not canonical, or too long.
    pub fn damaged(&mut self) -> Parts {
        let style = self.below(8);
        let mut p = self.poly(style, 8);
        let at = self.below(p.nums.len() as u64 + 1) as usize;
        match self.below(8) {
            0 => p.nums.push(1),
            1 => p.dens.push(1),
            2 => {
                p.nums.push(0);
                p.dens.push(1);
            }
            3 => {
                p.nums.insert(at, 1);
                p.dens.insert(at, 0);
            }
            4 => {
                p.nums.insert(at, 2);
                p.dens.insert(at, 4);
            }
            5 => {
                p.nums.insert(at, 1);
                p.dens.insert(at, -2);
            }
            6 => {
                p.nums.insert(at, i64::MIN);
                p.dens.insert(at, 1);
            }
            _ => {
                let n = 33 + self.below(3) as usize;
                p.nums.resize(n, 1);
                p.dens.resize(n, 1);
            }
        }
        p
    }

    /// Any input: mostly canonical.
    pub fn input(&mut self, most: u64) -> Parts {
        if self.below(12) == 0 {
            return self.damaged();
        }
        let style = self.below(8);
        self.poly(style, most)
    }
}

pub fn lowest(f: Frac) -> Frac {
    let (mut a, mut b) = (f.0.unsigned_abs(), f.1.unsigned_abs());
    while b != 0 {
        (a, b) = (b, a % b);
    }
    (f.0 / a as i64, f.1 / a as i64)
}

pub fn parts(l: &[Frac]) -> Parts {
    Parts { nums: l.iter().map(|c| c.0).collect(), dens: l.iter().map(|c| c.1).collect() }
}

/// Every canonical polynomial of at most `most` coefficients from a few.
pub fn short(most: usize) -> Vec<Parts> {
    let few: [Frac; 5] = [(0, 1), (1, 1), (-1, 1), (2, 1), (1, 2)];
    let mut all = vec![vec![]];
    let mut last: Vec<Vec<Frac>> = vec![vec![]];
    for _ in 0..most {
        last = last.iter().flat_map(|l| few.iter().map(move |&c| [l.as_slice(), &[c]].concat())).collect();
        all.extend(last.iter().filter(|l| l.last().is_some_and(|c| c.0 != 0)).cloned());
    }
    all.iter().map(|l| parts(l)).collect()
}

/// Whole numbers around every boundary of a step.
pub fn edges() -> Vec<i64> {
    let up = [0, 1, 2, 3, 4, 6, ROOT - 1, ROOT, ROOT + 1, 1 << 31, 1 << 32, 1 << 62, i64::MAX / 2, i64::MAX - 1, i64::MAX];
    let mut all: Vec<i64> = up.iter().flat_map(|&x| [x, -x]).collect();
    all.push(i64::MIN);
    all.sort();
    all.dedup();
    all
}

/// Two products with a common factor of small whole coefficients.
pub fn related(r: &mut Random) -> (Parts, Parts) {
    let l: Vec<Vec<Frac>> = (0..3).map(|_| fracs(&r.poly(0, 5))).collect();
    let of = |i: usize| Run::default().product(&l[i], &l[2]).map(|l| parts(&l)).unwrap_or_default();
    (of(0), of(1))
}

/// The number handed over beside the polynomials: a budget for roots, else an exponent.
pub fn number(r: &mut Random, op: u64) -> usize {
    match (op, r.below(8)) {
        (9..=11, 0) => [0, 1, 2, 4096, 65536, 65537][r.below(6) as usize],
        (9..=11, _) => 65536,
        (_, 0) => r.below(300) as usize,
        _ => r.below(8) as usize,
    }
}
