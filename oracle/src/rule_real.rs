//! Document 01's modules 2, 6 and 7 written down a third time: floats, real roots and expressions. Whole numbers become floats digit by
//! digit, and a quotient is rounded by long division, so that no conversion of the compiler is taken on trust.

use crate::ours::Parts;
use crate::rule::{Frac, List, Run, constant, door, fracs, reduced};

/// A float from its digits: m 2^e, m at most 2^53, in the range of normal numbers.
fn exact(m: u64, e: i64) -> f64 {
    if m == 0 {
        return 0.0;
    }
    let up = m.leading_zeros() as i64 - 11;
    let digits = if up >= 0 { m << up } else { m >> -up };
    f64::from_bits((digits & ((1 << 52) - 1)) | (((e - up + 52 + 1023) as u64) << 52))
}

/// m 2^e to 53 digits, ties to even; `rest` says that something was cut off before.
fn to_even(m: u128, e: i64, rest: bool) -> f64 {
    let drop = (128 - m.leading_zeros()).saturating_sub(53);
    if drop == 0 {
        return exact(m as u64, e);
    }
    let (kept, cut, half) = (m >> drop, m & ((1 << drop) - 1), 1u128 << (drop - 1));
    let up = cut > half || (cut == half && (rest || kept % 2 == 1));
    exact((kept + up as u128) as u64, e + drop as i64)
}

pub fn nearest(n: i64) -> f64 {
    let size = to_even(n.unsigned_abs() as u128, 0, false);
    if n < 0 { -size } else { size }
}

/// The digits and the exponent of a finite float.
fn digits(x: f64) -> (u64, i64) {
    let (field, low) = ((x.to_bits() >> 52 & 2047) as i64, x.to_bits() & ((1 << 52) - 1));
    if field == 0 { (low, -1074) } else { (low | 1 << 52, field - 1075) }
}

/// The quotient of two floats that are whole numbers, the second not zero.
fn quotient(x: f64, y: f64) -> f64 {
    let ((a, e), (b, f)) = (digits(x), digits(y));
    let high = (a as u128) << 70;
    let size = to_even(high / b as u128, e - f - 70, high % b as u128 != 0);
    if x.is_sign_negative() != y.is_sign_negative() { -size } else { size }
}

/// The float of any two entries, the denominator not zero.
pub fn value_of(f: Frac) -> f64 {
    quotient(nearest(f.0), nearest(f.1))
}

pub fn to_float(f: Frac) -> Result<f64, u64> {
    if f.0 == i64::MIN || f.1 == i64::MIN || f.1 == 0 { Err(5) } else { Ok(value_of(f)) }
}

/// To the nearest whole number, a half away from zero, saturated.
fn rounded(x: f64) -> i64 {
    let (m, e) = digits(x);
    let size = match e {
        12.. => 1 << 63,
        0..12 => (m as u128) << e,
        -60..0 => (m as u128 + (1 << (-e - 1))) >> -e,
        _ => 0,
    };
    let most = if x < 0.0 { 1 << 63 } else { (1 << 63) - 1 };
    let size = size.min(most) as i128;
    (if x < 0.0 { -size } else { size }) as i64
}

pub fn to_ratio(v: f64, run: &mut Run) -> Result<Frac, u64> {
    if !v.is_finite() {
        return Err(1);
    }
    for d in 1..=1000 {
        let x = v * nearest(d);
        let n = if x.is_finite() { rounded(x) } else { continue };
        if (x - nearest(n)).abs() < 1e-9 {
            run.least |= n == i64::MIN;
            return if n == i64::MIN { Err(2) } else { Ok(reduced(n as i128, d as i128)) };
        }
    }
    Err(1)
}

// ---- real roots

/// The coefficients of a polynomial as floats.
type Floats = Vec<f64>;

fn at(p: &Floats, x: f64) -> f64 {
    p.iter().rev().copied().reduce(|acc, c| acc * x + c).unwrap_or(0.0)
}

/// The chain of negated remainders, in floats.
fn chain(run: &mut Run, f: &[Frac]) -> Result<Vec<Floats>, u64> {
    let mut all = vec![f.to_vec(), run.diff(f)?];
    while !all[all.len() - 1].is_empty() {
        let n = all.len();
        let (_, rest) = run.divide(&all[n - 2], &all[n - 1])?;
        all.push(rest.iter().map(|&c| Run::neg(c)).collect::<List>()?);
    }
    all.pop();
    Ok(all.iter().filter(|p| !p.is_empty()).map(|p| p.iter().map(|&c| value_of(c)).collect()).collect())
}

/// How often the sign changes along the chain: zeros are dropped, a NaN differs from each neighbour.
fn changes(chain: &[Floats], x: f64) -> usize {
    let values: Floats = chain.iter().map(|p| at(p, x)).filter(|&v| v != 0.0).collect();
    values.windows(2).filter(|w| !(w[0] > 0.0 && w[1] > 0.0 || w[0] < 0.0 && w[1] < 0.0)).count()
}

fn within(x: f64) -> bool {
    x.abs() <= 1e15
}

/// 5, then 4, before any work.
fn entered(fine: bool, a: &Parts) -> Result<Vec<Frac>, u64> {
    match door(&a.nums, &a.dens) {
        0 if fine => Ok(fracs(a)),
        4 if fine => Err(4),
        _ => Err(5),
    }
}

pub fn count(run: &mut Run, a: &Parts, lo: f64, hi: f64) -> Result<u64, u64> {
    let p = entered(within(lo) && within(hi), a)?;
    let f = run.square_free(&p)?;
    let c = chain(run, &f)?;
    Ok(changes(&c, lo).saturating_sub(changes(&c, hi)) as u64)
}

/// The brackets under way.
struct Brackets<'a> {
    chain: &'a [Floats],
    tol: f64,
    found: Vec<(f64, f64)>,
}

impl Brackets<'_> {
    fn push(&mut self, a: f64, b: f64) -> Result<(), u64> {
        self.found.push((a, b));
        if self.found.len() > 64 { Err(4) } else { Ok(()) }
    }

    fn is_root(&self, x: f64) -> bool {
        at(&self.chain[0], x) == 0.0
    }

    fn between(&mut self, a: f64, b: f64, depth: u64) -> Result<(), u64> {
        let count = changes(self.chain, a).saturating_sub(changes(self.chain, b));
        if count == 0 {
            return Ok(());
        }
        if count == 1 || b - a < self.tol {
            return self.push(a, b);
        }
        if depth == 48 {
            return Err(7);
        }
        let mid = (a + b) / 2.0;
        let (mut left, mut right) = (mid, mid);
        if self.is_root(mid) && b - a > 2.0 * self.tol {
            self.push(mid, mid)?;
            (left, right) = (mid - (b - a) * 1e-9, mid + (b - a) * 1e-9);
            if right < b && left <= a {
                return self.between(right, b, depth + 1);
            }
            if right >= b {
                return if left > a { self.between(a, left, depth + 1) } else { Ok(()) };
            }
        }
        self.between(a, left, depth + 1)?;
        self.between(right, b, depth + 1)
    }

    fn all(&mut self, lo: f64, hi: f64) -> Result<(), u64> {
        let (mut a, mut b) = (lo, hi);
        if self.is_root(lo) {
            self.push(lo, lo)?;
            a = lo + (hi - lo) * 1e-12;
        }
        if self.is_root(hi) {
            self.push(hi, hi)?;
            b = hi - (hi - lo) * 1e-12;
        }
        if a >= b { Ok(()) } else { self.between(a, b, 0) }
    }
}

/// The root in a bracket, if it has one.
fn root_in(p: &Floats, a: f64, b: f64, tol: f64) -> Option<f64> {
    let (fa, fb) = (at(p, a), at(p, b));
    if (b - a).abs() < tol {
        return Some(if fa.abs() <= fb.abs() { a } else { b });
    }
    if fa == 0.0 || fb == 0.0 {
        return Some(if fa == 0.0 { a } else { b });
    }
    if fa.is_finite() && fb.is_finite() && fa * fb < 0.0 {
        return Some(refined(p, a, b, tol));
    }
    let near = |v: f64| v.is_finite() && v.abs() < tol;
    if near(fa) { Some(a) } else { near(fb).then_some(b) }
}

/// At most 200 halvings.
fn refined(p: &Floats, mut a: f64, mut b: f64, tol: f64) -> f64 {
    let mut fa = at(p, a);
    for _ in 0..200 {
        let mid = (a + b) / 2.0;
        let fm = at(p, mid);
        if (b - a).abs() < tol || fm == 0.0 {
            return mid;
        }
        if fa * fm < 0.0 {
            b = mid;
        } else {
            (a, fa) = (mid, fm);
        }
    }
    (a + b) / 2.0
}

pub fn isolate(run: &mut Run, a: &Parts, lo: f64, hi: f64, tol: f64) -> Result<Vec<f64>, u64> {
    let p = entered(within(lo) && within(hi) && tol > 0.0 && tol < f64::INFINITY, a)?;
    let f = run.square_free(&p)?;
    let chain = chain(run, &f)?;
    if chain.is_empty() {
        return Ok(vec![]);
    }
    let mut brackets = Brackets { chain: &chain, tol, found: vec![] };
    brackets.all(lo, hi)?;
    let mut roots: Vec<f64> = brackets.found.iter().filter_map(|&(a, b)| root_in(&chain[0], a, b, tol)).collect();
    roots.sort_by(|x, y| x.partial_cmp(y).expect("a root is finite"));
    let mut kept: Vec<f64> = vec![];
    for x in roots {
        if !kept.last().is_some_and(|&y| (x - y).abs() < tol) {
            kept.push(x);
        }
    }
    Ok(kept)
}

// ---- expressions

#[derive(Clone, Copy, Debug, PartialEq)]
pub enum Token {
    Const(f64),
    Var(u64),
    Add,
    Sub,
    Mul,
    Neg,
    Pow(f64),
    Other,
}

/// 16 digits, lower case.
pub fn hex(word: &str) -> Option<f64> {
    let fine = word.len() == 16 && word.bytes().all(|b| b.is_ascii_digit() || (b'a'..=b'f').contains(&b));
    fine.then(|| f64::from_bits(u64::from_str_radix(word, 16).expect("hex digits")))
}

fn token(word: &str) -> Option<Token> {
    match word {
        "+" => return Some(Token::Add),
        "-" => return Some(Token::Sub),
        "*" => return Some(Token::Mul),
        "~" => return Some(Token::Neg),
        "?" => return Some(Token::Other),
        _ => (),
    }
    if let Some(rest) = word.strip_prefix('c') {
        return hex(rest).map(Token::Const);
    }
    if let Some(rest) = word.strip_prefix('^') {
        return hex(rest).map(Token::Pow);
    }
    let rest = word.strip_prefix('v')?;
    (0..=255).find(|i: &u64| i.to_string() == rest).map(Token::Var)
}

/// The tokens of a text, as far as they are spelled well.
pub fn tokens(text: &[u8]) -> Option<Vec<Token>> {
    text.split(|&b| b == b' ').map(|w| std::str::from_utf8(w).ok().and_then(token)).collect()
}

/// 5 and 4 as the tokens show them: values are counted up to the first `?`.
fn counted(l: &[Token]) -> Result<(), u64> {
    let (mut values, mut most) = (0u64, 0);
    for t in l {
        let takes = match t {
            Token::Const(_) | Token::Var(_) => 0,
            Token::Neg | Token::Pow(_) => 1,
            Token::Add | Token::Sub | Token::Mul => 2,
            Token::Other => return if most > 16 { Err(4) } else { Ok(()) },
        };
        values = values.checked_sub(takes).ok_or(5u64)? + 1;
        most = most.max(values);
    }
    if values != 1 {
        Err(5)
    } else if most > 16 {
        Err(4)
    } else {
        Ok(())
    }
}

/// 0 to 200; -0.0 is 0.
pub fn exponent(x: f64) -> Option<usize> {
    (0..=200).find(|&n| nearest(n) == x).map(|n| n as usize)
}

/// What an expression is in the wanted variable: 5, then 4, then the first refusal in postfix order.
pub fn lower(run: &mut Run, text: &[u8], wrt: u64) -> List {
    let all = tokens(text).ok_or(5u64)?;
    counted(&all)?;
    let mut stack: Vec<Vec<Frac>> = vec![];
    for t in all {
        let mut pop = || stack.pop().expect("the values were counted");
        let new = match t {
            Token::Const(x) => constant(to_ratio(x, run)?),
            Token::Var(i) if i == wrt => vec![(0, 1), (1, 1)],
            Token::Var(_) | Token::Other => return Err(1),
            Token::Neg => pop().iter().map(|&c| Run::neg(c)).collect::<List>()?,
            Token::Pow(x) => run.pow(&pop(), exponent(x).ok_or(1u64)?)?,
            Token::Add | Token::Sub | Token::Mul => {
                let (b, a) = (pop(), pop());
                match t {
                    Token::Mul => run.product(&a, &b)?,
                    _ => run.zip(&a, &b, if t == Token::Add { 1 } else { -1 })?,
                }
            }
        };
        stack.push(new);
    }
    Ok(stack.pop().expect("one value is left"))
}

/// Back: Horner form, the lowest coefficient outermost, as the same tokens; 8 where the page is shorter than the text.
pub fn to_lowered(a: &Parts, wrt: u64, room: usize) -> Result<String, u64> {
    let l = match door(&a.nums, &a.dens) {
        0 if wrt <= 255 => fracs(a),
        4 if wrt <= 255 => return Err(4),
        _ => return Err(5),
    };
    let words: Vec<String> = l.iter().map(|&c| format!("c{:016x}", value_of(c).to_bits())).collect();
    let text = match words.len() {
        0 => format!("c{:016x}", 0),
        n => words.join(&format!(" v{wrt} ")) + &" * +".repeat(n - 1),
    };
    if text.len() <= room { Ok(text) } else { Err(8) }
}
