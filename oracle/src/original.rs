//! The original, called on the same lists as ours. A panic of the original is caught and told apart from a refusal.

use crate::lower::LoweredOp;
use crate::ours::Parts;
use crate::poly::{self, Poly, PolyError};
use crate::rule::{Frac, Pieces, constant, flat};
use crate::rule_real::Token;
use num_rational::Ratio;
use std::panic::{AssertUnwindSafe, catch_unwind};
use std::sync::Arc;

/// What the original made of an input.
#[derive(Clone, Debug, PartialEq, Eq)]
pub enum Made {
    Answer(Vec<Frac>, Vec<Frac>),
    Refused(u64),
    Panicked,
}

pub fn ratio(f: Frac) -> Ratio<i64> {
    Ratio::new(f.0, f.1)
}

pub fn frac(r: &Ratio<i64>) -> Frac {
    (*r.numer(), *r.denom())
}

pub fn poly(p: &Parts) -> Poly {
    Poly { coeffs: p.nums.iter().zip(&p.dens).map(|(&n, &d)| Ratio::new(n, d)).collect() }
}

fn fracs(p: &Poly) -> Vec<Frac> {
    p.normalized().coeffs.iter().map(frac).collect()
}

fn number(e: &PolyError) -> u64 {
    match e {
        PolyError::NotPolynomial => 1,
        PolyError::CoeffOverflow => 2,
        PolyError::DivByZero => 3,
    }
}

fn caught(f: impl FnOnce() -> Result<(Vec<Frac>, Vec<Frac>), PolyError>) -> Made {
    match told(f) {
        Ok((a, b)) => Made::Answer(a, b),
        Err(PANICKED) => Made::Panicked,
        Err(n) => Made::Refused(n),
    }
}

/// Stands among the refusal numbers for a panic.
pub const PANICKED: u64 = 99;

fn told<T>(f: impl FnOnce() -> Result<T, PolyError>) -> Result<T, u64> {
    match catch_unwind(AssertUnwindSafe(f)) {
        Ok(r) => r.map_err(|e| number(&e)),
        Err(_) => Err(PANICKED),
    }
}

fn pieces(l: &[(Poly, usize)]) -> Pieces {
    l.iter().map(|(f, times)| (fracs(f), *times as u64)).collect()
}

/// Document 01's rebuild over the original's factors and products.
fn rebuilt(p: &Poly) -> Result<Poly, PolyError> {
    let f = p.factor()?;
    let mut out = Poly::constant(f.content);
    for (g, times) in &f.factors {
        for _ in 0..*times {
            out = out.mul(g)?;
        }
    }
    Ok(out)
}

/// The operation `op` (the numbers are those of the library `calls`) on a and b.
pub fn call(op: u64, a: &Parts, b: &Parts, n: usize) -> Made {
    caught(|| {
        let (p, q) = (poly(a), poly(b));
        let one = |r: Result<Poly, PolyError>| r.map(|x| (fracs(&x), vec![]));
        match op {
            0 => one(p.add(&q)),
            1 => one(p.sub(&q)),
            2 => one(p.mul(&q)),
            3 => p.div_rem(&q).map(|(x, y)| (fracs(&x), fracs(&y))),
            4 => one(Poly::gcd(&p, &q)),
            5 => Poly::resultant(&p, &q).map(|x| (constant((x, 1)), vec![])),
            6 => one(p.neg()),
            7 => one(p.diff()),
            8 => p.discriminant().map(|x| (constant((x, 1)), vec![])),
            9 => p.rational_roots().map(|l| (l.iter().map(frac).collect(), vec![])),
            10 => p.factor().map(|f| (flat(frac(&f.content), &pieces(&f.factors)), vec![])),
            11 => rebuilt(&p).map(|x| (fracs(&x), vec![])),
            19 => poly::factor::square_free_decomposition(&p).map(|l| (flat((0, 1), &pieces(&l)), vec![])),
            12 => p.eval(q.coeffs.first().copied().unwrap_or(Ratio::new(0, 1))).map(|x| (constant(frac(&x)), vec![])),
            15 => one(p.pow(n)),
            16 => one(p.square_free()),
            17 => Ok((constant(frac(&p.content())), vec![])),
            18 => one(p.primitive_part()),
            _ => unreachable!("no such operation"),
        }
    })
}

/// A rational step: 0 add, 1 sub, 2 mul, 3 neg, 4 the inverse as `div_rem` makes it, 5 `Ratio::new`.
pub fn step(op: u64, a: Frac, b: Frac) -> Made {
    caught(|| {
        let r = match op {
            0 => poly::checked_add(ratio(a), ratio(b)),
            1 => poly::checked_sub(ratio(a), ratio(b)),
            2 => poly::checked_mul(ratio(a), ratio(b)),
            3 => poly::checked_neg(ratio(a)),
            4 => Ok(Ratio::new(a.1, a.0)),
            _ => Ok(Ratio::new(a.0, a.1)),
        };
        r.map(|x| (vec![frac(&x)], vec![]))
    })
}

// ---- floats, real roots, expressions

pub fn to_float(f: Frac) -> Result<f64, u64> {
    told(|| Ok(poly::ratio_to_f64(&ratio(f))))
}

pub fn to_ratio(v: f64) -> Result<Frac, u64> {
    told(|| poly::f64_to_ratio(v).map(|r| frac(&r)))
}

pub fn count(a: &Parts, lo: f64, hi: f64) -> Result<u64, u64> {
    told(|| poly(a).count_real_roots(lo, hi).map(|n| n as u64))
}

/// The same two, neither caught nor brought to lowest terms: for the measurement.
pub fn plain_float(f: Frac) -> f64 {
    poly::ratio_to_f64(&Ratio::new_raw(f.0, f.1))
}

pub fn plain_ratio(v: f64) -> bool {
    poly::f64_to_ratio(v).is_ok()
}

/// Its recursion has no limit: to be called where ours answers.
pub fn isolate(a: &Parts, lo: f64, hi: f64, tol: f64) -> Result<Vec<f64>, u64> {
    told(|| poly(a).isolate_real_roots(lo, hi, tol))
}

/// The tree that the tokens build; `?` stands for an operator on one value. None where they build none.
pub fn tree(tokens: &[Token]) -> Option<LoweredOp> {
    let mut stack: Vec<Arc<LoweredOp>> = vec![];
    for t in tokens {
        let new = match t {
            Token::Const(x) => LoweredOp::Const(*x),
            Token::Var(i) => LoweredOp::Var(*i as usize),
            Token::Neg => LoweredOp::Neg(stack.pop()?),
            Token::Pow(x) => LoweredOp::Pow(stack.pop()?, Arc::new(LoweredOp::Const(*x))),
            Token::Other => LoweredOp::Exp(stack.pop()?),
            Token::Add | Token::Sub | Token::Mul => {
                let (b, a) = (stack.pop()?, stack.pop()?);
                match t {
                    Token::Add => LoweredOp::Add(a, b),
                    Token::Sub => LoweredOp::Sub(a, b),
                    _ => LoweredOp::Mul(a, b),
                }
            }
        };
        stack.push(Arc::new(new));
    }
    let last = stack.pop()?;
    if stack.is_empty() { Arc::try_unwrap(last).ok() } else { None }
}

pub fn lower(tree: &LoweredOp, wrt: u64) -> Result<Vec<Frac>, u64> {
    told(|| Poly::from_lowered(tree, wrt as usize).map(|p| fracs(&p)))
}

/// The tree that `to_lowered` makes, as tokens in postfix order.
pub fn to_lowered(a: &Parts, wrt: u64) -> Result<String, u64> {
    fn walk(t: &LoweredOp, out: &mut Vec<String>) {
        let sign = match t {
            LoweredOp::Const(x) => format!("c{:016x}", x.to_bits()),
            LoweredOp::Var(i) => format!("v{i}"),
            LoweredOp::Add(a, b) | LoweredOp::Mul(a, b) => {
                walk(a, out);
                walk(b, out);
                if matches!(t, LoweredOp::Add(..)) { "+".into() } else { "*".into() }
            }
            _ => unreachable!("to_lowered makes no other"),
        };
        out.push(sign);
    }
    told(|| {
        let mut out = vec![];
        walk(&poly(a).to_lowered(wrt as usize), &mut out);
        Ok(out.join(" "))
    })
}
