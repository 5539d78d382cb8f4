//! Stored answers for the crate `replay`, a line each: `answers [SEED]`. What is answered, or refused with 2 or 3, is the original's;
//! what the door refuses (4, 5), which the original doesn't know, and the steps are document 01's. Only what lies inside the domain of equality is stored,
//! and -2^63 as a float (2).

use oracle::cases::{self, Random};
use oracle::cases_real;
use oracle::original::{self, Made};
use oracle::ours::{DECOMPOSITION, FACTOR, Parts};
use oracle::rule::{Frac, Run, answer, constant, told};
use oracle::rule_real;

const ROOM: usize = 131072;

/// The numbers of the operations of the library `calls`, and how many coefficients an input has at most.
const OPS: [(u64, u64); 18] = [
    (0, 12), (1, 12), (2, 8), (3, 9), (4, 7), (5, 6), (6, 12), (7, 12), (8, 6), (9, 6), (10, 7), (11, 7), (12, 9), (15, 5), (16, 7), (17, 8), (18, 8), (19, 8),
];

/// How many are stored of each status.
const MOST: [usize; 9] = [17, 0, 5, 3, 2, 3, 5, 0, 0];

fn list(out: &mut String, l: impl ExactSizeIterator<Item = i64>) {
    *out += &format!(" {}", l.len());
    for x in l {
        *out += &format!(" {x}");
    }
}

fn fracs(out: &mut String, l: &[Frac]) {
    list(out, l.iter().map(|c| c.0));
    list(out, l.iter().map(|c| c.1));
}

fn parts(out: &mut String, p: &Parts) {
    list(out, p.nums.iter().copied());
    list(out, p.dens.iter().copied());
}

fn line(op: u64, a: &Parts, b: &Parts, n: usize) -> Option<(usize, String)> {
    let (ruled, run) = answer(op, a, b, n);
    let status = ruled.as_ref().err().copied().unwrap_or(0);
    if run.least {
        return None;
    }
    if status < 4 {
        let want = match &ruled {
            Ok((x, y)) => Made::Answer(x.clone(), y.clone()),
            Err(s) => Made::Refused(*s),
        };
        assert_eq!(original::call(op, a, b, n), want, "the original and document 01 differ");
    }
    let mut out = format!("{op} {n}");
    parts(&mut out, a);
    parts(&mut out, b);
    let factors = op == FACTOR || op == DECOMPOSITION;
    let place = if factors { b.nums.first().map_or(0, |&n| n as usize) } else { 0 };
    let (x, y) = ruled.unwrap_or_default();
    // a list of roots is told with its length as the second
    let y = if op == 9 { constant((x.len() as i64, 1)) } else { y };
    // a value, a content and a rebuilt polynomial carry no count; with factors it is their number
    let steps = if matches!(op, 11 | 12 | 17) { 0 } else { run.steps };
    let (x, y, steps) = if factors && status == 0 { told(&x, place) } else { (x, y, if factors { 0 } else { steps }) };
    out += &format!(" {status} {steps}");
    fracs(&mut out, &x);
    fracs(&mut out, &y);
    Some((status as usize, out))
}

// ---- floats, real roots, expressions: the operations 32 to 37

/// How many are stored of each status.
const MOST_REAL: [usize; 9] = [24, 6, 6, 0, 3, 6, 0, 4, 4];

/// What the lent entries hold before a call.
const LENT: f64 = 7.0;

fn float(x: f64) -> String {
    format!(" {} {}", x.to_bits() >> 32, x.to_bits() & 0xffff_ffff)
}

/// The rule's answer, held against the original's where it knows one. None outside the domain of equality.
fn agreed<T: Clone + std::fmt::Debug + PartialEq>(ruled: Result<T, u64>, run: &Run, made: impl FnOnce() -> Result<T, u64>) -> Option<Result<T, u64>> {
    if run.least {
        return None;
    }
    if !ruled.as_ref().is_err_and(|&s| s >= 4) {
        assert_eq!(ruled, made(), "the original and document 01 differ");
    }
    Some(ruled)
}

fn line_real(op: u64, r: &mut Random) -> Option<(usize, String)> {
    let mut run = Run::default();
    let mut out = format!("{op}");
    let a = cases_real::with_roots(r);
    let (lo, hi) = cases_real::interval(r);
    let tol = cases_real::tolerance(r);
    let status = |s: &Option<u64>| s.unwrap_or(0) as usize;
    match op {
        32 => {
            let style = r.below(8);
            let f = if r.below(6) == 0 { (r.within(-3, 3), 0) } else { r.fraction(style) };
            let x = agreed(rule_real::to_float(f), &run, || original::to_float(f))?;
            out += &format!(" {} {} {}{}", f.0, f.1, x.err().unwrap_or(0), float(x.unwrap_or(LENT)));
            Some((status(&x.err()), out))
        }
        33 => {
            let v = if r.below(1000) == 0 { -9223372036854775808.0 } else { cases_real::any_float(r) };
            let ruled = rule_real::to_ratio(v, &mut run);
            let f = if run.least { ruled } else { agreed(ruled, &run, || original::to_ratio(v))? };
            let (n, d) = f.unwrap_or((LENT as i64, LENT as i64));
            out += &format!("{} {} {n} {d}", float(v), f.err().unwrap_or(0));
            Some((status(&f.err()), out))
        }
        34 => {
            let ruled = rule_real::count(&mut run, &a, lo, hi);
            let n = agreed(ruled, &run, || original::count(&a, lo, hi))?;
            parts(&mut out, &a);
            out += &format!("{}{} {}", float(lo), float(hi), n.map_or_else(|s| s, |n| 16 * n));
            Some((status(&n.err()), out))
        }
        35 => {
            let ruled = rule_real::isolate(&mut run, &a, lo, hi, tol);
            let l = agreed(ruled, &run, || original::isolate(&a, lo, hi, tol))?;
            parts(&mut out, &a);
            out += &format!("{}{}{} {}", float(lo), float(hi), float(tol), l.as_ref().map_or_else(|&s| s, |l| 16 * l.len() as u64));
            let s = status(&l.as_ref().err().copied());
            l.unwrap_or_default().iter().for_each(|&x| out += &float(x));
            Some((s, out))
        }
        36 => {
            let text = cases_real::long_text(r);
            let ruled = rule_real::lower(&mut run, &text, 0);
            let tree = rule_real::tokens(&text).and_then(|l| original::tree(&l));
            let made = tree.map(|t| original::lower(&t, 0));
            // another number by the Rust's order of tests, or no tree: not stored unless the door refuses it
            if ruled.as_ref().is_ok_and(|_| made.is_none()) || (ruled.as_ref().is_err_and(|&s| s < 4) && made.as_ref() != Some(&ruled)) {
                return None;
            }
            let l = agreed(ruled, &run, || made.expect("there is a tree"))?;
            let text = String::from_utf8(text).ok().filter(|t| !t.contains('\n'))?;
            out += &format!(" 0 {} {text} {}", text.len(), l.as_ref().err().unwrap_or(&0));
            let s = status(&l.as_ref().err().copied());
            fracs(&mut out, &l.unwrap_or_default());
            Some((s, out))
        }
        _ => {
            let (wrt, room) = (r.below(300), [1023, 1023, 200, 60, 17][r.below(5) as usize]);
            let t = agreed(rule_real::to_lowered(&a, wrt, room), &run, || original::to_lowered(&a, wrt))?;
            parts(&mut out, &a);
            out += &format!(" {wrt} {room} {} {}", t.as_ref().map_or_else(|&s| s, |t| 16 * t.len() as u64), t.as_deref().unwrap_or(""));
            Some((status(&t.err()), out))
        }
    }
}

/// Lines of floats, real roots and expressions.
fn real(seed: u64, text: &mut String) {
    for op in 32..=37 {
        let mut r = Random::new(seed ^ (op << 32));
        let mut stored = [0; 9];
        for _ in 0..20000 {
            let Some((status, l)) = line_real(op, &mut r) else { continue };
            if stored[status] < MOST_REAL[status] && l.len() < 600 {
                stored[status] += 1;
                *text += &l;
                text.push('\n');
            }
        }
    }
}

fn main() {
    let seed = std::env::args().nth(1).map_or(2026, |a| a.parse().expect("SEED is a number"));
    std::panic::set_hook(Box::new(|_| {}));
    let mut text = String::new();
    for (op, most) in OPS {
        let mut r = Random::new(seed ^ (op << 32));
        let mut stored = [0; 9];
        for i in 0..20000 {
            let (a, b) = if i % 3 == 0 { cases::related(&mut r) } else { (r.input(most), r.input(most)) };
            let b = if op == FACTOR || op == DECOMPOSITION { cases::parts(&constant((r.below(3) as i64, 1))) } else { b };
            let n = cases::number(&mut r, op);
            let Some((status, l)) = line(op, &a, &b, n) else { continue };
            if stored[status] < MOST[status] && a.nums.len() <= 40 && b.nums.len() <= 40 {
                stored[status] += 1;
                text += &l;
                text.push('\n');
            }
        }
    }
    real(seed, &mut text);
    assert!(text.len() <= ROOM, "{} bytes: more than the crate replay reads", text.len());
    print!("{text}");
}
