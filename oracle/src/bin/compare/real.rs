//! Floats, real roots and expressions: ours against the original and against document 01. Floats are compared by their bits.

use oracle::cases::{self, Random};
use oracle::cases_real;
use oracle::ours::{self, Parts};
use oracle::rule::{self, Frac, Run};
use oracle::rule_real::{self, Token};
use oracle::tally::Count;
use oracle::original;

fn bits(r: Result<f64, u64>) -> Result<u64, u64> {
    r.map(f64::to_bits)
}

fn all_bits(r: Result<Vec<f64>, u64>) -> Result<Vec<u64>, u64> {
    r.map(|l| l.into_iter().map(f64::to_bits).collect())
}

fn to_float(c: &mut Count, shown: &mut u64, f: Frac) {
    let input = || format!("to_float {f:?}");
    let got = bits(ours::to_float(f));
    c.ruled(shown, &input, &got, &bits(rule_real::to_float(f)));
    if got.is_ok() && rule::is_lowest(f) {
        c.made(shown, &input, &got, &bits(original::to_float(f)));
    }
}

fn to_ratio(c: &mut Count, shown: &mut u64, v: f64) {
    let input = || format!("to_ratio {v:e} {:016x}", v.to_bits());
    let got = ours::to_ratio(v);
    let mut run = Run::default();
    c.ruled(shown, &input, &got, &rule_real::to_ratio(v, &mut run));
    c.least += run.least as u64;
    if !run.least {
        c.made(shown, &input, &got, &original::to_ratio(v));
    }
}

fn floats(seed: u64, random: u64, shown: &mut u64) -> u64 {
    let mut r = Random::new(seed ^ (0x20 << 32));
    let (mut c, mut d) = (Count::default(), Count::default());
    let edges = cases_real::wide_edges();
    for &n in &edges {
        for &m in &edges {
            to_float(&mut c, shown, (n, m));
            to_float(&mut c, shown, if m > 0 && n != i64::MIN { cases::lowest((n, m)) } else { (m, 0) });
        }
    }
    for v in cases_real::float_edges() {
        to_ratio(&mut d, shown, v);
    }
    for _ in 0..random {
        let style = r.below(8);
        to_float(&mut c, shown, r.fraction(style));
        to_float(&mut c, shown, (r.next() as i64 >> r.below(63), r.next() as i64 >> r.below(63)));
        to_ratio(&mut d, shown, cases_real::any_float(&mut r));
    }
    c.line("to_float");
    d.line("to_ratio");
    c.differ() + d.differ()
}

fn count(c: &mut Count, shown: &mut u64, a: &Parts, lo: f64, hi: f64) {
    let input = || format!("count a={a:?} lo={lo:e} hi={hi:e}");
    let got = ours::count(a, lo, hi);
    let mut run = Run::default();
    c.ruled(shown, &input, &got, &rule_real::count(&mut run, a, lo, hi));
    c.least += run.least as u64;
    if !run.least && !got.is_err_and(|s| s >= 4) {
        c.made(shown, &input, &got, &original::count(a, lo, hi));
    }
}

/// The original's recursion has no limit, so that it is asked where ours stays within 48.
fn isolate(c: &mut Count, shown: &mut u64, a: &Parts, lo: f64, hi: f64, tol: f64) {
    let input = || format!("isolate a={a:?} lo={lo:e} hi={hi:e} tol={tol:e}");
    let got = all_bits(ours::isolate(a, lo, hi, tol));
    let mut run = Run::default();
    c.ruled(shown, &input, &got, &all_bits(rule_real::isolate(&mut run, a, lo, hi, tol)));
    c.least += run.least as u64;
    if !run.least && !got.as_ref().is_err_and(|&s| s >= 4) {
        c.made(shown, &input, &got, &all_bits(original::isolate(a, lo, hi, tol)));
    }
}

fn roots(seed: u64, random: u64, shown: &mut u64) -> u64 {
    let mut r = Random::new(seed ^ (0x21 << 32));
    let (mut c, mut d) = (Count::default(), Count::default());
    let ends = [-1e15, -3.0, -1.0, -0.0, 0.5, 1.0, 2.0, 1e15, 1.0000000000000001e15, f64::NAN, f64::INFINITY, -f64::INFINITY];
    for a in &cases::short(3) {
        for &lo in &ends {
            for &hi in &ends {
                count(&mut c, shown, a, lo, hi);
                for tol in [1e-9, 1.0] {
                    isolate(&mut d, shown, a, lo, hi, tol);
                }
            }
        }
    }
    for a in cases_real::sparse().iter().chain(&cases_real::orthogonal()) {
        for end in [2.0, 40.0] {
            count(&mut c, shown, a, -end, end);
            isolate(&mut d, shown, a, -end, end, 1e-9);
        }
    }
    for _ in 0..random {
        let a = cases_real::with_roots(&mut r);
        let (lo, hi) = cases_real::interval(&mut r);
        count(&mut c, shown, &a, lo, hi);
        isolate(&mut d, shown, &a, lo, hi, cases_real::tolerance(&mut r));
    }
    c.line("count");
    d.line("isolate");
    c.differ() + d.differ()
}

fn lower(c: &mut Count, shown: &mut u64, text: &[u8], wrt: u64) {
    let input = || format!("lower {:?} wrt {wrt}", String::from_utf8_lossy(text));
    let got = ours::lower(text, wrt);
    let mut run = Run::default();
    c.ruled(shown, &input, &got, &rule_real::lower(&mut run, text, wrt));
    c.least += run.least as u64;
    if run.least || got.as_ref().is_err_and(|&s| s >= 4) {
        return;
    }
    let tokens = rule_real::tokens(text).expect("ours took it");
    let Some(tree) = original::tree(&tokens) else { return };
    let made = original::lower(&tree, wrt);
    // the Rust tests exponent and operator first, so that a 2 here may be a 1 there
    let late = |t: &Token| matches!(t, Token::Other) || matches!(t, Token::Pow(x) if rule_real::exponent(*x).is_none());
    if got == Err(2) && made == Err(1) && tokens.iter().any(late) {
        c.inside += 1;
        c.number_only += 1;
    } else {
        c.made(shown, &input, &got, &made);
    }
}

fn expressions(seed: u64, random: u64, shown: &mut u64) -> u64 {
    let mut r = Random::new(seed ^ (0x22 << 32));
    let mut c = Count::default();
    for text in cases_real::short_texts() {
        lower(&mut c, shown, text.as_bytes(), 0);
    }
    for i in 0..random {
        let text = cases_real::long_text(&mut r);
        lower(&mut c, shown, &text, [0, 0, 0, 1, 255, 256][i as usize % 6]);
    }
    // and back, on pages that are too short now and then; what is written is read again
    let mut back = Count::default();
    for i in 0..random {
        let a = if i % 2 == 0 { cases_real::with_roots(&mut r) } else { r.input(9) };
        let wrt = [0, 1, 255, 256][i as usize % 4];
        let length = rule_real::to_lowered(&a, wrt, usize::MAX).map_or(0, |t| t.len());
        let room = if r.below(4) == 0 { (length + r.below(4) as usize).saturating_sub(2) } else { 1000 };
        let input = || format!("to_lowered a={a:?} wrt {wrt} room {room}");
        let got = ours::to_lowered(&a, wrt, room);
        back.ruled(shown, &input, &got, &rule_real::to_lowered(&a, wrt, room));
        if let Ok(t) = &got {
            back.made(shown, &input, &got, &original::to_lowered(&a, wrt));
            lower(&mut c, shown, t.as_bytes(), wrt);
        }
    }
    c.line("lower");
    back.line("to_lowered");
    c.differ() + back.differ()
}

pub fn all(seed: u64, random: u64, shown: &mut u64) -> u64 {
    floats(seed, random, shown) + roots(seed, random, shown) + expressions(seed, random, shown)
}
