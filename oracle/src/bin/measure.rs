//! The original and ours in one run, by the same driver, on the same inputs: `measure [ROUNDS]`.
//! Both go from lists of numerators and denominators to an answer. A ratio below 1 means that ours is faster.

use num_rational::Ratio;
use oracle::cases::parts;
use oracle::cases_real;
use oracle::original;
use oracle::ours::{self, Lent, Parts};
use oracle::poly::Poly;
use oracle::rule_real;
use std::hint::black_box;
use std::time::Instant;

/// A round is so many slices of either side in turn, of which the quickest counts: another process at work disturbs some of them.
const SLICES: usize = 5;
const SLICE_NANOS: f64 = 8e5;

fn whole(l: &[i64]) -> Parts {
    parts(&l.iter().map(|&n| (n, 1)).collect::<Vec<_>>())
}

struct Case {
    name: &'static str,
    op: u64,
    a: Parts,
    b: Parts,
    n: usize,
}

fn cases() -> Vec<Case> {
    let one = |name, op, a: &[i64], b: &[i64]| Case { name, op, a: whole(a), b: whole(b), n: 65536 };
    let halves = |name, op, a: &[i64], b: &[i64]| Case {
        name,
        op,
        a: parts(&a.iter().map(|&n| if n % 2 == 0 { (n / 2, 1) } else { (n, 2) }).collect::<Vec<_>>()),
        b: parts(&b.iter().map(|&n| if n % 3 == 0 { (n / 3, 1) } else { (n, 3) }).collect::<Vec<_>>()),
        n: 0,
    };
    // (x^5 - x + 1) times a cubic, and times another
    let common_a = [-6, 17, -17, 7, -1, -6, 11, -6, 1];
    let common_b = [2, -3, -1, 3, -1, 2, -1, -2, 1];
    vec![
        one("gcd 8 by 8, answered", 4, &[1, 0, 0, 0, 0, 0, 0, 0, 1], &[0, 0, 0, 0, 0, 0, 0, 1, 1]),
        one("gcd 8 by 8, refused", 4, &[-6, 11, -6, 1, 5, 3, 2, 7, 1], &[3, 1, 4, 1, 5, 9, 2, 6, 5]),
        one("gcd 8 by 8, a common factor of degree 5", 4, &common_a, &common_b),
        one("gcd of document 01", 4, &[-1, 0, 1], &[2, -3, 1]),
        one("division 8 by 4", 3, &[-6, 11, -6, 1, 5, 3, 2, 7, 1], &[3, 1, -4, 1, 2]),
        one("division 31 by 1", 3, &[1; 32], &[-1, 1]),
        one("resultant 4 by 4", 5, &[-6, 11, -6, 1, 1], &[3, 1, 4, 1, 2]),
        one("discriminant of degree 5", 8, &[1, -1, 0, 0, 0, 1], &[]),
        one("square-free part of degree 8", 16, &[1, -4, 6, -4, 2, -4, 6, -4, 1], &[]),
        one("roots of degree 3, answered", 9, &[2, -3, -3, 2], &[]),
        one("roots of degree 4, 144 candidates", 9, &[36, 0, -25, 0, 4], &[]),
        one("roots, 55,108 trial divisions, answered", 9, &[-3037000493, 1], &[]),
        one("roots, 65,535 trial divisions, refused", 9, &[-4294967291, 0, 1], &[]),
        // (x - 1)^3 (x + 2)^2; (x - 1)(x + 1)(x - 2)(x - 3); (x - 1)(x - 2)(x - 3)(2x + 1); (x^2 + x + 1)(x^2 + 2)
        one("factors by Yun, degree 5", 10, &[-4, 8, -1, -5, 1, 1], &[]),
        one("factors by roots, degree 4", 10, &[-6, 5, 5, -5, 1], &[]),
        one("factors refused by Yun, degree 4", 10, &[-6, -1, 16, -11, 2], &[]),
        one("factors by Kronecker, degree 4", 10, &[2, 2, 3, 1, 1], &[]),
        one("eval of degree 8 at a whole number", 12, &[-6, 11, -6, 1, 5, 3, 2, 7, 1], &[3]),
        halves("eval of degree 8 at a fraction", 12, &[-6, 11, -6, 1, 5, 3, 2, 7, 1], &[2]),
        one("product 8 by 8, whole numbers", 2, &[-6, 11, -6, 1, 5, 3, 2, 7, 1], &[3, 1, 4, 1, 5, 9, 2, 6, 5]),
        halves("product 8 by 8, fractions", 2, &[-6, 11, -6, 1, 5, 3, 2, 7, 1], &[3, 1, 4, 1, 5, 9, 2, 6, 5]),
        one("sum of degree 31", 0, &[7; 32], &[9; 32]),
    ]
}

fn theirs(op: u64, a: &Parts, b: &Parts) -> usize {
    let (p, q) = (original::poly(a), original::poly(b));
    let len = |r: Result<Poly, _>| r.map_or(0, |x: Poly| x.coeffs.len());
    match op {
        0 => len(p.add(&q)),
        2 => len(p.mul(&q)),
        3 => p.div_rem(&q).map_or(0, |(x, y)| x.coeffs.len() + y.coeffs.len()),
        4 => len(Poly::gcd(&p, &q)),
        5 => Poly::resultant(&p, &q).map_or(0, |x| x as usize),
        10 => p.factor().map_or(0, |f| f.factors.len()),
        9 => p.rational_roots().map_or(0, |l| l.len()),
        8 => p.discriminant().map_or(0, |x| x as usize),
        12 => p.eval(q.coeffs.first().copied().unwrap_or(Ratio::new(0, 1))).map_or(0, |x| *x.numer() as usize),
        _ => len(p.square_free()),
    }
}

/// Nanoseconds a call, over as many calls as fill a slice.
fn time(f: impl Fn()) -> f64 {
    let start = Instant::now();
    f();
    let calls = (SLICE_NANOS / start.elapsed().as_nanos().max(20) as f64).clamp(1.0, 1e6) as u32;
    let start = Instant::now();
    for _ in 0..calls {
        f();
    }
    start.elapsed().as_nanos() as f64 / calls as f64
}

fn median(l: &mut [f64]) -> f64 {
    l.sort_by(f64::total_cmp);
    l[l.len() / 2]
}

/// How deep a call went below this frame, by painting the stack first.
#[inline(never)]
fn depth(f: impl FnOnce()) -> usize {
    const PAINT: u8 = 0xa5;
    const REACH: usize = 4 << 20;
    let here = &raw const f as usize & !4095;
    let bottom = here - REACH;
    for at in bottom..here - 4096 {
        unsafe { (at as *mut u8).write_volatile(PAINT) };
    }
    f();
    let first = (bottom..here).find(|&at| unsafe { (at as *const u8).read_volatile() } != PAINT);
    here - first.unwrap_or(here)
}

/// One case: what is called on either side, and the status of ours.
struct Pair {
    name: String,
    status: u64,
    theirs: Box<dyn Fn()>,
    ours: Box<dyn Fn()>,
}

fn exact_pairs() -> Vec<Pair> {
    let pair = |c: Case| {
        let status = ours::call(c.op, &c.a, &c.b, c.n).status;
        let (a, b) = (c.a.clone(), c.b.clone());
        Pair {
            name: c.name.into(),
            status,
            theirs: Box::new(move || {
                black_box(theirs(c.op, black_box(&a), black_box(&b)));
            }),
            ours: Box::new(move || {
                let mut lent = Lent::default();
                black_box(ours::raw(c.op, black_box(&c.a), black_box(&c.b), c.n, &mut lent));
            }),
        }
    };
    cases().into_iter().map(pair).collect()
}

// ---- floats, real roots, expressions

fn isolation(name: &str, a: &Parts, lo: f64, hi: f64, tol: f64) -> Pair {
    let (p, q) = (a.clone(), a.clone());
    Pair {
        name: name.into(),
        status: ours::isolate(a, lo, hi, tol).err().unwrap_or(0),
        theirs: Box::new(move || {
            black_box(original::poly(black_box(&p)).isolate_real_roots(lo, hi, tol).map_or(0, |l| l.len()));
        }),
        ours: Box::new(move || {
            let mut out = [0.0; 64];
            black_box(ours::raw_isolate(black_box(&q), lo, hi, tol, &mut out));
        }),
    }
}

fn counting(name: &str, a: &Parts, lo: f64, hi: f64) -> Pair {
    let (p, q) = (a.clone(), a.clone());
    Pair {
        name: name.into(),
        status: ours::count(a, lo, hi).err().unwrap_or(0),
        theirs: Box::new(move || {
            black_box(original::poly(black_box(&p)).count_real_roots(lo, hi).unwrap_or(0));
        }),
        ours: Box::new(move || {
            black_box(ours::count(black_box(&q), lo, hi).unwrap_or(0));
        }),
    }
}

/// The original goes from a tree, which is built beforehand; ours reads the text.
fn expression(name: &str, text: &'static str) -> Pair {
    let tree = original::tree(&rule_real::tokens(text.as_bytes()).expect("tokens")).expect("a tree");
    Pair {
        name: name.into(),
        status: ours::lower(text.as_bytes(), 0).err().unwrap_or(0),
        theirs: Box::new(move || {
            black_box(Poly::from_lowered(black_box(&tree), 0).map_or(0, |p| p.coeffs.len()));
        }),
        ours: Box::new(move || {
            let (mut nums, mut dens) = ([0; 32], [0; 32]);
            black_box(ours::raw_lower(black_box(text.as_bytes()), 0, &mut nums, &mut dens));
        }),
    }
}

/// Back: the original makes a tree, ours writes the text.
fn written(name: &str, a: &Parts) -> Pair {
    let (p, q) = (original::poly(a), a.clone());
    Pair {
        name: name.into(),
        status: ours::to_lowered(a, 0, 1000).err().unwrap_or(0),
        theirs: Box::new(move || {
            black_box(black_box(&p).to_lowered(0));
        }),
        ours: Box::new(move || {
            let mut out = [0; 1000];
            black_box(ours::raw_to_lowered(black_box(&q), 0, &mut out));
        }),
    }
}

/// A function on many small inputs, one after the other.
fn many<T: Copy + 'static>(name: &str, l: Vec<T>, theirs: fn(T) -> bool, ours: fn(T) -> bool) -> Pair {
    let m = l.clone();
    Pair {
        name: name.into(),
        status: 0,
        theirs: Box::new(move || {
            black_box(l.iter().filter(|&&x| theirs(black_box(x))).count());
        }),
        ours: Box::new(move || {
            black_box(m.iter().filter(|&&x| ours(black_box(x))).count());
        }),
    }
}

fn real_pairs() -> Vec<Pair> {
    // Hermite's polynomials first, one a degree from 1 on
    let hermite = cases_real::orthogonal()[7].clone();
    let close = whole(&[2, -3, 1]);
    let fractions: Vec<(i64, i64)> = (1..=16).map(|i| (i * i * 1000003 + 1, 1 << (i % 20))).collect();
    let thirds: Vec<f64> = (1..=16).map(|i| i as f64 / 3.0).collect();
    let thousandths: Vec<f64> = (1..=16).map(|i| i as f64 / 997.0).collect();
    vec![
        counting("count of degree 8, 8 roots", &hermite, -40.0, 40.0),
        isolation("isolation of degree 8, 8 roots to 1e-9", &hermite, -40.0, 40.0, 1e-9),
        isolation("isolation of degree 2 on ±1e6, to 1e-6", &close, -1e6, 1e6, 1e-6),
        many("16 fractions to floats", fractions, |f| original::plain_float(f) > 0.0, |f| ours::to_float(f).is_ok()),
        many("16 thirds from floats", thirds, original::plain_ratio, |v| ours::to_ratio(v).is_ok()),
        many("16 parts of 997 from floats", thousandths, original::plain_ratio, |v| ours::to_ratio(v).is_ok()),
        expression("expression of 3 words", "v0 c3ff0000000000000 -"),
        expression(
            "expression of 15 words, degree 6",
            "v0 c3ff0000000000000 - ^4008000000000000 v0 c4000000000000000 + v0 * v0 ~ c3fe0000000000000 + * *",
        ),
        written("expression of degree 8 written", &cases_real::orthogonal()[7]),
    ]
}

/// Whole jobs from text to text: the original stands behind the driver's own reading and writing, without a count of steps.
#[cfg(feature = "job")]
fn job_pairs() -> Vec<Pair> {
    let pair = |name: &str, text: &'static [u8]| Pair {
        name: name.into(),
        status: oracle::jobs::status(&String::from_utf8_lossy(&ours::job(text))).1 as u64,
        theirs: Box::new(move || {
            black_box(oracle::jobs::answer_of_original(black_box(text)));
        }),
        ours: Box::new(move || {
            black_box(ours::job(black_box(text)));
        }),
    };
    vec![
        pair("job: gcd of document 01", b"op=gcd\na=-1 0 1\nb=2 -3 1\n"),
        pair("job: gcd 8 by 8, answered", b"op=gcd\na=1 0 0 0 0 0 0 0 1\nb=0 0 0 0 0 0 0 1 1\n"),
        pair("job: sum of degree 31", b"op=add\na=7 7 7 7 7 7 7 7 7 7 7 7 7 7 7 7 7 7 7 7 7 7 7 7 7 7 7 7 7 7 7 7\nb=9 9 9 9 9 9 9 9 9 9 9 9 9 9 9 9 9 9 9 9 9 9 9 9 9 9 9 9 9 9 9 9\n"),
        pair("job: isolation of (x - 1)(x - 2)", b"op=isolate\na=2 -3 1\nlo=c024000000000000\nhi=4024000000000000\ntol=3eb0c6f7a0b5ed8d\n"),
        pair("job: a bad line", b"op=gcd\na=-1 0 1\nb=2 -3 01\n"),
    ]
}

#[cfg(not(feature = "job"))]
fn job_pairs() -> Vec<Pair> {
    vec![]
}

/// How deep the stack of ours goes: of the exact operations the deepest one and gcd, and isolations.
fn stacks() -> Vec<(String, usize)> {
    let on = || {
        let exact: Vec<(usize, String)> = exact_pairs().into_iter().map(|c| (depth(c.ours), c.name)).collect();
        let gcd = exact[0].clone();
        // the last one splits down to the depth of 48 and is refused with 7
        let deep = isolation("isolation, refused at depth 48", &whole(&[2, -3, 1]), -1e15, 1e15, 1e-6);
        let real: Vec<(usize, String)> = real_pairs().into_iter().chain(job_pairs()).chain([deep]).map(|c| (depth(c.ours), c.name)).collect();
        let all = [exact.into_iter().max().expect("there are cases"), gcd].into_iter().chain(real);
        all.map(|(d, name)| (name, d)).collect()
    };
    std::thread::Builder::new().stack_size(16 << 20).spawn(on).expect("a thread").join().expect("it ends")
}

fn main() {
    let rounds: usize = std::env::args().nth(1).map_or(41, |a| a.parse().expect("ROUNDS is a number"));
    println!("{rounds} rounds; nanoseconds a call (median), ratio ours to original: median, and from the lower to the upper quartile");
    for c in exact_pairs().into_iter().chain(real_pairs()).chain(job_pairs()) {
        let (mut us, mut them, mut ratio) = (vec![], vec![], vec![]);
        for _ in 0..rounds {
            let slices: Vec<(f64, f64)> = (0..SLICES).map(|_| (time(&c.theirs), time(&c.ours))).collect();
            let least = |side: fn(&(f64, f64)) -> f64| slices.iter().map(side).fold(f64::MAX, f64::min);
            let (t, o) = (least(|s| s.0), least(|s| s.1));
            us.push(o);
            them.push(t);
            ratio.push(o / t);
        }
        let mid = median(&mut ratio);
        println!(
            "{:<40} status {}  original {:>7.0}  ours {:>7.0}  ratio {:.2} ({:.2} to {:.2})",
            c.name, c.status, median(&mut them), median(&mut us), mid, ratio[rounds / 4], ratio[rounds * 3 / 4]
        );
    }
    for (what, depth) in stacks() {
        println!("deepest stack of ours, {what}: {depth} bytes");
    }
    println!("no heap is used");
    if job_pairs().is_empty() {
        println!("not measured: one whole job from text to text (not landed)");
    }
}
