//! Ours against the original and against document 01: `compare [SEED [RANDOM INPUTS A KIND]]`.

use oracle::cases::{self, Random};
use oracle::original::{self, Made};
use oracle::ours::{self, Parts, Told};
use oracle::rule::{self, Frac, Run};
use oracle::tally::Count;

mod real;

struct Op {
    number: u64,
    name: &'static str,
    counted: bool,
    /// How many coefficients a random input has at most, so that some runs are answered.
    most: u64,
}

const OPS: [Op; 18] = [
    Op { number: 0, name: "add", counted: false, most: 32 },
    Op { number: 1, name: "sub", counted: false, most: 32 },
    Op { number: 2, name: "mul", counted: false, most: 20 },
    Op { number: 3, name: "divide", counted: true, most: 32 },
    Op { number: 4, name: "gcd", counted: true, most: 12 },
    Op { number: 5, name: "resultant", counted: true, most: 8 },
    Op { number: 6, name: "neg", counted: false, most: 32 },
    Op { number: 7, name: "diff", counted: false, most: 32 },
    Op { number: 8, name: "discriminant", counted: true, most: 8 },
    Op { number: 9, name: "roots", counted: true, most: 6 },
    Op { number: 10, name: "factor", counted: false, most: 8 },
    Op { number: 11, name: "rebuild", counted: false, most: 8 },
    Op { number: 12, name: "eval", counted: false, most: 32 },
    Op { number: 15, name: "pow", counted: false, most: 8 },
    Op { number: 16, name: "square_free", counted: true, most: 10 },
    Op { number: 19, name: "decomposition", counted: false, most: 10 },
    Op { number: 17, name: "content", counted: false, most: 12 },
    Op { number: 18, name: "primitive", counted: false, most: 12 },
];

const NOT_COMPARED: &str = "job texts and the program, which `oracle/jobs` compares";

fn same_as_made(t: &Told, m: &Made) -> bool {
    match m {
        Made::Answer(x, y) => t.status == 0 && t.first == *x && t.second == *y,
        Made::Refused(s) => t.status == *s,
        Made::Panicked => false,
    }
}

fn one_case(op: &Op, a: &Parts, b: &Parts, n: usize, c: &mut Count, shown: &mut u64) {
    let t = ours::call(op.number, a, b, n);
    let (answer, run) = rule::answer(op.number, a, b, n);
    c.tried += 1;
    c.status[t.status as usize] += 1;
    let right = match &answer {
        Ok((x, y)) => t.status == 0 && t.first == *x && t.second == *y,
        Err(s) => t.status == *s,
    };
    let mut tell = |what: &str, other: String| {
        *shown += 1;
        if *shown <= 10 {
            println!("DIFFERS from {what}: {} a={a:?} b={b:?} n={n}\n  ours {t:?}\n  other {other}", op.name);
        }
    };
    if !right || (op.counted && t.steps != run.steps) {
        c.from_rule += 1;
        tell("document 01", format!("{answer:?}, {} steps", run.steps));
    }
    c.least += run.least as u64;
    if t.status >= 4 {
        return;
    }
    let m = original::call(op.number, a, b, n);
    c.panicked += (m == Made::Panicked) as u64;
    if !run.least {
        c.inside += 1;
        if !same_as_made(&t, &m) {
            c.from_original += 1;
            tell("the original", format!("{m:?}"));
        }
    }
}

fn polynomials(seed: u64, random: u64, shown: &mut u64) -> u64 {
    let short = cases::short(3);
    let points: Vec<Parts> = [(0, 1), (1, 1), (-1, 1), (1, 2), (-3, 2), (cases::ROOT - 1, 1), (cases::ROOT, 1), (i64::MAX, 1)]
        .iter()
        .map(|&x| cases::parts(&rule::constant(x)))
        .collect();
    let mut differ = 0;
    for op in &OPS {
        let mut c = Count::default();
        let seconds: &[Parts] = if op.number == 12 {
            &points
        } else if op.number < 6 {
            &short
        } else {
            &short[..1]
        };
        for a in &short {
            for b in seconds {
                let ns: &[usize] = match op.number {
                    9..=11 => &[0, 1, 2, 65536],
                    15 => &[0, 1, 2, 3, 4],
                    _ => &[0],
                };
                for &n in ns {
                    one_case(op, a, b, n, &mut c, shown);
                }
            }
        }
        let mut r = Random::new(seed ^ (op.number << 32));
        for i in 0..random {
            let (a, b) = if i % 3 == 0 { cases::related(&mut r) } else { (r.input(op.most), r.input(op.most)) };
            // the second would be a place
            let b = if op.number == ours::FACTOR || op.number == ours::DECOMPOSITION { Parts::default() } else { b };
            let n = cases::number(&mut r, op.number);
            one_case(op, &a, &b, n, &mut c, shown);
        }
        c.line(op.name);
        differ += c.differ();
    }
    differ
}

/// Single steps on every pair of fractions from the boundary numbers. The original can't hold what isn't in lowest terms: there only document 01 is compared.
fn single_steps(shown: &mut u64) -> u64 {
    let edges = cases::edges();
    let all: Vec<Frac> = edges.iter().flat_map(|&n| edges.iter().map(move |&d| (n, d))).collect();
    let names = ["step add", "step sub", "step mul", "step neg", "step inverse", "step new"];
    let mut differ = 0;
    for (op, name) in names.iter().enumerate() {
        let mut c = Count::default();
        for &a in &all {
            for &b in if op < 3 { &all[..] } else { &all[..1] } {
                let mut run = Run::default();
                let want = match op {
                    0 => run.add(a, b),
                    1 => run.sub(a, b),
                    2 => run.mul(a, b),
                    3 => Run::neg(a),
                    4 => Run::inverse(a),
                    _ => Run::new_ratio(a),
                };
                let got = ours::step(op as u64, a, b);
                c.tried += 1;
                c.status[got.err().unwrap_or(0) as usize] += 1;
                c.least += run.least as u64;
                let mut tell = |what: &str, other: String| {
                    *shown += 1;
                    if *shown <= 10 {
                        println!("DIFFERS from {what}: {name} {a:?} {b:?}: ours {got:?}, other {other}");
                    }
                };
                if got != want {
                    c.from_rule += 1;
                    tell("document 01", format!("{want:?}"));
                }
                let held = if op < 3 { rule::is_lowest(a) && rule::is_lowest(b) } else { op == 5 || rule::is_lowest(a) };
                if !held || got.is_err_and(|s| s >= 4) || got == Err(3) {
                    continue;
                }
                let m = original::step(op as u64, a, b);
                c.panicked += (m == Made::Panicked) as u64;
                if !run.least {
                    c.inside += 1;
                    let fine = match (&m, got) {
                        (Made::Answer(x, _), Ok(f)) => x[0] == f,
                        (Made::Refused(s), Err(t)) => *s == t,
                        _ => false,
                    };
                    if !fine {
                        c.from_original += 1;
                        tell("the original", format!("{m:?}"));
                    }
                }
            }
        }
        c.line(name);
        differ += c.differ();
    }
    differ
}

fn main() {
    let mut args = std::env::args().skip(1).map(|a| a.parse::<u64>().expect("SEED and RANDOM INPUTS are numbers"));
    let seed = args.next().unwrap_or(1);
    let random = args.next().unwrap_or(20000);
    std::panic::set_hook(Box::new(|_| {}));
    println!("seed {seed}, {random} random inputs an operation, {} short polynomials exhaustively", cases::short(3).len());
    let mut shown = 0;
    let differ = single_steps(&mut shown) + polynomials(seed, random, &mut shown) + real::all(seed, random, &mut shown);
    println!("not compared here: {NOT_COMPARED}");
    println!("{differ} differ");
    std::process::exit((differ > 0) as i32);
}
