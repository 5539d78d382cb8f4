//! Inputs for floats, real roots and expressions: floats of every kind, polynomials with known roots, texts of tokens. Everything comes from a seed.

use crate::cases::{Random, ROOT, edges, lowest, parts};
use crate::ours::Parts;
use crate::rule::{Frac, Run};

/// Neighbours of a float on both sides, and itself.
fn around(x: f64, l: &mut Vec<f64>) {
    for by in -2i64..=2 {
        l.push(f64::from_bits((x.to_bits() as i64).wrapping_add(by) as u64));
    }
}

/// Floats of every kind: patterns of NaN and the infinities, subnormal ones, halves, the powers of two and their neighbours,
/// the ends of i64 over every denominator, thousandths, and what lies close to n/d plus and minus the tolerance of 1e-9.
pub fn float_edges() -> Vec<f64> {
    let mut l: Vec<f64> = [
        0x7ff0_0000_0000_0000u64, 0xfff0_0000_0000_0000, 0x7ff8_0000_0000_0000, 0xfff8_0000_0000_0000, 0x7ff0_0000_0000_0001,
        0x7fff_ffff_ffff_ffff, 0xffff_ffff_ffff_ffff, 0xfff4_0000_0000_0000, 0, 1 << 63, 1, 2, 0x000f_ffff_ffff_ffff, 0x0010_0000_0000_0000,
        0x7fef_ffff_ffff_ffff, 0xffef_ffff_ffff_ffff,
    ]
    .iter()
    .map(|&b| f64::from_bits(b))
    .collect();
    for e in 0..2046u64 {
        around(f64::from_bits(e << 52), &mut l);
    }
    for d in 1..=1010u64 {
        around(9223372036854775808.0 / d as f64, &mut l);
        around(1e-9 / d as f64, &mut l);
    }
    for k in 0..3000u64 {
        l.extend([k as f64 / 1000.0, k as f64 + 0.5, k as f64 / 997.0]);
    }
    for d in [1u64, 2, 3, 7, 10, 500, 999, 1000, 1001] {
        for n in 0..=20 {
            let x = n as f64 / d as f64;
            for off in [1e-9, 0.999999999e-9, 1.000000001e-9, 5e-10, 2e-9] {
                around(x + off / d as f64, &mut l);
                around(x - off / d as f64, &mut l);
            }
        }
    }
    let signed: Vec<f64> = l.iter().flat_map(|&x| [x, -x]).collect();
    signed
}

pub fn any_float(r: &mut Random) -> f64 {
    match r.below(8) {
        0 => f64::from_bits(r.next()),
        1 => r.within(-3000000, 3000000) as f64 / r.within(1, 1010) as f64,
        2 => r.within(-100000, 100000) as f64 / 1000.0,
        3 => r.within(-50, 50) as f64 / r.within(1, 1000) as f64 + r.within(-3, 3) as f64 * 0.5e-9,
        4 => (r.next() >> r.below(64)) as f64,
        5 => -((r.next() >> r.below(64)) as f64) / r.within(1, 1000) as f64,
        6 => f64::from_bits(((r.below(140) + 953) << 52) | (r.next() >> 12)),
        _ => f64::from_bits((r.next() & (1 << 63)) | (r.below(2047) << 52) | (r.next() >> (12 + r.below(52)))),
    }
}

/// The boundary numbers, and those where the conversion to a float has a tie.
pub fn wide_edges() -> Vec<i64> {
    let mut l = edges();
    for e in [53, 54, 55, 60, 62] {
        for off in -3..=3 {
            for half in [0i64, 1 << (e - 53), 1 << (e - 52)] {
                l.extend([(1i64 << e) + half + off, -((1i64 << e) + half + off)]);
            }
        }
    }
    l.extend([i64::MAX - 511, i64::MAX - 512, i64::MAX - 513, i64::MAX - 1023, i64::MAX - 1024, 10, 7, -7, ROOT * 2]);
    l.sort();
    l.dedup();
    l
}

// ---- polynomials with roots, their ends and tolerances

/// Polynomials of up to 32 coefficients of which most are zero.
pub fn sparse() -> Vec<Parts> {
    let mut all = vec![];
    for degree in 0..32usize {
        for low in 0..=degree {
            for c in [1, -1, 3, ROOT] {
                let mut l: Vec<Frac> = vec![(0, 1); degree + 1];
                l[low] = (c, 1);
                l[degree] = (1, 1);
                all.push(parts(&l));
            }
        }
    }
    all
}

/// Hermite's and Chebyshev's polynomials, as far as they fit: all roots real, and a chain of small numbers.
pub fn orthogonal() -> Vec<Parts> {
    let mut all = vec![];
    for (lead, chebyshev) in [(1, false), (2, true)] {
        let mut two: [Vec<Frac>; 2] = [vec![(1, 1)], vec![(0, 1), (1, 1)]];
        for n in 1..31 {
            let step = |run: &mut Run| {
                let up = run.product(&two[1], &[(0, 1), (lead, 1)])?;
                let down = run.scale(&two[0], (if chebyshev { 1 } else { n }, 1))?;
                run.zip(&up, &down, -1)
            };
            let Ok(next) = step(&mut Run::default()) else { break };
            all.push(parts(&two[1]));
            two = [std::mem::take(&mut two[1]), next];
        }
    }
    all
}

/// The product of linear factors, some of them close to each other or repeated, and of a factor without real roots now and then.
fn product(r: &mut Random) -> Vec<Frac> {
    let mut l = vec![(r.within(1, 3), 1)];
    let first = r.within(-12, 12);
    for _ in 0..r.below(7) {
        let root = match r.below(6) {
            0 => (first, 1),
            1 => lowest((first * 1000 + r.within(-2, 2), 1000)),
            2 => lowest((r.within(-40, 40), r.within(1, 8))),
            3 => (r.within(-2, 2), 1),
            _ => (r.within(-9, 9), 1),
        };
        let factor = if r.below(9) == 0 { vec![(r.within(1, 5), 1), (r.within(-1, 1), 1), (1, 1)] } else { vec![(-root.0, root.1), (1, 1)] };
        for _ in 0..=r.below(8) / 6 {
            l = match Run::default().product(&l, &factor) {
                Ok(p) => p,
                Err(_) => return l,
            };
        }
    }
    l
}

/// A polynomial to look for roots in: mostly with some, else any.
pub fn with_roots(r: &mut Random) -> Parts {
    match r.below(8) {
        0 => r.input(32),
        1 => {
            let style = r.below(3);
            r.poly(style, 6)
        }
        2 => {
            let all = if r.below(2) == 0 { sparse() } else { orthogonal() };
            all[r.below(all.len() as u64) as usize].clone()
        }
        _ => parts(&product(r)),
    }
}

fn end(r: &mut Random) -> f64 {
    match r.below(16) {
        0 => any_float(r),
        1 => [1e15, -1e15, 1e15 + 0.125, -1e15 - 0.125, f64::NAN, f64::INFINITY, -0.0, 5e-324][r.below(8) as usize],
        2 => r.within(-1000000, 1000000) as f64 * 1e9,
        3 | 4 => r.within(-9, 9) as f64,
        5 => r.within(-9, 9) as f64 + 0.5,
        _ => r.within(-20000, 20000) as f64 / 1000.0,
    }
}

/// Two ends, mostly rising and with something between them.
pub fn interval(r: &mut Random) -> (f64, f64) {
    let (a, b) = (end(r), end(r));
    match r.below(8) {
        0 => (a, b),
        1 => (a, a),
        2..=4 => (-a.abs() - 20.0, b.abs() + 20.0),
        _ => if a <= b { (a, b) } else { (b, a) },
    }
}

pub fn tolerance(r: &mut Random) -> f64 {
    match r.below(16) {
        0 => [0.0, -0.0, -1.0, f64::NAN, f64::INFINITY, -f64::INFINITY, 5e-324, f64::MAX][r.below(8) as usize],
        1..=4 => 10f64.powi(r.within(-300, 15) as i32),
        5 => any_float(r).abs(),
        _ => 10f64.powi(r.within(-15, 0) as i32),
    }
}

// ---- expressions

fn bits(x: f64) -> String {
    format!("{:016x}", x.to_bits())
}

/// Every text of at most five words from a few, damaged words among them.
pub fn short_texts() -> Vec<String> {
    let words = [
        format!("c{}", bits(1.0)), format!("c{}", bits(0.5)), "v0".into(), "v1".into(), "+".into(), "-".into(), "*".into(), "~".into(),
        format!("^{}", bits(2.0)), format!("^{}", bits(-1.0)), "?".into(), "v256".into(),
    ];
    let mut all: Vec<String> = vec![];
    let mut last = vec![vec![]];
    for _ in 0..5 {
        last = last.iter().flat_map(|l: &Vec<&str>| words.iter().map(move |w| [l.as_slice(), &[w.as_str()]].concat())).collect();
        all.extend(last.iter().map(|l| l.join(" ")));
    }
    for w in ["", "x", "+-", "v", "v00", "v01", "v-1", "v255", "v999", "v1000", "V0", "c", "^", "c3ff000000000000", "c3ff00000000000000", "c3FF0000000000000", "c3ff000000000000g", "^4000000000000000", " v0", "v0 ", "v0  v0 +", "v0\t", "v0\n", "\u{e9}"] {
        all.push(w.into());
        all.push(format!("v0 {w}"));
        all.push(format!("? {w}"));
    }
    // around 16 values, with and without another operator behind them
    for n in 15..=18 {
        let values = vec!["v0"; n].join(" ");
        all.push(format!("{values} {}", vec!["+"; n - 1].join(" ")));
        all.push(format!("{values} ?"));
        all.push(format!("? {values}"));
        all.push(format!("{values} ? v256"));
    }
    all
}

fn leaf(r: &mut Random, gentle: bool) -> String {
    match if gentle { 3 + r.below(9) } else { r.below(12) } {
        0 => format!("c{}", bits(any_float(r))),
        1 => format!("v{}", r.below(3)),
        2 => format!("c{}", bits(9223372036854775808.0 / r.within(1, 4) as f64)),
        3..=6 => format!("c{}", bits(r.within(-12, 12) as f64 / r.within(1, 6) as f64)),
        _ => "v0".into(),
    }
}

fn power(r: &mut Random, gentle: bool) -> String {
    let x = match if gentle { 2 } else { r.below(24) } {
        0 => [-1.0, 0.5, f64::NAN, f64::INFINITY, 200.0, 201.0, -0.0, 1e300][r.below(8) as usize],
        1 => r.below(40) as f64,
        _ => r.below(3) as f64,
    };
    format!("^{}", bits(x))
}

/// A long text: a well-formed one of up to 60 words, now and then of too many values, damaged or with another operator; a gentle one is mostly answered.
pub fn long_text(r: &mut Random) -> Vec<u8> {
    let (mut words, mut values) = (vec![], 0u64);
    let gentle = r.below(2) == 0;
    let most = if r.below(10) == 0 { 18 } else { 6 };
    let length = r.below(60);
    while (words.len() as u64) < length || values != 1 {
        let ends = words.len() as u64 >= length;
        if values < 1 || (!ends && values < most && r.below(2) == 0) {
            words.push(leaf(r, gentle));
            values += 1;
        } else if values > 1 && (ends || r.below(3) > 0) {
            words.push(["+", "-", "*", "+"][r.below(4) as usize].into());
            values -= 1;
        } else {
            words.push(match r.below(60) {
                0 if !gentle => "?".into(),
                n if n < 40 => "~".into(),
                _ => power(r, gentle),
            });
        }
    }
    let mut text = words.join(" ").into_bytes();
    if r.below(12) == 0 {
        let at = r.below(text.len() as u64) as usize;
        match r.below(3) {
            0 => text.truncate(at),
            1 => text[at] = r.below(256) as u8,
            _ => text.insert(at, b" +v~c"[r.below(5) as usize]),
        }
    }
    text
}
