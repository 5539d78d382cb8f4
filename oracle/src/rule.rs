//! Document 01 written down a third time, in plain Rust over wide numbers: the status, the result and the number of steps of every operation.
//! Apart from the original and from our code, so that neither can lend it a mistake.

use crate::ours::Parts;

pub const LIMIT: i128 = i64::MAX as i128;
const LEAST: i128 = i64::MIN as i128;

pub type Frac = (i64, i64);

/// A run: how many steps were made, and whether an intermediate was exactly -2^63 (then the original is outside the domain of equality).
#[derive(Default)]
pub struct Run {
    pub steps: u64,
    pub least: bool,
}

pub type Num = Result<Frac, u64>;
pub type List = Result<Vec<Frac>, u64>;

fn gcd(a: i128, b: i128) -> i128 {
    if b == 0 { a.abs() } else { gcd(b, a % b) }
}

pub fn is_lowest(f: Frac) -> bool {
    let (n, d) = (f.0 as i128, f.1 as i128);
    n != LEAST && d > 0 && gcd(n, d) == 1
}

fn is_fraction(f: Frac) -> bool {
    f.0 as i128 != LEAST && f.1 as i128 != LEAST && f.1 != 0
}

pub fn reduced(n: i128, d: i128) -> Frac {
    let g = gcd(n, d) * d.signum();
    ((n / g) as i64, (d / g) as i64)
}

fn top(mut l: Vec<Frac>) -> Vec<Frac> {
    while l.last().is_some_and(|c| c.0 == 0) {
        l.pop();
    }
    l
}

fn whole(n: i64) -> Frac {
    (n, 1)
}

/// What the door says of a list: 5, then 4.
pub fn door(nums: &[i64], dens: &[i64]) -> u64 {
    let fine = nums.len() == dens.len()
        && nums.iter().zip(dens).all(|(&n, &d)| is_lowest((n, d)))
        && nums.last() != Some(&0);
    if !fine {
        5
    } else if nums.len() > 32 {
        4
    } else {
        0
    }
}

impl Run {
    fn fit(&mut self, v: i128) -> Result<i128, u64> {
        self.least |= v == LEAST;
        if v.abs() <= LIMIT { Ok(v) } else { Err(2) }
    }

    fn sum(&mut self, a: Frac, b: Frac, sign: i128) -> Num {
        self.steps += 1;
        if !is_fraction(a) || !is_fraction(b) {
            return Err(5);
        }
        let left = self.fit(a.0 as i128 * b.1 as i128)?;
        let right = self.fit(b.0 as i128 * a.1 as i128)?;
        let n = self.fit(left + sign * right)?;
        let d = self.fit(a.1 as i128 * b.1 as i128)?;
        Ok(reduced(n, d))
    }

    pub fn add(&mut self, a: Frac, b: Frac) -> Num {
        self.sum(a, b, 1)
    }

    pub fn sub(&mut self, a: Frac, b: Frac) -> Num {
        self.sum(a, b, -1)
    }

    pub fn mul(&mut self, a: Frac, b: Frac) -> Num {
        self.steps += 1;
        if !is_fraction(a) || !is_fraction(b) {
            return Err(5);
        }
        let n = self.fit(a.0 as i128 * b.0 as i128)?;
        let d = self.fit(a.1 as i128 * b.1 as i128)?;
        Ok(reduced(n, d))
    }

    pub fn neg(a: Frac) -> Num {
        if is_fraction(a) { Ok(reduced(-(a.0 as i128), a.1 as i128)) } else { Err(5) }
    }

    pub fn inverse(a: Frac) -> Num {
        if !is_fraction(a) {
            Err(5)
        } else if a.0 == 0 {
            Err(3)
        } else {
            Ok(reduced(a.1 as i128, a.0 as i128))
        }
    }

    pub fn new_ratio(a: Frac) -> Num {
        if is_fraction(a) { Ok(reduced(a.0 as i128, a.1 as i128)) } else { Err(5) }
    }

    pub fn zip(&mut self, a: &[Frac], b: &[Frac], sign: i128) -> List {
        let at = |l: &[Frac], i: usize| l.get(i).copied().unwrap_or(whole(0));
        let n = a.len().max(b.len());
        let l: List = (0..n).map(|i| self.sum(at(a, i), at(b, i), sign)).collect();
        Ok(top(l?))
    }

    pub fn product(&mut self, a: &[Frac], b: &[Frac]) -> List {
        if a.is_empty() || b.is_empty() {
            return Ok(vec![]);
        }
        if a.len() + b.len() - 1 > 32 {
            return Err(4);
        }
        let mut out = vec![whole(0); a.len() + b.len() - 1];
        for (i, &x) in a.iter().enumerate() {
            for (j, &y) in b.iter().enumerate() {
                let t = self.mul(x, y)?;
                out[i + j] = self.add(out[i + j], t)?;
            }
        }
        Ok(top(out))
    }

    pub fn scale(&mut self, a: &[Frac], c: Frac) -> List {
        let l: List = a.iter().map(|&x| self.mul(x, c)).collect();
        Ok(top(l?))
    }

    pub fn diff(&mut self, a: &[Frac]) -> List {
        let l: List = a.iter().enumerate().skip(1).map(|(i, &x)| self.mul(x, whole(i as i64))).collect();
        Ok(top(l?))
    }

    pub fn pow(&mut self, a: &[Frac], n: usize) -> List {
        if n > 200 || a.len().saturating_sub(1) * n > 31 {
            return Err(4);
        }
        let mut out = vec![whole(1)];
        for _ in 0..n {
            out = self.product(&out, a)?;
        }
        Ok(out)
    }

    pub fn eval(&mut self, a: &[Frac], x: Frac) -> Num {
        let (mut sum, mut power) = (whole(0), whole(1));
        for &c in a {
            let t = self.mul(c, power)?;
            sum = self.add(sum, t)?;
            power = self.mul(power, x)?;
        }
        Ok(sum)
    }

    pub fn divide(&mut self, a: &[Frac], b: &[Frac]) -> Result<(Vec<Frac>, Vec<Frac>), u64> {
        let Some(&lead) = b.last() else { return Err(3) };
        if a.len() < b.len() {
            return Ok((vec![], a.to_vec()));
        }
        let inverse = Run::inverse(lead)?;
        let mut rest = a.to_vec();
        let mut quotient = vec![whole(0); a.len() - b.len() + 1];
        for k in (0..quotient.len()).rev() {
            let t = self.mul(rest[k + b.len() - 1], inverse)?;
            quotient[k] = t;
            for (j, &y) in b.iter().enumerate() {
                let s = self.mul(t, y)?;
                rest[k + j] = self.sub(rest[k + j], s)?;
            }
        }
        Ok((top(quotient), top(rest)))
    }

    pub fn monic(&mut self, a: &[Frac]) -> List {
        match a.last() {
            None => Ok(vec![]),
            Some(&lead) => self.scale(a, Run::inverse(lead)?),
        }
    }

    pub fn gcd(&mut self, a: &[Frac], b: &[Frac]) -> List {
        let (mut u, mut v) = (a.to_vec(), b.to_vec());
        while !v.is_empty() {
            let (_, r) = self.divide(&u, &v)?;
            u = v;
            v = r;
        }
        self.monic(&u)
    }

    pub fn square_free(&mut self, a: &[Frac]) -> List {
        if a.is_empty() {
            return Ok(vec![]);
        }
        let d = self.diff(a)?;
        let g = self.gcd(a, &d)?;
        if g.len() < 2 {
            return Ok(a.to_vec());
        }
        let (q, r) = self.divide(a, &g)?;
        if r.is_empty() { self.monic(&q) } else { Ok(a.to_vec()) }
    }

    fn power(&mut self, c: Frac, k: usize) -> Num {
        (0..k).try_fold(whole(1), |acc, _| self.mul(acc, c))
    }

    pub fn resultant(&mut self, a: &[Frac], b: &[Frac]) -> Num {
        if a.is_empty() || b.is_empty() {
            return Ok(whole(0));
        }
        let (n, m) = (a.len() - 1, b.len() - 1);
        let sign = whole(if n * m % 2 == 0 { 1 } else { -1 });
        if n == 0 {
            return self.power(a[0], m);
        }
        if m == 0 {
            return self.power(b[0], n);
        }
        if n < m {
            let r = self.resultant(b, a)?;
            return self.mul(r, sign);
        }
        let (_, r) = self.divide(a, b)?;
        if r.is_empty() {
            return Ok(whole(0));
        }
        let p = self.power(b[m], n - (r.len() - 1))?;
        let inner = self.resultant(b, &r)?;
        let t = self.mul(sign, p)?;
        self.mul(t, inner)
    }

    pub fn discriminant(&mut self, a: &[Frac]) -> Num {
        if a.len() < 2 {
            return Ok(whole(a.len() as i64));
        }
        let n = a.len() - 1;
        let d = self.diff(a)?;
        let r = self.resultant(a, &d)?;
        let sign = whole(if n * (n - 1) / 2 % 2 == 0 { 1 } else { -1 });
        let t = self.mul(sign, r)?;
        self.mul(t, Run::inverse(a[n])?)
    }
}

/// The divisors of n in document 01's order: i, -i, N/i, -(N/i), a square's root once, and [0] for 0. 6 where the root is above the budget.
pub fn factors(n: i64, budget: u64) -> Result<Vec<i64>, u64> {
    let size = n.unsigned_abs() as u128;
    if (budget as u128 + 1) * (budget as u128 + 1) <= size {
        return Err(6);
    }
    if n == 0 {
        return Ok(vec![0]);
    }
    let (size, mut all) = (size as i64, vec![]);
    for i in (1..).take_while(|&i: &i64| i as u128 * i as u128 <= size as u128).filter(|i| size % i == 0) {
        all.extend([i, -i]);
        if size / i != i {
            all.extend([size / i, -(size / i)]);
        }
    }
    Ok(all)
}

impl Run {
    fn multiple(&mut self, m: i128, d: i64) -> Result<i128, u64> {
        self.fit(m * (d as i128 / gcd(m, d as i128)))
    }

    /// The coefficients times the common multiple of their denominators. No step.
    fn cleared(&mut self, a: &[Frac]) -> Result<Vec<i64>, u64> {
        let m = a.iter().try_fold(1i128, |m, c| self.multiple(m, c.1))?;
        a.iter().map(|c| self.fit(c.0 as i128 * (m / c.1 as i128)).map(|x| x as i64)).collect()
    }

    pub fn roots(&mut self, a: &[Frac], budget: u64) -> List {
        if a.is_empty() {
            return Ok(vec![]);
        }
        let all = self.cleared(a)?;
        let low = all.iter().take_while(|&&x| x == 0).count();
        let l = &all[low..];
        let mut kept = if low > 0 { vec![whole(0)] } else { vec![] };
        let constants = factors(l[0], budget)?;
        let leads = factors(l[l.len() - 1], budget)?;
        let terms: Vec<Frac> = l.iter().map(|&n| whole(n)).collect();
        for &p in &constants {
            for &q in &leads {
                let x = reduced(p as i128, q as i128);
                if self.eval(&terms, x)?.0 == 0 {
                    kept.push(x);
                }
            }
        }
        kept.sort_by(|x, y| (x.0 as i128 * y.1 as i128).cmp(&(y.0 as i128 * x.1 as i128)));
        kept.dedup();
        Ok(kept)
    }

    /// The gcd of the numerators over the common multiple of the denominators, which stays as it was where it would leave the range.
    pub fn content(&mut self, a: &[Frac]) -> Frac {
        let n = a.iter().fold(0, |n, c| gcd(n, c.0 as i128));
        let d = a.iter().fold(1, |d, c| self.multiple(d, c.1).unwrap_or(d));
        if n == 0 { whole(0) } else { reduced(n, d) }
    }

    pub fn primitive_part(&mut self, a: &[Frac]) -> List {
        if a.is_empty() {
            return Ok(vec![]);
        }
        let c = self.content(a);
        let l = self.scale(a, Run::inverse(c)?)?;
        if l[l.len() - 1].0 < 0 { l.iter().map(|&c| Run::neg(c)).collect() } else { Ok(l) }
    }
}

/// Factors with their multiplicities.
pub type Pieces = Vec<(Vec<Frac>, u64)>;

const POINTS: [i64; 7] = [0, 1, -1, 2, -2, 3, -3];
const COMBINATIONS: usize = 100;

impl Run {
    /// Yun's decomposition; what isn't split stays whole.
    pub fn decomposition(&mut self, a: &[Frac]) -> Result<Pieces, u64> {
        if a.is_empty() {
            return Ok(vec![]);
        }
        let f = self.monic(a)?;
        let found = self.yun(&f)?;
        Ok(if found.is_empty() { vec![(f, 1)] } else { found })
    }

    fn yun(&mut self, f: &[Frac]) -> Result<Pieces, u64> {
        let df = self.diff(f)?;
        if df.is_empty() {
            return Ok(vec![]);
        }
        let a = self.gcd(f, &df)?;
        let (mut b, rest) = self.divide(f, &a)?;
        if !rest.is_empty() {
            return Ok(vec![]);
        }
        let (mut c, rest) = self.divide(&df, &a)?;
        if !rest.is_empty() {
            return Ok(vec![]);
        }
        let mut found = vec![];
        for i in 1.. {
            if b.len() < 2 {
                break;
            }
            let db = self.diff(&b)?;
            let d = self.zip(&c, &db, -1)?;
            if d.is_empty() {
                found.push((self.monic(&b)?, i));
                break;
            }
            let a = self.gcd(&b, &d)?;
            if a.len() > 1 {
                found.push((self.monic(&a)?, i));
            }
            let (q, rest_b) = self.divide(&b, &a)?;
            let (r, rest_c) = self.divide(&d, &a)?;
            if !rest_b.is_empty() || !rest_c.is_empty() {
                return Ok(vec![]);
            }
            (b, c) = (q, r);
        }
        Ok(found)
    }

    fn split(&mut self, f: &[Frac], budget: u64) -> Result<Vec<Vec<Frac>>, u64> {
        match f.len() {
            0 | 1 => return Ok(vec![]),
            2 => return Ok(vec![f.to_vec()]),
            _ => (),
        }
        let roots = self.roots(f, budget)?;
        let mut left = f.to_vec();
        let mut out = vec![];
        for &r in &roots {
            let line = vec![Run::neg(r)?, whole(1)];
            let (q, rest) = self.divide(&left, &line)?;
            if rest.is_empty() {
                out.push(line);
                left = q;
            }
        }
        if !roots.is_empty() {
            out.extend(self.split(&left, budget)?);
            return Ok(out);
        }
        if (4..=7).contains(&f.len()) {
            if let Some(g) = self.kronecker(f, budget)? {
                let (q, rest) = self.divide(f, &g)?;
                if rest.is_empty() && q.len() > 1 {
                    out = self.split(&g, budget)?;
                    out.extend(self.split(&q, budget)?);
                    return Ok(out);
                }
            }
        }
        Ok(vec![f.to_vec()])
    }

    /// A factor by its values at a few points. A 2 is "no split", a 6 is returned.
    fn kronecker(&mut self, f: &[Frac], budget: u64) -> Result<Option<Vec<Frac>>, u64> {
        for k in 1..=(f.len() - 1) / 2 {
            let points = &POINTS[..=k];
            let Ok(values) = points.iter().map(|&x| self.eval(f, whole(x))).collect::<Result<Vec<Frac>, u64>>() else {
                return Ok(None);
            };
            if values.iter().any(|v| v.1 != 1) {
                continue;
            }
            let lists: Vec<Vec<i64>> = values.iter().map(|v| factors(v.0, budget)).collect::<Result<_, u64>>()?;
            let mut combinations: Vec<Vec<i64>> = vec![vec![]];
            for (i, l) in lists.iter().enumerate() {
                let each = combinations.iter().flat_map(|c| l.iter().map(move |&d| [c.as_slice(), &[d]].concat()));
                combinations = each.take(COMBINATIONS).collect();
                if combinations.len() == COMBINATIONS && i < k {
                    combinations.clear();
                    break;
                }
            }
            for c in &combinations {
                let Ok(g) = self.through(points, c) else { continue };
                if g.len() < 2 || g.iter().any(|c| c.1 != 1) {
                    continue;
                }
                match self.divide(f, &g) {
                    Err(_) => return Ok(None),
                    Ok((_, rest)) if rest.is_empty() => return Ok(Some(g)),
                    Ok(_) => (),
                }
            }
        }
        Ok(None)
    }

    /// The polynomial through points, as Lagrange adds it up.
    fn through(&mut self, xs: &[i64], ys: &[i64]) -> List {
        let mut out = vec![whole(0); xs.len()];
        for (i, &x) in xs.iter().enumerate() {
            let others: Vec<i64> = xs.iter().copied().filter(|&y| y != x).collect();
            let mut basis = vec![whole(1)];
            for &y in &others {
                let mut next = vec![whole(0); basis.len() + 1];
                for (j, &c) in basis.iter().enumerate() {
                    next[j + 1] = self.add(next[j + 1], c)?;
                    let t = self.mul(c, whole(-y))?;
                    next[j] = self.add(next[j], t)?;
                }
                basis = next;
            }
            let scale = reduced(ys[i] as i128, others.iter().map(|&y| (x - y) as i128).product());
            for (j, &c) in basis.iter().enumerate() {
                let t = self.mul(c, scale)?;
                out[j] = self.add(out[j], t)?;
            }
        }
        Ok(top(out))
    }

    pub fn factor(&mut self, a: &[Frac], budget: u64) -> Result<(Frac, Pieces), u64> {
        let c = self.content(a);
        let p = self.primitive_part(a)?;
        let mut all = vec![];
        for (f, times) in self.decomposition(&p)? {
            all.extend(self.split(&f, budget)?.into_iter().map(|g| (g, times)));
        }
        Ok((c, all))
    }

    /// The content times the factors, one product at a time.
    pub fn rebuild(&mut self, a: &[Frac], budget: u64) -> List {
        let (c, all) = self.factor(a, budget)?;
        let each = all.iter().flat_map(|(f, times)| (0..*times).map(move |_| f));
        each.fold(Ok(constant(c)), |acc, f| self.product(&acc?, f))
    }
}

/// Factors as one list: the content, then of each factor its multiplicity, its length and its coefficients.
pub fn flat(content: Frac, l: &Pieces) -> Vec<Frac> {
    let mut out = vec![content];
    for (f, times) in l {
        out.extend([whole(*times as i64), whole(f.len() as i64)]);
        out.extend(f);
    }
    out
}

/// The factor at a place of such a list, with its multiplicity; behind the last one the content. Also how many factors there are.
pub fn told(flat: &[Frac], place: usize) -> (Vec<Frac>, Vec<Frac>, u64) {
    let (mut at, mut all) = (1, vec![]);
    while at < flat.len() {
        let end = at + 2 + flat[at + 1].0 as usize;
        all.push((flat[at + 2..end].to_vec(), vec![flat[at]]));
        at = end;
    }
    let count = all.len() as u64;
    match all.into_iter().nth(place) {
        Some((f, times)) => (f, times, count),
        None => (constant(flat[0]), vec![], count),
    }
}

/// A number that is no integer is refused with 2.
pub fn as_whole(r: Num) -> Num {
    r.and_then(|(n, d)| if d == 1 { Ok((n, 1)) } else { Err(2) })
}

pub fn fracs(p: &Parts) -> Vec<Frac> {
    p.nums.iter().copied().zip(p.dens.iter().copied()).collect()
}

/// A number as the constant polynomial that it is.
pub fn constant(f: Frac) -> Vec<Frac> {
    if f.0 == 0 { vec![] } else { vec![f] }
}

/// Document 01's answer, its steps, and whether -2^63 was met.
pub fn answer(op: u64, a: &Parts, b: &Parts, n: usize) -> (Result<(Vec<Frac>, Vec<Frac>), u64>, Run) {
    let mut run = Run::default();
    let budget = if (9..=11).contains(&op) && !(1..=65536).contains(&n) { 5 } else { 0 };
    let doors = [door(&a.nums, &a.dens), door(&b.nums, &b.dens), budget];
    if let Some(&d) = [5, 4].iter().find(|d| doors.contains(d)) {
        return (Err(d), run);
    }
    let (p, q) = (fracs(a), fracs(b));
    let one = |r: Result<Vec<Frac>, u64>| r.map(|l| (l, vec![]));
    let number = |r: Result<Frac, u64>| r.map(|x| (constant(x), vec![]));
    let answer = match op {
        0 => one(run.zip(&p, &q, 1)),
        1 => one(run.zip(&p, &q, -1)),
        2 => one(run.product(&p, &q)),
        3 => run.divide(&p, &q),
        4 => one(run.gcd(&p, &q)),
        5 => number(as_whole(run.resultant(&p, &q))),
        6 => one(p.iter().map(|&c| Run::neg(c)).collect()),
        7 => one(run.diff(&p)),
        8 => number(as_whole(run.discriminant(&p))),
        9 => one(run.roots(&p, n as u64)),
        10 => one(run.factor(&p, n as u64).map(|(c, l)| flat(c, &l))),
        11 => one(run.rebuild(&p, n as u64)),
        19 => one(run.decomposition(&p).map(|l| flat(whole(0), &l))),
        12 => number(run.eval(&p, q.first().copied().unwrap_or((0, 1)))),
        15 => one(run.pow(&p, n)),
        17 => Ok((constant(run.content(&p)), vec![])),
        18 => one(run.primitive_part(&p)),
        _ => one(run.square_free(&p)),
    };
    (answer, run)
}
