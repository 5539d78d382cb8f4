//! Our side, through the static libraries `calls` and `calls_real`: polynomials as lists of numerators and denominators, floats as they are.

/// A polynomial as it is handed over: numerators and denominators, rising.
#[derive(Clone, Debug, PartialEq, Eq, Default)]
pub struct Parts {
    pub nums: Vec<i64>,
    pub dens: Vec<i64>,
}

/// What is told of an answer: its status, its steps, and two polynomials without the zeros at the top.
#[derive(Clone, Debug, PartialEq, Eq)]
pub struct Told {
    pub status: u64,
    pub steps: u64,
    pub first: Vec<(i64, i64)>,
    pub second: Vec<(i64, i64)>,
}

#[link(name = "calls", kind = "static")]
unsafe extern "C" {
    fn kanrosuye_call(
        op: u64,
        an: *const i64,
        an_len: usize,
        ad: *const i64,
        ad_len: usize,
        bn: *const i64,
        bn_len: usize,
        bd: *const i64,
        bd_len: usize,
        n: usize,
        qn: *mut [i64; 32],
        qd: *mut [i64; 32],
        rn: *mut [i64; 32],
        rd: *mut [i64; 32],
    ) -> u64;
    fn kanrosuye_step(op: u64, an: i64, ad: i64, bn: i64, bd: i64, out: *mut [i64; 2]) -> u64;
}

/// The operations whose answers are factors, told one by one: the place is handed over as a constant.
pub const FACTOR: u64 = 10;
pub const DECOMPOSITION: u64 = 19;

/// The operation whose answer is a list, its length told as the second.
pub const ROOTS: u64 = 9;

const UNTOUCHED: i64 = 0x5a5a_5a5a;

fn terms(nums: &[i64; 32], dens: &[i64; 32]) -> Vec<(i64, i64)> {
    let len = (0..32).rev().find(|&i| nums[i] != 0).map_or(0, |i| i + 1);
    (0..len).map(|i| (nums[i], dens[i])).collect()
}

/// The lent memory of a call.
pub struct Lent {
    qn: [i64; 32],
    qd: [i64; 32],
    rn: [i64; 32],
    rd: [i64; 32],
}

impl Default for Lent {
    fn default() -> Self {
        Lent { qn: [UNTOUCHED; 32], qd: [UNTOUCHED; 32], rn: [UNTOUCHED; 32], rd: [UNTOUCHED; 32] }
    }
}

/// The number handed back: 16 times the steps, plus the status.
pub fn raw(op: u64, a: &Parts, b: &Parts, n: usize, lent: &mut Lent) -> u64 {
    unsafe {
        kanrosuye_call(
            op,
            a.nums.as_ptr(),
            a.nums.len(),
            a.dens.as_ptr(),
            a.dens.len(),
            b.nums.as_ptr(),
            b.nums.len(),
            b.dens.as_ptr(),
            b.dens.len(),
            n,
            &mut lent.qn,
            &mut lent.qd,
            &mut lent.rn,
            &mut lent.rd,
        )
    }
}

/// All factors as one list: the content, then of each factor its multiplicity, its length and its coefficients.
fn factors(op: u64, a: &Parts, n: usize, count: u64) -> Vec<(i64, i64)> {
    let at = |i: u64| {
        let place = if i == 0 { Parts::default() } else { Parts { nums: vec![i as i64], dens: vec![1] } };
        let mut lent = Lent::default();
        raw(op, a, &place, n, &mut lent);
        lent
    };
    let last = at(count);
    let mut out = vec![(last.qn[0], last.qd[0])];
    for lent in (0..count).map(at) {
        let f = terms(&lent.qn, &lent.qd);
        out.extend([(lent.rn[0], 1), (f.len() as i64, 1)]);
        out.extend(f);
    }
    out
}

pub fn call(op: u64, a: &Parts, b: &Parts, n: usize) -> Told {
    let mut lent = Lent::default();
    let number = raw(op, a, b, n, &mut lent);
    let status = number % 16;
    if status != 0 {
        let all = [lent.qn, lent.qd, lent.rn, lent.rd];
        assert!(all.iter().flatten().all(|&x| x == UNTOUCHED), "a refusal wrote to lent memory");
        return Told { status, steps: number / 16, first: vec![], second: vec![] };
    }
    if op == FACTOR || op == DECOMPOSITION {
        return Told { status, steps: 0, first: factors(op, a, n, number / 16), second: vec![] };
    }
    if op == ROOTS {
        let first = (0..lent.rn[0] as usize).map(|i| (lent.qn[i], lent.qd[i])).collect();
        return Told { status, steps: number / 16, first, second: vec![] };
    }
    Told { status, steps: number / 16, first: terms(&lent.qn, &lent.qd), second: terms(&lent.rn, &lent.rd) }
}

/// A single rational step: its status and its fraction.
pub fn step(op: u64, a: (i64, i64), b: (i64, i64)) -> Result<(i64, i64), u64> {
    let mut out = [UNTOUCHED; 2];
    let status = unsafe { kanrosuye_step(op, a.0, a.1, b.0, b.1, &mut out) };
    if status != 0 {
        assert!(out == [UNTOUCHED; 2], "a refusal wrote to lent memory");
        return Err(status);
    }
    Ok((out[0], out[1]))
}

// ---- floats, real roots, expressions

#[link(name = "calls_real", kind = "static")]
unsafe extern "C" {
    fn kanrosuye_to_float(n: i64, d: i64, out: *mut [f64; 1]) -> u64;
    fn kanrosuye_to_ratio(v: f64, out: *mut [i64; 2]) -> u64;
    fn kanrosuye_count(an: *const i64, an_len: usize, ad: *const i64, ad_len: usize, lo: f64, hi: f64) -> u64;
    fn kanrosuye_isolate(
        an: *const i64,
        an_len: usize,
        ad: *const i64,
        ad_len: usize,
        lo: f64,
        hi: f64,
        tol: f64,
        out: *mut [f64; 64],
    ) -> u64;
    fn kanrosuye_lower(text: *const u8, len: usize, wrt: u64, nums: *mut [i64; 32], dens: *mut [i64; 32]) -> u64;
    fn kanrosuye_to_lowered(
        an: *const i64,
        an_len: usize,
        ad: *const i64,
        ad_len: usize,
        wrt: u64,
        out: *mut u8,
        out_len: usize,
    ) -> u64;
}

/// A lent float that nobody writes: no answer has this pattern.
const UNTOUCHED_FLOAT: u64 = 0x7ffa_5a5a_5a5a_5a5a;

fn untouched() -> f64 {
    f64::from_bits(UNTOUCHED_FLOAT)
}

pub fn to_float(f: (i64, i64)) -> Result<f64, u64> {
    let mut out = [untouched()];
    let status = unsafe { kanrosuye_to_float(f.0, f.1, &mut out) };
    if status != 0 {
        assert!(out[0].to_bits() == UNTOUCHED_FLOAT, "a refusal wrote to lent memory");
        return Err(status);
    }
    Ok(out[0])
}

pub fn to_ratio(v: f64) -> Result<(i64, i64), u64> {
    let mut out = [UNTOUCHED; 2];
    let status = unsafe { kanrosuye_to_ratio(v, &mut out) };
    if status != 0 {
        assert!(out == [UNTOUCHED; 2], "a refusal wrote to lent memory");
        return Err(status);
    }
    Ok((out[0], out[1]))
}

pub fn count(a: &Parts, lo: f64, hi: f64) -> Result<u64, u64> {
    let number = unsafe { kanrosuye_count(a.nums.as_ptr(), a.nums.len(), a.dens.as_ptr(), a.dens.len(), lo, hi) };
    if number % 16 == 0 { Ok(number / 16) } else { Err(number % 16) }
}

/// The number handed back: 16 times how many roots there are, plus the status.
pub fn raw_isolate(a: &Parts, lo: f64, hi: f64, tol: f64, out: &mut [f64; 64]) -> u64 {
    unsafe { kanrosuye_isolate(a.nums.as_ptr(), a.nums.len(), a.dens.as_ptr(), a.dens.len(), lo, hi, tol, out) }
}

pub fn isolate(a: &Parts, lo: f64, hi: f64, tol: f64) -> Result<Vec<f64>, u64> {
    let mut out = [untouched(); 64];
    let number = raw_isolate(a, lo, hi, tol, &mut out);
    let (len, status) = ((number / 16) as usize, number % 16);
    if status != 0 {
        assert!(out.iter().all(|x| x.to_bits() == UNTOUCHED_FLOAT), "a refusal wrote to lent memory");
        return Err(status);
    }
    assert!(out[len..].iter().all(|x| x.to_bits() == 0), "unused places hold zeros");
    Ok(out[..len].to_vec())
}

/// The number handed back; the coefficients go to lent memory.
pub fn raw_lower(text: &[u8], wrt: u64, nums: &mut [i64; 32], dens: &mut [i64; 32]) -> u64 {
    unsafe { kanrosuye_lower(text.as_ptr(), text.len(), wrt, nums, dens) }
}

pub fn lower(text: &[u8], wrt: u64) -> Result<Vec<(i64, i64)>, u64> {
    let (mut nums, mut dens) = ([UNTOUCHED; 32], [UNTOUCHED; 32]);
    let number = raw_lower(text, wrt, &mut nums, &mut dens);
    if number % 16 != 0 {
        assert!(nums == [UNTOUCHED; 32] && dens == [UNTOUCHED; 32], "a refusal wrote to lent memory");
        return Err(number % 16);
    }
    assert!(number == 0, "an expression has no steps");
    let l = terms(&nums, &dens);
    assert!((l.len()..32).all(|i| (nums[i], dens[i]) == (0, 1)), "unused places hold 0/1");
    Ok(l)
}

/// The number handed back: 16 times the text's length, plus the status.
pub fn raw_to_lowered(a: &Parts, wrt: u64, out: &mut [u8]) -> u64 {
    unsafe { kanrosuye_to_lowered(a.nums.as_ptr(), a.nums.len(), a.dens.as_ptr(), a.dens.len(), wrt, out.as_mut_ptr(), out.len()) }
}

/// The text, on a page of so many bytes.
pub fn to_lowered(a: &Parts, wrt: u64, room: usize) -> Result<String, u64> {
    let mut out = vec![0x5a; room];
    let number = raw_to_lowered(a, wrt, &mut out);
    let (len, status) = ((number / 16) as usize, number % 16);
    assert!(out[len..].iter().all(|&b| b == 0x5a), "a byte behind the text was written");
    if status != 0 {
        assert!(len == 0, "a refusal has no text");
        return Err(status);
    }
    Ok(String::from_utf8(out[..len].to_vec()).expect("tokens are plain"))
}

// ---- jobs

#[cfg(feature = "job")]
#[link(name = "job", kind = "static")]
unsafe extern "C" {
    fn kanrosuye_job(input: *const u8, input_len: usize, out: *mut u8, out_len: usize) -> u64;
}

/// The answer's text: what was written over lent zeros.
#[cfg(feature = "job")]
pub fn job(text: &[u8]) -> Vec<u8> {
    let mut out = [0u8; 4096];
    unsafe { kanrosuye_job(text.as_ptr(), text.len(), out.as_mut_ptr(), out.len()) };
    let len = out.iter().rposition(|&b| b != 0).map_or(0, |i| i + 1);
    out[..len].to_vec()
}
