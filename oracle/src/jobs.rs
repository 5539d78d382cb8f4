//! Jobs as text: document 01's "The job program" written down in Rust on top of `rule` and `rule_real`, and texts to try it on, from a seed.

use crate::cases::{self, Random, lowest};
use crate::cases_real;
use crate::original::{self, Made};
use crate::ours::Parts;
use crate::rule::{self, Frac, Run};
use crate::rule_real;

/// The longest text that is read.
pub const LONGEST: usize = 4096;

/// An operation: its name, its number in the library `calls` (0 for those in `calls_real`) and its keys in order; a budget may be missing.
pub struct Op {
    pub name: &'static str,
    number: u64,
    keys: &'static [&'static str],
}

const fn op(name: &'static str, number: u64, keys: &'static [&'static str]) -> Op {
    Op { name, number, keys }
}

pub const OPS: [Op; 15] = [
    op("add", 0, &["a", "b"]),
    op("sub", 1, &["a", "b"]),
    op("mul", 2, &["a", "b"]),
    op("divide", 3, &["a", "b"]),
    op("gcd", 4, &["a", "b"]),
    op("resultant", 5, &["a", "b"]),
    op("neg", 6, &["a"]),
    op("diff", 7, &["a"]),
    op("discriminant", 8, &["a"]),
    op("roots", 9, &["a", "budget"]),
    op("factor", 10, &["a", "budget"]),
    op("rebuild", 11, &["a", "budget"]),
    op("eval", 12, &["a", "x"]),
    op("count", 0, &["a", "lo", "hi"]),
    op("isolate", 0, &["a", "lo", "hi", "tol"]),
];

// ---- reading

#[derive(Default)]
struct Job {
    a: Parts,
    b: Parts,
    x: Parts,
    budget: usize,
    lo: f64,
    hi: f64,
    tol: f64,
    long: bool,
}

/// Digits without a leading zero, up to 2^63 - 1.
fn natural(s: &str) -> Option<i64> {
    let fine = !s.is_empty() && s.bytes().all(|b| b.is_ascii_digit()) && (s == "0" || !s.starts_with('0'));
    if fine { s.parse().ok() } else { None }
}

/// n or n/d in lowest terms, d at least 2.
fn entry(s: &str) -> Option<Frac> {
    let (top, d) = match s.split_once('/') {
        Some((top, d)) => (top, natural(d).filter(|&d| d >= 2)?),
        None => (s, 1),
    };
    let n = match top.strip_prefix('-') {
        Some(size) => -natural(size).filter(|&n| n > 0)?,
        None => natural(top)?,
    };
    rule::is_lowest((n, d)).then_some((n, d))
}

/// Coefficients, and whether there are over 32 of them; `0` is the zero polynomial, and no other list has a zero at the top.
fn list(s: &str) -> Option<(Parts, bool)> {
    let l: Vec<Frac> = s.split(' ').map(entry).collect::<Option<_>>()?;
    if l == [(0, 1)] {
        return Some((Parts::default(), false));
    }
    let long = l.len() > 32;
    l.last().filter(|c| c.0 != 0).map(|_| (cases::parts(&l), long))
}

impl Job {
    fn take(&mut self, key: &str, value: &str) -> Option<()> {
        match key {
            "a" | "b" => {
                let (p, long) = list(value)?;
                self.long |= long;
                *(if key == "a" { &mut self.a } else { &mut self.b }) = p;
            }
            "x" => self.x = cases::parts(&rule::constant(entry(value)?)),
            "budget" => self.budget = natural(value).filter(|n| (1..=65536).contains(n))? as usize,
            "tol" => self.tol = rule_real::hex(value).filter(|&x| x > 0.0 && x < f64::INFINITY)?,
            _ => {
                let x = rule_real::hex(value).filter(|x| x.abs() <= 1e15)?;
                *(if key == "lo" { &mut self.lo } else { &mut self.hi }) = x;
            }
        }
        Some(())
    }
}

/// The lines behind the first one. None is 5.
fn read(op: &Op, text: &[u8]) -> Option<Job> {
    if text.len() > LONGEST {
        return None;
    }
    let mut lines = std::str::from_utf8(text).ok()?.strip_suffix('\n')?.split('\n').skip(1).peekable();
    let mut job = Job { budget: 65536, ..Job::default() };
    for key in op.keys {
        let value = |line: &&str| line.strip_prefix(key).is_some_and(|l| l.starts_with('='));
        match lines.next_if(value) {
            Some(line) => job.take(key, &line[key.len() + 1..])?,
            None if *key == "budget" => (),
            None => return None,
        }
    }
    if lines.next().is_none() { Some(job) } else { None }
}

/// The operation that the first line names.
fn named(text: &[u8]) -> Option<&'static Op> {
    let first = text.split(|&b| b == b'\n').next()?;
    OPS.iter().find(|o| first == format!("op={}", o.name).as_bytes())
}

// ---- answering

fn number(f: &Frac) -> String {
    if f.1 == 1 { f.0.to_string() } else { format!("{}/{}", f.0, f.1) }
}

fn numbers(l: &[Frac]) -> String {
    l.iter().map(number).collect::<Vec<_>>().join(" ")
}

fn poly(l: &[Frac]) -> String {
    if l.is_empty() { "0".into() } else { numbers(l) }
}

fn hex(x: f64) -> String {
    format!("{:016x}", x.to_bits())
}

fn floats(l: Vec<f64>) -> String {
    l.into_iter().map(hex).collect::<Vec<_>>().join(" ")
}

/// The content, then each factor with its multiplicity, from the list that `rule::flat` makes.
fn factors(flat: &[Frac]) -> String {
    let mut out = number(&flat[0]);
    let mut at = 1;
    while at < flat.len() {
        let end = at + 2 + flat[at + 1].0 as usize;
        out += &format!(" ; {} ^ {}", numbers(&flat[at + 2..end]), flat[at].0);
        at = end;
    }
    out
}

/// What is printed behind `out=` and `rest=`, or the refusal; the steps; and whether -2^63 was met on the way.
type Told = (Shown, u64, bool);
type Shown = Result<(String, String), u64>;

fn one(s: String) -> (String, String) {
    (s, String::new())
}

fn shown(name: &str, x: &[Frac], y: &[Frac]) -> (String, String) {
    match name {
        "divide" => (poly(x), poly(y)),
        "roots" => one(numbers(x)),
        "factor" => one(factors(x)),
        _ => one(poly(x)),
    }
}

fn second<'a>(op: &Op, job: &'a Job) -> &'a Parts {
    if op.name == "eval" { &job.x } else { &job.b }
}

fn work(op: &Op, job: &Job) -> Told {
    if job.long {
        return (Err(4), 0, false);
    }
    let mut run = Run::default();
    match op.name {
        "count" => (rule_real::count(&mut run, &job.a, job.lo, job.hi).map(|n| one(n.to_string())), 0, run.least),
        "isolate" => (rule_real::isolate(&mut run, &job.a, job.lo, job.hi, job.tol).map(|l| one(floats(l))), 0, run.least),
        name => {
            let (answer, run) = rule::answer(op.number, &job.a, second(op, job), job.budget);
            (answer.map(|(x, y)| shown(name, &x, &y)), run.steps, run.least)
        }
    }
}

fn work_of_original(op: &Op, job: &Job) -> Shown {
    match op.name {
        "count" => original::count(&job.a, job.lo, job.hi).map(|n| one(n.to_string())),
        "isolate" => original::isolate(&job.a, job.lo, job.hi, job.tol).map(|l| one(floats(l))),
        name => match original::call(op.number, &job.a, second(op, job), job.budget) {
            Made::Answer(x, y) => Ok(shown(name, &x, &y)),
            Made::Refused(s) => Err(s),
            Made::Panicked => Err(original::PANICKED),
        },
    }
}

fn written(op: &Op, told: Shown, steps: u64) -> String {
    let counted = matches!(op.name, "divide" | "gcd" | "resultant" | "discriminant");
    let steps = if counted { steps.to_string() } else { String::new() };
    let status = told.as_ref().err().copied().unwrap_or(0);
    let (out, rest) = told.unwrap_or_default();
    format!("op={}\nstatus={status}\nout={out}\nrest={rest}\nsteps={steps}\n", op.name)
}

/// The answer to a job, as document 01 has it.
pub fn answer(text: &[u8]) -> String {
    let Some(op) = named(text) else { return "op=?\nstatus=5\nout=\nrest=\nsteps=\n".into() };
    let (told, steps, _) = read(op, text).map_or((Err(5), 0, false), |job| work(op, &job));
    written(op, told, steps)
}

/// The original behind the same reading and writing, inside the domain of equality; it counts no steps, so that these are document 01's.
pub fn answer_in_domain(text: &[u8]) -> Option<String> {
    let op = named(text)?;
    let job = read(op, text)?;
    let (told, steps, least) = work(op, &job);
    if least || matches!(told, Err(4..=8)) {
        return None;
    }
    Some(written(op, work_of_original(op, &job), steps))
}

/// The original alone, for the measurement, on jobs that it can answer.
pub fn answer_of_original(text: &[u8]) -> String {
    match named(text).and_then(|op| read(op, text).map(|job| (op, job))) {
        Some((op, job)) => written(op, work_of_original(op, &job), 0),
        None => answer(text),
    }
}

/// The status that an answer prints, and the operation.
pub fn status(answer: &str) -> (String, usize) {
    let mut lines = answer.lines();
    let op = lines.next().and_then(|l| l.strip_prefix("op=")).unwrap_or("?").to_string();
    (op, lines.next().and_then(|l| l.strip_prefix("status=")).and_then(|s| s.parse().ok()).unwrap_or(9))
}

// ---- texts

fn poly_text(p: &Parts) -> String {
    poly(&rule::fracs(p))
}

/// A line of a well-spelt job, without its newline.
fn line(r: &mut Random, o: &Op, key: &str, related: &(Parts, Parts)) -> String {
    let most = match o.name {
        "add" | "sub" | "neg" | "diff" | "divide" | "eval" => 32,
        "mul" | "gcd" => 12,
        _ => 7,
    };
    let style = r.below(8);
    let value = match key {
        "a" if matches!(o.name, "count" | "isolate") => poly_text(&canonical(cases_real::with_roots(r))),
        "a" if style == 0 => poly_text(&related.0),
        "b" if style < 3 => poly_text(&related.1),
        "a" | "b" => poly_text(&r.poly(style, most)),
        "x" => number(&r.fraction(style)),
        "budget" => [1, 2, 4096, 65535, 65536][r.below(5) as usize].to_string(),
        "tol" => hex(cases_real::tolerance(r)),
        _ => {
            let (lo, hi) = cases_real::interval(r);
            hex(if key == "lo" { lo } else { hi })
        }
    };
    format!("{key}={value}")
}

/// Text holds canonical lists only; others are left to the damages.
fn canonical(p: Parts) -> Parts {
    if rule::door(&p.nums, &p.dens) == 0 { p } else { Parts::default() }
}

/// The lines of a well-spelt job. Its floats may lie outside their limits.
fn lines(r: &mut Random) -> Vec<String> {
    let o = &OPS[r.below(15) as usize];
    let related = cases::related(r);
    let mut all = vec![format!("op={}", o.name)];
    for key in o.keys {
        if *key != "budget" || r.below(2) == 0 {
            all.push(line(r, o, key, &related));
        }
    }
    all
}

fn joined(lines: &[String]) -> Vec<u8> {
    lines.iter().flat_map(|l| [l.as_bytes(), b"\n"].concat()).collect()
}

pub fn valid(r: &mut Random) -> Vec<u8> {
    joined(&lines(r))
}

/// Values that are no list: wrong spellings, entries out of the range, a zero at the top.
const BAD_LISTS: [&str; 36] = [
    "", " ", "0 0", "1 0", "0/2", "3/1", "2/4", "-2/4", "01", "+1", "-0", "--1", "-", "1/", "/2", "1/0", "1/-2", "1/02", "0/1", "1//2", "1/2/3", "1  2", " 1", "1 ",
    "1\t2", "1,2", "1e3", "0x1", "1.0", "9223372036854775808", "-9223372036854775808", "1/9223372036854775808", "99999999999999999999", "1 \u{2212}1", "1\0", "1\r",
];

const BAD_FLOATS: [&str; 18] = [
    "", "3ff", "3FF0000000000000", "3ff00000000000000", "3ff000000000000", "3ff000000000000g", " 3ff0000000000000", "3ff0000000000000 ", "7ff0000000000000",
    "fff0000000000000", "7ff8000000000000", "fff8000000000001", "430c6bf526340001", "c30c6bf526340001", "0x3ff00000000000", "1.0", "-3ff000000000000", "3ff0000000000000\r",
];

const BAD_BUDGETS: [&str; 11] = ["", "0", "65537", "01", "+1", "-1", " 1", "1 ", "1e3", "99999999999999999999", "1/1"];

const BAD_FIRST: [&str; 16] = [
    "", "op", "op=", "op=GCD", "op=gcd ", " op=gcd", "op= gcd", "op=gcdx", "Op=gcd", "a=1", "op==gcd", "op=gcd\r", "op=pow", "op=?", "op:gcd", "op=add sub",
];

/// One of the well-spelt lists, of 32, 33 or more entries, some with a bad one behind the 32nd or a zero at the top.
fn long_list(r: &mut Random) -> String {
    let n = [31, 32, 33, 34, 64, 200][r.below(6) as usize];
    let mut l = vec![["1", "-7/3", "0"][r.below(3) as usize]; n];
    l[n - 1] = ["1", "1", "-1/2", "0"][r.below(4) as usize];
    if r.below(4) == 0 {
        let at = r.below(n as u64) as usize;
        l[at] = ["2/4", "x", "", "9223372036854775808"][r.below(4) as usize];
    }
    l.join(" ")
}

/// Puts a value in the place of the one of the first line with one of these keys; if there is none, of the last line.
fn with_value(all: &mut [String], keys: &[&str], value: &str) {
    let of = |l: &String| keys.iter().any(|k| l.strip_prefix(k).is_some_and(|l| l.starts_with('=')));
    let at = all.iter().position(of).unwrap_or(all.len() - 1);
    let key = all[at].split('=').next().unwrap_or("a").to_string();
    all[at] = format!("{key}={value}");
}

fn pick(r: &mut Random, l: &[&'static str]) -> &'static str {
    l[r.below(l.len() as u64) as usize]
}

/// A well-spelt job with one thing wrong, most of the time.
pub fn damaged(r: &mut Random) -> Vec<u8> {
    let mut all = lines(r);
    match r.below(4) {
        0 => return damaged_bytes(r, joined(&all)),
        1 => damage_order(r, &mut all),
        _ => damage_value(r, &mut all),
    }
    joined(&all)
}

/// A wrong value: a spelling, a limit, a length.
fn damage_value(r: &mut Random, all: &mut Vec<String>) {
    let first: &[&str] = if r.below(2) == 0 { &["a"] } else { &["b", "x"] };
    match r.below(9) {
        0 => with_value(all, first, pick(r, &BAD_LISTS)),
        1 => with_value(all, &["lo"], pick(r, &BAD_FLOATS)),
        2 => with_value(all, &["tol", "hi"], pick(r, &BAD_FLOATS)),
        3 => with_value(all, &["tol"], &hex([0.0, -0.0, -1.0, 5e-324, f64::MAX][r.below(5) as usize])),
        4 => {
            *all = vec![format!("op={}", pick(r, &["roots", "factor", "rebuild", "neg", "gcd"])), "a=6 5 1".into()];
            all.push(format!("budget={}", pick(r, &BAD_BUDGETS)));
        }
        5 => with_value(all, first, &long_list(r)),
        6 => {
            // both lists too long, or one and a bad one
            with_value(all, &["a"], &long_list(r));
            with_value(all, &["b", "x"], &if r.below(2) == 0 { long_list(r) } else { pick(r, &BAD_LISTS).into() });
        }
        7 => all[0] = pick(r, &BAD_FIRST).into(),
        _ => {
            let f = lowest((r.within(1, 9), r.within(1, 9)));
            with_value(all, &["x", "a"], &format!("{}/{}", f.0 * 2, f.1 * 2));
        }
    }
}

/// A line that is missing, doubled, moved, added, or has another key.
fn damage_order(r: &mut Random, all: &mut Vec<String>) {
    let n = all.len() as u64;
    let (at, other) = (r.below(n) as usize, r.below(n) as usize);
    match r.below(7) {
        0 => all.push(format!("budget={}", r.within(1, 65536))),
        1 => {
            all.remove(at);
        }
        2 => all.insert(at, all[at].clone()),
        3 => all.swap(at, other),
        4 => all.push(pick(r, &["", "x=1", "a=1", "#", " ", "tol=3ff0000000000000"]).into()),
        5 => all[at] = all[at].replacen('=', pick(r, &[" =", "= ", "==", ":", ""]), 1),
        _ => all[at] = format!("{}{}", pick(r, &["c", "A", " ", "aa", "\0"]), &all[at][1..]),
    }
}

/// Bytes that are missing, changed, added; lengths around 4,096.
fn damaged_bytes(r: &mut Random, mut text: Vec<u8>) -> Vec<u8> {
    let at = r.below(text.len() as u64) as usize;
    match r.below(8) {
        0 => {
            text.pop();
        }
        1 => text.truncate(at),
        2 => text[at] = r.below(256) as u8,
        3 => text.insert(at, b" \n=0/-\r\t"[r.below(8) as usize]),
        4 => {
            // a list of ones, well spelt
            let want = LONGEST + r.below(4) as usize - 1;
            text = b"op=neg\na=".to_vec();
            while text.len() + 3 < want {
                text.extend(b"1 ");
            }
            text.extend(if text.len() + 2 == want { "1\n" } else { "11\n" }.bytes());
        }
        5 => return vec![b'1'; [0, 1, 4095, 4096, 4097, 5000][r.below(6) as usize]],
        6 => text.resize(LONGEST + 1 + r.below(10) as usize, b'\n'),
        _ => return text.into_iter().flat_map(|b| if b == b'\n' { vec![b'\r', b'\n'] } else { vec![b] }).collect(),
    }
    text
}

/// Small jobs of every operation, exhaustively; the texts that document 01 prints; and every wrong value on its own.
pub fn small() -> Vec<Vec<u8>> {
    let lists: Vec<String> = cases::short(2).iter().map(poly_text).collect();
    let ends = [-3.0, -0.0, 1.0, 1e15].map(hex);
    let mut all = vec![b"op=gcd\na=-1 0 1\nb=2 -3 1\n".to_vec(), b"op=gcd".to_vec(), b"op=gcd\n".to_vec(), vec![], b"\n".to_vec()];
    let mut push = |lines: &[String]| all.push(joined(lines));
    for o in &OPS {
        for a in &lists {
            let head = [format!("op={}", o.name), format!("a={a}")];
            match o.keys {
                ["a", "b"] => lists.iter().for_each(|b| push(&[head.as_slice(), &[format!("b={b}")]].concat())),
                ["a", "x"] => ["0", "1", "-1/2", "3037000499", "3037000500"].iter().for_each(|x| push(&[head.as_slice(), &[format!("x={x}")]].concat())),
                ["a"] => push(&head),
                ["a", "budget"] => {
                    push(&head);
                    ["1", "2", "65536"].iter().for_each(|n| push(&[head.as_slice(), &[format!("budget={n}")]].concat()));
                }
                _ => {
                    for lo in &ends {
                        for hi in &ends {
                            let mut l = [head.as_slice(), &[format!("lo={lo}"), format!("hi={hi}")]].concat();
                            if o.name == "isolate" {
                                l.push(format!("tol={}", hex(1e-6)));
                            }
                            push(&l);
                        }
                    }
                }
            }
        }
        for bad in BAD_LISTS {
            push(&[format!("op={}", o.name), format!("a={bad}"), "b=1".into()]);
            push(&[format!("op={}", o.name), "a=1".into(), format!("b={bad}")]);
            push(&[format!("op={}", o.name), format!("a={bad}")]);
        }
    }
    for bad in BAD_FLOATS {
        for key in ["lo", "hi", "tol"] {
            let of = |k: &str| format!("{k}={}", if k == key { bad } else { "3ff0000000000000" });
            push(&["op=isolate".into(), "a=1 1".into(), of("lo"), of("hi"), of("tol")]);
        }
    }
    for bad in BAD_BUDGETS {
        push(&["op=roots".into(), "a=1 1".into(), format!("budget={bad}")]);
    }
    for bad in BAD_FIRST {
        push(&[bad.into(), "a=1".into(), "b=1".into()]);
    }
    all
}
