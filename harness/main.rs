//! Compares the proved library with whole numbers by Rust's own integers, and times it beside hand-written Rust.

mod draws;
mod wide;

use draws::{Draws, LISTS, PAIRS};
use std::hint::black_box;
use std::time::Instant;
use wide::{BINARY32, BINARY64, Format};

#[link(name = "exports", kind = "static")]
unsafe extern "C" {
    safe fn gatimbol_add64(a: u64, b: u64, rest: &mut u64) -> u64;
    safe fn gatimbol_add32(a: u64, b: u64, rest: &mut u64) -> u64;
    fn gatimbol_read64(patterns: *const u64, count: usize) -> u64;
    fn gatimbol_read32(patterns: *const u64, count: usize) -> u64;
    fn gatimbol_slips64(patterns: *const u64, count: usize) -> u64;
}

const PAIRS_EACH: usize = 400_000;
const LISTS_EACH: usize = 20_000;

// How many of these are timed, and how often; the least time counts.
const PAIRS_TIMED: usize = 50_000;
const LISTS_TIMED: usize = 500;
const ROUNDS: usize = 9;

type Adder = fn(u64, u64) -> (u64, u64);
type Reader = fn(&[u64]) -> u64;

fn add64(a: u64, b: u64) -> (u64, u64) {
    let mut rest = 0;
    (gatimbol_add64(a, b, &mut rest), rest)
}

fn add32(a: u64, b: u64) -> (u64, u64) {
    let mut rest = 0;
    (gatimbol_add32(a, b, &mut rest), rest)
}

fn read64(patterns: &[u64]) -> u64 {
    // SAFETY: the pointer and the length are a slice's.
    unsafe { gatimbol_read64(patterns.as_ptr(), patterns.len()) }
}

fn read32(patterns: &[u64]) -> u64 {
    // SAFETY: the pointer and the length are a slice's.
    unsafe { gatimbol_read32(patterns.as_ptr(), patterns.len()) }
}

fn slips64(patterns: &[u64]) -> u64 {
    // SAFETY: the pointer and the length are a slice's.
    unsafe { gatimbol_slips64(patterns.as_ptr(), patterns.len()) }
}

// The six-operation sum on the machine's floats. It knows no range, and has negative zeros.
#[inline(never)]
fn float_sum64(a: u64, b: u64) -> (u64, u64) {
    let (a, b) = (f64::from_bits(a), f64::from_bits(b));
    let s = a + b;
    let t = s - a;
    let r = (a - (s - t)) + (b - t);
    (s.to_bits(), r.to_bits())
}

#[inline(never)]
fn float_sum32(a: u64, b: u64) -> (u64, u64) {
    let (a, b) = (f32::from_bits(a as u32), f32::from_bits(b as u32));
    let s = a + b;
    let t = s - a;
    let r = (a - (s - t)) + (b - t);
    (s.to_bits() as u64, r.to_bits() as u64)
}

#[inline(never)]
fn plain_read64(patterns: &[u64]) -> u64 {
    BINARY64.read(patterns, usize::MAX)
}

#[inline(never)]
fn plain_read32(patterns: &[u64]) -> u64 {
    BINARY32.read(patterns, usize::MAX)
}

#[inline(never)]
fn plain_slips64(patterns: &[u64]) -> u64 {
    BINARY64.read(patterns, 63)
}

// The least time of some rounds for each of two tasks in turn, in ns for each of so many calls.
fn timed(calls: usize, mut one: impl FnMut(), mut other: impl FnMut()) -> (f64, f64) {
    let mut least = (f64::MAX, f64::MAX);
    for _ in 0..ROUNDS {
        let start = Instant::now();
        one();
        least.0 = least
            .0
            .min(start.elapsed().as_nanos() as f64 / calls as f64);
        let start = Instant::now();
        other();
        least.1 = least
            .1
            .min(start.elapsed().as_nanos() as f64 / calls as f64);
    }
    least
}

fn row(family: &str, compared: usize, agree: usize, (ours, theirs): (f64, f64)) {
    println!(
        "  {family:<22}{compared:>10}{agree:>10}{ours:>10.1}{theirs:>10.1}{:>8.1}",
        ours / theirs
    );
}

fn head(title: &str, baseline: &str) {
    println!("{title}; baseline: {baseline}");
    println!(
        "  {:<22}{:>10}{:>10}{:>10}{:>10}{:>8}",
        "family", "compared", "agree", "ns ours", "baseline", "ratio"
    );
}

// Compares and times an adder; answers how many pairs disagree.
fn adder(f: &Format, ours: Adder, floats: Adder) -> usize {
    head(
        &format!("adder {}, ns a call", f.name),
        "six float operations",
    );
    let (mut wrong, mut alike) = (0, 0);
    let mut d = Draws(f.digits as u64);
    for (family, draw) in PAIRS {
        let pairs: Vec<_> = (0..PAIRS_EACH).map(|_| draw(&mut d, f)).collect();
        let mut agree = 0;
        for &(a, b) in &pairs {
            let expected = f.sum(a, b);
            agree += (ours(a, b) == expected) as usize;
            alike += (floats(a, b) == expected) as usize;
        }
        let all = |add: Adder| {
            for &(a, b) in &pairs[..PAIRS_TIMED] {
                black_box(add(black_box(a), black_box(b)));
            }
        };
        row(
            family,
            pairs.len(),
            agree,
            timed(PAIRS_TIMED, || all(ours), || all(floats)),
        );
        wrong += pairs.len() - agree;
    }
    println!(
        "  the float operations agree on {alike} of {} pairs",
        PAIRS.len() * PAIRS_EACH
    );
    wrong
}

// Compares and times what accounts read after up to `most` posts; answers how many readings disagree.
fn account(title: &str, f: &Format, most: usize, ours: Reader, plain: Reader) -> usize {
    head(
        &format!(
            "{title} {}, up to {most} posts and a reading, ns a post",
            f.name
        ),
        "a loop over whole numbers",
    );
    let mut wrong = 0;
    let mut d = Draws(most as u64 + f.digits as u64);
    for (family, draw) in LISTS {
        let mut agree = 0;
        let mut kept = Vec::new();
        for _ in 0..LISTS_EACH {
            let n = d.below(most as u64 + 1) as usize;
            let list = draw(&mut d, f, n);
            agree += (ours(&list) == plain(&list)) as usize;
            if kept.len() < LISTS_TIMED {
                kept.push(list);
            }
        }
        let posts = kept.iter().map(Vec::len).sum();
        let all = |read: Reader| {
            for list in &kept {
                black_box(read(black_box(list)));
            }
        };
        row(
            family,
            LISTS_EACH,
            agree,
            timed(posts, || all(ours), || all(plain)),
        );
        wrong += LISTS_EACH - agree;
    }
    wrong
}

fn main() {
    println!(
        "The proved library is compared with exact sums by Rust's u64 and u128, rounded from scratch."
    );
    let wrong = adder(&BINARY64, add64, float_sum64)
        + adder(&BINARY32, add32, float_sum32)
        + account("register account", &BINARY64, 1000, read64, plain_read64)
        + account("register account", &BINARY32, 1000, read32, plain_read32)
        + account("slips", &BINARY64, 80, slips64, plain_slips64);
    println!("{wrong} disagree");
    assert!(wrong == 0);
}
