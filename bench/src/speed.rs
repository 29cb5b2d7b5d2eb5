//! How long a call takes, ours and the plain one, on the same inputs.

use std::hint::black_box;
use std::time::Instant;

use crate::inputs::kinds::with_holes;
use crate::inputs::rng::Rng;
use crate::{bridge, plain};

type Check = fn(&[u8], &mut [u8]) -> Option<usize>;

/// How many texts stand for an input, how often they are checked in a round, and how many rounds there are.
const TEXTS: usize = 64;
const TURNS: usize = 40;
const ROUNDS: usize = 101;

pub fn speed(seed: u64) {
    let mut rng = Rng::new(seed);
    println!(
        "speed, nanoseconds per call: the fastest of {ROUNDS} rounds of {} calls on {TEXTS} texts",
        TEXTS * TURNS
    );
    println!(
        "{:<40}{:>8}{:>8}{:>14}",
        "", "ours", "plain", "ours / plain"
    );
    let small = texts(&mut rng, 3);
    print_line("a page with 3 holes", times(&small));
    print_line("a page with 32 holes", times(&texts(&mut rng, 32)));
    print_line(
        "refused behind the loads, 3 holes",
        times(&with_more(&small)),
    );
    print_line("refused on the first line", times(&with_two_bars(&small)));
    println!("judged and written: the page's time, less that of the text refused behind its loads");
    for many in [1, 2, 4, 8, 16, 32] {
        let texts = texts(&mut rng, many);
        let (page, refused) = (times(&texts), times(&with_more(&texts)));
        let rest = Times {
            ours: page.ours - refused.ours,
            plain: page.plain - refused.plain,
        };
        print_line(&format!("holes: {many}, the page"), page);
        print_line(&format!("holes: {many}, judged and written"), rest);
    }
}

/// The same with a line behind the loads.
fn with_more(texts: &[Vec<u8>]) -> Vec<Vec<u8>> {
    texts
        .iter()
        .map(|text| [text, &b"x\n"[..]].concat())
        .collect()
}

/// The same with a wrong count on the first line.
fn with_two_bars(texts: &[Vec<u8>]) -> Vec<Vec<u8>> {
    texts
        .iter()
        .map(|text| [b"2", &text[1..]].concat())
        .collect()
}

/// Nanoseconds per call.
struct Times {
    ours: f64,
    plain: f64,
}

fn texts(rng: &mut Rng, holes: usize) -> Vec<Vec<u8>> {
    (0..TEXTS).map(|_| with_holes(rng, holes)).collect()
}

/// The fastest round of each, the two in turn.
fn times(texts: &[Vec<u8>]) -> Times {
    let mut ours = Vec::new();
    let mut plain = Vec::new();
    for _ in 0..ROUNDS {
        ours.push(round(texts, bridge::check));
        plain.push(round(texts, plain::check));
    }
    Times {
        ours: fastest(ours),
        plain: fastest(plain),
    }
}

fn print_line(what: &str, Times { ours, plain }: Times) {
    println!("{what:<40}{ours:>8.0}{plain:>8.0}{:>14.2}", ours / plain);
}

/// Nanoseconds per call.
fn round(texts: &[Vec<u8>], check: Check) -> f64 {
    let mut out = [0; 4096];
    let start = Instant::now();
    for _ in 0..TURNS {
        for text in texts {
            black_box(check(black_box(text), black_box(&mut out)));
        }
    }
    start.elapsed().as_nanos() as f64 / (TURNS * texts.len()) as f64
}

fn fastest(times: Vec<f64>) -> f64 {
    times.into_iter().fold(f64::INFINITY, f64::min)
}
