//! Reads and writes a million mixed decimals by `fluent_number` and by Rust's `f64`, and prints how long each took.

#[path = "../../syntax/src/clock.rs"]
mod clock;

use clock::timed;
use std::hint::black_box;
use std::time::Duration;

const COUNT: usize = 1_000_000;
const ROUNDS: usize = 15;

#[repr(C)]
#[derive(Clone, Copy, Default)]
struct PlainNumber {
    whole: u64,
    fraction: u64,
    digits: usize,
    has_digits: bool,
    negative: bool,
}

unsafe extern "C" {
    fn fluent_number_read(text: *const u8, len: usize, number: *mut PlainNumber) -> bool;
    fn fluent_number_write(number: *const PlainNumber, buffer: *mut u8, len: usize) -> usize;
}

fn read(text: &str, number: &mut PlainNumber) -> bool {
    // The text is UTF-8, and text and number live through the call.
    unsafe { fluent_number_read(text.as_ptr(), text.len(), number) }
}

fn write<'b>(number: &PlainNumber, buffer: &'b mut [u8; 64]) -> &'b [u8] {
    // Number and buffer live through the call.
    let len = unsafe { fluent_number_write(number, buffer.as_mut_ptr(), buffer.len()) };
    &buffer[..len]
}

/// The next number of a simple generator, below `below`.
fn next(state: &mut u64, below: u64) -> u64 {
    *state = state
        .wrapping_mul(6_364_136_223_846_793_005)
        .wrapping_add(1_442_695_040_888_963_407);
    (*state >> 33) % below
}

/// Counts, prices, measures and long fractions, with and without a sign.
fn texts() -> Vec<String> {
    let mut state = 2026;
    (0..COUNT)
        .map(|_| {
            let sign = if next(&mut state, 4) == 0 { "-" } else { "" };
            match next(&mut state, 4) {
                0 => format!("{sign}{}", next(&mut state, 1_000)),
                1 => format!(
                    "{sign}{}.{:02}",
                    next(&mut state, 100_000),
                    next(&mut state, 100)
                ),
                2 => format!(
                    "{sign}{}.{}",
                    next(&mut state, 10_000),
                    next(&mut state, 1_000_000)
                ),
                _ => format!(
                    "{sign}{}.{:07}{:07}",
                    next(&mut state, 10),
                    next(&mut state, 10_000_000),
                    next(&mut state, 10_000_000)
                ),
            }
        })
        .collect()
}

/// The best times of both in some rounds, in which each has its turn.
fn best(mut ours: impl FnMut(), mut rust: impl FnMut()) -> (Duration, Duration) {
    let rounds = (0..ROUNDS).map(|_| (timed(&mut ours), timed(&mut rust)));
    rounds
        .reduce(|best, round| (best.0.min(round.0), best.1.min(round.1)))
        .unwrap_or_default()
}

/// Prints the time of a text by both, and the ratio: Rust's time by ours.
fn report(what: &str, (ours, rust): (Duration, Duration)) {
    let nanoseconds = |time: Duration| time.as_nanos() as f64 / COUNT as f64;
    println!(
        "{what}: {:.1} ns by fluent_number, {:.1} ns by f64, ratio {:.2}",
        nanoseconds(ours),
        nanoseconds(rust),
        rust.as_secs_f64() / ours.as_secs_f64()
    );
}

fn main() {
    let texts = texts();
    let numbers: Vec<PlainNumber> = texts
        .iter()
        .map(|text| {
            let mut number = PlainNumber::default();
            assert!(read(text, &mut number), "{text}");
            number
        })
        .collect();
    let floats: Vec<f64> = texts
        .iter()
        .map(|text| text.parse().expect("a float"))
        .collect();
    let mut buffer = [0; 64];
    for (text, number) in texts.iter().zip(&numbers) {
        let written = write(number, &mut buffer);
        assert!(
            written == text.as_bytes() || text.starts_with("-0"),
            "{text}"
        );
    }

    let mut number = PlainNumber::default();
    let reading = best(
        || {
            for text in &texts {
                black_box(read(black_box(text), &mut number));
                black_box(&number);
            }
        },
        || {
            for text in &texts {
                let _ = black_box(black_box(text).parse::<f64>());
            }
        },
    );
    report("read", reading);

    let writing = best(
        || {
            for number in &numbers {
                black_box(write(black_box(number), &mut buffer));
            }
        },
        || {
            for float in &floats {
                black_box(black_box(float).to_string());
            }
        },
    );
    report("write", writing);
}
