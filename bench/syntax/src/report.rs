//! How long both take over a text, and how much memory they need.

use crate::texts::Text;
use crate::{clock, compare, counts, memory, written_len, Call, Maker};
use std::hint::black_box;
use std::time::Duration;

/// Times of `fluent_c` and of the Rust crate.
#[derive(Clone, Copy)]
struct Times {
    ours: Duration,
    rust: Duration,
}

impl Times {
    fn less(self, part: Times) -> Times {
        Times {
            ours: self.ours.saturating_sub(part.ours),
            rust: self.rust.saturating_sub(part.rust),
        }
    }
}

/// The best time of each call in some rounds, in which each has its turn: forward, then backward, since who comes first
/// finds less of the text in the processor's caches.
fn best<const N: usize>(text: &[u8], calls: [&dyn Fn(); N]) -> [Duration; N] {
    let rounds = (100_000_000 / text.len().max(1)).clamp(3, 60);
    let mut best = [Duration::MAX; N];
    let mut turns: Vec<_> = best.iter_mut().zip(calls).collect();
    for _ in 0..rounds {
        for (best, call) in &mut turns {
            **best = clock::timed(*call).min(**best);
        }
        turns.reverse();
    }
    best
}

/// What is timed over a text, and its times. The calls of `fluent_c` keep no tree from call to call, so writing is the
/// difference of two of them; the Rust crate's is taken in the same way.
fn time(text: &[u8]) -> [(&'static str, Times); 4] {
    let read = |maker, call| move || _ = black_box(counts(maker, call, black_box(text)));
    let write = |maker| move || _ = black_box(written_len(maker, black_box(text)));
    let best = best(
        text,
        [
            &read(Maker::Ours, Call::Parse),
            &read(Maker::Rust, Call::Parse),
            &read(Maker::Ours, Call::ParseRuntime),
            &read(Maker::Rust, Call::ParseRuntime),
            &write(Maker::Ours),
            &write(Maker::Rust),
        ],
    );
    let times = |ours, rust| Times { ours, rust };
    let parse = times(best[0], best[1]);
    let parse_and_write = times(best[4], best[5]);
    [
        (Call::Parse.name(), parse),
        (Call::ParseRuntime.name(), times(best[2], best[3])),
        ("parse and write", parse_and_write),
        (
            "write (parse and write, less parse)",
            parse_and_write.less(parse),
        ),
    ]
}

fn milliseconds(time: Duration) -> f64 {
    time.as_secs_f64() * 1000.0
}

/// Prints the times over a text, and how they grow from half of it.
fn print_times(name: &str, what: &str, whole: &[u8], times: Times, half: Option<Times>) {
    let growth = half.map(|half| {
        let growth = |whole: Duration, half: Duration| whole.as_secs_f64() / half.as_secs_f64();
        format!(
            ", growth {:.2} and {:.2}",
            growth(times.ours, half.ours),
            growth(times.rust, half.rust)
        )
    });
    println!(
        "{name}: {what} of {:.1} MB: {:.2} ms by fluent_c, {:.2} ms by Rust, Rust/fluent_c {:.2}{}",
        whole.len() as f64 / 1e6,
        milliseconds(times.ours),
        milliseconds(times.rust),
        times.rust.as_secs_f64() / times.ours.as_secs_f64(),
        growth.unwrap_or_default()
    );
}

/// Prints the times of reading and of writing a text, how they grow from half of it, and the peaks of memory.
pub fn report(text: &Text) {
    let name = text.name();
    let whole = text.whole();
    let half = text.half();
    compare::tell_differences(name, &whole);
    let half = half.as_deref().map(time);
    for (index, (what, times)) in time(&whole).into_iter().enumerate() {
        print_times(name, what, &whole, times, half.map(|half| half[index].1));
    }
    for task in ["parse", "write"] {
        let peak = |maker| {
            memory::peak_of_child(maker, task, text.argument())
                .map_or("?".to_owned(), |kilobytes| {
                    format!("{:.1} MB", kilobytes as f64 / 1024.0)
                })
        };
        println!(
            "{name}: peak memory of {task} beside the text {} by fluent_c, {} by Rust",
            peak("ours"),
            peak("rust")
        );
    }
}
