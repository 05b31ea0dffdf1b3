//! What programs do, by this repository's package for Rust and by the crate fluent-bundle.
//!
//!     bindings [FOLDER]
//!     bindings ours|theirs WORK STEPS [FOLDER]
//!     bindings works
//!
//! The first call prints for each work the least time of some rounds and the ratio: above 1 ours is faster. The second does
//! one work, so many times, for who counts its instructions, and the third lists the works. FOLDER has the files of the work `files`.

// It lies next to this file when measure.py builds it, and in bench/syntax/src otherwise.
mod clock;
mod works;

use clock::timed;
use std::hint::black_box;
use std::path::Path;
use std::process::ExitCode;
use std::time::{Duration, Instant};
use std::{env, fs, io};

const ROUNDS: usize = 7;

/// How often a round does a work.
const TIMES: usize = 50_000;

/// How many threads share a bundle, and how many texts each asks for in a round.
const THREADS: usize = 8;
const TEXTS_EACH: usize = 25_000;

/// How many short resources are added, of how many messages each.
const RESOURCES: usize = 228;
const MESSAGES_EACH: usize = 50;

/// Ids that differ in two letters, as those of languages do.
fn ids() -> Vec<String> {
    let letters = || 'a'..='z';
    letters().flat_map(|first| letters().map(move |second| format!("language-name-{first}{second}"))).collect()
}

/// The sources of short resources.
fn short_sources() -> Vec<String> {
    let message = |resource: usize, number: usize| format!("message-{resource}-{number} = The text of {{ $name }}.\n");
    (0..RESOURCES).map(|resource| (0..MESSAGES_EACH).map(|number| message(resource, number)).collect()).collect()
}

/// The sources in a folder and those below it, in the order of their paths.
fn sources_in(folder: &Path) -> io::Result<Vec<String>> {
    let mut paths = fs::read_dir(folder)?.map(|entry| Ok(entry?.path())).collect::<io::Result<Vec<_>>>()?;
    paths.sort();
    let mut sources = Vec::new();
    for path in paths {
        if path.is_dir() {
            sources.extend(sources_in(&path)?);
        } else if path.extension().is_some_and(|extension| extension == "ftl") {
            sources.push(fs::read_to_string(&path)?);
        }
    }
    Ok(sources)
}

/// The least of some rounds, for one of this many steps.
fn least(steps: usize, mut round: impl FnMut() -> Duration) -> f64 {
    let least = (0..ROUNDS).map(|_| round()).min().unwrap_or_default();
    least.as_nanos() as f64 / steps as f64
}

/// What both crates do, and the name under which it is asked for.
struct Work {
    name: &'static str,
    /// Does it so many times, and returns the last text.
    ours: fn(&[String], usize) -> String,
    theirs: fn(&[String], usize) -> String,
    needs: Needs,
}

/// What a work is done with.
#[derive(Clone, Copy, PartialEq)]
enum Needs {
    Nothing,
    ShortSources,
    Folder,
    Threads,
}

impl Work {
    /// Prints how long one step takes by both.
    fn report(&self, sources: &[String]) {
        let (steps, in_round) = match self.needs {
            Needs::Nothing => (TIMES, TIMES),
            Needs::ShortSources | Needs::Folder => (1, 1),
            Needs::Threads => (TEXTS_EACH, THREADS * TEXTS_EACH),
        };
        let took = |work: fn(&[String], usize) -> String| {
            least(in_round, || match self.needs {
                // The time of day: what threads wait for counts.
                Needs::Threads => {
                    let start = Instant::now();
                    black_box(work(sources, steps));
                    start.elapsed()
                }
                _ => timed(|| drop(black_box(work(sources, steps)))),
            })
        };
        let (ours, theirs) = (took(self.ours), took(self.theirs));
        let differ = if (self.ours)(sources, 1) == (self.theirs)(sources, 1) { "" } else { "; the texts differ" };
        println!("{}: {ours:.0} ns, fluent-bundle {theirs:.0}, ratio {:.2}{differ}", self.name, theirs / ours);
    }

    /// The sources that it is done with, if they are there.
    fn sources(&self, folder: Option<&str>) -> Option<Vec<String>> {
        match self.needs {
            Needs::Nothing | Needs::Threads => Some(Vec::new()),
            Needs::ShortSources => Some(short_sources()),
            Needs::Folder => Some(sources_in(Path::new(folder?)).expect("The files can be read.")),
        }
    }
}

fn main() -> ExitCode {
    let words: Vec<String> = env::args().skip(1).collect();
    let works = works::all();
    match &*words {
        [word] if word == "works" => works.iter().for_each(|work| println!("{}", work.name)),
        [] | [_] => {
            let folder = words.first().map(String::as_str);
            for work in works {
                match work.sources(folder) {
                    Some(sources) => work.report(&sources),
                    None => println!("{}: no folder: skipped", work.name),
                }
            }
        }
        [whose, name, steps, folder @ ..] => {
            let work = works.iter().find(|work| work.name == name).expect("There is a work of the name.");
            let sources = work.sources(folder.first().map(String::as_str)).expect("There is a folder.");
            let does = if whose == "ours" { work.ours } else { work.theirs };
            println!("{}", does(&sources, steps.parse().expect("STEPS is a number.")));
        }
        _ => return ExitCode::FAILURE,
    }
    ExitCode::SUCCESS
}
