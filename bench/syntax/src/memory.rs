//! How much memory a call needs, in kilobytes: the peak of a process of its own.

use std::env;
use std::fs;
use std::process::Command;

fn status(field: &str) -> Option<u64> {
    let status = fs::read_to_string("/proc/self/status").ok()?;
    let line = status.lines().find_map(|line| line.strip_prefix(field))?;
    line.split_whitespace().find_map(|word| word.parse().ok())
}

/// What the peak of this process grows by in a call.
pub fn peak_of(call: impl FnOnce()) -> Option<u64> {
    // From here on the peak is what is used now.
    fs::write("/proc/self/clear_refs", "5").ok()?;
    let before = status("VmRSS:")?;
    call();
    Some(status("VmHWM:")?.saturating_sub(before))
}

/// The peak of a maker at a task over a text, in a process of its own, with malloc's settings as usual.
pub fn peak_of_child(maker: &str, task: &str, text: &str) -> Option<u64> {
    let program = env::current_exe().ok()?;
    let run = Command::new(program)
        .args(["peak", maker, task, text])
        .env_remove("MALLOC_MMAP_MAX_")
        .env_remove("MALLOC_TRIM_THRESHOLD_")
        .output();
    String::from_utf8(run.ok()?.stdout)
        .ok()?
        .trim()
        .parse()
        .ok()
}
