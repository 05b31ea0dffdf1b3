//! How much memory bundles take that are over one resource. It is the only test of its program, whose memory it reads.
#![cfg(target_os = "linux")]

use kozhvadi::{fluent_args, FluentBundle, FluentResource};
use std::fmt::Write;
use std::sync::Arc;

/// A source of this many bytes at least, as long as those of large programs.
fn source(len: usize) -> String {
    let mut source = String::new();
    for number in 0.. {
        if source.len() >= len {
            break;
        }
        let _ = write!(
            source,
            "settings-section-{number} = Where the files of section {number} are kept on this machine\n\
             settings-label-{number} =\n    .label = Choose what {{ $name }} may open\n    .accesskey = C\n"
        );
    }
    source
}

/// The most memory that the process had, in MB.
fn peak() -> u64 {
    let status = std::fs::read_to_string("/proc/self/status").unwrap();
    let line = status.lines().find(|line| line.starts_with("VmHWM:")).unwrap();
    line.split_whitespace().nth(1).unwrap().parse::<u64>().unwrap() / 1000
}

/// Ten bundles over the resource, each of which is asked. `locales` says how many languages they are for.
fn ask(resource: &Arc<FluentResource>, locales: &[&str]) -> Vec<FluentBundle<Arc<FluentResource>>> {
    let bundles: Vec<_> = (0..10)
        .map(|number| {
            let mut bundle = FluentBundle::new(vec![locales[number % locales.len()]]);
            bundle.set_use_isolating(false);
            bundle.add_resource(Arc::clone(resource)).unwrap();
            bundle
        })
        .collect();
    for bundle in &bundles {
        let message = bundle.get_message("settings-label-7").unwrap();
        let label = message.get_attribute("label").unwrap();
        let text = bundle.format_pattern(label.value(), Some(&fluent_args!["name" => "Jane"]), &mut vec![]);
        assert_eq!(text, "Choose what Jane may open");
        let value = bundle.get_message("settings-section-7").unwrap().value().unwrap();
        assert_eq!(
            bundle.format_pattern(value, None, &mut vec![]),
            "Where the files of section 7 are kept on this machine"
        );
    }
    bundles
}

#[test]
fn ten_bundles_over_one_resource() {
    let resource = Arc::new(FluentResource::try_new(source(1_000_000)).unwrap());
    let read = peak();
    let same = ask(&resource, &["en"]);
    let shared = peak();
    drop(same);
    let tags = ["en", "de", "fr", "pl", "ar", "ja", "ru", "es", "it", "cy"];
    let _different = ask(&resource, &tags);
    println!("{read} MB once it is read, {shared} MB with ten bundles of one language, {} MB with ten of ten", peak());
    assert!(shared <= 20, "{shared} MB");
}
