//! The example of a web server.

#[path = "../examples/server.rs"]
mod server;

use server::Site;
use std::path::Path;
use std::thread;

fn site() -> Site {
    Site::load(&Path::new(env!("CARGO_MANIFEST_DIR")).join("../../examples/l10n")).expect("The folder is there.")
}

/// The lines of a page, and its language.
fn page(site: &Site, target: &str, accepted: &str) -> (String, Vec<String>) {
    let answer = site.answer(target, accepted);
    let (head, body) = answer.split_once("\r\n\r\n").expect("It has a head.");
    assert!(head.contains(&format!("Content-Length: {}", body.len())), "{head}");
    let language = head.lines().find_map(|line| line.strip_prefix("Content-Language: ")).expect("It has a language.");
    let lines = body.lines().filter_map(|line| line.strip_prefix("<p>")?.strip_suffix("</p>"));
    (language.to_string(), lines.map(|line| line.replace(['\u{2068}', '\u{2069}'], "")).collect())
}

#[test]
fn visitors_get_their_languages() {
    let site = site();
    let (language, lines) = page(&site, "/?name=Jane", "de-AT, fr;q=0.5");
    assert_eq!(language, "de");
    // What German lacks is in French, and what French lacks in English.
    assert_eq!(lines, ["Willkommen, Jane.", "Merci.", "Goodbye."]);
    let (language, lines) = page(&site, "/?x=1&name=%C5%BDofia+%3Cb%3E", "nb, *;q=0");
    assert_eq!((language.as_str(), &lines[0][..]), ("en-US", "Welcome, \u{17d}ofia &lt;b>."));
    assert_eq!(page(&site, "/", "").1, ["Welcome, you.", "Thank you.", "Goodbye."]);
    assert!(site.answer("/none", "fr").starts_with("HTTP/1.1 404 "));
}

#[test]
fn threads_share_the_site() {
    let site = site();
    thread::scope(|scope| {
        for (accepted, thanks) in [("fr", "Merci."), ("en", "Thank you."), ("de,fr", "Merci."), ("de", "Thank you.")] {
            let site = &site;
            scope.spawn(move || (0..50).for_each(|_| assert_eq!(page(site, "/", accepted).1[1], thanks)));
        }
    });
}
