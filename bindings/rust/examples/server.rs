//! A web server whose pages are in the languages of its visitors.
//!
//!     server FOLDER [ADDRESS]
//!
//! FOLDER has a folder for each language, such as `de`, with a file main.ftl; English is en-US, and its texts stand in for
//! those that a language lacks. Without ADDRESS the system picks a port, and the server says which. `/?name=Jane` greets Jane.
//! Each language is read once: a visitor gets those that suit the header `Accept-Language`, as a chain of shared bundles.

use kozhvadi::{
    accepted_languages, negotiate_languages, FluentArgs, FluentBundle, FluentResource, Localization,
    NegotiationStrategy,
};
use std::collections::BTreeMap;
use std::io::{self, BufRead, BufReader, Read, Write};
use std::net::{TcpListener, TcpStream};
use std::path::Path;
use std::sync::Arc;
use std::time::Duration;
use std::{env, fs, thread};

/// The language that the texts are written in.
const FIRST: &str = "en-US";

/// How long the head of a request may be.
const MOST_BYTES: u64 = 16_384;

/// The languages of the site, by their tags.
pub struct Site {
    bundles: BTreeMap<String, Arc<FluentBundle>>,
}

impl Site {
    /// Reads the folder of each language. What can't be read is reported, and the other texts are used.
    pub fn load(folder: &Path) -> io::Result<Site> {
        let mut bundles = BTreeMap::new();
        for entry in fs::read_dir(folder)? {
            let path = entry?.path().join("main.ftl");
            let Some(locale) = path.parent().and_then(|folder| folder.file_name()?.to_str()) else { continue };
            if path.is_file() {
                bundles.insert(locale.to_string(), Arc::new(bundle_of(locale, fs::read_to_string(&path)?)));
            }
        }
        Ok(Site { bundles })
    }

    /// The texts for a visitor who accepts these languages, the best language first.
    fn texts(&self, accepted: &str) -> Localization<FluentResource, Arc<FluentBundle>> {
        let requested = accepted_languages(accepted);
        let available: Vec<&str> = self.bundles.keys().map(String::as_str).collect();
        let chosen = negotiate_languages(&requested, &available, Some(&FIRST), NegotiationStrategy::Filtering);
        Localization::new(chosen.into_iter().filter_map(|locale| self.bundles.get(*locale)).cloned())
    }

    /// The answer to the request of a target such as `/?name=Jane`, by a visitor who accepts these languages.
    pub fn answer(&self, target: &str, accepted: &str) -> String {
        let (path, query) = target.split_once('?').unwrap_or((target, ""));
        if path != "/" {
            return response("404 Not Found", FIRST, "");
        }
        let texts = self.texts(accepted);
        let mut args = FluentArgs::new();
        args.set("name", parameter(query, "name").unwrap_or_else(|| "you".to_string()));
        let mut errors = Vec::new();
        let lines = ["welcome", "thanks", "bye"].map(|id| {
            let text = texts.format_value(id, Some(&args), &mut errors);
            format!("<p>{}</p>\n", escaped(&text.unwrap_or_else(|| id.into())))
        });
        // A log of the site: what translators should mend.
        errors.iter().for_each(|error| eprintln!("{error}"));
        let language = texts.bundles().first().and_then(|bundle| Some(bundle.locales.first()?.to_string()));
        response("200 OK", language.as_deref().unwrap_or(FIRST), &lines.concat())
    }
}

/// The bundle of a language, without what can't be read of its source.
fn bundle_of(locale: &str, source: String) -> FluentBundle {
    let resource = FluentResource::try_new(source).unwrap_or_else(|(resource, errors)| {
        errors.iter().for_each(|error| eprintln!("{locale}: {error}"));
        resource
    });
    let mut bundle = FluentBundle::new(vec![locale]);
    if let Err(errors) = bundle.add_resource(resource) {
        errors.iter().for_each(|error| eprintln!("{locale}: {error}"));
    }
    bundle
}

/// A page in a language, as HTTP has it.
fn response(status: &str, language: &str, body: &str) -> String {
    let page = format!("<!doctype html>\n<html lang=\"{language}\">\n<meta charset=\"utf-8\">\n{body}</html>\n");
    let length = page.len();
    format!(
        "HTTP/1.1 {status}\r\nContent-Type: text/html; charset=utf-8\r\nContent-Language: {language}\r\n\
         Vary: Accept-Language\r\nContent-Length: {length}\r\nConnection: close\r\n\r\n{page}"
    )
}

/// The value at a key of a query.
fn parameter(query: &str, key: &str) -> Option<String> {
    let (_, value) = query.split('&').filter_map(|pair| pair.split_once('=')).find(|(name, _)| *name == key)?;
    let mut bytes = Vec::new();
    let mut rest = value.bytes();
    while let Some(byte) = rest.next() {
        bytes.push(match byte {
            b'+' => b' ',
            b'%' => {
                let digits = [rest.next()?, rest.next()?];
                u8::from_str_radix(std::str::from_utf8(&digits).ok()?, 16).ok()?
            }
            other => other,
        });
    }
    String::from_utf8(bytes).ok()
}

/// A text as HTML has it.
fn escaped(text: &str) -> String {
    text.replace('&', "&amp;").replace('<', "&lt;")
}

/// Answers one request.
fn serve(site: &Site, mut stream: TcpStream) -> io::Result<()> {
    stream.set_read_timeout(Some(Duration::from_secs(5)))?;
    let head = BufReader::new(stream.try_clone()?).take(MOST_BYTES).lines();
    let head = head.take_while(|line| !line.as_ref().is_ok_and(String::is_empty));
    let lines = head.collect::<io::Result<Vec<String>>>()?;
    let target = lines.first().and_then(|line| line.split(' ').nth(1)).unwrap_or("/");
    let mut fields = lines.iter().filter_map(|line| line.split_once(':'));
    let accepted = fields.find(|(name, _)| name.eq_ignore_ascii_case("accept-language")).map_or("", |(_, value)| value);
    stream.write_all(site.answer(target, accepted).as_bytes())
}

#[allow(dead_code)] // The tests have no use for it.
fn main() -> io::Result<()> {
    let words: Vec<String> = env::args().skip(1).collect();
    let [folder, address] = match &words[..] {
        [folder] => [folder.as_str(), "127.0.0.1:0"],
        [folder, address] => [folder.as_str(), address.as_str()],
        _ => return Err(io::Error::new(io::ErrorKind::InvalidInput, "server FOLDER [ADDRESS]")),
    };
    let site = Arc::new(Site::load(Path::new(folder))?);
    let listener = TcpListener::bind(address)?;
    println!("http://{}/", listener.local_addr()?);
    for stream in listener.incoming() {
        let (site, stream) = (Arc::clone(&site), stream?);
        thread::spawn(move || serve(&site, stream));
    }
    Ok(())
}
