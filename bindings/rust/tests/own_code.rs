//! A program's own code, which an answer calls, may ask the bundle that answers, and other threads aren't kept waiting by it.

use kozhvadi::intl_memoizer::{concurrent, IntlLangMemoizer};
use kozhvadi::types::FluentType;
use kozhvadi::{fluent_args, FluentArgs, FluentBundle, FluentResource, FluentValue};
use std::borrow::Cow;
use std::cell::Cell;
use std::fmt;
use std::sync::mpsc::{channel, Receiver, Sender};
use std::sync::{Arc, OnceLock};
use std::thread;
use std::time::Duration;

const SOURCE: &str = "\
hello = Hello, { $name }!
plain = Plain
wrong = Hello, { $absent }!
call = { UP($name) }
";

fn bundle() -> FluentBundle {
    let mut bundle = FluentBundle::new(vec!["en"]);
    bundle.set_use_isolating(false);
    let resource = FluentResource::try_new(SOURCE.to_owned()).expect("It has no errors.");
    bundle.add_resource(resource).expect("Its ids are new.");
    let up = |given: &[FluentValue<'_>]| match given {
        [FluentValue::String(text)] => FluentValue::from(text.to_uppercase()),
        _ => FluentValue::Error,
    };
    bundle.add_function("UP", move |given, _| up(given).into_owned()).expect("Its name is new.");
    bundle
}

fn text(bundle: &FluentBundle, id: &str, args: &FluentArgs<'_>) -> String {
    let pattern = bundle.get_message(id).and_then(|message| message.value()).expect("There is a value.");
    bundle.format_pattern(pattern, Some(args), &mut vec![]).into_owned()
}

/// A person, whose name a message of the bundle writes.
#[derive(Clone)]
struct Person(Arc<FluentBundle>, &'static str);

impl fmt::Debug for Person {
    fn fmt(&self, f: &mut fmt::Formatter<'_>) -> fmt::Result {
        f.write_str(self.1)
    }
}

impl PartialEq for Person {
    fn eq(&self, other: &Person) -> bool {
        self.1 == other.1
    }
}

impl FluentType for Person {
    fn duplicate(&self) -> Box<dyn FluentType + Send> {
        Box::new(self.clone())
    }
    fn as_string(&self, _: &IntlLangMemoizer) -> Cow<'static, str> {
        text(&self.0, "call", &fluent_args!["name" => self.1]).into()
    }
    fn as_string_threadsafe(&self, intls: &concurrent::IntlLangMemoizer) -> Cow<'static, str> {
        self.as_string(intls)
    }
}

#[test]
fn a_value_is_shown_by_the_bundle_that_shows_it() {
    let bundle = Arc::new(bundle());
    let person = || FluentValue::Custom(Box::new(Person(Arc::clone(&bundle), "jane")));
    assert_eq!(text(&bundle, "hello", &fluent_args!["name" => person()]), "Hello, JANE!");
    let mut written = String::new();
    let pattern = bundle.get_message("hello").and_then(|message| message.value()).expect("There is a value.");
    let args = fluent_args!["name" => person()];
    bundle.write_pattern(&mut written, pattern, Some(&args), &mut vec![]).expect("A text takes all.");
    assert_eq!(written, "Hello, JANE!");
}

/// The bundle whose texts are changed.
static CHANGED: OnceLock<FluentBundle> = OnceLock::new();

thread_local! {
    static IS_CHANGING: Cell<bool> = const { Cell::new(false) };
}

/// Asks the bundle for a text, unless that text is being changed.
fn ask_while_changed(part: &str) -> Cow<'_, str> {
    if IS_CHANGING.replace(true) {
        return part.into();
    }
    let bundle = CHANGED.get().expect("It is made.");
    let asked = [text(bundle, "plain", &FluentArgs::new()), text(bundle, "hello", &fluent_args!["name" => "you"])];
    IS_CHANGING.set(false);
    format!("<{part}, {}>", asked.join(" ")).into()
}

#[test]
fn a_text_is_changed_by_the_bundle_that_has_it() {
    let mut made = bundle();
    made.set_transform(Some(ask_while_changed));
    let bundle = CHANGED.get_or_init(|| made);
    assert_eq!(
        text(bundle, "hello", &fluent_args!["name" => "Jane"]),
        "<Hello, , Plain Hello, you!>Jane<!, Plain Hello, you!>"
    );
}

/// What takes a text only once another thread says so.
struct Waiting(String, Sender<()>, Receiver<()>);

impl fmt::Write for Waiting {
    fn write_str(&mut self, text: &str) -> fmt::Result {
        self.1.send(()).map_err(|_| fmt::Error)?;
        self.2.recv_timeout(Duration::from_secs(60)).map_err(|_| fmt::Error)?;
        self.0.push_str(text);
        Ok(())
    }
}

/// While a writer waits, other threads ask the bundle, for a short text, for a long one, for one with an error and for
/// those that call functions and are shown by the program.
#[test]
fn a_writer_keeps_no_thread_waiting() {
    let bundle = Arc::new(bundle());
    let (long, person) = ("x".repeat(1000), Person(Arc::clone(&bundle), "jane"));
    let person = FluentValue::Custom(Box::new(person));
    for (id, name) in [
        ("hello", FluentValue::from("Jane")),
        ("hello", FluentValue::from(long.as_str())),
        ("wrong", FluentValue::from("Jane")),
        ("call", FluentValue::from("Jane")),
        ("hello", person),
        ("plain", FluentValue::None),
    ] {
        let (begins, began) = channel();
        let (asked, goes_on) = channel();
        let args = fluent_args!["name" => name];
        let expected = text(&bundle, id, &args);
        let asking = Arc::clone(&bundle);
        let other = thread::spawn(move || {
            began.recv_timeout(Duration::from_secs(60)).expect("The writer is called.");
            let text = text(&asking, "hello", &fluent_args!["name" => "other"]);
            asked.send(()).expect("The writer waits.");
            text
        });
        let mut writer = Waiting(String::new(), begins, goes_on);
        let pattern = bundle.get_message(id).and_then(|message| message.value()).expect("There is a value.");
        bundle.write_pattern(&mut writer, pattern, Some(&args), &mut vec![]).expect("The other thread was answered.");
        assert_eq!(writer.0, expected);
        assert_eq!(other.join().expect("It ends well."), "Hello, other!");
    }
}
