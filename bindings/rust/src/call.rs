//! Functions of the program, and the calls that messages make of them.

use crate::args::FluentArgs;
use crate::custom::Customs;
use crate::date_time;
use crate::report::Reader;
use crate::resolver::ResolverError;
use crate::rewriting::{IS_OWN, IS_SHOWN, SHOWN};
use crate::value::FluentValue;
use std::collections::BTreeMap;

/// A function of the program, which may report an error.
pub(crate) type Function =
    dyn for<'a> Fn(&[FluentValue<'a>], &FluentArgs<'_>) -> Result<FluentValue<'a>, String> + Send + Sync;

/// Functions by their names.
#[derive(Default)]
pub(crate) struct Functions(BTreeMap<String, Box<Function>>);

impl Functions {
    pub(crate) fn add(&mut self, name: &str, function: Box<Function>) {
        self.0.insert(name.to_owned(), function);
    }

    pub(crate) fn has(&self, name: &str) -> bool {
        self.0.contains_key(name)
    }

    pub(crate) fn are_none(&self) -> bool {
        self.0.is_empty()
    }

    /// Whether a source has one of the names in it, somewhere.
    pub(crate) fn is_any_in(&self, source: &str) -> bool {
        self.0.keys().any(|name| source.contains(name.as_str()))
    }

    /// The names that rewritten sources call, which are all if `shows` says that values are shown by calls, and also
    /// `DATETIME` if `has_dates` says that it is the one of each bundle.
    pub(crate) fn called(&self, shows: bool, has_dates: bool) -> Vec<String> {
        let own = |name: &String| if name == "NUMBER" { format!("{name}{IS_OWN}") } else { name.clone() };
        let mut names: Vec<String> = self.0.keys().map(own).collect();
        names.extend(self.0.keys().map(|name| format!("{name}{IS_SHOWN}")));
        if has_dates {
            names.extend(["DATETIME".to_owned(), format!("DATETIME{IS_SHOWN}")]);
        }
        if shows {
            names.push(SHOWN.to_owned());
            if !self.has("NUMBER") {
                names.push(format!("NUMBER{IS_SHOWN}"));
            }
        }
        names
    }
}

/// What answers the calls of one message.
pub(crate) struct Answering<'b> {
    pub functions: &'b Functions,
    /// The arguments of the message.
    pub args: &'b FluentArgs<'b>,
    /// How a value is shown, if that isn't how the library shows it.
    pub show: &'b dyn Fn(&FluentValue<'_>) -> Option<String>,
    /// Whether what is shown is told apart from the texts around it, which are changed.
    pub is_marked: bool,
    pub customs: Customs,
    /// What functions reported.
    pub errors: Vec<ResolverError>,
}

impl Answering<'_> {
    /// The answer to a call, by its text. Of a function that isn't there it is an error.
    pub(crate) fn answer(&mut self, text: &str) -> FluentValue<'static> {
        let Some(call) = Call::of(text, &self.customs) else { return FluentValue::Error };
        if call.name == SHOWN {
            return self.shown_argument(&call);
        }
        let (name, is_shown) = match call.name.strip_suffix(IS_SHOWN) {
            Some(name) => (name, true),
            None => (call.name.strip_suffix(IS_OWN).unwrap_or(&call.name), false),
        };
        match (self.value(name, &call), is_shown) {
            (Ok(FluentValue::Error), true) => self.marked(format!("{name}()")),
            (Ok(value), true) => self.shown(value),
            (Ok(FluentValue::Custom(value)), false) => self.customs.token(&*value).into(),
            (Ok(value), false) => value,
            (Err(text), is_shown) => {
                self.errors.push(ResolverError::Function { id: name.to_owned(), text });
                if is_shown {
                    self.marked(format!("{{{name}()}}"))
                } else {
                    FluentValue::Error
                }
            }
        }
    }

    /// What a function gives, or what it reports.
    fn value(&self, name: &str, call: &Call) -> Result<FluentValue<'static>, String> {
        match self.functions.0.get(name) {
            Some(function) => function(&call.positional, &call.named).map(|value| value.into_owned()),
            None if name == "DATETIME" => date_time::called(&call.positional, &call.named),
            None => Ok(number(call)),
        }
    }

    /// A value as the library shows it: a text, or a number that it writes.
    fn shown(&mut self, value: FluentValue<'static>) -> FluentValue<'static> {
        match ((self.show)(&value), value) {
            (Some(text), _) => self.marked(text),
            (None, FluentValue::String(text)) => self.marked(text.into_owned()),
            (None, number @ FluentValue::Number(_)) => number,
            (None, FluentValue::Custom(_) | FluentValue::None | FluentValue::Error) => "".into(),
        }
    }

    /// How a value is shown, as a text that isn't changed.
    fn marked(&mut self, shown: String) -> FluentValue<'static> {
        if self.is_marked {
            self.customs.token_of_text(shown).into()
        } else {
            shown.into()
        }
    }

    /// An argument of the message, or a number that is written in it.
    fn shown_argument(&mut self, call: &Call) -> FluentValue<'static> {
        let name = match call.positional.get(1) {
            Some(FluentValue::String(name)) => name.as_ref(),
            _ => "",
        };
        match (call.positional.first(), self.args.get(name)) {
            // The number that was given has its options.
            (Some(FluentValue::Number(number)), Some(FluentValue::Number(given)))
                if number.as_string() == given.as_string() =>
            {
                self.shown(FluentValue::Number(given.clone()))
            }
            (Some(FluentValue::Error) | None, None) => self.marked(format!("{{${name}}}")),
            (value, _) => self.shown(value.cloned().unwrap_or(FluentValue::Error)),
        }
    }
}

/// The library's `NUMBER`: a number with the options of a call.
fn number(call: &Call) -> FluentValue<'static> {
    match call.positional.first() {
        Some(FluentValue::Number(number)) => {
            let mut number = number.clone();
            number.options.merge(&call.named);
            FluentValue::Number(number)
        }
        _ => FluentValue::Error,
    }
}

/// A call of a function: an array of its name, its positional arguments and an object of its named ones.
struct Call {
    name: String,
    positional: Vec<FluentValue<'static>>,
    named: FluentArgs<'static>,
}

impl Call {
    /// The call that a text is. The library writes no other text.
    fn of(text: &str, customs: &Customs) -> Option<Call> {
        let mut reader = Reader::of(text);
        reader.expect('[')?;
        let name = reader.text()?;
        reader.expect(',')?;
        let positional = positional(&mut reader, customs)?;
        reader.expect(',')?;
        let named = named(&mut reader, customs)?;
        Some(Call { name, positional, named })
    }
}

fn positional(reader: &mut Reader<'_>, customs: &Customs) -> Option<Vec<FluentValue<'static>>> {
    let mut values = Vec::new();
    reader.expect('[')?;
    while reader.peek()? != ']' {
        values.push(value(reader, customs)?);
        if reader.peek()? == ',' {
            reader.expect(',')?;
        }
    }
    reader.expect(']')?;
    Some(values)
}

fn named(reader: &mut Reader<'_>, customs: &Customs) -> Option<FluentArgs<'static>> {
    let mut values = FluentArgs::new();
    reader.expect('{')?;
    while reader.peek()? != '}' {
        let name = reader.text()?;
        reader.expect(':')?;
        values.set(name, value(reader, customs)?);
        if reader.peek()? == ',' {
            reader.expect(',')?;
        }
    }
    reader.expect('}')?;
    Some(values)
}

/// A text, or the value of the program's own that it stands for; a number in an object with its digits; or null for no
/// value.
fn value(reader: &mut Reader<'_>, customs: &Customs) -> Option<FluentValue<'static>> {
    match reader.peek()? {
        '"' => {
            let text = reader.text()?;
            Some(match customs.value(&text) {
                Some(value) => FluentValue::Custom(value.duplicate()),
                None => FluentValue::from(text),
            })
        }
        '{' => {
            reader.expect('{')?;
            reader.text()?;
            reader.expect(':')?;
            let digits = reader.text()?;
            reader.expect('}')?;
            Some(FluentValue::Number(digits.parse().ok()?))
        }
        _ => {
            "null".chars().try_for_each(|each| reader.expect(each))?;
            Some(FluentValue::Error)
        }
    }
}

#[cfg(test)]
mod tests {
    use super::*;

    #[test]
    fn calls_are_read() {
        let call =
            Call::of(r#"["F",["a\"\\\n",{"number":"1.50"},null],{"x":"y","z":{"number":"-3"}}]"#, &Customs::default())
                .unwrap();
        assert_eq!(call.name, "F");
        let number = FluentValue::try_number("1.50");
        assert_eq!(call.positional, [FluentValue::from("a\"\\\n"), number, FluentValue::Error]);
        assert_eq!(call.named.get("x"), Some(&FluentValue::from("y")));
        assert_eq!(call.named.get("z"), Some(&FluentValue::try_number("-3")));
        let call = Call::of(r#"["PLATFORM",[],{}]"#, &Customs::default()).unwrap();
        assert!(call.positional.is_empty() && call.named.iter().next().is_none());
    }
}
