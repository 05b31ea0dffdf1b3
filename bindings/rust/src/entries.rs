//! The messages and terms of bundles, by their ids. Bundles to which the same was added share them, and what the library
//! keeps.

use crate::errors::{EntryKind, FluentError};
use crate::ids::{hash_of, Name};
use crate::kept::{Kept, Settings};
use crate::listing::{self, Entry, Lines};
use crate::message::{Message, Numbers};
use crate::places::Places;
use crate::resource::FluentResource;
use std::collections::hash_map::DefaultHasher;
use std::collections::HashMap;
use std::hash::{Hash, Hasher};
use std::sync::{Arc, Mutex, MutexGuard, OnceLock, PoisonError, Weak};
use std::thread::ThreadId;

/// What is held under an id.
pub(crate) enum Held {
    /// A message whose patterns have the numbers from this one on. It is made when it is asked for.
    Message(usize, OnceLock<Box<Message>>),
    /// The function `NUMBER` of the library.
    Builtin,
    Function,
    Term,
}

/// What was added.
#[derive(Clone, PartialEq)]
pub(crate) enum Step {
    /// A resource, for which its lines stand, and whether its entries count in place of those that were there.
    Resource(Lines, bool),
    /// A function of this name.
    Function(Box<str>),
}

/// The messages and terms of a bundle by their ids, and the names of its functions.
///
/// Bundles to which the same was added in the same order share one.
pub(crate) struct Entries {
    /// What was added, and its hash.
    steps: Vec<Step>,
    hash: u64,
    /// The errors of the last resource.
    errors: Vec<FluentError>,
    /// The ids and what counts of each, in the order in which each came first.
    held: Vec<(Name, Held)>,
    /// Where they are.
    places: Places,
    numbers: Numbers,
    /// What the library keeps for the bundles that share these, by how they ask it.
    kept: Mutex<Vec<(Asking, Weak<Kept>)>>,
}

/// How a bundle asks the library: for a locale, whether values are shown by calls, and whether the package answers those
/// of `DATETIME`; and in which thread it began to, since threads with bundles of their own needn't wait for each other.
#[derive(Clone, PartialEq, Eq)]
pub(crate) struct Asking {
    pub(crate) thread: ThreadId,
    pub(crate) locale: String,
    pub(crate) settings: Settings,
    pub(crate) shows: bool,
    pub(crate) answers_dates: bool,
}

impl Entries {
    /// None but the function `NUMBER`.
    pub(crate) fn none() -> Arc<Entries> {
        let mut entries = Entries {
            steps: Vec::new(),
            hash: 0,
            errors: Vec::new(),
            held: Vec::new(),
            places: Places::default(),
            numbers: Numbers::new(),
            kept: Mutex::default(),
        };
        entries.set(Name::from("NUMBER"), Held::Builtin);
        Arc::new(entries)
    }

    /// What is held under an id.
    pub(crate) fn get(&self, id: &str) -> Option<&Held> {
        Some(&self.held[self.place(hash_of(id), id)?].1)
    }

    /// The message of an id.
    // An id that a program names in its code is then hashed when the program is compiled.
    #[inline(always)]
    pub(crate) fn message(&self, id: &str) -> Option<&Message> {
        self.message_at(self.place(hash_of(id), id)?)
    }

    /// The messages with their ids, in the order in which each id came first.
    pub(crate) fn messages(&self) -> impl Iterator<Item = (&str, &Message)> {
        (0..self.held.len()).filter_map(|place| Some((&*self.held[place].0, self.message_at(place)?)))
    }

    /// The numbers of its patterns.
    #[inline]
    pub(crate) fn numbers(&self) -> &Numbers {
        &self.numbers
    }

    /// Adds a resource, whose entries count in place of those that were there, or are errors if they were.
    pub(crate) fn add(this: &mut Arc<Entries>, resource: &FluentResource, overriding: bool) -> Vec<FluentError> {
        Entries::take_step(this, Step::Resource(resource.lines(), overriding), |entries| {
            entries.reserve(resource.len());
            for entry in resource.listed() {
                entries.add_entry(&entry, overriding);
            }
        });
        this.errors.clone()
    }

    /// Adds the name of a function.
    pub(crate) fn add_function(this: &mut Arc<Entries>, name: &str) {
        Entries::take_step(this, Step::Function(name.into()), |entries| entries.set(Name::from(name), Held::Function));
    }

    /// What the library keeps for bundles that ask so, which is made if none of them has it.
    pub(crate) fn kept(&self, asking: &Asking, make: impl FnOnce() -> Kept) -> Arc<Kept> {
        if let Some(kept) = found(&locked(&self.kept), asking) {
            return kept;
        }
        // It takes long, and bundles for other locales needn't wait.
        let made = Arc::new(make());
        let mut kept = locked(&self.kept);
        if let Some(kept) = found(&kept, asking) {
            return kept;
        }
        kept.retain(|(_, kept)| kept.strong_count() > 0);
        kept.push((asking.clone(), Arc::downgrade(&made)));
        made
    }

    /// Adds something by `add`, unless a bundle has the entries with it.
    fn take_step(this: &mut Arc<Entries>, step: Step, add: impl FnOnce(&mut Entries)) {
        let hash = hash_after(this.hash, &step);
        if let Some(entries) = Pool::found(hash, &this.steps, &step) {
            *this = entries;
            return;
        }
        // Other bundles keep theirs.
        let entries = Arc::make_mut(this);
        entries.steps.push(step);
        entries.hash = hash;
        entries.errors.clear();
        entries.kept = Mutex::default();
        add(entries);
        Pool::add(this);
    }

    /// Where an id with this hash is.
    #[inline]
    fn place(&self, hash: u32, id: &str) -> Option<usize> {
        self.places.find(hash, |place| *self.held[place].0 == *id)
    }

    /// The message at a place, if it is one.
    #[inline]
    fn message_at(&self, place: usize) -> Option<&Message> {
        match &self.held[place] {
            (id, Held::Message(first, made)) => Some(match made.get() {
                Some(message) => message,
                None => self.made(made, id, *first),
            }),
            (_, Held::Builtin | Held::Function | Held::Term) => None,
        }
    }

    /// Makes the message of an id, whose patterns have the numbers from this one on.
    #[cold]
    #[inline(never)]
    fn made<'m>(&self, made: &'m OnceLock<Box<Message>>, id: &Name, first: usize) -> &'m Message {
        made.get_or_init(|| {
            let entry = listing::Entries::from_id(id).next().expect("A message is in its lines.");
            Box::new(Message::of(&entry, id, &self.numbers, first))
        })
    }

    /// Makes room for this many more.
    fn reserve(&mut self, more: usize) {
        self.held.reserve(more);
        self.places.reserve(more);
    }

    /// Adds an entry in place of that of its id, or if it doesn't override one and there is one, an error.
    fn add_entry(&mut self, entry: &Entry<'_>, overriding: bool) {
        let (id, hash) = (entry.id(), hash_of(entry.id()));
        let place = self.place(hash, id);
        if place.is_some() && !overriding {
            self.errors.push(FluentError::Overriding { kind: entry.kind, id: id.to_owned() });
            return;
        }
        let held = match entry.kind {
            EntryKind::Message => Held::Message(self.numbers.take(entry), OnceLock::new()),
            EntryKind::Term | EntryKind::Function => Held::Term,
        };
        self.put(place, hash, entry.name(), held);
    }

    /// Holds something under an id, in place of what was there.
    fn set(&mut self, id: Name, held: Held) {
        let hash = hash_of(&id);
        let place = self.place(hash, &id);
        self.reserve(1);
        self.put(place, hash, id, held);
    }

    /// Holds something under an id that is at this place, or nowhere yet.
    fn put(&mut self, place: Option<usize>, hash: u32, id: Name, held: Held) {
        match place {
            // A message is in the lines of the id beside it.
            Some(place) => self.held[place] = (id, held),
            None => {
                self.places.push(hash);
                self.held.push((id, held));
            }
        }
    }
}

/// A copy whose patterns have numbers of their own, and for which the library keeps nothing yet.
impl Clone for Entries {
    fn clone(&self) -> Entries {
        Entries {
            steps: self.steps.clone(),
            hash: self.hash,
            errors: Vec::new(),
            held: self.held.clone(),
            places: self.places.clone(),
            numbers: self.numbers.renewed(),
            kept: Mutex::default(),
        }
    }
}

/// A copy in which no message is made yet.
impl Clone for Held {
    fn clone(&self) -> Held {
        match self {
            Held::Message(first, _) => Held::Message(*first, OnceLock::new()),
            Held::Builtin => Held::Builtin,
            Held::Function => Held::Function,
            Held::Term => Held::Term,
        }
    }
}

/// The hash of steps and one more.
fn hash_after(hash: u64, step: &Step) -> u64 {
    let mut hasher = DefaultHasher::new();
    hash.hash(&mut hasher);
    match step {
        Step::Resource(lines, overriding) => (lines.address(), overriding).hash(&mut hasher),
        Step::Function(name) => name.hash(&mut hasher),
    }
    hasher.finish()
}

/// What is kept for bundles that ask so, if one of them is there.
fn found(kept: &[(Asking, Weak<Kept>)], asking: &Asking) -> Option<Arc<Kept>> {
    kept.iter().find(|(how, _)| how == asking)?.1.upgrade()
}

/// What is under a lock, which is held by no code that can panic halfway.
fn locked<T>(mutex: &Mutex<T>) -> MutexGuard<'_, T> {
    mutex.lock().unwrap_or_else(PoisonError::into_inner)
}

/// The entries that bundles of the process have, by their hashes.
#[derive(Default)]
struct Pool {
    by_hash: HashMap<u64, Weak<Entries>>,
    /// How many there are before those that no bundle has any more are taken out.
    most: usize,
}

impl Pool {
    fn of_process() -> MutexGuard<'static, Pool> {
        static POOL: OnceLock<Mutex<Pool>> = OnceLock::new();
        locked(POOL.get_or_init(Mutex::default))
    }

    /// The entries after these steps and one more, if a bundle has them.
    fn found(hash: u64, steps: &[Step], last: &Step) -> Option<Arc<Entries>> {
        let entries = Pool::of_process().by_hash.get(&hash)?.upgrade()?;
        let (end, before) = entries.steps.split_last()?;
        (end == last && before == steps).then_some(entries)
    }

    fn add(entries: &Arc<Entries>) {
        let mut pool = Pool::of_process();
        if pool.by_hash.len() >= pool.most {
            pool.by_hash.retain(|_, entries| entries.strong_count() > 0);
            pool.most = 16 + 2 * pool.by_hash.len();
        }
        pool.by_hash.insert(entries.hash, Arc::downgrade(entries));
    }
}
