//! The numbers and names that represent the user's values in the text format.

use std::collections::HashMap;
use std::fmt::Debug;
use std::hash::Hash;

use crate::Error;

/// The largest number of replicas of a history.
pub(crate) const MAX_REPLICAS: usize = 64;
const MAX_NAME_LENGTH: usize = 16;
const MAX_NUMBER: u64 = 4_294_967_295;
/// The number of a first clock that is too large. It leaves room for clocks that are slightly earlier.
const NUMBER_OF_LARGE_CLOCK: u64 = 1 << 28;
const RESERVED_NAMES: [&str; 2] = ["verdict", "join"];

/// What can be a replica's name, a value, an element, an identifier or the key of a message.
///
/// Equal keys are one thing here. `Debug` shows them in explanations.
pub trait Key: Clone + Eq + Hash + Debug {}

impl<T: Clone + Eq + Hash + Debug> Key for T {}

/// Numbers for things, from 1 up, in the order of their first use.
#[derive(Debug)]
pub(crate) struct Numbering<T> {
    number_of: HashMap<T, u32>,
    /// The things by their numbers, with `None` for a number that was reserved.
    things: Vec<Option<T>>,
}

impl<T: Key> Numbering<T> {
    pub(crate) fn new() -> Self {
        Numbering { number_of: HashMap::new(), things: Vec::new() }
    }

    /// Returns the number of this thing, which is a new one at its first use.
    pub(crate) fn number_of(&mut self, thing: &T) -> u32 {
        if let Some(it) = self.number_of.get(thing) {
            return *it;
        }
        self.things.push(Some(thing.clone()));
        let number = self.count();
        self.number_of.insert(thing.clone(), number);
        number
    }

    /// Returns a new number that represents nothing else.
    pub(crate) fn reserve(&mut self) -> u32 {
        self.things.push(None);
        self.count()
    }

    /// Returns the thing with this number, or `None` if the number was reserved.
    pub(crate) fn thing_of(&self, number: u32) -> Option<&T> {
        self.things.get((number as usize).wrapping_sub(1)).and_then(Option::as_ref)
    }

    fn count(&self) -> u32 {
        // A history has at most 1,048,576 commands, and no memory holds reads with 2^32 different elements.
        u32::try_from(self.things.len()).unwrap_or(u32::MAX)
    }
}

/// Numbers for clocks: the clocks themselves, or, if the first one is too large, their distance to it.
#[derive(Debug, Default)]
pub(crate) struct Clocks {
    offset: Option<u64>,
}

impl Clocks {
    /// Returns the number of this clock.
    pub(crate) fn number_of(&mut self, clock: u64) -> Result<u32, Error> {
        let first = if clock > MAX_NUMBER { clock - NUMBER_OF_LARGE_CLOCK } else { 0 };
        let offset = *self.offset.get_or_insert(first);
        let number = clock.checked_sub(offset).filter(|it| (1..=MAX_NUMBER).contains(it));
        number.and_then(|it| u32::try_from(it).ok()).ok_or_else(|| {
            let problem = if clock <= offset { "too early" } else { "too late" };
            Error::not_representable(format!(
                "the clock {clock} is {problem}: this history can represent the clocks from {} to {}",
                u128::from(offset) + 1,
                u128::from(offset) + u128::from(MAX_NUMBER)
            ))
        })
    }

    /// Returns the clock with this number.
    pub(crate) fn clock_of(&self, number: u32) -> u64 {
        u64::from(number) + self.offset.unwrap_or(0)
    }
}

/// The replicas in the order in which the type breaks ties, lowest first, with their names in the text format.
///
/// `keys` are what the user calls them. The initial replicas come first, and those that joined follow.
#[derive(Debug)]
pub(crate) struct Replicas<N> {
    pub(crate) keys: Vec<N>,
    pub(crate) names: Vec<String>,
    initial: usize,
    numbers: HashMap<N, usize>,
}

impl<N: Key> Replicas<N> {
    pub(crate) fn new(keys: Vec<N>) -> Result<Self, Error> {
        let numbers: HashMap<N, usize> = keys.iter().cloned().enumerate().map(|(number, it)| (it, number)).collect();
        if keys.is_empty() || keys.len() > MAX_REPLICAS || numbers.len() < keys.len() {
            return Err(Error::not_representable(format!(
                "expected 1 to {MAX_REPLICAS} replicas with distinct names, got {keys:?}"
            )));
        }
        let own: Vec<Option<String>> = keys.iter().map(own_name).collect();
        let mut names: Vec<String> = Vec::new();
        for name in &own {
            let is_free = |it: &String| !names.contains(it);
            let chosen = name.clone().filter(is_free).unwrap_or_else(|| free_name(&names, &own));
            names.push(chosen);
        }
        Ok(Replicas { initial: keys.len(), keys, names, numbers })
    }

    /// Returns the names of the initial replicas, separated by spaces.
    pub(crate) fn initial_names(&self) -> String {
        self.names[..self.initial].join(" ")
    }

    /// Returns an error if this replica cannot join.
    pub(crate) fn check_join(&self, replica: &N) -> Result<(), Error> {
        if self.numbers.contains_key(replica) {
            return Err(Error::not_representable(format!(
                "{replica:?} cannot join: a replica of this name exists, so choose another name"
            )));
        }
        if self.keys.len() == MAX_REPLICAS {
            return Err(Error::not_representable(format!(
                "{replica:?} cannot join: the history has {MAX_REPLICAS} replicas, which is the maximum; use a new \
                 Recorder"
            )));
        }
        Ok(())
    }

    /// Adds this replica, which can join, as the last one.
    pub(crate) fn join(&mut self, replica: N) {
        let own = own_name(&replica).filter(|it| !self.names.contains(it));
        let name = own.unwrap_or_else(|| free_name(&self.names, &[]));
        self.names.push(name);
        self.numbers.insert(replica.clone(), self.keys.len());
        self.keys.push(replica);
    }

    /// Returns the number of this replica, counted from 0.
    pub(crate) fn index_of(&self, replica: &N) -> Result<usize, Error> {
        self.numbers.get(replica).copied().ok_or_else(|| {
            Error::not_representable(format!("unknown replica {replica:?}: expected one of {:?}", self.keys))
        })
    }

    /// Describes the replica of this name as the user calls it.
    pub(crate) fn describe(&self, name: &str) -> String {
        let found = self.names.iter().position(|it| it == name);
        found.map_or_else(|| name.to_string(), |it| format!("{:?}", self.keys[it]))
    }
}

/// Returns the text of a key, without quotation marks, if the text format can have it as a name.
fn own_name<N: Debug>(key: &N) -> Option<String> {
    let shown = format!("{key:?}");
    let bare = shown.strip_prefix('"').and_then(|it| it.strip_suffix('"')).unwrap_or(&shown);
    Some(bare.to_string()).filter(|it| is_name(it))
}

fn free_name(taken: &[String], reserved: &[Option<String>]) -> String {
    let is_free = |it: &String| !taken.contains(it) && !reserved.contains(&Some(it.clone()));
    // Of this number of names one is free.
    (0..=taken.len() + reserved.len()).map(|it| format!("r{it}")).find(is_free).unwrap_or_default()
}

/// Returns whether the text format can have this name.
pub(crate) fn is_name(name: &str) -> bool {
    let letter = |it: u8| it.is_ascii_lowercase();
    let bytes = name.as_bytes();
    !RESERVED_NAMES.contains(&name)
        && bytes.len() <= MAX_NAME_LENGTH
        && bytes.first().map_or(false, |it| letter(*it))
        && bytes.iter().all(|it| letter(*it) || it.is_ascii_digit())
}

/// Returns a list in the text format.
pub(crate) fn join_numbers(numbers: &[u32]) -> String {
    if numbers.is_empty() {
        return String::from("-");
    }
    numbers.iter().map(u32::to_string).collect::<Vec<_>>().join(",")
}

pub(crate) fn sort_unique(mut numbers: Vec<u32>) -> Vec<u32> {
    numbers.sort_unstable();
    numbers.dedup();
    numbers
}
