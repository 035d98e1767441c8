//! A small replica of each kind. The number `BUG` plants a bug in it; 0 is the correct type.

#![allow(dead_code)]

use std::collections::BTreeMap;

use yehatu::{Kind, Replica, Sent, Update, Value};

/// Each third message is lost.
pub const LOSES_A_DELIVERY: u8 = 1;
/// At equal clocks the later arrival wins.
pub const BREAKS_TIES_BY_ARRIVAL: u8 = 2;
/// The clock counts only the replica's own updates.
pub const DOES_NOT_RAISE_ITS_CLOCK: u8 = 3;
/// A removal removes what it has not seen.
pub const REMOVES_UNSEEN: u8 = 4;
/// A result of more than seven bits is wrong.
pub const OVERFLOWS: u8 = 5;
/// A restart begins with the clock 0.
pub const FORGETS_ITS_CLOCK: u8 = 6;
/// A message that arrives again counts again.
pub const COUNTS_DUPLICATES: u8 = 7;
/// A merge overwrites newer entries.
pub const UNDOES_NEWER_ENTRIES: u8 = 8;
/// The third delivery panics.
pub const PANICS: u8 = 9;

type Stamp = (u64, String);

/// A counter.
#[derive(Clone, Default)]
pub struct Counter<const BUG: u8 = 0> {
    total: i64,
    received: u64,
}

impl<const BUG: u8> Replica for Counter<BUG> {
    type Message = i64;
    type State = ();
    const KIND: Kind = Kind::Counter;
    const AMOUNTS: bool = BUG == OVERFLOWS;

    fn create(_: &str) -> Self {
        Counter::default()
    }

    fn update(&mut self, update: Update) -> Sent<i64> {
        let by = match update {
            Update::Increment(by) => i64::try_from(by).unwrap(),
            Update::Decrement(by) => -i64::try_from(by).unwrap(),
            _ => unreachable!(),
        };
        self.total += by;
        Sent::new(by)
    }

    fn receive(&mut self, message: &i64) {
        self.received += 1;
        assert!(BUG != PANICS || self.received < 3, "the third message");
        if BUG != LOSES_A_DELIVERY || self.received % 3 > 0 {
            self.total += message;
        }
    }

    fn read(&self) -> Value {
        let shown = if BUG == OVERFLOWS { (self.total + 128).rem_euclid(256) - 128 } else { self.total };
        Value::Count(shown)
    }

    fn fork(&self, _: &str) -> Option<Self> {
        Some(self.clone())
    }
}

/// A counter whose states are merged: for each replica its increments and decrements.
#[derive(Clone)]
pub struct MergedCounter<const BUG: u8 = 0> {
    name: String,
    steps: BTreeMap<String, (i64, i64)>,
}

impl<const BUG: u8> Replica for MergedCounter<BUG> {
    type Message = ();
    type State = (String, BTreeMap<String, (i64, i64)>);
    const KIND: Kind = Kind::Counter;
    const MERGES: bool = true;

    fn create(name: &str) -> Self {
        MergedCounter { name: name.to_string(), steps: BTreeMap::new() }
    }

    fn update(&mut self, update: Update) -> Sent<()> {
        let own = self.steps.entry(self.name.clone()).or_default();
        match update {
            Update::Increment(_) => own.0 += 1,
            _ => own.1 += 1,
        }
        Sent::new(())
    }

    fn read(&self) -> Value {
        Value::Count(self.steps.values().map(|(up, down)| up - down).sum())
    }

    fn state(&self) -> Option<Self::State> {
        Some((self.name.clone(), self.steps.clone()))
    }

    fn merge(&mut self, (sender, steps): &Self::State) {
        for (name, (up, down)) in steps {
            let own = self.steps.entry(name.clone()).or_default();
            *own = (own.0.max(*up), own.1.max(*down));
            if BUG == UNDOES_NEWER_ENTRIES && name == sender {
                *own = (*up, *down);
            }
        }
    }

    fn load(name: &str, state: &Self::State) -> Option<Self> {
        Some(MergedCounter { name: name.to_string(), steps: state.1.clone() })
    }
}

/// A register.
#[derive(Clone)]
pub struct Register<const BUG: u8 = 0> {
    name: String,
    clock: u64,
    stamp: Stamp,
    value: Option<u64>,
}

impl<const BUG: u8> Replica for Register<BUG> {
    type Message = (u64, Stamp);
    type State = Self;
    const KIND: Kind = Kind::Register;

    fn create(name: &str) -> Self {
        Register { name: name.to_string(), clock: 0, stamp: (0, String::new()), value: None }
    }

    fn update(&mut self, update: Update) -> Sent<Self::Message> {
        let value = match update {
            Update::Write(value) => value,
            _ => unreachable!(),
        };
        let stamp = (self.clock + 1, self.name.clone());
        self.receive(&(value, stamp.clone()));
        // A bug of its clock must not make it lose its own write too.
        self.clock = stamp.0;
        let clock = stamp.0;
        Sent::new((value, stamp)).clock(clock)
    }

    fn receive(&mut self, (value, stamp): &Self::Message) {
        if BUG != DOES_NOT_RAISE_ITS_CLOCK {
            self.clock = self.clock.max(stamp.0);
        }
        let wins = if BUG == BREAKS_TIES_BY_ARRIVAL { stamp.0 >= self.stamp.0 } else { *stamp > self.stamp };
        if wins {
            self.stamp = stamp.clone();
            self.value = Some(*value);
        }
    }

    fn read(&self) -> Value {
        Value::Register(self.value)
    }

    fn state(&self) -> Option<Self> {
        Some(self.clone())
    }

    fn load(_: &str, state: &Self) -> Option<Self> {
        let clock = if BUG == FORGETS_ITS_CLOCK { 0 } else { state.clock };
        Some(Register { clock, ..state.clone() })
    }
}

/// An LWW set: for each element its last update.
#[derive(Clone)]
pub struct LwwSet<const BUG: u8 = 0> {
    name: String,
    clock: u64,
    last: BTreeMap<u64, (Stamp, bool)>,
}

impl<const BUG: u8> Replica for LwwSet<BUG> {
    type Message = (u64, Stamp, bool);
    type State = Self;
    const KIND: Kind = Kind::LwwSet;

    fn create(name: &str) -> Self {
        LwwSet { name: name.to_string(), clock: 0, last: BTreeMap::new() }
    }

    fn update(&mut self, update: Update) -> Sent<Self::Message> {
        let (element, is_in) = match update {
            Update::Add(it) => (it, true),
            Update::Remove(it) => (it, false),
            _ => unreachable!(),
        };
        let message = (element, (self.clock + 1, self.name.clone()), is_in);
        self.receive(&message);
        let clock = self.clock;
        Sent::new(message).clock(clock)
    }

    fn receive(&mut self, (element, stamp, is_in): &Self::Message) {
        self.clock = self.clock.max(stamp.0);
        let is_newer = self.last.get(element).map_or(true, |it| it.0 < *stamp);
        if is_newer || (BUG == REMOVES_UNSEEN && !is_in) {
            self.last.insert(*element, (stamp.clone(), *is_in));
        }
    }

    fn read(&self) -> Value {
        Value::Elements(self.last.iter().filter(|it| it.1 .1).map(|it| *it.0).collect())
    }

    fn state(&self) -> Option<Self> {
        Some(self.clone())
    }

    fn load(_: &str, state: &Self) -> Option<Self> {
        Some(state.clone())
    }
}

/// What an update of an OR-Set sends.
#[derive(Clone)]
pub enum SetMessage {
    Add(u64, String),
    Remove(u64, Vec<String>),
}

/// An OR-Set: pairs of an element and an identifier.
#[derive(Clone)]
pub struct OrSet<const BUG: u8 = 0> {
    name: String,
    added: u64,
    pairs: Vec<(u64, String)>,
}

impl<const BUG: u8> Replica for OrSet<BUG> {
    type Message = SetMessage;
    type State = ();
    const KIND: Kind = Kind::OrSet;

    fn create(name: &str) -> Self {
        OrSet { name: name.to_string(), added: 0, pairs: Vec::new() }
    }

    fn update(&mut self, update: Update) -> Sent<SetMessage> {
        let sent = match update {
            Update::Add(element) => {
                self.added += 1;
                let identifier = format!("{} {}", self.name, self.added);
                Sent::new(SetMessage::Add(element, identifier.clone())).identifier(&identifier)
            }
            Update::Remove(element) => {
                let named = self.pairs.iter().filter(|it| it.0 == element).map(|it| it.1.clone());
                let identifiers: Vec<String> = named.collect();
                Sent::new(SetMessage::Remove(element, identifiers.clone())).identifiers(identifiers)
            }
            _ => unreachable!(),
        };
        self.receive(&sent.message);
        sent
    }

    fn receive(&mut self, message: &SetMessage) {
        match message {
            SetMessage::Add(element, identifier) => self.pairs.push((*element, identifier.clone())),
            SetMessage::Remove(element, _) if BUG == REMOVES_UNSEEN => self.pairs.retain(|it| it.0 != *element),
            SetMessage::Remove(_, identifiers) => self.pairs.retain(|it| !identifiers.contains(&it.1)),
        }
    }

    fn read(&self) -> Value {
        Value::Elements(self.pairs.iter().map(|it| it.0).collect())
    }
}

/// What an update of a list sends.
#[derive(Clone)]
pub enum ListMessage {
    Insert(Option<u64>, u64, Stamp),
    Remove(u64),
}

/// An element of a list, with its anchor.
#[derive(Clone)]
pub struct Node {
    anchor: Option<u64>,
    element: u64,
    stamp: Stamp,
    is_shown: bool,
}

/// A replicated growable array, as a list of nodes.
#[derive(Clone)]
pub struct Rga<const BUG: u8 = 0> {
    name: String,
    clock: u64,
    nodes: Vec<Node>,
}

impl<const BUG: u8> Rga<BUG> {
    fn append(&self, anchor: Option<u64>, shown: &mut Vec<u64>) {
        let mut children: Vec<&Node> = self.nodes.iter().filter(|it| it.anchor == anchor).collect();
        children.reverse();
        match BUG {
            BREAKS_TIES_BY_ARRIVAL => children.sort_by_key(|it| std::cmp::Reverse(it.stamp.0)),
            _ => children.sort_by(|one, other| other.stamp.cmp(&one.stamp)),
        }
        for child in children {
            if child.is_shown {
                shown.push(child.element);
            }
            self.append(Some(child.element), shown);
        }
    }
}

impl<const BUG: u8> Replica for Rga<BUG> {
    type Message = ListMessage;
    type State = ();
    const KIND: Kind = Kind::Rga;

    fn create(name: &str) -> Self {
        Rga { name: name.to_string(), clock: 0, nodes: Vec::new() }
    }

    fn update(&mut self, update: Update) -> Sent<ListMessage> {
        let sent = match update {
            Update::InsertAfter { anchor, element } => {
                let clock = self.clock + 1;
                Sent::new(ListMessage::Insert(anchor, element, (clock, self.name.clone()))).clock(clock)
            }
            Update::Remove(element) => Sent::new(ListMessage::Remove(element)),
            _ => unreachable!(),
        };
        self.receive(&sent.message);
        sent
    }

    fn receive(&mut self, message: &ListMessage) {
        match message {
            ListMessage::Insert(anchor, element, stamp) => {
                self.clock = self.clock.max(stamp.0);
                self.nodes.push(Node { anchor: *anchor, element: *element, stamp: stamp.clone(), is_shown: true });
            }
            ListMessage::Remove(element) => {
                let removed = self.nodes.iter_mut().filter(|it| it.element == *element);
                removed.for_each(|it| it.is_shown = false);
            }
        }
    }

    fn read(&self) -> Value {
        let mut shown = Vec::new();
        self.append(None, &mut shown);
        Value::Elements(shown)
    }
}
