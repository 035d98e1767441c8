//! Types of the crate `crdts` as replicas that the Rust client tests in random runs. Their states are merged.
//!
//! The number `BUG` plants a bug in the code round a type; with 0 the unchanged type is tested. Of the other types of
//! `crdts`, `MVReg` keeps concurrent values, which no kind judges, and `List` is one of the kind `list`, which has no
//! replica here yet.

#![forbid(unsafe_code)]

use std::collections::BTreeSet;

use crdts::lwwreg::LWWReg;
use crdts::{CmRDT, CvRDT, GSet, Orswot, PNCounter};
use yehatu::{Kind, Method, Replica, Sent, Update, Value};

/// A counter loses each third state that it should merge.
pub const LOSES_A_MERGE: u8 = 1;
/// A counter that joins counts under the name of the replica that it copies.
pub const JOINS_WITH_AN_OLD_NAME: u8 = 2;
/// A register takes each state that it merges, whatever its clock.
pub const LETS_ARRIVAL_WIN: u8 = 3;
/// A register counts only its own writes in its clock.
pub const IGNORES_OTHER_CLOCKS: u8 = 4;
/// A set shows what it showed before a merge, also what the merge removed.
pub const SHOWS_REMOVED_ELEMENTS: u8 = 5;
/// A set is empty after a restart, and its clock too.
pub const FORGETS_ITS_STATE: u8 = 6;

/// A `PNCounter`.
#[derive(Clone)]
pub struct Counter<const BUG: u8 = 0> {
    name: String,
    state: PNCounter<String>,
    merges: u32,
}

impl<const BUG: u8> Replica for Counter<BUG> {
    type Message = ();
    type State = PNCounter<String>;
    const KIND: Kind = Kind::Counter;
    const MERGES: bool = true;

    fn create(name: &str) -> Self {
        Counter { name: name.to_string(), state: PNCounter::new(), merges: 0 }
    }

    fn update(&mut self, update: Update) -> Sent<()> {
        let operation = match update {
            Update::Increment(_) => self.state.inc(self.name.clone()),
            _ => self.state.dec(self.name.clone()),
        };
        self.state.apply(operation);
        Sent::new(())
    }

    fn read(&self) -> Value {
        Value::Count(self.state.read().to_string().parse().expect("a small number"))
    }

    fn state(&self) -> Option<Self::State> {
        Some(self.state.clone())
    }

    fn merge(&mut self, state: &Self::State) {
        self.merges += 1;
        if BUG != LOSES_A_MERGE || self.merges % 3 > 0 {
            self.state.merge(state.clone());
        }
    }

    fn load(name: &str, state: &Self::State) -> Option<Self> {
        Some(Counter { name: name.to_string(), state: state.clone(), merges: 0 })
    }

    fn fork(&self, name: &str) -> Option<Self> {
        let name = if BUG == JOINS_WITH_AN_OLD_NAME { self.name.clone() } else { name.to_string() };
        Some(Counter { name, ..self.clone() })
    }
}

/// The clock and the replica of a write.
type Marker = (u64, String);

/// An `LWWReg`, whose marker is a clock and its replica.
#[derive(Clone)]
pub struct Register<const BUG: u8 = 0> {
    name: String,
    clock: u64,
    state: LWWReg<u64, Marker>,
}

impl<const BUG: u8> Replica for Register<BUG> {
    type Message = ();
    type State = LWWReg<u64, Marker>;
    const KIND: Kind = Kind::Register;
    const MERGES: bool = true;

    fn create(name: &str) -> Self {
        Register { name: name.to_string(), clock: 0, state: LWWReg { val: 0, marker: (0, String::new()) } }
    }

    fn update(&mut self, update: Update) -> Sent<()> {
        if let Update::Write(value) = update {
            self.clock += 1;
            self.state.update(value, (self.clock, self.name.clone()));
        }
        Sent::new(()).clock(self.clock)
    }

    fn read(&self) -> Value {
        Value::Register(Some(self.state.val).filter(|_| self.state.marker.0 > 0))
    }

    fn state(&self) -> Option<Self::State> {
        Some(self.state.clone())
    }

    fn merge(&mut self, state: &Self::State) {
        if BUG == LETS_ARRIVAL_WIN && state.marker.0 >= self.state.marker.0 {
            self.state = state.clone();
        }
        self.state.merge(state.clone());
        if BUG != IGNORES_OTHER_CLOCKS {
            self.clock = self.clock.max(self.state.marker.0);
        }
    }

    fn load(name: &str, state: &Self::State) -> Option<Self> {
        Some(Register { name: name.to_string(), clock: state.marker.0, state: state.clone() })
    }

    fn fork(&self, name: &str) -> Option<Self> {
        Some(Register { name: name.to_string(), ..self.clone() })
    }
}

/// An `Orswot`, an OR-Set.
#[derive(Clone)]
pub struct Set<const BUG: u8 = 0> {
    name: String,
    state: Orswot<u64, String>,
    shown_before: BTreeSet<u64>,
}

impl<const BUG: u8> Set<BUG> {
    fn elements(&self) -> BTreeSet<u64> {
        self.state.read().val.into_iter().collect()
    }
}

impl<const BUG: u8> Replica for Set<BUG> {
    type Message = ();
    type State = Orswot<u64, String>;
    const KIND: Kind = Kind::OrSet;
    const MERGES: bool = true;

    fn create(name: &str) -> Self {
        Set { name: name.to_string(), state: Orswot::new(), shown_before: BTreeSet::new() }
    }

    /// The set keeps one dot of each replica, so that an addition replaces an older one: it sends no identifiers.
    fn update(&mut self, update: Update) -> Sent<()> {
        self.shown_before.clear();
        let operation = match update {
            Update::Add(element) => {
                let context = self.state.read_ctx().derive_add_ctx(self.name.clone());
                self.state.add(element, context)
            }
            Update::Remove(element) => {
                let context = self.state.contains(&element).derive_rm_ctx();
                self.state.rm(element, context)
            }
            other => unreachable!("{other:?} is no update of a set"),
        };
        self.state.apply(operation);
        Sent::new(())
    }

    fn read(&self) -> Value {
        Value::Elements(self.elements().union(&self.shown_before).copied().collect())
    }

    fn state(&self) -> Option<Self::State> {
        Some(self.state.clone())
    }

    fn merge(&mut self, state: &Self::State) {
        if BUG == SHOWS_REMOVED_ELEMENTS {
            self.shown_before = self.elements();
        }
        self.state.merge(state.clone());
    }

    fn load(name: &str, state: &Self::State) -> Option<Self> {
        let state = if BUG == FORGETS_ITS_STATE { Orswot::new() } else { state.clone() };
        Some(Set { name: name.to_string(), state, shown_before: BTreeSet::new() })
    }

    fn fork(&self, name: &str) -> Option<Self> {
        Some(Set { name: name.to_string(), ..self.clone() })
    }
}

/// A `GSet`: an OR-Set without removals.
#[derive(Clone)]
pub struct GrowOnlySet(GSet<u64>);

impl Replica for GrowOnlySet {
    type Message = ();
    type State = GSet<u64>;
    const KIND: Kind = Kind::OrSet;
    const MERGES: bool = true;

    fn create(_: &str) -> Self {
        GrowOnlySet(GSet::new())
    }

    fn update(&mut self, update: Update) -> Sent<()> {
        if let Update::Add(element) = update {
            self.0.insert(element);
        }
        Sent::new(())
    }

    fn read(&self) -> Value {
        Value::Elements(self.0.read().into_iter().collect())
    }

    fn state(&self) -> Option<Self::State> {
        Some(self.0.clone())
    }

    fn merge(&mut self, state: &Self::State) {
        self.0.merge(state.clone());
    }

    fn load(_: &str, state: &Self::State) -> Option<Self> {
        Some(GrowOnlySet(state.clone()))
    }

    fn fork(&self, _: &str) -> Option<Self> {
        Some(self.clone())
    }

    fn has(method: Method) -> bool {
        method != Method::Remove
    }
}
