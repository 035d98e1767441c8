//! The six kinds of data types, and the methods that a replica of each kind has.

use std::fmt;
use std::str::FromStr;

use crate::Error;

/// The kind of a replicated data type, which decides the specification that judges its history.
#[derive(Clone, Copy, Debug, PartialEq, Eq, Hash)]
pub enum Kind {
    /// A counter with increments and decrements by one.
    Counter,
    /// A register in which the last writer wins.
    Register,
    /// A set in which the last addition or removal of an element wins.
    LwwSet,
    /// A set in which a removal removes the additions that its replica has observed.
    OrSet,
    /// A replicated growable array: a list or a text whose elements are ordered by their clocks.
    Rga,
    /// A list or a text of any design, which is judged without clocks.
    List,
}

/// A method of a replica that updates it.
#[derive(Clone, Copy, Debug, PartialEq, Eq, Hash)]
pub enum Method {
    /// A counter's increment.
    Increment,
    /// A counter's decrement.
    Decrement,
    /// A register's write.
    Write,
    /// A set's addition.
    Add,
    /// A removal of an element from a set or an RGA.
    Remove,
    /// An RGA's insertion behind an element.
    InsertAfter,
    /// A list's insertion at an index.
    Insert,
    /// A list's removal at an index.
    Delete,
}

const KINDS: [Kind; 6] = [Kind::Counter, Kind::Register, Kind::LwwSet, Kind::OrSet, Kind::Rga, Kind::List];
const METHODS: [Method; 8] = [
    Method::Increment,
    Method::Decrement,
    Method::Write,
    Method::Add,
    Method::Remove,
    Method::InsertAfter,
    Method::Insert,
    Method::Delete,
];

impl Kind {
    /// Returns the name of the kind in the text format.
    #[must_use]
    pub fn name(self) -> &'static str {
        match self {
            Kind::Counter => "counter",
            Kind::Register => "register",
            Kind::LwwSet => "lwwset",
            Kind::OrSet => "orset",
            Kind::Rga => "rga",
            Kind::List => "list",
        }
    }

    /// Returns whether the elements of the kind have an order.
    pub(crate) fn is_ordered(self) -> bool {
        matches!(self, Kind::Rga | Kind::List)
    }

    /// Returns the methods of a replica of this kind. The first one is required, and the second one is not.
    #[must_use]
    pub fn methods(self) -> &'static [Method] {
        match self {
            Kind::Counter => &[Method::Increment, Method::Decrement],
            Kind::Register => &[Method::Write],
            Kind::LwwSet | Kind::OrSet => &[Method::Add, Method::Remove],
            Kind::Rga => &[Method::InsertAfter, Method::Remove],
            Kind::List => &[Method::Insert, Method::Delete],
        }
    }
}

impl fmt::Display for Kind {
    fn fmt(&self, out: &mut fmt::Formatter<'_>) -> fmt::Result {
        out.pad(self.name())
    }
}

impl FromStr for Kind {
    type Err = Error;

    /// Returns the kind of this name in the text format.
    fn from_str(name: &str) -> Result<Self, Error> {
        KINDS.into_iter().find(|it| it.name() == name).ok_or_else(|| {
            let expected = KINDS.map(Kind::name).join(", ");
            Error::InvalidArgument(format!("unknown kind {name:?}: expected {expected}"))
        })
    }
}

impl Method {
    /// Returns the name of the method in a file of stored steps.
    #[must_use]
    pub fn name(self) -> &'static str {
        match self {
            Method::Increment => "increment",
            Method::Decrement => "decrement",
            Method::Write => "write",
            Method::Add => "add",
            Method::Remove => "remove",
            Method::InsertAfter => "insert_after",
            Method::Insert => "insert",
            Method::Delete => "delete",
        }
    }

    /// Returns the method of this name, which may be in JavaScript's spelling.
    pub(crate) fn from_name(name: &str) -> Option<Self> {
        let is_named = |it: &Method| it.name() == name || (name == "insertAfter" && *it == Method::InsertAfter);
        METHODS.into_iter().find(is_named)
    }
}
