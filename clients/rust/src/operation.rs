//! The operations of the six kinds and the results of reads, in the user's own names.

use crate::Kind;

/// An update of a replica, with values of the type `V` and identifiers of the type `I`.
#[derive(Clone, Debug, PartialEq, Eq)]
pub enum Operation<V, I = u64> {
    /// A counter's increment by one.
    Increment,
    /// A counter's decrement by one.
    Decrement,
    /// A register's write.
    Write {
        /// The value that is written.
        value: V,
        /// The clock of the write, which is greater than each clock that its replica has seen.
        clock: u64,
    },
    /// An LWW set's addition.
    AddAt {
        /// The element that is added.
        element: V,
        /// The clock of the addition.
        clock: u64,
    },
    /// An LWW set's removal.
    RemoveAt {
        /// The element that is removed.
        element: V,
        /// The clock of the removal.
        clock: u64,
    },
    /// An OR-Set's addition.
    Add {
        /// The element that is added.
        element: V,
        /// The unique identifier of the addition, or `None` if the type does not expose one.
        identifier: Option<I>,
    },
    /// An OR-Set's removal.
    Remove {
        /// The element that is removed.
        element: V,
        /// The identifiers that are removed, or `None` for those that the replica has observed by the reports. Then
        /// the monitor does not check which ones were removed.
        identifiers: Option<Vec<I>>,
    },
    /// An RGA's insertion.
    InsertAfter {
        /// The element directly behind which the new one is inserted, or `None` for the start.
        anchor: Option<V>,
        /// The element that is inserted, which the list never had before.
        element: V,
        /// The clock of the insertion.
        clock: u64,
    },
    /// A list's insertion, between two elements that its replica had: mostly those that it showed on both sides.
    Insert {
        /// The element in front, or `None` if there was none or it is unknown.
        left: Option<V>,
        /// The element that is inserted, which the list never had before.
        element: V,
        /// The element behind, or `None` if there was none or it is unknown.
        right: Option<V>,
    },
    /// A removal from a list or an RGA.
    Delete {
        /// The element that is removed.
        element: V,
    },
}

/// The result of a read.
#[derive(Clone, Debug, PartialEq, Eq)]
pub enum Value<V = u64> {
    /// The number of a counter.
    Count(i64),
    /// The value of a register, or `None` before the first write.
    Register(Option<V>),
    /// The elements of a set in any order, or those of a list in their order.
    Elements(Vec<V>),
}

impl<V, I> Operation<V, I> {
    /// Creates a register's write.
    #[must_use]
    pub fn write(value: V, clock: u64) -> Self {
        Operation::Write { value, clock }
    }

    /// Creates an LWW set's addition.
    #[must_use]
    pub fn add_at(element: V, clock: u64) -> Self {
        Operation::AddAt { element, clock }
    }

    /// Creates an LWW set's removal.
    #[must_use]
    pub fn remove_at(element: V, clock: u64) -> Self {
        Operation::RemoveAt { element, clock }
    }

    /// Creates an OR-Set's addition without an identifier of the type.
    #[must_use]
    pub fn add(element: V) -> Self {
        Operation::Add { element, identifier: None }
    }

    /// Creates an OR-Set's addition under this identifier.
    #[must_use]
    pub fn add_as(element: V, identifier: I) -> Self {
        Operation::Add { element, identifier: Some(identifier) }
    }

    /// Creates an OR-Set's removal of what its replica has observed by the reports.
    #[must_use]
    pub fn remove(element: V) -> Self {
        Operation::Remove { element, identifiers: None }
    }

    /// Creates an OR-Set's removal of these identifiers.
    #[must_use]
    pub fn remove_of(element: V, identifiers: Vec<I>) -> Self {
        Operation::Remove { element, identifiers: Some(identifiers) }
    }

    /// Creates a list's insertion between two neighbours, of which `None` says that there was none.
    #[must_use]
    pub fn insert(left: Option<V>, element: V, right: Option<V>) -> Self {
        Operation::Insert { left, element, right }
    }

    /// Creates an RGA's insertion directly behind the anchor, or at the start if that is `None`.
    #[must_use]
    pub fn insert_after(anchor: Option<V>, element: V, clock: u64) -> Self {
        Operation::InsertAfter { anchor, element, clock }
    }

    /// Creates a removal from a list or an RGA.
    #[must_use]
    pub fn delete(element: V) -> Self {
        Operation::Delete { element }
    }

    /// Returns whether the kind has this operation.
    pub(crate) fn is_of(&self, kind: Kind) -> bool {
        match self {
            Operation::Increment | Operation::Decrement => kind == Kind::Counter,
            Operation::Write { .. } => kind == Kind::Register,
            Operation::AddAt { .. } | Operation::RemoveAt { .. } => kind == Kind::LwwSet,
            Operation::Add { .. } | Operation::Remove { .. } => kind == Kind::OrSet,
            Operation::InsertAfter { .. } => kind == Kind::Rga,
            Operation::Insert { .. } => kind == Kind::List,
            Operation::Delete { .. } => kind.is_ordered(),
        }
    }
}

impl<V: Ord> Value<V> {
    /// Returns the same result with its elements in ascending order, without those that are repeated.
    ///
    /// Two reads of a set are equal if they are equal so.
    #[must_use]
    pub fn sorted(self) -> Self {
        match self {
            Value::Elements(mut elements) => {
                elements.sort_unstable();
                elements.dedup();
                Value::Elements(elements)
            }
            other => other,
        }
    }
}
