//! The replicas that random runs test.

use crate::{Kind, Method, Value};

/// An update that a random run asks a replica for.
#[derive(Clone, Copy, Debug, PartialEq, Eq)]
pub enum Update {
    /// A counter's increment by an amount, which is 1 unless [`Replica::AMOUNTS`].
    Increment(u64),
    /// A counter's decrement by an amount, which is 1 unless [`Replica::AMOUNTS`].
    Decrement(u64),
    /// A register's write of this value, which no other write of the run has.
    Write(u64),
    /// A set's addition of this element.
    Add(u64),
    /// A removal of this element from a set, or from an RGA that shows it.
    Remove(u64),
    /// A list's insertion of an element that it never had. A list is of the kind [`Kind::List`].
    Insert {
        /// The place of the new element in the list that is shown, counted from 0.
        index: usize,
        /// The new element.
        element: u64,
    },
    /// A list's removal of the shown element at this index.
    Delete {
        /// The place of the element in the list that is shown, counted from 0.
        index: usize,
    },
    /// An RGA's insertion of an element that it never had.
    InsertAfter {
        /// The element directly behind which the new one is inserted, or `None` for the start.
        anchor: Option<u64>,
        /// The new element.
        element: u64,
    },
}

/// What an update sends to the other replicas, with its clock or its identifiers.
#[derive(Clone, Debug, PartialEq, Eq)]
#[must_use]
pub struct Sent<M> {
    /// The message that the other replicas receive, or `()` for a type that merges states.
    pub message: M,
    pub(crate) clock: Option<u64>,
    pub(crate) identifiers: Option<Vec<String>>,
}

impl<M> Sent<M> {
    /// Returns the message of a counter's update, or of an OR-Set that does not expose its identifiers.
    pub fn new(message: M) -> Self {
        Sent { message, clock: None, identifiers: None }
    }

    /// Sets the clock of a write, of an LWW set's update or of an insertion. These need one.
    pub fn clock(mut self, clock: u64) -> Self {
        self.clock = Some(clock);
        self
    }

    /// Sets the unique identifier of an OR-Set's addition.
    pub fn identifier(self, identifier: &impl ToString) -> Self {
        self.identifiers([identifier.to_string()])
    }

    /// Sets the identifiers that an OR-Set's removal removes.
    pub fn identifiers<T: ToString>(mut self, identifiers: impl IntoIterator<Item = T>) -> Self {
        self.identifiers = Some(identifiers.into_iter().map(|it| it.to_string()).collect());
        self
    }
}

/// A replica of the type that [`check_random`](crate::check_random) tests.
///
/// A type whose replicas exchange messages has [`receive`](Replica::receive). A type whose states are merged has
/// [`MERGES`](Replica::MERGES), [`state`](Replica::state) and [`merge`](Replica::merge). What else a type can do is
/// tried if its function returns something: [`load`](Replica::load) for restarts, [`fork`](Replica::fork) for replicas
/// that join.
///
/// ```
/// use yehatu::{check_random, Kind, RandomOptions, Replica, Sent, Update, Value};
///
/// struct Counter(i64);
///
/// impl Replica for Counter {
///     type Message = i64;
///     type State = ();
///     const KIND: Kind = Kind::Counter;
///
///     fn create(_name: &str) -> Self {
///         Counter(0)
///     }
///
///     fn update(&mut self, update: Update) -> Sent<i64> {
///         let by = if let Update::Increment(_) = update { 1 } else { -1 };
///         self.0 += by;
///         Sent::new(by)
///     }
///
///     fn receive(&mut self, message: &i64) {
///         self.0 += message;
///     }
///
///     fn read(&self) -> Value {
///         Value::Count(self.0)
///     }
/// }
///
/// # fn main() -> Result<(), yehatu::Error> {
/// let runs = check_random::<Counter>(&RandomOptions::new().seeds(20))?;
/// assert_eq!(runs.count, 20);
/// # Ok(())
/// # }
/// ```
pub trait Replica: Sized {
    /// What an update sends to the other replicas, or `()` for a type that merges states.
    type Message;
    /// What is merged or stored, or `()` for a type that does neither.
    type State;
    /// The kind of the type.
    const KIND: Kind;
    /// Whether states are merged instead of messages received.
    const MERGES: bool = false;
    /// Whether a counter's updates have amounts. Then amounts up to 256 are tried.
    const AMOUNTS: bool = false;

    /// Creates the replica of this name. The names are in the order in which the type breaks ties, lowest first.
    fn create(name: &str) -> Self;

    /// Updates this replica, and returns what the other replicas receive.
    fn update(&mut self, update: Update) -> Sent<Self::Message>;

    /// Applies the message of another replica.
    fn receive(&mut self, message: &Self::Message) {
        let _ = message;
    }

    /// Returns the result of a read.
    fn read(&self) -> Value;

    /// Returns the state that another replica merges, or that is stored for a restart. By default there is none.
    fn state(&self) -> Option<Self::State> {
        None
    }

    /// Merges the state of another replica.
    fn merge(&mut self, state: &Self::State) {
        let _ = state;
    }

    /// Creates the replica of this name from its stored state. By default nothing restarts.
    fn load(name: &str, state: &Self::State) -> Option<Self> {
        let _ = (name, state);
        None
    }

    /// Returns a copy of this replica under a new name, which joins. By default nothing joins.
    fn fork(&self, name: &str) -> Option<Self> {
        let _ = name;
        None
    }

    /// Returns whether the type has the method. A type that only grows has no [`Method::Remove`] or
    /// [`Method::Decrement`].
    #[must_use]
    fn has(method: Method) -> bool {
        let _ = method;
        true
    }
}
