//! The options of random runs.

use std::path::{Path, PathBuf};

use crate::Method;

/// The order in which messages arrive at a replica.
#[derive(Clone, Copy, Debug, PartialEq, Eq)]
pub enum Delivery {
    /// The transport delivers in causal order.
    Causal,
    /// Messages arrive in any order, and the type buffers those that depend on a missing one.
    Any,
}

/// What the transport of a type may do, and whether its replicas restart.
#[derive(Clone, Copy, Debug, PartialEq, Eq)]
pub(crate) struct Profile {
    pub(crate) delivery: Delivery,
    pub(crate) duplicates: bool,
    pub(crate) late_states: bool,
    pub(crate) restarts: bool,
}

/// The options of [`check_random`](crate::check_random) and [`replay`](crate::replay).
///
/// ```
/// use yehatu::{Delivery, Method, RandomOptions};
///
/// let options = RandomOptions::new()
///     .seeds(200)
///     .delivery(Delivery::Any)
///     .weight(Method::Remove, 3.0)
///     .failure("target/failure.json");
/// ```
#[derive(Clone, Debug)]
#[must_use]
pub struct RandomOptions {
    pub(crate) replicas: Vec<String>,
    pub(crate) operations: usize,
    pub(crate) seeds: Vec<String>,
    pub(crate) delivery: Delivery,
    pub(crate) duplicates: bool,
    pub(crate) late_states: Option<bool>,
    pub(crate) restarts: Option<bool>,
    pub(crate) weights: Vec<(Method, f64)>,
    pub(crate) program: Option<PathBuf>,
    pub(crate) failure: Option<PathBuf>,
}

impl Default for RandomOptions {
    fn default() -> Self {
        RandomOptions::new()
    }
}

impl RandomOptions {
    /// Returns the default options: 3 replicas, 30 operations, and the seeds 0 to 99.
    pub fn new() -> Self {
        RandomOptions {
            replicas: default_names(3),
            operations: 30,
            seeds: (0..100).map(|it: i64| it.to_string()).collect(),
            delivery: Delivery::Causal,
            duplicates: false,
            late_states: None,
            restarts: None,
            weights: Vec::new(),
            program: None,
            failure: None,
        }
    }

    /// Sets the number of replicas, whose names are letters in rising order.
    pub fn replicas(mut self, count: usize) -> Self {
        self.replicas = default_names(count);
        self
    }

    /// Sets the names of the replicas in the order in which the type breaks ties, lowest first.
    pub fn names<S: Into<String>>(mut self, names: impl IntoIterator<Item = S>) -> Self {
        self.replicas = names.into_iter().map(Into::into).collect();
        self
    }

    /// Sets the number of operations of a run.
    pub fn operations(mut self, count: usize) -> Self {
        self.operations = count;
        self
    }

    /// Sets the number of seeds, counted from 0.
    pub fn seeds(mut self, count: u32) -> Self {
        self.seeds = (0..count).map(|it| it.to_string()).collect();
        self
    }

    /// Sets the one seed that is tried, such as "17" or "2-17" with the version of the planner.
    pub fn seed(mut self, seed: impl Into<String>) -> Self {
        self.seeds = vec![seed.into()];
        self
    }

    /// Sets the order in which messages arrive, by default [`Delivery::Causal`].
    pub fn delivery(mut self, delivery: Delivery) -> Self {
        self.delivery = delivery;
        self
    }

    /// Sets whether a message may arrive again, by default no.
    pub fn duplicates(mut self, duplicates: bool) -> Self {
        self.duplicates = duplicates;
        self
    }

    /// Sets whether a state may be merged later than it was taken. By default, a type that merges promises it.
    pub fn late_states(mut self, late_states: bool) -> Self {
        self.late_states = Some(late_states);
        self
    }

    /// Sets whether a replica restarts from its state. By default, one that loads does.
    pub fn restarts(mut self, restarts: bool) -> Self {
        self.restarts = Some(restarts);
        self
    }

    /// Sets the relative frequency of a method.
    ///
    /// By default that of an insertion is 3, that of an addition 2, and that of each other method 1.
    pub fn weight(mut self, method: Method, weight: f64) -> Self {
        self.weights.push((method, weight));
        self
    }

    /// Sets the path of `ra_monitor`, which is looked for as [`Options::program`](crate::Options::program) says.
    pub fn program(mut self, path: impl AsRef<Path>) -> Self {
        self.program = Some(path.as_ref().to_path_buf());
        self
    }

    /// Sets the file for the steps of a failure, whose folder exists. The history is written beside it.
    ///
    /// By default both are temporary files.
    pub fn failure(mut self, path: impl AsRef<Path>) -> Self {
        self.failure = Some(path.as_ref().to_path_buf());
        self
    }
}

/// Returns this number of names in rising order.
fn default_names(count: usize) -> Vec<String> {
    if count <= 26 {
        return (b'a'..=b'z').take(count).map(|it| char::from(it).to_string()).collect();
    }
    (0..count).map(|it| format!("r{it:02}")).collect()
}
