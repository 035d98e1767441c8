//! Random runs of the user's own replicas, and the smallest history of the first failure.

mod delivery_state;
mod driver;
mod failures;
mod faults;
mod network;
mod options;
mod plans;
mod regression;
mod replica;
mod runs;
mod shrinking;
mod steps;
mod stored;

use std::collections::VecDeque;
use std::marker::PhantomData;
use std::path::Path;
use std::time::{Duration, Instant};

use driver::guarded;
use failures::{create_error, create_flaky, require_writable, Place};
pub use options::{Delivery, RandomOptions};
use options::Profile;
use plans::{format_seed, parse_seed, plan, Traits};
pub use replica::{Replica, Sent, Update};
use runs::{find_failure, FailedRun, Run, Setting};
use steps::{renumbered, Action, Step};

use crate::{program, Error, Method};

/// The shortest time between two lines of progress.
const PROGRESS_INTERVAL: Duration = Duration::from_secs(2);
/// The number of histories that are checked while the next run is executed.
const OVERLAP: usize = 4;
/// The number of times that a failed run is run again before it is shrunk.
const REPEATS: usize = 2;

/// Random runs that passed.
#[derive(Clone, Debug, PartialEq, Eq)]
#[non_exhaustive]
pub struct Runs {
    /// The number of runs.
    pub count: usize,
    /// The methods of the kind that the type does not have, so that they were not tried.
    pub unused: Vec<Method>,
}

/// Tests replicas in random runs, one for each seed.
///
/// A seed means the same run as in the JavaScript client. The failed run is shrunk first. The error has the seed, the
/// small history, the faults of the network that are at work in it, and a test of its own;
/// [`Failure::steps`](crate::Failure::steps) is the file for [`replay`].
///
/// # Errors
/// [`Error::Violation`] if a run has a violation, [`Error::Refused`] if the program rejected a report.
/// [`Error::ReplicaFailed`] if a replica panicked or a read returned what cannot be reported. [`Error::FlakyRun`] if a
/// run failed and the same steps did not fail in the same way again. [`Error::InvalidArgument`] if an option is wrong,
/// [`Error::NotRepresentable`] if an update lacks its clock, [`Error::MonitorExited`] if the program cannot be run.
pub fn check_random<R: Replica>(options: &RandomOptions) -> Result<Runs, Error> {
    if options.replicas.is_empty() || options.seeds.is_empty() {
        return Err(Error::invalid("there are no replicas or no seeds, so nothing was run: expected at least one"));
    }
    options.failure.as_deref().map_or(Ok(()), require_writable)?;
    let seeds: Vec<i64> = options.seeds.iter().map(|it| parse_seed(it)).collect::<Result<_, _>>()?;
    let traits = traits_of::<R>(options)?;
    let setting: Setting<R> = Setting {
        names: options.replicas.clone(),
        program: program::find_for_many_runs(options.program.as_deref())?,
        profile: traits.profile,
        replica: PhantomData,
    };
    let mut progress = Progress::new(format!("check_random {}", R::KIND));
    let mut pending = Pending(VecDeque::new());
    let mut test = Test { setting: &setting, runs: 0, progress: &mut progress, path: options.failure.as_deref() };
    for seed in seeds {
        let steps = plan(&traits, setting.names.len(), options.operations, seed);
        match Run::start(&setting, &steps) {
            Ok(run) => pending.0.push_back((seed, steps, run)),
            Err(error) => {
                // An earlier run that failed is reported first.
                test.finish(&mut pending, 0)?;
                return Err(error);
            }
        }
        test.finish(&mut pending, OVERLAP)?;
    }
    test.finish(&mut pending, 0)?;
    let unused = R::KIND.methods().iter().copied().filter(|it| !traits.methods.contains(it)).collect();
    Ok(Runs { count: test.runs, unused })
}

/// Runs the steps of a stored failure again, and returns their number if they pass.
///
/// The file may be one that the Python or the JavaScript client wrote. Steps that the type cannot execute any more are
/// left out.
///
/// # Errors
/// The error of [`check_random`] if the run still fails, [`Error::InvalidArgument`] if the file is no stored failure.
pub fn replay<R: Replica>(path: impl AsRef<Path>) -> Result<usize, Error> {
    replay_with::<R>(path, &RandomOptions::new())
}

/// Does the same with the program of these options.
///
/// # Errors
/// As [`replay`].
pub fn replay_with<R: Replica>(path: impl AsRef<Path>, options: &RandomOptions) -> Result<usize, Error> {
    let path = path.as_ref();
    let stored = stored::load(path)?;
    if stored.kind != R::KIND {
        return Err(Error::invalid(format!(
            "{}: its steps are of the kind {}, and the type is of the kind {}",
            path.display(),
            stored.kind,
            R::KIND
        )));
    }
    let first = stored.replicas.first().ok_or_else(|| Error::invalid(format!("{} has no replicas", path.display())))?;
    let abilities = Abilities::of::<R>(first)?;
    let setting: Setting<R> = Setting {
        program: program::find_for_many_runs(options.program.as_deref())?,
        profile: Profile { restarts: stored.profile.restarts && abilities.loads, ..stored.profile },
        names: stored.replicas,
        replica: PhantomData,
    };
    let steps: Vec<Step> = stored.steps.into_iter().filter(|it| abilities.can_execute::<R>(it)).collect();
    if steps.is_empty() {
        return Err(Error::invalid(format!(
            "{}: the type has none of the methods that the stored steps call, so nothing was run",
            path.display()
        )));
    }
    let run = Run::start(&setting, &steps)?;
    let executed = run.executed();
    let found = match run.find_failure()? {
        None => return Ok(executed),
        Some(it) => it,
    };
    let fails = if found.cause == stored.cause {
        String::from("still fails")
    } else {
        format!("fails in another way ({}, and then {})", found.cause.join(" "), stored.cause.join(" "))
    };
    let summary = format!("the stored run of seed {} {fails}", stored.seed);
    Err(create_error(&setting, &found, &stored.seed, &summary, &Place::Stored(path)))
}

/// What a type can do beside its updates and reads.
struct Abilities {
    has_state: bool,
    loads: bool,
    forks: bool,
}

impl Abilities {
    /// Tries a new replica.
    fn of<R: Replica>(name: &str) -> Result<Self, Error> {
        let probed = guarded(|| {
            let replica = R::create(name);
            let state = replica.state();
            let loads = state.as_ref().map_or(false, |it| R::load(name, it).is_some());
            Abilities { has_state: state.is_some(), loads, forks: replica.fork(name).is_some() }
        });
        probed.map_err(|it| Error::invalid(format!("a new replica {}", it.outcome)))
    }

    fn can_execute<R: Replica>(&self, step: &Step) -> bool {
        match step.action {
            Action::Update => step.method.map_or(false, |it| R::KIND.methods().contains(&it) && R::has(it)),
            Action::Deliver | Action::Duplicate => !R::MERGES,
            Action::Merge | Action::Snapshot | Action::MergeSnapshot => R::MERGES && self.has_state,
            Action::Save | Action::Restart => self.loads,
            Action::Join => self.forks,
            Action::Read => true,
        }
    }
}

fn traits_of<R: Replica>(options: &RandomOptions) -> Result<Traits, Error> {
    let abilities = Abilities::of::<R>(&options.replicas[0])?;
    let methods: Vec<Method> = R::KIND.methods().iter().copied().filter(|it| R::has(*it)).collect();
    let first = R::KIND.methods()[0];
    let problem = if methods.first() != Some(&first) {
        Some(format!("a replica of the kind {} needs the method {}", R::KIND, first.name()))
    } else if R::MERGES && !abilities.has_state {
        Some(String::from("MERGES is true, and `state` returns None: expected the state that others merge"))
    } else if R::MERGES && (options.delivery == Delivery::Any || options.duplicates) {
        Some(String::from(
            "delivery and duplicates are about messages, and this type merges states, for which late_states is meant: \
             leave them out",
        ))
    } else if options.late_states == Some(true) && !R::MERGES {
        Some(String::from("late_states: this type receives messages; expected one with MERGES, state and merge"))
    } else if options.restarts == Some(true) && !abilities.loads {
        Some(String::from("restarts: `state` or `load` returns None; expected a type with both"))
    } else {
        None
    };
    if let Some(it) = problem {
        return Err(Error::invalid(it));
    }
    Ok(Traits {
        kind: R::KIND,
        weights: weights_of(&methods, &options.weights)?,
        methods,
        merges: R::MERGES,
        forks: abilities.forks,
        amounts: R::AMOUNTS,
        profile: Profile {
            delivery: options.delivery,
            duplicates: options.duplicates,
            late_states: options.late_states.unwrap_or(R::MERGES),
            restarts: options.restarts.unwrap_or(abilities.loads),
        },
    })
}

fn weights_of(methods: &[Method], chosen: &[(Method, f64)]) -> Result<Vec<f64>, Error> {
    if let Some((unknown, _)) = chosen.iter().find(|it| !methods.contains(&it.0)) {
        return Err(Error::invalid(format!("weight({unknown:?}, ..): expected a method of this type, {methods:?}")));
    }
    let default = |method: &Method| match method {
        Method::InsertAfter | Method::Insert => 3.0,
        Method::Add => 2.0,
        _ => 1.0,
    };
    let weight = |it: &Method| chosen.iter().rev().find(|(method, _)| method == it).map_or(default(it), |it| it.1);
    let weights: Vec<f64> = methods.iter().map(weight).collect();
    if weights.iter().all(|it| it.is_finite() && *it >= 0.0) && weights[0] > 0.0 {
        return Ok(weights);
    }
    Err(Error::invalid(format!("the weights are {weights:?}: expected numbers of at least 0, and the first above 0")))
}

/// The runs whose histories are being checked, oldest first. Dropping them ends their programs.
struct Pending(VecDeque<(i64, Vec<Step>, Run)>);

impl Drop for Pending {
    fn drop(&mut self) {
        self.0.drain(..).for_each(|(_, _, run)| run.stop());
    }
}

/// A test in progress.
struct Test<'a, R> {
    setting: &'a Setting<R>,
    runs: usize,
    progress: &'a mut Progress,
    path: Option<&'a Path>,
}

impl<R: Replica> Test<'_, R> {
    /// Waits for the oldest runs until at most this number is pending.
    fn finish(&mut self, pending: &mut Pending, most: usize) -> Result<(), Error> {
        while pending.0.len() > most {
            let (seed, steps, run) = match pending.0.pop_front() {
                Some(it) => it,
                None => return Ok(()),
            };
            self.runs += 1;
            if let Some(found) = run.find_failure()? {
                return Err(self.create_error(&steps, found, &format_seed(seed))?);
            }
            self.progress.report(|| format!("{} runs passed so far", self.runs));
        }
        Ok(())
    }

    fn create_error(&mut self, steps: &[Step], found: FailedRun, seed: &str) -> Result<Error, Error> {
        let summary = format!("run {}, seed {seed}", self.runs);
        for _ in 0..REPEATS {
            let again = find_failure(self.setting, steps)?;
            if again.as_ref().map_or(true, |it| it.cause != found.cause) {
                return Ok(create_flaky(self.setting, &found, again.as_ref(), seed, &summary, self.path));
            }
        }
        let count = found.steps.len();
        let small = self.shrink(found)?;
        let shrunk = format!("{summary}, shrunk from {count} steps to {}", small.steps.len());
        Ok(create_error(self.setting, &small, seed, &shrunk, &Place::New(self.path)))
    }

    fn shrink(&mut self, found: FailedRun) -> Result<FailedRun, Error> {
        let (count, cause) = (found.steps.len(), found.cause.clone());
        let mut smallest = count;
        let small = shrinking::shrink(found, |steps| {
            let result = find_failure(self.setting, steps)?;
            if let Some(it) = result.as_ref().filter(|it| it.cause == cause) {
                smallest = smallest.min(it.steps.len());
            }
            self.progress.report(|| format!("a run failed with {count} steps; shrunk to {smallest} so far"));
            Ok(result)
        })?;
        // The messages of the small run are numbered from 1.
        let numbered = find_failure(self.setting, &renumbered(&small.steps))?;
        Ok(numbered.filter(|it| it.cause == small.cause).unwrap_or(small))
    }
}

/// The lines on standard error that show the progress of a long test.
struct Progress {
    test: String,
    last: Instant,
}

impl Progress {
    fn new(test: String) -> Self {
        Progress { test, last: Instant::now() }
    }

    /// Prints the status, unless the last line is too recent.
    fn report(&mut self, status: impl FnOnce() -> String) {
        if self.last.elapsed() > PROGRESS_INTERVAL {
            self.last = Instant::now();
            eprintln!("{}: {}", self.test, status());
        }
    }
}
