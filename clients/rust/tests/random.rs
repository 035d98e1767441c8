//! Random runs: correct types pass, planted bugs are found, shrunk and run again.

mod support;

use std::fs;
use std::path::PathBuf;

use support::*;
use yehatu::{check_random, replay, Delivery, Error, Kind, Method, RandomOptions, Replica, Sent, Update, Value};

/// The number of runs of each correct type.
fn runs() -> u32 {
    std::env::var("YEHATU_RUNS").ok().and_then(|it| it.parse().ok()).unwrap_or(50)
}

fn folder(name: &str) -> PathBuf {
    let path = std::env::temp_dir().join(format!("yehatu_random_{}_{name}", std::process::id()));
    fs::create_dir_all(&path).unwrap();
    path
}

fn passes<R: Replica>() {
    let passed = check_random::<R>(&RandomOptions::new().seeds(runs())).unwrap();
    assert_eq!(passed.count, runs() as usize);
}

/// Finds the bug within 200 runs, runs the shrunk steps again, and runs those of the correct type, which passes.
fn finds<Bug: Replica, Correct: Replica>(name: &str, options: RandomOptions, longest: usize) -> Error {
    let folder = folder(name);
    let path = folder.join("failure.json");
    let error = check_random::<Bug>(&options.seeds(200).failure(&path)).unwrap_err();
    let failure = error.failure().unwrap_or_else(|| panic!("{error}"));
    let shrunk = error.to_string().split(" steps to ").nth(1).and_then(|it| it.split(';').next()?.parse().ok());
    assert!(shrunk.map_or(false, |it: usize| it <= longest), "{error}");
    let again = replay::<Bug>(&path).unwrap_err();
    assert!(again.to_string().starts_with("the stored run of seed 2-"), "{again}");
    assert!(again.to_string().contains(" still fails: "), "{again}");
    assert_eq!(again.failure().unwrap().operation, failure.operation);
    let passed = replay::<Correct>(&path).unwrap();
    assert!(passed >= 1, "{passed}");
    fs::remove_dir_all(folder).unwrap();
    eprintln!("{name}: {}", error.to_string().lines().find(|it| it.contains("shrunk from")).unwrap_or(""));
    error
}

#[test]
fn correct_replicas_pass() {
    passes::<Counter>();
    passes::<MergedCounter>();
    passes::<Register>();
    passes::<LwwSet>();
    passes::<OrSet>();
    passes::<Rga>();
}

#[test]
fn a_lost_delivery_is_found() {
    let error = finds::<Counter<LOSES_A_DELIVERY>, Counter>("lost", RandomOptions::new(), 8);
    assert!(matches!(error, Error::Violation(_)));
}

#[test]
fn ties_by_arrival_are_found() {
    let error = finds::<Register<BREAKS_TIES_BY_ARRIVAL>, Register>("ties", RandomOptions::new(), 4);
    let text = error.to_string();
    assert!(text.contains("not RA-linearizable, its result does not follow from the updates that it sees"), "{text}");
    assert!(text.contains("the same as a test:"), "{text}");
    finds::<Rga<BREAKS_TIES_BY_ARRIVAL>, Rga>("list", RandomOptions::new(), 6);
}

#[test]
fn a_clock_that_is_not_raised_is_found() {
    let error = finds::<Register<DOES_NOT_RAISE_ITS_CLOCK>, Register>("clock", RandomOptions::new(), 5);
    assert!(matches!(&error, Error::Violation(it) if it.cause == yehatu::Cause::Order), "{error}");
}

#[test]
fn removals_of_what_was_not_seen_are_found() {
    finds::<LwwSet<REMOVES_UNSEEN>, LwwSet>("lwwset", RandomOptions::new(), 5);
    finds::<OrSet<REMOVES_UNSEEN>, OrSet>("orset", RandomOptions::new(), 6);
}

#[test]
fn an_overflow_is_found_with_amounts() {
    let error = finds::<Counter<OVERFLOWS>, Counter>("overflow", RandomOptions::new(), 3);
    assert!(error.to_string().contains("reads -128"), "{error}");
}

#[test]
fn a_restart_that_forgets_its_clock_is_found() {
    let error = finds::<Register<FORGETS_ITS_CLOCK>, Register>("restart", RandomOptions::new(), 6);
    assert!(error.to_string().contains("restarted from its"), "{error}");
}

#[test]
fn a_duplicate_that_counts_is_found() {
    struct Once(MergedCounter);
    impl Replica for Once {
        type Message = <MergedCounter as Replica>::State;
        type State = ();
        const KIND: Kind = Kind::Counter;

        fn create(name: &str) -> Self {
            Once(MergedCounter::create(name))
        }

        fn update(&mut self, update: Update) -> Sent<Self::Message> {
            let _ = self.0.update(update);
            Sent::new(self.0.state().unwrap())
        }

        fn receive(&mut self, message: &Self::Message) {
            self.0.merge(message);
        }

        fn read(&self) -> Value {
            self.0.read()
        }
    }
    let options = RandomOptions::new().duplicates(true);
    let error = finds::<Counter<COUNTS_DUPLICATES>, Once>("duplicate", options, 4);
    assert!(error.to_string().contains("at work: message 1 arrived twice"), "{error}");
}

#[test]
fn a_late_state_that_undoes_newer_entries_is_found() {
    let error =
        finds::<MergedCounter<UNDOES_NEWER_ENTRIES>, MergedCounter>("late", RandomOptions::new().restarts(false), 6);
    assert!(error.to_string().contains("at work: a state of "), "{error}");
}

#[test]
fn messages_out_of_order_are_found_unless_they_are_buffered() {
    // A list without a buffer panics or shows nothing for an anchor that it does not have.
    let options = RandomOptions::new().delivery(Delivery::Any).seeds(200);
    let error = check_random::<Register<DOES_NOT_RAISE_ITS_CLOCK>>(&options).unwrap_err();
    assert!(error.failure().is_some(), "{error}");
    assert!(check_random::<Counter>(&options.seeds(20)).is_err());
}

#[test]
fn a_panic_is_a_failure_with_its_call() {
    let path = folder("panic").join("failure.json");
    let options = RandomOptions::new().failure(&path);
    let error = check_random::<Counter<PANICS>>(&options).unwrap_err();
    assert!(matches!(error, Error::ReplicaFailed(_)), "{error}");
    let operation = &error.failure().unwrap().operation;
    assert!(operation.ends_with("panicked: the third message"), "{operation}");
    assert!(operation.contains(": receive(message "), "{operation}");
    let again = replay::<Counter<PANICS>>(&path).unwrap_err();
    assert_eq!(&again.failure().unwrap().operation, operation);
    assert_eq!(replay::<Counter>(&path).unwrap(), 6);
    fs::remove_dir_all(path.parent().unwrap()).unwrap();
}

#[test]
fn a_run_that_does_not_repeat_is_flaky() {
    use std::sync::atomic::{AtomicU64, Ordering};
    static CALLS: AtomicU64 = AtomicU64::new(0);
    struct Flaky;
    impl Replica for Flaky {
        type Message = ();
        type State = ();
        const KIND: Kind = Kind::Counter;

        fn create(_: &str) -> Self {
            Flaky
        }

        fn update(&mut self, _: Update) -> Sent<()> {
            Sent::new(())
        }

        fn read(&self) -> Value {
            Value::Count(i64::try_from(CALLS.fetch_add(1, Ordering::Relaxed)).unwrap())
        }
    }
    let stops_flaking = check_random::<Flaky>(&RandomOptions::new().operations(0).replicas(1));
    let error = stops_flaking.unwrap_err();
    assert!(matches!(error, Error::FlakyRun(_) | Error::Violation(_)), "{error}");
}

#[test]
fn options_are_checked() {
    struct GrowOnly;
    impl Replica for GrowOnly {
        type Message = ();
        type State = ();
        const KIND: Kind = Kind::OrSet;

        fn create(_: &str) -> Self {
            GrowOnly
        }

        fn update(&mut self, _: Update) -> Sent<()> {
            Sent::new(())
        }

        fn read(&self) -> Value {
            Value::Count(0)
        }

        fn has(method: Method) -> bool {
            method == Method::Add
        }
    }
    let error = |options: RandomOptions| check_random::<Counter>(&options).unwrap_err().to_string();
    assert!(error(RandomOptions::new().seeds(0)).contains("so nothing was run"));
    assert!(error(RandomOptions::new().replicas(0)).contains("so nothing was run"));
    assert!(error(RandomOptions::new().seed("1-17")).contains("of version 1 of the planner"));
    assert!(error(RandomOptions::new().seed("x")).contains("the seed \"x\" is unknown"));
    assert!(error(RandomOptions::new().late_states(true)).contains("receives messages"));
    assert!(error(RandomOptions::new().restarts(true)).contains("`load` returns None"));
    assert!(error(RandomOptions::new().weight(Method::Add, 1.0)).contains("expected a method of this type"));
    assert!(error(RandomOptions::new().weight(Method::Increment, 0.0)).contains("the first above 0"));
    assert!(error(RandomOptions::new().failure("/nowhere/failure.json")).contains("in a folder that exists"));
    let merged = check_random::<MergedCounter>(&RandomOptions::new().duplicates(true)).unwrap_err();
    assert!(merged.to_string().contains("for which late_states is meant"), "{merged}");
    let grown = check_random::<GrowOnly>(&RandomOptions::new().seeds(3)).unwrap_err();
    assert!(matches!(grown, Error::ReplicaFailed(_)), "{grown}");
    assert!(grown.failure().unwrap().operation.contains("returned Count(0): expected Value::Elements"), "{grown}");
}

#[test]
fn a_seed_of_the_planner_is_tried_alone() {
    for seed in ["0", "2-0"] {
        assert_eq!(check_random::<OrSet>(&RandomOptions::new().seed(seed)).unwrap().count, 1);
    }
}
