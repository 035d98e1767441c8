//! The monitor behind a pipe: its operations of each kind, its verdicts, and what goes wrong.

use std::fs;
use std::path::{Path, PathBuf};

use yehatu::{Cause, Error, Kind, Monitor, Options};

fn each_reply() -> Options {
    Options::new().window(1)
}

/// Returns the path of a program that stands in for the monitor.
///
/// It is stored, and not written by the test: while a file is open for writing, another test's thread may start a
/// process, which holds the file open for a moment, and the file cannot be executed then ("Text file busy").
fn stored_program(name: &str) -> PathBuf {
    Path::new(env!("CARGO_MANIFEST_DIR")).join("tests/programs").join(name)
}

#[test]
fn a_counter_is_explained() {
    let mut monitor = Monitor::new(Kind::Counter, &["a", "b"]).unwrap();
    let up = monitor.increment("a").unwrap();
    let down = monitor.decrement("b").unwrap();
    monitor.deliver("b", up).unwrap();
    monitor.deliver("a", down).unwrap();
    monitor.read_count("a", 0).unwrap();
    assert_eq!(monitor.verdict().unwrap(), 3);
    monitor.join("c", "b").unwrap();
    assert_eq!(monitor.read_count("c", 0).unwrap().number(), 3);
    let lines = "a inc\nb dec\nb got 0\na got 1\na read 0\nverdict\njoin c b\nc read 0\n";
    assert_eq!(monitor.history(), format!("RAH 2 counter\nreplicas a b\n{lines}"));
    let report = monitor.close().unwrap();
    assert_eq!((report.kind, report.labels, report.calls, report.refused), (Kind::Counter, 4, 8, 0));
    assert!(report.is_linearizable);
}

#[test]
fn a_register_is_explained() {
    let mut monitor = Monitor::new(Kind::Register, &["a", "b"]).unwrap();
    monitor.read_register("b", None).unwrap();
    let label = monitor.write("a", 7, 5).unwrap();
    monitor.deliver("b", label).unwrap();
    monitor.read_register("b", Some(7)).unwrap();
    assert!(monitor.close().unwrap().is_linearizable);
}

#[test]
fn sets_are_explained() {
    let mut lww = Monitor::new(Kind::LwwSet, &["a"]).unwrap();
    lww.add_at("a", 5, 1).unwrap();
    lww.add_at("a", 4, 2).unwrap();
    lww.read_elements("a", &[5, 4]).unwrap();
    lww.remove_at("a", 4, 3).unwrap();
    lww.read_elements("a", &[5]).unwrap();
    assert!(lww.close().unwrap().is_linearizable);
    let mut observed = Monitor::new(Kind::OrSet, &["a"]).unwrap();
    observed.add("a", 4, 1).unwrap();
    observed.add("a", 4, 2).unwrap();
    observed.remove("a", 4, &[2, 1]).unwrap();
    observed.read_elements("a", &[]).unwrap();
    assert!(observed.close().unwrap().is_linearizable);
}

#[test]
fn a_list_is_explained() {
    let mut monitor = Monitor::new(Kind::Rga, &["a"]).unwrap();
    monitor.insert_after("a", None, 2, 1).unwrap();
    monitor.insert_after("a", None, 1, 2).unwrap();
    monitor.insert_after("a", Some(2), 3, 3).unwrap();
    monitor.read_elements("a", &[1, 2, 3]).unwrap();
    monitor.delete("a", 2).unwrap();
    monitor.read_elements("a", &[1, 3]).unwrap();
    assert!(monitor.close().unwrap().is_linearizable);
}

#[test]
fn a_violation_is_an_error_that_prints_the_explanation() {
    let path = std::env::temp_dir().join(format!("yehatu_test_{}.rah", std::process::id()));
    let options = each_reply().history(&path);
    let mut monitor = Monitor::with_options(Kind::Counter, &["a", "b"], &options).unwrap();
    monitor.increment("a").unwrap();
    let error = monitor.read_count("a", 2).unwrap_err();
    let violation = match &error {
        Error::Violation(it) => it,
        other => panic!("{other}"),
    };
    assert_eq!(violation.cause, Cause::Query);
    assert_eq!(violation.failure.reply, "no 1 query");
    assert_eq!(violation.failure.operation, "a read 2");
    let begins = "a read 2: not RA-linearizable, its result does not follow from the updates that it sees";
    assert!(error.to_string().starts_with(begins), "{error}");
    let as_error: &dyn std::error::Error = violation.as_ref();
    assert_eq!(as_error.to_string(), error.to_string());
    assert_eq!(format!("{error:?}"), error.to_string());
    assert_eq!(fs::read_to_string(&path).unwrap(), "RAH 2 counter\nreplicas a b\na inc\na read 2\n");
    // The same failure is returned by each later call.
    assert_eq!(monitor.increment("b").unwrap_err().to_string(), error.to_string());
    assert_eq!(monitor.close().unwrap_err().to_string(), error.to_string());
    fs::remove_file(path).unwrap();
}

#[test]
fn a_violation_is_found_within_the_window() {
    let mut monitor = Monitor::new(Kind::Counter, &["a"]).unwrap();
    monitor.read_count("a", 1).unwrap();
    assert!(matches!(monitor.settle(), Err(Error::Violation(_))));
    let mut closed = Monitor::new(Kind::Counter, &["a"]).unwrap();
    closed.read_count("a", 1).unwrap();
    assert!(matches!(closed.close(), Err(Error::Violation(_))));
}

/// Fewer lines than a batch has are written too, though no call waits.
#[test]
fn a_violation_is_noticed_before_a_batch_is_full() {
    let mut monitor = Monitor::new(Kind::Counter, &["a"]).unwrap();
    monitor.read_count("a", 1).unwrap();
    let is_noticed = (0..30).any(|_| {
        std::thread::sleep(std::time::Duration::from_millis(100));
        matches!(monitor.increment("a"), Err(Error::Violation(_)))
    });
    assert!(is_noticed);
}

#[test]
fn a_rejected_report_is_an_error() {
    let mut monitor = Monitor::with_options(Kind::Counter, &["a", "b"], &each_reply()).unwrap();
    let label = monitor.increment("a").unwrap();
    let error = monitor.deliver("a", label).unwrap_err();
    assert!(matches!(&error, Error::Refused(it) if it.reply == "refused already-seen"), "{error}");
    // Also the temporary file is the same.
    assert_eq!(monitor.increment("a").unwrap_err().to_string(), error.to_string());
    let mut unknown = Monitor::with_options(Kind::Counter, &["a"], &each_reply()).unwrap();
    assert!(matches!(unknown.increment("c"), Err(Error::Refused(_))));
}

#[test]
fn names_are_checked_before_the_program_starts() {
    let names: [&[&str]; 6] = [&[], &["a", "a"], &["A"], &["a b"], &["verdict"], &["abcdefghijklmnopq"]];
    for wrong in names {
        assert!(matches!(Monitor::new(Kind::Counter, wrong), Err(Error::NotRepresentable(_))), "{wrong:?}");
    }
    let mut monitor = Monitor::new(Kind::Counter, &["a"]).unwrap();
    assert!(matches!(monitor.increment("a inc\na"), Err(Error::NotRepresentable(_))));
    monitor.stop();
}

/// Both pipes are full while nobody reads replies but the reader: 20,000 lines are more than 64 KiB in each direction.
#[test]
fn a_million_bytes_are_sent_without_waiting() {
    let options = Options::new().program(stored_program("answers")).window(1_000_000);
    let mut monitor = Monitor::with_options(Kind::Counter, &["a"], &options).unwrap();
    for _ in 0..40_000 {
        monitor.increment("a").unwrap();
    }
    assert_eq!(monitor.close().unwrap().labels, 40_000);
}

#[test]
fn a_program_that_ends_early_is_described() {
    let options = each_reply().program(stored_program("fails"));
    let mut monitor = Monitor::with_options(Kind::Counter, &["a"], &options).unwrap();
    let error = monitor.increment("a").unwrap_err();
    assert!(matches!(&error, Error::MonitorExited(it) if it.contains("\"no memory\"")), "{error}");
    assert!(error.to_string().contains("exit status: 2"), "{error}");
    let missing = Options::new().program("/nowhere/ra_monitor");
    let error = Monitor::with_options(Kind::Counter, &["a"], &missing).unwrap_err();
    assert!(error.to_string().starts_with("/nowhere/ra_monitor is not a program"), "{error}");
}

#[test]
fn a_program_that_is_no_monitor_is_named() {
    let options = each_reply().program(stored_program("repeats"));
    let mut monitor = Monitor::with_options(Kind::Counter, &["a"], &options).unwrap();
    let error = monitor.increment("a").unwrap_err();
    assert!(error.to_string().contains("the program is not a monitor"), "{error}");
}

#[test]
#[should_panic(expected = "was not closed")]
fn a_monitor_that_is_not_closed_panics() {
    let mut monitor = Monitor::new(Kind::Counter, &["a"]).unwrap();
    monitor.increment("a").unwrap();
}

#[test]
fn a_monitor_may_be_left_open() {
    let options = Options::new().must_close(false);
    drop(Monitor::with_options(Kind::Counter, &["a"], &options).unwrap());
    Monitor::new(Kind::Counter, &["a"]).unwrap().stop();
}
