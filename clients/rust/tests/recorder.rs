//! The recorder: names and values of any type, messages, merges, joins, and steps of several threads.

use std::sync::atomic::{AtomicI64, Ordering};
use std::sync::Arc;
use std::thread;

use yehatu::{Cause, Error, Kind, Operation, Options, Recorder, Value};

/// A name that the text format cannot have.
#[derive(Clone, Debug, PartialEq, Eq, Hash)]
struct Device {
    owner: &'static str,
    number: u8,
}

fn each_reply() -> Options {
    Options::new().window(1)
}

#[test]
fn names_and_values_of_any_type_are_numbered() {
    let (phone, laptop) = (Device { owner: "Ann", number: 1 }, Device { owner: "Bob", number: 2 });
    let recorder: Recorder<Device, String, (u8, u8)> =
        Recorder::new(Kind::Register, [phone.clone(), laptop.clone()]).unwrap();
    recorder.read(&laptop, &Value::Register(None)).unwrap();
    recorder.update(&phone, &Operation::write(String::from("x"), 3), (1, 1)).unwrap();
    recorder.deliver(&laptop, &(1, 1)).unwrap();
    // A repeated delivery is not reported.
    recorder.deliver(&laptop, &(1, 1)).unwrap();
    recorder.read(&laptop, &Value::Register(Some(String::from("x")))).unwrap();
    let expected = "RAH 2 register\nreplicas r0 r1\nr1 read none\nr0 write 1 @3\nr1 got 1\nr1 read 1\n";
    assert_eq!(recorder.history(), expected);
    assert!(recorder.close().unwrap().is_linearizable);
}

#[test]
fn names_of_the_text_format_are_kept() {
    let recorder: Recorder<&str> = Recorder::new(Kind::Counter, ["r1", "Ann", "bob", "verdict"]).unwrap();
    assert_eq!(recorder.history(), "RAH 2 counter\nreplicas r1 r0 bob r2\n");
    recorder.stop();
}

#[test]
fn a_violation_is_explained_in_the_users_names() {
    let recorder: Recorder<&str, &str, &str> =
        Recorder::with_options(Kind::OrSet, ["Ann's phone", "Bob's laptop"], &each_reply()).unwrap();
    recorder.update(&"Ann's phone", &Operation::add("milk"), "m1").unwrap();
    recorder.deliver(&"Bob's laptop", &"m1").unwrap();
    let error = recorder.read(&"Bob's laptop", &Value::Elements(vec![])).unwrap_err();
    assert!(matches!(&error, Error::Violation(it) if it.cause == Cause::Query), "{error}");
    assert_eq!(error.failure().unwrap().operation, "\"Bob's laptop\" reads []");
    let shown = "\"Bob's laptop\" receives message \"m1\", label 0 \
                 (\"Ann's phone\" adds \"milk\" under an unnamed one)";
    assert!(error.to_string().contains(shown), "{error}");
    assert_eq!(recorder.close().unwrap_err().to_string(), error.to_string());
}

#[test]
fn whether_another_order_explains_a_violation_is_reported() {
    let another = "another order explains what was reported: suspect a clock, a tie-break or a delivery";
    for (value, row) in [(7, another), (8, "no order explains what was reported, whatever the clocks are")] {
        let recorder: Recorder<&str, u64, &str> =
            Recorder::with_options(Kind::Register, ["Ann", "Bob"], &each_reply()).unwrap();
        recorder.update(&"Ann", &Operation::write(7, 1), "seven").unwrap();
        recorder.update(&"Bob", &Operation::write(9, 2), "nine").unwrap();
        recorder.deliver(&"Bob", &"seven").unwrap();
        let error = recorder.read(&"Bob", &Value::Register(Some(value))).unwrap_err();
        assert!(error.to_string().contains(&format!("\n{row}\n")), "{error}");
        assert_eq!(recorder.close().unwrap_err().to_string(), error.to_string());
    }
}

#[test]
fn identifiers_are_those_of_the_type_or_those_observed() {
    let recorder: Recorder<&str, &str, u64, &str> = Recorder::new(Kind::OrSet, ["a", "b"]).unwrap();
    recorder.update(&"a", &Operation::add_as("x", "a1"), 1).unwrap();
    recorder.update(&"b", &Operation::add_as("x", "b1"), 2).unwrap();
    recorder.deliver(&"a", &2).unwrap();
    recorder.update(&"a", &Operation::remove_of("x", vec!["b1", "a1"]), 3).unwrap();
    recorder.update(&"b", &Operation::remove("x"), 4).unwrap();
    recorder.read(&"b", &Value::Elements(vec![])).unwrap();
    let expected = "a add 1 #1\nb add 1 #2\na got 1\na remove 1 #1,2\nb remove 1 #2\nb read -\n";
    assert!(recorder.history().ends_with(expected), "{}", recorder.history());
    assert!(recorder.close().unwrap().is_linearizable);
}

#[test]
fn a_removal_of_the_wrong_identifiers_is_explained() {
    let recorder: Recorder<&str, &str, u64, &str> =
        Recorder::with_options(Kind::OrSet, ["a", "b"], &each_reply()).unwrap();
    recorder.update(&"a", &Operation::add_as("x", "a1"), None).unwrap();
    let error = recorder.update(&"a", &Operation::remove_of("x", vec![]), None).unwrap_err();
    let shown = "it names the identifiers none, and by the reports its replica had \"a1\"";
    assert!(error.to_string().contains(shown), "{error}");
}

#[test]
fn states_are_merged_and_copied() {
    let recorder: Recorder<&str> = Recorder::new(Kind::Counter, ["a", "b"]).unwrap();
    recorder.update(&"a", &Operation::Increment, None).unwrap();
    let early = recorder.seen(&"a").unwrap();
    recorder.update(&"a", &Operation::Increment, None).unwrap();
    recorder.merge(&"b", &early).unwrap();
    recorder.read(&"b", &Value::Count(1)).unwrap();
    recorder.join("c", &"a").unwrap();
    recorder.read(&"c", &Value::Count(2)).unwrap();
    recorder.update(&"c", &Operation::Decrement, 7).unwrap();
    recorder.step(|reports| {
        let state = reports.seen(&"c")?;
        reports.merge(&"b", &state)
    }).unwrap();
    recorder.step(|reports| reports.merge_messages(&"a", &[7])).unwrap();
    recorder.read(&"a", &Value::Count(1)).unwrap();
    recorder.read(&"b", &Value::Count(1)).unwrap();
    // An impossible join does not end the history.
    assert!(matches!(recorder.join("c", &"a"), Err(Error::NotRepresentable(_))));
    assert!(recorder.close().unwrap().is_linearizable);
}

#[test]
fn a_composition_has_one_message() {
    let recorder: Recorder<&str> = Recorder::new(Kind::Counter, ["a", "b"]).unwrap();
    recorder.step(|it| it.compose(&"a", &[Operation::Increment, Operation::Increment], 1)).unwrap();
    recorder.deliver(&"b", &1).unwrap();
    recorder.read(&"b", &Value::Count(2)).unwrap();
    assert!(recorder.close().unwrap().is_linearizable);
}

#[test]
fn large_clocks_keep_their_distance() {
    let recorder: Recorder<&str, char> = Recorder::new(Kind::LwwSet, ["a"]).unwrap();
    let now = 1_764_000_000_000;
    recorder.update(&"a", &Operation::add_at('x', now), None).unwrap();
    recorder.update(&"a", &Operation::remove_at('x', now + 5), None).unwrap();
    assert!(recorder.history().ends_with("a add 1 @268435456\na remove 1 @268435461\n"), "{}", recorder.history());
    let error = recorder.update(&"a", &Operation::add_at('y', 5), None).unwrap_err();
    assert!(error.to_string().contains("the clock 5 is too early"), "{error}");
    // What could not be reported ends the history.
    assert_eq!(recorder.close().unwrap_err().to_string(), error.to_string());
}

#[test]
fn what_cannot_be_reported_is_named() {
    type Report = fn(&mut yehatu::Reports<&'static str>) -> Result<(), Error>;
    let cases: [(Report, &str); 5] = [
        (|it| it.read(&"c", &Value::Count(1)), "read(\"c\", Count(1)): unknown replica \"c\""),
        (|it| it.deliver(&"a", &9), "no update was reported with the message 9; none is known"),
        (|it| it.update(&"a", &Operation::write(1, 1), None), "is not an operation of the kind counter"),
        (|it| it.read(&"a", &Value::Count(1 << 31)), "expected Value::Count with a number"),
        (|it| it.read(&"a", &Value::Register(None)), "a read of the kind counter returned Register(None)"),
    ];
    for (report, message) in cases {
        let recorder: Recorder<&str> = Recorder::new(Kind::Counter, ["a"]).unwrap();
        let error = recorder.step(report).unwrap_err();
        assert!(matches!(error, Error::NotRepresentable(_)) && error.to_string().contains(message), "{error}");
        assert_eq!(recorder.close().unwrap_err().to_string(), error.to_string());
    }
    let repeated: Recorder<&str> = Recorder::new(Kind::Counter, ["a"]).unwrap();
    repeated.update(&"a", &Operation::Increment, 1).unwrap();
    let error = repeated.update(&"a", &Operation::Increment, 1).unwrap_err();
    assert!(error.to_string().contains("the message 1 was reported before"), "{error}");
}

/// The last replica receives each update at once, so that what it reads is the number of steps so far.
#[test]
fn steps_of_many_threads_are_not_mixed() {
    const THREADS: usize = 4;
    let recorder: Arc<Recorder<usize>> = Arc::new(Recorder::new(Kind::Counter, 0..=THREADS).unwrap());
    let steps = Arc::new(AtomicI64::new(0));
    let count = |own: usize, recorder: &Recorder<usize>, steps: &AtomicI64| {
        for number in 0..500 {
            let message = (number * THREADS + own) as u64;
            let step = recorder.step(|reports| {
                let count = steps.load(Ordering::Relaxed) + 1;
                reports.update(&own, &Operation::Increment, message)?;
                reports.deliver(&THREADS, &message)?;
                steps.store(count, Ordering::Relaxed);
                reports.read(&THREADS, &Value::Count(count))
            });
            step.unwrap();
        }
    };
    let threads: Vec<_> = (0..THREADS)
        .map(|own| {
            let (recorder, steps) = (Arc::clone(&recorder), Arc::clone(&steps));
            thread::spawn(move || count(own, &recorder, &steps))
        })
        .collect();
    for it in threads {
        it.join().unwrap();
    }
    let report = Arc::try_unwrap(recorder).unwrap().close().unwrap();
    assert_eq!((report.is_linearizable, report.labels), (true, 4000));
}

#[test]
#[should_panic(expected = "tests/recorder.rs")]
fn a_recorder_that_is_not_closed_panics() {
    let recorder: Recorder<&str> = Recorder::new(Kind::Counter, ["a"]).unwrap();
    recorder.update(&"a", &Operation::Increment, None).unwrap();
}
