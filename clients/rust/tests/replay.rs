//! Stored failures: those of the other clients are run here, and those of this client are written in their format.
//!
//! `tests/clients/rust_client` sets two variables. Files in the folder `YEHATU_OTHERS` were written just now by the
//! other clients, and are run too. Into the folder `YEHATU_OWN` this client writes failures, which the others run.

mod support;

use std::fs;
use std::path::{Path, PathBuf};

use support::{Register, Rga, BREAKS_TIES_BY_ARRIVAL};
use yehatu::{check_random, replay, Error, RandomOptions};

fn folder(name: &str) -> PathBuf {
    let path = std::env::temp_dir().join(format!("yehatu_replay_{}_{name}", std::process::id()));
    fs::create_dir_all(&path).unwrap();
    path
}

/// Runs a failure of ties that are broken by arrival, which a type with this bug shows and a correct one does not.
fn runs_again(path: &Path) {
    let shown = path.display();
    let is_list = shown.to_string().contains("rga");
    let found = if is_list {
        (replay::<Rga<BREAKS_TIES_BY_ARRIVAL>>(path), replay::<Rga>(path))
    } else {
        (replay::<Register<BREAKS_TIES_BY_ARRIVAL>>(path), replay::<Register>(path))
    };
    let error = found.0.unwrap_err();
    assert!(error.to_string().contains("still fails: "), "{shown}: {error}");
    assert!(matches!(error, Error::Violation(_)), "{shown}: {error}");
    assert_eq!(found.1.unwrap(), 4, "{shown}");
}

#[test]
fn failures_of_the_other_clients_are_run() {
    let stored = Path::new(env!("CARGO_MANIFEST_DIR")).join("tests/stored");
    let others = std::env::var_os("YEHATU_OTHERS").map(PathBuf::from);
    for folder in std::iter::once(stored).chain(others) {
        let files = fs::read_dir(&folder).unwrap().map(|it| it.unwrap().path());
        let failures: Vec<PathBuf> = files.filter(|it| it.extension().map_or(false, |it| it == "json")).collect();
        assert_eq!(failures.len(), 4, "{folder:?}");
        failures.iter().for_each(|it| runs_again(it));
    }
}

#[test]
fn failures_are_written_for_the_other_clients() {
    let given = std::env::var_os("YEHATU_OWN").map(PathBuf::from);
    let folder = given.clone().unwrap_or_else(|| folder("own"));
    let (register, list) = (folder.join("rust_register.json"), folder.join("rust_rga.json"));
    // The registers of the other clients have no `save` and `load`.
    let options = RandomOptions::new().seeds(200).restarts(false);
    check_random::<Register<BREAKS_TIES_BY_ARRIVAL>>(&options.clone().failure(&register)).unwrap_err();
    check_random::<Rga<BREAKS_TIES_BY_ARRIVAL>>(&options.failure(&list)).unwrap_err();
    runs_again(&register);
    runs_again(&list);
    let text = fs::read_to_string(&register).unwrap();
    let begin = "{\"version\": 1, \"seed\": \"2-0\", \"kind\": \"register\", \"replicas\": [\"a\", \"b\", \"c\"], \
                 \"profile\": {\"delivery\": \"causal\", \"duplicates\": false, \"late_states\": false, \
                 \"restarts\": false}, \"steps\": [[\"update\", ";
    assert!(text.starts_with(begin), "{text}");
    assert!(text.contains("\"cause\": [\"no\"], \"history\": \"RAH 2 register\\nreplicas "), "{text}");
    assert!(register.with_extension("rah").is_file());
    if given.is_none() {
        fs::remove_dir_all(folder).unwrap();
    }
}

#[test]
fn a_file_that_is_no_failure_is_rejected() {
    let folder = folder("wrong");
    let path = folder.join("failure.json");
    let stored = Path::new(env!("CARGO_MANIFEST_DIR")).join("tests/stored/python_register.json");
    let good = fs::read_to_string(stored).unwrap();
    let cases = [
        ("RAH 2 counter".to_string(), "is not a stored failure: byte 0: expected a value; expected the JSON that"),
        ("[]".to_string(), "it lacks version, seed, kind"),
        (good.replace("\"version\": 1", "\"version\": 2"), "has version 2 of the format, and this client reads 1"),
        (good.replace("[\"update\", 2, 1, \"write\", [1]]", "[1]"), "step 1 is [1]: expected a list of five values"),
        (good.replace("\"read\"", "\"jump\""), "step 4 has the action \"jump\": expected one of update, deliver"),
        (good.replace("[\"read\", 2", "[\"read\", 7"), "has step 4 of replica 7, and there are 3"),
        (good.replace("\"causal\"", "\"fifo\""), "has the delivery \"fifo\": expected causal or any"),
        (good.replace("\"register\"", "\"queue\""), "unknown kind \"queue\""),
        (good.replace("\"write\"", "\"jump\""), "step 1 has the method \"jump\""),
        (good.replace("\"register\"", "\"counter\""), "its steps are of the kind counter"),
    ];
    for (text, message) in cases {
        fs::write(&path, text).unwrap();
        let error = replay::<Register>(&path).unwrap_err();
        assert!(matches!(&error, Error::InvalidArgument(it) if it.contains(message)), "{error}");
    }
    assert!(matches!(replay::<Register>(folder.join("none.json")), Err(Error::InvalidArgument(_))));
    fs::remove_dir_all(folder).unwrap();
}

#[test]
fn a_run_that_fails_in_another_way_says_so() {
    let folder = folder("other");
    let path = folder.join("failure.json");
    let stored = Path::new(env!("CARGO_MANIFEST_DIR")).join("tests/stored/python_register.json");
    let text = fs::read_to_string(stored).unwrap().replace("[\"no\"]", "[\"raised\", \"ValueError\"]");
    fs::write(&path, text).unwrap();
    let error = replay::<Register<BREAKS_TIES_BY_ARRIVAL>>(&path).unwrap_err();
    assert!(error.to_string().contains("fails in another way (no, and then raised ValueError)"), "{error}");
    fs::remove_dir_all(folder).unwrap();
}
