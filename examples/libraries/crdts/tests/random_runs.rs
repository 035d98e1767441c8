//! The unchanged types pass; six bugs in the code round them are found, shrunk and run again.

use crdts_replicas::{
    Counter, GrowOnlySet, Register, Set, FORGETS_ITS_STATE, IGNORES_OTHER_CLOCKS, JOINS_WITH_AN_OLD_NAME,
    LETS_ARRIVAL_WIN, LOSES_A_MERGE, SHOWS_REMOVED_ELEMENTS,
};
use yehatu::{check_random, replay, RandomOptions, Replica};

/// Checks that the unchanged type passes the number of runs in YEHATU_RUNS, by default 200.
fn passes<R: Replica>() {
    let runs = std::env::var("YEHATU_RUNS").ok().and_then(|it| it.parse().ok()).unwrap_or(200);
    assert_eq!(check_random::<R>(&RandomOptions::new().seeds(runs)).unwrap().count, runs as usize);
}

/// Checks that the bug is found within 200 runs and fails again, and that the unchanged type passes the shrunk steps.
fn finds<Bug: Replica, Unchanged: Replica>(name: &str) {
    let folder = std::env::temp_dir().join(format!("crdts_{}_{name}", std::process::id()));
    std::fs::create_dir_all(&folder).unwrap();
    let path = folder.join("failure.json");
    let error = check_random::<Bug>(&RandomOptions::new().seeds(200).failure(&path)).unwrap_err();
    let shrunk = error.to_string().lines().find(|it| it.contains("shrunk from")).map(String::from);
    println!("{name}: {}", shrunk.and_then(|it| it.split(';').next().map(String::from)).unwrap());
    let again = replay::<Bug>(&path).unwrap_err();
    assert!(again.to_string().contains(" still fails: "), "{again}");
    assert!(replay::<Unchanged>(&path).unwrap() > 0);
    std::fs::remove_dir_all(folder).unwrap();
}

#[test]
fn pn_counter_passes() {
    passes::<Counter>();
}

#[test]
fn lww_reg_passes() {
    passes::<Register>();
}

#[test]
fn orswot_passes() {
    passes::<Set>();
}

#[test]
fn g_set_passes() {
    passes::<GrowOnlySet>();
}

#[test]
fn a_lost_merge_is_found() {
    finds::<Counter<LOSES_A_MERGE>, Counter>("lost_merge");
}

#[test]
fn a_join_with_an_old_name_is_found() {
    finds::<Counter<JOINS_WITH_AN_OLD_NAME>, Counter>("old_name");
}

#[test]
fn arrival_that_wins_is_found() {
    finds::<Register<LETS_ARRIVAL_WIN>, Register>("arrival");
}

#[test]
fn a_clock_that_ignores_others_is_found() {
    finds::<Register<IGNORES_OTHER_CLOCKS>, Register>("clocks");
}

#[test]
fn removed_elements_that_are_shown_are_found() {
    finds::<Set<SHOWS_REMOVED_ELEMENTS>, Set>("removed");
}

#[test]
fn a_state_that_is_forgotten_is_found() {
    finds::<Set<FORGETS_ITS_STATE>, Set>("restart");
}
