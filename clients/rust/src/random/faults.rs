//! The faults of the network, and the restarts, that are at work in a small run.

use std::collections::BTreeMap;

use super::shrinking::early_arrivals;
use super::steps::{Action, Step};

/// Returns a sentence for each fault of these steps, which are counted from 1.
pub(crate) fn describe_faults(steps: &[Step], names: &[String]) -> Vec<String> {
    let early = early_arrivals(steps);
    let mut taken: BTreeMap<usize, (usize, usize)> = BTreeMap::new();
    let mut saved: BTreeMap<usize, usize> = BTreeMap::new();
    let mut sentences = Vec::new();
    for (place, step) in steps.iter().enumerate() {
        let (number, moment) = (step.number, place + 1);
        match step.action {
            Action::Deliver => sentences.extend(early.get(&place).map(|cause| {
                format!("message {number} arrived before message {cause}, on which it depends")
            })),
            Action::Duplicate => sentences.push(format!("message {number} arrived twice")),
            Action::Snapshot => {
                taken.entry(number).or_insert((step.replica, moment));
            }
            Action::MergeSnapshot => sentences.extend(taken.get(&number).map(|(sender, start)| {
                format!("a state of {:?} taken at step {start} was merged at step {moment}", names[*sender])
            })),
            Action::Restart => {
                let state = saved.get(&step.replica).map(|it| format!("state of step {it}"));
                let state = state.unwrap_or_else(|| String::from("initial state"));
                sentences.push(format!("{:?} restarted from its {state}", names[step.replica]));
            }
            _ => {}
        }
        if matches!(step.action, Action::Update | Action::Save | Action::Join) {
            saved.insert(step.replica, moment);
        }
    }
    sentences
}
