//! Shrinks a failed run as long as it fails for the same cause. Each attempt is a real run.

use std::collections::{BTreeMap, BTreeSet, HashSet};

use super::delivery_state::DeliveryState;
use super::plans::BOUNDARIES;
use super::runs::FailedRun;
use super::steps::{renumbered, Action, Step};
use crate::Error;

/// Removing each pair of steps is affordable up to this number of steps.
const MAX_STEPS_FOR_PAIRS: usize = 16;

type Steps = Vec<Step>;
type Strategy = fn(&[Step]) -> Vec<Steps>;

const STRATEGIES: [Strategy; 10] = [
    remove_replica,
    unite_replicas,
    remove_range,
    remove_update,
    merge_at_once,
    calm,
    lower_all,
    lower_amount,
    lower_value,
    remove_pair,
];

/// Returns a run from which no replica, no update and no other step can be removed, and no message delayed.
///
/// No amount, and no value or element, can be lowered in it.
pub(crate) fn shrink(
    failure: FailedRun,
    mut run: impl FnMut(&[Step]) -> Result<Option<FailedRun>, Error>,
) -> Result<FailedRun, Error> {
    let mut tried: HashSet<Steps> = HashSet::new();
    // Plans that differ only in the numbers of their updates are equal, and each is run once.
    let mut run_once = |steps: &[Step]| if tried.insert(renumbered(steps)) { run(steps) } else { Ok(None) };
    let mut smallest = failure;
    loop {
        let before = smallest.steps.clone();
        for strategy in STRATEGIES {
            smallest = apply_strategy(smallest, &mut run_once, strategy)?;
        }
        if !is_smaller(&smallest.steps, &before) {
            return Ok(smallest);
        }
    }
}

/// Tries the candidates of a strategy, and starts again from each smaller run that fails for the same cause.
fn apply_strategy(
    mut failure: FailedRun,
    run: &mut impl FnMut(&[Step]) -> Result<Option<FailedRun>, Error>,
    strategy: Strategy,
) -> Result<FailedRun, Error> {
    'shrunk: loop {
        for steps in strategy(&failure.steps) {
            if let Some(it) = run(&steps)? {
                if it.cause == failure.cause && is_smaller(&it.steps, &failure.steps) {
                    failure = it;
                    continue 'shrunk;
                }
            }
        }
        return Ok(failure);
    }
}

/// Returns whether there are fewer steps, or as many of which fewer are deliveries out of order, or as many with a
/// smaller sum of their numbers.
fn is_smaller(steps: &[Step], others: &[Step]) -> bool {
    let sum = |steps: &[Step]| numbers_in(steps).map(u128::from).sum::<u128>();
    let size = |steps: &[Step]| (steps.len(), early_arrivals(steps).len(), sum(steps));
    size(steps) < size(others)
}

/// Returns the amounts, values and elements in these steps.
fn numbers_in(steps: &[Step]) -> impl Iterator<Item = u64> + '_ {
    steps.iter().flat_map(|it| it.arguments.iter().copied().flatten())
}

/// Returns the deliveries, by their places, that come before an update that theirs sees, and that update.
pub(crate) fn early_arrivals(steps: &[Step]) -> BTreeMap<usize, usize> {
    let largest = steps.iter().map(|it| if it.action.copies() { it.replica.max(it.number) } else { it.replica }).max();
    let mut state = DeliveryState::new(None, largest.unwrap_or(0) + 1);
    let mut early = BTreeMap::new();
    for (place, step) in steps.iter().enumerate() {
        match step.action {
            Action::Update => state.update(step),
            Action::Join => state.join(step.replica, step.number),
            Action::Merge => {
                let counts = state.counts(step.number);
                state.merge(step.replica, &counts);
            }
            Action::Deliver if state.can_arrive(step.replica, step.number) => {
                early.extend(state.missing_cause(step.replica, step.number).map(|it| (place, it)));
                state.arrive(step.replica, step.number);
            }
            _ => {}
        }
    }
    early
}

fn replicas_of(steps: &[Step]) -> BTreeSet<usize> {
    steps.iter().map(|it| it.replica).collect()
}

/// Returns the steps that this keeps.
fn kept(steps: &[Step], keeps: impl Fn(usize, &Step) -> bool) -> Steps {
    steps.iter().enumerate().filter(|(place, it)| keeps(*place, it)).map(|(_, it)| it.clone()).collect()
}

/// Returns the steps without those of one replica and without all that it sent.
fn remove_replica(steps: &[Step]) -> Vec<Steps> {
    let without = |replica: usize| {
        let is_own = |it: &Step| it.action == Action::Update && it.replica == replica;
        let own: BTreeSet<usize> = steps.iter().filter(|it| is_own(it)).map(|it| it.number).collect();
        kept(steps, |_, it| {
            it.replica != replica
                && !(it.action.receives() && own.contains(&it.number))
                && !(it.action.copies() && it.number == replica)
        })
    };
    replicas_of(steps).into_iter().map(without).collect()
}

/// Returns the steps with one replica in the place of another.
fn unite_replicas(steps: &[Step]) -> Vec<Steps> {
    let replicas = replicas_of(steps);
    let united = |removed: usize, kept: usize| {
        let moved = |it: usize| if it == removed { kept } else { it };
        let change = |it: &Step| Step {
            replica: moved(it.replica),
            number: if it.action.copies() { moved(it.number) } else { it.number },
            ..it.clone()
        };
        steps.iter().map(change).collect()
    };
    let mut candidates = Vec::new();
    for removed in &replicas {
        candidates.extend(replicas.iter().filter(|it| *it != removed).map(|kept| united(*removed, *kept)));
    }
    candidates
}

/// Returns the steps without a half, a quarter, down to one step.
///
/// Later ranges come first, since the failure is at the end and needs few of the steps before it.
fn remove_range(steps: &[Step]) -> Vec<Steps> {
    let mut candidates = Vec::new();
    let mut size = steps.len() / 2;
    while size > 0 {
        let mut end = steps.len();
        while end > 0 {
            let start = end.saturating_sub(size);
            candidates.push(kept(steps, |place, _| !(start..end).contains(&place)));
            end = start;
        }
        size /= 2;
    }
    candidates
}

/// Returns the steps without one update and its deliveries.
fn remove_update(steps: &[Step]) -> Vec<Steps> {
    let is_of = |it: &Step, number| (it.action == Action::Update || it.action.receives()) && it.number == number;
    let updates = steps.iter().filter(|it| it.action == Action::Update);
    updates.map(|update| kept(steps, |_, it| !is_of(it, update.number))).collect()
}

/// Returns the steps with the current state in a merge, in the place of one that was taken early.
fn merge_at_once(steps: &[Step]) -> Vec<Steps> {
    let is_snapshot = |it: &Step| it.action == Action::Snapshot;
    let snapshots = steps.iter().filter(|it| is_snapshot(it));
    let taken: BTreeMap<usize, usize> = snapshots.map(|it| (it.number, it.replica)).collect();
    let mut candidates = Vec::new();
    for (place, step) in steps.iter().enumerate().filter(|it| it.1.action == Action::MergeSnapshot) {
        if let Some(sender) = taken.get(&step.number) {
            let mut changed = steps.to_vec();
            changed[place] = Step::new(Action::Merge, step.replica, *sender);
            changed.retain(|it| !is_snapshot(it) || it.number != step.number);
            candidates.push(changed);
        }
    }
    candidates
}

/// Returns the steps with one message delayed behind another of its replica, if it arrives before a cause.
fn calm(steps: &[Step]) -> Vec<Steps> {
    let mut candidates = Vec::new();
    for place in early_arrivals(steps).into_keys() {
        let replica = steps[place].replica;
        let is_later = |it: &usize| steps[*it].action == Action::Deliver && steps[*it].replica == replica;
        for later in (place + 1..steps.len()).filter(is_later) {
            let mut changed = steps.to_vec();
            changed[place..=later].rotate_left(1);
            candidates.push(changed);
        }
    }
    candidates
}

/// Returns the step with these numbers in the place of its values.
fn with_values(step: &Step, number_of: &BTreeMap<u64, u64>) -> Step {
    let replaced = |it: &u64| number_of.get(it).copied().unwrap_or(*it);
    Step { arguments: step.arguments.iter().map(|it| it.as_ref().map(replaced)).collect(), ..step.clone() }
}

/// Returns the values and elements, in the order of their first use.
fn values_of(steps: &[Step]) -> Vec<u64> {
    let others: Steps = kept(steps, |_, it| !it.counts());
    let mut seen = BTreeSet::new();
    numbers_in(&others).filter(|it| seen.insert(*it)).collect()
}

/// Returns the steps with each amount 1, and with the values and elements numbered from 1 in their order.
fn lower_all(steps: &[Step]) -> Vec<Steps> {
    let number_of: BTreeMap<u64, u64> = values_of(steps).into_iter().zip(1..).collect();
    let lowered = |it: &Step| {
        if it.counts() {
            return Step { arguments: vec![Some(1); it.arguments.len()], ..it.clone() };
        }
        with_values(it, &number_of)
    };
    vec![steps.iter().map(lowered).collect()]
}

/// Returns the steps with one amount lowered to 1, and then by a half of it, a quarter, down to 1.
fn lower_amount(steps: &[Step]) -> Vec<Steps> {
    let mut candidates = Vec::new();
    for (place, step) in steps.iter().enumerate().filter(|it| it.1.counts()) {
        let amount = step.arguments.iter().copied().flatten().sum::<u64>();
        let halves = (1..u64::BITS).map(|shift| amount >> shift).take_while(|it| *it > 0).map(|it| amount - it);
        let mut tried = BTreeSet::new();
        for lower in std::iter::once(1).chain(halves).filter(|it| *it < amount && tried.insert(*it)) {
            let mut changed = steps.to_vec();
            changed[place].arguments = vec![Some(lower)];
            candidates.push(changed);
        }
    }
    candidates
}

/// Returns the steps with one value or element replaced by the smallest that is free, and then by lower boundaries.
///
/// It is replaced wherever it occurs, since the steps of a list name its elements.
fn lower_value(steps: &[Step]) -> Vec<Steps> {
    let used: BTreeSet<u64> = values_of(steps).into_iter().collect();
    // Of one number more than there are values, one is free.
    let smallest = (1..=used.len() as u64 + 1).find(|it| !used.contains(it)).unwrap_or(1);
    let mut candidates = Vec::new();
    for value in used.iter().rev() {
        let is_free = |it: &u64| smallest <= *it && it < value && !used.contains(it);
        for lower in std::iter::once(smallest).chain(BOUNDARIES).filter(is_free) {
            let number_of = BTreeMap::from([(*value, lower)]);
            let change = |it: &Step| if it.counts() { it.clone() } else { with_values(it, &number_of) };
            candidates.push(steps.iter().map(change).collect());
        }
    }
    candidates
}

/// Returns the steps without two of them, since some can be removed only together.
fn remove_pair(steps: &[Step]) -> Vec<Steps> {
    if steps.len() > MAX_STEPS_FOR_PAIRS {
        return Vec::new();
    }
    let pairs = (0..steps.len()).flat_map(|second| (0..second).map(move |first| (first, second)));
    pairs.map(|(first, second)| kept(steps, |place, _| place != first && place != second)).collect()
}
