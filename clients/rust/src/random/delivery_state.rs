//! Which updates were delivered to each replica, and which messages wait for others.

use std::collections::HashMap;

use super::steps::Step;
use crate::{Kind, Method};

/// Where an update was issued: its replica, its position among that replica's updates, and the counts of those that it
/// sees.
#[derive(Clone, Debug)]
struct Origin {
    replica: usize,
    position: usize,
    seen: Vec<usize>,
}

/// The updates that were delivered to each replica, those that each update sees, and the visible list elements.
///
/// An update is delivered to a replica once all that it sees were delivered there, so the updates of one replica are
/// delivered in their order, and a count represents them. A message that arrives earlier waits.
#[derive(Clone, Debug)]
pub(crate) struct DeliveryState {
    kind: Option<Kind>,
    pub(crate) visible: Vec<Vec<u64>>,
    /// For each replica, how many updates of each other one were delivered to it.
    pub(crate) delivered: Vec<Vec<usize>>,
    pub(crate) issued: Vec<Vec<Step>>,
    origins: HashMap<usize, Origin>,
    /// For each replica, the messages that arrived before one on which they depend, in the order of arrival.
    pub(crate) waiting: Vec<Vec<usize>>,
}

impl DeliveryState {
    pub(crate) fn new(kind: Option<Kind>, replicas: usize) -> Self {
        DeliveryState {
            kind,
            visible: vec![Vec::new(); replicas],
            delivered: vec![vec![0; replicas]; replicas],
            issued: vec![Vec::new(); replicas],
            origins: HashMap::new(),
            waiting: vec![Vec::new(); replicas],
        }
    }

    /// Returns whether the update is new, and the replica shows the element that a list's update names.
    pub(crate) fn can_update(&self, step: &Step) -> bool {
        if self.origins.contains_key(&step.number) {
            return false;
        }
        match step.arguments.first() {
            Some(Some(named)) if self.kind.map_or(false, Kind::is_ordered) => {
                self.visible[step.replica].contains(named)
            }
            _ => true,
        }
    }

    /// Records that the replica of this step issues its update.
    pub(crate) fn update(&mut self, step: &Step) {
        let replica = step.replica;
        let (position, seen) = (self.issued[replica].len(), self.delivered[replica].clone());
        self.origins.insert(step.number, Origin { replica, position, seen });
        self.issued[replica].push(step.clone());
        self.deliver(replica, step.number);
    }

    /// Returns whether all that the update sees, and not the update itself, was delivered to the replica.
    pub(crate) fn can_deliver(&self, replica: usize, update: usize) -> bool {
        let delivered = &self.delivered[replica];
        self.origins.get(&update).map_or(false, |it| {
            delivered[it.replica] == it.position && it.seen.iter().zip(delivered).all(|(needed, own)| needed <= own)
        })
    }

    /// Returns whether the message of this update has not arrived at the replica yet.
    pub(crate) fn can_arrive(&self, replica: usize, update: usize) -> bool {
        let is_known = self.origins.contains_key(&update);
        is_known && !self.has_delivered(replica, update) && !self.waiting[replica].contains(&update)
    }

    /// Returns whether the update was delivered to the replica.
    fn has_delivered(&self, replica: usize, update: usize) -> bool {
        self.origins.get(&update).map_or(false, |it| it.position < self.delivered[replica][it.replica])
    }

    /// Returns whether the message of this update arrived at the replica, from another one.
    pub(crate) fn can_repeat(&self, replica: usize, update: usize) -> bool {
        let is_of_other = self.origins.get(&update).map_or(false, |it| it.replica != replica);
        is_of_other && (self.has_delivered(replica, update) || self.waiting[replica].contains(&update))
    }

    /// Returns the updates whose messages arrived at the replica.
    pub(crate) fn repeatable(&self, replica: usize) -> Vec<usize> {
        let mut found = Vec::new();
        for (sender, issued) in self.issued.iter().enumerate().filter(|it| it.0 != replica) {
            found.extend(issued[..self.delivered[replica][sender]].iter().map(|it| it.number));
        }
        found.extend(&self.waiting[replica]);
        found
    }

    /// Returns the first update that this one sees and that was not delivered to the replica, if there is one.
    pub(crate) fn missing_cause(&self, replica: usize, update: usize) -> Option<usize> {
        let origin = self.origins.get(&update)?;
        let delivered = &self.delivered[replica];
        let missing = origin.seen.iter().enumerate().filter_map(|(sender, count)| {
            let needed = if sender == origin.replica { origin.position } else { *count };
            let own = delivered[sender];
            self.issued[sender].get(own).filter(|_| own < needed).map(|it| it.number)
        });
        missing.min()
    }

    /// Records that the message arrives, and returns the updates that are delivered thereby, in their order.
    pub(crate) fn arrive(&mut self, replica: usize, update: usize) -> Vec<usize> {
        self.waiting[replica].push(update);
        let mut freed = Vec::new();
        while let Some(place) = self.waiting[replica].iter().position(|it| self.can_deliver(replica, *it)) {
            let ready = self.waiting[replica].remove(place);
            self.deliver(replica, ready);
            freed.push(ready);
        }
        freed
    }

    /// Records that the update is applied at the replica.
    pub(crate) fn deliver(&mut self, replica: usize, update: usize) {
        let origin = match self.origins.get(&update) {
            Some(it) => it,
            None => return,
        };
        self.delivered[replica][origin.replica] = origin.position + 1;
        let step = &self.issued[origin.replica][origin.position];
        match (step.method, &step.arguments[..]) {
            (Some(Method::InsertAfter | Method::Insert), [_, Some(element)]) => self.visible[replica].push(*element),
            (Some(Method::Remove | Method::Delete), [Some(removed), ..]) => {
                self.visible[replica].retain(|it| it != removed);
            }
            _ => {}
        }
    }

    /// Returns whether the sender has an update that the replica lacks.
    pub(crate) fn is_behind(&self, replica: usize, sender: usize) -> bool {
        self.delivered[replica].iter().zip(&self.delivered[sender]).any(|(own, other)| own < other)
    }

    /// Records that the replica, which is new, joins with a copy of the source's state.
    pub(crate) fn join(&mut self, replica: usize, source: usize) {
        self.delivered[replica] = self.delivered[source].clone();
        self.visible[replica] = self.visible[source].clone();
        self.waiting[replica] = self.waiting[source].clone();
    }

    /// Returns how many updates of each replica are in the state of this one.
    pub(crate) fn counts(&self, replica: usize) -> Vec<usize> {
        self.delivered[replica].clone()
    }

    /// Records that the replica merges a state with these counts.
    pub(crate) fn merge(&mut self, replica: usize, counts: &[usize]) {
        let mut missing = Vec::new();
        for (sender, count) in counts.iter().enumerate() {
            let own = self.delivered[replica][sender].min(*count);
            missing.extend(self.issued[sender][own..*count].iter().map(|it| it.number));
        }
        // Updates are numbered in the order in which they were issued, so this order is causal.
        missing.sort_unstable();
        for update in missing {
            self.deliver(replica, update);
        }
    }
}
