//! The identifiers of an OR-Set's elements at each replica, as they follow from the reports.

use std::collections::{BTreeSet, HashMap};

/// The effect of an update: its element, its identifiers, and whether they are added or removed.
#[derive(Clone, Debug)]
pub(crate) struct Effect {
    pub(crate) element: u32,
    pub(crate) identifiers: Vec<u32>,
    pub(crate) is_addition: bool,
}

/// The identifiers that each replica has observed, for types that do not expose what a removal removes.
#[derive(Debug)]
pub(crate) struct ObservedIdentifiers {
    elements: Vec<HashMap<u32, BTreeSet<u32>>>,
    effects: HashMap<u32, Effect>,
}

impl ObservedIdentifiers {
    pub(crate) fn new(replicas: usize) -> Self {
        ObservedIdentifiers { elements: vec![HashMap::new(); replicas], effects: HashMap::new() }
    }

    /// Adds a replica with a copy of the identifiers of the source.
    pub(crate) fn join(&mut self, source: usize) {
        self.elements.push(self.elements[source].clone());
    }

    /// Returns the identifiers of this element at this replica, in ascending order.
    pub(crate) fn identifiers_of(&self, replica: usize, element: u32) -> Vec<u32> {
        self.elements[replica].get(&element).into_iter().flatten().copied().collect()
    }

    /// Records the effect of the update with this label, and applies it at the replica that issued it.
    pub(crate) fn issue(&mut self, replica: usize, label: u32, effect: Effect) {
        self.effects.insert(label, effect);
        self.deliver(replica, label);
    }

    /// Applies the update with this label at this replica.
    pub(crate) fn deliver(&mut self, replica: usize, label: u32) {
        let effect = match self.effects.get(&label) {
            Some(it) => it,
            None => return,
        };
        let observed = self.elements[replica].entry(effect.element).or_default();
        if effect.is_addition {
            observed.extend(&effect.identifiers);
        } else {
            observed.retain(|it| !effect.identifiers.contains(it));
        }
    }
}
