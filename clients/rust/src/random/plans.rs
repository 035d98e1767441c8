//! Random plans of what replicas do and what the network does, determined by a seed.

use std::collections::HashSet;

use super::delivery_state::DeliveryState;
use super::network::{Network, RandomNumbers};
use super::options::{Delivery, Profile};
use super::steps::{Action, Step};
use crate::{Error, Kind, Method};

/// The version of the planner. A seed means the same plan as long as this stays.
const VERSION: u32 = 2;
/// A set has few elements, so that updates of one element are concurrent.
const SET_ELEMENTS: usize = 3;
/// The values around the bounds of the usual sizes of numbers. All are exact in JavaScript too.
pub(crate) const BOUNDARIES: [u64; 13] = [
    0,
    1,
    127,
    128,
    255,
    256,
    65_535,
    65_536,
    (1 << 31) - 1,
    1 << 31,
    (1 << 32) - 1,
    1 << 32,
    (1 << 53) - 1,
];
/// The chance that a value is one of these.
const BOUNDARY_CHANCE: f64 = 0.15;
/// The amounts of a counter whose updates have one, and the largest sum of all amounts of a run.
const AMOUNTS: [u64; 9] = [1, 1, 1, 2, 2, 127, 128, 255, 256];
const MAX_TOTAL: u64 = 300;
/// The chance of a run in which one replica counts beyond seven bits, and the number of its increments.
const CLIMB_CHANCE: f64 = 0.06;
const SHORTEST_CLIMB: usize = 200;
const LONGEST_CLIMB: usize = 260;
/// The chances, at each step, of events of the profile.
const OLD_STATE_CHANCE: f64 = 0.1;
const JOIN_CHANCE: f64 = 0.15;
const BURST_CHANCE: f64 = 0.05;
const DUPLICATE_CHANCE: f64 = 0.15;
const SNAPSHOT_CHANCE: f64 = 0.1;
const LATE_CHANCE: f64 = 0.12;
const SAVE_CHANCE: f64 = 0.05;
const RESTART_CHANCE: f64 = 0.06;
const LONGEST_BURST: usize = 8;

/// What the plans for a type depend on.
#[derive(Clone, Debug)]
pub(crate) struct Traits {
    pub(crate) kind: Kind,
    pub(crate) methods: Vec<Method>,
    pub(crate) weights: Vec<f64>,
    pub(crate) merges: bool,
    pub(crate) forks: bool,
    pub(crate) amounts: bool,
    pub(crate) profile: Profile,
}

/// Returns the number of a seed, such as "17" or "2-17".
pub(crate) fn parse_seed(seed: &str) -> Result<i64, Error> {
    if let Ok(number) = seed.parse() {
        return Ok(number);
    }
    let parts = seed.split_once('-').and_then(|(version, number)| Some((version.parse::<u32>().ok()?, number)));
    match parts.and_then(|(version, number)| Some((version, number.parse().ok()?))) {
        Some((VERSION, number)) => Ok(number),
        Some((version, _)) => Err(Error::invalid(format!(
            "the seed {seed:?} is of version {version} of the planner, and this is version {VERSION}, which plans \
             another run for it: run the stored failure again with replay(PATH)"
        ))),
        None => Err(Error::invalid(format!(
            "the seed {seed:?} is unknown: expected a whole number, or a text such as \"{VERSION}-17\""
        ))),
    }
}

/// Returns the seed with the version of the planner.
pub(crate) fn format_seed(seed: i64) -> String {
    format!("{VERSION}-{seed}")
}

/// Returns the plan of a seed: operations, deliveries and reads.
pub(crate) fn plan(traits: &Traits, replicas: usize, operations: usize, seed: i64) -> Vec<Step> {
    Planner::new(traits, replicas, operations, seed).plan()
}

/// The maker of one plan. If replicas fork, some of them are initial and some of the others join.
struct Planner<'a> {
    traits: &'a Traits,
    operations: usize,
    remaining: usize,
    replicas: usize,
    random: RandomNumbers,
    present: Vec<usize>,
    network: Network,
    state: DeliveryState,
    steps: Vec<Step>,
    updates: usize,
    total: u64,
    /// The states that were taken early: for each its replica, and the counts of the updates in it.
    states: Vec<(usize, Vec<usize>)>,
    reordering: f64,
    boundaries: Vec<u64>,
    elements: Vec<u64>,
    used: HashSet<u64>,
    smallest: u64,
}

impl<'a> Planner<'a> {
    fn new(traits: &'a Traits, replicas: usize, operations: usize, seed: i64) -> Self {
        // The seed is a text, so that plans of neighbouring seeds have nothing in common.
        let text = format!("{VERSION} {} {replicas} {operations} {seed}", traits.kind);
        let mut random = RandomNumbers::new(&text);
        let initial = if traits.forks { random.number(1, replicas) } else { replicas };
        let network = Network::new(&mut random, replicas, operations);
        let is_any = traits.profile.delivery == Delivery::Any;
        let reordering = if is_any { random.uniform(0.2, 0.9) } else { 0.0 };
        let boundaries = random.sample(&BOUNDARIES, BOUNDARIES.len());
        let elements = if random.occurs(BOUNDARY_CHANCE) {
            random.sample(&BOUNDARIES, SET_ELEMENTS)
        } else {
            (1..=SET_ELEMENTS as u64).collect()
        };
        Planner {
            traits,
            operations,
            remaining: operations,
            replicas,
            random,
            present: (0..initial).collect(),
            network,
            state: DeliveryState::new(Some(traits.kind), replicas),
            steps: Vec::new(),
            updates: 0,
            total: 0,
            states: Vec::new(),
            reordering,
            boundaries,
            elements,
            used: HashSet::new(),
            smallest: 1,
        }
    }

    /// Returns the steps. Most plans end with all pending deliveries; all end with reads.
    fn plan(mut self) -> Vec<Step> {
        let reads = self.random.uniform(0.1, 0.3);
        let deliveries = self.random.uniform(0.3, 0.6);
        if self.traits.kind == Kind::Counter && self.operations >= 10 && self.random.occurs(CLIMB_CHANCE) {
            self.climb();
        }
        while self.remaining > 0 {
            let chance = self.random.chance();
            if chance < reads {
                let replica = self.random.choice(&self.present);
                self.add(Action::Read, replica, 0);
            } else if chance >= reads + deliveries || !self.deliver() {
                let replica = self.random.choice(&self.present);
                self.update(replica);
            }
            self.network.advance(&mut self.random, self.steps.len(), &self.present);
            self.plan_events();
        }
        if self.random.occurs(0.8) {
            self.network.recover();
            while self.deliver() {}
        }
        for replica in self.present.clone() {
            self.add(Action::Read, replica, 0);
        }
        self.steps
    }

    fn add(&mut self, action: Action, replica: usize, number: usize) {
        self.steps.push(Step::new(action, replica, number));
    }

    /// Adds what the profile allows beside operations, deliveries and reads.
    fn plan_events(&mut self) {
        let Traits { merges, profile, .. } = *self.traits;
        if self.present.len() < self.replicas && self.random.occurs(JOIN_CHANCE) {
            self.join();
        }
        if self.random.occurs(BURST_CHANCE) {
            self.burst();
        }
        if merges && self.random.occurs(OLD_STATE_CHANCE) {
            self.merge_old_state();
        }
        if profile.duplicates && self.random.occurs(DUPLICATE_CHANCE) {
            self.duplicate();
        }
        if profile.late_states {
            self.use_late_states();
        }
        if profile.restarts {
            self.restart();
        }
    }

    // Deliveries.

    /// Adds a delivery between two connected replicas. Returns `false` if there is none.
    fn deliver(&mut self) -> bool {
        if self.traits.merges {
            return self.deliver_state();
        }
        let can_reorder = self.reordering > 0.0;
        let reorders = can_reorder && self.random.occurs(self.reordering);
        let mut ready = self.arriving(reorders);
        if ready.is_empty() && can_reorder {
            ready = self.arriving(true);
        }
        if ready.is_empty() {
            return false;
        }
        let (replica, update) = self.random.choice(&ready);
        if can_reorder {
            self.state.arrive(replica, update);
        } else {
            self.state.deliver(replica, update);
        }
        self.add(Action::Deliver, replica, update);
        true
    }

    /// Returns the messages that can arrive, each with its receiver: in causal order or in any.
    fn arriving(&self, is_in_any_order: bool) -> Vec<(usize, usize)> {
        let mut found = Vec::new();
        for (replica, sender) in self.pairs() {
            let (issued, first) = (&self.state.issued[sender], self.state.delivered[replica][sender]);
            if first == issued.len() || !self.network.are_connected(replica, sender) {
                continue;
            }
            let last = if is_in_any_order { issued.len() } else { first + 1 };
            let numbers = issued[first..last].iter().map(|it| it.number);
            let can_arrive = |it: &usize| self.is_arriving(replica, *it, is_in_any_order);
            found.extend(numbers.filter(can_arrive).map(|it| (replica, it)));
        }
        found
    }

    fn is_arriving(&self, replica: usize, number: usize, is_in_any_order: bool) -> bool {
        self.network.is_due(number, replica, self.steps.len())
            && !self.state.waiting[replica].contains(&number)
            && (is_in_any_order || self.state.can_deliver(replica, number))
    }

    /// Returns the pairs of two replicas that are present.
    fn pairs(&self) -> Vec<(usize, usize)> {
        let others = |replica: usize| self.present.iter().filter(move |it| **it != replica);
        self.present.iter().flat_map(|replica| others(*replica).map(move |it| (*replica, *it))).collect()
    }

    fn deliver_state(&mut self) -> bool {
        let mut ready = self.pairs();
        ready.retain(|it| self.state.is_behind(it.0, it.1) && self.network.are_connected(it.0, it.1));
        if ready.is_empty() {
            return false;
        }
        let (replica, sender) = self.random.choice(&ready);
        let counts = self.state.counts(sender);
        self.state.merge(replica, &counts);
        self.add(Action::Merge, replica, sender);
        true
    }

    fn merge_old_state(&mut self) {
        let mut old = self.pairs();
        old.retain(|it| !self.state.is_behind(it.0, it.1));
        if !old.is_empty() {
            let (replica, sender) = self.random.choice(&old);
            self.add(Action::Merge, replica, sender);
        }
    }

    // Events of the profile.

    fn join(&mut self) {
        let source = self.random.choice(&self.present);
        let joining = self.present.len();
        self.present.push(joining);
        self.state.join(joining, source);
        self.add(Action::Join, joining, source);
    }

    fn burst(&mut self) {
        let mut left = self.random.number(2, LONGEST_BURST);
        while left > 0 && self.deliver() {
            left -= 1;
        }
    }

    fn duplicate(&mut self) {
        let replica = self.random.choice(&self.present);
        let repeatable = self.state.repeatable(replica);
        if !repeatable.is_empty() {
            let update = self.random.choice(&repeatable);
            self.add(Action::Duplicate, replica, update);
        }
    }

    /// Takes a state for later, or merges one of those that were taken.
    fn use_late_states(&mut self) {
        if self.random.occurs(SNAPSHOT_CHANCE) {
            let sender = self.random.choice(&self.present);
            self.states.push((sender, self.state.counts(sender)));
            self.add(Action::Snapshot, sender, self.states.len());
        }
        if self.states.is_empty() || !self.random.occurs(LATE_CHANCE) {
            return;
        }
        let number = self.random.number(1, self.states.len());
        let replica = self.random.choice(&self.present);
        let (sender, counts) = self.states[number - 1].clone();
        if replica != sender {
            self.state.merge(replica, &counts);
            self.add(Action::MergeSnapshot, replica, number);
        }
    }

    /// Saves the state of a replica, or restarts one.
    fn restart(&mut self) {
        let chance = self.random.chance();
        if chance < SAVE_CHANCE + RESTART_CHANCE {
            let action = if chance < SAVE_CHANCE { Action::Save } else { Action::Restart };
            let replica = self.random.choice(&self.present);
            self.add(action, replica, 0);
        }
    }

    // Operations.

    /// Lets one replica count in one direction, so that the value needs more than seven bits.
    fn climb(&mut self) {
        let replica = self.random.choice(&self.present);
        let method = self.choose_method();
        for _ in 0..self.random.number(SHORTEST_CLIMB, LONGEST_CLIMB) {
            let arguments = if self.traits.amounts { vec![Some(1)] } else { Vec::new() };
            self.issue(replica, method, arguments);
            self.total += 1;
        }
        self.add(Action::Read, replica, 0);
    }

    fn update(&mut self, replica: usize) {
        self.remaining -= 1;
        let (method, arguments) = self.choose_operation(replica);
        self.issue(replica, method, arguments);
    }

    fn issue(&mut self, replica: usize, method: Method, arguments: Vec<Option<u64>>) {
        self.updates += 1;
        let step = Step::update(replica, self.updates, method, arguments);
        self.state.update(&step);
        self.network.send(&mut self.random, self.updates, self.steps.len());
        self.steps.push(step);
    }

    fn choose_method(&mut self) -> Method {
        self.traits.methods[self.random.weighted_place(&self.traits.weights)]
    }

    fn choose_operation(&mut self, replica: usize) -> (Method, Vec<Option<u64>>) {
        let method = self.choose_method();
        match self.traits.kind {
            Kind::Counter if self.traits.amounts => (method, vec![Some(self.choose_amount())]),
            Kind::Counter => (method, Vec::new()),
            Kind::Register => (method, vec![Some(self.new_value())]),
            Kind::LwwSet | Kind::OrSet => (method, vec![Some(self.random.choice(&self.elements))]),
            Kind::Rga | Kind::List => self.choose_list_operation(replica, method),
        }
    }

    fn choose_list_operation(&mut self, replica: usize, method: Method) -> (Method, Vec<Option<u64>>) {
        let visible = self.state.visible[replica].clone();
        if matches!(method, Method::Remove | Method::Delete) && !visible.is_empty() {
            return (method, vec![Some(self.random.choice(&visible))]);
        }
        let anchors: Vec<Option<u64>> = std::iter::once(None).chain(visible.into_iter().map(Some)).collect();
        let anchor = self.random.choice(&anchors);
        (self.traits.kind.methods()[0], vec![anchor, Some(self.new_value())])
    }

    fn choose_amount(&mut self) -> u64 {
        let mut amounts = AMOUNTS.to_vec();
        amounts.retain(|it| *it == 1 || self.total + it <= MAX_TOTAL);
        let amount = self.random.choice(&amounts);
        self.total += amount;
        amount
    }

    /// Returns a value that the plan did not use before: a small one, or one of the boundaries.
    fn new_value(&mut self) -> u64 {
        let is_boundary = !self.boundaries.is_empty() && self.random.occurs(BOUNDARY_CHANCE);
        let boundary = self.boundaries.last().copied().filter(|_| is_boundary);
        let mut value = boundary.unwrap_or(self.smallest);
        while self.used.contains(&value) {
            self.smallest += 1;
            value = self.smallest;
        }
        self.used.insert(value);
        self.boundaries.retain(|it| *it != value);
        value
    }
}

#[cfg(test)]
mod tests {
    use super::*;

    /// The number of characters of the JSON of the plans of the seeds 0 to 39, and its hash (FNV-1a, 32 bits), as the
    /// planner of the JavaScript client makes them.
    const OF_JAVASCRIPT: [(Kind, &str, usize, u32); 10] = [
        (Kind::Counter, "", 120_215, 3_851_845_206),
        (Kind::Counter, "any duplicates amounts forks", 149_056, 2_029_069_140),
        (Kind::Counter, "late_states restarts merges", 103_582, 4_158_336_308),
        (Kind::Register, "restarts", 105_758, 335_265_446),
        (Kind::LwwSet, "any forks", 93_545, 4_233_409_201),
        (Kind::OrSet, "duplicates", 103_918, 3_545_625_790),
        (Kind::Rga, "", 103_121, 2_319_438_044),
        (Kind::Rga, "any duplicates restarts", 121_455, 3_005_722_084),
        (Kind::List, "", 102_388, 1_760_752_243),
        (Kind::List, "any duplicates forks", 106_459, 785_738_319),
    ];

    fn traits(kind: Kind, words: &str) -> Traits {
        let has = |word: &str| words.split(' ').any(|it| it == word);
        let weight = |it: &Method| match it {
            Method::InsertAfter | Method::Insert => 3.0,
            Method::Add => 2.0,
            _ => 1.0,
        };
        Traits {
            kind,
            methods: kind.methods().to_vec(),
            weights: kind.methods().iter().map(weight).collect(),
            merges: has("merges"),
            forks: has("forks"),
            amounts: has("amounts"),
            profile: Profile {
                delivery: if has("any") { Delivery::Any } else { Delivery::Causal },
                duplicates: has("duplicates"),
                late_states: has("late_states"),
                restarts: has("restarts"),
            },
        }
    }

    #[test]
    fn plans_are_those_of_javascript() {
        for (kind, words, length, hash) in OF_JAVASCRIPT {
            let mut text = String::new();
            for seed in 0..40 {
                let steps = plan(&traits(kind, words), 3, 30, seed).iter().map(Step::to_json).collect();
                text.push_str(&crate::json::Json::Array(steps).print().replace(", ", ","));
                text.push('\n');
            }
            let mix = |hash: u32, it: u8| (hash ^ u32::from(it)).wrapping_mul(16_777_619);
            assert_eq!((text.len(), text.bytes().fold(2_166_136_261, mix)), (length, hash), "{kind} {words}");
        }
    }

    #[test]
    fn seeds_have_the_version_of_the_planner() {
        for (seed, number) in [("17", 17), ("2-17", 17), ("-3", -3), ("2--3", -3)] {
            assert_eq!(parse_seed(seed).unwrap(), number);
        }
        assert_eq!(format_seed(-3), "2--3");
        for wrong in ["1-17", "3-17", "x", "2-", "2-x", "", "1.5"] {
            assert!(matches!(parse_seed(wrong), Err(Error::InvalidArgument(_))), "{wrong}");
        }
    }
}
