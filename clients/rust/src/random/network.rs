//! The random numbers of a plan, and its network: delays and partitions.

use std::collections::HashMap;

/// The longest delays of a message, in steps, from which each plan chooses one.
const LONGEST_DELAYS: [usize; 5] = [0, 0, 0, 6, 20];
const PARTITION_CHANCES: [f64; 3] = [0.02, 0.03, 0.06];
const SHORTEST_PARTITION: usize = 5;
const SHORT_PARTITION: usize = 25;
/// The chance that a partition is long.
const LONG_CHANCE: f64 = 0.2;
/// The chance that a partition divides the replicas into two groups.
const GROUPS_CHANCE: f64 = 0.3;

/// Random numbers for a seed, which may be any text.
///
/// These are the numbers of the JavaScript client (mulberry32), so that a seed means the same plan there.
#[derive(Clone, Debug)]
pub(crate) struct RandomNumbers {
    state: u32,
}

impl RandomNumbers {
    pub(crate) fn new(seed: &str) -> Self {
        let mix = |state: u32, letter: char| (state ^ u32::from(letter)).wrapping_mul(16_777_619);
        RandomNumbers { state: seed.chars().fold(2_166_136_261, mix) }
    }

    /// Returns a number from 0 to 1, without 1.
    pub(crate) fn chance(&mut self) -> f64 {
        self.state = self.state.wrapping_add(0x6d2b_79f5);
        let mut mixed = (self.state ^ (self.state >> 15)).wrapping_mul(1 | self.state);
        mixed = mixed.wrapping_add((mixed ^ (mixed >> 7)).wrapping_mul(0x3d | mixed)) ^ mixed;
        f64::from(mixed ^ (mixed >> 14)) / 4_294_967_296.0
    }

    /// Returns whether something of this chance happens.
    pub(crate) fn occurs(&mut self, chance: f64) -> bool {
        self.chance() < chance
    }

    /// Returns a number from the first to the last.
    pub(crate) fn uniform(&mut self, first: f64, last: f64) -> f64 {
        first + (last - first) * self.chance()
    }

    /// Returns a whole number from the first to the last.
    // The numbers are small and not negative, so the conversions are exact.
    #[allow(clippy::cast_possible_truncation, clippy::cast_sign_loss, clippy::cast_precision_loss)]
    pub(crate) fn number(&mut self, first: usize, last: usize) -> usize {
        first + (self.chance() * (last - first + 1) as f64).floor() as usize
    }

    /// Returns one item of the list, which is not empty.
    pub(crate) fn choice<T: Clone>(&mut self, list: &[T]) -> T {
        list[self.number(0, list.len() - 1)].clone()
    }

    /// Returns the place of one item, each with the frequency of its weight.
    pub(crate) fn weighted_place(&mut self, weights: &[f64]) -> usize {
        let mut left = self.chance() * weights.iter().sum::<f64>();
        let chosen = weights.iter().position(|it| {
            left -= it;
            left < 0.0
        });
        // Rounding may leave nothing over for the last one.
        chosen.or_else(|| weights.iter().rposition(|it| *it > 0.0)).unwrap_or(0)
    }

    /// Returns this number of items of the list, in a random order.
    pub(crate) fn sample<T: Clone>(&mut self, list: &[T], count: usize) -> Vec<T> {
        let mut left = list.to_vec();
        (0..count).map(|_| left.remove(self.number(0, left.len() - 1))).collect()
    }
}

/// A partition: its last step, and for each replica the side on which it is.
#[derive(Clone, Debug)]
struct Partition {
    end: usize,
    sides: Vec<bool>,
}

/// The delays and partitions that a plan draws from its random numbers.
#[derive(Clone, Debug)]
pub(crate) struct Network {
    replicas: usize,
    longest_delay: usize,
    partition_chance: f64,
    longest_partition: usize,
    partitions: Vec<Partition>,
    /// For each delayed message, the step from which on it may arrive at each replica.
    due: HashMap<usize, Vec<usize>>,
}

impl Network {
    pub(crate) fn new(random: &mut RandomNumbers, replicas: usize, operations: usize) -> Self {
        Network {
            replicas,
            longest_delay: random.choice(&LONGEST_DELAYS),
            partition_chance: random.choice(&PARTITION_CHANCES),
            longest_partition: SHORT_PARTITION.max(2 * operations),
            partitions: Vec::new(),
            due: HashMap::new(),
        }
    }

    /// Ends the partitions that are over, and perhaps begins another one.
    pub(crate) fn advance(&mut self, random: &mut RandomNumbers, now: usize, present: &[usize]) {
        self.partitions.retain(|it| it.end > now);
        if !random.occurs(self.partition_chance) {
            return;
        }
        let longest = if random.occurs(LONG_CHANCE) { self.longest_partition } else { SHORT_PARTITION };
        let end = now + random.number(SHORTEST_PARTITION, longest);
        let sides = self.sides(random, present);
        self.partitions.push(Partition { end, sides });
    }

    fn sides(&self, random: &mut RandomNumbers, present: &[usize]) -> Vec<bool> {
        if random.occurs(GROUPS_CHANCE) {
            return (0..self.replicas).map(|_| random.occurs(0.5)).collect();
        }
        let mut sides = vec![false; self.replicas];
        sides[random.choice(present)] = true;
        sides
    }

    /// Draws the delays of a new message.
    pub(crate) fn send(&mut self, random: &mut RandomNumbers, message: usize, now: usize) {
        if self.longest_delay > 0 {
            let due = (0..self.replicas).map(|_| random.number(now, now + self.longest_delay)).collect();
            self.due.insert(message, due);
        }
    }

    /// Returns whether the message may arrive at the replica.
    pub(crate) fn is_due(&self, message: usize, replica: usize, now: usize) -> bool {
        self.due.get(&message).map_or(true, |it| it[replica] <= now)
    }

    /// Returns whether no partition is between the two replicas.
    pub(crate) fn are_connected(&self, one: usize, other: usize) -> bool {
        self.partitions.iter().all(|it| it.sides[one] == it.sides[other])
    }

    /// Ends all partitions and delays.
    pub(crate) fn recover(&mut self) {
        self.partitions.clear();
        self.due.clear();
    }
}
