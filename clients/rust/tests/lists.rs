//! The kind `list`: its operations, the causes of its violations, and random runs of lists.

use std::fs;
use std::path::Path;

use yehatu::{
    check_random, replay, Cause, Error, Kind, Monitor, Operation, Options, RandomOptions, Recorder, Replica, Sent,
    Update, Value,
};

/// Siblings stand in the order in which they arrive.
const SIBLINGS_BY_ARRIVAL: u8 = 1;
/// Each third message is not applied.
const LOSES_A_DELIVERY: u8 = 2;
/// An index is sent, which a receiver uses as it is.
const SENDS_INDEXES: u8 = 3;
/// A removed element is back after an insertion beside it.
const SHOWS_AGAIN: u8 = 4;
/// An insertion of a third element at the end panics.
const PANICS: u8 = 5;

type Id = (String, u64);

/// What an update sends.
#[derive(Clone)]
enum Message {
    Insert { id: Id, element: u64, parent: Option<Id>, is_right: bool, index: usize },
    Remove(Id),
}

/// An element of a list, with its place in the tree.
#[derive(Clone)]
struct Node {
    id: Option<Id>,
    element: u64,
    parent: Option<Id>,
    is_right: bool,
    is_shown: bool,
}

/// A list by Fugue: a tree with left and right children, of which siblings stand in the order of their identifiers.
#[derive(Clone)]
struct Fugue<const BUG: u8 = 0> {
    name: String,
    inserted: u64,
    received: u64,
    /// The nodes in the order of their arrival. With `SENDS_INDEXES` they are in the order of the list.
    nodes: Vec<Node>,
}

impl<const BUG: u8> Fugue<BUG> {
    fn children(&self, parent: &Option<Id>, is_right: bool) -> Vec<&Node> {
        let is_child = |it: &&Node| it.id.is_some() && it.parent == *parent && it.is_right == is_right;
        let mut found: Vec<&Node> = self.nodes.iter().filter(is_child).collect();
        if BUG != SIBLINGS_BY_ARRIVAL {
            found.sort_by(|one, other| one.id.cmp(&other.id));
        }
        found
    }

    /// Appends the nodes below this one, and the node itself, in the order of the list.
    fn walk<'a>(&'a self, node: &'a Node, found: &mut Vec<&'a Node>) {
        self.children(&node.id, false).into_iter().for_each(|it| self.walk(it, found));
        found.push(node);
        self.children(&node.id, true).into_iter().for_each(|it| self.walk(it, found));
    }

    fn in_order(&self) -> Vec<&Node> {
        if BUG == SENDS_INDEXES {
            return self.nodes.iter().collect();
        }
        let mut found = Vec::new();
        self.walk(&self.nodes[0], &mut found);
        found
    }

    fn shown(&self) -> Vec<&Node> {
        self.in_order().into_iter().filter(|it| it.is_shown).collect()
    }

    /// Returns where an insertion at this index belongs in the tree.
    fn place(&self, index: usize) -> (Option<Id>, bool) {
        let left = if index == 0 { self.nodes[0].id.clone() } else { self.shown()[index - 1].id.clone() };
        if BUG == SENDS_INDEXES || self.children(&left, true).is_empty() {
            return (left, true);
        }
        let nodes = self.in_order();
        let behind = nodes.iter().position(|it| it.id == left).unwrap() + 1;
        (nodes[behind].id.clone(), false)
    }

    fn apply(&mut self, message: &Message) {
        match message {
            Message::Remove(id) => {
                self.nodes.iter_mut().filter(|it| it.id.as_ref() == Some(id)).for_each(|it| it.is_shown = false);
            }
            Message::Insert { id, .. } if self.nodes.iter().any(|it| it.id.as_ref() == Some(id)) => {}
            Message::Insert { id, element, parent, is_right, index } => {
                if BUG == SHOWS_AGAIN {
                    let parents = self.nodes.iter_mut().filter(|it| it.id.is_some() && it.id == *parent);
                    parents.for_each(|it| it.is_shown = true);
                }
                let (id, parent) = (Some(id.clone()), parent.clone());
                let node = Node { id, element: *element, parent, is_right: *is_right, is_shown: true };
                let shown = self.shown();
                let before = shown.get(*index).and_then(|next| self.nodes.iter().position(|it| it.id == next.id));
                let place = before.filter(|_| BUG == SENDS_INDEXES).unwrap_or(self.nodes.len());
                self.nodes.insert(place, node);
            }
        }
    }
}

impl<const BUG: u8> Replica for Fugue<BUG> {
    type Message = Message;
    type State = ();
    const KIND: Kind = Kind::List;

    fn create(name: &str) -> Self {
        let root = Node { id: None, element: 0, parent: None, is_right: false, is_shown: false };
        Fugue { name: name.to_string(), inserted: 0, received: 0, nodes: vec![root] }
    }

    fn update(&mut self, update: Update) -> Sent<Message> {
        let message = match update {
            Update::Insert { index, element } => {
                assert!(BUG != PANICS || index < 2, "too far");
                let (parent, is_right) = self.place(index);
                self.inserted += 1;
                Message::Insert { id: (self.name.clone(), self.inserted), element, parent, is_right, index }
            }
            Update::Delete { index } => Message::Remove(self.shown()[index].id.clone().unwrap()),
            _ => unreachable!(),
        };
        self.apply(&message);
        Sent::new(message)
    }

    fn receive(&mut self, message: &Message) {
        self.received += 1;
        if BUG != LOSES_A_DELIVERY || self.received % 3 > 0 {
            self.apply(message);
        }
    }

    fn read(&self) -> Value {
        Value::Elements(self.shown().iter().map(|it| it.element).collect())
    }

    fn fork(&self, name: &str) -> Option<Self> {
        Some(Fugue { name: name.to_string(), ..self.clone() }).filter(|_| BUG == 0)
    }
}

type Texts = Recorder<&'static str, &'static str, u64, u64>;

fn recorder() -> Texts {
    Recorder::with_options(Kind::List, ["a", "b"], &Options::new().window(1)).unwrap()
}

/// Reports two insertions by replicas that know nothing of each other, and their deliveries.
fn two_elements(recorder: &Texts) {
    recorder.update(&"a", &Operation::insert(None, "x", None), 1).unwrap();
    recorder.update(&"b", &Operation::insert(None, "y", None), 2).unwrap();
    recorder.deliver(&"a", &2).unwrap();
    recorder.deliver(&"b", &1).unwrap();
}

fn require_violation(result: Result<(), Error>, cause: Cause, text: &str) {
    let error = result.unwrap_err();
    assert!(matches!(&error, Error::Violation(it) if it.cause == cause), "{error}");
    assert!(error.to_string().contains(text), "{error}");
}

#[test]
fn an_insertion_is_reported_with_both_neighbours() {
    let recorder = recorder();
    recorder.update(&"a", &Operation::insert(None, "x", None), 1).unwrap();
    recorder.update(&"a", &Operation::insert(Some("x"), "z", None), 2).unwrap();
    recorder.update(&"a", &Operation::insert(Some("x"), "y", Some("z")), 3).unwrap();
    (1..=3).for_each(|it| recorder.deliver(&"b", &it).unwrap());
    recorder.update(&"b", &Operation::delete("x"), 4).unwrap();
    recorder.read(&"b", &Value::Elements(vec!["y", "z"])).unwrap();
    recorder.part(&"a", &["x", "z"]).unwrap();
    let expected = [
        "a insert 0 1 0", "a insert 1 2 0", "a insert 1 3 2", "b got 0", "b got 1", "b got 2", "b remove 1",
        "b read 3,2", "a part 1,2",
    ];
    let history = recorder.history();
    assert_eq!(history.lines().skip(2).collect::<Vec<_>>(), expected);
    recorder.close().unwrap();
}

#[test]
fn operations_of_another_list_are_rejected() {
    let recorder = recorder();
    let error = recorder.update(&"a", &Operation::insert_after(None, "x", 1), 1).unwrap_err();
    assert!(error.to_string().contains("is not an operation of the kind list"), "{error}");
    recorder.stop();
    let other: Recorder<&str, u64, u64, u64> = Recorder::new(Kind::Rga, ["a"]).unwrap();
    let error = other.part(&"a", &[]).unwrap_err();
    assert!(error.to_string().contains("part is not a read of the kind rga: it is one of the kind list"), "{error}");
    other.stop();
}

#[test]
fn the_causes_of_a_list_are_described() {
    let first = recorder();
    two_elements(&first);
    first.part(&"a", &["x", "y"]).unwrap();
    let text = "no single order of the elements agrees with all reads and insertions";
    require_violation(first.read(&"b", &Value::Elements(vec!["y", "x"])), Cause::Order, text);
    let twice = recorder();
    twice.update(&"a", &Operation::insert(None, "x", None), 1).unwrap();
    let text = "inserts \"x\": not RA-linearizable, it inserts an element that was inserted before";
    require_violation(twice.update(&"b", &Operation::insert(None, "x", None), 2), Cause::Update, text);
    let early = recorder();
    early.update(&"a", &Operation::insert(None, "x", None), 1).unwrap();
    let text = "inserts \"y\" behind \"x\": not RA-linearizable, it does not follow from the updates";
    require_violation(early.update(&"b", &Operation::insert(Some("x"), "y", None), 2), Cause::Query, text);
    let less = recorder();
    two_elements(&less);
    less.update(&"a", &Operation::insert(Some("x"), "z", Some("y")), 3).unwrap();
    let text = "inserts \"z\" behind \"x\" and before \"y\"";
    require_violation(less.read(&"a", &Value::Elements(vec!["x", "z"])), Cause::Query, text);
}

#[test]
fn a_monitor_reports_lists() {
    let mut monitor = Monitor::new(Kind::List, &["a"]).unwrap();
    monitor.insert("a", None, 1, None).unwrap();
    monitor.insert("a", None, 2, Some(1)).unwrap();
    monitor.read_elements("a", &[2, 1]).unwrap();
    monitor.delete("a", 2).unwrap();
    monitor.read_part("a", &[1]).unwrap();
    assert_eq!(monitor.close().unwrap().labels, 5);
}

#[test]
fn correct_lists_pass() {
    let runs = std::env::var("YEHATU_RUNS").ok().and_then(|it| it.parse().ok()).unwrap_or(50);
    let options = RandomOptions::new().seeds(runs);
    assert_eq!(check_random::<Fugue>(&options).unwrap().count, runs as usize);
    assert_eq!(check_random::<Fugue>(&options.replicas(4).duplicates(true)).unwrap().count, runs as usize);
}

fn finds<const BUG: u8>(longest: usize) -> Error {
    let folder = std::env::temp_dir().join(format!("yehatu_lists_{}_{BUG}", std::process::id()));
    fs::create_dir_all(&folder).unwrap();
    let path = folder.join("failure.json");
    let error = check_random::<Fugue<BUG>>(&RandomOptions::new().seeds(200).failure(&path)).unwrap_err();
    let shrunk = error.to_string().split(" steps to ").nth(1).and_then(|it| it.split(';').next()?.parse().ok());
    assert!(shrunk.map_or(false, |it: usize| it <= longest), "{error}");
    let again = replay::<Fugue<BUG>>(&path).unwrap_err();
    assert!(again.to_string().contains(" still fails: "), "{again}");
    assert!(replay::<Fugue>(&path).unwrap() >= 3);
    fs::remove_dir_all(folder).unwrap();
    error
}

#[test]
fn siblings_in_the_order_of_arrival_are_found() {
    let error = finds::<SIBLINGS_BY_ARRIVAL>(8);
    assert!(matches!(&error, Error::Violation(it) if it.cause == Cause::Order), "{error}");
}

#[test]
fn a_delivery_that_is_not_applied_is_found() {
    let error = finds::<LOSES_A_DELIVERY>(12);
    assert!(matches!(&error, Error::Violation(it) if it.cause == Cause::Query), "{error}");
}

#[test]
fn an_index_without_transformation_is_found() {
    let error = finds::<SENDS_INDEXES>(8);
    assert!(matches!(&error, Error::Violation(it) if it.cause == Cause::Order), "{error}");
}

#[test]
fn an_element_that_is_back_is_found() {
    finds::<SHOWS_AGAIN>(8);
}

#[test]
fn a_panic_is_shown_with_its_index() {
    let error = finds::<PANICS>(4);
    assert!(matches!(error, Error::ReplicaFailed(_)), "{error}");
    let operation = &error.failure().unwrap().operation;
    assert!(operation.contains("update(Update::Insert { index: 2, element: 3 }) panicked: too far"), "{operation}");
}

#[test]
fn failures_of_the_other_clients_are_run() {
    let folder = Path::new(env!("CARGO_MANIFEST_DIR")).join("tests/stored/lists");
    for name in ["python_list.json", "javascript_list.json"] {
        let path = folder.join(name);
        let error = replay::<Fugue<SIBLINGS_BY_ARRIVAL>>(&path).unwrap_err();
        assert!(error.to_string().contains("still fails: "), "{name}: {error}");
        assert!(replay::<Fugue>(&path).unwrap() >= 6, "{name}");
    }
}
