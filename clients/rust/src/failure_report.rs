//! Explanations of a failed history: its last command, what was expected, and its last lines.

use std::collections::BTreeMap;
use std::fs::{File, OpenOptions};
use std::io::{self, Write};
use std::path::{Path, PathBuf};
use std::sync::atomic::{AtomicUsize, Ordering};

use crate::error::Failure;
use crate::json::Json;
use crate::program;
use crate::{Error, Kind};

/// The number of lines before the first command.
pub(crate) const HEADER_LINES: usize = 2;
/// The largest number of a history's last lines in a message.
const SHOWN_LINES: usize = 16;
/// The largest number of suggested changes in a message.
const SHOWN_CHANGES: usize = 5;
/// What is said if some order explains a violation, and if none does.
const ANOTHER_ORDER: &str = "another order explains what was reported: suspect a clock, a tie-break or a delivery";
const NO_ORDER: &str = "no order explains what was reported, whatever the clocks are";

/// Describes the commands of a history.
pub(crate) trait Describe {
    /// Describes a line in the user's names.
    fn line(&self, line: &str, report: &FailureReport<'_>) -> String;

    /// Returns the key of the message of this label, if there is one.
    fn message(&self, label: u32) -> Option<String>;

    /// Describes identifiers by their numbers.
    fn identifiers(&self, numbers: &[u32]) -> String;

    /// Returns whether the descriptions say more than the lines.
    fn says_more(&self) -> bool;
}

/// The commands of a failed history, with their descriptions.
pub(crate) struct FailureReport<'a> {
    kind: Kind,
    pub(crate) commands: Vec<String>,
    /// For each label, the number of its command.
    command_of: Vec<usize>,
    /// The lines that are printed before the command of a number.
    notes: &'a BTreeMap<usize, Vec<String>>,
    describe: &'a dyn Describe,
}

/// A table of commands: where it begins, the largest number of its rows if that is not 0, and a call behind it, for
/// which there is no command.
#[derive(Clone, Copy, Default)]
pub(crate) struct Table<'a> {
    pub(crate) first: usize,
    pub(crate) most: usize,
    pub(crate) last: Option<&'a str>,
}

impl<'a> FailureReport<'a> {
    pub(crate) fn new(
        kind: Kind,
        text: &str,
        notes: &'a BTreeMap<usize, Vec<String>>,
        describe: &'a dyn Describe,
    ) -> Self {
        let commands: Vec<String> = text.lines().skip(HEADER_LINES).map(String::from).collect();
        let command_of = (0..commands.len()).filter(|it| is_operation(&commands[*it])).collect();
        FailureReport { kind, commands, command_of, notes, describe }
    }

    /// Describes the command with this number.
    pub(crate) fn describe(&self, command: usize) -> String {
        self.commands.get(command).map_or_else(String::new, |it| self.describe.line(it, self))
    }

    /// Describes the last command.
    pub(crate) fn describe_last(&self) -> String {
        self.describe(self.commands.len().wrapping_sub(1))
    }

    /// Describes a label by its message and its command.
    pub(crate) fn describe_label(&self, label: u32) -> String {
        let key = self.describe.message(label).map_or_else(String::new, |it| format!("message {it}, "));
        let command = self.command_of.get(label as usize).map_or_else(String::new, |it| self.describe(*it));
        format!("{key}label {label} ({command})")
    }

    /// Returns a table of the commands: each with its reply, if any, and its description.
    pub(crate) fn format_commands(&self, replies: &[String], table: Table<'_>) -> String {
        let mut rows: Vec<[String; 3]> = Vec::new();
        let note = |text: &str| [String::new(), String::new(), text.to_string()];
        for (number, line) in self.commands.iter().enumerate().skip(table.first) {
            rows.extend(self.notes.get(&number).into_iter().flatten().map(|it| note(it)));
            let description = if self.describe.says_more() { self.describe(number) } else { String::new() };
            rows.push([line.clone(), replies.get(number).cloned().unwrap_or_default(), description]);
        }
        if let Some(last) = table.last {
            rows.extend(self.notes.get(&self.commands.len()).into_iter().flatten().map(|it| note(it)));
            rows.push(note(last));
        }
        if table.most > 0 && rows.len() > table.most {
            let left_out = format!("{} lines are left out here, and not in the file", rows.len() - table.most);
            let middle = table.most / 2..rows.len() - table.most / 2;
            drop(rows.splice(middle, [[String::from(".."), String::new(), left_out]]));
        }
        aligned(&rows)
    }

    /// Describes the last command of the text and its reply.
    ///
    /// A violation is followed by the expected result, whether another order explains it, and the changes of deliveries
    /// that would explain it, if there is an explanation.
    pub(crate) fn summarize(&self, reply: &str, explanation: Option<&Json>) -> String {
        let details = explanation.map_or_else(String::new, |it| self.format_explanation(it));
        format!("{}: {}{details}", self.describe_last(), self.describe_reply(reply))
    }

    fn format_explanation(&self, explanation: &Json) -> String {
        let mut rows = Vec::new();
        if let Some(line) = explanation.get("right").and_then(Json::as_text) {
            rows.push(format!("expected: {}", self.describe.line(line, self)));
        }
        match explanation.get("another_order").and_then(Json::as_bool) {
            Some(true) => rows.push(String::from(ANOTHER_ORDER)),
            Some(false) => rows.push(String::from(NO_ORDER)),
            None => {}
        }
        let changes = explanation.get("would_be_right").and_then(Json::as_array).unwrap_or_default();
        let shown = changes.iter().take(SHOWN_CHANGES).filter_map(|it| self.describe_change(it));
        rows.extend(shown.map(|it| format!("explained if {it}")));
        let tried = explanation.get("tried").and_then(Json::as_u64).unwrap_or(0);
        match tried {
            _ if !changes.is_empty() => {}
            0 => {}
            1 => rows.push(String::from("the one change that was tried does not explain it")),
            _ => rows.push(format!("none of the {tried} changes that were tried explains it")),
        }
        rows.iter().flat_map(|it| ["\n", it]).collect()
    }

    fn describe_change(&self, change: &Json) -> Option<String> {
        if let Some(label) = change.get("gets").and_then(Json::as_u64) {
            let label = u32::try_from(label).ok()?;
            return Some(format!("{} had been delivered before", self.describe_label(label)));
        }
        let command = |key| change.get(key).and_then(Json::as_usize).and_then(|it| it.checked_sub(HEADER_LINES + 1));
        if let Some(it) = command("misses_line") {
            return Some(format!("this had not been delivered: {}", self.describe(it)));
        }
        command("comes_before_line").map(|it| format!("it had come before this: {}", self.describe(it)))
    }

    /// Returns what a reply to the last command means.
    fn describe_reply(&self, reply: &str) -> String {
        if let Some(label) = reply.strip_prefix("refused not-causal ").and_then(|it| it.parse().ok()) {
            return format!("refused, {} has to be delivered first", self.describe_label(label));
        }
        let verdict = if reply.starts_with("no ") { "not RA-linearizable" } else { "refused" };
        let is_removal = self.commands.last().map_or(false, |it| it.contains(" remove "));
        if self.kind == Kind::OrSet && is_removal && reply.ends_with(" query") {
            return format!("{verdict}, {}", self.describe_identifiers());
        }
        let meaning_of = |it: &str| list_meaning(it).filter(|_| self.kind == Kind::List).or_else(|| meaning(it));
        match reply.split(' ').find_map(meaning_of) {
            Some(it) => format!("{verdict}, {it}"),
            None => reply.to_string(),
        }
    }

    /// Compares the identifiers that the last command, a removal, names with those that its replica has.
    fn describe_identifiers(&self) -> String {
        let last = self.commands.len() - 1;
        let mut words = self.commands[last].split(' ');
        let (name, element) = (words.next().unwrap_or(""), words.nth(1).unwrap_or(""));
        let named = numbers_of(words.next().map_or("", |it| &it[1..]));
        let observed = observed_identifiers(&self.commands[..last], name, element);
        let meaning = if named.iter().any(|it| !observed.contains(it)) {
            "a delivery was not reported, or the removal names what its replica never had"
        } else {
            "the replica lost an addition that was delivered, or the removal names too few; if an addition replaces \
             older ones, leave the identifiers out"
        };
        format!(
            "it names the identifiers {}, and by the reports its replica had {}: {meaning}",
            self.describe.identifiers(&named),
            self.describe.identifiers(&observed)
        )
    }

    /// Creates the error for a history whose last command had this reply, and saves the history.
    pub(crate) fn create_error(&self, text: &str, reply: &str, path: Option<&Path>, program: Option<&Path>) -> Error {
        let last = self.commands.len().saturating_sub(1);
        if !reply.starts_with("no ") && !reply.starts_with("refused ") {
            let line = self.commands.last().map_or("", String::as_str);
            return Error::MonitorExited(format!(
                "the program is not a monitor: it replied {reply:?} to {line:?}; set RA_MONITOR to the path of \
                 ra_monitor"
            ));
        }
        let explanation = program.filter(|_| reply.starts_with("no ")).and_then(|it| {
            program::explain_violation(it, text)
        });
        let saved = save_history(text, path);
        let first = (last + 1).saturating_sub(SHOWN_LINES);
        let shown = self.format_commands(&[], Table { first, ..Table::default() });
        let message = format!(
            "{}\nline {} of {}, reply {reply:?}; the last lines:\n{shown}",
            self.summarize(reply, explanation.as_ref()),
            last + HEADER_LINES + 1,
            saved.as_ref().map_or_else(|it| format!("a history that could not be written ({it})"), |it| {
                it.display().to_string()
            })
        );
        Error::of_reply(Failure {
            message,
            operation: self.describe_last(),
            reply: reply.to_string(),
            history: saved.ok(),
            steps: None,
        })
    }
}

/// The meaning of a list's violation.
fn list_meaning(cause: &str) -> Option<&'static str> {
    match cause {
        "order" => Some("no single order of the elements agrees with all reads and insertions"),
        "update" => Some("it inserts an element that was inserted before, or names one that was not"),
        "query" => Some("it does not follow from the updates that it sees"),
        _ => None,
    }
}

fn meaning(cause: &str) -> Option<&'static str> {
    match cause {
        "order" => Some("its clock is not greater than each clock that it sees"),
        "update" => Some("it cannot be applied at its position in the order"),
        "query" => Some("its result does not follow from the updates that it sees"),
        "stamp-taken" => Some("another operation of its replica used this clock before"),
        "id-taken" => Some("another addition used this identifier before"),
        _ => None,
    }
}

fn aligned(rows: &[[String; 3]]) -> String {
    let width = |column: usize| rows.iter().map(|it| it[column].chars().count()).max().unwrap_or(0);
    let widths = [width(0), width(1)];
    let format_row = |row: &[String; 3]| {
        let mut line = String::from("    ");
        for (text, width) in row.iter().zip(widths) {
            if width > 0 {
                line.extend([text.as_str(), "  "]);
                line.extend(std::iter::repeat(' ').take(width - text.chars().count()));
            }
        }
        line.push_str(&row[2]);
        line.trim_end().to_string()
    };
    rows.iter().map(format_row).collect::<Vec<_>>().join("\n")
}

/// Returns whether a replica joins in this line, which then begins with no name.
pub(crate) fn is_join(line: &str) -> bool {
    line.starts_with("join ")
}

/// Returns whether the line reports an operation, which becomes a label.
pub(crate) fn is_operation(line: &str) -> bool {
    !is_join(line) && !matches!(line.split(' ').nth(1), None | Some("got"))
}

/// Returns the numbers of a list in the text format.
pub(crate) fn numbers_of(list: &str) -> Vec<u32> {
    list.split(',').filter_map(|it| it.parse().ok()).collect()
}

/// Returns the numbers of the identifiers of an OR-Set's element that the replica of this name has.
fn observed_identifiers(commands: &[String], replica: &str, element: &str) -> Vec<u32> {
    let mut updates: BTreeMap<u32, (bool, &str, Vec<u32>)> = BTreeMap::new();
    let mut received: BTreeMap<&str, Vec<u32>> = BTreeMap::new();
    let mut label = 0;
    for command in commands {
        let words: Vec<&str> = command.split(' ').collect();
        match words[..] {
            ["join", name, source] => {
                let copied = received.get(source).cloned().unwrap_or_default();
                received.insert(name, copied);
            }
            [name, "got", update] => received.entry(name).or_default().extend(update.parse::<u32>()),
            [name, word @ ("add" | "remove"), element, identifiers] => {
                updates.insert(label, (word == "add", element, numbers_of(&identifiers[1..])));
                received.entry(name).or_default().push(label);
                label += 1;
            }
            _ => label += 1,
        }
    }
    let mut observed: Vec<u32> = Vec::new();
    for update in received.get(replica).into_iter().flatten().filter_map(|it| updates.get(it)) {
        match update {
            (true, changed, identifiers) if *changed == element => observed.extend(identifiers),
            (false, changed, identifiers) if *changed == element => observed.retain(|it| !identifiers.contains(it)),
            _ => {}
        }
    }
    observed.sort_unstable();
    observed
}

/// Writes the history to this file, or to a new temporary file, and returns the path.
pub(crate) fn save_history(text: &str, path: Option<&Path>) -> io::Result<PathBuf> {
    let (path, mut file) = match path {
        Some(path) => (path.to_path_buf(), File::create(path)?),
        None => new_file("rah")?,
    };
    file.write_all(text.as_bytes())?;
    Ok(path)
}

/// Creates a new temporary file with this extension, which no other process and no other call has.
fn new_file(extension: &str) -> io::Result<(PathBuf, File)> {
    static CREATED: AtomicUsize = AtomicUsize::new(0);
    loop {
        let number = CREATED.fetch_add(1, Ordering::Relaxed);
        let name = format!("yehatu_{}_{number}.{extension}", std::process::id());
        let path = std::env::temp_dir().join(name);
        match OpenOptions::new().write(true).create_new(true).open(&path) {
            Err(error) if error.kind() == io::ErrorKind::AlreadyExists => {}
            opened => return opened.map(|file| (path, file)),
        }
    }
}
