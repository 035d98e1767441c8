//! The summary of a whole run.

use crate::json::Json;
use crate::{Cause, Error, Kind};

/// The summary of a whole run, as `check --report` prints it.
#[derive(Clone, Debug, PartialEq, Eq)]
#[non_exhaustive]
pub struct Report {
    /// The kind of the history.
    pub kind: Kind,
    /// Whether the canonical order of the kind explains all accepted operations.
    pub is_linearizable: bool,
    /// The number of accepted operations.
    pub labels: u32,
    /// The number of commands.
    pub calls: u32,
    /// The number of rejected commands.
    pub refused: u32,
    /// The first violating operation, if there is one.
    pub label: Option<u32>,
    /// The condition that fails there.
    pub cause: Option<Cause>,
    /// Whether no order at all explains the history up to the label, and not only the canonical order fails.
    pub is_final: Option<bool>,
}

impl Report {
    /// Returns the report of the closing lines of a run.
    pub(crate) fn of_closing_lines(lines: &[String]) -> Result<Report, Error> {
        let line = lines.last().map_or("", String::as_str);
        let report = Json::parse(line).ok().and_then(|it| Report::of_json(&it));
        report.ok_or_else(|| Error::MonitorExited(format!("the program's report is {line:?}, which is no report")))
    }

    fn of_json(json: &Json) -> Option<Report> {
        let number = |key| json.get(key).and_then(Json::as_u64).and_then(|it| u32::try_from(it).ok());
        let cause = json.get("cause").and_then(Json::as_text).map(|it| Cause::of_reply(&format!("no 0 {it}")));
        Some(Report {
            kind: json.get("kind")?.as_text()?.parse().ok()?,
            is_linearizable: json.get("verdict")?.as_text()? == "yes",
            labels: number("labels")?,
            calls: number("calls")?,
            refused: number("refused")?,
            label: number("label"),
            cause: cause.flatten(),
            is_final: json.get("final").and_then(Json::as_bool),
        })
    }
}
