//! The errors of the client, one for each cause.

use std::fmt;
use std::path::PathBuf;

/// Why a report or a random run did not pass.
///
/// `Debug` prints the same text as `Display`, so that a test that returns this error shows its explanation.
#[derive(Clone)]
#[non_exhaustive]
pub enum Error {
    /// The program found a violation.
    Violation(Box<Violation>),
    /// The program rejected a report. The likely cause is that something was reported wrongly.
    Refused(Box<Failure>),
    /// A replica of a random run panicked, or its `read` returned what the text format cannot represent.
    ReplicaFailed(Box<Failure>),
    /// A random run failed, and the same steps did not fail in the same way again: the type is not deterministic.
    FlakyRun(Box<Failure>),
    /// The text format cannot represent a value. The message names the value and what to do instead.
    NotRepresentable(String),
    /// The program could not be started, or exited before its input ended. The message has its standard error.
    MonitorExited(String),
    /// An argument is wrong, for instance a file that is no stored failure.
    InvalidArgument(String),
}

/// A violation that the program found. It prints the explanation.
#[derive(Clone)]
#[non_exhaustive]
pub struct Violation {
    /// The condition that fails.
    pub cause: Cause,
    /// What failed, and where.
    pub failure: Failure,
}

/// The condition that fails at a violation.
#[derive(Clone, Copy, Debug, PartialEq, Eq, Hash)]
pub enum Cause {
    /// The operation's clock is not greater than each clock that it sees.
    Order,
    /// The operation cannot be applied at its position in the order.
    Update,
    /// The operation's result does not follow from the updates that it sees.
    Query,
}

/// A report or a random run that failed: what was done, what came of it, and the files that have it.
#[derive(Clone, PartialEq, Eq)]
#[non_exhaustive]
pub struct Failure {
    /// The whole explanation.
    pub message: String,
    /// A description of what the replica did, in the user's names.
    pub operation: String,
    /// The program's reply, or nothing if the replica failed.
    pub reply: String,
    /// The file with the history up to this report, which `ra_monitor check` reads.
    pub history: Option<PathBuf>,
    /// The file with the steps of a random run, which [`replay`](crate::replay) runs again.
    pub steps: Option<PathBuf>,
}

impl Error {
    /// Returns what a violation, a rejection, a failed replica and a flaky run have in common.
    #[must_use]
    pub fn failure(&self) -> Option<&Failure> {
        match self {
            Error::Violation(it) => Some(&it.failure),
            Error::Refused(it) | Error::ReplicaFailed(it) | Error::FlakyRun(it) => Some(it),
            _ => None,
        }
    }

    pub(crate) fn not_representable(message: impl Into<String>) -> Self {
        Error::NotRepresentable(message.into())
    }

    pub(crate) fn invalid(message: impl Into<String>) -> Self {
        Error::InvalidArgument(message.into())
    }

    /// Returns the error for a command that had this reply, `no ..` or `refused ..`.
    pub(crate) fn of_reply(failure: Failure) -> Self {
        match Cause::of_reply(&failure.reply) {
            Some(cause) => Error::Violation(Box::new(Violation { cause, failure })),
            None => Error::Refused(Box::new(failure)),
        }
    }
}

impl Cause {
    /// Returns the cause of a reply such as `no 4 query`, or `None` if the reply is no violation.
    pub(crate) fn of_reply(reply: &str) -> Option<Self> {
        match reply.strip_prefix("no ")?.split(' ').nth(1)? {
            "order" => Some(Cause::Order),
            "update" => Some(Cause::Update),
            "query" => Some(Cause::Query),
            _ => None,
        }
    }
}

impl fmt::Display for Cause {
    fn fmt(&self, out: &mut fmt::Formatter<'_>) -> fmt::Result {
        out.pad(match self {
            Cause::Order => "order",
            Cause::Update => "update",
            Cause::Query => "query",
        })
    }
}

impl fmt::Display for Failure {
    fn fmt(&self, out: &mut fmt::Formatter<'_>) -> fmt::Result {
        out.write_str(&self.message)
    }
}

impl fmt::Debug for Failure {
    fn fmt(&self, out: &mut fmt::Formatter<'_>) -> fmt::Result {
        fmt::Display::fmt(self, out)
    }
}

impl fmt::Display for Violation {
    fn fmt(&self, out: &mut fmt::Formatter<'_>) -> fmt::Result {
        fmt::Display::fmt(&self.failure, out)
    }
}

impl fmt::Debug for Violation {
    fn fmt(&self, out: &mut fmt::Formatter<'_>) -> fmt::Result {
        fmt::Display::fmt(self, out)
    }
}

impl fmt::Display for Error {
    fn fmt(&self, out: &mut fmt::Formatter<'_>) -> fmt::Result {
        match self {
            Error::NotRepresentable(it) | Error::MonitorExited(it) | Error::InvalidArgument(it) => out.write_str(it),
            Error::Violation(it) => fmt::Display::fmt(it, out),
            Error::Refused(it) | Error::ReplicaFailed(it) | Error::FlakyRun(it) => fmt::Display::fmt(it, out),
        }
    }
}

impl fmt::Debug for Error {
    fn fmt(&self, out: &mut fmt::Formatter<'_>) -> fmt::Result {
        fmt::Display::fmt(self, out)
    }
}

impl std::error::Error for Violation {}

impl std::error::Error for Error {
    fn source(&self) -> Option<&(dyn std::error::Error + 'static)> {
        match self {
            Error::Violation(it) => Some(it.as_ref()),
            _ => None,
        }
    }
}
