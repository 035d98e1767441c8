//! A client of the monitor of RA-linearizability, which reports what the replicas of a CRDT do.
//!
//! [`Monitor`] runs the program `ra_monitor` behind a pipe. [`Recorder`] reports to it in the user's own names.
//! [`check_random`] tests a type that implements [`Replica`] in random runs, and shrinks the first run that has a
//! violation.

#![deny(missing_docs)]
#![forbid(unsafe_code)]

mod error;
mod failure_report;
mod json;
mod kind;
mod monitor;
mod numbers;
mod observed;
mod operation;
mod options;
mod pipe;
mod program;
mod random;
mod recorder;
mod report;
mod reports;
mod translation;

pub use error::{Cause, Error, Failure, Violation};
pub use kind::{Kind, Method};
pub use monitor::{Label, Monitor};
pub use numbers::Key;
pub use operation::{Operation, Value};
pub use options::Options;
pub use random::{check_random, replay, replay_with, Delivery, RandomOptions, Replica, Runs, Sent, Update};
pub use recorder::Recorder;
pub use report::Report;
pub use reports::{Reports, Seen};
