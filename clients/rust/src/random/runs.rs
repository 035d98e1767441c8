//! Runs of plans on the user's own replicas, which the program checks.

use std::marker::PhantomData;
use std::path::PathBuf;

use super::driver::{execute, Indexes, Raised, RunReports, Transcript};
use super::options::Profile;
use super::replica::Replica;
use super::steps::Step;
use crate::program::Check;
use crate::Error;

/// What all runs of a test have in common.
pub(crate) struct Setting<R> {
    pub(crate) names: Vec<String>,
    pub(crate) program: PathBuf,
    pub(crate) profile: Profile,
    pub(crate) replica: PhantomData<fn() -> R>,
}

/// A failed run, up to the step at which it failed.
pub(crate) struct FailedRun {
    /// `no`; `refused` and the reason; `raised` and `panic`; or `returned` and `Value`.
    pub(crate) cause: Vec<String>,
    pub(crate) steps: Vec<Step>,
    pub(crate) indexes: Indexes,
    pub(crate) reports: RunReports,
    pub(crate) text: String,
    pub(crate) replies: Vec<String>,
    pub(crate) raised: Option<Raised>,
}

/// A run whose history is being checked. The program checks it while other runs are executed.
pub(crate) struct Run {
    transcript: Transcript,
    raised: Option<Raised>,
    check: Check,
}

impl Run {
    pub(crate) fn start<R: Replica>(setting: &Setting<R>, steps: &[Step]) -> Result<Run, Error> {
        let (transcript, raised) = execute::<R>(&setting.names, setting.profile, steps)?;
        let check = Check::start(&setting.program, transcript.text(None))?;
        Ok(Run { transcript, raised, check })
    }

    /// Returns the number of steps that could be executed.
    pub(crate) fn executed(&self) -> usize {
        self.transcript.executed.len()
    }

    /// Waits for the program, and returns the failure, or `None` if all passed.
    pub(crate) fn find_failure(self) -> Result<Option<FailedRun>, Error> {
        let mut replies = self.check.wait()?;
        let is_failed = |it: &String| it.starts_with("no ") || it.starts_with("refused ");
        if let Some(failed) = replies.iter().position(is_failed) {
            replies.truncate(failed + 1);
            let mut words = replies[failed].split(' ').map(String::from);
            let cause: Vec<String> = match words.next() {
                Some(no) if no == "no" => vec![no],
                first => first.into_iter().chain(words.next()).collect(),
            };
            let steps = self.transcript.steps_to(failed).to_vec();
            let text = self.transcript.text(Some(failed + 1));
            let (reports, indexes) = (self.transcript.reports, self.transcript.indexes);
            return Ok(Some(FailedRun { cause, steps, indexes, reports, text, replies, raised: None }));
        }
        Ok(self.raised.map(|raised| FailedRun {
            cause: raised.cause.clone(),
            text: self.transcript.text(None),
            steps: self.transcript.executed,
            indexes: self.transcript.indexes,
            reports: self.transcript.reports,
            replies,
            raised: Some(raised),
        }))
    }

    /// Ends the check without its result.
    pub(crate) fn stop(self) {
        self.check.stop();
    }
}

/// Runs the steps that can be executed and checks the history. Returns the failure, or `None` if all passed.
pub(crate) fn find_failure<R: Replica>(setting: &Setting<R>, steps: &[Step]) -> Result<Option<FailedRun>, Error> {
    if steps.is_empty() {
        return Ok(None);
    }
    Run::start(setting, steps)?.find_failure()
}
