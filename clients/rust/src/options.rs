//! The options of a monitor and of a recorder.

use std::path::{Path, PathBuf};

/// The largest number of commands without a reply, unless another one is chosen.
const WINDOW: usize = 4096;

/// The options of a [`Monitor`](crate::Monitor) and of a [`Recorder`](crate::Recorder).
#[derive(Clone, Debug)]
pub struct Options {
    pub(crate) program: Option<PathBuf>,
    pub(crate) window: usize,
    pub(crate) history: Option<PathBuf>,
    pub(crate) must_close: bool,
}

impl Default for Options {
    fn default() -> Self {
        Options { program: None, window: WINDOW, history: None, must_close: true }
    }
}

impl Options {
    /// Returns the default options.
    #[must_use]
    pub fn new() -> Self {
        Options::default()
    }

    /// Sets the path of `ra_monitor`.
    ///
    /// By default it is that of the variable `RA_MONITOR`, else in a clone the repository's own, else that of
    /// `ra_monitor` on the PATH.
    #[must_use]
    pub fn program(mut self, path: impl AsRef<Path>) -> Self {
        self.program = Some(path.as_ref().to_path_buf());
        self
    }

    /// Sets the largest number of commands without a reply, by default 4,096.
    ///
    /// A violation is returned by one of the calls that follow it within the window. With a window of 1 each call
    /// waits for its own reply.
    #[must_use]
    pub fn window(mut self, commands: usize) -> Self {
        self.window = commands.max(1);
        self
    }

    /// Sets the file to which the history is written when a report fails, by default a temporary one.
    #[must_use]
    pub fn history(mut self, path: impl AsRef<Path>) -> Self {
        self.history = Some(path.as_ref().to_path_buf());
        self
    }

    /// Sets whether dropping a monitor or a recorder without closing or stopping it panics, by default yes.
    ///
    /// The last reports of one that was not closed were not checked.
    #[must_use]
    pub fn must_close(mut self, must_close: bool) -> Self {
        self.must_close = must_close;
        self
    }
}
