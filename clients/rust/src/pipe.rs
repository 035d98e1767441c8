//! The program behind a pipe: lines in, replies out.
//!
//! A thread reads the replies at all times. So the program never waits for a reader while a caller waits until the
//! program reads its input, and both pipes may be full. Two locks keep it that way: `queue` is held for some
//! instructions, and `input` while a line is written, which the reader of the replies never takes before the end.

use std::collections::VecDeque;
use std::io::{BufRead, BufReader, Read, Write};
use std::path::{Path, PathBuf};
use std::process::{Child, ChildStderr, ChildStdin, ChildStdout, Command, ExitStatus, Stdio};
use std::sync::{Arc, Condvar, Mutex, MutexGuard, PoisonError};
use std::thread::{self, JoinHandle};
use std::time::Duration;

use crate::program;
use crate::Error;

/// The number of lines that are written at once.
const BATCH_LINES: usize = 64;
/// The longest time that a smaller batch waits for more lines.
const FLUSH_INTERVAL: Duration = Duration::from_millis(2);
/// The number of lines of standard error that are kept, counted from the end.
const STDERR_LINES: usize = 50;
/// The bytes that are read at once.
const CHUNK: usize = 1 << 16;

/// The reply that a command should have.
#[derive(Clone, Copy, Debug, PartialEq, Eq)]
pub(crate) enum Expected {
    Ok(u32),
    Got(u32),
    Joined(u32),
    /// Any reply, which the caller waits for.
    Any,
}

impl Expected {
    fn is_met_by(self, reply: &str) -> bool {
        let (word, number) = match self {
            Expected::Ok(number) => ("ok ", number),
            Expected::Got(number) => ("got ", number),
            Expected::Joined(number) => ("joined ", number),
            Expected::Any => return true,
        };
        reply.strip_prefix(word).map_or(false, |it| is_decimal(it, number))
    }
}

/// Returns whether these are the decimal digits of the number, without allocating them.
fn is_decimal(digits: &str, number: u32) -> bool {
    let mut left = number;
    for digit in digits.bytes().rev() {
        if u32::from(digit) != u32::from(b'0') + left % 10 {
            return false;
        }
        left /= 10;
    }
    left == 0 && !digits.is_empty() && (digits.len() == 1 || !digits.starts_with('0'))
}

/// The first reply that differs from the expected one, with the number of its command, counted from 0.
#[derive(Clone, Debug, PartialEq, Eq)]
pub(crate) struct Unexpected {
    pub(crate) command: usize,
    pub(crate) reply: String,
}

/// Why a line was not accepted.
pub(crate) enum Stopped {
    Unexpected(Unexpected),
    Exited(Error),
}

/// The lines and replies so far, which callers and threads share.
#[derive(Default)]
struct Queue {
    /// The whole text. Its first `written` bytes were handed to the program.
    text: String,
    written: usize,
    unwritten_lines: usize,
    expected: VecDeque<Expected>,
    sent: usize,
    answered: usize,
    /// The reply to the last command whose reply may be any.
    asked: Option<String>,
    unexpected: Option<Unexpected>,
    closing_lines: Vec<String>,
    stderr: VecDeque<Vec<u8>>,
    status: Option<ExitStatus>,
    has_ended: bool,
    is_closing: bool,
    is_flusher_asleep: bool,
    waiting: usize,
}

struct Shared {
    queue: Mutex<Queue>,
    input: Mutex<Option<ChildStdin>>,
    child: Mutex<Child>,
    /// Replies have arrived, or the program has ended.
    progress: Condvar,
    /// Lines wait to be written, or the pipe is closing.
    wakeup: Condvar,
}

/// A run of the program on one history.
pub(crate) struct Pipe {
    program: PathBuf,
    window: usize,
    batch: usize,
    shared: Arc<Shared>,
    threads: Vec<JoinHandle<()>>,
}

/// Locks, also after a panic in another thread: each lock is released in a consistent state.
fn locked<T>(mutex: &Mutex<T>) -> MutexGuard<'_, T> {
    mutex.lock().unwrap_or_else(PoisonError::into_inner)
}

impl Pipe {
    pub(crate) fn start(program: &Path, header: &str, window: usize) -> Result<Pipe, Error> {
        let mut command = Command::new(program);
        command.args(["check", "--report"]).stdin(Stdio::piped()).stdout(Stdio::piped()).stderr(Stdio::piped());
        let mut child = command.spawn().map_err(|error| program::not_started(program, &error))?;
        let (input, output, stderr) = (child.stdin.take(), child.stdout.take(), child.stderr.take());
        let queue = Queue { text: header.to_string(), unwritten_lines: 2, ..Queue::default() };
        let shared = Arc::new(Shared {
            queue: Mutex::new(queue),
            input: Mutex::new(input),
            child: Mutex::new(child),
            progress: Condvar::new(),
            wakeup: Condvar::new(),
        });
        let mut threads = Vec::new();
        let stderr = stderr.map(|it| shared.spawn(move |shared| shared.read_stderr(it)));
        if let Some(output) = output {
            threads.push(shared.spawn(move |shared| shared.read_replies(output, stderr)));
        }
        threads.push(shared.spawn(Shared::flush_partial_batches));
        let window = window.max(1);
        Ok(Pipe { program: program.to_path_buf(), window, batch: window.min(BATCH_LINES), shared, threads })
    }

    pub(crate) fn program(&self) -> &Path {
        &self.program
    }

    /// Sends a line, which has no end, and waits only if too many commands have no reply yet.
    pub(crate) fn post(&self, line: &str, expected: Expected) -> Result<(), Stopped> {
        let mut queue = locked(&self.shared.queue);
        self.append(&mut queue, line, expected)?;
        let sent = queue.sent;
        let is_full = queue.unwritten_lines >= self.batch;
        let must_wait = sent - queue.answered >= self.window;
        if !is_full && !must_wait && queue.is_flusher_asleep {
            queue.is_flusher_asleep = false;
            self.shared.wakeup.notify_one();
        }
        drop(queue);
        if must_wait {
            return self.wait_for(sent + 1 - self.window);
        }
        if is_full {
            self.shared.flush();
        }
        Ok(())
    }

    /// Sends a line, waits for its reply and returns it.
    pub(crate) fn ask(&self, line: &str) -> Result<String, Stopped> {
        let mut queue = locked(&self.shared.queue);
        self.append(&mut queue, line, Expected::Any)?;
        let sent = queue.sent;
        drop(queue);
        self.wait_for(sent)?;
        let asked = locked(&self.shared.queue).asked.take();
        asked.ok_or_else(|| Stopped::Exited(self.exited()))
    }

    fn append(&self, queue: &mut Queue, line: &str, expected: Expected) -> Result<(), Stopped> {
        if let Some(it) = &queue.unexpected {
            return Err(Stopped::Unexpected(it.clone()));
        }
        if queue.has_ended {
            return Err(Stopped::Exited(self.describe_exit(queue)));
        }
        queue.text.push_str(line);
        queue.text.push('\n');
        queue.expected.push_back(expected);
        queue.unwritten_lines += 1;
        queue.sent += 1;
        Ok(())
    }

    /// Waits until each command has its reply.
    pub(crate) fn settle(&self) -> Result<(), Stopped> {
        let sent = locked(&self.shared.queue).sent;
        self.wait_for(sent)
    }

    fn wait_for(&self, answered: usize) -> Result<(), Stopped> {
        self.shared.flush();
        let mut queue = locked(&self.shared.queue);
        queue.waiting += 1;
        while queue.answered < answered && !queue.has_ended {
            queue = self.shared.progress.wait(queue).unwrap_or_else(PoisonError::into_inner);
        }
        queue.waiting -= 1;
        match &queue.unexpected {
            Some(it) => Err(Stopped::Unexpected(it.clone())),
            None if queue.answered < answered => Err(Stopped::Exited(self.describe_exit(&queue))),
            None => Ok(()),
        }
    }

    /// Returns the text so far, or the header with this number of commands.
    pub(crate) fn history(&self, commands: Option<usize>) -> String {
        let queue = locked(&self.shared.queue);
        match commands {
            None => queue.text.clone(),
            Some(commands) => queue.text.split_inclusive('\n').take(commands + 2).collect(),
        }
    }

    /// Ends the input, waits for the program, and returns the lines behind the replies: the end and the report.
    pub(crate) fn close(&mut self) -> Result<Vec<String>, Stopped> {
        self.shared.flush();
        self.end();
        let queue = locked(&self.shared.queue);
        if let Some(it) = &queue.unexpected {
            return Err(Stopped::Unexpected(it.clone()));
        }
        let is_complete = queue.status.map_or(false, program::is_complete) && queue.closing_lines.len() == 2;
        if is_complete {
            return Ok(queue.closing_lines.clone());
        }
        Err(Stopped::Exited(self.describe_exit(&queue)))
    }

    /// Kills the program without waiting for replies.
    pub(crate) fn stop(&mut self) {
        // A program that has already exited cannot be killed, which is all right.
        let _ = locked(&self.shared.child).kill();
        self.end();
    }

    fn end(&mut self) {
        locked(&self.shared.queue).is_closing = true;
        self.shared.wakeup.notify_all();
        drop(locked(&self.shared.input).take());
        for it in self.threads.drain(..) {
            // The threads run no code of the user, so they do not panic.
            let _ = it.join();
        }
    }

    fn exited(&self) -> Error {
        self.describe_exit(&locked(&self.shared.queue))
    }

    fn describe_exit(&self, queue: &Queue) -> Error {
        let stderr: Vec<u8> = queue.stderr.iter().flatten().copied().collect();
        Error::MonitorExited(program::describe_exit(&self.program, queue.status, &stderr, &queue.text))
    }
}

impl Shared {
    fn spawn(self: &Arc<Self>, run: impl FnOnce(&Shared) + Send + 'static) -> JoinHandle<()> {
        let shared = Arc::clone(self);
        thread::spawn(move || run(&shared))
    }

    /// Hands the program the lines that it has not read yet. The order is that of the text, since `input` is held.
    fn flush(&self) {
        let mut input = locked(&self.input);
        let mut queue = locked(&self.queue);
        let text = queue.text.as_bytes()[queue.written..].to_vec();
        queue.written = queue.text.len();
        queue.unwritten_lines = 0;
        drop(queue);
        if let Some(input) = input.as_mut() {
            // If the program has exited, the reader of its output finds that out and notifies waiting callers.
            let _ = input.write_all(&text);
        }
    }

    fn flush_partial_batches(&self) {
        loop {
            let mut queue = locked(&self.queue);
            while queue.unwritten_lines == 0 && !queue.is_closing && !queue.has_ended {
                queue.is_flusher_asleep = true;
                queue = self.wakeup.wait(queue).unwrap_or_else(PoisonError::into_inner);
            }
            queue.is_flusher_asleep = false;
            if queue.is_closing || queue.has_ended {
                return;
            }
            drop(queue);
            thread::sleep(FLUSH_INTERVAL);
            self.flush();
        }
    }

    fn read_replies(&self, mut output: ChildStdout, stderr: Option<JoinHandle<()>>) {
        let (mut chunk, mut unread) = (vec![0; CHUNK], Vec::new());
        while let Ok(count @ 1..) = output.read(&mut chunk) {
            unread.extend_from_slice(&chunk[..count]);
            let end = unread.iter().rposition(|it| *it == b'\n').map_or(0, |it| it + 1);
            self.accept_replies(&String::from_utf8_lossy(&unread[..end]));
            drop(unread.drain(..end));
        }
        drop(output);
        if let Some(it) = stderr {
            let _ = it.join();
        }
        let status = locked(&self.child).wait().ok();
        let mut queue = locked(&self.queue);
        queue.status = status;
        queue.has_ended = true;
        self.progress.notify_all();
        self.wakeup.notify_all();
    }

    fn accept_replies(&self, replies: &str) {
        let mut queue = locked(&self.queue);
        for reply in replies.lines() {
            match queue.expected.pop_front() {
                Some(expected) => queue.accept(expected, reply),
                None => queue.closing_lines.push(reply.to_string()),
            }
        }
        if queue.waiting > 0 {
            self.progress.notify_all();
        }
    }

    /// Keeps the end of standard error. Progress of a build, before the first reply, is passed on.
    fn read_stderr(&self, stderr: ChildStderr) {
        let mut lines = BufReader::new(stderr);
        let mut line = Vec::new();
        while let Ok(1..) = lines.read_until(b'\n', &mut line) {
            let mut queue = locked(&self.queue);
            let is_progress = [&b"building"[..], b"proving", b"proved"].iter().any(|it| line.starts_with(it));
            if queue.answered == 0 && is_progress {
                eprint!("{}", String::from_utf8_lossy(&line));
            }
            queue.stderr.push_back(std::mem::take(&mut line));
            if queue.stderr.len() > STDERR_LINES {
                queue.stderr.pop_front();
            }
        }
    }
}

impl Queue {
    fn accept(&mut self, expected: Expected, reply: &str) {
        if expected == Expected::Any {
            self.asked = Some(reply.to_string());
        } else if self.unexpected.is_none() && !expected.is_met_by(reply) {
            self.unexpected = Some(Unexpected { command: self.answered, reply: reply.to_string() });
        }
        self.answered += 1;
    }
}

#[cfg(test)]
mod tests {
    use super::Expected;

    #[test]
    fn replies_are_compared_digit_by_digit() {
        assert!(Expected::Ok(0).is_met_by("ok 0"));
        assert!(Expected::Got(1_048_575).is_met_by("got 1048575"));
        for reply in ["ok 1", "ok 00", "ok ", "ok", "got 0", "ok 0 ", "no 0 query", "ok 10"] {
            assert!(!Expected::Ok(0).is_met_by(reply), "{reply}");
        }
        assert!(!Expected::Joined(12).is_met_by("joined 012"));
    }
}
