//! The search for the program, and its runs on whole histories.

use std::env;
use std::io::{self, Write};
use std::os::unix::fs::PermissionsExt;
use std::path::{Path, PathBuf};
use std::process::{Child, Command, ExitStatus, Stdio};
use std::thread::{self, JoinHandle};

use crate::json::Json;
use crate::Error;

/// The folder of a clone in which this crate was built.
const REPOSITORY: &str = concat!(env!("CARGO_MANIFEST_DIR"), "/../..");
/// The largest text that is written to the program's input at once. Every pipe holds that much.
const MAX_PIPED: usize = 4096;
/// The exit statuses of a run that read its whole input: a pass, a violation, and a pass with a rejected report.
pub(crate) const COMPLETE: [i32; 3] = [0, 1, 3];

/// Returns the path of the given program, else of `RA_MONITOR`, else of the one that is found without being named.
///
/// That is in a clone the repository's own, else `ra_monitor` on the PATH.
pub(crate) fn find(program: Option<&Path>) -> Result<PathBuf, Error> {
    let named = program.map(Path::to_path_buf).or_else(|| {
        env::var_os("RA_MONITOR").filter(|it| !it.is_empty()).map(PathBuf::from)
    });
    let chosen = match named {
        Some(it) => it,
        None => unnamed()?,
    };
    which(&chosen).ok_or_else(|| {
        Error::MonitorExited(format!(
            "{} is not a program: pass the path of ra_monitor as `Options::program`, or set RA_MONITOR to it",
            chosen.display()
        ))
    })
}

fn unnamed() -> Result<PathBuf, Error> {
    let repository = Path::new(REPOSITORY);
    let own = repository.join("ra_monitor");
    if repository.join("tools/build").is_file() && own.is_file() {
        return Ok(own);
    }
    which(Path::new("ra_monitor")).ok_or_else(|| {
        Error::MonitorExited(String::from(
            "there is no program ra_monitor: install a package of yehatu that contains it (tools/package of the \
             repository makes one), or set RA_MONITOR to its path",
        ))
    })
}

/// Returns the path of a program, which is looked for on the PATH if its name has no slash.
fn which(program: &Path) -> Option<PathBuf> {
    if program.components().count() > 1 || program.is_absolute() {
        return Some(program.to_path_buf()).filter(|it| is_program(it));
    }
    let path = env::var_os("PATH")?;
    env::split_paths(&path).map(|it| it.join(program)).find(|it| is_program(it))
}

fn is_program(path: &Path) -> bool {
    path.metadata().map_or(false, |it| it.is_file() && it.permissions().mode() & 0o111 != 0)
}

/// Returns the path of the program for many short runs.
///
/// The repository's own `ra_monitor` checks at each start whether it has to be built, so it is run once, and then the
/// program that it built is used directly.
pub(crate) fn find_for_many_runs(program: Option<&Path>) -> Result<PathBuf, Error> {
    let found = find(program)?;
    if !is_launcher(&found) {
        return Ok(found);
    }
    // Standard error is not captured, so that a first build shows its progress.
    let ran = Command::new(&found).arg("check").stdin(Stdio::piped()).stdout(Stdio::null()).spawn();
    let ran = ran.and_then(|mut child| {
        if let Some(mut input) = child.stdin.take() {
            // A program that has exited reads nothing, and its status says so.
            let _ = input.write_all(b"RAH 2 counter\nreplicas a\n");
        }
        child.wait()
    });
    match ran {
        Ok(status) if status.success() => Ok(built("ra_check_cli")),
        Ok(status) => Err(Error::MonitorExited(format!(
            "{} ended with {status} before it read any input; see its standard error above",
            found.display()
        ))),
        Err(error) => Err(not_started(&found, &error)),
    }
}

fn built(name: &str) -> PathBuf {
    Path::new(REPOSITORY).join("crates").join(name).join("out").join(name)
}

fn is_launcher(program: &Path) -> bool {
    is_same(program, &Path::new(REPOSITORY).join("ra_monitor"))
}

fn is_same(one: &Path, other: &Path) -> bool {
    matches!((one.canonicalize(), other.canonicalize()), (Ok(one), Ok(other)) if one == other)
}

pub(crate) fn not_started(program: &Path, error: &io::Error) -> Error {
    Error::MonitorExited(format!("{} could not be started: {error}", program.display()))
}

/// The program on a whole history, which it checks while the caller does other things.
pub(crate) struct Check {
    program: PathBuf,
    text: String,
    child: Child,
    writer: Option<JoinHandle<()>>,
}

impl Check {
    pub(crate) fn start(program: &Path, text: String) -> Result<Check, Error> {
        let (child, writer) = spawn(program, &["check"], &text).map_err(|error| not_started(program, &error))?;
        Ok(Check { program: program.to_path_buf(), text, child, writer })
    }

    /// Waits for the program and returns its replies: one for each command, and the `end` line.
    pub(crate) fn wait(self) -> Result<Vec<String>, Error> {
        let output = self.child.wait_with_output().map_err(|error| not_started(&self.program, &error))?;
        join(self.writer);
        let replies: Vec<String> = String::from_utf8_lossy(&output.stdout).lines().map(String::from).collect();
        // A shell that fails exits with a status of the monitor too, so the status alone shows no pass.
        let has_end = replies.last().map_or(false, |it| it.starts_with("end "));
        if has_end && is_complete(output.status) {
            return Ok(replies);
        }
        Err(Error::MonitorExited(describe_exit(&self.program, Some(output.status), &output.stderr, &self.text)))
    }

    /// Kills the program.
    pub(crate) fn stop(mut self) {
        // A program that has already exited cannot be killed, which is all right.
        let _ = self.child.kill();
        let _ = self.child.wait();
        join(self.writer);
    }
}

pub(crate) fn is_complete(status: ExitStatus) -> bool {
    status.code().map_or(false, |it| COMPLETE.contains(&it))
}

/// Starts the program on this text. A text that a pipe may not hold is written by a thread.
fn spawn(program: &Path, arguments: &[&str], text: &str) -> io::Result<(Child, Option<JoinHandle<()>>)> {
    let mut command = Command::new(program);
    command.args(arguments).stdin(Stdio::piped()).stdout(Stdio::piped()).stderr(Stdio::piped());
    let mut child = command.spawn()?;
    let mut input = match child.stdin.take() {
        Some(it) => it,
        None => return Ok((child, None)),
    };
    // A program that exits early closes its input, and its status and standard error say why.
    if text.len() <= MAX_PIPED {
        let _ = input.write_all(text.as_bytes());
        return Ok((child, None));
    }
    let text = text.to_string();
    let writer = thread::spawn(move || drop(input.write_all(text.as_bytes())));
    Ok((child, Some(writer)))
}

fn join(writer: Option<JoinHandle<()>>) {
    if let Some(it) = writer {
        // The thread only writes, so it does not panic.
        let _ = it.join();
    }
}

/// Returns the explanation of a violation as a JSON object, or `None` if there is none.
pub(crate) fn explain_violation(program: &Path, text: &str) -> Option<Json> {
    let (status, printed) = run_explain(program, &["explain", "--json"], text)?;
    let explanation = Json::parse(&printed).ok()?;
    let is_no = explanation.get("answer").and_then(Json::as_text) == Some("no");
    Some(explanation).filter(|_| status == 1 && is_no)
}

/// Returns the explanation of a history as a text, or `None` if the program cannot explain.
pub(crate) fn explain(program: &Path, text: &str) -> Option<String> {
    run_explain(program, &["explain"], text).filter(|it| COMPLETE.contains(&it.0)).map(|it| it.1)
}

/// Runs `ra_monitor explain`. The repository's own program is not built for this, since that takes minutes.
fn run_explain(program: &Path, arguments: &[&str], text: &str) -> Option<(i32, String)> {
    let is_own = is_launcher(program) || is_same(program, &built("ra_check_cli"));
    let path = if is_own { built("ra_explain_cli") } else { program.to_path_buf() };
    let (child, writer) = spawn(&path, arguments, text).ok()?;
    let output = child.wait_with_output().ok()?;
    join(writer);
    Some((output.status.code()?, String::from_utf8_lossy(&output.stdout).into_owned()))
}

/// Describes an abnormal exit: its standard error and, if the program could not parse the text, the explanation.
pub(crate) fn describe_exit(program: &Path, status: Option<ExitStatus>, stderr: &[u8], text: &str) -> String {
    let printed = String::from_utf8_lossy(stderr);
    let printed = printed.trim();
    let quoted = if printed.is_empty() { String::from("empty") } else { format!("{printed:?}") };
    let ended = status.map_or_else(|| String::from("ended"), |it| format!("ended with {it}"));
    let description = format!("{} {ended}; its standard error is {quoted}", program.display());
    if status.and_then(|it| it.code()) != Some(2) || !is_syntax_fault(printed) {
        return description;
    }
    match run_explain(program, &["explain"], text) {
        Some((2, page)) if !page.trim().is_empty() => format!("{description}\n\n{}", page.trim()),
        _ => description,
    }
}

fn is_syntax_fault(printed: &str) -> bool {
    let faults = ["syntax", "truncated", "too long", "full"];
    let fault = printed.strip_prefix("line ").and_then(|it| it.split_once(": "));
    fault.map_or(false, |(_, why)| faults.contains(&why))
}
