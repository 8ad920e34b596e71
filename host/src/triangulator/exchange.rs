//! A program that is handed text and answers text, within a time and within a length.
//!
//! Nothing that the program does can make us wait longer than that: its pipes are read only when something is there, it runs in a
//! process group of its own, which is killed whole, and what outlives it is not waited for.

use crate::limits;
use crate::text;
use std::io::{self, ErrorKind, Read, Write};
use std::os::fd::{AsRawFd, RawFd};
use std::os::unix::process::CommandExt;
use std::process::{Child, ChildStderr, ChildStdin, ChildStdout, Command, ExitStatus, Stdio};
use std::time::{Duration, Instant};
use wait_timeout::ChildExt;

/// How long the output may stay open once the program itself has ended.
const GRACE: Duration = Duration::from_secs(1);
/// How often it is looked whether it has ended.
const LOOK: Duration = Duration::from_millis(50);
/// Bytes moved at a time.
const CHUNK: usize = 65_536;

/// What the program answers on its standard output. The sentence on failure begins with a verb.
pub fn ask(command: &mut Command, input: &[u8], time: Duration, most: usize) -> Result<Vec<u8>, String> {
    let end = Instant::now() + time;
    end_with_us(command);
    let mut child = command
        .stdin(Stdio::piped())
        .stdout(Stdio::piped())
        .stderr(Stdio::piped())
        .process_group(0)
        .spawn()
        .map_err(|why| format!("was not started: {why}"))?;
    let mut talk = Talk::new(&mut child, input, most);
    let heard = talk.go_on(&child, end).and_then(|()| {
        let left = end.saturating_duration_since(Instant::now());
        let status = child.wait_timeout(left).map_err(|why| End::Told(format!("was lost: {why}")))?;
        status.ok_or(End::Late)
    });
    let status = heard.map_err(|end| {
        kill_group(&mut child);
        match end {
            End::Late => format!("took longer than {} seconds and was ended", time.as_secs_f64()),
            End::Told(why) => why,
        }
    })?;
    talk.outcome(status)
}

/// In a group of its own a program no longer hears the Ctrl-C that ends us, so the system is asked to end it when we do.
#[cfg(target_os = "linux")]
fn end_with_us(command: &mut Command) {
    // SAFETY: one system call between fork and exec, which sets a number of the new process.
    unsafe {
        command.pre_exec(|| {
            libc::prctl(libc::PR_SET_PDEATHSIG, libc::SIGKILL);
            Ok(())
        });
    }
}

#[cfg(not(target_os = "linux"))]
fn end_with_us(_: &mut Command) {}

/// Why the talk was ended from our side.
enum End {
    Late,
    Told(String),
}

/// The three pipes of a running program and what went through them.
struct Talk<'a> {
    stdin: Option<ChildStdin>,
    stdout: Option<ChildStdout>,
    stderr: Option<ChildStderr>,
    unsaid: &'a [u8],
    answer: Vec<u8>,
    complaint: Vec<u8>,
    most: usize,
}

impl<'a> Talk<'a> {
    fn new(child: &mut Child, input: &'a [u8], most: usize) -> Self {
        let talk = Talk {
            stdin: child.stdin.take(),
            stdout: child.stdout.take(),
            stderr: child.stderr.take(),
            unsaid: input,
            answer: Vec::new(),
            complaint: Vec::new(),
            most,
        };
        for pipe in talk.pipes() {
            without_waiting(pipe);
        }
        talk
    }

    /// The pipes that are open, -1 for others.
    fn pipes(&self) -> [RawFd; 3] {
        [
            self.stdin.as_ref().map_or(-1, AsRawFd::as_raw_fd),
            self.stdout.as_ref().map_or(-1, AsRawFd::as_raw_fd),
            self.stderr.as_ref().map_or(-1, AsRawFd::as_raw_fd),
        ]
    }

    /// Until the answer has ended.
    fn go_on(&mut self, child: &Child, end: Instant) -> Result<(), End> {
        let mut ended: Option<Instant> = None;
        loop {
            let now = Instant::now();
            if ended.is_none() && has_ended(child) {
                ended = Some(now);
            }
            if self.stdout.is_none() && (self.stderr.is_none() || ended.is_some()) {
                return Ok(());
            }
            if now >= end {
                return Err(End::Late);
            }
            if ended.is_some_and(|then| now > then + GRACE) {
                return Err(End::Told("ended, but something that it started keeps its output open".into()));
            }
            let ready = wait(self.pipes(), LOOK.min(end - now));
            self.say(ready[0]);
            self.listen(ready[1]).map_err(End::Told)?;
            self.listen_aside(ready[2]);
        }
    }

    /// Hands on what was not said yet. A program may answer without having read everything.
    fn say(&mut self, ready: bool) {
        let Some(pipe) = self.stdin.as_mut().filter(|_| ready) else {
            return;
        };
        match pipe.write(&self.unsaid[..self.unsaid.len().min(CHUNK)]) {
            Ok(count) => self.unsaid = &self.unsaid[count..],
            Err(why) if passing(&why) => return,
            Err(_) => self.unsaid = &[],
        }
        if self.unsaid.is_empty() {
            self.stdin = None;
        }
    }

    fn listen(&mut self, ready: bool) -> Result<(), String> {
        if let Some(pipe) = self.stdout.as_mut().filter(|_| ready) {
            let more = take(pipe, &mut self.answer)?;
            if self.answer.len() > self.most {
                return Err(format!("answered more than {} bytes", self.most));
            }
            if !more {
                self.stdout = None;
            }
        }
        Ok(())
    }

    /// The start of a complaint is kept, the rest is thrown away.
    fn listen_aside(&mut self, ready: bool) {
        if let Some(pipe) = self.stderr.as_mut().filter(|_| ready) {
            if !take(pipe, &mut self.complaint).unwrap_or(false) {
                self.stderr = None;
            }
            self.complaint.truncate(limits::COMPLAINT);
        }
    }

    fn outcome(self, status: ExitStatus) -> Result<Vec<u8>, String> {
        if status.success() {
            return Ok(self.answer);
        }
        let complaint = String::from_utf8_lossy(&self.complaint);
        let said = text::sentence(complaint.trim().lines().next().unwrap_or(""));
        let said = if said.is_empty() { said } else { format!(": {said}") };
        Err(format!("failed ({status}){said}"))
    }
}

/// Reads what is there; false at the end.
fn take(pipe: &mut impl Read, into: &mut Vec<u8>) -> Result<bool, String> {
    let mut chunk = [0; CHUNK];
    match pipe.read(&mut chunk) {
        Ok(0) => Ok(false),
        Ok(count) => {
            into.try_reserve(count).map_err(|why| format!("answered too much: {why}"))?;
            into.extend_from_slice(&chunk[..count]);
            Ok(true)
        }
        Err(why) if passing(&why) => Ok(true),
        Err(why) => Err(format!("could not be heard: {why}")),
    }
}

fn passing(why: &io::Error) -> bool {
    matches!(why.kind(), ErrorKind::WouldBlock | ErrorKind::Interrupted)
}

/// Waits until a pipe is ready, or the time is over.
fn wait(pipes: [RawFd; 3], time: Duration) -> [bool; 3] {
    let events = [libc::POLLOUT, libc::POLLIN, libc::POLLIN];
    let mut polled = [0, 1, 2].map(|place| libc::pollfd { fd: pipes[place], events: events[place], revents: 0 });
    let milliseconds = time.as_millis().clamp(1, 60_000) as libc::c_int;
    // SAFETY: the pointer is to three records that live through the call; a descriptor of -1 is passed over.
    let count = unsafe { libc::poll(polled.as_mut_ptr(), 3, milliseconds) };
    polled.map(|one| count > 0 && one.revents != 0)
}

fn without_waiting(pipe: RawFd) {
    // SAFETY: changes a flag of a descriptor that is ours; on failure nothing is changed, and -1 is none.
    unsafe {
        let flags = libc::fcntl(pipe, libc::F_GETFL);
        if flags >= 0 {
            libc::fcntl(pipe, libc::F_SETFL, flags | libc::O_NONBLOCK);
        }
    }
}

/// Whether a program has ended. It is left for the one who waits for it, so that its number stays its own.
fn has_ended(child: &Child) -> bool {
    // SAFETY: an all-zero record is a valid one, and waitid writes only it.
    unsafe {
        let mut found: libc::siginfo_t = std::mem::zeroed();
        let options = libc::WEXITED | libc::WNOHANG | libc::WNOWAIT;
        libc::waitid(libc::P_PID, child.id(), &mut found, options) == 0 && found.si_pid() != 0
    }
}

/// Ends the program and whatever it started in its group. It has not been waited for, so the number is still the group's.
fn kill_group(child: &mut Child) {
    if let Ok(group) = libc::pid_t::try_from(child.id()) {
        // SAFETY: sends a signal; the group is the program's own.
        unsafe { libc::kill(-group, libc::SIGKILL) };
    }
    let _ = child.wait_timeout(Duration::from_secs(5));
}

#[cfg(test)]
mod tests {
    use super::*;

    fn shell(line: &str, input: &str, seconds: f64) -> Result<String, String> {
        let mut command = Command::new("sh");
        command.args(["-c", line]);
        let time = Duration::from_secs_f64(seconds);
        ask(&mut command, input.as_bytes(), time, 10_000_000).map(|bytes| String::from_utf8_lossy(&bytes).into_owned())
    }

    #[track_caller]
    fn fails(line: &str, seconds: f64, told: &str) {
        let start = Instant::now();
        let answer = shell(line, "x\n", seconds);
        assert!(answer.as_ref().is_err_and(|why| why.contains(told)), "{answer:?}");
        assert!(start.elapsed() < Duration::from_secs_f64(seconds + 30.0));
    }

    #[test]
    fn it_is_handed_the_text_and_answers() {
        assert_eq!(shell("cat", "face 0 0 0\n", 20.0), Ok("face 0 0 0\n".into()));
        let much = "0.125 0.25\n".repeat(300_000);
        assert_eq!(shell("cat", &much, 20.0), Ok(much.clone()));
        assert_eq!(shell("echo 0 1 2 3", &much, 20.0), Ok("0 1 2 3\n".into()));
        assert_eq!(shell("exec 2>&-; echo 1", "", 20.0), Ok("1\n".into()));
    }

    #[test]
    fn a_failure_is_told_with_the_first_line_of_the_complaint() {
        fails("echo 'two \x1b constraints cross' >&2; echo more >&2; exit 3", 20.0, "(exit status: 3): two \\u{1b} constraints cross");
        fails("yes complaint >&2 & sleep 0.3; kill $!; exit 4", 20.0, "exit status: 4");
        fails("kill -9 $$", 20.0, "signal: 9");
    }

    #[test]
    fn without_end_is_ended() {
        fails("yes 0 1 2 3", 60.0, "more than 10000000 bytes");
        fails("sleep 100", 0.3, "longer than 0.3 seconds");
        fails("trap '' TERM INT HUP; while :; do sleep 1; done", 0.3, "longer than");
        fails("exec >&- 2>&-; sleep 100", 0.3, "longer than");
        fails("cat; sleep 100 & exit 0", 20.0, "keeps its output open");
        fails("setsid sleep 5 & exit 0", 20.0, "keeps its output open");
    }

    #[test]
    fn what_it_started_is_ended_with_it() {
        let folder = tempfile::tempdir().expect("a folder");
        let mark = folder.path().join("mark");
        let line = format!("(sleep 3; touch {}) & sleep 100", mark.display());
        fails(&line, 0.3, "longer than");
        std::thread::sleep(Duration::from_secs(4));
        assert!(!mark.exists());
    }

    #[test]
    fn what_is_no_program_is_told() {
        let answer = ask(&mut Command::new("/no such program"), b"", Duration::from_secs(1), 9);
        assert!(answer.is_err_and(|why| why.starts_with("was not started")));
    }
}
