//! The bridge as a running process.

use crate::wire::{Function, Replies, Requests};
use std::ffi::OsString;
use std::io::{self, Read, Write};
use std::process::{Child, ChildStdin, ChildStdout, Command, Stdio};
use std::sync::mpsc::{channel, Receiver, Sender};
use std::thread;

/// Where `command/build bridge` leaves the command that runs the bridge.
const USUAL: &str = concat!(env!("CARGO_MANIFEST_DIR"), "/../../target/bridge/run");

/// The command asked for, or the one in DOVETENON_BRIDGE, or the usual one.
pub fn command(asked: Option<&str>) -> Command {
    let set = std::env::var_os("DOVETENON_BRIDGE");
    let asked = asked.map(OsString::from);
    Command::new(asked.or(set).unwrap_or_else(|| USUAL.into()))
}

/// How the proved functions run.
#[derive(Clone, Copy, Debug, PartialEq, Eq)]
pub enum How {
    Native,
    Emulated,
    /// Under an emulator that counts instructions, which stand for their times.
    Counted,
}

pub struct Bridge {
    command: Command,
    process: Process,
    pub how: How,
    functions: Vec<String>,
}

impl Bridge {
    /// Starts the bridge and asks what is there.
    pub fn start(mut command: Command) -> Result<Bridge, String> {
        let mut process = Process::start(&mut command)?;
        let mut requests = Requests::default();
        requests.what_is_here();
        process.send(requests);
        let replies = process.receive()?;
        let text = Replies::new(&replies).text()?;
        let mut lines = text.lines().map(String::from);
        let how = match lines.next().as_deref() {
            Some("native") => How::Native,
            Some("emulated") => How::Emulated,
            Some("counted") => How::Counted,
            _ => return Err(format!("this is no bridge; it says {text:?}")),
        };
        Ok(Bridge {
            command,
            process,
            how,
            functions: lines.collect(),
        })
    }

    /// Ends the bridge and starts it again.
    pub fn restart(&mut self) -> Result<(), String> {
        self.process = Process::start(&mut self.command)?;
        Ok(())
    }

    pub fn has(&self, function: Function) -> bool {
        self.functions.iter().any(|name| name == function.name())
    }

    /// Sends a round. Each round is to be received before the next is sent.
    pub fn send(&mut self, requests: Requests) {
        self.process.send(requests);
    }

    pub fn receive(&mut self) -> Result<Vec<u8>, String> {
        self.process.receive()
    }
}

/// The process, and a thread that exchanges rounds with it, so that the next
/// round can be made meanwhile.
struct Process {
    child: Child,
    requests: Sender<Requests>,
    replies: Receiver<io::Result<Vec<u8>>>,
}

impl Process {
    fn start(command: &mut Command) -> Result<Process, String> {
        command.stdin(Stdio::piped()).stdout(Stdio::piped());
        let mut child = command.spawn().map_err(|error| {
            let name = command.get_program().to_string_lossy();
            format!("the bridge {name} does not start: {error} (command/build makes it)")
        })?;
        let (Some(mut input), Some(mut output)) = (child.stdin.take(), child.stdout.take()) else {
            return Err("the bridge has no pipes".to_string());
        };
        let (requests, asked) = channel::<Requests>();
        let (answer, replies) = channel();
        thread::spawn(move || {
            for round in asked {
                if answer
                    .send(exchange(&mut input, &mut output, &round))
                    .is_err()
                {
                    return;
                }
            }
        });
        Ok(Process {
            child,
            requests,
            replies,
        })
    }

    fn send(&mut self, requests: Requests) {
        // If the thread is gone, `receive` says so.
        let _ = self.requests.send(requests);
    }

    fn receive(&mut self) -> Result<Vec<u8>, String> {
        match self.replies.recv() {
            Ok(Ok(replies)) => Ok(replies),
            _ => Err(match self.child.wait() {
                Ok(status) => format!("the bridge ended, {status}"),
                Err(error) => format!("the bridge ended, {error}"),
            }),
        }
    }
}

impl Drop for Process {
    fn drop(&mut self) {
        let _ = self.child.kill();
        let _ = self.child.wait();
    }
}

/// One round there and back.
fn exchange(
    input: &mut ChildStdin,
    output: &mut ChildStdout,
    requests: &Requests,
) -> io::Result<Vec<u8>> {
    let length = u32::try_from(requests.bytes().len()).map_err(io::Error::other)?;
    input.write_all(&length.to_le_bytes())?;
    input.write_all(requests.bytes())?;
    let mut length = [0; 4];
    output.read_exact(&mut length)?;
    let mut replies = vec![0; u32::from_le_bytes(length) as usize];
    output.read_exact(&mut replies)?;
    Ok(replies)
}
