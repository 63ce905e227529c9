//! Stationround at a terminal or in a pipe: replies come before more input is
//! asked for, however the input is cut, and a closed output ends it quietly.

use crate::command::END;
use crate::programs::process::{ended_well, started, written, PATIENCE};
use crate::rules::Rules;
use std::io::{BufRead, BufReader, Write};
use std::os::unix::process::ExitStatusExt;
use std::path::Path;
use std::process::{Child, Command, Output};
use std::sync::mpsc::{channel, Receiver};
use std::thread::{sleep, spawn};
use std::time::{Duration, Instant};

/// The signal by which a write to a closed pipe may end a program.
const PIPE_SIGNAL: i32 = 13;

/// Writes the input in parts. The replies to all lines that are whole by then
/// have to come before the next part is written.
pub fn paced(program: &Path, input: &[u8], parts: &[usize]) -> Result<(), String> {
    let mut child = started(&mut Command::new(program)).map_err(|error| error.to_string())?;
    let mut stdin = child.stdin.take().ok_or("no input")?;
    let replies = replies_of(&mut child)?;
    let mut table = Rules::PAPERS.fresh();
    let mut goes_on = true;
    let (mut at, mut done) = (0, 0);
    for part in parts.iter().cycle() {
        let end = (at + part).min(input.len());
        written(stdin.write_all(&input[at..end])).map_err(|error| error.to_string())?;
        at = end;
        while let Some(length) = input[done..at].iter().position(|byte| *byte == END) {
            let line = &input[done..=done + length];
            done += length + 1;
            if goes_on {
                goes_on = expect(&replies, &mut table, line)?;
            }
        }
        if at == input.len() {
            break;
        }
    }
    drop(stdin);
    if goes_on && done < input.len() {
        expect(&replies, &mut table, &input[done..])?;
    }
    if let Ok(more) = replies.recv_timeout(PATIENCE) {
        return Err(format!("a reply too many: {more:?}"));
    }
    ended_well(&ended(child)?)
}

/// Waits for the reply to a line; whether the program goes on after it.
fn expect(replies: &Receiver<Vec<u8>>, table: &mut [u8], line: &[u8]) -> Result<bool, String> {
    let wanted = Rules::PAPERS.reply(table, line);
    let shown = String::from_utf8_lossy(line);
    match replies.recv_timeout(PATIENCE) {
        Ok(reply) if reply == wanted.text.as_bytes() => Ok(wanted.goes_on),
        Ok(reply) => Err(format!(
            "the reply to {shown:?} is {:?}, not {:?}",
            String::from_utf8_lossy(&reply),
            wanted.text
        )),
        Err(_) => Err(format!("no reply to {shown:?} before the next input")),
    }
}

/// The program's lines as they come.
fn replies_of(child: &mut Child) -> Result<Receiver<Vec<u8>>, String> {
    let mut output = BufReader::new(child.stdout.take().ok_or("no output")?);
    let (sender, receiver) = channel();
    spawn(move || {
        let mut line = Vec::new();
        while output.read_until(END, &mut line).is_ok_and(|read| read > 0) {
            if sender.send(std::mem::take(&mut line)).is_err() {
                return;
            }
        }
    });
    Ok(receiver)
}

/// A shell's words before the program, and whether the pipe's signal may end it.
const CLOSED: &[(&str, bool)] = &[("exec \"$0\"", true), ("trap '' PIPE; exec \"$0\"", false)];

/// With its output closed the program ends by itself, while its input is still
/// open, and says nothing.
pub fn closed(program: &Path) -> Result<usize, String> {
    let input = "02\n".repeat(30_000);
    for (words, signal) in CLOSED {
        let mut shell = Command::new("sh");
        let mut child =
            started(shell.args(["-c", words]).arg(program)).map_err(|error| error.to_string())?;
        drop(child.stdout.take());
        let mut stdin = child.stdin.take().ok_or("no input")?;
        written(stdin.write_all(input.as_bytes())).map_err(|error| error.to_string())?;
        let output = ended(child).map_err(|told| format!("with its output closed {told}"))?;
        drop(stdin);
        let status = output.status;
        let quiet = status.code().is_some() || *signal && status.signal() == Some(PIPE_SIGNAL);
        if !quiet || !output.stderr.is_empty() {
            let said = String::from_utf8_lossy(&output.stderr);
            return Err(format!("with its output closed it ended with {status}: {said}"));
        }
    }
    Ok(CLOSED.len())
}

/// Waits for the program's end.
fn ended(mut child: Child) -> Result<Output, String> {
    let began = Instant::now();
    while began.elapsed() < PATIENCE {
        if child
            .try_wait()
            .map_err(|error| error.to_string())?
            .is_some()
        {
            return child.wait_with_output().map_err(|error| error.to_string());
        }
        sleep(Duration::from_millis(1));
    }
    let _ = child.kill();
    Err("it does not end".to_string())
}
