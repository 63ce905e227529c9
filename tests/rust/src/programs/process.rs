//! A program run on some input through pipes.

use std::io::{self, ErrorKind, Write};
use std::path::Path;
use std::process::{exit, Child, Command, Output, Stdio};
use std::sync::atomic::{AtomicU64, Ordering};
use std::sync::Arc;
use std::thread;
use std::time::Duration;

/// How long to wait for a program before it counts as hanging.
pub const PATIENCE: Duration = Duration::from_secs(20);

/// Starts it with pipes for its input, its output and what it says besides.
pub fn started(command: &mut Command) -> io::Result<Child> {
    let piped = command.stdin(Stdio::piped()).stdout(Stdio::piped());
    piped.stderr(Stdio::piped()).spawn()
}

/// The program's whole output, its exit status and what it says besides.
pub fn run(program: &Path, input: &[u8]) -> io::Result<Output> {
    let mut child = started(&mut Command::new(program))?;
    let mut stdin = child.stdin.take().ok_or(ErrorKind::BrokenPipe)?;
    thread::scope(|scope| {
        let writer = scope.spawn(move || written(stdin.write_all(input)));
        let output = child.wait_with_output();
        writer.join().expect("the writer ends")?;
        output
    })
}

/// A program that has stopped no longer reads its input; that is no failure.
pub fn written(ended: io::Result<()>) -> io::Result<()> {
    match ended {
        Err(error) if error.kind() == ErrorKind::BrokenPipe => Ok(()),
        _ => ended,
    }
}

/// Whether it ended well and said nothing besides its output.
pub fn ended_well(output: &Output) -> Result<(), String> {
    let said = String::from_utf8_lossy(&output.stderr);
    match output.status.success() && said.is_empty() {
        true => Ok(()),
        false => Err(format!("it ended with {}: {said}", output.status)),
    }
}

/// Ends everything when nothing has been done for long: the program hangs.
pub struct Watch(Arc<AtomicU64>);

impl Default for Watch {
    fn default() -> Watch {
        let done = Arc::new(AtomicU64::new(0));
        let seen = Arc::downgrade(&done);
        thread::spawn(move || {
            let mut before = u64::MAX;
            while let Some(done) = seen.upgrade() {
                let now = done.load(Ordering::Relaxed);
                if now == before {
                    println!("the program does not end (run {now})");
                    exit(1);
                }
                before = now;
                drop(done);
                thread::sleep(PATIENCE);
            }
        });
        Watch(done)
    }
}

impl Watch {
    /// One run more is done.
    pub fn done(&self) {
        self.0.fetch_add(1, Ordering::Relaxed);
    }
}
