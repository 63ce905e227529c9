//! The program stationround over the second implementation.

use second::command::END;
use second::rules::Rules;
use std::io::{self, BufRead, Write};

/// An output that is closed ends the program quietly.
fn main() {
    let _ = replies();
}

fn replies() -> io::Result<()> {
    let mut input = io::stdin().lock();
    let mut output = io::stdout().lock();
    let mut table = Rules::PAPERS.fresh();
    let mut line = Vec::new();
    while input.read_until(END, &mut line)? > 0 {
        let reply = Rules::PAPERS.reply(&mut table, &line);
        output.write_all(reply.text.as_bytes())?;
        output.flush()?;
        if !reply.goes_on {
            break;
        }
        line.clear();
    }
    Ok(())
}
