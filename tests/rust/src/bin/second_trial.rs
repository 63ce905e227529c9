//! The program trial over the second implementation.

use second::programs::trial::Request;
use second::rules::Rules;
use std::io::{self, Read, Write};

fn main() -> io::Result<()> {
    let mut input = Vec::new();
    io::stdin().lock().read_to_end(&mut input)?;
    let mut output = io::stdout().lock();
    let mut rest = input.as_slice();
    while let Some((request, after)) = Request::first(rest) {
        output.write_all(&request.outcome(Rules::PAPERS))?;
        rest = after;
    }
    output.flush()
}
