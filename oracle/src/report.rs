//! Document 01's report as a program over orion-sdr's `TpsWord::unpack`, to measure `tpsreport` by: one received word a line on standard input. orion-sdr
//! answers one `None`, which is RESERVED where its own decoder finds a codeword, and NO WORD elsewhere.

mod lines;
#[allow(dead_code)]
mod mended;
#[allow(dead_code)]
mod refusals;

use lines::{HEADING, put_word, read_line};
use std::io::{self, BufRead, BufReader, BufWriter, Write};

/// Bytes of the buffers, as many as tpsreport reads at once.
const BUFFER: usize = 8192;

fn main() -> io::Result<()> {
    let mut input = BufReader::with_capacity(BUFFER, io::stdin().lock());
    let mut output = BufWriter::with_capacity(60 * BUFFER, io::stdout().lock());
    let (mut lines, mut refused, mut line) = (0u64, 0u64, Vec::new());
    output.write_all(HEADING.as_bytes())?;
    while input.read_until(b'\n', &mut line)? > 0 {
        lines += 1;
        if line.last() == Some(&b'\n') {
            line.pop();
        }
        match read_line(&line) {
            Ok(word) => put_word(&mut output, lines, word)?,
            Err(number) => {
                refused += 1;
                writeln!(output, "{lines} refused {number}")?;
            }
        }
        line.clear();
    }
    writeln!(output, "read {lines} refused {refused}")?;
    output.flush()
}
