//! Speaks the proved program's protocol with the second program's voice, to
//! try the comparison where the proved program can't be run. With `--wrong` it
//! hides every misspeculation, with `--short` it breaks off at the first one.

use std::io::{self, BufRead, BufWriter, Read, Write};

fn main() -> io::Result<()> {
    let word = std::env::args().nth(1).unwrap_or_default();
    let mut input = io::stdin().lock();
    let mut output = BufWriter::new(io::stdout().lock());
    loop {
        let mut head = String::new();
        if input.read_line(&mut head)? == 0 {
            return output.flush();
        }
        let (letter, digits) = head.trim_end().split_at(1);
        let mut text = vec![0; digits.parse().map_err(io::Error::other)?];
        input.read_exact(&mut text)?;
        let report = match letter {
            "r" => second::play(&text),
            "m" => second::play_showing_machine(&text),
            _ => return Err(io::Error::other("no such letter")),
        };
        let report = String::from_utf8_lossy(&report);
        if word == "--short" && report.contains("misspec") {
            return output.flush();
        }
        let said =
            if word == "--wrong" { report.replace("misspec", "done") } else { report.into() };
        writeln!(output, "{said}end")?;
    }
}
