//! Plays the scenario of standard input call by call, and prints what `speculate play -` prints, with
//! `--counts` the counts too: the C player again.
use hidewillow::{Counts, Error, Play};
use std::io::{self, Read, Write};

/// What declares, with the heading of a section that is played, and the lines below it.
fn parts(text: &str) -> (&str, &str) {
    let mut at = 0;
    for line in text.split_inclusive('\n') {
        at += line.len();
        if let Some("steps" | "world") = line.split_ascii_whitespace().next() {
            break;
        }
    }
    text.split_at(at)
}

/// Makes the calls of the lines, and writes a line for each answer.
fn play(kernel: &mut Play, lines: &str, out: &mut impl Write) -> Result<(), Failure> {
    let mut number = 0;
    for line in lines.lines() {
        let Some(answer) = kernel.line(line)? else {
            continue;
        };
        number += 1;
        writeln!(out, "{number} {}", answer.text.ok_or(Error::Memory)?)?;
    }
    Ok(())
}

/// Writes the counts.
fn write_counts(counts: &Counts, out: &mut impl Write) -> io::Result<()> {
    let Counts { guesses, committed, failed, struck, steps, taken_back, most_open, notes } = counts;
    writeln!(out, "counts")?;
    writeln!(out, "guesses {guesses} committed {committed} failed {failed} struck {struck}")?;
    writeln!(out, "steps {steps} back {taken_back} open {most_open}")?;
    writeln!(out, "notes {notes}")
}

type Failure = Box<dyn std::error::Error>;

fn main() -> Result<(), Failure> {
    let is_counted = std::env::args().nth(1).as_deref() == Some("--counts");
    let mut text = String::new();
    io::stdin().read_to_string(&mut text)?;
    let (declared, lines) = parts(&text);
    let mut out = io::stdout().lock();
    let mut kernel = Play::open(declared)?;
    play(&mut kernel, lines, &mut out)?;
    write!(out, "{}", kernel.report()?)?;
    if is_counted {
        write_counts(&kernel.counts()?, &mut out)?;
    }
    Ok(())
}
