//! A process goes on from a guess, which comes out right once, and wrong once: the C example again.
use hidewillow::{Error, Play};

const START: &str = "script main\nfetch /x\nsay\nend\ncopy /x 3 \"old\"\nprocess 1 main 1\n";

/// Makes the call of a line, prints its answer, and gives what that names.
fn line(kernel: &mut Play, text: &str) -> Result<u64, Error> {
    let answer = kernel.line(text)?;
    let (number, told) = answer.map_or((0, String::new()), |it| (it.number, it.text.unwrap_or_default()));
    println!("{text:<13} {told}");
    Ok(number)
}

/// Prints what is told of the first process, of terminal 1, and of the whole.
fn look(kernel: &mut Play) -> Result<(), Error> {
    println!("value: {}", kernel.value("proc 1")?.unwrap_or_default());
    println!("tags: {}", kernel.tags("proc 1")?.unwrap_or_default());
    assert_eq!(kernel.value("proc 9")?, None);
    print!("{}", kernel.terminal(1)?);
    let counts = kernel.counts()?;
    println!("guesses {} steps {} most open {} notes {}", counts.guesses, counts.steps, counts.most_open, counts.notes);
    Ok(())
}

fn main() -> Result<(), Error> {
    for decision in ["commit", "fail"] {
        let mut kernel = Play::open(START)?;
        let guess = line(&mut kernel, "guess 1 good")?;
        line(&mut kernel, "step 1 none")?;
        line(&mut kernel, "step 9 none")?;
        look(&mut kernel)?;
        line(&mut kernel, &format!("{decision} {guess}"))?;
        line(&mut kernel, &format!("{decision} {guess}"))?;
        println!("{}", kernel.report()?);
    }
    if let Err(Error::Fault(fault)) = Play::open("oops\n") {
        println!("open: answer 6, {fault}");
    }
    let mut kernel = Play::open(START)?;
    if let Err(Error::Fault(fault)) = kernel.line("guess one good") {
        println!("line: answer 6, {fault}");
    }
    Ok(())
}
