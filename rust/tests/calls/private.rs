//! Private instructions: what each does, and where there is none to do; and which texts are out after two decisions.
use hidewillow::{Lease, Play};

/// A kernel whose process 3 runs a script.
fn open(script: &str) -> Play {
    Play::open(&format!("script a\n{script}\nend\ncopy /x 3 \"old\"\nprocess 3 a 1\nsteps\n")).expect(script)
}

fn value(kernel: &mut Play) -> String {
    kernel.value("proc 3").expect("a value").expect("a process")
}

/// A script is done in so many private instructions, up to this place, and leaves this in r0 and r1.
fn leaves(script: &str, count: u64, place: u32, zero: &str, one: &str) {
    let mut kernel = open(script);
    assert_eq!(kernel.lease("3", 100), Ok(Lease::Ran(count)), "{script}");
    let value = value(&mut kernel);
    assert!(value.starts_with(&format!("at {place} regs {zero} {one} ")), "{script}: {value}");
}

#[test]
fn private_instructions_on_values() {
    leaves("set r1 -5", 1, 1, "0", "-5");
    leaves("move r1 r7", 1, 1, "0", "0:1");
    leaves("set r1 2\nset r2 3\nadd r1 r2", 3, 3, "0", "5");
    leaves("text \"abc\"\nlen r1", 2, 2, "0", "3");
    leaves("self r1", 1, 1, "0", "@3");
    leaves("boot r1 65535", 1, 1, "0", "@65535");
}

#[test]
fn sums_at_the_ends_of_the_range() {
    let last = "9223372036854775807";
    leaves("set r1 9223372036854775807\nset r2 1\nadd r1 r2", 3, 3, "-22", last);
    leaves("set r1 -9223372036854775807\nset r2 -2\nadd r1 r2", 3, 3, "-22", "-9223372036854775807");
    leaves("set r1 9223372036854775806\nset r2 1\nadd r1 r2", 3, 3, "0", last);
    leaves("set r1 4\nset r2 1\nadd r1 r7", 3, 3, "-22", "4");
}

#[test]
fn private_instructions_on_places() {
    leaves("jump far\nset r1 1\nfar:", 1, 2, "0", "0");
    leaves("zero r1 far\nset r1 1\nfar:", 1, 2, "0", "0");
    leaves("zero r7 far\nset r1 1\nfar:", 2, 2, "0", "1");
    leaves("set r1 -1\nneg r1 far\nset r1 1\nfar:", 2, 3, "0", "-1");
    leaves("neg r1 far\nset r1 1\nfar:", 2, 2, "0", "1");
    leaves("neg r7 far\nset r1 1\nfar:", 2, 2, "0", "1");
    leaves("again:\njump again", 100, 0, "0", "0");
}

#[test]
fn nothing_private_to_do() {
    for script in ["", "say", "exit r1", "return", "fetch /x", "mkfile r1"] {
        leaves(script, 0, 0, "0", "0");
    }
    let mut kernel = open("exit r0\nset r1 1");
    kernel.line("step 3 none").expect("a step");
    let before = value(&mut kernel);
    assert!(!matches!(kernel.lease("3", 100), Ok(Lease::Ran(1..))), "a process that ended does nothing");
    assert_eq!(value(&mut kernel), before);
}

/// Process 1 says `a` and `c`. Process 2 guesses, writes what it fetched to a file, and says `b`. Process 3 does so with guess 2, another
/// file and `e`. Process 4 reads both files, and says `d`. All say it on one terminal.
const FIVE: &str = "copy /x 3 \"x\"\ncopy /y 3 \"y\"\nfile f \"\"\nfile g \"\"\n\
script a\ntext \"a\"\nsay\ntext \"c\"\nsay\nend\n\
script b\nlook r1 r7 f\nfetch /x\nwrite r1 r2\ntext \"b\"\nsay\nend\n\
script c\nlook r1 r7 g\nfetch /y\nwrite r1 r2\ntext \"e\"\nsay\nend\n\
script d\nlook r1 r7 f\nread r1 r3\nset r3 0\nlook r1 r7 g\nread r1 r3\ntext \"d\"\nsay\nend\n\
process 1 a 1\nprocess 2 b 1\nprocess 3 c 1\nprocess 4 d 1\nsteps\n";

/// Texts `a` to `e`, those of `b`, `d` and `e` on guesses 1, 1 and 2, and 2.
fn says_five() -> Play {
    let mut kernel = Play::open(FIVE).expect("a kernel");
    let lines = "step 2 none\nguess 2 good\nstep 2 none\nstep 3 none\nguess 3 good\nstep 3 none\n\
        step 1 none\nstep 1 none\nstep 2 none\nstep 2 none\nstep 1 none\nstep 1 none\n\
        step 4 none\nstep 4 none\nstep 4 none\nstep 4 none\nstep 4 none\nstep 4 none\nstep 4 none\nstep 3 none\nstep 3 none";
    for line in lines.lines() {
        let answer = kernel.line(line).expect(line).expect("an answer");
        assert!(answer.code <= 1, "{line}: {answer:?}");
    }
    kernel
}

/// Terminal 1 has released a text of each of these letters, and so many wait.
fn shows(kernel: &mut Play, letters: &str, waiting: usize) {
    let texts = kernel.terminal(1).expect("a terminal");
    let told = format!("terminal 1 released {} waiting {waiting}", letters.len());
    assert!(texts.starts_with(&told), "{texts} is not {told}");
    let out: Vec<_> = (0..letters.len()).map(|place| kernel.released(1, place).expect("a text")).collect();
    assert_eq!(out, letters.bytes().map(|it| Some(vec![it])).collect::<Vec<_>>());
}

/// What is out and how many texts wait after a first decision, and after a second.
#[test]
fn released_after_two_decisions() {
    let rows = [
        ("commit 1", ("abc", 2), "commit 2", ("abcde", 0)),
        ("commit 1", ("abc", 2), "fail 2", ("abc", 0)),
        ("fail 1", ("ac", 1), "commit 2", ("ace", 0)),
        ("fail 2", ("a", 2), "commit 1", ("abc", 0)),
        ("fail 2", ("a", 2), "fail 1", ("ac", 0)),
        ("commit 2", ("a", 4), "commit 1", ("abcde", 0)),
        ("commit 3", ("a", 4), "fail 3", ("a", 4)),
    ];
    for (first, one, second, two) in rows {
        let mut kernel = says_five();
        shows(&mut kernel, "a", 4);
        for (decision, (letters, waiting)) in [(first, one), (second, two)] {
            kernel.line(decision).expect(decision);
            shows(&mut kernel, letters, waiting);
        }
    }
}
