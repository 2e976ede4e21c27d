//! How many notes a kernel of scripts holds, until the guesses are decided that they are for.
use hidewillow::Play;
use Call::{Line, Notes, Stands, Steps};

/// A call, and what it is told.
#[derive(Debug, Clone, Copy)]
enum Call {
    /// A line, whose call is made and not refused.
    Line(&'static str),
    /// So many steps of a process.
    Steps(u16, usize),
    /// So many notes are held.
    Notes(usize),
    /// Process 1 stands at this place.
    Stands(u32),
}

const REFUSED: u32 = 5;

/// Whether a call is told so.
fn is_told(kernel: &mut Play, call: Call) -> bool {
    let mut takes = |line: &str| matches!(kernel.line(line), Ok(Some(answer)) if answer.code != REFUSED);
    match call {
        Line(line) => takes(line),
        Steps(process, count) => (0..count).all(|_| takes(&format!("step {process} none"))),
        Notes(count) => kernel.counts().is_ok_and(|counts| counts.notes == count),
        Stands(place) => {
            let value = kernel.value("proc 1").expect("a value").expect("a process");
            value.contains(&format!("at {place} regs "))
        }
    }
}

/// Calls of a new kernel are told so, one after another.
fn plays(declared: &str, parts: &[&[Call]]) {
    let mut kernel = Play::open(&format!("{declared}steps\n")).expect("a kernel");
    for (place, call) in parts.iter().copied().flatten().enumerate() {
        assert!(is_told(&mut kernel, *call), "call {place}: {call:?}");
    }
}

/// Calls of a new kernel, whose first guess is then committed, or fails: no note is left.
fn plays_to_none(declared: &str, calls: &[Call]) {
    for decision in ["commit 1", "fail 1"] {
        plays(declared, &[calls, &[Line(decision), Notes(0)]]);
    }
}

/// A thousand private steps under one guess hold one note.
#[test]
fn merged_notes_are_one() {
    let steps = "set r1 1\n".repeat(1_000);
    let declared = format!("copy /01 3 \"old\"\nlimit 2000\nscript a\nfetch /01\n{steps}end\nprocess 1 a 1\n");
    plays_to_none(&declared, &[Notes(0), Line("guess 1 good"), Notes(1), Steps(1, 1_000), Notes(1)]);
}

/// A process writes what it fetches to a file, three times, and one reads the file, and says something: the file is noted once, and
/// both processes are; the steps before the guess are not.
#[test]
fn notes_of_files_and_processes() {
    let declared = "copy /x 3 \"new\"\nfile f \"f0\"\nscript a\nlook r1 r7 f\nfetch /x\nwrite r1 r2\nwrite r1 r2\n\
        write r1 r2\nend\nscript b\nlook r1 r7 f\nread r1 r3\ntext \"c\"\nsay\nend\nprocess 1 a 1\nprocess 2 b 2\n";
    let calls = [
        Steps(1, 1),
        Steps(2, 1),
        Notes(0),
        Line("guess 1 good"),
        Notes(1),
        Steps(1, 3),
        Notes(2),
        Steps(2, 3),
        Notes(3),
    ];
    plays_to_none(declared, &calls);
}

/// A process writes behind the first block of a file, and then three times what it fetches: the file is noted once.
#[test]
fn notes_of_a_file_of_two_blocks() {
    let declared = "copy /x 3 \"new\"\nfile f \"f0\"\nscript a\nlook r1 r7 f\nset r2 600\ntext \"c\"\nwrite r1 r2\n\
        fetch /x\nwrite r1 r2\nwrite r1 r2\nwrite r1 r2\nend\nprocess 1 a 1\n";
    plays_to_none(declared, &[Steps(1, 4), Notes(0), Line("guess 1 good"), Notes(1), Steps(1, 3), Notes(2)]);
}

/// Five private steps behind two fetches.
const TWO_GUESSES: &str =
    "copy /01 3 \"old\"\nscript a\nfetch /01\nfetch /01\nset r1 1\nset r1 1\nset r1 1\nset r1 1\n\
    set r1 1\nend\nprocess 1 a 1\n";

const TWO_NOTES: &[Call] = &[Line("guess 1 good"), Line("guess 1 good"), Notes(2), Steps(1, 5), Notes(2)];

/// A guess behind another has a note of its own, until one of them is decided.
#[test]
fn notes_of_two_guesses() {
    plays(TWO_GUESSES, &[TWO_NOTES, &[Line("commit 1"), Notes(1), Line("fail 2"), Notes(0)]]);
}

/// Where the newer of two guesses is committed, the notes of a process depend on the same, and one of them is left.
#[test]
fn two_notes_become_one() {
    let decisions = [Line("commit 2"), Notes(1), Stands(7), Line("fail 1"), Notes(0), Stands(0)];
    plays(TWO_GUESSES, &[TWO_NOTES, &decisions]);
}
