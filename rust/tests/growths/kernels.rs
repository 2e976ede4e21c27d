//! What grows in a kernel: rows of acts on it.
use crate::{FETCHES, FEWER, MANY, OFTEN};
use hidewillow::{Epoch, Lease, Play};

/// What is done to a kernel.
#[derive(Clone, Copy)]
enum Act {
    /// So many steps of process 1.
    Steps(u32),
    /// So many guesses of process 1, which stay open.
    Guesses(u32),
    /// So many guesses, each with so many steps behind it.
    Fills(u32, u32),
    /// The newest guesses, so many, are committed.
    Commits(u32),
    /// The newest guesses, so many, are failed.
    Fails(u32),
    /// The newest guess but one is failed.
    FailsBelow,
    /// Process 1 is leased, runs up to so many private instructions, and is handed in.
    Lends(u32),
    /// It is asked for its report.
    Sees,
    /// It is asked for its report and its counts. To count what a failure took back takes the square of the steps that depended on
    /// it.
    Asks,
    /// An epoch begins.
    Epoch,
}

/// How often acts are done, and which.
type Part = (u32, &'static [Act]);

const STEPPED: u32 = 0;
const GUESSED: u32 = 1;

/// A kernel, and the guesses that nobody has decided, the newest last.
struct Player {
    kernel: Play,
    guesses: Vec<u64>,
}

impl Player {
    /// What a line is answered, which is not refused.
    fn line(&mut self, line: &str) -> (u32, u64) {
        let answer = self.kernel.line(line).expect(line).expect("an answer");
        (answer.code, answer.number)
    }

    fn steps(&mut self, count: u32) {
        (0..count).for_each(|_| assert_eq!(self.line("step 1 none").0, STEPPED));
    }

    fn guess(&mut self) {
        let (code, number) = self.line("guess 1 good");
        assert_eq!(code, GUESSED);
        self.guesses.push(number);
    }

    fn fills(&mut self, count: u32, behind: u32) {
        for _ in 0..count {
            self.guess();
            self.steps(behind);
        }
    }

    /// Decides the guess at a place from the newest.
    fn decide(&mut self, word: &str, place: usize) {
        let number = self.guesses.remove(self.guesses.len() - 1 - place);
        self.line(&format!("{word} {number}"));
    }

    fn sees(&mut self) {
        assert!(!self.kernel.report().expect("a report").is_empty());
    }

    fn asks(&mut self) {
        self.sees();
        self.kernel.counts().expect("counts");
    }

    fn acts(&mut self, act: Act) {
        match act {
            Act::Steps(count) => self.steps(count),
            Act::Guesses(count) => self.fills(count, 0),
            Act::Fills(count, behind) => self.fills(count, behind),
            Act::Commits(count) => (0..count).for_each(|_| self.decide("commit", 0)),
            Act::Fails(count) => (0..count).for_each(|_| self.decide("fail", 0)),
            Act::FailsBelow => self.decide("fail", 1),
            Act::Lends(count) => assert_eq!(self.kernel.lease("1", count), Ok(Lease::Ran(count.into()))),
            Act::Sees => self.sees(),
            Act::Asks => self.asks(),
            Act::Epoch => assert!(matches!(self.kernel.new_epoch(), Ok(Epoch::Begun(_)))),
        }
    }
}

/// The acts on a kernel.
fn grows(declared: &str, parts: &[Part]) {
    let kernel = Play::open(&format!("{declared}steps\n")).expect("a kernel");
    let mut player = Player { kernel, guesses: Vec::new() };
    for (times, acts) in parts {
        (0..*times).for_each(|_| acts.iter().for_each(|act| player.acts(*act)));
    }
}

#[test]
fn guesses_that_are_committed() {
    let round = &[Act::Guesses(1), Act::Commits(1), Act::Steps(1)];
    grows(FETCHES, &[(MANY, round), (1, &[Act::Asks, Act::Epoch, Act::Guesses(1), Act::Commits(1)])]);
}

#[test]
fn guesses_that_fail() {
    let round = &[Act::Guesses(1), Act::Fails(1)];
    grows(FETCHES, &[(MANY, round), (1, &[Act::Asks, Act::Epoch, Act::Guesses(1), Act::Fails(1)])]);
}

/// Of a decision the tokens are looked through, of which each round leaves one: it takes the square of their number.
#[test]
fn struck_guesses_whose_tokens_are_out() {
    let twice = "copy /x 3 \"old\"\nlimit 4000000\nscript a\nfetch /x\nfetch /x\nend\nprocess 1 a 1\n";
    let round = &[Act::Guesses(2), Act::FailsBelow];
    grows(twice, &[(FEWER, round), (1, &[Act::Asks, Act::Epoch, Act::Guesses(1), Act::Commits(FEWER)])]);
}

#[test]
fn as_many_guesses_at_once_that_fail() {
    grows(FETCHES, &[(OFTEN, &[Act::Fills(64, 1), Act::Fails(64)]), (1, &[Act::Sees, Act::Epoch])]);
}

#[test]
fn as_many_guesses_at_once_that_are_committed() {
    grows(FETCHES, &[(OFTEN, &[Act::Fills(64, 1), Act::Commits(64)]), (1, &[Act::Asks, Act::Epoch])]);
}

#[test]
fn entities() {
    let files = "limit 4000000\nscript a\na:\nmkfile r1\njump a\nend\nprocess 1 a 1\n";
    grows(files, &[(MANY, &[Act::Steps(2)]), (1, &[Act::Asks, Act::Epoch, Act::Asks])]);
}

/// So many steps under a guess that fails, and as many under one that is committed.
fn grows_under_one_guess(declared: &str, first: u32, count: u32, each: &'static [Act]) {
    for last in [Act::Fails(1), Act::Commits(1)] {
        let kernel = Play::open(&format!("{declared}steps\n")).expect("a kernel");
        let mut player = Player { kernel, guesses: Vec::new() };
        player.steps(first);
        player.guess();
        (0..count).for_each(|_| each.iter().for_each(|act| player.acts(*act)));
        for act in [Act::Sees, last, Act::Sees, Act::Epoch, Act::Asks] {
            player.acts(act);
        }
    }
}

#[test]
fn entities_under_one_guess() {
    let files = "copy /x 3 \"old\"\nlimit 4000000\nscript a\nfetch /x\na:\nmkfile r1\njump a\nend\nprocess 1 a 1\n";
    grows_under_one_guess(files, 0, MANY, &[Act::Steps(2)]);
}

#[test]
fn texts_that_wait_under_one_guess() {
    let says = "copy /x 3 \"old\"\nlimit 4000000\nscript a\nfetch /x\na:\nsay\njump a\nend\nprocess 1 a 1\n";
    grows_under_one_guess(says, 0, MANY, &[Act::Steps(2)]);
}

#[test]
fn notes_of_a_file_under_one_guess() {
    let writes = "copy /x 3 \"old\"\nfile f \"\"\nlimit 4000000\nscript a\nlook r1 r7 f\ntext \"z\"\nfetch /x\n\
        text \"z\"\na:\nwrite r1 r2\ncut r1 r2\njump a\nend\nprocess 1 a 1\n";
    grows_under_one_guess(writes, 2, MANY, &[Act::Steps(3)]);
}

#[test]
fn directories_with_a_name_each() {
    let links = "limit 4000000\nscript a\nmkfile r2\na:\nmkdir r1\nlink r1 f r2\njump a\nend\nprocess 1 a 1\n";
    grows(links, &[(1, &[Act::Steps(1)]), (MANY, &[Act::Steps(3)]), (1, &[Act::Asks, Act::Epoch, Act::Asks])]);
}

/// Names come behind all objects in the list of what depends on the guess, so the list moves with each object: it takes the
/// square of their number.
#[test]
fn directories_under_one_guess() {
    let links =
        "copy /x 3 \"old\"\nlimit 4000000\nscript a\nmkfile r2\nfetch /x\na:\nmkdir r1\nlink r1 f r2\njump a\nend\n\
        process 1 a 1\n";
    grows_under_one_guess(links, 1, FEWER, &[Act::Steps(3)]);
}

#[test]
fn a_name_that_comes_and_goes() {
    let links = "limit 4000000\nscript a\nmkfile r2\na:\nlink r7 n r2\nunlink r7 n\njump a\nend\nprocess 1 a 1\n";
    grows(links, &[(1, &[Act::Steps(1)]), (MANY, &[Act::Steps(3)]), (1, &[Act::Asks, Act::Epoch])]);
}

#[test]
fn children_of_a_process() {
    let forks = "limit 4000000\nscript a\na:\nfork r1 b\njump a\nb:\nexit r0\nend\nprocess 1 a 1\n";
    grows(forks, &[(MANY, &[Act::Steps(2)]), (1, &[Act::Asks, Act::Epoch, Act::Asks])]);
}

#[test]
fn instructions_of_a_lease() {
    let computes = "limit 4000000\nscript a\na:\nset r1 1\njump a\nend\nprocess 1 a 1\n";
    grows(computes, &[(1, &[Act::Lends(MANY), Act::Asks, Act::Epoch, Act::Lends(MANY)])]);
}

#[test]
fn leases_that_rest_on_63_guesses() {
    let computes =
        "copy /x 3 \"old\"\nlimit 4000000\nscript a\nset r1 -63\nset r2 1\na:\nfetch /x\nadd r1 r2\nneg r1 a\nb:\n\
        set r3 1\njump b\nend\nprocess 1 a 1\n";
    let parts: &[Part] = &[
        (1, &[Act::Steps(2), Act::Fills(63, 2), Act::Lends(MANY), Act::Asks]),
        (1, &[Act::Lends(MANY), Act::Fails(1), Act::Commits(62), Act::Epoch]),
        (1, &[Act::Fills(1, 2), Act::Lends(MANY), Act::Commits(1), Act::Epoch]),
    ];
    grows(computes, parts);
}

#[test]
fn epochs() {
    let round = &[Act::Guesses(1), Act::Commits(1), Act::Steps(1), Act::Epoch];
    grows(FETCHES, &[(MANY, round), (1, &[Act::Asks])]);
}
