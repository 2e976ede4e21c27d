//! Worlds that random ones hardly come to, each judged by the same models.
use crate::dice::Dice;
use crate::step::LAST_VERSION;
use crate::worlds::World;

/// A world of these declarations.
fn world(text: &str) -> World {
    World::of(&[text, "world\n"].concat(), Dice(1))
}

/// Each process takes a turn; what each is answered.
fn turns(world: &mut World, pids: &[u64]) -> Vec<String> {
    let turn = |pid: &u64| {
        let told = world.turn_of(*pid);
        world.judge();
        told
    };
    pids.iter().map(turn).collect()
}

/// A guess of each of 64 processes, and none of the next one until one of them is decided.
#[test]
fn sixty_four_guesses() {
    let processes: String = (1..=65).map(|it| format!("process {it} s {it}\n")).collect();
    let mut world = world(&["script s\nfetch /x\nend\ncopy /x 3 \"old\"\nremote /x 3 \"old\"\n", &processes].concat());
    let all: Vec<_> = (1..=65).collect();
    let told = turns(&mut world, &all);
    assert_eq!((told[63].as_str(), told[64].as_str()), ("guessed 64", "refused 6 TooMany"));
    assert!(world.serve() && world.reply());
    assert_eq!(turns(&mut world, &[65]), ["guessed 65"]);
}

/// A process whose guess was refused takes a signal first: it has its answer no more, and guesses again.
#[test]
fn a_kept_answer_is_forgotten_for_a_signal() {
    let mut world = world(
        "script s\nhandler h\nfetch /x\nend_of:\nexit r0\nh:\nreturn\nend\nscript k\nboot r1 1\nset r2 5\nkill r1 r2\nend\n\
         copy /x 3 \"old\"\nremote /x 3 \"old\"\nprocess 1 s 1\nprocess 2 k 2\n",
    );
    assert_eq!(turns(&mut world, &[1, 1]), ["stepped", "guessed 1"]);
    world.edit_of("/x", 3, b"foreign");
    assert!(world.serve() && world.reply());
    world.judge();
    assert_eq!(
        turns(&mut world, &[2, 2, 2, 1, 1, 1]),
        ["stepped", "stepped", "stepped", "stepped", "stepped", "guessed 2"]
    );
    assert!(world.desk.met.contains("a kept answer is forgotten for a signal"));
}

/// A file that has the last version is not written: not by an edit, and not by a store.
#[test]
fn the_last_version_is_kept() {
    let declared = format!("copy /x {LAST_VERSION} \"old\"\nremote /x {LAST_VERSION} \"old\"\nprocess 1 s 1\n");
    let mut world = world(&["script s\nfetch /x\nstore /x\nend\n", &declared].concat());
    world.edit_of("/x", LAST_VERSION, b"new");
    assert_eq!(turns(&mut world, &[1, 1]), ["guessed 1", "asked 2"]);
    for _ in 0..2 {
        assert!(world.serve() && world.reply());
        world.judge();
    }
    assert_eq!(world.server.version("/x"), LAST_VERSION);
}

/// Two processes want one file of which there is no copy: the second waits until the first has its reply.
#[test]
fn two_askers() {
    let mut world = world("script s\nfetch /x\nsay\nend\nremote /x 1 \"there\"\nprocess 1 s 1\nprocess 2 s 2\n");
    assert_eq!(turns(&mut world, &[1, 2, 1]), ["asked 1", "refused 5 Blocked", "refused 5 Blocked"]);
    assert!(world.serve() && world.reply());
    assert_eq!(turns(&mut world, &[2, 1]), ["guessed 1", "stepped"]);
}
