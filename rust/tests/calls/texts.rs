//! What the text of a script, a line, a trace and declarations says, and their faults.
use hidewillow::FaultKind::{self, Label, Operand, TooLong, Word};
use hidewillow::{Error, Lease, Play};

/// The fault of a text: its line and what is wrong there.
fn fault_of<T>(told: Result<T, Error>) -> Option<(u64, FaultKind)> {
    match told {
        Err(Error::Fault(fault)) => Some((fault.line, fault.kind)),
        _ => None,
    }
}

/// A kernel whose process 1 runs a script, which stands behind the first line, and has a copy of `/x`.
fn open(script: &str) -> Result<Play, Error> {
    Play::open(&format!("script a\n{script}\nend\nlimit 10000\ncopy /x 3 \"old\"\nprocess 1 a 1\nsteps\n"))
}

/// The first fault of a script stands in this line of it, from 1 on.
fn is_faulty(script: &str, line: u64, kind: FaultKind) {
    assert_eq!(fault_of(open(script)), Some((line + 1, kind)), "{script}");
}

#[test]
fn faults_of_scripts() {
    let rows = [
        ("sett r1 1", 1, Word),
        ("set r8 1", 1, Operand),
        ("text \"ab", 1, Operand),
        ("say\nset", 2, Word),
        ("set r1 1\nset r8 1", 2, Operand),
        ("jump far", 1, Label),
        ("say\nzero r1 far\nfar.:", 2, Label),
        ("jump far\nfar:\nsay\nfar:", 4, Label),
        ("neg r1 far", 1, Label),
        ("handler far", 1, Label),
        ("fork r1 far", 1, Label),
        ("a:\nsay\na:", 3, Label),
        ("a: b", 1, Word),
        ("a: \"b", 1, Operand),
        ("a: b\na:", 1, Word),
        ("a.b:", 1, Word),
        (":", 1, Word),
    ];
    for (script, line, kind) in rows {
        is_faulty(script, line, kind);
    }
}

#[test]
fn faulty_words_of_scripts() {
    let rows = [
        "jump",
        "jump a b",
        "zero r1",
        "return r1",
        "look r1 r7",
        "wait r1 r2 r3",
        "sat \"a",
        "set r8",
        "set r1 1 2",
        "\u{ff}",
    ];
    for script in rows {
        is_faulty(script, 1, Word);
    }
}

#[test]
fn faulty_operands_of_scripts() {
    let rows = [
        "boot r1 0",
        "boot r1 65536",
        "jump a-b",
        "jump \"a",
        "zero r8 far",
        "fork r1 \"far",
        "link r1 r2 /x",
        "unlink r1 a:b",
        "take r1 1",
        "set \"a",
        "set r1 +1",
        "set r1 9223372036854775808",
        "text \"a\"b",
        "text \"\\q\"",
        "text \"\u{ff}\"",
        "fetch a:b",
    ];
    for script in rows {
        is_faulty(script, 1, Operand);
    }
}

#[test]
fn scripts_that_are_well() {
    for script in ["set r1 -9223372036854775808", "# \u{ff}", "a:\nsay\nb_2:", ""] {
        assert!(open(script).is_ok(), "{script}");
    }
}

/// What process 1 has once it did all private instructions that it can, and how many those were.
fn done(script: &str) -> (u64, String) {
    let mut kernel = open(script).expect("a kernel");
    let Ok(Lease::Ran(count)) = kernel.lease("1", 1_000) else {
        panic!("{script} is lent");
    };
    (count, kernel.value("proc 1").expect("a value").expect("a process"))
}

/// Comments, blanks and escapes.
#[test]
fn reads_scripts() {
    let (count, value) = done("# a\r\n set\tr1 -0012 \n\nagain:\ntext \"a \\x4a\\n\\\"\"\nfetch /x");
    assert_eq!(count, 2);
    assert!(value.starts_with("at 2 regs 0 -12 ") && value.contains(" buf \"a J\\n\\\"\" "), "{value}");
}

#[test]
fn prints_values() {
    let (_, value) = done("self r1\nboot r2 65535\nset r3 -2\ntext \"a\\\"\\\\\\n\\x7f\"");
    assert!(value.starts_with("at 4 regs 0 @1 @65535 -2 0 0 0 0:1 buf \"a\\\"\\\\\\n\\x7f\" "), "{value}");
}

/// A child of a child of a child, each the third or fifth of its own.
#[test]
fn prints_processes() {
    let forks = "fork r1 b\njump c\nb:\nfork r1 c\nc:\nmkfile r1\nsay";
    let mut kernel = open(forks).expect("a kernel");
    for line in ["step 1 none", "step 1.1 none", "step 1.1.1 none"] {
        assert_eq!(kernel.line(line).expect(line).map(|it| it.code), Some(0), "{line}");
    }
    assert!(kernel.value("proc 1.1.1").expect("a value").is_some());
    assert!(kernel.report().expect("a report").contains("\nobj 1.1.1:1 "));
}

/// So many lines `say`, and these.
fn long(count: usize, last: &str) -> String {
    "say\n".repeat(count) + last
}

#[test]
fn longest_script() {
    assert!(open(&long(4_096, "")).is_ok());
    is_faulty(&long(4_096, "# 4,097\nsay\nset"), 4_098, TooLong);
    is_faulty(&long(4_096, "jump far\nfar:"), 4_097, TooLong);
    is_faulty(&long(4_096, "jump far"), 4_097, Label);
}

#[test]
fn label_at_the_end_of_the_longest_script() {
    let mut kernel = open(&long(4_095, "jump far\nfar:")).expect("a kernel");
    for _ in 0..4_095 {
        kernel.line("step 1 none").expect("a step");
    }
    assert_eq!(kernel.lease("1", 10), Ok(Lease::Ran(1)));
    assert!(kernel.value("proc 1").expect("a value").expect("a process").starts_with("at 4096 "));
}

/// A jump leads to the next, each to a label that stands below it.
#[test]
fn many_labels_below_their_use() {
    let jumps: String = (0..257).map(|it| format!("jump l{it}\nsay\nl{it}:\n")).collect();
    let (count, value) = done(&jumps);
    assert_eq!(count, 257);
    assert!(value.starts_with("at 514 "), "{value}");
}

/// What is declared twice, or names what is not declared, and the line where that stands.
#[test]
fn faults_of_declarations() {
    let rows = [
        ("script a\nsay\nend\nscript a\nsay\nend\n", 4, Label),
        ("script a\nsay\nend\nprocess 1 a 1\nprocess 1 a 2\n", 5, Label),
        ("process 1 a 1\n", 1, Label),
        ("file f \"a\"\ndir f\n", 2, Label),
        ("copy f 3 \"\"\ncopy f 4 \"\"\n", 2, Label),
    ];
    for (text, line, kind) in rows {
        assert_eq!(fault_of(Play::open(&format!("{text}steps\n"))), Some((line, kind)), "{text}");
    }
    let alike = "script a\nsay\nend\nfile a \"\"\ncopy a 3 \"\"\nprocess 1 a 1\nsteps\n";
    assert!(Play::open(alike).is_ok(), "names of different kinds are apart");
}

/// The words of a line, and what is wrong with them.
#[test]
fn faults_of_lines() {
    let rows = [
        ("step 1 none 3 \"x\"", Word),
        ("step 1 fresh", Word),
        ("step 1 fresh -1 \"x\"", Operand),
        ("step 1 bad", Operand),
        ("step 1 bad 3", Word),
        ("step 1.0 none", Operand),
        ("step 1.1.1.1.1 none", Operand),
        ("step 65536 none", Operand),
        ("step 1. none", Operand),
        ("commit 0", Operand),
        ("commit 9223372036854775808", Operand),
    ];
    let mut kernel = open("fetch /y").expect("a kernel");
    for (line, kind) in rows {
        assert_eq!(fault_of(kernel.line(line)), Some((1, kind)), "{line}");
    }
    assert!(kernel.line("commit 9223372036854775807").is_ok());
    assert!(kernel.line("step 1 fresh 03 \"\\x78\"").is_ok());
    assert!(kernel.value("proc 1").expect("a value").expect("a process").contains(" buf \"x\" "));
}

/// The first fault of a trace, by its line from the first on.
#[test]
fn faults_of_traces() {
    let rows = [
        ("stop 1 none", 1, Word),
        ("\u{ff} 1", 1, Word),
        ("guess 1 good", 1, Word),
        ("step 1 1 none", 1, Word),
        ("step 1 fresh 1", 1, Word),
        ("commit", 1, Word),
        ("fail 1 1", 1, Word),
        ("step 1 \"a", 1, Operand),
        ("step 1 bad", 1, Operand),
        ("step 0 none", 1, Operand),
        ("commit 0\nstop", 1, Operand),
        ("commit 9223372036854775808", 1, Operand),
        ("step 1 none\n# a\nguess 0 1 good", 3, Operand),
    ];
    let opened = |trace: &str| Play::open(&format!("limit 3\ntrace\n{trace}\n"));
    for (trace, line, kind) in rows {
        assert_eq!(fault_of(opened(trace)), Some((line + 2, kind)), "{trace}");
    }
    for trace in ["guess 9223372036854775807 1.2.3.4 good\r", "# \u{ff}\n\r"] {
        assert_eq!(opened(trace).err(), Some(Error::Section), "{trace} is well");
    }
}
