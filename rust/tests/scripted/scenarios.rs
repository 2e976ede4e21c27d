//! Random scenarios: a few processes with random scripts over all instructions, which share files, a directory, pipes, copies and
//! terminals; and what a scenario declares.
use crate::dice::Dice;
use crate::state::{unescaped, Content, Entity, Held, Object, Process, State, Value, ROOT};
use crate::step::{Instruction, Kind, Scripts};
use std::collections::{BTreeMap, HashMap};

/// What the processes of a scenario do.
#[derive(Debug, Clone, Copy, PartialEq, Eq)]
pub enum Manner {
    /// Anything.
    Any,
    /// Mostly fetches and stores.
    Guessing,
    /// Mostly names of two directories, of which one is nearly full.
    Naming,
    /// Mostly changes of files, near the edges of their blocks and of their greatest length, and of pipes and queues up to theirs.
    Changing,
}

/// The lines of scripts, and how often each comes. A capital letter stands for any of its operands, which `operands` has.
const LINES: [(usize, &str); 32] = [
    (2, "set N V"),
    (1, "move R R"),
    (1, "add N N"),
    (3, "text T"),
    (1, "len N"),
    (1, "self W"),
    (2, "boot W B"),
    (1, "jump L"),
    (1, "zero R L"),
    (1, "neg r0 L"),
    (1, "handler h"),
    (1, "return"),
    (6, "say"),
    (1, "mkfile O"),
    (1, "mkdir O"),
    (1, "mkpipe O"),
    (2, "look O D F"),
    (2, "link D F O"),
    (2, "unlink D F"),
    (1, "size O"),
    (3, "write O N"),
    (2, "read O N"),
    (2, "cut O N"),
    (3, "put O"),
    (3, "take O N"),
    (1, "shut O"),
    (3, "fork W L"),
    (2, "wait R W"),
    (3, "kill W N"),
    (1, "exit N"),
    (10, "fetch X"),
    (7, "store X"),
];

/// The first lines of scripts, by which objects, a number and a process come into registers.
const FIRST_LINES: [&str; 8] =
    ["look r1 r7 f", "look r2 r7 p", "look r1 r7 p", "look r3 r7 d", "set N V", "boot r6 B", "fetch X", "text T"];

/// The lines of scripts that do little but guess.
const GUESSING_LINES: [&str; 8] =
    ["fetch X", "fetch X", "fetch X", "store X", "say", "write r1 r0", "read r1 r0", "jump a"];

/// The lines of scripts that do little but link, take out and look up names.
const NAMING_LINES: [&str; 14] = [
    "link r7 E r1",
    "link r7 E r1",
    "link r7 E r1",
    "link r3 E r1",
    "unlink r7 E",
    "unlink r7 E",
    "unlink r3 E",
    "look r2 r7 E",
    "look r2 r3 E",
    "fetch X",
    "mkfile r1",
    "set r4 V",
    "add r4 r4",
    "jump a",
];

/// The lines of scripts that do little but change what there is.
const CHANGING_LINES: [&str; 14] = [
    "set r4 M",
    "set r4 M",
    "text Y",
    "text Y",
    "write r1 r4",
    "write r1 r4",
    "write r1 r4",
    "cut r1 r4",
    "put r2",
    "put r2",
    "put r2",
    "take r2 r4",
    "kill r6 r5",
    "fetch X",
];

/// A text of as many bytes as there may be.
const LONGEST: &str = concat!(
    r#"""#,
    "0123456789abcdef0123456789abcdef0123456789abcdef0123456789abcdef0123456789abcdef0123456789abcdef",
    "0123456789abcdef0123456789abcdef0123456789abcdef0123456789abcdef0123456789abcdef0123456789abcdef",
    "0123456789abcdef0123456789abcdef0123456789abcdef0123456789abcdef0123456789abcdef0123456789abcdef",
    "0123456789abcdef0123456789abcdef0123456789abcdef0123456789abcdef0123456789abcdef0123456789abcdef",
    "0123456789abcdef0123456789abcdef0123456789abcdef0123456789abcdef0123456789abcdef0123456789abcdef",
    "0123456789abcdef0123456789abcdef",
    r#"""#
);

/// The boot objects, copies and processes that each scenario has.
const DECLARED: [&str; 8] =
    ["file f T", "file g T", "pipe p T", "dir d", "copy /x 3 T", "copy /y 1 T", "process 1 S I", "process 2 S I"];

/// The operands that a capital letter may stand for.
fn operands(letter: char) -> &'static [&'static str] {
    match letter {
        'O' => &["r1", "r1", "r1", "r2", "r2", "r3", "r7", "r5"],
        'D' => &["r7", "r7", "r7", "r3", "r1"],
        'N' => &["r4", "r4", "r5", "r0", "r3"],
        'W' => &["r6", "r6", "r6", "r6", "r5"],
        'R' => &["r0", "r1", "r2", "r3", "r4", "r5", "r6", "r7"],
        'L' => &["a", "b", "c", "h"],
        'X' => &["/x", "/x", "/y", "/z"],
        'F' => &["f", "f", "g", "p", "d", "n"],
        'E' => &["a", "b", "c", "e", "h", "i", "f", "k00", "k01", "k02"],
        'B' => &["1", "2", "3", "4"],
        'V' => &[
            "0",
            "1",
            "2",
            "3",
            "5",
            "9",
            "9",
            "10",
            "31",
            "40",
            "300",
            "512",
            "600",
            "-1",
            "4096",
            "32768",
            "9223372036854775807",
        ],
        'T' => &[
            r#""""#,
            r#""a""#,
            r#""b""#,
            r#""cd""#,
            r#""efg""#,
            r#""hijklm""#,
            r#""n\n\x00\xff""#,
            r#""0123456789012345678901234567890123456789""#,
        ],
        'M' => &[
            "0", "1", "20", "492", "500", "511", "512", "513", "530", "1004", "1023", "1024", "1536", "4096", "16384",
            "32240", "32256", "32257", "32700", "32766", "32767", "32768", "33000",
        ],
        'Y' => &[LONGEST, LONGEST, r#""""#, r#""ab""#, r#""0123456789012345678901234567890123456789""#],
        'S' => &["s1", "s2", "s3"],
        'I' => &["1", "1", "2"],
        _ => &[],
    }
}

/// A scenario that is being written.
struct Writing<'a> {
    dice: &'a mut Dice,
    text: String,
}

impl Writing<'_> {
    /// A line, with an operand for each capital letter.
    fn line(&mut self, template: &str) {
        for letter in template.chars() {
            match operands(letter) {
                [] => self.text.push(letter),
                words => self.text.push_str(self.dice.pick(words)),
            }
        }
        self.text.push('\n');
    }

    fn any(&mut self, templates: &[&'static str]) {
        let template = self.dice.pick(templates);
        self.line(template);
    }

    /// Fewer lines than so many, each any of these.
    fn lines(&mut self, templates: &[&'static str], below: usize) {
        for _ in 0..self.dice.roll(below) {
            self.any(templates);
        }
    }

    /// A script with the labels `a`, `b`, `c` and the handler `h`.
    fn script(&mut self) {
        let lines: Vec<_> = LINES.iter().flat_map(|(count, line)| vec![*line; *count]).collect();
        self.lines(&FIRST_LINES, 5);
        self.line("a:");
        self.lines(&lines, 9);
        self.line("b:");
        self.lines(&lines, 9);
        self.any(&["jump a", "jump a", "exit r4", "fork W L"]);
        self.line("c:");
        self.lines(&lines, 5);
        self.line("h:");
        self.lines(&lines, 3);
        self.any(&["return", "jump b", "fetch X"]);
    }

    fn script_of(&mut self, manner: Manner) {
        match manner {
            Manner::Any => self.script(),
            Manner::Guessing => {
                self.text.push_str("look r1 r7 f\na:\nfetch /x\n");
                self.lines(&GUESSING_LINES, 8);
                self.line("jump a");
            }
            Manner::Changing => {
                self.text.push_str("look r1 r7 f\nlook r2 r7 p\nset r5 7\nboot r6 2\na:\nfetch /x\n");
                self.lines(&CHANGING_LINES, 16);
                self.line("jump a");
            }
            Manner::Naming => {
                self.text.push_str("mkfile r1\nlook r3 r7 d\na:\nfetch /x\n");
                self.lines(&NAMING_LINES, 10);
                self.line("jump a");
            }
        }
    }

    fn declarations(&mut self, manner: Manner) {
        for name in ["s1", "s2", "s3"] {
            self.text.push_str(&format!("script {name}\n"));
            self.script_of(manner);
            self.line("end");
        }
        if manner == Manner::Naming {
            (0..58).for_each(|it| self.text.push_str(&format!("file k{it:02} \"\"\n")));
        }
        DECLARED.iter().for_each(|it| self.line(it));
        if self.dice.once_in(2) {
            self.line("process 3 S I");
        }
        if self.dice.once_in(4) {
            self.line("process 4 S I");
        }
        if self.dice.once_in(8) {
            self.any(&["limit 6", "limit 12", "limit 25"]);
        }
    }

    /// The server's files, of which each may be missing, and that of `/x` of another version than the copy.
    fn remotes(&mut self) {
        let first = self.dice.pick(&["remote /x 3 T", "remote /x 3 T", "remote /x 5 T"]);
        for declared in [first, "remote /y 1 T", "remote /z 2 T"] {
            if !self.dice.once_in(4) {
                self.line(declared);
            }
        }
        self.line("world");
    }
}

/// The text of a random kernel, without its steps.
pub fn any_kernel(dice: &mut Dice, manner: Manner) -> String {
    let mut writing = Writing { dice, text: String::new() };
    writing.declarations(manner);
    writing.text
}

/// The text of a random world, without its events.
pub fn any_world(dice: &mut Dice, manner: Manner) -> String {
    let mut writing = Writing { dice, text: String::new() };
    writing.declarations(manner);
    writing.remotes();
    writing.text
}

/// What a text declares.
pub struct Declared {
    pub scripts: Scripts,
    pub start: State,
    pub limit: usize,
    pub files: BTreeMap<String, Content>,
}

fn register(word: &str) -> usize {
    word[1..].parse().expect("a register")
}

fn instruction(words: &[&str], labels: &HashMap<&str, usize>) -> Instruction {
    let r = register;
    let name = |word: &str| word.to_string();
    match *words {
        ["set", a, n] => Instruction::Set(r(a), n.parse().expect("a number")),
        ["move", a, b] => Instruction::Move(r(a), r(b)),
        ["add", a, b] => Instruction::Add(r(a), r(b)),
        ["text", text] => Instruction::Text(unescaped(text)),
        ["len", a] => Instruction::Len(r(a)),
        ["self", a] => Instruction::Itself(r(a)),
        ["boot", a, n] => Instruction::Boot(r(a), n.parse().expect("a number")),
        ["jump", to] => Instruction::Jump(labels[to]),
        ["zero", a, to] => Instruction::Zero(r(a), labels[to]),
        ["neg", a, to] => Instruction::Negative(r(a), labels[to]),
        ["handler", to] => Instruction::Handler(labels[to]),
        ["return"] => Instruction::Return,
        ["say"] => Instruction::Say,
        ["mkfile", a] => Instruction::Make(r(a), Kind::File),
        ["mkdir", a] => Instruction::Make(r(a), Kind::Dir),
        ["mkpipe", a] => Instruction::Make(r(a), Kind::Pipe),
        ["look", a, d, at] => Instruction::Look(r(a), r(d), name(at)),
        ["link", d, at, a] => Instruction::Link(r(d), name(at), r(a)),
        ["unlink", d, at] => Instruction::Unlink(r(d), name(at)),
        ["size", f] => Instruction::Size(r(f)),
        ["write", f, at] => Instruction::Write(r(f), r(at)),
        ["read", f, at] => Instruction::Read(r(f), r(at)),
        ["cut", f, n] => Instruction::Cut(r(f), r(n)),
        ["put", p] => Instruction::Put(r(p)),
        ["take", p, n] => Instruction::Take(r(p), r(n)),
        ["shut", p] => Instruction::Shut(r(p)),
        ["fork", a, to] => Instruction::Fork(r(a), labels[to]),
        ["wait", a, b] => Instruction::Wait(r(a), r(b)),
        ["kill", w, n] => Instruction::Kill(r(w), r(n)),
        ["exit", a] => Instruction::Exit(r(a)),
        ["fetch", at] => Instruction::Fetch(name(at)),
        ["store", at] => Instruction::Store(name(at)),
        _ => panic!("the instruction {words:?}"),
    }
}

/// The instructions of a script's lines.
fn script(lines: &[&str]) -> Vec<Instruction> {
    let (mut labels, mut found) = (HashMap::new(), Vec::new());
    for line in lines {
        match line.strip_suffix(':') {
            Some(label) => _ = labels.insert(label, found.len()),
            None => found.push(*line),
        }
    }
    let words = |line: &&str| instruction(&line.split(' ').collect::<Vec<_>>(), &labels);
    found.iter().map(words).collect()
}

impl Declared {
    pub fn of(text: &str) -> Declared {
        let start = State::from([(Entity::Obj(ROOT), Value::Dir)]);
        let mut declared = Declared { scripts: Scripts::new(), start, limit: 1_000_000, files: BTreeMap::new() };
        let (mut lines, mut objects) = (text.lines(), 1);
        while let Some(line) = lines.next() {
            match line.split(' ').collect::<Vec<_>>()[..] {
                ["script", name] => {
                    let all: Vec<_> = lines.by_ref().take_while(|it| *it != "end").collect();
                    declared.scripts.insert(name.to_string(), script(&all));
                }
                [kind @ ("file" | "pipe" | "dir"), name, ref literal @ ..] => {
                    objects += 1;
                    let bytes = literal.first().map(|it| unescaped(it)).unwrap_or_default();
                    let value = match kind {
                        "file" => Value::File(bytes),
                        "pipe" => Value::Pipe { bytes, is_shut: false },
                        _ => Value::Dir,
                    };
                    declared.boots(name, Object(0, objects), value);
                }
                ["copy", name, version, bytes] => {
                    let value = Value::Copy(content(version, bytes));
                    declared.start.insert(Entity::Copy(name.to_string()), value);
                }
                ["remote", name, version, bytes] => {
                    declared.files.insert(name.to_string(), content(version, bytes));
                }
                ["process", number, script, terminal] => declared.begins(number, script, terminal),
                ["limit", limit] => declared.limit = limit.parse().expect("a number"),
                _ => assert_eq!(line, "world", "a declaration"),
            }
        }
        declared
    }

    /// A boot object, linked in the root.
    fn boots(&mut self, name: &str, object: Object, value: Value) {
        self.start.insert(Entity::Obj(object), value);
        self.start.insert(Entity::Link(ROOT, name.to_string()), Value::Link(object));
    }

    /// A boot process.
    fn begins(&mut self, number: &str, script: &str, terminal: &str) {
        let mut registers = [Held::Number(0); 8];
        registers[7] = Held::Object(ROOT);
        let process = Process {
            script: script.to_string(),
            terminal: terminal.parse().expect("a number"),
            place: 0,
            registers,
            buffer: Vec::new(),
            children: 0,
            objects: 0,
            handler: None,
            saved: None,
            is_ended: false,
        };
        let pid = number.parse().expect("a number");
        self.start.insert(Entity::Proc(pid), Value::Process(Box::new(process)));
        self.start.insert(Entity::Sig(pid), Value::Signals(Vec::new()));
        self.start.insert(Entity::Exit(pid), Value::Exit(None));
    }
}

fn content(version: &str, bytes: &str) -> Content {
    Content { version: version.parse().expect("a version"), bytes: unescaped(bytes) }
}
