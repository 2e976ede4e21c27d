//! What entities there are in a kernel, and what they have, as the report prints it.
use std::collections::BTreeMap;
use std::fmt::{Display, Formatter, Result};

pub type Bytes = Vec<u8>;
/// A path of numbers in base 65,536.
pub type Pid = u64;

/// An object, by its maker, 0 at the boot, and the maker's count.
#[derive(Debug, Clone, Copy, PartialEq, Eq, PartialOrd, Ord)]
pub struct Object(pub Pid, pub u32);

pub const ROOT: Object = Object(0, 1);

/// An entity, in the order of the report.
#[derive(Debug, Clone, PartialEq, Eq, PartialOrd, Ord)]
pub enum Entity {
    Proc(Pid),
    Sig(Pid),
    Exit(Pid),
    Obj(Object),
    Link(Object, String),
    Copy(String),
}

/// What a register holds.
#[derive(Debug, Clone, Copy, PartialEq, Eq)]
pub enum Held {
    Number(i64),
    Object(Object),
    Process(Pid),
}

#[derive(Debug, Clone, PartialEq, Eq)]
pub struct Process {
    pub script: String,
    pub terminal: u16,
    pub place: usize,
    pub registers: [Held; 8],
    pub buffer: Bytes,
    pub children: u16,
    pub objects: u32,
    pub handler: Option<usize>,
    pub saved: Option<usize>,
    pub is_ended: bool,
}

#[derive(Debug, Clone, PartialEq, Eq)]
pub struct Content {
    pub version: u64,
    pub bytes: Bytes,
}

#[derive(Debug, Clone, PartialEq, Eq)]
#[allow(clippy::large_enum_variant)] // there are a few at once
pub enum Value {
    Process(Box<Process>),
    Signals(Vec<u8>),
    Exit(Option<u8>),
    File(Bytes),
    Dir,
    Pipe { bytes: Bytes, is_shut: bool },
    Link(Object),
    Copy(Content),
}

/// What all entities have that are present.
pub type State = BTreeMap<Entity, Value>;

/// The process, where there is one.
pub fn process(state: &State, pid: Pid) -> Option<&Process> {
    match state.get(&Entity::Proc(pid)) {
        Some(Value::Process(process)) => Some(process),
        _ => None,
    }
}

/// The signals of a process.
pub fn signals(state: &State, pid: Pid) -> &[u8] {
    match state.get(&Entity::Sig(pid)) {
        Some(Value::Signals(queue)) => queue,
        _ => &[],
    }
}

/// The cached copy of a file.
pub fn copy<'a>(state: &'a State, name: &str) -> Option<&'a Content> {
    match state.get(&Entity::Copy(name.to_string())) {
        Some(Value::Copy(content)) => Some(content),
        _ => None,
    }
}

/// The names of a directory, with their objects.
pub fn names(state: &State, directory: Object) -> impl Iterator<Item = (&String, &Object)> {
    let links = state.range(Entity::Link(directory, String::new())..);
    links.map_while(move |it| match it {
        (Entity::Link(of, name), Value::Link(object)) if *of == directory => Some((name, object)),
        _ => None,
    })
}

/// A process as a report names it.
pub struct Path(pub Pid);

impl Display for Path {
    fn fmt(&self, f: &mut Formatter<'_>) -> Result {
        if self.0 >= 65_536 {
            write!(f, "{}.", Path(self.0 / 65_536))?;
        }
        write!(f, "{}", self.0 % 65_536)
    }
}

impl Display for Object {
    fn fmt(&self, f: &mut Formatter<'_>) -> Result {
        write!(f, "{}:{}", Path(self.0), self.1)
    }
}

impl Display for Held {
    fn fmt(&self, f: &mut Formatter<'_>) -> Result {
        match self {
            Held::Number(number) => number.fmt(f),
            Held::Object(object) => object.fmt(f),
            Held::Process(pid) => write!(f, "@{}", Path(*pid)),
        }
    }
}

impl Display for Entity {
    fn fmt(&self, f: &mut Formatter<'_>) -> Result {
        match self {
            Entity::Proc(pid) => write!(f, "proc {}", Path(*pid)),
            Entity::Sig(pid) => write!(f, "sig {}", Path(*pid)),
            Entity::Exit(pid) => write!(f, "exit {}", Path(*pid)),
            Entity::Obj(object) => write!(f, "obj {object}"),
            Entity::Link(directory, name) => write!(f, "link {directory} {name}"),
            Entity::Copy(name) => write!(f, "copy {name}"),
        }
    }
}

/// Bytes as a literal.
pub fn literal(bytes: &[u8]) -> String {
    let byte = |it: &u8| match it {
        b'"' => "\\\"".to_string(),
        b'\\' => "\\\\".to_string(),
        b'\n' => "\\n".to_string(),
        0x20..=0x7e => char::from(*it).to_string(),
        other => format!("\\x{other:02x}"),
    };
    format!("\"{}\"", bytes.iter().map(byte).collect::<String>())
}

/// The bytes of a literal.
pub fn unescaped(literal: &str) -> Bytes {
    let (mut bytes, mut left) = (Bytes::new(), literal[1..literal.len() - 1].bytes());
    while let Some(byte) = left.next() {
        bytes.push(match byte {
            b'\\' => match left.next() {
                Some(b'n') => b'\n',
                Some(b'x') => {
                    let digits: String = left.by_ref().take(2).map(char::from).collect();
                    u8::from_str_radix(&digits, 16).expect("two digits")
                }
                other => other.expect("a byte behind a backslash"),
            },
            byte => byte,
        });
    }
    bytes
}

/// These, with something between, or `-`.
pub fn joined<T: Display>(all: impl IntoIterator<Item = T>, between: &str) -> String {
    let all: Vec<_> = all.into_iter().map(|it| it.to_string()).collect();
    if all.is_empty() {
        "-".to_string()
    } else {
        all.join(between)
    }
}

fn process_text(it: &Process) -> String {
    format!(
        "at {} regs {} buf {} kids {} objs {} handler {} saved {} ended {}",
        it.place,
        joined(it.registers, " "),
        literal(&it.buffer),
        it.children,
        it.objects,
        joined(it.handler, ""),
        joined(it.saved, ""),
        if it.is_ended { "yes" } else { "no" }
    )
}

/// What an entity has, as the report prints it behind its name.
pub fn value_text(state: &State, entity: &Entity) -> Option<String> {
    Some(match (state.get(entity)?, entity) {
        (Value::Process(process), _) => process_text(process),
        (Value::Signals(queue), _) => joined(queue, ","),
        (Value::Exit(status), _) => joined(status, ""),
        (Value::File(bytes), _) => format!("file {} {}", bytes.len(), literal(bytes)),
        (Value::Dir, Entity::Obj(object)) => {
            let names = names(state, *object).map(|(name, of)| format!("{name}={of}"));
            format!("dir {}", joined(names, " "))
        }
        (Value::Dir, _) => unreachable!("a directory is an object"),
        (Value::Pipe { bytes, is_shut }, _) => {
            format!("pipe {} {}", if *is_shut { "shut" } else { "open" }, literal(bytes))
        }
        (Value::Link(object), _) => object.to_string(),
        (Value::Copy(content), _) => format!("{} {}", content.version, literal(&content.bytes)),
    })
}
