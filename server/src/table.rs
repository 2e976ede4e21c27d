//! The commands that are there, as clients ask for them by `COMMAND`.
use crate::resp::{are, bulk, part, Reply};

/// A command: its name, how many words it has (so many or more where it is below 0), what is said of it, where its keys stand (the first, the
/// last and the step between them), its kind, and in words what it does.
pub struct Row(pub &'static str, i64, &'static str, (i64, i64, i64), &'static str, &'static str);

const FIRST: (i64, i64, i64) = (1, 1, 1);
const ALL: (i64, i64, i64) = (1, -1, 1);
/// What is told of them.
const PARTS: [(&str, i64); 4] = [("COUNT", 2), ("DOCS", -2), ("INFO", -2), ("LIST", 2)];
const NONE: (i64, i64, i64) = (0, 0, 0);
const AT_THE_DOOR: &str = "noscript loading stale fast no_auth allow_busy";
const OF_QUEUES: &str = "noscript loading stale fast allow_busy";

#[rustfmt::skip]
pub const TABLE: [Row; 39] = [
    Row("append", 3, "write denyoom fast", FIRST, "string", "Append a value to a key"),
    Row("decr", 2, "write denyoom fast", FIRST, "string", "Decrement the integer value of a key by one"),
    Row("decrby", 3, "write denyoom fast", FIRST, "string", "Decrement the integer value of a key by a number"),
    Row("get", 2, "readonly fast", FIRST, "string", "Get the value of a key"),
    Row("getset", 3, "write denyoom fast", FIRST, "string", "Set the value of a key and return its old value"),
    Row("incr", 2, "write denyoom fast", FIRST, "string", "Increment the integer value of a key by one"),
    Row("incrby", 3, "write denyoom fast", FIRST, "string", "Increment the integer value of a key by a number"),
    Row("mget", -2, "readonly fast", ALL, "string", "Get the values of all the keys"),
    Row("mset", -3, "write denyoom", (1, -1, 2), "string", "Set several keys to values"),
    Row("set", -3, "write denyoom", FIRST, "string", "Set the value of a key"),
    Row("strlen", 2, "readonly fast", FIRST, "string", "Get the length of the value of a key"),
    Row("del", -2, "write", ALL, "generic", "Delete keys"),
    Row("exists", -2, "readonly fast", ALL, "generic", "Count the keys that exist"),
    Row("keys", 2, "readonly", NONE, "generic", "Find all keys with a prefix"),
    Row("discard", 1, OF_QUEUES, NONE, "transactions", "Drop what was queued since MULTI"),
    Row("exec", 1, "noscript loading stale skip_slowlog", NONE, "transactions", "Carry out what was queued since MULTI, as one step"),
    Row("multi", 1, OF_QUEUES, NONE, "transactions", "Begin to queue commands"),
    Row("auth", -2, AT_THE_DOOR, NONE, "connection", "Say the password"),
    Row("client", -2, "", NONE, "connection", "A container for commands of connections"),
    Row("echo", 2, "loading stale fast", NONE, "connection", "Echo a text"),
    Row("hello", -1, AT_THE_DOOR, NONE, "connection", "Choose the version of the protocol"),
    Row("ping", -1, "fast", NONE, "connection", "Ping the server"),
    Row("quit", -1, AT_THE_DOOR, NONE, "connection", "Close the connection"),
    Row("reset", 1, AT_THE_DOOR, NONE, "connection", "Make the connection as a new one"),
    Row("select", 2, "loading stale fast", NONE, "connection", "Choose the one database"),
    Row("spec", 1, "fast", NONE, "connection", "Be answered ahead of the disk from now on"),
    Row("waitall", 1, "", NONE, "connection", "Wait until all that was answered ahead is on the disk"),
    Row("backup", 2, "admin noscript", NONE, "server", "Make a folder with all that is there, to start on"),
    Row("bgsave", -1, "admin noscript no_async_loading", NONE, "server", "Make a snapshot, and wait for nothing"),
    Row("command", -1, "loading stale", NONE, "server", "Get details of commands"),
    Row("config", -2, "", NONE, "server", "A container for commands of options"),
    Row("dbsize", 1, "readonly fast", NONE, "server", "Count all keys"),
    Row("flushall", 1, "write", NONE, "server", "Delete all keys"),
    Row("info", -1, "loading stale", NONE, "server", "Get counts of the server"),
    Row("latency", -2, "", NONE, "server", "A container for commands of latencies, of which none are kept"),
    Row("memory", -2, "", NONE, "server", "A container for commands of memory"),
    Row("save", 1, "admin noscript no_async_loading no_multi", NONE, "server", "Make a snapshot, and wait for it"),
    Row("slowlog", -2, "", NONE, "server", "A container for commands of slow commands, of which none are kept"),
    Row("snapshot", 1, "admin noscript", NONE, "server", "Make a snapshot, and wait for it"),
];

/// The row of a command.
pub fn row(name: &[u8]) -> Option<&'static Row> {
    TABLE.iter().find(|row| row.is_called(name))
}

impl Row {
    fn is_called(&self, name: &[u8]) -> bool {
        name.eq_ignore_ascii_case(self.0.as_bytes())
    }

    /// Whether it has so many words, with its name.
    pub fn takes(&self, words: usize) -> bool {
        are(words, self.1)
    }

    /// The kinds that it is of, as permissions have them.
    fn kinds(&self) -> Vec<Reply> {
        let Row(_, _, flags, _, kind, _) = self;
        let is = |flag| flags.split(' ').any(|it| it == flag);
        let kinds = [
            ("@read", is("readonly")),
            ("@write", is("write")),
            ("@string", *kind == "string"),
            ("@keyspace", *kind == "generic" || ["dbsize", "flushall"].contains(&self.0)),
            ("@connection", *kind == "connection"),
            ("@transaction", *kind == "transactions"),
            ("@admin", is("admin")),
            ("@fast", is("fast")),
            ("@slow", !is("fast")),
        ];
        kinds.into_iter().filter(|(_, is)| *is).map(|(kind, _)| Reply::Line(kind)).collect()
    }

    /// What it takes.
    fn told(&self) -> Reply {
        let Row(name, words, flags, (first, last, step), ..) = *self;
        let flags = flags.split(' ').filter(|flag| !flag.is_empty()).map(Reply::Line).collect();
        let none = || Reply::List(Vec::new());
        let [words, first, last, step] = [words, first, last, step].map(Reply::Number);
        let (flags, kinds) = (Reply::Set(flags), Reply::Set(self.kinds()));
        Reply::List(vec![bulk(name), words, flags, first, last, step, kinds, none(), none(), none()])
    }

    /// What it does.
    fn docs(&self) -> (Reply, Reply) {
        let Row(name, .., kind, summary) = self;
        let of = [("summary", *summary), ("since", env!("CARGO_PKG_VERSION")), ("group", *kind)];
        (bulk(*name), Reply::Map(of.map(|(name, it)| (bulk(name), bulk(it))).into()))
    }
}

/// The answer to `COMMAND`, with the words behind.
pub fn answer(words: &[&[u8]]) -> Result<Reply, Reply> {
    let all = || TABLE.iter();
    if words.is_empty() {
        return Ok(Reply::List(all().map(Row::told).collect()));
    }
    let (what, names) = (part("COMMAND", words, &PARTS)?, &words[1..]);
    let is_asked = |row: &&Row| names.is_empty() || names.iter().any(|name| row.is_called(name));
    Ok(match what {
        "COUNT" => Reply::Number(TABLE.len() as i64),
        "LIST" => Reply::List(all().map(|row| bulk(row.0)).collect()),
        "DOCS" => Reply::Map(all().filter(is_asked).map(Row::docs).collect()),
        _ if names.is_empty() => Reply::List(all().map(Row::told).collect()),
        _ => Reply::List(names.iter().map(|name| row(name).map_or(Reply::Null, Row::told)).collect()),
    })
}
