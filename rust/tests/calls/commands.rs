//! What each command replies, and what is replied between MULTI and EXEC.
use crate::clients::play;

/// What is replied where a text is no integer.
const NO_INTEGER: &[u8] = b"-ERR value is not an integer or out of range\r\n";

const SYNTAX: &[u8] = b"-ERR syntax error\r\n";

const NULL: &[u8] = b"$-1\r\n";

const OK: &[u8] = b"+OK\r\n";

const OF_ONE_KEY: &[(&[u8], &[u8])] = &[
    (b"PING\r\n", b"+PONG\r\n"),
    (b"ping hello\n", b"$5\r\nhello\r\n"),
    (b"PING a b\r\n", b"-ERR wrong number of arguments for 'ping' command\r\n"),
    (b"ECHO hi\r\n", b"$2\r\nhi\r\n"),
    (b"NOSUCH\r\n", b"-ERR unknown command\r\n"),
    (b"GET k\r\n", NULL),
    (b"SET k 10\r\n", OK),
    (b"GeT k\r\n", b"$2\r\n10\r\n"),
    (b"GET K\r\n", NULL),
    (b"SET k\r\n", b"-ERR wrong number of arguments for 'set' command\r\n"),
    (b"SET k v XX NX\r\n", SYNTAX),
    (b"SET k v soon\r\n", SYNTAX),
    (b"SET k 1 nx\r\n", NULL),
    (b"SET n 1 xx\r\n", NULL),
    (b"SET n 5 NX\r\n", OK),
    (b"SET n 6 GET XX\r\n", b"$1\r\n5\r\n"),
    (b"SET m 1 NX GET\r\n", NULL),
    (b"SET m 2 NX GET\r\n", b"$1\r\n1\r\n"),
    (b"GETSET m 3\r\n", b"$1\r\n1\r\n"),
    (b"GETSET x 1\r\n", NULL),
    (b"APPEND s abc\r\n", b":3\r\n"),
    (b"APPEND s def\r\n", b":6\r\n"),
    (b"GET s\r\n", b"$6\r\nabcdef\r\n"),
    (b"STRLEN s\r\n", b":6\r\n"),
    (b"STRLEN none\r\n", b":0\r\n"),
    (b"INCR s\r\n", NO_INTEGER),
];

#[test]
fn commands_of_one_key_are_replied_to() {
    play(OF_ONE_KEY);
}

const OF_NUMBERS: &[(&[u8], &[u8])] = &[
    (b"INCR n\r\n", b":1\r\n"),
    (b"DECR n\r\n", b":0\r\n"),
    (b"INCRBY n 16\r\n", b":16\r\n"),
    (b"DECRBY n 20\r\n", b":-4\r\n"),
    (b"INCRBY n -4\r\n", b":-8\r\n"),
    (b"INCRBY n 1.5\r\n", NO_INTEGER),
    (b"INCRBY n +1\r\n", NO_INTEGER),
    (b"INCRBY n 01\r\n", NO_INTEGER),
    (b"INCRBY n 9223372036854775808\r\n", NO_INTEGER),
    (b"GET n\r\n", b"$2\r\n-8\r\n"),
    (b"SET big 9223372036854775807\r\n", OK),
    (b"INCR big\r\n", b"-ERR increment or decrement would overflow\r\n"),
    (b"GET big\r\n", b"$19\r\n9223372036854775807\r\n"),
    (b"DECRBY big 9223372036854775807\r\n", b":0\r\n"),
];

#[test]
fn commands_of_numbers_are_replied_to() {
    play(OF_NUMBERS);
}

const OF_MANY_KEYS: &[(&[u8], &[u8])] = &[
    (b"MSET a 1 b 2 a 3\r\n", OK),
    (b"MGET a b c\r\n", b"*3\r\n$1\r\n3\r\n$1\r\n2\r\n$-1\r\n"),
    (b"MSET a\r\n", b"-ERR wrong number of arguments for 'mset' command\r\n"),
    (b"MSET a 1 b\r\n", b"-ERR wrong number of arguments for 'mset' command\r\n"),
    (b"EXISTS a a none\r\n", b":2\r\n"),
    (b"DEL a a none\r\n", b":1\r\n"),
    (b"DEL a\r\n", b":0\r\n"),
    (b"DBSIZE\r\n", b":1\r\n"),
    (b"DBSIZE now\r\n", b"-ERR wrong number of arguments for 'dbsize' command\r\n"),
    (b"MSET user:2 x other y user:1 z\r\n", OK),
    (b"DBSIZE\r\n", b":4\r\n"),
    (b"KEYS user:*\r\n", b"*2\r\n$6\r\nuser:1\r\n$6\r\nuser:2\r\n"),
    (b"KEYS *\r\n", b"*4\r\n$1\r\nb\r\n$5\r\nother\r\n$6\r\nuser:1\r\n$6\r\nuser:2\r\n"),
    (b"KEYS v*\r\n", b"*0\r\n"),
    (b"KEYS u?er*\r\n", b"-ERR only patterns of a prefix and '*' are known\r\n"),
    (b"KEYS user:1\r\n", b"-ERR only patterns of a prefix and '*' are known\r\n"),
    (b"FLUSHALL\r\n", OK),
    (b"DBSIZE\r\n", b":0\r\n"),
    (b"GET other\r\n", NULL),
    (b"KEYS *\r\n", b"*0\r\n"),
    (b"FLUSHALL\r\n", OK),
];

#[test]
fn commands_of_many_keys_are_replied_to() {
    play(OF_MANY_KEYS);
}

const QUEUED: &[u8] = b"+QUEUED\r\n";

const CARRIED_OUT: &[(&[u8], &[u8])] = &[
    (b"SET old 1\r\n", OK),
    (b"MULTI\r\n", OK),
    (b"SET a 1\r\n", QUEUED),
    (b"INCR a\r\n", QUEUED),
    (b"MULTI\r\n", b"-ERR MULTI calls can not be nested\r\n"),
    (b"DBSIZE\r\n", QUEUED),
    (b"KEYS *\r\n", QUEUED),
    (b"INCRBY a x\r\n", QUEUED),
    (
        b"exec\r\n",
        b"*5\r\n+OK\r\n:2\r\n:2\r\n*2\r\n$1\r\na\r\n$3\r\nold\r\n-ERR value is not an integer or out of range\r\n",
    ),
    (b"GET a\r\n", b"$1\r\n2\r\n"),
    (b"MULTI\r\n", OK),
    (b"FLUSHALL\r\n", QUEUED),
    (b"DBSIZE\r\n", QUEUED),
    (b"SET b 1\r\n", QUEUED),
    (b"DEL a b\r\n", QUEUED),
    (b"EXEC\r\n", b"*4\r\n+OK\r\n:0\r\n+OK\r\n:1\r\n"),
    (b"DBSIZE\r\n", b":0\r\n"),
    (b"MULTI\r\n", OK),
    (b"EXEC\r\n", b"*0\r\n"),
    (b"EXEC\r\n", b"-ERR EXEC without MULTI\r\n"),
];

#[test]
fn queue_is_carried_out_as_one() {
    play(CARRIED_OUT);
}

const DROPPED: &[(&[u8], &[u8])] = &[
    (b"DISCARD\r\n", b"-ERR DISCARD without MULTI\r\n"),
    (b"MULTI\r\n", OK),
    (b"SET a 1\r\n", QUEUED),
    (b"GET\r\n", b"-ERR wrong number of arguments for 'get' command\r\n"),
    (b"SET a 2\r\n", QUEUED),
    (b"EXEC\r\n", b"-EXECABORT Transaction discarded because of previous errors.\r\n"),
    (b"GET a\r\n", b"$-1\r\n"),
    (b"MULTI\r\n", OK),
    (b"SET a 3\r\n", QUEUED),
    (b"DISCARD\r\n", OK),
    (b"GET a\r\n", b"$-1\r\n"),
    (b"SET a 4\r\n", OK),
];

#[test]
fn queue_is_dropped_whole() {
    play(DROPPED);
}

/// The keys of a store, after each line.
const KEYS: &[(&[u8], &[u8])] = &[
    (b"MSET b 1 a 2 ab 3 b 4 B 5\r\n", OK),
    (b"KEYS *\r\n", b"*4\r\n$1\r\nB\r\n$1\r\na\r\n$2\r\nab\r\n$1\r\nb\r\n"),
    (b"MGET b c\r\n", b"*2\r\n$1\r\n4\r\n$-1\r\n"),
    (b"DEL a none\r\n", b":1\r\n"),
    (b"APPEND aa 6\r\n", b":1\r\n"),
    (b"KEYS *\r\n", b"*4\r\n$1\r\nB\r\n$2\r\naa\r\n$2\r\nab\r\n$1\r\nb\r\n"),
];

#[test]
fn keys_stand_in_the_order_of_their_bytes() {
    play(KEYS);
}

const RESERVED: &[u8] = b"-ERR a key begins as those that are kept for batches\r\n";

/// Keys that no command may name, and those that are nearly so.
const NAMED: &[(&[u8], &[u8])] = &[
    (b"GET \xffbatch\r\n", RESERVED),
    (b"GET batch\r\n", NULL),
    (b"GET \xffbat\r\n", NULL),
    (b"DEL a \xffbatch7\r\n", RESERVED),
    (b"MSET a \xffbatch\r\n", OK),
    (b"MSET a 1 \xffbatch 2\r\n", RESERVED),
    (b"GET a\r\n", b"$6\r\n\xffbatch\r\n"),
    (b"KEYS \xffbatch*\r\n", b"*0\r\n"),
    (b"MULTI\r\n", OK),
    (b"SET a \xffbatch\r\n", QUEUED),
    (b"APPEND \xffbatch 1\r\n", QUEUED),
    (b"EXEC\r\n", RESERVED),
];

#[test]
fn keys_of_batches_are_reserved() {
    play(NAMED);
}
