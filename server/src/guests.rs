//! What clients say and ask of themselves and of others, by `CLIENT`.
use crate::door::{Guest, Wait};
use crate::resp::{bulk, error, part, plain, Reply, OK};
use crate::server::Server;
use crate::trusted::channels::Client;

/// What a client may say, and how many words that has.
const PARTS: [(&str, i64); 9] = [
    ("GETNAME", 2),
    ("ID", 2),
    ("INFO", 2),
    ("KILL", -3),
    ("LIST", -2),
    ("NO-EVICT", 3),
    ("NO-TOUCH", 3),
    ("SETINFO", 4),
    ("SETNAME", 3),
];

fn syntax<T>() -> Result<T, Reply> {
    Err(error("syntax error"))
}

/// A client, as it is asked for.
enum Which<'a> {
    Id(u64),
    Address(&'a [u8]),
    OwnAddress(&'a [u8]),
    /// None is of another user, or of another kind, than these.
    User(&'a [u8]),
    Kind(&'a [u8]),
}

/// Whom the words behind `CLIENT KILL` mean, and whether who says so is left out.
fn meant<'a>(words: &[&'a [u8]]) -> Result<(Vec<Which<'a>>, bool), Reply> {
    let (mut all, mut skips_self) = (Vec::new(), true);
    for pair in words.chunks(2) {
        let [name, value] = *pair else { return syntax() };
        let is_yes = value.eq_ignore_ascii_case(b"YES");
        all.push(match name.to_ascii_uppercase().as_slice() {
            b"ID" => Which::Id(number(value).ok_or_else(|| error("client-id should be greater than 0"))?),
            b"ADDR" => Which::Address(value),
            b"LADDR" => Which::OwnAddress(value),
            b"USER" => Which::User(value),
            b"TYPE" => Which::Kind(value),
            b"SKIPME" if is_yes || value.eq_ignore_ascii_case(b"NO") => {
                skips_self = is_yes;
                continue;
            }
            _ => return syntax(),
        });
    }
    Ok((all, skips_self))
}

fn number(word: &[u8]) -> Option<u64> {
    std::str::from_utf8(word).ok()?.parse().ok().filter(|number| *number > 0)
}

impl Which<'_> {
    fn is(&self, client: &Client) -> bool {
        let [far, near] = client.ends();
        match self {
            Which::Id(id) => client.guest.id == *id,
            Which::Address(at) => far.as_bytes() == *at,
            Which::OwnAddress(at) => near.as_bytes() == *at,
            Which::User(name) => *name == b"default",
            Which::Kind(kind) => kind.eq_ignore_ascii_case(b"normal"),
        }
    }
}

/// Takes a name for a client, which is one word.
pub fn named(word: &[u8]) -> Result<Vec<u8>, Reply> {
    if word.iter().all(u8::is_ascii_graphic) {
        return Ok(word.into());
    }
    Err(error("Client names cannot contain spaces, newlines or special characters."))
}

/// A line that says what is known of a client.
fn line(client: &Client) -> String {
    let ([far, near], guest, (waits, _)) = (client.ends(), &client.guest, client.waits());
    let Guest { id, born, heard, library, asks, .. } = guest;
    let flags = if guest.queue.is_some() { 'x' } else { 'N' };
    let events = [asks.0.then_some('r'), asks.1.then_some('w')].into_iter().flatten().collect::<String>();
    let (age, idle, resp) = (born.elapsed().as_secs(), heard.elapsed().as_secs(), guest.version().number());
    let (fd, name, unfed) = (client.fd(), plain(&guest.name), client.unfed());
    let [library, version] = library;
    format!(
        "id={id} addr={far} laddr={near} fd={fd} name={name} age={age} idle={idle} flags={flags} db=0 sub=0 psub=0 ssub=0 \
         qbuf={unfed} omem={waits} events={events} user=default redir=-1 resp={resp} lib-name={library} lib-ver={version}\n"
    )
}

impl Server {
    /// Answers `CLIENT`, with the words behind.
    pub fn of_clients(&mut self, channel: u16, words: &[&[u8]]) -> Result<Reply, Reply> {
        let what = part("CLIENT", words, &PARTS)?;
        let Some(client) = self.channels.client(channel) else { return syntax() };
        let guest = &mut client.guest;
        let rest = &words[1..];
        match (what, rest) {
            ("ID", _) => return Ok(Reply::Number(guest.id as i64)),
            ("INFO", _) => return Ok(Reply::Text(line(client))),
            ("GETNAME", _) if guest.name.is_empty() => return Ok(Reply::Null),
            ("GETNAME", _) => return Ok(bulk(guest.name.clone())),
            ("SETNAME", [name]) => guest.name = named(name)?,
            ("SETINFO", [what, word]) => {
                let place = [&b"LIB-NAME"[..], b"LIB-VER"].iter().position(|it| what.eq_ignore_ascii_case(it));
                let place = place.ok_or_else(|| error(format!("Unrecognized option '{}'", plain(what))))?;
                guest.library[place] = plain(&named(word)?);
            }
            ("NO-EVICT" | "NO-TOUCH", [word])
                if [&b"ON"[..], b"OFF"].iter().any(|it| word.eq_ignore_ascii_case(it)) => {}
            ("LIST", _) => return self.listed(rest),
            ("KILL", _) => return self.kill(channel, rest),
            _ => return syntax(),
        }
        Ok(OK)
    }

    /// All clients, a line for each; or those of a kind, or of these numbers.
    fn listed(&self, words: &[&[u8]]) -> Result<Reply, Reply> {
        let is_first = |name: &[u8]| words.first().is_some_and(|word| word.eq_ignore_ascii_case(name));
        let ids: Vec<u64> = words.iter().skip(1).filter_map(|word| number(word)).collect();
        let is_asked = |client: &Client| match words.len() {
            0 => true,
            _ if is_first(b"ID") => ids.contains(&client.guest.id),
            _ => words[1].eq_ignore_ascii_case(b"normal"),
        };
        match words.len() {
            0 => (),
            2.. if is_first(b"ID") && ids.len() == words.len() - 1 => (),
            2 if is_first(b"TYPE") => (),
            _ if is_first(b"ID") => return Err(error("Invalid client ID")),
            _ => return syntax(),
        }
        Ok(Reply::Text(self.channels.clients().map(|(_, it)| it).filter(|it| is_asked(it)).map(line).collect()))
    }

    /// Ends the connections that are meant; who says so is told it first.
    fn kill(&mut self, channel: u16, words: &[&[u8]]) -> Result<Reply, Reply> {
        let (is_old, address) = (words.len() == 1, words[0]);
        let (which, skips_self) = if is_old { (vec![Which::Address(address)], false) } else { meant(words)? };
        let is_meant = |(it, client): &(u16, &Client)| {
            !(skips_self && *it == channel) && which.iter().all(|which| which.is(client))
        };
        let killed: Vec<u16> = self.channels.clients().filter(is_meant).map(|(it, _)| it).collect();
        for it in &killed {
            if *it == channel {
                self.end(channel);
            } else {
                self.lose(*it);
            }
        }
        match (is_old, killed.len()) {
            (true, 0) => Err(error("No such client")),
            (true, _) => Ok(OK),
            (false, count) => Ok(Reply::Number(count as i64)),
        }
    }

    /// Has a client answered once all before is decided.
    pub fn waits(&mut self, channel: u16, wait: Wait) {
        let batch = self.batch();
        if let Some(guest) = self.guest(channel) {
            guest.waits = Some((batch, wait));
            self.house.waiting.push(channel);
        }
    }
}
