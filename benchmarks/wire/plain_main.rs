//! Encodes and decodes the messages between nodes and from clients in plain Rust, on std alone. It
//! does what `craq_wire` and `craq_frames` do, without proofs, and is there to compare speeds with.
use std::time::Instant;

struct BadFrame;

type Read<T> = Result<T, BadFrame>;

struct Reader<'a> {
    rest: &'a [u8],
}

impl<'a> Reader<'a> {
    fn bytes(&mut self, count: usize) -> Read<&'a [u8]> {
        if self.rest.len() < count {
            return Err(BadFrame);
        }
        let (front, rest) = self.rest.split_at(count);
        self.rest = rest;
        Ok(front)
    }

    fn u8(&mut self) -> Read<u8> {
        Ok(self.bytes(1)?[0])
    }

    fn u16(&mut self) -> Read<u16> {
        Ok(u16::from_be_bytes(self.bytes(2)?.try_into().unwrap()))
    }

    fn u32(&mut self) -> Read<u32> {
        Ok(u32::from_be_bytes(self.bytes(4)?.try_into().unwrap()))
    }

    fn u64(&mut self) -> Read<u64> {
        Ok(u64::from_be_bytes(self.bytes(8)?.try_into().unwrap()))
    }

    fn positive(&mut self) -> Read<u64> {
        match self.u64()? {
            0 => Err(BadFrame),
            n => Ok(n),
        }
    }

    fn key(&mut self) -> Read<Vec<u8>> {
        match self.u8()? as usize {
            len @ 1..=128 => Ok(self.bytes(len)?.to_vec()),
            _ => Err(BadFrame),
        }
    }

    fn value(&mut self) -> Read<Vec<u8>> {
        match self.u16()? as usize {
            len @ 0..=4096 => Ok(self.bytes(len)?.to_vec()),
            _ => Err(BadFrame),
        }
    }

    fn object(&mut self) -> Read<(u16, Vec<u8>)> {
        Ok((self.u16()?, self.key()?))
    }

    fn many<T>(&mut self, count: usize, one: impl Fn(&mut Self) -> Read<T>) -> Read<Vec<T>> {
        let mut items = Vec::new();
        for _ in 0..count {
            items.push(one(self)?);
        }
        Ok(items)
    }
}

fn put_key(out: &mut Vec<u8>, key: &[u8]) {
    out.push(key.len() as u8);
    out.extend_from_slice(key);
}

fn put_value(out: &mut Vec<u8>, value: &[u8]) {
    out.extend_from_slice(&(value.len() as u16).to_be_bytes());
    out.extend_from_slice(value);
}

fn put_object(out: &mut Vec<u8>, object: &(u16, Vec<u8>)) {
    out.extend_from_slice(&object.0.to_be_bytes());
    put_key(out, &object.1);
}

fn put_u64(out: &mut Vec<u8>, n: u64) {
    out.extend_from_slice(&n.to_be_bytes());
}

fn put_u32(out: &mut Vec<u8>, n: u32) {
    out.extend_from_slice(&n.to_be_bytes());
}

// ---- messages between nodes

enum Reply {
    Written(u64),
    Mismatch(u64),
    TooLong,
    NotANumber,
    Overflow,
    Underflow,
    Done(Vec<(u64, Vec<u8>)>),
    CompareFailed(u8),
    Stale(u64),
}

struct Entry {
    position: u64,
    origin_node: u32,
    origin_ticket: u64,
    client: u64,
    number: u64,
    reply: Reply,
    writes: Vec<(Vec<u8>, u64, Vec<u8>)>,
}

enum Body {
    Config(Vec<u32>),
    Entry(Entry),
    Ack(u64),
    Query(u64, Vec<u8>),
    VersionIs(u64, u64),
    Blank(u64),
    Copy {
        position: u64,
        objects: Vec<(Vec<u8>, (u64, Vec<u8>))>,
        kept: Vec<(u64, (u64, Reply))>,
    },
    Floor(u64),
}

struct LinkMessage {
    chain: u16,
    sender: u32,
    receiver: u32,
    stamp: u64,
    index: u32,
    epoch: u64,
    body: Body,
}

fn read_reply(r: &mut Reader) -> Read<Reply> {
    Ok(match r.u8()? {
        1 => Reply::Written(r.u64()?),
        2 => Reply::Mismatch(r.u64()?),
        3 => Reply::TooLong,
        4 => Reply::NotANumber,
        5 => Reply::Overflow,
        6 => Reply::Underflow,
        7 => {
            let count = r.u8()? as usize;
            Reply::Done(r.many(count, |r| Ok((r.u64()?, r.value()?)))?)
        }
        8 => Reply::CompareFailed(r.u8()?),
        9 => Reply::Stale(r.positive()?),
        _ => return Err(BadFrame),
    })
}

fn read_entry(r: &mut Reader) -> Read<Entry> {
    let position = r.u64()?;
    let origin_node = r.u32()?;
    let origin_ticket = r.u64()?;
    let client = r.u64()?;
    let number = r.positive()?;
    let reply = read_reply(r)?;
    let count = r.u8()? as usize;
    let writes = r.many(count, |r| Ok((r.key()?, r.u64()?, r.value()?)))?;
    Ok(Entry { position, origin_node, origin_ticket, client, number, reply, writes })
}

fn read_body(r: &mut Reader, kind: u8) -> Read<Body> {
    Ok(match kind {
        1 => {
            let count = r.u8()? as usize;
            Body::Config(r.many(count, |r| r.u32())?)
        }
        2 => Body::Entry(read_entry(r)?),
        3 => Body::Ack(r.u64()?),
        4 => Body::Query(r.u64()?, r.key()?),
        5 => Body::VersionIs(r.u64()?, r.u64()?),
        6 => Body::Blank(r.u64()?),
        7 => {
            let position = r.u64()?;
            let count = r.u32()? as usize;
            let objects = r.many(count, |r| Ok((r.key()?, (r.u64()?, r.value()?))))?;
            let count = r.u32()? as usize;
            let kept = r.many(count, |r| Ok((r.u64()?, (r.positive()?, read_reply(r)?))))?;
            Body::Copy { position, objects, kept }
        }
        8 => Body::Floor(r.u64()?),
        _ => return Err(BadFrame),
    })
}

fn is_reply(reply: &Reply) -> bool {
    match reply {
        Reply::Written(version) => *version >= 1,
        Reply::Done(objects) => {
            objects.len() <= 16 && objects.iter().all(|o| o.0 != 0 || o.1.is_empty())
        }
        Reply::CompareFailed(place) => *place < 16,
        _ => true,
    }
}

fn is_fresh(reply: &Reply) -> bool {
    !matches!(reply, Reply::Stale(_))
}

fn stands_twice<T>(items: &[T], same: impl Fn(&T, &T) -> bool) -> bool {
    (0..items.len()).any(|i| items[i + 1..].iter().any(|other| same(&items[i], other)))
}

fn is_entry(e: &Entry) -> bool {
    e.position >= 1
        && e.origin_node >= 1
        && e.origin_ticket >= 1
        && is_reply(&e.reply)
        && is_fresh(&e.reply)
        && e.writes.len() <= 16
        && e.writes.iter().all(|w| w.1 >= 1)
        && !stands_twice(&e.writes, |a, b| a.0 == b.0)
}

fn is_spelled(m: &LinkMessage) -> bool {
    let of_its_sender = match m.body {
        Body::Config(_) => m.sender == 0,
        _ => m.sender >= 1,
    };
    let said = match &m.body {
        Body::Config(members) => {
            !members.is_empty()
                && members.len() <= 8
                && members.iter().all(|id| *id >= 1)
                && !stands_twice(members, |a, b| a == b)
        }
        Body::Entry(entry) => is_entry(entry),
        Body::Query(ticket, _) | Body::VersionIs(ticket, _) => *ticket >= 1,
        Body::Copy { position, objects, kept } => {
            *position >= 1
                && objects.iter().all(|o| o.1.0 >= 1)
                && kept.iter().all(|k| is_reply(&k.1.1) && is_fresh(&k.1.1))
                && objects.windows(2).all(|w| w[0].0 < w[1].0)
                && kept.windows(2).all(|w| w[0].0 < w[1].0)
        }
        Body::Ack(_) | Body::Blank(_) | Body::Floor(_) => true,
    };
    of_its_sender && m.receiver >= 1 && m.stamp >= 1 && m.epoch >= 1 && said
}

fn decode_link(bytes: &[u8]) -> Read<LinkMessage> {
    let mut r = Reader { rest: bytes };
    let version = r.u8()?;
    let kind = r.u8()?;
    let chain = r.u16()?;
    let sender = r.u32()?;
    let receiver = r.u32()?;
    let stamp = r.u64()?;
    let index = r.u32()?;
    let epoch = r.u64()?;
    if version != 1 {
        return Err(BadFrame);
    }
    let body = read_body(&mut r, kind)?;
    let message = LinkMessage { chain, sender, receiver, stamp, index, epoch, body };
    if r.rest.is_empty() && is_spelled(&message) { Ok(message) } else { Err(BadFrame) }
}

fn put_reply(out: &mut Vec<u8>, reply: &Reply) {
    match reply {
        Reply::Written(version) => {
            out.push(1);
            put_u64(out, *version);
        }
        Reply::Mismatch(version) => {
            out.push(2);
            put_u64(out, *version);
        }
        Reply::TooLong => out.push(3),
        Reply::NotANumber => out.push(4),
        Reply::Overflow => out.push(5),
        Reply::Underflow => out.push(6),
        Reply::Done(objects) => {
            out.push(7);
            out.push(objects.len() as u8);
            for (version, value) in objects {
                put_u64(out, *version);
                put_value(out, value);
            }
        }
        Reply::CompareFailed(place) => {
            out.push(8);
            out.push(*place);
        }
        Reply::Stale(last) => {
            out.push(9);
            put_u64(out, *last);
        }
    }
}

fn put_entry(out: &mut Vec<u8>, e: &Entry) {
    put_u64(out, e.position);
    put_u32(out, e.origin_node);
    put_u64(out, e.origin_ticket);
    put_u64(out, e.client);
    put_u64(out, e.number);
    put_reply(out, &e.reply);
    out.push(e.writes.len() as u8);
    for (key, version, value) in &e.writes {
        put_key(out, key);
        put_u64(out, *version);
        put_value(out, value);
    }
}

fn kind(body: &Body) -> u8 {
    match body {
        Body::Config(_) => 1,
        Body::Entry(_) => 2,
        Body::Ack(_) => 3,
        Body::Query(..) => 4,
        Body::VersionIs(..) => 5,
        Body::Blank(_) => 6,
        Body::Copy { .. } => 7,
        Body::Floor(_) => 8,
    }
}

fn encode_link(m: &LinkMessage) -> Vec<u8> {
    let mut buffer = Vec::new();
    let out = &mut buffer;
    out.push(1);
    out.push(kind(&m.body));
    out.extend_from_slice(&m.chain.to_be_bytes());
    put_u32(out, m.sender);
    put_u32(out, m.receiver);
    put_u64(out, m.stamp);
    put_u32(out, m.index);
    put_u64(out, m.epoch);
    match &m.body {
        Body::Config(members) => {
            out.push(members.len() as u8);
            for id in members {
                put_u32(out, *id);
            }
        }
        Body::Entry(entry) => put_entry(out, entry),
        Body::Ack(n) | Body::Blank(n) | Body::Floor(n) => put_u64(out, *n),
        Body::Query(ticket, key) => {
            put_u64(out, *ticket);
            put_key(out, key);
        }
        Body::VersionIs(ticket, version) => {
            put_u64(out, *ticket);
            put_u64(out, *version);
        }
        Body::Copy { position, objects, kept } => {
            put_u64(out, *position);
            put_u32(out, objects.len() as u32);
            for (key, (version, value)) in objects {
                put_key(out, key);
                put_u64(out, *version);
                put_value(out, value);
            }
            put_u32(out, kept.len() as u32);
            for (client, (number, reply)) in kept {
                put_u64(out, *client);
                put_u64(out, *number);
                put_reply(out, reply);
            }
        }
    }
    buffer
}

// ---- requests from clients

type Object = (u16, Vec<u8>);

enum Command {
    Put(Object, Vec<u8>),
    TestAndSet(Object, u64, Vec<u8>),
    Append(Object, Vec<u8>),
    Prepend(Object, Vec<u8>),
    Increment(Object, u64),
    Decrement(Object, u64),
    Mini(Vec<(Object, u64)>, Vec<Object>, Vec<(Object, Vec<u8>)>),
}

enum Mode {
    Strong,
    Eventual,
    Bounded(u32),
}

enum ClientMessage {
    Update { node: u32, pass: u64, client: u64, number: u64, command: Command },
    Read { node: u32, pass: u64, mode: Mode, object: Object },
    Status,
}

fn read_mini(r: &mut Reader) -> Read<Command> {
    let count = r.u8()? as usize;
    let compares = r.many(count, |r| Ok((r.object()?, r.u64()?)))?;
    let count = r.u8()? as usize;
    let reads = r.many(count, |r| r.object())?;
    let count = r.u8()? as usize;
    let writes = r.many(count, |r| Ok((r.object()?, r.value()?)))?;
    let most = compares.len().max(reads.len()).max(writes.len());
    let twice = stands_twice(&compares, |a, b| a.0 == b.0)
        || stands_twice(&reads, |a, b| a == b)
        || stands_twice(&writes, |a, b| a.0 == b.0);
    if most == 0 || most > 16 || twice {
        return Err(BadFrame);
    }
    Ok(Command::Mini(compares, reads, writes))
}

fn read_command(r: &mut Reader) -> Read<Command> {
    Ok(match r.u8()? {
        1 => Command::Put(r.object()?, r.value()?),
        2 => Command::TestAndSet(r.object()?, r.u64()?, r.value()?),
        3 => Command::Append(r.object()?, r.value()?),
        4 => Command::Prepend(r.object()?, r.value()?),
        5 => Command::Increment(r.object()?, r.u64()?),
        6 => Command::Decrement(r.object()?, r.u64()?),
        7 => read_mini(r)?,
        _ => return Err(BadFrame),
    })
}

fn read_mode(r: &mut Reader) -> Read<Mode> {
    Ok(match r.u8()? {
        1 => Mode::Strong,
        2 => Mode::Eventual,
        3 => Mode::Bounded(r.u32()?),
        _ => return Err(BadFrame),
    })
}

fn decode_client(bytes: &[u8]) -> Read<ClientMessage> {
    let mut r = Reader { rest: bytes };
    let version = r.u8()?;
    let kind = r.u8()?;
    if version != 1 {
        return Err(BadFrame);
    }
    let message = match kind {
        1 => ClientMessage::Update {
            node: r.u32()?,
            pass: r.u64()?,
            client: r.u64()?,
            number: r.positive()?,
            command: read_command(&mut r)?,
        },
        2 => ClientMessage::Read {
            node: r.u32()?,
            pass: r.u64()?,
            mode: read_mode(&mut r)?,
            object: r.object()?,
        },
        3 => ClientMessage::Status,
        _ => return Err(BadFrame),
    };
    if r.rest.is_empty() { Ok(message) } else { Err(BadFrame) }
}

fn put_command(out: &mut Vec<u8>, command: &Command) {
    match command {
        Command::Put(object, value) => {
            out.push(1);
            put_object(out, object);
            put_value(out, value);
        }
        Command::TestAndSet(object, expect, value) => {
            out.push(2);
            put_object(out, object);
            put_u64(out, *expect);
            put_value(out, value);
        }
        Command::Append(object, value) => {
            out.push(3);
            put_object(out, object);
            put_value(out, value);
        }
        Command::Prepend(object, value) => {
            out.push(4);
            put_object(out, object);
            put_value(out, value);
        }
        Command::Increment(object, by) => {
            out.push(5);
            put_object(out, object);
            put_u64(out, *by);
        }
        Command::Decrement(object, by) => {
            out.push(6);
            put_object(out, object);
            put_u64(out, *by);
        }
        Command::Mini(compares, reads, writes) => {
            out.push(7);
            out.push(compares.len() as u8);
            for (object, version) in compares {
                put_object(out, object);
                put_u64(out, *version);
            }
            out.push(reads.len() as u8);
            for object in reads {
                put_object(out, object);
            }
            out.push(writes.len() as u8);
            for (object, value) in writes {
                put_object(out, object);
                put_value(out, value);
            }
        }
    }
}

fn encode_client(m: &ClientMessage) -> Vec<u8> {
    let mut buffer = Vec::new();
    let out = &mut buffer;
    out.push(1);
    match m {
        ClientMessage::Update { node, pass, client, number, command } => {
            out.push(1);
            put_u32(out, *node);
            put_u64(out, *pass);
            put_u64(out, *client);
            put_u64(out, *number);
            put_command(out, command);
        }
        ClientMessage::Read { node, pass, mode, object } => {
            out.push(2);
            put_u32(out, *node);
            put_u64(out, *pass);
            match mode {
                Mode::Strong => out.push(1),
                Mode::Eventual => out.push(2),
                Mode::Bounded(above) => {
                    out.push(3);
                    put_u32(out, *above);
                }
            }
            put_object(out, object);
        }
        ClientMessage::Status => out.push(3),
    }
    buffer
}

// ---- the measurement

/// The entry of a put of `a` on `k`, of 91 bytes.
const ENTRY: [u8; 91] = [
    1, 2, 0, 0, 0, 0, 0, 1, 0, 0, 0, 2, 0, 0, 0, 0, 0, 0, 0, 1, 0, 0, 0, 0, 0, 0, 0, 0, 0, 0, 0, 1,
    0, 0, 0, 0, 0, 0, 0, 1, 0, 0, 0, 1, 0, 0, 0, 0, 0, 0, 0, 1, 0, 0, 0, 0, 0, 0, 0, 1, 0, 0, 0, 0,
    0, 0, 0, 1, 1, 0, 0, 0, 0, 0, 0, 0, 1, 1, 1, 107, 0, 0, 0, 0, 0, 0, 0, 1, 0, 1, 97,
];

/// A put of 53 bytes on `k`, of 90 bytes.
fn put() -> [u8; 90] {
    let mut bytes = [b'a'; 90];
    bytes[..37].copy_from_slice(&[
        1, 1, 0, 0, 0, 1, 0, 0, 0, 0, 0, 0, 0, 0, 0, 0, 0, 0, 0, 0, 0, 1, 0, 0, 0, 0, 0, 0, 0, 1,
        1, 0, 0, 1, 107, 0, 53,
    ]);
    bytes
}

fn measure(name: &str, count: u64, place: usize, bytes: &mut [u8], again: fn(&[u8]) -> Read<Vec<u8>>) {
    let start = Instant::now();
    let mut same: u64 = 0;
    for i in 0..count {
        bytes[place] = (i % 255) as u8 + 1;
        match again(bytes) {
            Ok(written) => same += u64::from(written == *bytes),
            Err(BadFrame) => panic!("no message"),
        }
    }
    println!("{name} {} {same}", start.elapsed().as_nanos());
}

fn link_again(bytes: &[u8]) -> Read<Vec<u8>> {
    Ok(encode_link(&decode_link(bytes)?))
}

fn client_again(bytes: &[u8]) -> Read<Vec<u8>> {
    Ok(encode_client(&decode_client(bytes)?))
}

fn main() {
    let count = std::env::args().nth(1).and_then(|word| word.parse().ok()).unwrap_or(1000);
    measure("entry", count, 19, &mut ENTRY.clone(), link_again);
    measure("put", count, 29, &mut put(), client_again);
}
