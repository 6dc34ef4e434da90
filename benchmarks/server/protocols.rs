//! The requests and replies of each server, for the load client.

use std::io::{Error, ErrorKind, Result};

/// The members of each chain of `craqd`; the first is its head.
const NODES: [u32; 3] = [1, 2, 3];
/// The number of puts in one request of `many`.
const MANY: usize = 8;
/// The length of a key in bytes.
const KEY: usize = 16;

#[derive(Clone, Copy, PartialEq)]
pub enum Kind {
    Read,
    Put,
    /// Eight puts together.
    Many,
}

impl Kind {
    /// Returns the number of commands in a request.
    fn times(self) -> usize {
        if self == Kind::Many { MANY } else { 1 }
    }
}

/// The nodes of `craqd` that answer reads.
#[derive(Clone, Copy, PartialEq)]
pub enum Readers {
    Head,
    /// Each of the three nodes, for a third of the connections.
    All,
}

/// The server and the data of a run, common to all connections.
#[derive(Clone)]
pub struct Setting {
    /// `craq`, `redis`, `memcached` or `etcd`.
    pub server: String,
    /// Bytes of a value.
    pub size: usize,
    /// Chains of `craqd`, by which the keys are spread; at least 1.
    pub chains: u64,
    /// Keys, from 0; at least 1.
    pub keys: u64,
}

/// A sequence of pseudo-random keys below a bound, by xorshift.
pub struct Keys {
    state: u64,
    bound: u64,
}

impl Keys {
    pub fn new(seed: u64, bound: u64) -> Keys {
        Keys { state: (seed + 1).wrapping_mul(0x9E37_79B9_7F4A_7C15), bound }
    }

    pub fn next(&mut self) -> u64 {
        self.state ^= self.state << 13;
        self.state ^= self.state >> 7;
        self.state ^= self.state << 17;
        self.state % self.bound
    }
}

/// The requests of one connection in a server's protocol.
pub trait Protocol: Send {
    /// Appends a request of this kind, framed. Each of its commands takes the next key.
    fn request(&mut self, kind: Kind, keys: &mut dyn FnMut() -> u64, out: &mut Vec<u8>);
    /// Returns the length of the reply that begins with these bytes, or `None` if more of them are needed.
    fn size(&self, kind: Kind, begun: &[u8]) -> Option<usize>;
    /// Checks a whole reply to the last request. Fails on any other reply than success with the expected value.
    fn take(&mut self, kind: Kind, reply: &[u8]) -> Result<()>;
}

/// Returns the protocol of a connection. `client` is unique among all writers of a server.
pub fn protocol(setting: &Setting, readers: Readers, at: usize, client: u64) -> Box<dyn Protocol> {
    let value = value(setting.size);
    match setting.server.as_str() {
        "redis" => Box::new(Words::of_redis(value)),
        "memcached" => Box::new(Words::of_memcached(value)),
        "etcd" => Box::new(Etcd { value: base64(&value) }),
        _ => {
            let node = if readers == Readers::All { NODES[at % NODES.len()] } else { NODES[0] };
            Box::new(Craq { value, chains: setting.chains, node, client, number: 0, pass: 0 })
        }
    }
}

fn bad(reply: &[u8]) -> Error {
    Error::new(ErrorKind::InvalidData, format!("an unexpected reply: {:02x?}", &reply[..reply.len().min(200)]))
}

/// Returns the bytes of a key: `key:` and twelve digits.
fn key(mut index: u64) -> [u8; KEY] {
    let mut bytes = *b"key:000000000000";
    for at in (4..KEY).rev() {
        bytes[at] += (index % 10) as u8;
        index /= 10;
    }
    bytes
}

fn value(size: usize) -> Vec<u8> {
    b"sixteen letters.".iter().copied().cycle().take(size).collect()
}

/// Requests of version 1, and of version 2 for eight puts together, as docs/use/BYTES.md has them. Puts go to the head.
struct Craq {
    value: Vec<u8>,
    chains: u64,
    node: u32,
    client: u64,
    number: u64,
    pass: u64,
}

impl Craq {
    fn body(&mut self, is_put: bool, index: u64, out: &mut Vec<u8>) {
        let node = if is_put { NODES[0] } else { self.node };
        out.extend(node.to_be_bytes());
        out.extend(self.pass.to_be_bytes());
        if is_put {
            self.number += 1;
            out.extend(self.client.to_be_bytes());
            out.extend(self.number.to_be_bytes());
        }
        // The tag of Put, and of a strong read.
        out.push(1);
        out.extend(((index % self.chains) as u16).to_be_bytes());
        out.push(KEY as u8);
        out.extend(key(index));
        if is_put {
            out.extend((self.value.len() as u16).to_be_bytes());
            out.extend(&self.value);
        }
    }

    /// Returns the pass that begins at this place of a reply.
    fn pass_at(reply: &[u8], at: usize) -> Option<u64> {
        Some(u64::from_be_bytes(*reply.get(at..)?.first_chunk()?))
    }
}

impl Protocol for Craq {
    fn request(&mut self, kind: Kind, keys: &mut dyn FnMut() -> u64, out: &mut Vec<u8>) {
        let at = out.len();
        out.extend([0; 4]);
        match kind {
            Kind::Read => out.extend([1, 2]),
            Kind::Put => out.extend([1, 1]),
            Kind::Many => out.extend([2, 4, MANY as u8]),
        }
        for _ in 0..kind.times() {
            if kind == Kind::Many {
                out.push(1);
            }
            self.body(kind != Kind::Read, keys(), out);
        }
        let len = (out.len() - at - 4) as u32;
        out[at..at + 4].copy_from_slice(&len.to_be_bytes());
    }

    fn size(&self, _kind: Kind, begun: &[u8]) -> Option<usize> {
        let len = begun.first_chunk::<4>()?;
        Some(4 + u32::from_be_bytes(*len) as usize)
    }

    fn take(&mut self, kind: Kind, reply: &[u8]) -> Result<()> {
        let (is_wanted, at) = match kind {
            Kind::Read => (reply.len() == 24 + self.value.len() && reply[4..6] == [1, 2] && reply[24..] == self.value, 6),
            Kind::Put => (reply.len() == 23 && reply[4..6] == [1, 1] && reply[14] == 1, 6),
            Kind::Many => {
                let all = reply.get(7..).unwrap_or_default().chunks(18);
                let are_wanted = reply.len() == 7 + 18 * MANY && all.clone().all(|it| it[0] == 1 && it[9] == 1);
                (are_wanted && reply[4..7] == [2, 5, MANY as u8], 8 + 18 * (MANY - 1))
            }
        };
        match Craq::pass_at(reply, at) {
            Some(pass) if is_wanted => self.pass = pass,
            _ => return Err(bad(reply)),
        }
        Ok(())
    }
}

/// GET and SET of redis, or `get` and `set` of memcached's text protocol.
struct Words {
    /// The bytes before and behind the key of a read, and of a put.
    read: (Vec<u8>, Vec<u8>),
    put: (Vec<u8>, Vec<u8>),
    /// The reply to a read, and the place of the key in it if it has one.
    found: Vec<u8>,
    key_at: Option<usize>,
    /// The reply to a put.
    done: Vec<u8>,
    /// The first byte of a refusal.
    refusal: u8,
}

impl Words {
    fn of_redis(value: Vec<u8>) -> Words {
        let size = value.len();
        let with = |begin: String| [begin.as_bytes(), &value, b"\r\n"].concat();
        Words {
            read: (format!("*2\r\n$3\r\nGET\r\n${KEY}\r\n").into_bytes(), b"\r\n".to_vec()),
            put: (format!("*3\r\n$3\r\nSET\r\n${KEY}\r\n").into_bytes(), with(format!("\r\n${size}\r\n"))),
            found: with(format!("${size}\r\n")),
            key_at: None,
            done: b"+OK\r\n".to_vec(),
            refusal: b'-',
        }
    }

    fn of_memcached(value: Vec<u8>) -> Words {
        let (size, blank) = (value.len(), " ".repeat(KEY));
        Words {
            read: (b"get ".to_vec(), b"\r\n".to_vec()),
            put: (b"set ".to_vec(), [format!(" 0 0 {size}\r\n").as_bytes(), &value, b"\r\n"].concat()),
            found: [format!("VALUE {blank} 0 {size}\r\n").as_bytes(), &value, b"\r\nEND\r\n"].concat(),
            key_at: Some(6),
            done: b"STORED\r\n".to_vec(),
            refusal: b'E',
        }
    }

    fn reply(&self, kind: Kind) -> Vec<u8> {
        if kind == Kind::Read { self.found.clone() } else { self.done.repeat(kind.times()) }
    }
}

impl Protocol for Words {
    fn request(&mut self, kind: Kind, keys: &mut dyn FnMut() -> u64, out: &mut Vec<u8>) {
        for _ in 0..kind.times() {
            let key = key(keys());
            let (before, behind) = if kind == Kind::Read { &self.read } else { &self.put };
            out.extend(before);
            out.extend(key);
            out.extend(behind);
            if let Some(at) = self.key_at {
                self.found[at..at + KEY].copy_from_slice(&key);
            }
        }
    }

    fn size(&self, kind: Kind, begun: &[u8]) -> Option<usize> {
        // A refusal, and the reply to a key that is missing, are taken as they came, and `take` refuses them.
        let size = if kind == Kind::Read { self.found.len() } else { self.done.len() * kind.times() };
        let is_short = begun.first() == Some(&self.refusal) || begun.starts_with(b"$-1") || begun.starts_with(b"END");
        Some(if is_short && begun.ends_with(b"\r\n") { begun.len() } else { size })
    }

    fn take(&mut self, kind: Kind, reply: &[u8]) -> Result<()> {
        if reply == self.reply(kind) { Ok(()) } else { Err(bad(reply)) }
    }
}

/// Requests of etcd's JSON gateway, over HTTP 1.1. Eight puts together are one transaction.
struct Etcd {
    value: String,
}

fn base64(bytes: &[u8]) -> String {
    const DIGITS: &[u8; 64] = b"ABCDEFGHIJKLMNOPQRSTUVWXYZabcdefghijklmnopqrstuvwxyz0123456789+/";
    let mut text = String::new();
    for part in bytes.chunks(3) {
        let all = part.iter().fold(0u32, |all, it| all << 8 | u32::from(*it)) << (8 * (3 - part.len()));
        for at in 0..4 {
            let digit = DIGITS[(all >> (18 - 6 * at) & 63) as usize] as char;
            text.push(if at <= part.len() { digit } else { '=' });
        }
    }
    text
}

impl Protocol for Etcd {
    fn request(&mut self, kind: Kind, keys: &mut dyn FnMut() -> u64, out: &mut Vec<u8>) {
        let value = &self.value;
        let mut key = || base64(&key(keys()));
        let (path, body) = match kind {
            Kind::Read => ("range", format!("{{\"key\":\"{}\"}}", key())),
            Kind::Put => ("put", format!("{{\"key\":\"{}\",\"value\":\"{value}\"}}", key())),
            Kind::Many => {
                let put = |_| format!("{{\"requestPut\":{{\"key\":\"{}\",\"value\":\"{value}\"}}}}", key());
                let puts: Vec<_> = (0..MANY).map(put).collect();
                ("txn", format!("{{\"success\":[{}]}}", puts.join(",")))
            }
        };
        let len = body.len();
        out.extend(format!("POST /v3/kv/{path} HTTP/1.1\r\nHost: a\r\nContent-Length: {len}\r\n\r\n{body}").bytes());
    }

    fn size(&self, _kind: Kind, begun: &[u8]) -> Option<usize> {
        let text = String::from_utf8_lossy(begun);
        let (head, _) = text.split_once("\r\n\r\n")?;
        let len = head.lines().find_map(|it| it.strip_prefix("Content-Length: ")?.parse::<usize>().ok())?;
        Some(head.len() + 4 + len)
    }

    fn take(&mut self, _kind: Kind, reply: &[u8]) -> Result<()> {
        if reply.starts_with(b"HTTP/1.1 200") { Ok(()) } else { Err(bad(reply)) }
    }
}
