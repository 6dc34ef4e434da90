//! Generates a random script, plays it on one chain of plain nodes, and returns the output that
//! `craq_lab play` must print for it.

use crate::plain_node::*;
use std::collections::BTreeMap;
use std::fmt::{Display, Write as _};

/// A move of a script.
enum Move {
    Ask(NodeId, Ask),
    Deliver(usize),
    Tick(NodeId),
    Stop(NodeId),
    Remove(NodeId),
    Join(NodeId),
}

/// A chain and its master.
struct Chain {
    nodes: BTreeMap<NodeId, Node>,
    messages: Vec<LinkMessage>,
    epoch: u64,
    members: Vec<NodeId>,
}

fn told(refusal: Refusal) -> String {
    match refusal {
        Refusal::TwoChains => "8".into(),
        Refusal::NotHead(head) => format!("9 {head}"),
        Refusal::NotReady => "10".into(),
        Refusal::Stopped => "11".into(),
        Refusal::PendingFull => "12".into(),
        Refusal::Exhausted => "13".into(),
        Refusal::WrongNode => "23".into(),
    }
}

impl Chain {
    fn open(nodes: NodeId) -> Chain {
        let members: Vec<NodeId> = (1..=nodes).collect();
        let opened = members.iter().map(|id| (*id, Node::open(0, *id, Some(&members)))).collect();
        Chain { nodes: opened, messages: Vec::new(), epoch: 1, members }
    }

    /// Returns the messages that announce the membership to each of its members.
    fn configs(&self) -> Step {
        let send = |to: &NodeId| {
            let body = Body::Config(self.members.clone());
            let message = LinkMessage { chain: 0, sender: 0, receiver: *to, stamp: 1, index: 0, epoch: self.epoch, body };
            Out::Send { to: *to, message }
        };
        Step { outs: self.members.iter().map(send).collect(), ..Step::default() }
    }

    fn step(&mut self, node: NodeId, event: Event) -> Result<(NodeId, Step), String> {
        let found = self.nodes.get_mut(&node).ok_or("23")?;
        Ok((node, found.step(event).map_err(told)?))
    }

    fn take(&mut self, chosen: Move) -> Result<(NodeId, Step), String> {
        match chosen {
            Move::Ask(node, ask) => self.step(node, Event::Ask(ask)),
            Move::Deliver(number) => {
                let message = number.checked_sub(1).and_then(|place| self.messages.get(place)).ok_or("22")?;
                self.step(message.receiver, Event::Deliver(message.clone()))
            }
            Move::Tick(0) => Ok((0, self.configs())),
            Move::Tick(node) => self.step(node, Event::Tick),
            Move::Stop(node) => self.step(node, Event::Stop),
            Move::Remove(node) => {
                if !self.members.contains(&node) {
                    return Err("17".into());
                }
                if self.nodes[&node].is_running() {
                    return Err("18".into());
                }
                if self.members.len() == 1 {
                    return Err("21".into());
                }
                self.epoch += 1;
                self.members.retain(|member| *member != node);
                Ok((0, self.configs()))
            }
            Move::Join(node) => {
                if node == 0 || self.nodes.contains_key(&node) {
                    return Err("19".into());
                }
                if self.members.len() == 8 {
                    return Err("20".into());
                }
                self.epoch += 1;
                self.members.push(node);
                self.nodes.insert(node, Node::open(0, node, None));
                Ok((0, self.configs()))
            }
        }
    }

    /// Takes a move, and appends its output to the text.
    fn play(&mut self, chosen: Move, text: &mut String) {
        match self.take(chosen) {
            Err(number) => push(text, format_args!("refused {number}")),
            Ok((_, Step { ignored: Some(why), .. })) => push(text, format_args!("ignored {why:?}")),
            Ok((_, Step { outs, .. })) if outs.is_empty() => push(text, "ok"),
            Ok((node, Step { outs, .. })) => {
                for out in outs {
                    match out {
                        Out::Answer { ticket, answer } => push(text, format_args!("answer {node} {ticket} {}", answer_text(&answer))),
                        Out::Send { to, message } => {
                            let number = self.messages.len() + 1;
                            push(text, format_args!("m{number} {}>{to} {}", message.sender, message_text(&message)));
                            self.messages.push(message);
                        }
                    }
                }
            }
        }
    }
}

fn push(text: &mut String, line: impl Display) {
    writeln!(text, "{line}").expect("a line of text");
}

fn hex(bytes: &[u8]) -> String {
    bytes.iter().fold("0x".into(), |text, byte| format!("{text}{byte:02x}"))
}

fn answer_text(answer: &Answer) -> String {
    match answer {
        Answer::Read { version, value } => format!("read {version} {}", hex(value)),
        Answer::Update(reply) => match reply {
            Reply::Written(version) => format!("written {version}"),
            Reply::Mismatch(version) => format!("mismatch {version}"),
            Reply::TooLong => "toolong".into(),
            Reply::NotANumber => "notanumber".into(),
            Reply::Overflow => "overflow".into(),
            Reply::Underflow => "underflow".into(),
            Reply::Done(found) => found.iter().fold("done".into(), |text, (version, value)| format!("{text} {version}:{}", hex(value))),
            Reply::CompareFailed(place) => format!("comparefailed {place}"),
            Reply::Stale(last) => format!("stale {last}"),
        },
    }
}

fn message_text(message: &LinkMessage) -> String {
    match &message.body {
        Body::Config(_) => format!("config {}", message.epoch),
        Body::Entry(entry) => format!("entry {}", entry.position),
        Body::Batch(entries) => format!("batch {}-{}", entries[0].position, entries[entries.len() - 1].position),
        Body::Ack(position) => format!("ack {position}"),
        Body::Query { ticket, .. } => format!("query {ticket}"),
        Body::VersionIs { ticket, version } => format!("version {ticket} {version}"),
        Body::Blank(count) => format!("blank {count}"),
        Body::Copy { position, .. } => format!("copy {position}"),
        Body::Part(part) => format!("part {} {}/{}", part.position, part.number, part.count),
        Body::Floor(count) => format!("floor {count}"),
    }
}

/// A generator of random numbers.
struct Chance(u64);

impl Chance {
    fn below(&mut self, count: u64) -> u64 {
        self.0 = self.0.wrapping_mul(6364136223846793005).wrapping_add(1442695040888963407);
        (self.0 >> 33) % count.max(1)
    }

    fn one_in(&mut self, count: u64) -> bool {
        self.below(count) == 0
    }
}

/// The parameters of a script: the numbers of objects and clients, and how often a message is lost.
struct Habits {
    objects: u64,
    clients: u64,
    lost: u64,
}

fn key_by(chance: &mut Chance, habits: &Habits) -> String {
    format!("k{}", chance.below(habits.objects))
}

fn object(key: &str) -> ObjectId {
    ObjectId { chain: 0, key: key.as_bytes().to_vec() }
}

/// Returns random keys without duplicates.
fn keys_by(chance: &mut Chance, habits: &Habits) -> Vec<String> {
    let mut keys: Vec<String> = (0..chance.below(3)).map(|_| key_by(chance, habits)).collect();
    keys.sort();
    keys.dedup();
    keys
}

/// Returns a random update, with the words of its line.
fn update_by(chance: &mut Chance, habits: &Habits, node: NodeId, numbers: &mut BTreeMap<u64, u64>) -> (Ask, String) {
    let client = chance.below(habits.clients);
    let newest = numbers.entry(client).or_insert(0);
    *newest += chance.below(3);
    let number = if chance.one_in(8) { newest.saturating_sub(chance.below(12)) } else { *newest }.max(1);
    let key = key_by(chance, habits);
    let (words, command) = match chance.below(12) {
        0 => {
            let version = chance.below(4);
            ("tas", Some((format!("{version} t"), Command::TestAndSet(object(&key), version, b"t".to_vec()))))
        }
        1 => ("append", Some(("ab".into(), Command::Append(object(&key), b"ab".to_vec())))),
        2 => ("prepend", Some(("cd".into(), Command::Prepend(object(&key), b"cd".to_vec())))),
        3 => ("inc", Some(("7".into(), Command::Increment(object(&key), 7)))),
        4 => ("dec", Some(("3".into(), Command::Decrement(object(&key), 3)))),
        5 => ("mini", None),
        _ => {
            let value = format!("v{}", chance.below(100));
            ("put", Some((value.clone(), Command::Put(object(&key), value.into_bytes()))))
        }
    };
    if let Some((rest, command)) = command {
        return (Ask::Update { client, number, command }, format!("{words} {node} {client} {number} {key} {rest}"));
    }
    let (mut compares, mut reads, mut writes) = (Vec::new(), vec![object(&key)], Vec::new());
    let mut items = format!(" r:{key}");
    for it in keys_by(chance, habits) {
        let version = chance.below(3);
        items += &format!(" c:{it}:{version}");
        compares.push((object(&it), version));
    }
    for it in keys_by(chance, habits).into_iter().filter(|it| *it != key) {
        items += &format!(" r:{it}");
        reads.push(object(&it));
    }
    for it in keys_by(chance, habits) {
        items += &format!(" w:{it}:w");
        writes.push((object(&it), b"w".to_vec()));
    }
    let command = Command::Mini { compares, reads, writes };
    (Ask::Update { client, number, command }, format!("mini {node} {client} {number}{items}"))
}

fn read_by(chance: &mut Chance, habits: &Habits, node: NodeId) -> (Ask, String) {
    let key = key_by(chance, habits);
    let (mode, word) = match chance.below(4) {
        0 => (ReadMode::Eventual, "eventual".into()),
        1 => {
            let above = chance.below(3) as u32;
            (ReadMode::Bounded(above), format!("bounded:{above}"))
        }
        _ => (ReadMode::Strong, "strong".into()),
    };
    (Ask::Read { mode, object: object(&key) }, format!("read {node} {word} {key}"))
}

/// Returns a random script, and its output.
pub fn by_chance(seed: u64, nodes: NodeId, moves: u64) -> (String, String) {
    let mut chance = Chance(seed);
    let habits = match seed % 3 {
        0 => Habits { objects: 4, clients: 3, lost: 10 },
        1 => Habits { objects: 200, clients: 2, lost: 30 },
        _ => Habits { objects: 150, clients: 100, lost: 1000 },
    };
    let mut chain = Chain::open(nodes);
    let mut numbers = BTreeMap::new();
    let (mut script, mut text) = (String::new(), String::new());
    let mut due = 1;
    for _ in 0..moves {
        let known = *chain.nodes.keys().next_back().expect("a node");
        let any = 1 + chance.below(u64::from(known)) as NodeId;
        let head = if chance.one_in(12) { any } else { chain.members[0] };
        let (chosen, line) = match chance.below(100) {
            0..62 if due <= chain.messages.len() => {
                let number = match chance.below(10) {
                    0 => 1 + chance.below(chain.messages.len() as u64 + 1) as usize,
                    1 => due + 1,
                    _ => due,
                };
                due += if number == due || chance.one_in(habits.lost) { 1 } else { 0 };
                (Move::Deliver(number), format!("deliver {number}"))
            }
            62..82 => {
                let (ask, line) = update_by(&mut chance, &habits, head, &mut numbers);
                (Move::Ask(head, ask), line)
            }
            82..88 => {
                let (ask, line) = read_by(&mut chance, &habits, any);
                (Move::Ask(any, ask), line)
            }
            88 | 89 if chance.one_in(8) => (Move::Join(known + 1), format!("join {}", known + 1)),
            90 if chance.one_in(8) => (Move::Stop(any), format!("stop {any}")),
            91 | 92 => {
                let stopped = chain.nodes.iter().find(|(id, node)| chain.members.contains(id) && !node.is_running());
                let node = stopped.map_or(any, |(id, _)| *id);
                (Move::Remove(node), format!("remove {node}"))
            }
            93 => (Move::Tick(0), "tick 0".into()),
            _ => (Move::Tick(any), format!("tick {any}")),
        };
        push(&mut script, line);
        chain.play(chosen, &mut text);
    }
    (script, text)
}
