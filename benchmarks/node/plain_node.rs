//! A chain node in plain Rust, on std alone, with the same rules and messages as the proved node,
//! but without proofs. Each object has one place in a map: its clean version, and the positions of
//! its later versions among the entries that are not settled.

use std::collections::{BTreeMap, VecDeque};
use std::mem;

pub type Key = Vec<u8>;
pub type Value = Vec<u8>;
pub type NodeId = u32;

const WINDOW_LIMIT: usize = 8;
const VALUE_LIMIT: usize = 4096;
const MOST_WAITING: usize = 1024;
const RUN_LENGTH: usize = 16;
const PART_LENGTH: usize = 64;

#[derive(Clone, Debug, PartialEq)]
pub struct ObjectId {
    pub chain: u16,
    pub key: Key,
}

#[derive(Clone, Debug)]
pub enum Command {
    Put(ObjectId, Value),
    TestAndSet(ObjectId, u64, Value),
    Append(ObjectId, Value),
    Prepend(ObjectId, Value),
    Increment(ObjectId, u64),
    Decrement(ObjectId, u64),
    Mini { compares: Vec<(ObjectId, u64)>, reads: Vec<ObjectId>, writes: Vec<(ObjectId, Value)> },
}

#[derive(Clone, Debug)]
pub enum Reply {
    Written(u64),
    Mismatch(u64),
    TooLong,
    NotANumber,
    Overflow,
    Underflow,
    Done(Vec<(u64, Value)>),
    CompareFailed(u8),
    Stale(u64),
}

#[derive(Clone, Debug)]
pub struct Write {
    pub key: Key,
    pub version: u64,
    pub value: Value,
}

#[derive(Clone, Debug)]
pub struct Entry {
    pub position: u64,
    pub origin_node: NodeId,
    pub origin_ticket: u64,
    pub client: u64,
    pub number: u64,
    pub reply: Reply,
    pub writes: Vec<Write>,
}

/// The replies to a client's newest numbers, by ascending number.
pub type Window = Vec<(u64, Reply)>;

#[derive(Clone, Debug, Default)]
pub struct State {
    pub objects: Vec<(Key, (u64, Value))>,
    pub kept: Vec<(u64, Window)>,
}

#[derive(Clone, Debug)]
pub struct StatePart {
    pub position: u64,
    pub number: u32,
    pub count: u32,
    pub state: State,
}

#[derive(Clone, Debug)]
pub enum Body {
    Config(Vec<NodeId>),
    Entry(Entry),
    Batch(Vec<Entry>),
    Ack(u64),
    Query { ticket: u64, key: Key },
    VersionIs { ticket: u64, version: u64 },
    Blank(u64),
    Copy { position: u64, state: State },
    Part(StatePart),
    Floor(u64),
}

#[derive(Clone, Debug)]
pub struct LinkMessage {
    pub chain: u16,
    pub sender: NodeId,
    pub receiver: NodeId,
    pub stamp: u64,
    pub index: u32,
    pub epoch: u64,
    pub body: Body,
}

#[derive(Clone, Copy, Debug, PartialEq)]
pub enum ReadMode {
    Strong,
    Eventual,
    Bounded(u32),
}

#[derive(Clone, Debug)]
pub enum Ask {
    Update { client: u64, number: u64, command: Command },
    Read { mode: ReadMode, object: ObjectId },
}

#[derive(Clone, Debug)]
pub enum Event {
    Ask(Ask),
    Deliver(LinkMessage),
    Tick,
    Stop,
}

#[derive(Clone, Debug)]
pub enum Answer {
    Update(Reply),
    Read { version: u64, value: Value },
}

#[derive(Clone, Debug)]
pub enum Out {
    Send { to: NodeId, message: LinkMessage },
    Answer { ticket: u64, answer: Answer },
}

#[derive(Clone, Copy, Debug, PartialEq)]
pub enum Why {
    OtherEpoch,
    NotNeighbour,
    OutOfOrder,
    AlreadyHave,
    NotReadyHere,
    UnknownTicket,
    TooFar,
}

#[derive(Clone, Copy, Debug, PartialEq)]
pub enum Refusal {
    WrongNode,
    Stopped,
    NotReady,
    TwoChains,
    NotHead(NodeId),
    Exhausted,
    PendingFull,
}

#[derive(Debug, Default)]
pub struct Step {
    pub ticket: Option<u64>,
    pub outs: Vec<Out>,
    pub ignored: Option<Why>,
}

fn ignoring(why: Why) -> Step {
    Step { ignored: Some(why), ..Step::default() }
}

fn sending(outs: Vec<Out>) -> Step {
    Step { outs, ..Step::default() }
}

/// An object: its clean version and value, and the positions of the entries after them that write
/// it.
#[derive(Default)]
struct Object {
    version: u64,
    value: Value,
    dirty: Vec<u64>,
}

/// A client's kept replies, and the positions of its entries that are not settled.
#[derive(Default)]
struct Client {
    window: Window,
    pending: Vec<u64>,
}

/// The history of a node: the state after the settled entries, and the entries after them.
#[derive(Default)]
struct Past {
    objects: BTreeMap<Key, Object>,
    clients: BTreeMap<u64, Client>,
    entries: VecDeque<Entry>,
    acknowledged: u64,
}

enum Said<'a> {
    New,
    Kept(&'a Reply),
    Stale(u64),
}

/// Returns the version and value that an entry writes to an object.
fn written<'a>(entry: &'a Entry, key: &[u8]) -> (u64, &'a [u8]) {
    match entry.writes.iter().rev().find(|write| write.key == key) {
        Some(write) => (write.version, &write.value),
        None => (0, &[]),
    }
}

fn keep<R>(window: &mut Vec<(u64, R)>, number: u64, reply: R) {
    match window.binary_search_by_key(&number, |(kept, _)| *kept) {
        Ok(place) => window[place].1 = reply,
        Err(place) => window.insert(place, (number, reply)),
    }
    if window.len() > WINDOW_LIMIT {
        window.remove(0);
    }
}

impl Past {
    fn len(&self) -> u64 {
        self.acknowledged + self.entries.len() as u64
    }

    fn entry(&self, position: u64) -> &Entry {
        &self.entries[(position - self.acknowledged - 1) as usize]
    }

    fn newest(&self, key: &[u8]) -> (u64, &[u8]) {
        match self.objects.get(key) {
            None => (0, &[]),
            Some(object) => match object.dirty.last() {
                None => (object.version, &object.value),
                Some(position) => written(self.entry(*position), key),
            },
        }
    }

    fn clean(&self, key: &[u8]) -> (u64, &[u8]) {
        match self.objects.get(key) {
            None => (0, &[]),
            Some(object) => (object.version, &object.value),
        }
    }

    /// Returns the newest version and value, if the object is clean.
    fn if_clean(&self, key: &[u8]) -> Option<(u64, &[u8])> {
        match self.objects.get(key) {
            None => Some((0, &[])),
            Some(object) if object.dirty.is_empty() => Some((object.version, &object.value)),
            Some(_) => None,
        }
    }

    fn within(&self, key: &[u8], bound: u128) -> (u64, &[u8]) {
        let Some(object) = self.objects.get(key) else {
            return (0, &[]);
        };
        let mut found = (object.version, object.value.as_slice());
        for position in &object.dirty {
            let next = written(self.entry(*position), key);
            if u128::from(next.0) > bound {
                break;
            }
            found = next;
        }
        found
    }

    fn said(&self, client: u64, number: u64) -> Said<'_> {
        let Some(known) = self.clients.get(&client) else {
            return Said::New;
        };
        if known.pending.is_empty() {
            return look_in(known.window.iter().map(|(kept, reply)| (*kept, reply)), known.window.len(), number);
        }
        let mut window: Vec<(u64, &Reply)> = known.window.iter().map(|(kept, reply)| (*kept, reply)).collect();
        for position in &known.pending {
            let entry = self.entry(*position);
            keep(&mut window, entry.number, &entry.reply);
        }
        look_in(window.iter().copied(), window.len(), number)
    }

    fn position_of(&self, client: u64) -> u64 {
        let pending = self.clients.get(&client).and_then(|known| known.pending.last());
        pending.copied().unwrap_or(self.acknowledged)
    }

    /// Returns true if each entry fits the state after those before it.
    fn are_next(&self, entries: &[Entry]) -> bool {
        entries.iter().enumerate().all(|(place, entry)| {
            let earlier = &entries[..place];
            entry.writes.iter().all(|write| {
                let last = earlier.iter().rev().flat_map(|it| it.writes.iter().rev());
                let last = last.filter(|it| it.key == write.key).map(|it| it.version).next();
                let last = last.unwrap_or_else(|| self.newest(&write.key).0);
                last.checked_add(1) == Some(write.version)
            }) && self.is_new(earlier, entry)
        })
    }

    fn is_new(&self, earlier: &[Entry], entry: &Entry) -> bool {
        if earlier.iter().all(|it| it.client != entry.client) {
            return matches!(self.said(entry.client, entry.number), Said::New);
        }
        let mut numbers: Vec<(u64, ())> = Vec::new();
        if let Some(known) = self.clients.get(&entry.client) {
            numbers.extend(known.window.iter().map(|(kept, _)| (*kept, ())));
            for position in &known.pending {
                keep(&mut numbers, self.entry(*position).number, ());
            }
        }
        for it in earlier.iter().filter(|it| it.client == entry.client) {
            keep(&mut numbers, it.number, ());
        }
        let is_stale = numbers.len() >= WINDOW_LIMIT && entry.number < numbers[0].0;
        !is_stale && numbers.iter().all(|(kept, _)| *kept != entry.number)
    }

    fn after(&self, position: u64) -> impl Iterator<Item = &Entry> {
        self.entries.iter().skip((position - self.acknowledged) as usize)
    }

    fn append(&mut self, entries: Vec<Entry>) {
        for entry in entries {
            for write in &entry.writes {
                match self.objects.get_mut(&write.key) {
                    Some(object) => object.dirty.push(entry.position),
                    None => {
                        let object = Object { dirty: vec![entry.position], ..Object::default() };
                        self.objects.insert(write.key.clone(), object);
                    }
                }
            }
            self.clients.entry(entry.client).or_default().pending.push(entry.position);
            self.entries.push_back(entry);
        }
    }

    /// Settles the entries up to a position. Their values are moved.
    fn acknowledge(&mut self, position: u64) {
        while self.acknowledged < position {
            let Some(entry) = self.entries.pop_front() else { return };
            self.acknowledged += 1;
            for write in entry.writes {
                if let Some(object) = self.objects.get_mut(&write.key) {
                    object.version = write.version;
                    object.value = write.value;
                    object.dirty.remove(0);
                }
            }
            if let Some(known) = self.clients.get_mut(&entry.client) {
                keep(&mut known.window, entry.number, entry.reply);
                known.pending.remove(0);
            }
        }
    }

    fn snapshot(&self) -> State {
        let objects = self.objects.iter().filter(|(_, object)| object.version > 0);
        let clients = self.clients.iter().filter(|(_, known)| !known.window.is_empty());
        State {
            objects: objects.map(|(key, object)| (key.clone(), (object.version, object.value.clone()))).collect(),
            kept: clients.map(|(client, known)| (*client, known.window.clone())).collect(),
        }
    }

    fn install(&mut self, position: u64, state: State) {
        let object = |(version, value)| Object { version, value, dirty: Vec::new() };
        let client = |window| Client { window, pending: Vec::new() };
        self.objects = state.objects.into_iter().map(|(key, it)| (key, object(it))).collect();
        self.clients = state.kept.into_iter().map(|(id, window)| (id, client(window))).collect();
        self.entries.clear();
        self.acknowledged = position;
    }
}

fn look_in<'a>(mut window: impl DoubleEndedIterator<Item = (u64, &'a Reply)> + Clone, len: usize, number: u64) -> Said<'a> {
    let Some((smallest, _)) = window.clone().next() else {
        return Said::New;
    };
    if len >= WINDOW_LIMIT && number < smallest {
        return window.next_back().map_or(Said::New, |(largest, _)| Said::Stale(largest));
    }
    match window.find(|(kept, _)| *kept == number) {
        Some((_, reply)) => Said::Kept(reply),
        None => Said::New,
    }
}

struct WaitingUpdate {
    ticket: u64,
    position: u64,
    reply: Reply,
}

struct WaitingRead {
    ticket: u64,
    key: Key,
}

struct Gathering {
    position: u64,
    count: u32,
    parts: BTreeMap<u32, State>,
}

pub struct Node {
    chain: u16,
    id: NodeId,
    running: bool,
    epoch: u64,
    members: Vec<NodeId>,
    ready: bool,
    past: Past,
    floor: Option<u64>,
    gathering: Option<Gathering>,
    last_ticket: u64,
    waiting_updates: Vec<WaitingUpdate>,
    waiting_reads: Vec<WaitingRead>,
}

impl Node {
    /// Opens a ready member of the first membership, or without members a node that joins later.
    pub fn open(chain: u16, id: NodeId, members: Option<&[NodeId]>) -> Node {
        Node {
            chain,
            id,
            running: true,
            epoch: u64::from(members.is_some()),
            members: members.unwrap_or_default().to_vec(),
            ready: members.is_some(),
            past: Past::default(),
            floor: None,
            gathering: None,
            last_ticket: 0,
            waiting_updates: Vec::new(),
            waiting_reads: Vec::new(),
        }
    }

    pub fn is_running(&self) -> bool {
        self.running
    }

    pub fn step(&mut self, event: Event) -> Result<Step, Refusal> {
        if !self.running {
            return Err(Refusal::Stopped);
        }
        match event {
            Event::Ask(ask) => self.ask(ask),
            Event::Deliver(message) => self.deliver(message),
            Event::Tick => Ok(sending(self.tick_outs())),
            Event::Stop => {
                self.running = false;
                Ok(Step::default())
            }
        }
    }

    fn is_first(&self) -> bool {
        self.members.first() == Some(&self.id)
    }

    fn is_last(&self) -> bool {
        self.members.last() == Some(&self.id)
    }

    fn successor(&self) -> Option<NodeId> {
        let place = self.members.iter().position(|it| *it == self.id)?;
        self.members.get(place + 1).copied()
    }

    fn predecessor(&self) -> Option<NodeId> {
        let place = self.members.iter().position(|it| *it == self.id)?;
        self.members.get(place.checked_sub(1)?).copied()
    }

    fn send(&self, outs: &mut Vec<Out>, to: NodeId, body: Body) {
        let message =
            LinkMessage { chain: self.chain, sender: self.id, receiver: to, stamp: 1, index: 0, epoch: self.epoch, body };
        outs.push(Out::Send { to, message });
    }

    fn is_full(&self) -> bool {
        self.waiting_updates.len() + self.waiting_reads.len() >= MOST_WAITING
    }

    fn ask(&mut self, ask: Ask) -> Result<Step, Refusal> {
        if !self.ready {
            return Err(Refusal::NotReady);
        }
        match ask {
            Ask::Update { client, number, command } => {
                if names(&command, |object| object.chain != self.chain) {
                    return Err(Refusal::TwoChains);
                }
                if !self.is_first() {
                    return Err(Refusal::NotHead(self.members.first().copied().unwrap_or(0)));
                }
                self.ask_update(client, number, command)
            }
            Ask::Read { mode, object } => {
                if object.chain != self.chain {
                    return Err(Refusal::TwoChains);
                }
                if self.last_ticket == u64::MAX {
                    return Err(Refusal::Exhausted);
                }
                self.ask_read(mode, object.key)
            }
        }
    }

    fn ask_update(&mut self, client: u64, number: u64, command: Command) -> Result<Step, Refusal> {
        if self.last_ticket == u64::MAX {
            return Err(Refusal::Exhausted);
        }
        let (position, reply, entry) = match self.past.said(client, number) {
            Said::Kept(reply) => (self.past.position_of(client), reply.clone(), None),
            Said::Stale(last) => (self.past.position_of(client), Reply::Stale(last), None),
            Said::New => {
                let position = self.past.len().checked_add(1).ok_or(Refusal::Exhausted)?;
                if !self.is_last() && self.is_full() && !self.has_used_up(&command) {
                    return Err(Refusal::PendingFull);
                }
                let (writes, reply) = self.evaluate(command)?;
                let (origin_node, origin_ticket) = (self.id, self.last_ticket + 1);
                let entry = Entry { position, origin_node, origin_ticket, client, number, reply: reply.clone(), writes };
                (position, reply, Some(entry))
            }
        };
        let committed = if self.is_last() { self.past.len().max(position) } else { self.past.acknowledged };
        if position > committed && self.is_full() {
            return Err(Refusal::PendingFull);
        }
        Ok(self.accept_update(position, reply, entry))
    }

    fn accept_update(&mut self, position: u64, reply: Reply, entry: Option<Entry>) -> Step {
        self.last_ticket += 1;
        let ticket = self.last_ticket;
        let mut outs = Vec::new();
        let mut sends = Vec::new();
        if let Some(entry) = entry {
            if let Some(to) = self.successor() {
                self.send(&mut sends, to, Body::Entry(entry.clone()));
            }
            self.past.append(vec![entry]);
        }
        if self.is_last() {
            self.past.acknowledge(self.past.len());
        }
        if position <= self.past.acknowledged {
            outs.push(Out::Answer { ticket, answer: Answer::Update(reply) });
        } else {
            self.waiting_updates.push(WaitingUpdate { ticket, position, reply });
        }
        outs.append(&mut sends);
        Step { ticket: Some(ticket), outs, ignored: None }
    }

    fn has_used_up(&self, command: &Command) -> bool {
        names(command, |object| self.past.newest(&object.key).0 == u64::MAX)
    }

    /// Returns a command's writes and its reply; `Exhausted` if an object that it names has no next
    /// version.
    fn evaluate(&self, command: Command) -> Result<(Vec<Write>, Reply), Refusal> {
        let one = |object: ObjectId, version: u64, value: Value| {
            let version = version + 1;
            (vec![Write { key: object.key, version, value }], Reply::Written(version))
        };
        let look = |object: &ObjectId| match self.past.newest(&object.key) {
            (u64::MAX, _) => Err(Refusal::Exhausted),
            found => Ok(found),
        };
        Ok(match command {
            Command::Put(object, value) => {
                let (version, _) = look(&object)?;
                one(object, version, value)
            }
            Command::TestAndSet(object, expect, value) => match look(&object)? {
                (version, _) if version == expect => one(object, version, value),
                (version, _) => (Vec::new(), Reply::Mismatch(version)),
            },
            Command::Append(object, value) => {
                let (version, old) = look(&object)?;
                match joined(old, &value) {
                    Some(value) => one(object, version, value),
                    None => (Vec::new(), Reply::TooLong),
                }
            }
            Command::Prepend(object, value) => {
                let (version, old) = look(&object)?;
                match joined(&value, old) {
                    Some(value) => one(object, version, value),
                    None => (Vec::new(), Reply::TooLong),
                }
            }
            Command::Increment(object, by) => {
                let (version, old) = look(&object)?;
                match number_in(version, old).map(|number| number.checked_add(by)) {
                    None => (Vec::new(), Reply::NotANumber),
                    Some(None) => (Vec::new(), Reply::Overflow),
                    Some(Some(sum)) => one(object, version, sum.to_be_bytes().to_vec()),
                }
            }
            Command::Decrement(object, by) => {
                let (version, old) = look(&object)?;
                match number_in(version, old).map(|number| number.checked_sub(by)) {
                    None => (Vec::new(), Reply::NotANumber),
                    Some(None) => (Vec::new(), Reply::Underflow),
                    Some(Some(rest)) => one(object, version, rest.to_be_bytes().to_vec()),
                }
            }
            Command::Mini { .. } if self.has_used_up(&command) => return Err(Refusal::Exhausted),
            Command::Mini { compares, reads, writes } => self.transact(&compares, &reads, writes),
        })
    }

    fn transact(
        &self,
        compares: &[(ObjectId, u64)],
        reads: &[ObjectId],
        writes: Vec<(ObjectId, Value)>,
    ) -> (Vec<Write>, Reply) {
        let failed = compares.iter().position(|(object, version)| self.past.newest(&object.key).0 != *version);
        if let Some(place) = failed {
            return (Vec::new(), Reply::CompareFailed(place as u8));
        }
        let found = reads.iter().map(|object| {
            let (version, value) = self.past.newest(&object.key);
            (version, value.to_vec())
        });
        let reply = Reply::Done(found.collect());
        let written = writes.into_iter().map(|(object, value)| {
            let version = self.past.newest(&object.key).0 + 1;
            Write { key: object.key, version, value }
        });
        (written.collect(), reply)
    }

    fn ask_read(&mut self, mode: ReadMode, key: Key) -> Result<Step, Refusal> {
        let found = match mode {
            ReadMode::Eventual => Some(self.past.newest(&key)),
            ReadMode::Bounded(above) => {
                let (clean, _) = self.past.clean(&key);
                Some(self.past.within(&key, u128::from(clean) + u128::from(above)))
            }
            ReadMode::Strong => self.past.if_clean(&key),
        };
        let ticket = self.last_ticket + 1;
        let mut outs = Vec::new();
        match found {
            Some((version, value)) => {
                let value = value.to_vec();
                outs.push(Out::Answer { ticket, answer: Answer::Read { version, value } });
            }
            None => {
                if self.is_full() {
                    return Err(Refusal::PendingFull);
                }
                let last = self.members.last().copied().unwrap_or(0);
                self.send(&mut outs, last, Body::Query { ticket, key: key.clone() });
                self.waiting_reads.push(WaitingRead { ticket, key });
            }
        }
        self.last_ticket = ticket;
        Ok(Step { ticket: Some(ticket), outs, ignored: None })
    }

    fn deliver(&mut self, message: LinkMessage) -> Result<Step, Refusal> {
        if message.chain != self.chain || message.receiver != self.id {
            return Err(Refusal::WrongNode);
        }
        let sender = message.sender;
        if let Body::Config(members) = message.body {
            return Ok(self.take_config(message.epoch, members));
        }
        if message.epoch != self.epoch {
            return Ok(ignoring(Why::OtherEpoch));
        }
        Ok(match message.body {
            Body::Config(_) => Step::default(),
            Body::Entry(entry) => self.take_entries(sender, vec![entry]),
            Body::Batch(entries) => self.take_entries(sender, entries),
            Body::Ack(position) => self.take_ack(sender, position),
            Body::Query { ticket, key } => self.take_query(sender, ticket, &key),
            Body::VersionIs { ticket, version } => self.take_version(sender, ticket, version),
            Body::Blank(count) => self.take_blank(sender, count),
            Body::Copy { position, state } => {
                if self.predecessor() != Some(sender) {
                    ignoring(Why::NotNeighbour)
                } else if self.ready || position <= self.past.len() {
                    ignoring(Why::AlreadyHave)
                } else {
                    self.take_state(position, state)
                }
            }
            Body::Part(part) => self.take_part(sender, part),
            Body::Floor(count) => self.take_floor(sender, count),
        })
    }

    fn take_config(&mut self, epoch: u64, members: Vec<NodeId>) -> Step {
        if epoch <= self.epoch {
            return ignoring(Why::OtherEpoch);
        }
        if !members.contains(&self.id) {
            return ignoring(Why::NotNeighbour);
        }
        self.epoch = epoch;
        self.members = members;
        self.floor = None;
        self.gathering = None;
        sending(self.settle())
    }

    /// Commits all entries and answers all pending requests if the node is a ready tail. Then the
    /// node resends what it has to send.
    fn settle(&mut self) -> Vec<Out> {
        let mut outs = Vec::new();
        if self.ready && self.is_last() {
            self.past.acknowledge(self.past.len());
            let updates = mem::take(&mut self.waiting_updates).into_iter();
            let mut answers: Vec<_> = updates.map(|it| (it.ticket, Answer::Update(it.reply))).collect();
            for read in mem::take(&mut self.waiting_reads) {
                let (version, value) = self.past.newest(&read.key);
                answers.push((read.ticket, Answer::Read { version, value: value.to_vec() }));
            }
            answers.sort_by_key(|(ticket, _)| *ticket);
            outs.extend(answers.into_iter().map(|(ticket, answer)| Out::Answer { ticket, answer }));
        }
        outs.append(&mut self.tick_outs());
        outs
    }

    fn tick_outs(&self) -> Vec<Out> {
        let mut outs = Vec::new();
        if self.epoch == 0 {
            return outs;
        }
        if !self.ready {
            if let Some(to) = self.predecessor() {
                self.send(&mut outs, to, Body::Blank(self.past.len()));
            }
            return outs;
        }
        if let Some(to) = self.successor() {
            self.send_entries(&mut outs, to, self.past.after(self.past.acknowledged));
            self.send(&mut outs, to, Body::Floor(self.past.len()));
        }
        if let Some(to) = self.predecessor() {
            self.send(&mut outs, to, Body::Ack(self.past.acknowledged));
        }
        if let Some(last) = self.members.last().filter(|last| **last != self.id) {
            for read in &self.waiting_reads {
                self.send(&mut outs, *last, Body::Query { ticket: read.ticket, key: read.key.clone() });
            }
        }
        outs
    }

    /// Sends entries in runs of 16: a run of one as an entry, a longer one as a batch.
    fn send_entries<'a>(&self, outs: &mut Vec<Out>, to: NodeId, entries: impl Iterator<Item = &'a Entry>) {
        let mut run = Vec::new();
        for entry in entries {
            run.push(entry.clone());
            if run.len() == RUN_LENGTH {
                self.send(outs, to, Body::Batch(mem::take(&mut run)));
            }
        }
        match run.len() {
            0 => {}
            1 => self.send(outs, to, Body::Entry(run.remove(0))),
            _ => self.send(outs, to, Body::Batch(run)),
        }
    }

    fn take_entries(&mut self, sender: NodeId, mut entries: Vec<Entry>) -> Step {
        if self.predecessor() != Some(sender) {
            return ignoring(Why::NotNeighbour);
        }
        let length = self.past.len();
        let end = entries.last().map_or(0, |entry| entry.position);
        if end <= length {
            return ignoring(Why::AlreadyHave);
        }
        if entries[0].position > length + 1 {
            return ignoring(Why::OutOfOrder);
        }
        entries.retain(|entry| entry.position > length);
        if !self.past.are_next(&entries) {
            return ignoring(Why::TooFar);
        }
        if !self.ready {
            self.past.append(entries);
            return self.progress();
        }
        let mut outs = Vec::new();
        if self.is_last() {
            if let Some(to) = self.predecessor() {
                self.send(&mut outs, to, Body::Ack(end));
            }
        } else if let Some(to) = self.successor() {
            self.send_entries(&mut outs, to, entries.iter());
        }
        self.past.append(entries);
        if self.is_last() {
            self.past.acknowledge(end);
        }
        sending(outs)
    }

    /// Makes an unready node ready if it holds as many entries as its floor says, and drops a
    /// gathered state that it has reached.
    fn progress(&mut self) -> Step {
        let length = self.past.len();
        if self.floor.is_some_and(|floor| floor <= length) {
            self.ready = true;
            self.gathering = None;
            return sending(self.settle());
        }
        if self.gathering.as_ref().is_some_and(|gathering| gathering.position <= length) {
            self.gathering = None;
        }
        Step::default()
    }

    fn take_ack(&mut self, sender: NodeId, position: u64) -> Step {
        if self.successor() != Some(sender) {
            return ignoring(Why::NotNeighbour);
        }
        if !self.ready {
            return ignoring(Why::NotReadyHere);
        }
        if position <= self.past.acknowledged {
            return ignoring(Why::AlreadyHave);
        }
        if position > self.past.len() {
            return ignoring(Why::TooFar);
        }
        self.past.acknowledge(position);
        let mut outs = Vec::new();
        for update in self.waiting_updates.extract_if(.., |it| it.position <= position) {
            let (ticket, answer) = (update.ticket, Answer::Update(update.reply));
            outs.push(Out::Answer { ticket, answer });
        }
        if let Some(to) = self.predecessor() {
            self.send(&mut outs, to, Body::Ack(position));
        }
        sending(outs)
    }

    fn take_query(&self, sender: NodeId, ticket: u64, key: &[u8]) -> Step {
        if sender == self.id || !self.members.contains(&sender) {
            return ignoring(Why::NotNeighbour);
        }
        if !(self.ready && self.is_last()) {
            return ignoring(Why::NotReadyHere);
        }
        let (version, _) = self.past.newest(key);
        let mut outs = Vec::new();
        self.send(&mut outs, sender, Body::VersionIs { ticket, version });
        sending(outs)
    }

    fn take_version(&mut self, sender: NodeId, ticket: u64, version: u64) -> Step {
        if self.members.last() != Some(&sender) {
            return ignoring(Why::NotNeighbour);
        }
        let Some(place) = self.waiting_reads.iter().position(|read| read.ticket == ticket) else {
            return ignoring(Why::UnknownTicket);
        };
        let key = &self.waiting_reads[place].key;
        if self.past.newest(key).0 < version {
            return ignoring(Why::TooFar);
        }
        let bound = version.max(self.past.clean(key).0);
        let (version, value) = self.past.within(key, u128::from(bound));
        let answer = Answer::Read { version, value: value.to_vec() };
        self.waiting_reads.remove(place);
        sending(vec![Out::Answer { ticket, answer }])
    }

    fn take_blank(&self, sender: NodeId, count: u64) -> Step {
        if self.successor() != Some(sender) {
            return ignoring(Why::NotNeighbour);
        }
        if !self.ready {
            return ignoring(Why::NotReadyHere);
        }
        let mut outs = Vec::new();
        let acknowledged = self.past.acknowledged;
        if count < acknowledged {
            self.send_state(&mut outs, sender, acknowledged, self.past.snapshot());
        }
        self.send_entries(&mut outs, sender, self.past.after(count.max(acknowledged)));
        self.send(&mut outs, sender, Body::Floor(self.past.len()));
        sending(outs)
    }

    /// Sends a state: whole if it has up to 64 items, else in parts of 64, objects first.
    fn send_state(&self, outs: &mut Vec<Out>, to: NodeId, position: u64, mut state: State) {
        let count = (state.objects.len() + state.kept.len()).div_ceil(PART_LENGTH);
        if count <= 1 {
            return self.send(outs, to, Body::Copy { position, state });
        }
        let (mut objects, mut kept) = (state.objects.drain(..), state.kept.drain(..));
        for number in 1..=count {
            let objects: Vec<_> = objects.by_ref().take(PART_LENGTH).collect();
            let kept = kept.by_ref().take(PART_LENGTH - objects.len()).collect();
            let state = State { objects, kept };
            let part = StatePart { position, number: number as u32, count: count as u32, state };
            self.send(outs, to, Body::Part(part));
        }
    }

    fn take_state(&mut self, position: u64, state: State) -> Step {
        self.past.install(position, state);
        self.progress()
    }

    fn take_part(&mut self, sender: NodeId, part: StatePart) -> Step {
        if self.predecessor() != Some(sender) {
            return ignoring(Why::NotNeighbour);
        }
        let gathered = self.gathering.as_ref().map_or(0, |gathering| gathering.position);
        if self.ready || part.position <= self.past.len() || part.position < gathered {
            return ignoring(Why::AlreadyHave);
        }
        let (position, count) = (part.position, part.count);
        let held = self.gathering.take().filter(|it| it.position >= position);
        let mut gathering = held.unwrap_or_else(|| Gathering { position, count, parts: BTreeMap::new() });
        let why = if gathering.count != count {
            Some(Why::TooFar)
        } else if gathering.parts.contains_key(&part.number) {
            Some(Why::AlreadyHave)
        } else if !stands_between(&gathering.parts, &part) {
            Some(Why::TooFar)
        } else {
            None
        };
        if let Some(why) = why {
            self.gathering = (!gathering.parts.is_empty()).then_some(gathering);
            return ignoring(why);
        }
        gathering.parts.insert(part.number, part.state);
        if gathering.parts.len() < count as usize {
            self.gathering = Some(gathering);
            return Step::default();
        }
        let mut state = State::default();
        for (_, mut part) in mem::take(&mut gathering.parts) {
            state.objects.append(&mut part.objects);
            state.kept.append(&mut part.kept);
        }
        self.gathering = Some(gathering);
        self.take_state(position, state)
    }

    fn take_floor(&mut self, sender: NodeId, count: u64) -> Step {
        if self.predecessor() != Some(sender) {
            return ignoring(Why::NotNeighbour);
        }
        if self.ready {
            return ignoring(Why::AlreadyHave);
        }
        self.floor = Some(count);
        self.progress()
    }
}

/// Returns true if the predicate holds for some object that a command names.
fn names(command: &Command, is_such: impl Fn(&ObjectId) -> bool) -> bool {
    match command {
        Command::Put(object, _)
        | Command::TestAndSet(object, _, _)
        | Command::Append(object, _)
        | Command::Prepend(object, _)
        | Command::Increment(object, _)
        | Command::Decrement(object, _) => is_such(object),
        Command::Mini { compares, reads, writes } => {
            compares.iter().any(|(object, _)| is_such(object))
                || reads.iter().any(&is_such)
                || writes.iter().any(|(object, _)| is_such(object))
        }
    }
}

fn joined(front: &[u8], back: &[u8]) -> Option<Value> {
    (front.len() + back.len() <= VALUE_LIMIT).then(|| [front, back].concat())
}

/// Returns the number in a value; an absent object counts as 0.
fn number_in(version: u64, bytes: &[u8]) -> Option<u64> {
    if version == 0 {
        return Some(0);
    }
    bytes.try_into().ok().map(u64::from_be_bytes)
}

/// Returns true if each item of a state comes before each item of another.
fn comes_before(state: &State, later: &State) -> bool {
    let objects = match (state.objects.last(), later.objects.first()) {
        (Some((last, _)), Some((first, _))) => last < first,
        _ => true,
    };
    let kept = match (state.kept.last(), later.kept.first()) {
        (Some((last, _)), Some((first, _))) => last < first,
        _ => true,
    };
    objects && kept && (state.kept.is_empty() || later.objects.is_empty())
}

fn stands_between(parts: &BTreeMap<u32, State>, part: &StatePart) -> bool {
    parts.iter().all(|(number, state)| {
        if *number < part.number { comes_before(state, &part.state) } else { comes_before(&part.state, state) }
    })
}
