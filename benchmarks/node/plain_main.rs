//! Measures or runs plain nodes:
//! - `plain_main measure ROLE OBJECTS` measures the cost of a step of the plain node, by the
//!   schedule of measure_main.txt.
//! - `plain_main script SEED NODES MOVES SCRIPT PRINTED` generates a random script, plays it on
//!   plain nodes, and writes the script and the output that `craq_lab play` must print into files.

#[allow(dead_code)] // messages have fields that a node does not read
mod plain_node;
mod plain_scripts;

use plain_node::*;
use std::fs;

const RUN: u64 = 16;
const RUNS: u64 = 64;
const LINES: u64 = 16;
const CLIENTS: u64 = 64;
const WAITING: [u64; 3] = [0, 64, 990];

#[repr(C)]
struct Timespec {
    seconds: i64,
    nanoseconds: i64,
}

extern "C" {
    fn clock_gettime(clock: i32, time: *mut Timespec) -> i32;
}

/// Returns the processor time of this thread, in nanoseconds.
fn thread_cpu_time() -> u64 {
    const THREAD_CPU_TIME: i32 = 3;
    let mut time = Timespec { seconds: 0, nanoseconds: 0 };
    unsafe { clock_gettime(THREAD_CPU_TIME, &mut time) };
    time.seconds as u64 * 1_000_000_000 + time.nanoseconds as u64
}

#[derive(Clone, Copy, PartialEq)]
enum Role {
    Single,
    Head,
    Middle,
    Tail,
}

impl Role {
    fn id(self) -> NodeId {
        match self {
            Role::Single | Role::Head => 1,
            Role::Middle => 2,
            Role::Tail => 3,
        }
    }

    fn is_head(self) -> bool {
        matches!(self, Role::Single | Role::Head)
    }

    fn is_acknowledged(self) -> bool {
        matches!(self, Role::Head | Role::Middle)
    }
}

/// The events of a node: puts to objects of the first half in random order, reads of objects of the
/// second half and of those put last, and acknowledgements one by one.
struct Plan {
    role: Role,
    versions: Vec<u64>,
    chance: u64,
    puts: u64,
    acknowledged: u64,
    asks: u64,
    recent: Vec<u64>,
}

fn object(number: u64) -> ObjectId {
    ObjectId { chain: 0, key: format!("object-{number:09}").into_bytes() }
}

impl Plan {
    fn objects(&self) -> u64 {
        self.versions.len() as u64
    }

    fn chosen(&mut self) -> u64 {
        self.chance = self.chance.wrapping_mul(6364136223846793005).wrapping_add(1442695040888963407);
        (self.chance >> 33) % (self.objects() / 2).max(1)
    }

    fn message(&self, sender: NodeId, body: Body) -> Event {
        Event::Deliver(LinkMessage { chain: 0, sender, receiver: self.role.id(), stamp: 1, index: 0, epoch: 1, body })
    }

    fn put(&mut self, object_number: u64) -> Event {
        let (client, number) = (self.puts % CLIENTS, self.puts / CLIENTS + 1);
        let object = object(object_number);
        let value = vec![7; 64];
        self.puts += 1;
        if self.role.is_head() {
            self.asks += 1;
            return Event::Ask(Ask::Update { client, number, command: Command::Put(object, value) });
        }
        self.versions[object_number as usize] += 1;
        let version = self.versions[object_number as usize];
        let entry = Entry {
            position: self.puts,
            origin_node: 1,
            origin_ticket: self.puts,
            client,
            number,
            reply: Reply::Written(version),
            writes: vec![Write { key: object.key, version, value }],
        };
        self.message(self.role.id() - 1, Body::Entry(entry))
    }

    fn acknowledgement(&mut self) -> Event {
        self.acknowledged += 1;
        self.message(self.role.id() + 1, Body::Ack(self.acknowledged))
    }

    fn read(&mut self, number: u64) -> Event {
        self.asks += 1;
        Event::Ask(Ask::Read { mode: ReadMode::Strong, object: object(number) })
    }

    /// Returns reads of objects that no pending update writes.
    fn some_reads(&mut self, count: u64) -> Vec<Event> {
        (0..count).map(|_| { let number = self.chosen() + self.objects() / 2; self.read(number) }).collect()
    }

    /// Returns reads of the objects that were put last.
    fn reads_of_recent(&mut self) -> Vec<Event> {
        let recent = std::mem::take(&mut self.recent);
        recent.into_iter().map(|number| self.read(number)).collect()
    }

    /// Returns the tail's replies to the last `count` reads.
    fn answers(&self, count: u64) -> Vec<Event> {
        (0..count).map(|at| self.message(3, Body::VersionIs { ticket: self.asks - at, version: 0 })).collect()
    }

    fn some_puts(&mut self, count: u64) -> Vec<Event> {
        self.recent.clear();
        (0..count).map(|_| { let number = self.chosen(); self.recent.push(number); self.put(number) }).collect()
    }
}

/// A node and its counts: the steps it took, those refused, and their outputs.
struct Seen {
    node: Node,
    steps: u64,
    refused: u64,
    outs: u64,
}

impl Seen {
    fn take(&mut self, events: Vec<Event>) {
        for event in events {
            match self.node.step(event) {
                Ok(step) => {
                    self.steps += 1;
                    self.outs += step.outs.len() as u64;
                }
                Err(_) => self.refused += 1,
            }
        }
    }

    fn timed(&mut self, events: Vec<Event>) -> u64 {
        let start = thread_cpu_time();
        self.take(events);
        thread_cpu_time() - start
    }
}

fn measure(role: Role, objects: u64) {
    let members: &[NodeId] = if role == Role::Single { &[1] } else { &[1, 2, 3] };
    let node = Node::open(0, role.id(), Some(members));
    let mut seen = Seen { node, steps: 0, refused: 0, outs: 0 };
    let mut plan = Plan { role, versions: vec![0; objects as usize], chance: 1, puts: 0, acknowledged: 0, asks: 0, recent: Vec::new() };
    for number in 0..objects {
        let put = plan.put(number);
        seen.take(vec![put]);
        if role.is_acknowledged() {
            seen.take(vec![plan.acknowledgement()]);
        }
    }
    let mut held = 0;
    for waiting in WAITING {
        if waiting > 0 && !role.is_acknowledged() {
            continue;
        }
        seen.take(plan.some_puts(waiting - held));
        held = waiting;
        for _ in 0..LINES {
            let (mut puts, mut acknowledgements, mut reads, mut dirty) = (0, 0, 0, 0);
            for _ in 0..RUNS {
                puts += seen.timed(plan.some_puts(RUN));
                if role.is_acknowledged() {
                    dirty += seen.timed(plan.reads_of_recent());
                    seen.take(plan.answers(RUN));
                    acknowledgements += seen.timed((0..RUN).map(|_| plan.acknowledgement()).collect());
                }
                reads += seen.timed(plan.some_reads(RUN));
            }
            println!("{waiting} put {puts}");
            println!("{waiting} acknowledgement {acknowledgements}");
            println!("{waiting} read {reads}");
            println!("{waiting} dirty-read {dirty}");
        }
    }
    println!("did {} {} {}", seen.steps, seen.refused, seen.outs);
}


fn main() {
    let words: Vec<String> = std::env::args().skip(1).collect();
    match words.iter().map(String::as_str).collect::<Vec<_>>()[..] {
        ["measure", role, objects] => {
            let role = match role {
                "head" => Role::Head,
                "middle" => Role::Middle,
                "tail" => Role::Tail,
                _ => Role::Single,
            };
            measure(role, objects.parse().expect("a number of objects"));
        }
        ["script", seed, nodes, moves, script, printed] => {
            let nodes = nodes.parse().expect("a number of nodes");
            let made = plain_scripts::by_chance(seed.parse().expect("a seed"), nodes, moves.parse().expect("a number of moves"));
            fs::write(script, made.0).expect("a file for the script");
            fs::write(printed, made.1).expect("a file for what it prints");
        }
        _ => eprintln!("plain_main measure ROLE OBJECTS | script SEED NODES MOVES SCRIPT PRINTED"),
    }
}
