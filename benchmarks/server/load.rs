//! A load client on std alone: connections with at most one request under way each, over random keys.
//!
//!     rustc -O --edition 2024 load.rs
//!     ./load craq 127.0.0.1:7000 puts 50 2
//!     ./load redis 127.0.0.1:6379 half 200 2 --keys 1
//!     ./load craq 127.0.0.1:7000 puts 50 2 --rate 20000
//!     ./load craq 127.0.0.1:7000 fill 50 0 --keys 1000000
//!
//! The arguments are the server (`craq`, `redis`, `memcached` by its text protocol, `etcd` by its JSON gateway), its address,
//! the mix of requests, the number of connections, and the seconds to measure. The mixes:
//!
//!     reads-one   strong reads at the head           tenth   a tenth puts, the rest strong reads at the head
//!     reads-all   strong reads at all three nodes    many    eight puts in one request, counted as one
//!     puts        puts at the head                   half    puts at the head and strong reads at all nodes, by turns
//!     fill        one put of each key, whatever      half-one    the same, with reads at the head
//!                 the seconds
//!
//! Options: `--keys N` random keys out of N, 10,000 by default; `--size N` bytes of a value, 16 by default; `--chains N` the
//! chains that the keys are spread over, 1 by default; `--threads N` threads that share the connections and wait by `poll`,
//! by default a thread for each connection; `--rate N` an open loop with N requests a second, spread evenly over the
//! connections; `--filled yes` for keys that have been written. Otherwise each key is written once before the measurement.
//!
//! Prints replies, replies a second, and the latencies in microseconds: median, 99th and 99.9th percentile, maximum. In a
//! closed loop a latency counts from the request, in an open loop from the moment that the request was due.

mod protocols;

use protocols::{Keys, Kind, Protocol, Readers, Setting, protocol};
use std::ffi::{c_int, c_short, c_ulong};
use std::io::{Error, ErrorKind, Read, Result, Write};
use std::net::TcpStream;
use std::os::fd::AsRawFd;
use std::sync::Barrier;
use std::time::{Duration, Instant, SystemTime, UNIX_EPOCH};
use std::{env, process, thread};

#[derive(Clone, Copy, PartialEq)]
enum Mix {
    ReadsOne,
    ReadsAll,
    Puts,
    Tenth,
    Half,
    HalfOne,
    Many,
    Fill,
}

impl Mix {
    const NAMES: [(&str, Mix); 8] = [
        ("reads-one", Mix::ReadsOne),
        ("reads-all", Mix::ReadsAll),
        ("puts", Mix::Puts),
        ("tenth", Mix::Tenth),
        ("half", Mix::Half),
        ("half-one", Mix::HalfOne),
        ("many", Mix::Many),
        ("fill", Mix::Fill),
    ];

    fn of(name: &str) -> Option<Mix> {
        Mix::NAMES.iter().find(|it| it.0 == name).map(|it| it.1)
    }

    /// Returns the kind of a connection's request by its number.
    fn kind(self, number: usize) -> Kind {
        match self {
            Mix::ReadsOne | Mix::ReadsAll => Kind::Read,
            Mix::Puts | Mix::Fill => Kind::Put,
            Mix::Tenth if number.is_multiple_of(10) => Kind::Put,
            Mix::Half | Mix::HalfOne if number.is_multiple_of(2) => Kind::Put,
            Mix::Tenth | Mix::Half | Mix::HalfOne => Kind::Read,
            Mix::Many => Kind::Many,
        }
    }

    fn readers(self) -> Readers {
        if matches!(self, Mix::ReadsAll | Mix::Half) { Readers::All } else { Readers::Head }
    }
}

/// A descriptor as the C library's `poll` takes it. std links that library and has no call of its own for it.
#[repr(C)]
struct Polled {
    fd: c_int,
    wanted: c_short,
    found: c_short,
}

unsafe extern "C" {
    fn poll(all: *mut Polled, count: c_ulong, milliseconds: c_int) -> c_int;
    fn prctl(option: c_int, value: c_ulong, ...) -> c_int;
}

/// The event that there is something to read. A descriptor `NOT_POLLED` is left out.
const READABLE: c_short = 1;
const NOT_POLLED: c_int = -1;
/// Milliseconds without a reply on any connection after which a thread gives up.
const SILENCE: c_int = 10_000;
/// An open loop that a server does not keep up with ends after this many times the span that was asked for.
const MOST_SPANS: u32 = 3;
/// Linux wakes a sleeping thread up to this option's nanoseconds late, 50,000 by default.
const PR_SET_TIMERSLACK: c_int = 29;

/// A connection with at most one request under way.
struct Connection {
    stream: TcpStream,
    protocol: Box<dyn Protocol>,
    keys: Keys,
    kind: Kind,
    out: Vec<u8>,
    reply: Vec<u8>,
    got: usize,
}

impl Connection {
    fn open(address: &str, protocol: Box<dyn Protocol>, keys: Keys) -> Result<Connection> {
        let stream = TcpStream::connect(address)?;
        stream.set_nodelay(true)?;
        Ok(Connection { stream, protocol, keys, kind: Kind::Read, out: Vec::new(), reply: vec![0; 16384], got: 0 })
    }

    /// Sends a request for random keys.
    fn ask(&mut self, kind: Kind) -> Result<()> {
        (self.kind, self.got) = (kind, 0);
        self.out.clear();
        let keys = &mut self.keys;
        self.protocol.request(kind, &mut || keys.next(), &mut self.out);
        self.stream.write_all(&self.out)
    }

    /// Reads once, and returns whether the reply is whole.
    fn hears(&mut self) -> Result<bool> {
        match self.stream.read(&mut self.reply[self.got..])? {
            0 => return Err(ErrorKind::UnexpectedEof.into()),
            more => self.got += more,
        }
        let begun = &self.reply[..self.got];
        let is_whole = self.protocol.size(self.kind, begun).is_some_and(|size| self.got >= size);
        if is_whole {
            self.protocol.take(self.kind, begun)?;
        }
        Ok(is_whole)
    }

    fn waits_for_reply(&mut self) -> Result<()> {
        while !self.hears()? {}
        Ok(())
    }

    /// Writes one key.
    fn put(&mut self, key: u64) -> Result<()> {
        (self.kind, self.got) = (Kind::Put, 0);
        self.out.clear();
        self.protocol.request(Kind::Put, &mut || key, &mut self.out);
        self.stream.write_all(&self.out)?;
        self.waits_for_reply()
    }
}

/// A run: the command line.
#[derive(Clone)]
struct Load {
    setting: Setting,
    address: String,
    mix: Mix,
    connections: usize,
    span: Duration,
    /// Threads that share the connections; 0 for a thread for each connection.
    threads: usize,
    /// Requests a second of an open loop; 0 for a closed loop.
    rate: f64,
    is_filled: bool,
    /// The first client id of the run, above those of earlier runs: nanoseconds since 1970.
    client: u64,
}

impl Load {
    /// Opens a connection. Its client id is unique on the server if `first` is another number for each use of `at`.
    fn open(&self, at: usize, first: u64) -> Result<Connection> {
        let protocol = protocol(&self.setting, self.mix.readers(), at, first + at as u64);
        Connection::open(&self.address, protocol, Keys::new(at as u64, self.setting.keys))
    }

    /// Writes each key once.
    fn fill(&self) -> Result<()> {
        let writers = self.connections.min(self.setting.keys as usize);
        let first = self.client + self.connections as u64;
        thread::scope(|scope| {
            let all: Vec<_> = (0..writers)
                .map(|at| {
                    scope.spawn(move || {
                        let mut one = self.open(at, first)?;
                        (at as u64..self.setting.keys).step_by(writers).try_for_each(|key| one.put(key))
                    })
                })
                .collect();
            all.into_iter().try_for_each(|it| it.join().expect("a thread that writes"))
        })
    }

    /// Returns the latencies of a connection's requests in a closed loop.
    fn closed(&self, at: usize, one: &mut Connection) -> Result<Vec<Duration>> {
        let (began, mut times) = (Instant::now(), Vec::with_capacity(1 << 18));
        loop {
            let before = began.elapsed();
            if before >= self.span {
                return Ok(times);
            }
            one.ask(self.mix.kind(at + times.len()))?;
            one.waits_for_reply()?;
            times.push(began.elapsed() - before);
        }
    }

    /// Returns the latencies of a connection's requests in an open loop: from the moment that each was due.
    fn paced(&self, at: usize, one: &mut Connection) -> Result<Vec<Duration>> {
        // SAFETY: this sets a number of the calling thread.
        unsafe { prctl(PR_SET_TIMERSLACK, 1 as c_ulong) };
        let gap = self.connections as f64 / self.rate;
        let (began, mut times) = (Instant::now(), Vec::with_capacity(1 << 16));
        loop {
            let due = Duration::from_secs_f64((times.len() as f64 + at as f64 / self.connections as f64) * gap);
            if due >= self.span || began.elapsed() > MOST_SPANS * self.span {
                return Ok(times);
            }
            if let Some(early) = due.checked_sub(began.elapsed()) {
                thread::sleep(early);
            }
            one.ask(self.mix.kind(at + times.len()))?;
            one.waits_for_reply()?;
            times.push(began.elapsed().saturating_sub(due));
        }
    }

    /// Returns the latencies of the requests of several connections in a closed loop, each asking again once it is answered.
    fn shared(&self, several: &mut [Connection]) -> Result<Vec<Duration>> {
        let (began, mut times) = (Instant::now(), Vec::with_capacity(1 << 20));
        let mut polled: Vec<_> =
            several.iter().map(|it| Polled { fd: it.stream.as_raw_fd(), wanted: READABLE, found: 0 }).collect();
        let mut asked = vec![Duration::ZERO; several.len()];
        let mut sent = 0;
        for it in several.iter_mut() {
            it.ask(self.mix.kind(sent))?;
            sent += 1;
        }
        while sent > times.len() {
            // SAFETY: `polled` has this length, and nothing else refers to it during the call.
            match unsafe { poll(polled.as_mut_ptr(), polled.len() as c_ulong, SILENCE) } {
                0 => return Err(ErrorKind::TimedOut.into()),
                found if found < 0 => return Err(Error::last_os_error()),
                _ => {}
            }
            for (at, it) in several.iter_mut().enumerate() {
                if polled[at].found == 0 || !it.hears()? {
                    continue;
                }
                let now = began.elapsed();
                times.push(now - asked[at]);
                if now < self.span {
                    asked[at] = now;
                    it.ask(self.mix.kind(sent))?;
                    sent += 1;
                } else {
                    polled[at].fd = NOT_POLLED;
                }
            }
        }
        Ok(times)
    }

    /// Runs the connections of one thread: each `step`th from this one on.
    fn run_from(&self, first: usize, step: usize, begin: &Barrier) -> Result<Vec<Duration>> {
        let made: Result<Vec<_>> = (first..self.connections).step_by(step).map(|at| self.open(at, self.client)).collect();
        begin.wait();
        match made?.as_mut_slice() {
            [one] if self.rate > 0.0 => self.paced(first, one),
            [one] => self.closed(first, one),
            several => self.shared(several),
        }
    }

    /// Returns all latencies, and the time that the run took.
    fn latencies(&self) -> Result<(Vec<Duration>, Duration)> {
        let threads = if self.threads == 0 { self.connections } else { self.threads.min(self.connections) };
        let begin = Barrier::new(threads + 1);
        thread::scope(|scope| {
            let begin = &begin;
            let threads: Vec<_> =
                (0..threads).map(|first| scope.spawn(move || self.run_from(first, threads, begin))).collect();
            begin.wait();
            let (began, mut all) = (Instant::now(), Vec::new());
            for it in threads {
                all.extend(it.join().expect("a thread of connections")?);
            }
            Ok((all, began.elapsed()))
        })
    }

    fn run(&self) -> Result<()> {
        if self.mix == Mix::Fill || !self.is_filled {
            self.fill()?;
        }
        if self.mix == Mix::Fill {
            return Ok(());
        }
        let (mut all, took) = self.latencies()?;
        if all.is_empty() {
            return Err(Error::new(ErrorKind::TimedOut, "no reply came"));
        }
        all.sort_unstable();
        let at = |part: f64| all[((all.len() - 1) as f64 * part) as usize].as_nanos() as f64 / 1000.0;
        let rate = all.len() as f64 / took.as_secs_f64();
        println!("{} {rate:.0} {:.1} {:.1} {:.1} {:.1}", all.len(), at(0.5), at(0.99), at(0.999), at(1.0));
        Ok(())
    }
}

/// Returns the value of an option, or `usual` if it is not given; `None` if its word is no number.
fn number<T: std::str::FromStr>(options: &[String], name: &str, usual: T) -> Option<T> {
    match options.chunks(2).find(|it| it[0] == name) {
        Some(it) => it.get(1)?.parse().ok(),
        None => Some(usual),
    }
}

/// Parses the command line.
fn load_of(words: &[String]) -> Option<Load> {
    const OPTIONS: [&str; 6] = ["--keys", "--size", "--chains", "--threads", "--rate", "--filled"];
    let [server, address, mix, connections, seconds, options @ ..] = words else {
        return None;
    };
    if options.chunks(2).any(|it| it.len() < 2 || !OPTIONS.contains(&it[0].as_str())) {
        return None;
    }
    let setting = Setting {
        server: server.clone(),
        size: number(options, "--size", 16)?,
        chains: number(options, "--chains", 1).filter(|it| *it > 0)?,
        keys: number(options, "--keys", 10_000).filter(|it| *it > 0)?,
    };
    Some(Load {
        setting,
        address: address.clone(),
        mix: Mix::of(mix)?,
        connections: connections.parse().ok().filter(|it| *it > 0)?,
        span: Duration::try_from_secs_f64(seconds.parse().ok()?).ok()?,
        threads: number(options, "--threads", 0)?,
        rate: number(options, "--rate", 0.0)?,
        is_filled: options.iter().any(|it| it == "--filled"),
        client: SystemTime::now().duration_since(UNIX_EPOCH).ok()?.as_nanos() as u64,
    })
}

fn main() {
    let words: Vec<String> = env::args().skip(1).collect();
    let usable = load_of(&words).filter(|it| it.rate <= 0.0 || it.threads == 0);
    let Some(load) = usable else {
        let mixes: Vec<_> = Mix::NAMES.iter().map(|it| it.0).collect();
        eprintln!("load craq|redis|memcached|etcd ADDRESS {} CONNECTIONS SECONDS", mixes.join("|"));
        eprintln!("    [--keys N] [--size N] [--chains N] [--threads N, or --rate N] [--filled yes]");
        process::exit(2);
    };
    if let Err(fault) = load.run() {
        eprintln!("load: {fault}");
        process::exit(1);
    }
}
