//! Latencies of one client with one request at a time, beside connections that pipeline.
//!
//!     rustc -O --edition 2024 beside.rs
//!     ./beside craq 127.0.0.1:7000 put 50 32 1
//!
//! The arguments are the server, as for load.rs, and its address; `put` or `read`, at the head; the number of connections
//! beside the client, 0 for none; the requests that each of them keeps under way; and the seconds to measure. They ask what
//! the client asks; with `put:read` it puts while they read. Two threads serve them by `poll`. Keys are random out of
//! 10,000, which have to be written (`load .. fill`).
//!
//! Where the system allows it, the client's thread has real-time priority above the others (60): the time that it waits for
//! a processor is not the server's. Start the server with 50 and this program with 40, as `chrt -f 40 ./beside ..`.
//!
//! Prints the requests of the client, its latencies in microseconds (median, 99th and 99.9th percentile), and the
//! replies a second of the others.

mod protocols;

use protocols::{Keys, Kind, Protocol, Readers, Setting, protocol};
use std::ffi::{c_int, c_short, c_ulong};
use std::io::{ErrorKind, Read, Result, Write};
use std::net::TcpStream;
use std::os::fd::AsRawFd;
use std::sync::atomic::{AtomicBool, AtomicU64, Ordering};
use std::time::{Duration, Instant, SystemTime, UNIX_EPOCH};
use std::{env, thread};

const KEYS: u64 = 10_000;
const THREADS: usize = 2;
/// The time that the other connections have before the client is measured.
const WARM_UP: Duration = Duration::from_millis(500);
/// The real-time priority of the client, and the policy that it is of (`SCHED_FIFO`).
const FIRST: c_int = 60;
const POLICY: c_int = 1;
const READABLE: c_short = 1;
const WRITABLE: c_short = 4;

/// A descriptor as the C library's `poll` takes it.
#[repr(C)]
struct Polled {
    fd: c_int,
    wanted: c_short,
    found: c_short,
}

unsafe extern "C" {
    fn sched_setscheduler(thread: c_int, policy: c_int, priority: *const c_int) -> c_int;
    fn poll(all: *mut Polled, count: c_ulong, milliseconds: c_int) -> c_int;
}

/// A connection that pipelines.
struct Pipeline {
    stream: TcpStream,
    protocol: Box<dyn Protocol>,
    keys: Keys,
    out: Vec<u8>,
    written: usize,
    input: Vec<u8>,
    under_way: usize,
}

impl Pipeline {
    /// Adds requests until the window is full, if half of it is free. Returns what to wait for.
    fn wants(&mut self, kind: Kind, window: usize) -> c_short {
        if self.under_way <= window / 2 {
            for _ in self.under_way..window {
                let keys = &mut self.keys;
                self.protocol.request(kind, &mut || keys.next(), &mut self.out);
            }
            self.under_way = window;
        }
        if self.written < self.out.len() { READABLE | WRITABLE } else { READABLE }
    }

    fn write(&mut self) -> Result<()> {
        self.written += self.stream.write(&self.out[self.written..])?;
        if self.written == self.out.len() {
            (self.out, self.written) = (Vec::new(), 0);
        }
        Ok(())
    }

    /// Reads once. Returns the number of whole replies that came.
    fn read(&mut self, kind: Kind, chunk: &mut [u8]) -> Result<u64> {
        match self.stream.read(chunk)? {
            0 => return Err(ErrorKind::UnexpectedEof.into()),
            more => self.input.extend(&chunk[..more]),
        }
        let (mut at, mut count) = (0, 0);
        while let Some(size) = self.protocol.size(kind, &self.input[at..]).filter(|it| at + it <= self.input.len()) {
            self.protocol.take(kind, &self.input[at..at + size])?;
            (at, count) = (at + size, count + 1);
        }
        self.input.drain(..at);
        self.under_way -= count as usize;
        Ok(count)
    }
}

/// Returns the default if the socket was not ready.
fn unless_blocked<T: Default>(result: Result<T>) -> Result<T> {
    result.or_else(|error| if error.kind() == ErrorKind::WouldBlock { Ok(T::default()) } else { Err(error) })
}

/// The command line.
struct Run {
    setting: Setting,
    address: String,
    kind: Kind,
    /// The kind of request of the other connections.
    others: Kind,
    connections: usize,
    window: usize,
    span: Duration,
    /// The first client id, above those of earlier runs.
    client: u64,
}

impl Run {
    fn connect(&self) -> Result<TcpStream> {
        let stream = TcpStream::connect(&self.address)?;
        stream.set_nodelay(true)?;
        Ok(stream)
    }

    fn pipeline(&self, at: usize) -> Result<Pipeline> {
        let stream = self.connect()?;
        stream.set_nonblocking(true)?;
        Ok(Pipeline {
            stream,
            protocol: protocol(&self.setting, Readers::Head, at, self.client + 1 + at as u64),
            keys: Keys::new(at as u64, self.setting.keys),
            out: Vec::new(),
            written: 0,
            input: Vec::new(),
            under_way: 0,
        })
    }

    /// Keeps requests of every `THREADS`th connection under way until the end.
    fn load(&self, first: usize, ended: &AtomicBool, replies: &AtomicU64) -> Result<()> {
        let all: Result<Vec<_>> = (first..self.connections).step_by(THREADS).map(|at| self.pipeline(at)).collect();
        let (mut all, mut chunk) = (all?, vec![0; 1 << 16]);
        while !all.is_empty() && !ended.load(Ordering::Relaxed) {
            let mut polled: Vec<_> = (all.iter_mut())
                .map(|it| Polled { fd: it.stream.as_raw_fd(), wanted: it.wants(self.others, self.window), found: 0 })
                .collect();
            // SAFETY: `polled` has this length, and nothing else refers to it during the call.
            unsafe { poll(polled.as_mut_ptr(), polled.len() as c_ulong, 1000) };
            for (it, polled) in all.iter_mut().zip(&polled) {
                if polled.found & WRITABLE != 0 {
                    unless_blocked(it.write())?;
                }
                if polled.found & READABLE != 0 {
                    let count = unless_blocked(it.read(self.others, &mut chunk))?;
                    replies.fetch_add(count, Ordering::Relaxed);
                }
            }
        }
        Ok(())
    }

    /// Returns the latencies of the one client.
    fn measure(&self) -> Result<Vec<Duration>> {
        // SAFETY: the system only reads the priority, of this thread (0). Without the right it changes nothing.
        unsafe { sched_setscheduler(0, POLICY, &FIRST) };
        let (mut stream, mut keys) = (self.connect()?, Keys::new(self.connections as u64, self.setting.keys));
        let mut protocol = protocol(&self.setting, Readers::Head, 0, self.client);
        let (began, mut times, mut out, mut reply) = (Instant::now(), Vec::new(), Vec::new(), vec![0; 1 << 14]);
        while began.elapsed() < self.span {
            let before = Instant::now();
            out.clear();
            protocol.request(self.kind, &mut || keys.next(), &mut out);
            stream.write_all(&out)?;
            let mut got = 0;
            while protocol.size(self.kind, &reply[..got]).is_none_or(|size| got < size) {
                match stream.read(&mut reply[got..])? {
                    0 => return Err(ErrorKind::UnexpectedEof.into()),
                    more => got += more,
                }
            }
            protocol.take(self.kind, &reply[..got])?;
            times.push(before.elapsed());
        }
        Ok(times)
    }

    fn run(&self) -> Result<()> {
        let (ended, replies) = (AtomicBool::new(false), AtomicU64::new(0));
        thread::scope(|scope| {
            let (ended, replies) = (&ended, &replies);
            let threads: Vec<_> = (0..THREADS).map(|first| scope.spawn(move || self.load(first, ended, replies))).collect();
            thread::sleep(WARM_UP);
            let before = replies.load(Ordering::Relaxed);
            let times = self.measure();
            let others = replies.load(Ordering::Relaxed) - before;
            ended.store(true, Ordering::Relaxed);
            threads.into_iter().try_for_each(|it| it.join().expect("a thread of connections"))?;
            let mut times = times?;
            times.sort_unstable();
            let at = |part: f64| times[((times.len() - 1) as f64 * part) as usize].as_nanos() as f64 / 1000.0;
            let rate = others as f64 / self.span.as_secs_f64();
            println!("{} {:.1} {:.1} {:.1} {rate:.0}", times.len(), at(0.5), at(0.99), at(0.999));
            Ok(())
        })
    }
}

fn main() -> Result<()> {
    let words: Vec<String> = env::args().skip(1).collect();
    let [server, address, kind, connections, window, seconds] = words.as_slice() else {
        eprintln!("beside craq|redis|memcached ADDRESS put|read|put:read|read:put CONNECTIONS REQUESTS SECONDS");
        std::process::exit(2);
    };
    let bad = |_| ErrorKind::InvalidInput;
    let asked = |word: &str| if word == "put" { Kind::Put } else { Kind::Read };
    let (own, others) = kind.split_once(':').unwrap_or((kind, kind));
    let run = Run {
        setting: Setting { server: server.clone(), size: 16, chains: 1, keys: KEYS },
        address: address.clone(),
        kind: asked(own),
        others: asked(others),
        connections: connections.parse().map_err(bad)?,
        window: window.parse().map_err(bad)?,
        span: Duration::from_secs_f64(seconds.parse().map_err(|_| ErrorKind::InvalidInput)?),
        client: SystemTime::now().duration_since(UNIX_EPOCH).expect("a clock after 1970").as_nanos() as u64,
    };
    run.run()
}
