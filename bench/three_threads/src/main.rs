//! What it costs on this machine that a server of three threads only hands over: one reads, one takes what was read, one writes.
//!
//! `three_threads trips THREADS COUNT` prints the nanoseconds of a round trip of 30 bytes over loopback, as of a message and its reply.
//! `three_threads window THREADS MIB` prints those of so many MiB in frames of 16,384 bytes behind a window of 65,535 bytes, half of which
//! is given back at a time. THREADS is 1, 2 or 3: one that reads and writes, one that reads and one that writes, or all three.
//!
//! `three_threads connections` serves the listener that is its standard input, each connection by a thread that reads and one that writes
//! SETTINGS and their acknowledgement, and by a third one where a call comes with the first bytes, whose answer is that to an EmptyCall.

use std::io::{stdin, Read, Result, Write};
use std::net::{TcpListener, TcpStream};
use std::os::fd::AsFd;
use std::sync::atomic::{AtomicBool, AtomicU64, AtomicUsize, Ordering::SeqCst};
use std::sync::Arc;
use std::thread::{self, JoinHandle, Thread};
use std::time::Instant;

const HEAD: u64 = 9;
const FRAME: u64 = 16_384 + HEAD;
const WINDOW: u64 = 65_535 + 4 * HEAD;
/// A message of a trip, and the two frames that give credit back, on a stream and on the connection.
const MESSAGE: usize = 30;
const CREDIT: usize = 26;

/// How many bytes a thread was handed, and who is to be woken for them.
struct Stage {
    bytes: AtomicU64,
    next: Option<(Arc<Stage>, Thread)>,
}

impl Stage {
    fn hand_over(&self, bytes: u64) {
        self.bytes.store(bytes, SeqCst);
    }

    /// Waits until more was handed over than this.
    fn more_than(&self, bytes: u64) -> u64 {
        loop {
            let now = self.bytes.load(SeqCst);
            if now > bytes {
                return now;
            }
            thread::park();
        }
    }
}

/// What a thread does with all bytes that came so far: it hands them to the next, or writes.
fn pass_on(next: &Option<(Arc<Stage>, Thread)>, bytes: u64, write: &mut impl FnMut(u64)) {
    match next {
        Some((stage, thread)) => {
            stage.hand_over(bytes);
            thread.unpark();
        }
        None => write(bytes),
    }
}

/// A thread behind the reader, which writes where none is behind it.
fn start(next: Option<(Arc<Stage>, Thread)>, mut write: impl FnMut(u64) + Send + 'static) -> (Arc<Stage>, Thread) {
    let stage = Arc::new(Stage { bytes: AtomicU64::new(0), next });
    let own = Arc::clone(&stage);
    let handle = thread::spawn(move || {
        let mut seen = 0;
        loop {
            seen = own.more_than(seen);
            pass_on(&own.next, seen, &mut write);
        }
    });
    (stage, handle.thread().clone())
}

/// Reads to the end of a connection, and has what came answered: after each `least` bytes by a message of `answer` bytes.
fn serve(listener: TcpListener, threads: usize, least: u64, answer: usize) -> Result<()> {
    let (mut input, _) = listener.accept()?;
    input.set_nodelay(true)?;
    let mut output = input.try_clone()?;
    let mut answered = 0;
    let mut write = move |bytes: u64| {
        if bytes - answered >= least {
            let mut message = [0; MESSAGE];
            message[..8].copy_from_slice(&(bytes - answered).to_be_bytes());
            answered = bytes;
            // The client has gone where this fails.
            let _ = output.write_all(&message[..answer]);
        }
    };
    let mut piece = vec![0; 65_664];
    let mut came = 0;
    let mut next = None;
    let mut own: Box<dyn FnMut(u64)> = Box::new(|_| {});
    match threads {
        1 => own = Box::new(write),
        2 => next = Some(start(None, write)),
        _ => {
            let writer = start(None, move |bytes| write(bytes));
            next = Some(start(Some(writer), |_| {}));
        }
    }
    loop {
        let count = input.read(&mut piece)?;
        if count == 0 {
            return Ok(());
        }
        came += count as u64;
        pass_on(&next, came, &mut own);
    }
}

fn trips(mut server: TcpStream, count: u64) -> Result<()> {
    let mut message = [0; MESSAGE];
    for _ in 0..count {
        server.write_all(&message)?;
        server.read_exact(&mut message)?;
    }
    Ok(())
}

fn window(mut server: TcpStream, mib: u64) -> Result<()> {
    let frame = vec![0; FRAME as usize];
    let mut credit = WINDOW;
    for _ in 0..mib << 20 >> 14 {
        while credit < FRAME {
            let mut message = [0; CREDIT];
            server.read_exact(&mut message)?;
            let mut increment = [0; 8];
            increment.copy_from_slice(&message[..8]);
            credit += u64::from_be_bytes(increment);
        }
        server.write_all(&frame)?;
        credit -= FRAME;
    }
    Ok(())
}

/// Each of these is one empty frame; the second has the flag ACK.
const SETTINGS: &[u8] = &[0, 0, 0, 4, 0, 0, 0, 0, 0];
const ACKNOWLEDGED: &[u8] = &[0, 0, 0, 4, 1, 0, 0, 0, 0];
/// HEADERS, DATA with an empty message, and HEADERS with status 0, all of stream 1.
const ANSWER: &[u8] = b"\0\0\x0e\x01\x04\0\0\0\x01\x88\x5f\x8b\x1d\x75\xd0\x62\x0d\x26\x3d\x4c\x4d\x65\x64\
    \0\0\x05\0\0\0\0\0\x01\0\0\0\0\0\
    \0\0\x0c\x01\x05\0\0\0\x01\x40\x88\x9a\xca\xc8\xb2\x12\x34\xda\x8f\x01\x30";
/// How many bytes come first at least where a call is among them: more than the preface, SETTINGS and WINDOW_UPDATE.
const CALL: usize = 100;
/// How many threads whose connections have ended wait for a next one.
const MOST_WAITING: usize = 16;

/// What the threads of a connection tell each other.
struct Link {
    stream: TcpStream,
    has_come: AtomicBool,
    is_answered: AtomicBool,
    has_ended: AtomicBool,
}

fn connections() -> Result<()> {
    let listener = Arc::new(TcpListener::from(stdin().as_fd().try_clone_to_owned()?));
    let waiting = Arc::new(AtomicUsize::new(0));
    loop {
        let (stream, _) = listener.accept()?;
        let (listener, waiting) = (Arc::clone(&listener), Arc::clone(&waiting));
        thread::spawn(move || {
            let _ = read_all(stream);
            take_more(&listener, &waiting)
        });
    }
}

/// A thread whose connection has ended takes the next one, unless enough others wait for it.
fn take_more(listener: &TcpListener, waiting: &AtomicUsize) -> Result<()> {
    while waiting.fetch_add(1, SeqCst) < MOST_WAITING {
        let taken = listener.accept();
        waiting.fetch_sub(1, SeqCst);
        let _ = read_all(taken?.0);
    }
    waiting.fetch_sub(1, SeqCst);
    Ok(())
}

/// Reads to the end of a connection, beside a thread that writes and, where a call comes, one that answers.
fn read_all(stream: TcpStream) -> Result<()> {
    stream.set_nodelay(true)?;
    let new = || AtomicBool::new(false);
    let link = Arc::new(Link { stream, has_come: new(), is_answered: new(), has_ended: new() });
    let writer = write_all(Arc::clone(&link));
    let mut worker: Option<JoinHandle<()>> = None;
    let mut piece = [0; 2048];
    loop {
        let count = (&link.stream).read(&mut piece).unwrap_or(0);
        if count == 0 {
            break;
        }
        link.has_come.store(true, SeqCst);
        if count >= CALL && worker.is_none() {
            worker = Some(answer(Arc::clone(&link), writer.thread().clone()));
        }
        writer.thread().unpark();
    }
    link.has_ended.store(true, SeqCst);
    for thread in worker.into_iter().chain([writer]) {
        thread.thread().unpark();
        let _ = thread.join();
    }
    Ok(())
}

/// A thread that writes. Its client has gone where a write fails.
fn write_all(link: Arc<Link>) -> JoinHandle<()> {
    thread::spawn(move || {
        let mut left = [(&link.has_come, ACKNOWLEDGED), (&link.is_answered, ANSWER)].into_iter().peekable();
        let _ = (&link.stream).write_all(SETTINGS);
        while !link.has_ended.load(SeqCst) {
            while let Some((_, frames)) = left.next_if(|(is_due, _)| is_due.load(SeqCst)) {
                let _ = (&link.stream).write_all(frames);
            }
            thread::park();
        }
    })
}

/// A thread that answers a call, and waits for the next.
fn answer(link: Arc<Link>, writer: Thread) -> JoinHandle<()> {
    thread::spawn(move || {
        link.is_answered.store(true, SeqCst);
        writer.unpark();
        while !link.has_ended.load(SeqCst) {
            thread::park();
        }
    })
}

fn main() -> Result<()> {
    let words: Vec<String> = std::env::args().collect();
    if words.get(1).is_some_and(|it| it == "connections") {
        return connections();
    }
    let number = |at: usize| words.get(at).and_then(|it| it.parse().ok()).unwrap_or(1);
    let (is_window, threads, count) = (words.get(1).is_some_and(|it| it == "window"), number(2) as usize, number(3));
    let listener = TcpListener::bind("127.0.0.1:0")?;
    let server = TcpStream::connect(listener.local_addr()?)?;
    server.set_nodelay(true)?;
    let (least, answer) = if is_window { (WINDOW / 2, CREDIT) } else { (1, MESSAGE) };
    thread::spawn(move || serve(listener, threads, least, answer));
    let start = Instant::now();
    if is_window {
        window(server, count)?;
    } else {
        trips(server, count)?;
    }
    println!("{} ns", start.elapsed().as_nanos());
    Ok(())
}
