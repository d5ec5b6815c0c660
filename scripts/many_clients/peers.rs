//! Peers that misbehave, beside one that is served.

use crate::nfs_client::{
    Client, Op, Ops, Trouble, Words, call_record, check, open_stream, receive,
};
use crate::process::{Process, timer_of};
use std::io::{self, ErrorKind, Read, Write};
use std::net::{Shutdown, SocketAddr, TcpStream};
use std::thread;
use std::time::{Duration, Instant};

/// As many connections are served at once.
const PLACES: usize = 16;

/// How long one that is served may wait.
const PROMPT: Duration = Duration::from_secs(2);

/// How long a connection is left alone, to see whether something happens.
const WHILE: Duration = Duration::from_secs(1);

/// After how many seconds of quiet a connection may lose its place, and after how many one ends
/// that takes no reply. Both as seen from here, with what a busy machine adds.
const QUIET: [u64; 2] = [58, 80];

const DEAF: Duration = Duration::from_secs(140);

/// A server, and its process.
pub struct Server {
    pub address: SocketAddr,
    pub process: Process,
}

/// A check, and what it shows.
pub type Check = (&'static str, fn(&Server) -> Result<(), Trouble>);

pub const CHECKS: [Check; 10] = [
    (
        "half a record and silence: the others are served, and the rest is answered",
        half_a_record,
    ),
    (
        "garbage: its connection ends, and no other",
        garbage,
    ),
    (
        "a record byte by byte: it is answered",
        byte_by_byte,
    ),
    (
        "a half-close after 2000 requests: all are answered",
        half_close,
    ),
    (
        "no reply is read: the others are served, nothing is busy, and all come once they are read",
        unread,
    ),
    (
        "16 connections that say nothing: no processor time",
        silence,
    ),
    (
        "keepalive: its timer runs",
        keepalive,
    ),
    (
        "the 17th connection: it waits, and is served once another one ends",
        waits,
    ),
    (
        "the 17th connection: after a minute it has the place of the quietest, whose session stays",
        takes_a_place,
    ),
    (
        "no reply is read for two minutes: the connection ends",
        deaf,
    ),
];

/// A NULL call.
fn null(xid: u32) -> Vec<u8> {
    call_record(xid, None, &Words::default())
}

/// The reply to a NULL call, which is a record's body.
fn null_reply(xid: u32) -> Vec<u8> {
    let mut words = xid.to_be_bytes().to_vec();
    words.extend_from_slice(&[0, 0, 0, 1]);
    words.resize(24, 0);
    words
}

fn is_answered(stream: &mut TcpStream, xid: u32) -> Result<(), Trouble> {
    let reply = receive(stream)?;
    check(reply == null_reply(xid), || format!("{reply:x?} to {xid}"))
}

/// A connection over which a NULL call was answered.
fn guest(server: &Server) -> Result<TcpStream, Trouble> {
    let mut stream = open_stream(server.address)?;
    stream.write_all(&null(1))?;
    is_answered(&mut stream, 1)?;
    Ok(stream)
}

fn guests(server: &Server, count: usize) -> Result<Vec<TcpStream>, Trouble> {
    (0..count).map(|_| guest(server)).collect()
}

/// A client that is served, whatever others do.
struct Witness(Client);

impl Witness {
    fn new(server: &Server) -> Result<Witness, Trouble> {
        Ok(Witness(Client::connect(server.address, "witness", 900, true)?))
    }

    fn is_served(&mut self) -> Result<(), Trouble> {
        for _ in 0..100 {
            let start = Instant::now();
            self.ask()?;
            let time = start.elapsed();
            check(time < PROMPT, || format!("a reply after {time:?}"))?;
        }
        Ok(())
    }

    fn ask(&mut self) -> Result<(), Trouble> {
        let ops = Ops::new().put_root().get_attributes(&[0x18]);
        let mut results = self.0.ask(&ops)?;
        results.ok(Op::PutRootFh)?;
        results.ok(Op::GetAttr)
    }
}

/// The peer ended or reset the connection.
fn has_ended(stream: &mut TcpStream) -> Result<(), Trouble> {
    match stream.read(&mut [0; 64]) {
        Ok(0) => Ok(()),
        Ok(count) => Err(Trouble::Reply(format!("{count} bytes in place of the end"))),
        Err(error) if error.kind() == ErrorKind::ConnectionReset => Ok(()),
        Err(error) => Err(error.into()),
    }
}

/// Nothing comes for so long.
fn is_quiet(stream: &mut TcpStream, time: Duration) -> Result<(), Trouble> {
    let patience = stream.read_timeout()?;
    stream.set_read_timeout(Some(time))?;
    let outcome = stream.read(&mut [0; 64]);
    stream.set_read_timeout(patience)?;
    match outcome {
        Err(error) if is_wait(&error) => Ok(()),
        other => Err(Trouble::Reply(format!("{other:?} in place of silence"))),
    }
}

fn is_wait(error: &io::Error) -> bool {
    matches!(error.kind(), ErrorKind::WouldBlock | ErrorKind::TimedOut)
}

fn half_a_record(server: &Server) -> Result<(), Trouble> {
    let mut witness = Witness::new(server)?;
    let mut stream = open_stream(server.address)?;
    let record = null(1);
    stream.write_all(&record[..20])?;
    witness.is_served()?;
    is_quiet(&mut stream, WHILE)?;
    witness.is_served()?;
    stream.write_all(&record[20..])?;
    is_answered(&mut stream, 1)?;
    witness.0.end()
}

fn garbage(server: &Server) -> Result<(), Trouble> {
    let mut witness = Witness::new(server)?;
    // A record too long; a request of another protocol; a whole record that is no call.
    let mut no_call = null(1);
    no_call[11] = 7;
    let kinds: [&[u8]; 3] = [&[0xff; 64], b"GET / HTTP/1.1\r\n\r\n", &no_call];
    for bytes in kinds {
        let mut stream = open_stream(server.address)?;
        stream.write_all(bytes)?;
        has_ended(&mut stream)?;
        witness.is_served()?;
    }
    witness.0.end()
}

fn byte_by_byte(server: &Server) -> Result<(), Trouble> {
    let mut witness = Witness::new(server)?;
    let mut stream = open_stream(server.address)?;
    for byte in null(1) {
        stream.write_all(&[byte])?;
        witness.ask()?;
    }
    is_answered(&mut stream, 1)?;
    witness.0.end()
}

fn half_close(server: &Server) -> Result<(), Trouble> {
    let mut stream = open_stream(server.address)?;
    let records: Vec<u8> = (0..2000).flat_map(null).collect();
    stream.write_all(&records)?;
    stream.shutdown(Shutdown::Write)?;
    for xid in 0..2000 {
        is_answered(&mut stream, xid)?;
    }
    has_ended(&mut stream)
}

/// Sends NULL calls and reads nothing, until no more can be sent: the calls that were sent whole,
/// and the rest of the one that was not.
fn fill(stream: &mut TcpStream) -> Result<(u32, Vec<u8>), Trouble> {
    stream.set_write_timeout(Some(WHILE))?;
    for xid in 0..u32::MAX {
        let mut rest = null(xid);
        while !rest.is_empty() {
            match stream.write(&rest) {
                Ok(count) => {
                    rest.drain(..count);
                }
                Err(error) if is_wait(&error) => return Ok((xid, rest)),
                Err(error) => return Err(error.into()),
            }
        }
    }
    Err(Trouble::Reply("a peer that takes all".to_string()))
}

fn unread(server: &Server) -> Result<(), Trouble> {
    let mut witness = Witness::new(server)?;
    let mut stream = open_stream(server.address)?;
    let (count, rest) = fill(&mut stream)?;
    witness.is_served()?;
    is_idle(server)?;
    let mut writer = stream.try_clone()?;
    writer.set_write_timeout(None)?;
    let sending = thread::spawn(move || writer.write_all(&rest));
    for xid in 0..=count {
        is_answered(&mut stream, xid)?;
    }
    let sent = sending.join().expect("a thread that ends");
    sent?;
    witness.is_served()?;
    witness.0.end()
}

/// In a second the server takes next to no processor time.
fn is_idle(server: &Server) -> Result<(), Trouble> {
    let before = server.process.processor()?;
    thread::sleep(WHILE);
    let hundredths = server.process.processor()? - before;
    check(hundredths <= 2, || {
        format!("{hundredths} hundredths of a second while nothing happens")
    })
}

fn silence(server: &Server) -> Result<(), Trouble> {
    let _guests = guests(server, PLACES)?;
    is_idle(server)
}

fn keepalive(server: &Server) -> Result<(), Trouble> {
    let stream = guest(server)?;
    thread::sleep(WHILE);
    let timer = timer_of(server.address, &stream)?;
    check(timer.starts_with("02:"), || format!("timer {timer}"))
}

fn waits(server: &Server) -> Result<(), Trouble> {
    let mut witness = Witness::new(server)?;
    let others = guests(server, PLACES - 1)?;
    let mut last = open_stream(server.address)?;
    last.write_all(&null(1))?;
    is_quiet(&mut last, WHILE)?;
    witness.is_served()?;
    drop(others);
    is_answered(&mut last, 1)?;
    witness.0.end()
}

fn takes_a_place(server: &Server) -> Result<(), Trouble> {
    let mut quietest = Witness::new(server)?;
    quietest.ask()?;
    let start = Instant::now();
    thread::sleep(WHILE);
    let mut half = open_stream(server.address)?;
    let record = null(1);
    half.write_all(&record[..20])?;
    let mut others = guests(server, PLACES - 2)?;
    let mut last = open_stream(server.address)?;
    last.set_read_timeout(Some(Duration::from_secs(QUIET[1])))?;
    last.write_all(&null(1))?;
    is_answered(&mut last, 1)?;
    let time = start.elapsed().as_secs();
    check((QUIET[0]..QUIET[1]).contains(&time), || {
        format!("a place after {time} seconds")
    })?;
    has_ended(&mut quietest.0.stream)?;
    half.write_all(&record[20..])?;
    is_answered(&mut half, 1)?;
    for stream in &mut others {
        stream.write_all(&null(2))?;
        is_answered(stream, 2)?;
    }
    others.clear();
    quietest.0.stream = open_stream(server.address)?;
    quietest.ask()?;
    quietest.0.end()
}

fn deaf(server: &Server) -> Result<(), Trouble> {
    let mut witness = Witness::new(server)?;
    let mut stream = open_stream(server.address)?;
    fill(&mut stream)?;
    thread::sleep(DEAF);
    // What came before stands in the system here. Then comes the end.
    let mut bytes = vec![0; 1 << 20];
    let outcome = loop {
        match stream.read(&mut bytes) {
            Ok(0) => break Ok(()),
            Ok(_) => {}
            Err(error) => break Err(error),
        }
    };
    witness.is_served()?;
    witness.0.end()?;
    match outcome {
        Err(error) if is_wait(&error) => Err(Trouble::Reply("a connection that stays".to_string())),
        _ => Ok(()),
    }
}
