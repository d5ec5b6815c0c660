//! Requests whose connection breaks: each is sent again, over a new one, on its slot.

use crate::choices::Choices;
use crate::nfs_client::{
    Client, Op, Ops, Results, SLOTS, Status, Trouble, check, open_stream, receive, skip_sequence,
};
use crate::socket::reset;
use std::io::{Read, Write};
use std::mem;
use std::thread;
use std::time::Duration;

/// Once in so many requests something befalls one.
const SELDOM: usize = 16;

/// How often a request is sent that finds its slot running, and the pause after each.
const TRIES: u32 = 20_000;

const PAUSE: Duration = Duration::from_micros(500);

/// What befalls a request.
#[derive(Clone, Copy, Debug)]
enum Mishap {
    /// It comes in small pieces.
    Pieces,
    /// It comes in several fragments.
    Fragments,
    /// Its connection is reset before all of it was sent.
    InRequest,
    /// Its connection is reset before anything was read of its reply.
    BeforeReply,
    /// Its connection is reset when a part of its reply was read.
    InReply,
    /// Its connection is reset after its reply, and it is sent again.
    AfterReply,
    /// It is sent again over the same connection.
    Twice,
}

const MISHAPS: [Mishap; 7] = [
    Mishap::Pieces,
    Mishap::Fragments,
    Mishap::InRequest,
    Mishap::BeforeReply,
    Mishap::InReply,
    Mishap::AfterReply,
    Mishap::Twice,
];

/// How many there were.
#[derive(Clone, Copy, Debug, Default)]
pub struct Tally {
    pub requests: u64,
    pub resets: u64,
    /// Requests that were sent again.
    pub repeats: u64,
    /// Answers that a slot runs the request still.
    pub delays: u64,
}

impl Tally {
    pub fn add(&mut self, other: Tally) {
        self.requests += other.requests;
        self.resets += other.resets;
        self.repeats += other.repeats;
        self.delays += other.delays;
    }
}

/// A client whose connections break.
pub struct Link {
    pub client: Client,
    pub tally: Tally,
    choices: Choices,
}

impl Link {
    pub fn new(client: Client, choices: Choices) -> Link {
        Link {
            client,
            tally: Tally::default(),
            choices,
        }
    }

    /// A COMPOUND on any slot: its results after that of its SEQUENCE. However often it is sent, it
    /// has run once.
    pub fn ask(&mut self, ops: &Ops) -> Result<Results, Trouble> {
        let slot = self.choices.below(SLOTS);
        let (record, xid) = self.client.request(slot, ops);
        self.tally.requests += 1;
        let reply = if self.choices.once_in(SELDOM) {
            let mishap = self.choices.of(&MISHAPS);
            self.suffer(mishap, &record)
                .map_err(|trouble| Trouble::Reply(format!("{mishap:?}: {trouble}")))?
        } else {
            self.client.carry(&record)?
        };
        let mut results = Results::of(reply, xid)?;
        results.ok(Op::Sequence)?;
        skip_sequence(&mut results)?;
        Ok(results)
    }

    fn suffer(&mut self, mishap: Mishap, record: &[u8]) -> Result<Vec<u8>, Trouble> {
        match mishap {
            Mishap::Pieces => self.send_pieces(record),
            Mishap::Fragments => Ok(self.client.carry(&in_fragments(record))?),
            Mishap::InRequest => {
                let part = self.choices.below(record.len());
                self.client.stream.write_all(&record[..part])?;
                self.break_off()?;
                self.send_again(record)
            }
            Mishap::BeforeReply => {
                self.client.stream.write_all(record)?;
                self.rest();
                self.break_off()?;
                self.send_again(record)
            }
            Mishap::InReply => self.read_part(record),
            Mishap::AfterReply => {
                let first = self.client.carry(record)?;
                self.break_off()?;
                self.is_repeated(record, first)
            }
            Mishap::Twice => {
                let first = self.client.carry(record)?;
                self.is_repeated(record, first)
            }
        }
    }

    fn send_pieces(&mut self, record: &[u8]) -> Result<Vec<u8>, Trouble> {
        let size = 1 + self.choices.below(64);
        for piece in record.chunks(size) {
            self.client.stream.write_all(piece)?;
        }
        Ok(receive(&mut self.client.stream)?)
    }

    /// The reply is read in part before the connection is reset. The one that comes again begins
    /// with that part.
    fn read_part(&mut self, record: &[u8]) -> Result<Vec<u8>, Trouble> {
        let mut header = [0; 4];
        self.client.stream.write_all(record)?;
        self.client.stream.read_exact(&mut header)?;
        let len = u32::from_be_bytes(header) & 0x7fff_ffff;
        let mut part = vec![0; self.choices.below(len as usize)];
        self.client.stream.read_exact(&mut part)?;
        self.break_off()?;
        let reply = self.send_again(record)?;
        check(
            reply.len() == len as usize && reply.starts_with(&part),
            || "another reply".to_string(),
        )?;
        Ok(reply)
    }

    fn is_repeated(&mut self, record: &[u8], first: Vec<u8>) -> Result<Vec<u8>, Trouble> {
        let again = self.send_again(record)?;
        check(again == first, || "another reply".to_string())?;
        Ok(again)
    }

    /// Sends a request that may have been sent before, until its slot does not run it any more.
    fn send_again(&mut self, record: &[u8]) -> Result<Vec<u8>, Trouble> {
        self.tally.repeats += 1;
        for _ in 0..TRIES {
            let reply = self.client.carry(record)?;
            if !is_delayed(&reply) {
                return Ok(reply);
            }
            self.tally.delays += 1;
            thread::sleep(PAUSE);
        }
        Err(Trouble::Reply("a slot that runs for ever".to_string()))
    }

    /// Resets the connection; the session goes on over another one.
    fn break_off(&mut self) -> Result<(), Trouble> {
        let stream = open_stream(self.client.address)?;
        reset(mem::replace(&mut self.client.stream, stream))?;
        self.tally.resets += 1;
        Ok(())
    }

    /// At times the server has time for the request.
    fn rest(&mut self) {
        if self.choices.once_in(2) {
            let micros = self.choices.below(2000);
            thread::sleep(Duration::from_micros(micros as u64));
        }
    }
}

/// Whether a COMPOUND is answered DELAY.
fn is_delayed(reply: &[u8]) -> bool {
    reply.get(24..28) == Some(&Status::DELAY.0.to_be_bytes())
}

/// A record in fragments of about a third of it.
fn in_fragments(record: &[u8]) -> Vec<u8> {
    let body = &record[4..];
    let size = body.len() / 3 + 1;
    let mut bytes = Vec::new();
    for (number, part) in body.chunks(size).enumerate() {
        let is_last = (number + 1) * size >= body.len();
        let header = part.len() as u32 | if is_last { 0x8000_0000 } else { 0 };
        bytes.extend_from_slice(&header.to_be_bytes());
        bytes.extend_from_slice(part);
    }
    bytes
}
