//! A client of NFS 4.1 for the programs of this folder: XDR (RFC 4506), calls with AUTH_SYS over
//! TCP (RFC 5531), COMPOUNDs of one session (RFC 8881). It shares no code with the server.
#![allow(dead_code)]

use std::fmt;
use std::io::{self, Read, Write};
use std::net::{SocketAddr, TcpStream};
use std::time::Duration;

/// The slots that a session asks for.
pub const SLOTS: usize = 8;

/// The bytes of a record that a session asks for: those of a READ or WRITE of 1 MiB.
const RECORD_BYTES: u32 = (1 << 20) + (1 << 13);

/// How long a reply may take.
const PATIENCE: Duration = Duration::from_secs(60);

/// What keeps a request from its reply.
#[derive(Debug)]
pub enum Trouble {
    /// The connection failed or ended.
    Io(io::Error),
    /// A reply that is none, or is not the one that is due.
    Reply(String),
}

impl From<io::Error> for Trouble {
    fn from(error: io::Error) -> Trouble {
        Trouble::Io(error)
    }
}

impl fmt::Display for Trouble {
    fn fmt(&self, f: &mut fmt::Formatter) -> fmt::Result {
        match self {
            Trouble::Io(error) => write!(f, "{error}"),
            Trouble::Reply(what) => write!(f, "{what}"),
        }
    }
}

/// Complains unless the condition holds.
pub fn check(holds: bool, what: impl FnOnce() -> String) -> Result<(), Trouble> {
    if holds {
        Ok(())
    } else {
        Err(Trouble::Reply(what()))
    }
}

/// An operation, by its number (RFC 8881, section 16.2.3).
#[derive(Clone, Copy, Debug, PartialEq, Eq)]
pub enum Op {
    Close = 4,
    Commit = 5,
    Create = 6,
    GetAttr = 9,
    GetFh = 10,
    Lookup = 15,
    Open = 18,
    PutFh = 22,
    PutRootFh = 24,
    Read = 25,
    ReadDir = 26,
    Remove = 28,
    Rename = 29,
    SaveFh = 32,
    SetAttr = 34,
    Write = 38,
    ExchangeId = 42,
    CreateSession = 43,
    DestroySession = 44,
    Sequence = 53,
    DestroyClientId = 57,
    ReclaimComplete = 58,
}

/// A status (RFC 8881, section 15.1).
#[derive(Clone, Copy, Debug, PartialEq, Eq)]
pub struct Status(pub u32);

impl Status {
    pub const OK: Status = Status(0);
    pub const NOENT: Status = Status(2);
    pub const EXIST: Status = Status(17);
    pub const NOTDIR: Status = Status(20);
    pub const ISDIR: Status = Status(21);
    pub const INVAL: Status = Status(22);
    pub const NOTEMPTY: Status = Status(66);
    pub const STALE: Status = Status(70);
    pub const DELAY: Status = Status(10008);
    pub const OLD_STATEID: Status = Status(10024);
}

/// What an OPEN does.
#[derive(Clone, Copy, Debug, PartialEq, Eq)]
pub enum How {
    /// Opens a file that is there.
    Known,
    /// Makes the file where it is not there.
    Unchecked,
    /// The same, and cuts one that is there to no bytes.
    Emptied,
    /// Makes a file that may not be there.
    Guarded,
}

/// Of an open; all zero for none.
#[derive(Clone, Copy, Debug, Default, PartialEq, Eq)]
pub struct StateId {
    pub seqid: u32,
    pub other: [u8; 12],
}

/// XDR that is written.
#[derive(Clone, Debug, Default)]
pub struct Words(Vec<u8>);

impl Words {
    pub fn u32(&mut self, number: u32) -> &mut Words {
        self.fixed(&number.to_be_bytes())
    }

    pub fn u64(&mut self, number: u64) -> &mut Words {
        self.fixed(&number.to_be_bytes())
    }

    /// Bytes without their count, which fill whole words.
    pub fn fixed(&mut self, bytes: &[u8]) -> &mut Words {
        self.0.extend_from_slice(bytes);
        self
    }

    pub fn opaque(&mut self, bytes: &[u8]) -> &mut Words {
        self.u32(bytes.len() as u32).fixed(bytes);
        self.0.resize(self.0.len().next_multiple_of(4), 0);
        self
    }

    pub fn bitmap(&mut self, bitmap: &[u32]) -> &mut Words {
        self.u32(bitmap.len() as u32);
        for word in bitmap {
            self.u32(*word);
        }
        self
    }

    /// The attribute mode, after the size 0 where the file is to be cut.
    fn mode(&mut self, mode: u32, cuts: bool) -> &mut Words {
        if cuts {
            self.bitmap(&[0x10, 2]).u32(12).u64(0).u32(mode)
        } else {
            self.bitmap(&[0, 2]).u32(4).u32(mode)
        }
    }

    fn stateid(&mut self, state: StateId) -> &mut Words {
        self.u32(state.seqid).fixed(&state.other)
    }
}

/// XDR that is read.
struct Reader {
    bytes: Vec<u8>,
    at: usize,
}

impl Reader {
    fn fixed(&mut self, count: usize) -> Result<&[u8], Trouble> {
        let from = self.at;
        check(count <= self.bytes.len() - from, || {
            "a reply that is too short".to_string()
        })?;
        self.at += count;
        Ok(&self.bytes[from..from + count])
    }

    fn array<const N: usize>(&mut self) -> Result<[u8; N], Trouble> {
        let mut array = [0; N];
        array.copy_from_slice(self.fixed(N)?);
        Ok(array)
    }

    fn u32(&mut self) -> Result<u32, Trouble> {
        Ok(u32::from_be_bytes(self.array()?))
    }

    fn u64(&mut self) -> Result<u64, Trouble> {
        Ok(u64::from_be_bytes(self.array()?))
    }

    fn opaque(&mut self) -> Result<Vec<u8>, Trouble> {
        let count = self.u32()? as usize;
        let bytes = self.fixed(count)?.to_vec();
        self.fixed(count.next_multiple_of(4) - count)?;
        Ok(bytes)
    }
}

/// The operations of a COMPOUND, without its SEQUENCE.
#[derive(Clone, Debug, Default)]
pub struct Ops {
    count: u32,
    words: Words,
}

impl Ops {
    pub fn new() -> Ops {
        Ops::default()
    }

    fn with(mut self, op: Op, arguments: impl FnOnce(&mut Words)) -> Ops {
        self.count += 1;
        arguments(self.words.u32(op as u32));
        self
    }

    pub fn put_root(self) -> Ops {
        self.with(Op::PutRootFh, |_| {})
    }

    pub fn put(self, handle: &[u8]) -> Ops {
        self.with(Op::PutFh, |words| {
            words.opaque(handle);
        })
    }

    pub fn save(self) -> Ops {
        self.with(Op::SaveFh, |_| {})
    }

    pub fn lookup(self, name: &str) -> Ops {
        self.with(Op::Lookup, |words| {
            words.opaque(name.as_bytes());
        })
    }

    pub fn get_handle(self) -> Ops {
        self.with(Op::GetFh, |_| {})
    }

    pub fn get_attributes(self, bitmap: &[u32]) -> Ops {
        self.with(Op::GetAttr, |words| {
            words.bitmap(bitmap);
        })
    }

    pub fn make_directory(self, name: &str) -> Ops {
        self.with(Op::Create, |words| {
            words.u32(2).opaque(name.as_bytes()).mode(0o755, false);
        })
    }

    /// Opens a file to read and to write, for an owner of this client.
    pub fn open(self, client: u64, owner: &str, name: &str, how: How) -> Ops {
        self.with(Op::Open, |words| {
            words.u32(0).u32(3).u32(0);
            words.u64(client).opaque(owner.as_bytes());
            match how {
                How::Known => words.u32(0),
                How::Unchecked => words.u32(1).u32(0).mode(0o644, false),
                How::Emptied => words.u32(1).u32(0).mode(0o644, true),
                How::Guarded => words.u32(1).u32(1).mode(0o644, false),
            };
            words.u32(0).opaque(name.as_bytes());
        })
    }

    pub fn close(self, state: StateId) -> Ops {
        self.with(Op::Close, |words| {
            words.u32(0).stateid(state);
        })
    }

    pub fn read(self, state: StateId, offset: u64, count: u32) -> Ops {
        self.with(Op::Read, |words| {
            words.stateid(state).u64(offset).u32(count);
        })
    }

    /// Writes as UNSTABLE4, DATA_SYNC4 or FILE_SYNC4: 0, 1 or 2.
    pub fn write(self, state: StateId, offset: u64, stable: u32, bytes: &[u8]) -> Ops {
        self.with(Op::Write, |words| {
            words.stateid(state).u64(offset).u32(stable).opaque(bytes);
        })
    }

    pub fn commit(self) -> Ops {
        self.with(Op::Commit, |words| {
            words.u64(0).u32(0);
        })
    }

    pub fn resize(self, state: StateId, size: u64) -> Ops {
        self.with(Op::SetAttr, |words| {
            words.stateid(state).bitmap(&[0x10]).u32(8).u64(size);
        })
    }

    pub fn remove(self, name: &str) -> Ops {
        self.with(Op::Remove, |words| {
            words.opaque(name.as_bytes());
        })
    }

    pub fn rename(self, old: &str, new: &str) -> Ops {
        self.with(Op::Rename, |words| {
            words.opaque(old.as_bytes()).opaque(new.as_bytes());
        })
    }

    /// The first page of a directory.
    pub fn list(self, bytes: u32, bitmap: &[u32]) -> Ops {
        self.with(Op::ReadDir, |words| {
            words.u64(0).u64(0).u32(bytes / 2).u32(bytes).bitmap(bitmap);
        })
    }
}

/// A directory's change before and after an operation.
#[derive(Clone, Copy, Debug, PartialEq, Eq)]
pub struct Changed {
    pub before: u64,
    pub after: u64,
}

/// An entry of a page: its name and the values of its attributes.
pub type Listed = (String, Vec<u8>);

/// The results of a COMPOUND, which are taken one after the other.
pub struct Results {
    reader: Reader,
    /// How many are left.
    left: u32,
}

impl Results {
    /// The results that a reply's record tells.
    pub fn of(record: Vec<u8>, xid: u32) -> Result<Results, Trouble> {
        let mut reader = accepted(record, xid)?;
        reader.u32()?;
        reader.opaque()?;
        let left = reader.u32()?;
        Ok(Results { reader, left })
    }

    /// Goes to the next result, which is this operation's: its status.
    pub fn status(&mut self, op: Op) -> Result<Status, Trouble> {
        check(self.left > 0, || format!("no result of {op:?}"))?;
        self.left -= 1;
        let number = self.reader.u32()?;
        check(number == op as u32, || {
            format!("operation {number} in place of {op:?}")
        })?;
        Ok(Status(self.reader.u32()?))
    }

    pub fn is(&mut self, op: Op, due: Status) -> Result<(), Trouble> {
        let status = self.status(op)?;
        check(status == due, || {
            format!("{op:?} is answered {status:?} in place of {due:?}")
        })
    }

    pub fn ok(&mut self, op: Op) -> Result<(), Trouble> {
        self.is(op, Status::OK)
    }

    /// Nothing is left.
    pub fn end(self) -> Result<(), Trouble> {
        check(
            self.left == 0 && self.reader.at == self.reader.bytes.len(),
            || format!("{} results too many", self.left),
        )
    }

    pub fn number(&mut self) -> Result<u32, Trouble> {
        self.reader.u32()
    }

    pub fn verifier(&mut self) -> Result<u64, Trouble> {
        self.reader.u64()
    }

    pub fn bytes(&mut self) -> Result<Vec<u8>, Trouble> {
        self.reader.opaque()
    }

    pub fn bitmap(&mut self) -> Result<Vec<u32>, Trouble> {
        let count = self.reader.u32()?;
        (0..count).map(|_| self.reader.u32()).collect()
    }

    /// The values of attributes that are answered as a bitmap has them.
    pub fn attributes(&mut self, bitmap: &[u32]) -> Result<Vec<u8>, Trouble> {
        let told = self.bitmap()?;
        check(told == bitmap, || {
            format!("attributes {told:x?} in place of {bitmap:x?}")
        })?;
        self.bytes()
    }

    pub fn stateid(&mut self) -> Result<StateId, Trouble> {
        Ok(StateId {
            seqid: self.reader.u32()?,
            other: self.reader.array()?,
        })
    }

    /// A change that is told as atomic.
    pub fn changed(&mut self) -> Result<Changed, Trouble> {
        let atomic = self.reader.u32()?;
        check(atomic == 1, || "a change that is not atomic".to_string())?;
        Ok(Changed {
            before: self.reader.u64()?,
            after: self.reader.u64()?,
        })
    }

    /// A page that ends its directory.
    pub fn page(&mut self, bitmap: &[u32]) -> Result<Vec<Listed>, Trouble> {
        let mut entries = Vec::new();
        self.reader.u64()?;
        while self.reader.u32()? == 1 {
            self.reader.u64()?;
            let name = String::from_utf8_lossy(&self.bytes()?).into_owned();
            entries.push((name, self.attributes(bitmap)?));
        }
        let is_end = self.reader.u32()?;
        check(is_end == 1, || {
            "a page that does not end its directory".to_string()
        })?;
        Ok(entries)
    }
}

/// The call of a procedure as one record of one fragment: NULL without a credential, COMPOUND with
/// that of a user.
pub fn call_record(xid: u32, user: Option<u32>, body: &Words) -> Vec<u8> {
    let mut words = Words::default();
    words.u32(0).u32(xid).u32(0).u32(2).u32(100_003).u32(4);
    match user {
        None => {
            words.u32(0).u32(0).u32(0);
        }
        Some(user) => {
            let mut credential = Words::default();
            credential.u32(0).opaque(b"scripts").u32(user).u32(user).u32(0);
            words.u32(1).u32(1).opaque(&credential.0);
        }
    }
    words.u32(0).u32(0).fixed(&body.0);
    let mut record = words.0;
    let header = (record.len() - 4) as u32 | 0x8000_0000;
    record[..4].copy_from_slice(&header.to_be_bytes());
    record
}

fn compound_record(xid: u32, user: u32, ops: &Ops) -> Vec<u8> {
    let mut body = Words::default();
    body.u32(0).u32(1).u32(ops.count).fixed(&ops.words.0);
    call_record(xid, Some(user), &body)
}

/// The result of an accepted call.
fn accepted(record: Vec<u8>, xid: u32) -> Result<Reader, Trouble> {
    let mut reader = Reader {
        bytes: record,
        at: 0,
    };
    let header = [reader.u32()?, reader.u32()?, reader.u32()?];
    check(header == [xid, 1, 0], || {
        format!("a reply {header:?} to call {xid}")
    })?;
    reader.u32()?;
    reader.opaque()?;
    let accept = reader.u32()?;
    check(accept == 0, || format!("a call that is answered {accept}"))?;
    Ok(reader)
}

/// Reads one record, without the headers of its fragments.
pub fn receive(stream: &mut impl Read) -> io::Result<Vec<u8>> {
    let mut record = Vec::new();
    loop {
        let mut header = [0; 4];
        stream.read_exact(&mut header)?;
        let header = u32::from_be_bytes(header);
        let from = record.len();
        record.resize(from + (header & 0x7fff_ffff) as usize, 0);
        stream.read_exact(&mut record[from..])?;
        if header >> 31 == 1 {
            return Ok(record);
        }
    }
}

/// Connects; a reply may take a minute.
pub fn open_stream(address: SocketAddr) -> io::Result<TcpStream> {
    let stream = TcpStream::connect(address)?;
    stream.set_nodelay(true)?;
    stream.set_read_timeout(Some(PATIENCE))?;
    stream.set_write_timeout(Some(PATIENCE))?;
    Ok(stream)
}

/// A client with a session, over one connection at a time.
pub struct Client {
    pub address: SocketAddr,
    pub stream: TcpStream,
    /// Its client id.
    pub id: u64,
    /// Its user, whose group has the same number.
    pub user: u32,
    xid: u32,
    session: [u8; 16],
    /// The number of each slot's last request.
    sequences: [u32; SLOTS],
    /// Whether the server is asked to keep replies.
    keeps: bool,
}

impl Client {
    /// Connects, and makes a session under this owner's name.
    pub fn connect(
        address: SocketAddr,
        owner: &str,
        user: u32,
        keeps: bool,
    ) -> Result<Client, Trouble> {
        let mut client = Client {
            address,
            stream: open_stream(address)?,
            id: 0,
            user,
            xid: 0,
            session: [0; 16],
            sequences: [0; SLOTS],
            keeps,
        };
        client.make_session(owner)?;
        Ok(client)
    }

    fn make_session(&mut self, owner: &str) -> Result<(), Trouble> {
        let exchange = Ops::new().with(Op::ExchangeId, |words| {
            words.u64(u64::from(std::process::id())).opaque(owner.as_bytes());
            words.u32(0).u32(0).u32(0);
        });
        let mut results = self.ask_alone(&exchange)?;
        results.ok(Op::ExchangeId)?;
        self.id = results.reader.u64()?;
        let sequence = results.number()?;
        let id = self.id;
        let create = Ops::new().with(Op::CreateSession, |words| {
            words.u64(id).u32(sequence).u32(session_flags());
            for _ in 0..2 {
                words.u32(0).u32(RECORD_BYTES).u32(RECORD_BYTES).u32(1 << 14);
                words.u32(16).u32(SLOTS as u32).u32(0);
            }
            words.u32(0x4000_0000).u32(1).u32(0);
        });
        let mut results = self.ask_alone(&create)?;
        results.ok(Op::CreateSession)?;
        self.session = results.reader.array()?;
        let complete = Ops::new().with(Op::ReclaimComplete, |words| {
            words.u32(0);
        });
        self.ask(&complete)?.ok(Op::ReclaimComplete)
    }

    /// Ends the session and the client, whose files are closed.
    pub fn end(&mut self) -> Result<(), Trouble> {
        let session = self.session;
        let destroy = Ops::new().with(Op::DestroySession, |words| {
            words.fixed(&session);
        });
        self.ask_alone(&destroy)?.ok(Op::DestroySession)?;
        let id = self.id;
        let destroy = Ops::new().with(Op::DestroyClientId, |words| {
            words.u64(id);
        });
        self.ask_alone(&destroy)?.ok(Op::DestroyClientId)
    }

    pub fn next_xid(&mut self) -> u32 {
        self.xid = self.xid.wrapping_add(1);
        self.xid
    }

    pub fn null(&mut self) -> Result<(), Trouble> {
        let xid = self.next_xid();
        let record = call_record(xid, None, &Words::default());
        accepted(self.carry(&record)?, xid).map(|_| ())
    }

    /// A COMPOUND without a SEQUENCE.
    fn ask_alone(&mut self, ops: &Ops) -> Result<Results, Trouble> {
        let xid = self.next_xid();
        let record = compound_record(xid, self.user, ops);
        Results::of(self.carry(&record)?, xid)
    }

    /// The record of a slot's next request, and its xid.
    pub fn request(&mut self, slot: usize, ops: &Ops) -> (Vec<u8>, u32) {
        self.sequences[slot] = self.sequences[slot].wrapping_add(1);
        let (session, number) = (self.session, self.sequences[slot]);
        let keeps = u32::from(self.keeps);
        let mut whole = Ops::new().with(Op::Sequence, |words| {
            words.fixed(&session).u32(number).u32(slot as u32);
            words.u32(SLOTS as u32 - 1).u32(keeps);
        });
        whole.count += ops.count;
        whole.words.fixed(&ops.words.0);
        let xid = self.next_xid();
        (compound_record(xid, self.user, &whole), xid)
    }

    /// Sends a record, and reads that of its reply.
    pub fn carry(&mut self, record: &[u8]) -> io::Result<Vec<u8>> {
        self.stream.write_all(record)?;
        receive(&mut self.stream)
    }

    /// A COMPOUND on slot 0: its results after that of its SEQUENCE, which is OK.
    pub fn ask(&mut self, ops: &Ops) -> Result<Results, Trouble> {
        let (record, xid) = self.request(0, ops);
        let mut results = Results::of(self.carry(&record)?, xid)?;
        pause();
        results.ok(Op::Sequence)?;
        skip_sequence(&mut results)?;
        Ok(results)
    }
}

/// Waits as many milliseconds as PAUSE has in the environment.
fn pause() {
    let words = std::env::var("PAUSE").ok();
    if let Some(length) = words.and_then(|word| word.parse().ok()) {
        std::thread::sleep(std::time::Duration::from_millis(length));
    }
}

/// A persistent session is asked for where PERSIST stands in the environment.
fn session_flags() -> u32 {
    u32::from(std::env::var_os("PERSIST").is_some())
}

/// Goes over what an OK result of SEQUENCE gives.
pub fn skip_sequence(results: &mut Results) -> Result<(), Trouble> {
    results.reader.fixed(36).map(|_| ())
}
