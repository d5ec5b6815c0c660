//! Streams to and from any NFS 4.1 server over TCP: one connection, one request at a time.
//!
//!     nfsstream ADDRESS:PORT USER SECONDS BYTES WAY[,WAY..]
//!
//! WAY is `write` (a file of 16 MiB is cut to nothing and written again by unstable WRITEs, and then
//! there is one COMMIT), `write_sync` (the same, by stable WRITEs) or `read` (the file is read from
//! its beginning to its end). Each READ or WRITE is of BYTES bytes. Each WAY goes on for SECONDS, up
//! to the end of a file. It prints `ready` first, and each WAY waits for a line on standard input;
//! its own line has the bytes a second. With PERSIST in the environment the session is persistent.
mod nfs_client;

use nfs_client::{check, Client, How, Op, Ops, StateId, Trouble};
use std::net::ToSocketAddrs;
use std::process::ExitCode;
use std::str::FromStr;
use std::time::{Duration, Instant};

/// Bytes of the file.
const FILE_BYTES: usize = 1 << 24;

const OWNER: &str = "stream";

#[derive(Clone, Copy, Debug)]
enum Way {
    Write,
    WriteSync,
    Read,
}

impl FromStr for Way {
    type Err = String;

    fn from_str(word: &str) -> Result<Way, String> {
        match word {
            "write" => Ok(Way::Write),
            "write_sync" => Ok(Way::WriteSync),
            "read" => Ok(Way::Read),
            _ => Err(format!("no way {word}")),
        }
    }
}

/// A client with a file of its own in the root.
struct Streamer {
    client: Client,
    file: String,
    handle: Vec<u8>,
    state: StateId,
    data: Vec<u8>,
}

impl Streamer {
    fn new(address: &str, user: u32, bytes: usize) -> Result<Streamer, Trouble> {
        let number = std::process::id();
        let address = address.to_socket_addrs()?.next();
        let address = address.ok_or(Trouble::Reply("no address".to_string()))?;
        let mut streamer = Streamer {
            client: Client::connect(address, &format!("stream {number}"), user, false)?,
            file: format!("stream-{number}"),
            handle: Vec::new(),
            state: StateId::default(),
            data: (0..bytes).map(|at| (at % 251) as u8).collect(),
        };
        streamer.open()?;
        streamer.write_file(2)?;
        Ok(streamer)
    }

    /// Makes the file, and keeps it open.
    fn open(&mut self) -> Result<(), Trouble> {
        let client = self.client.id;
        let ops = Ops::new().put_root();
        let ops = ops.open(client, OWNER, &self.file, How::Unchecked);
        let mut results = self.client.ask(&ops)?;
        results.ok(Op::PutRootFh)?;
        results.ok(Op::Open)?;
        self.state = results.stateid()?;
        let ops = Ops::new().put_root().lookup(&self.file).get_handle();
        let mut results = self.client.ask(&ops)?;
        results.ok(Op::PutRootFh)?;
        results.ok(Op::Lookup)?;
        results.ok(Op::GetFh)?;
        self.handle = results.bytes()?;
        Ok(())
    }

    fn put(&self) -> Ops {
        Ops::new().put(&self.handle)
    }

    /// Writes the whole file, which is cut to nothing before.
    fn write_file(&mut self, stable: u32) -> Result<(), Trouble> {
        let mut results = self.client.ask(&self.put().resize(self.state, 0))?;
        results.ok(Op::PutFh)?;
        results.ok(Op::SetAttr)?;
        for offset in (0..FILE_BYTES).step_by(self.data.len()) {
            let ops = self
                .put()
                .write(self.state, offset as u64, stable, &self.data);
            let mut results = self.client.ask(&ops)?;
            results.ok(Op::PutFh)?;
            results.ok(Op::Write)?;
            let taken = results.number()? as usize;
            check(taken == self.data.len(), || format!("{taken} bytes taken"))?;
        }
        if stable == 0 {
            let mut results = self.client.ask(&self.put().commit())?;
            results.ok(Op::PutFh)?;
            results.ok(Op::Commit)?;
        }
        Ok(())
    }

    fn read_file(&mut self) -> Result<(), Trouble> {
        for offset in (0..FILE_BYTES).step_by(self.data.len()) {
            let ops = self
                .put()
                .read(self.state, offset as u64, self.data.len() as u32);
            let mut results = self.client.ask(&ops)?;
            results.ok(Op::PutFh)?;
            results.ok(Op::Read)?;
            results.number()?;
            let bytes = results.bytes()?;
            check(bytes == self.data, || "other bytes are read".to_string())?;
        }
        Ok(())
    }

    /// How many bytes a second go, over whole files.
    fn measure(&mut self, way: Way, length: Duration) -> Result<f64, Trouble> {
        let start = Instant::now();
        let mut files = 0;
        while start.elapsed() < length {
            match way {
                Way::Write => self.write_file(0)?,
                Way::WriteSync => self.write_file(2)?,
                Way::Read => self.read_file()?,
            }
            files += 1;
        }
        Ok((files * FILE_BYTES) as f64 / start.elapsed().as_secs_f64())
    }

    /// Leaves nothing behind.
    fn end(mut self) -> Result<(), Trouble> {
        let mut results = self.client.ask(&self.put().close(self.state))?;
        results.ok(Op::PutFh)?;
        results.ok(Op::Close)?;
        let file = self.file.clone();
        let mut results = self.client.ask(&Ops::new().put_root().remove(&file))?;
        results.ok(Op::PutRootFh)?;
        results.ok(Op::Remove)?;
        self.client.end()
    }
}

fn run(words: &[String]) -> Result<(), Trouble> {
    let [address, user, seconds, bytes, ways] = words else {
        return Err(Trouble::Reply(
            "usage: nfsstream ADDRESS:PORT USER SECONDS BYTES WAY[,WAY..]".to_string(),
        ));
    };
    let length = Duration::from_secs_f64(number(seconds)?);
    let mut streamer = Streamer::new(address, number(user)?, number(bytes)?)?;
    println!("ready");
    for word in ways.split(',') {
        let way: Way = word.parse().map_err(Trouble::Reply)?;
        std::io::stdin().read_line(&mut String::new())?;
        let rate = streamer.measure(way, length)?;
        println!("{word} bytes_s {rate:.0}");
    }
    streamer.end()
}

fn number<T: FromStr>(word: &str) -> Result<T, Trouble> {
    word.parse()
        .map_err(|_| Trouble::Reply(format!("{word} is no number")))
}

fn main() -> ExitCode {
    let words: Vec<String> = std::env::args().skip(1).collect();
    match run(&words) {
        Ok(()) => ExitCode::SUCCESS,
        Err(trouble) => {
            eprintln!("{trouble}");
            ExitCode::FAILURE
        }
    }
}
