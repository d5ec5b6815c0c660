//! Checks of a server that runs: many connections at once, many in turn, and peers that misbehave.
//!
//!     many_clients ADDRESS:PORT PROCESS [REQUESTS [SEED]]
//!
//! PROCESS is the number of the server's process, on this machine. Each check is a line, once it
//! holds. The status is 1 at the first that does not hold; which it was, and the seed, is told on
//! standard error.
mod choices;
mod link;
#[path = "../nfs_client.rs"]
mod nfs_client;
mod peers;
mod process;
mod requests;
mod socket;
mod tree;
mod turns;
mod worker;

use link::Tally;
use nfs_client::{Trouble, check};
use peers::{CHECKS, Server};
use process::Process;
use std::net::ToSocketAddrs;
use std::process::ExitCode;
use std::str::FromStr;
use std::thread;
use std::time::Instant;
use worker::Worker;

/// As many connections work at once.
const WORKERS: u32 = 16;

const REQUESTS: u64 = 1_000_000;

const SEED: u64 = 1;

/// Workers at once, with as many requests together: what there was.
fn many_at_once(server: &Server, requests: u64, seed: u64) -> Result<Tally, Trouble> {
    let address = server.address;
    let each = requests.div_ceil(u64::from(WORKERS));
    let threads: Vec<_> = (0..WORKERS)
        .map(|number| thread::spawn(move || Worker::new(address, number, seed)?.work(each)))
        .collect();
    let mut whole = Tally::default();
    for thread in threads {
        let outcome = thread.join();
        check(outcome.is_ok(), || "a thread that panics".to_string())?;
        if let Ok(tally) = outcome {
            whole.add(tally?);
        }
    }
    Ok(whole)
}

fn check_all(server: &Server, requests: u64, seed: u64) -> Result<(), Trouble> {
    let start = Instant::now();
    let tally = many_at_once(server, requests, seed)?;
    eprintln!("{tally:?} in {:?}", start.elapsed());
    println!("{requests} requests of 16 connections, with resets: each as the model, and once");
    turns::many_in_turn(server)?;
    println!("10000 connections, one after the other: no memory and no file is kept");
    for (what, holds) in CHECKS {
        holds(server).map_err(|trouble| Trouble::Reply(format!("{what}: {trouble}")))?;
        println!("{what}");
    }
    Ok(())
}

fn number<T: FromStr>(word: &str) -> Result<T, Trouble> {
    word.parse()
        .map_err(|_| Trouble::Reply(format!("{word} is no number")))
}

fn run(words: &[String]) -> Result<(), Trouble> {
    let [address, process, rest @ ..] = words else {
        let usage = "usage: many_clients ADDRESS:PORT PROCESS [REQUESTS [SEED]]";
        return Err(Trouble::Reply(usage.to_string()));
    };
    let address = address.to_socket_addrs()?.next();
    let server = Server {
        address: address.ok_or(Trouble::Reply("no address".to_string()))?,
        process: Process::new(number(process)?),
    };
    let requests = rest.first().map_or(Ok(REQUESTS), |word| number(word))?;
    let seed = rest.get(1).map_or(Ok(SEED), |word| number(word))?;
    check_all(&server, requests, seed)
        .map_err(|trouble| Trouble::Reply(format!("seed {seed}: {trouble}")))
}

fn main() -> ExitCode {
    let words: Vec<String> = std::env::args().skip(1).collect();
    match run(&words) {
        Ok(()) => ExitCode::SUCCESS,
        Err(trouble) => {
            eprintln!("{trouble}");
            ExitCode::FAILURE
        }
    }
}
