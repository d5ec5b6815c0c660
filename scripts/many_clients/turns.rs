//! Many connections, one after the other.

use crate::nfs_client::{Client, Op, Ops, Trouble, Words, call_record, check, open_stream, receive};
use crate::peers::Server;
use crate::socket::reset;
use std::io::Write;
use std::thread;
use std::time::Duration;

const CONNECTIONS: usize = 10_000;

/// After so many the server has what memory it needs, up to so many KiB.
const FIRST: usize = 100;

const SLACK: u64 = 256;

/// The server keeps neither memory nor files of connections that ended, however they did.
pub fn many_in_turn(server: &Server) -> Result<(), Trouble> {
    let mut client = Client::connect(server.address, "in turn", 901, true)?;
    one_after_the_other(server, &mut client, FIRST)?;
    let (memory, files) = settled(server)?;
    one_after_the_other(server, &mut client, CONNECTIONS - FIRST)?;
    let (memory_after, files_after) = settled(server)?;
    check(memory_after <= memory + SLACK, || {
        format!("{memory_after} KiB after {memory} KiB")
    })?;
    check(files_after == files, || {
        format!("{files_after} open files after {files}")
    })?;
    client.end()
}

/// The server's memory and open files, once connections that were ended just now are gone.
fn settled(server: &Server) -> Result<(u64, usize), Trouble> {
    thread::sleep(Duration::from_secs(1));
    Ok((server.process.resident()?, server.process.descriptors()?))
}

fn one_after_the_other(server: &Server, client: &mut Client, count: usize) -> Result<(), Trouble> {
    for number in 0..count {
        one(server, client, number)
            .map_err(|trouble| Trouble::Reply(format!("connection {number}: {trouble}")))?;
    }
    Ok(())
}

/// One connection, in each of six ways.
fn one(server: &Server, client: &mut Client, number: usize) -> Result<(), Trouble> {
    let record = call_record(1, None, &Words::default());
    match number % 6 {
        0 => {
            client.stream = open_stream(server.address)?;
            let ops = Ops::new().put_root().get_attributes(&[0x18]);
            client.ask(&ops)?.ok(Op::PutRootFh)
        }
        1 => Client::connect(server.address, "of one turn", 902, true)?.end(),
        2 => {
            let mut stream = open_stream(server.address)?;
            stream.write_all(&record)?;
            receive(&mut stream)?;
            Ok(reset(stream)?)
        }
        3 => {
            let mut stream = open_stream(server.address)?;
            stream.write_all(&record[..20])?;
            Ok(reset(stream)?)
        }
        4 => {
            let mut stream = open_stream(server.address)?;
            Ok(stream.write_all(&record[..20])?)
        }
        _ => {
            open_stream(server.address)?;
            Ok(())
        }
    }
}
