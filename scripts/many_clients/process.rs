//! What the system tells of the server's process (proc(5)).

use crate::nfs_client::Trouble;
use std::fs;
use std::net::{SocketAddr, TcpStream};

pub struct Process {
    id: u32,
}

impl Process {
    pub fn new(id: u32) -> Process {
        Process { id }
    }

    fn file(&self, name: &str) -> String {
        format!("/proc/{}/{name}", self.id)
    }

    /// The memory that it has, in KiB.
    pub fn resident(&self) -> Result<u64, Trouble> {
        let status = fs::read_to_string(self.file("status"))?;
        let line = status.lines().find(|line| line.starts_with("VmRSS:"));
        number_of(line.and_then(|line| line.split_whitespace().nth(1)))
    }

    /// How many files it has open.
    pub fn descriptors(&self) -> Result<usize, Trouble> {
        Ok(fs::read_dir(self.file("fd"))?.count())
    }

    /// The processor time that it took, in hundredths of a second.
    pub fn processor(&self) -> Result<u64, Trouble> {
        let stat = fs::read_to_string(self.file("stat"))?;
        let behind_name = stat.rsplit(')').next().unwrap_or("");
        let mut fields = behind_name.split_whitespace().skip(11);
        Ok(number_of(fields.next())? + number_of(fields.next())?)
    }
}

fn number_of(word: Option<&str>) -> Result<u64, Trouble> {
    word.and_then(|word| word.parse().ok())
        .ok_or(Trouble::Reply("no number in proc".to_string()))
}

/// Which timer runs at the server's end of a connection: 2 is that of keepalive.
pub fn timer_of(server: SocketAddr, stream: &TcpStream) -> Result<String, Trouble> {
    let ports = [server.port(), stream.local_addr()?.port()];
    let mut lines = String::new();
    for table in ["/proc/net/tcp", "/proc/net/tcp6"] {
        lines += &fs::read_to_string(table).unwrap_or_default();
    }
    let ends = ports.map(|port| format!(":{port:04X}"));
    lines
        .lines()
        .map(|line| line.split_whitespace().collect::<Vec<_>>())
        .find(|row| row.len() > 5 && row[1].ends_with(&ends[0]) && row[2].ends_with(&ends[1]))
        .map(|row| row[5].to_string())
        .ok_or(Trouble::Reply("no such connection".to_string()))
}
