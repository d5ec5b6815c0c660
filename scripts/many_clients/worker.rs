//! A client that works in a directory of its own, beside its model of it: every reply has to be the
//! model's. A request that ran twice would show by the names, the opens and the change attributes
//! of directories. Of a WRITE or a new size it would show only where both replies were read, since
//! the change attribute of a file may rise by any number.

use crate::choices::Choices;
use crate::link::{Link, Tally};
use crate::nfs_client::{Changed, Client, Op, Ops, Results, StateId, Trouble, check};
use crate::requests::REQUESTS;
use crate::tree::{Content, Node, Number, Place, TOP, Tree};
use std::collections::BTreeMap;
use std::net::SocketAddr;

pub const NAMES: [&str; 6] = ["a", "bc", "def", "häßlich", "two words", ".hidden"];

/// Above as many nodes some are removed; a path has as many names.
pub const MAX_NODES: usize = 60;

pub const MAX_DEPTH: usize = 6;

/// The attributes change and size, and change alone.
pub const CHANGE_AND_SIZE: [u32; 1] = [0x18];

pub const CHANGE: [u32; 1] = [0x8];

pub struct Worker {
    pub link: Link,
    pub choices: Choices,
    /// The name of its directory in the root.
    pub name: String,
    pub tree: Tree,
    /// The stateids of the files that it holds open.
    pub opens: BTreeMap<Number, StateId>,
    /// The filehandle of what it removed last.
    pub removed: Option<Vec<u8>>,
    /// What WRITE and COMMIT tell, as long as the server is the same.
    verifier: Option<u64>,
}

impl Worker {
    /// Makes its directory.
    pub fn new(address: SocketAddr, number: u32, seed: u64) -> Result<Worker, Trouble> {
        let name = format!("worker-{number}");
        let client = Client::connect(address, &name, 1000 + number, true)?;
        let mut link = Link::new(client, Choices::new(seed, u64::from(2 * number)));
        let making = Ops::new()
            .put_root()
            .make_directory(&name)
            .get_handle()
            .get_attributes(&CHANGE_AND_SIZE);
        let mut results = link.ask(&making)?;
        results.ok(Op::PutRootFh)?;
        results.ok(Op::Create)?;
        results.changed()?;
        results.bitmap()?;
        let (handle, change, _) = shown(&mut results)?;
        results.end()?;
        Ok(Worker {
            link,
            choices: Choices::new(seed, u64::from(2 * number + 1)),
            name,
            tree: Tree::new(handle, change),
            opens: BTreeMap::new(),
            removed: None,
            verifier: None,
        })
    }

    /// Asks as many requests, and leaves nothing behind.
    pub fn work(mut self, requests: u64) -> Result<Tally, Trouble> {
        while self.link.tally.requests < requests {
            let number = self.link.tally.requests;
            let request = self.choices.of(&REQUESTS);
            self.ask(request).map_err(|trouble| {
                let name = &self.name;
                Trouble::Reply(format!("{name}, request {number}, {request:?}: {trouble}"))
            })?;
        }
        self.leave()?;
        Ok(self.link.tally)
    }

    /// Removes all that is there, and ends the client.
    fn leave(&mut self) -> Result<(), Trouble> {
        while self.tree.len() > 1 {
            let at = self.choices.of(&self.tree.places());
            self.remove_at(at)?;
        }
        let removing = Ops::new().put_root().remove(&self.name);
        let mut results = self.link.ask(&removing)?;
        results.ok(Op::PutRootFh)?;
        results.ok(Op::Remove)?;
        self.link.client.end()
    }

    pub fn directory(&mut self) -> Number {
        self.choices.of(&self.tree.directories())
    }

    /// A place in a directory that is not deep down.
    pub fn place(&mut self) -> Place {
        let directory = self.directory();
        let is_deep = self.tree.path(directory).len() >= MAX_DEPTH;
        Place {
            directory: if is_deep { TOP } else { directory },
            name: self.choices.of(&NAMES),
        }
    }

    /// A place that has a node, and once in so many times any place.
    pub fn known_place(&mut self, times: usize) -> Place {
        let places = self.tree.places();
        let is_full = self.tree.len() > MAX_NODES;
        if places.is_empty() || !is_full && self.choices.once_in(times) {
            self.place()
        } else {
            self.choices.of(&places)
        }
    }

    /// A file mostly, else a directory.
    pub fn node(&mut self) -> Number {
        let files = self.tree.files();
        if files.is_empty() || self.choices.once_in(20) {
            self.directory()
        } else {
            self.choices.of(&files)
        }
    }

    /// The bytes of a file.
    pub fn file_mut(&mut self, number: Number) -> Result<&mut Vec<u8>, Trouble> {
        match &mut self.tree.node_mut(number).content {
            Content::File(bytes) => Ok(bytes),
            Content::Directory(_) => Err(Trouble::Reply("a directory".to_string())),
        }
    }

    /// The stateid of a file's open, if it has one, and now and then none.
    pub fn stateid(&mut self, file: Number) -> StateId {
        match self.opens.get(&file) {
            Some(state) if !self.choices.once_in(4) => *state,
            _ => StateId::default(),
        }
    }

    /// Operations on a node of the model.
    pub fn on(&self, number: Number) -> Ops {
        Ops::new().put(&self.tree.node(number).handle)
    }

    /// The results of such operations, behind the first.
    pub fn results_on(&mut self, ops: &Ops) -> Result<Results, Trouble> {
        let mut results = self.link.ask(ops)?;
        results.ok(Op::PutFh)?;
        Ok(results)
    }

    /// What is told of a change of a directory: it was as it is known, and is another one now.
    pub fn alter(&mut self, directory: Number, changed: Changed) -> Result<(), Trouble> {
        let node = self.tree.node_mut(directory);
        let is_due = changed.before == node.change && changed.after > node.change;
        check(is_due, || {
            format!("{changed:?} of a directory with change {}", node.change)
        })?;
        node.change = changed.after;
        Ok(())
    }

    /// What is told of a directory that stays as it was.
    pub fn keeps(&self, directory: Number, changed: Changed) -> Result<(), Trouble> {
        let change = self.tree.node(directory).change;
        check(changed.before == change && changed.after == change, || {
            format!("{changed:?} of a directory that stays {change}")
        })
    }

    /// GETATTR tells a node as the model has it.
    pub fn shows(&self, results: &mut Results, number: Number) -> Result<(), Trouble> {
        let node = self.tree.node(number);
        let told = attributes(results)?;
        let due = (node.change, node.size());
        check(told == due, || {
            format!("change and size {told:?} in place of {due:?}")
        })
    }

    /// GETATTR tells a file that was changed just now.
    pub fn shows_changed(&mut self, results: &mut Results, file: Number) -> Result<(), Trouble> {
        let node = self.tree.node_mut(file);
        let (change, size) = attributes(results)?;
        check(change > node.change && size == node.size(), || {
            let (old, due) = (node.change, node.size());
            format!("change {change} after {old}, size {size} in place of {due}")
        })?;
        node.change = change;
        Ok(())
    }

    /// GETFH and GETATTR tell a known node.
    pub fn is_known(&self, mut results: Results, number: Number) -> Result<(), Trouble> {
        self.has_handle(&mut results, number)?;
        self.shows(&mut results, number)?;
        results.end()
    }

    /// They tell a file that was changed just now.
    pub fn is_changed(&mut self, mut results: Results, file: Number) -> Result<(), Trouble> {
        self.has_handle(&mut results, file)?;
        self.shows_changed(&mut results, file)?;
        results.end()
    }

    fn has_handle(&self, results: &mut Results, number: Number) -> Result<(), Trouble> {
        results.ok(Op::GetFh)?;
        let handle = results.bytes()?;
        check(handle == self.tree.node(number).handle, || {
            "another filehandle".to_string()
        })
    }

    /// Takes what GETFH and GETATTR tell of a new node.
    pub fn add(
        &mut self,
        mut results: Results,
        at: Place,
        content: Content,
    ) -> Result<Number, Trouble> {
        let (handle, change, size) = shown(&mut results)?;
        check(size == 0, || format!("a new node of size {size}"))?;
        results.end()?;
        let node = Node {
            handle,
            change,
            content,
            place: None,
        };
        Ok(self.tree.add(at, node))
    }

    /// The server is the one that it was.
    pub fn is_same_run(&mut self, verifier: u64) -> Result<(), Trouble> {
        let known = *self.verifier.get_or_insert(verifier);
        check(known == verifier, || {
            format!("verifier {verifier} in place of {known}")
        })
    }
}

/// What GETFH and GETATTR tell: the filehandle, the change and the size.
fn shown(results: &mut Results) -> Result<(Vec<u8>, u64, u64), Trouble> {
    results.ok(Op::GetFh)?;
    let handle = results.bytes()?;
    let (change, size) = attributes(results)?;
    Ok((handle, change, size))
}

/// What GETATTR tells: the change and the size.
fn attributes(results: &mut Results) -> Result<(u64, u64), Trouble> {
    results.ok(Op::GetAttr)?;
    let values = results.attributes(&CHANGE_AND_SIZE)?;
    check(values.len() == 16, || format!("attributes {values:x?}"))?;
    Ok((number_at(&values, 0), number_at(&values, 8)))
}

/// The number of the eight bytes from this one on.
pub fn number_at(bytes: &[u8], from: usize) -> u64 {
    let part = bytes[from..from + 8].iter();
    part.fold(0, |number, byte| number << 8 | u64::from(*byte))
}
