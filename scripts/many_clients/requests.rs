//! The requests of a worker: what is asked, and what the model has as its reply.

use crate::nfs_client::{How, Op, Ops, StateId, Status, Trouble, check};
use crate::tree::{Content, Number, Place, TOP};
use crate::worker::{CHANGE, CHANGE_AND_SIZE, MAX_DEPTH, MAX_NODES, NAMES, Worker, number_at};
use std::collections::BTreeMap;

/// As many files are open.
const MAX_OPENS: usize = 12;

/// The most bytes of one read or write, and the last place where one begins.
const MAX_PIECE: usize = 8192;

const MAX_OFFSET: usize = 20_000;

const OWNER: &str = "worker";

#[derive(Clone, Copy, Debug)]
pub enum Request {
    MakeDirectory,
    Open,
    Close,
    Write,
    Read,
    Resize,
    Commit,
    Remove,
    Rename,
    List,
    LookUp,
    UseStale,
}

/// Each as often as it is asked.
pub const REQUESTS: [Request; 24] = [
    Request::MakeDirectory,
    Request::MakeDirectory,
    Request::Open,
    Request::Open,
    Request::Open,
    Request::Open,
    Request::Close,
    Request::Write,
    Request::Write,
    Request::Write,
    Request::Write,
    Request::Read,
    Request::Read,
    Request::Read,
    Request::Resize,
    Request::Commit,
    Request::Remove,
    Request::Remove,
    Request::Rename,
    Request::Rename,
    Request::List,
    Request::List,
    Request::LookUp,
    Request::UseStale,
];

impl Worker {
    pub fn ask(&mut self, request: Request) -> Result<(), Trouble> {
        match request {
            Request::MakeDirectory => self.make_directory(),
            Request::Open => self.open(),
            Request::Close => self.close(),
            Request::Write => self.write(),
            Request::Read => self.read(),
            Request::Resize => self.resize(),
            Request::Commit => self.commit(),
            Request::Remove => self.remove(),
            Request::Rename => self.rename(),
            Request::List => self.list(),
            Request::LookUp => self.look_up(),
            Request::UseStale => self.use_stale(),
        }
    }

    fn make_directory(&mut self) -> Result<(), Trouble> {
        if self.tree.len() > MAX_NODES {
            return self.remove();
        }
        let at = self.place();
        let ops = self
            .on(at.directory)
            .make_directory(at.name)
            .get_handle()
            .get_attributes(&CHANGE_AND_SIZE);
        let mut results = self.results_on(&ops)?;
        if self.tree.child(at).is_some() {
            results.is(Op::Create, Status::EXIST)?;
            return results.end();
        }
        results.ok(Op::Create)?;
        let changed = results.changed()?;
        self.alter(at.directory, changed)?;
        results.bitmap()?;
        self.add(results, at, Content::directory())?;
        Ok(())
    }

    fn open(&mut self) -> Result<(), Trouble> {
        if self.opens.len() >= MAX_OPENS || self.tree.len() > MAX_NODES {
            return self.remove();
        }
        let hows = [How::Known, How::Unchecked, How::Emptied, How::Guarded];
        let (at, how) = (self.place(), self.choices.of(&hows));
        let ops = self
            .on(at.directory)
            .open(self.link.client.id, OWNER, at.name, how)
            .get_handle()
            .get_attributes(&CHANGE_AND_SIZE);
        let due = self.due_of_open(at, how);
        let mut results = self.results_on(&ops)?;
        results.is(Op::Open, due)?;
        if due != Status::OK {
            return results.end();
        }
        let (state, changed) = (results.stateid()?, results.changed()?);
        // Its flags, what was set, and no delegation.
        results.number()?;
        results.bitmap()?;
        results.number()?;
        let file = match self.tree.child(at) {
            None => {
                self.alter(at.directory, changed)?;
                self.add(results, at, Content::File(Vec::new()))?
            }
            Some(file) => {
                self.keeps(at.directory, changed)?;
                if how == How::Emptied {
                    self.tree.node_mut(file).content = Content::File(Vec::new());
                    self.is_changed(results, file)?;
                } else {
                    self.is_known(results, file)?;
                }
                file
            }
        };
        self.opened(file, state)
    }

    fn due_of_open(&self, at: Place, how: How) -> Status {
        match self.tree.child(at) {
            None if how == How::Known => Status::NOENT,
            Some(_) if how == How::Guarded => Status::EXIST,
            Some(number) if self.tree.is_directory(number) => Status::ISDIR,
            _ => Status::OK,
        }
    }

    /// A file that is opened again keeps its open, under the next number.
    fn opened(&mut self, file: Number, state: StateId) -> Result<(), Trouble> {
        let is_due = match self.opens.get(&file) {
            Some(before) => state.other == before.other && state.seqid == before.seqid + 1,
            None => state.seqid == 1 && self.opens.values().all(|it| it.other != state.other),
        };
        check(is_due, || format!("{state:?} beside {:?}", self.opens))?;
        self.opens.insert(file, state);
        Ok(())
    }

    fn close(&mut self) -> Result<(), Trouble> {
        let files: Vec<Number> = self.opens.keys().copied().collect();
        if files.is_empty() {
            return self.open();
        }
        let file = self.choices.of(&files);
        let ops = self.on(file).close(self.opens[&file]);
        let mut results = self.results_on(&ops)?;
        results.ok(Op::Close)?;
        results.stateid()?;
        self.opens.remove(&file);
        results.end()
    }

    fn write(&mut self) -> Result<(), Trouble> {
        let number = self.node();
        let most = self.choices.of(&[16, 512, MAX_PIECE]);
        let len = 1 + self.choices.below(most);
        let bytes = self.choices.bytes(len);
        let offset = self.choices.below(MAX_OFFSET);
        let stable = self.choices.of(&[0, 0, 1, 2]);
        let state = self.stateid(number);
        let ops = self
            .on(number)
            .write(state, offset as u64, stable, &bytes)
            .get_attributes(&CHANGE_AND_SIZE);
        let mut results = self.results_on(&ops)?;
        if self.tree.is_directory(number) {
            results.is(Op::Write, Status::ISDIR)?;
            return results.end();
        }
        results.ok(Op::Write)?;
        let told = (results.number()? as usize, results.number()?);
        let due = (len, if stable == 0 { 0 } else { 2 });
        check(told == due, || format!("{told:?} in place of {due:?}"))?;
        let verifier = results.verifier()?;
        self.is_same_run(verifier)?;
        let file = self.file_mut(number)?;
        let end = file.len().max(offset + len);
        file.resize(end, 0);
        file[offset..offset + len].copy_from_slice(&bytes);
        self.shows_changed(&mut results, number)?;
        results.end()
    }

    fn read(&mut self) -> Result<(), Trouble> {
        let number = self.node();
        let offset = self.choices.below(MAX_OFFSET + MAX_PIECE);
        let count = 1 + self.choices.below(MAX_PIECE);
        let state = self.stateid(number);
        let ops = self
            .on(number)
            .read(state, offset as u64, count as u32)
            .get_attributes(&CHANGE_AND_SIZE);
        let mut results = self.results_on(&ops)?;
        if self.tree.is_directory(number) {
            results.is(Op::Read, Status::ISDIR)?;
            return results.end();
        }
        results.ok(Op::Read)?;
        let (is_end, bytes) = (results.number()? == 1, results.bytes()?);
        let file = self.file_mut(number)?;
        let from = offset.min(file.len());
        let to = (offset + count).min(file.len());
        check(bytes == file[from..to], || {
            format!("{} other bytes from {offset} on", bytes.len())
        })?;
        check(is_end == (to == file.len()), || format!("end {is_end}"))?;
        self.shows(&mut results, number)?;
        results.end()
    }

    fn resize(&mut self) -> Result<(), Trouble> {
        let number = self.node();
        if self.tree.is_directory(number) {
            return self.open();
        }
        let size = self.choices.below(MAX_OFFSET);
        let state = self.stateid(number);
        let ops = self
            .on(number)
            .resize(state, size as u64)
            .get_attributes(&CHANGE_AND_SIZE);
        let mut results = self.results_on(&ops)?;
        results.ok(Op::SetAttr)?;
        results.bitmap()?;
        self.file_mut(number)?.resize(size, 0);
        self.shows_changed(&mut results, number)?;
        results.end()
    }

    fn commit(&mut self) -> Result<(), Trouble> {
        let number = self.node();
        let ops = self.on(number).commit();
        let mut results = self.results_on(&ops)?;
        if self.tree.is_directory(number) {
            results.is(Op::Commit, Status::ISDIR)?;
            return results.end();
        }
        results.ok(Op::Commit)?;
        let verifier = results.verifier()?;
        self.is_same_run(verifier)?;
        results.end()
    }

    fn remove(&mut self) -> Result<(), Trouble> {
        let at = self.known_place(2);
        self.remove_at(at)
    }

    /// Removes what stands there, if that can be.
    pub fn remove_at(&mut self, at: Place) -> Result<(), Trouble> {
        let due = match self.tree.child(at) {
            None => Status::NOENT,
            Some(number) if !self.tree.names(number).is_empty() => Status::NOTEMPTY,
            Some(_) => Status::OK,
        };
        let ops = self
            .on(at.directory)
            .remove(at.name)
            .get_attributes(&CHANGE_AND_SIZE);
        let mut results = self.results_on(&ops)?;
        results.is(Op::Remove, due)?;
        if due != Status::OK {
            return results.end();
        }
        let changed = results.changed()?;
        self.alter(at.directory, changed)?;
        self.drop_node(at);
        self.shows(&mut results, at.directory)?;
        results.end()
    }

    fn drop_node(&mut self, at: Place) {
        if let Some((number, node)) = self.tree.remove(at) {
            self.opens.remove(&number);
            self.removed = Some(node.handle);
        }
    }

    fn rename(&mut self) -> Result<(), Trouble> {
        let (from, mut to) = (self.known_place(8), self.place());
        if self.is_too_deep(from, to) {
            to.directory = TOP;
        }
        let due = self.due_of_rename(from, to);
        let target = self.tree.node(to.directory).handle.clone();
        let ops = self
            .on(from.directory)
            .save()
            .put(&target)
            .rename(from.name, to.name)
            .get_attributes(&CHANGE_AND_SIZE);
        let mut results = self.results_on(&ops)?;
        results.ok(Op::SaveFh)?;
        results.ok(Op::PutFh)?;
        results.is(Op::Rename, due)?;
        if due != Status::OK {
            return results.end();
        }
        let (source, target) = (results.changed()?, results.changed()?);
        if from == to {
            self.keeps(from.directory, source)?;
            self.keeps(to.directory, target)?;
        } else {
            self.alter(from.directory, source)?;
            if from.directory == to.directory {
                check(source == target, || format!("{source:?}, {target:?}"))?;
            } else {
                self.alter(to.directory, target)?;
            }
            self.drop_node(to);
            self.tree.rename(from, to);
        }
        self.shows(&mut results, to.directory)?;
        results.end()
    }

    fn due_of_rename(&self, from: Place, to: Place) -> Status {
        let Some(moved) = self.tree.child(from) else {
            return Status::NOENT;
        };
        let target = self.tree.child(to);
        if from != to && self.tree.is_below(to.directory, moved) {
            return Status::INVAL;
        }
        match target {
            Some(target) if from != to && !self.tree.may_replace(moved, target) => Status::EXIST,
            _ => Status::OK,
        }
    }

    /// Whether paths would have too many names.
    fn is_too_deep(&self, from: Place, to: Place) -> bool {
        let height = self.tree.child(from).map_or(0, |it| self.tree.height(it));
        self.tree.path(to.directory).len() + 1 + height > MAX_DEPTH
    }

    fn list(&mut self) -> Result<(), Trouble> {
        let number = self.directory();
        let ops = self.on(number).list(8192, &CHANGE);
        let mut results = self.results_on(&ops)?;
        results.ok(Op::ReadDir)?;
        let page = results.page(&CHANGE)?;
        let told: BTreeMap<&str, u64> = page
            .iter()
            .map(|(name, values)| (name.as_str(), number_at(values, 0)))
            .collect();
        let names = self.tree.names(number);
        let due: BTreeMap<&str, u64> = names
            .iter()
            .map(|(name, child)| (*name, self.tree.node(*child).change))
            .collect();
        check(told == due && page.len() == due.len(), || {
            format!("{page:?} in place of {due:?}")
        })?;
        results.end()
    }

    /// Looks a path up from the root, and perhaps a name behind it.
    fn look_up(&mut self) -> Result<(), Trouble> {
        let mut number = self.node();
        let path = self.tree.path(number);
        let name = self.choices.of(&NAMES);
        let further = self.choices.once_in(2).then_some(name);
        let start = Ops::new().put_root().lookup(&self.name);
        let ops = path
            .iter()
            .chain(&further)
            .fold(start, |ops, name| ops.lookup(name))
            .get_handle()
            .get_attributes(&CHANGE_AND_SIZE);
        let mut results = self.link.ask(&ops)?;
        results.ok(Op::PutRootFh)?;
        for _ in 0..1 + path.len() {
            results.ok(Op::Lookup)?;
        }
        if let Some(name) = further {
            let directory = number;
            let due = match self.tree.child(Place { directory, name }) {
                _ if !self.tree.is_directory(directory) => Status::NOTDIR,
                None => Status::NOENT,
                Some(child) => {
                    number = child;
                    Status::OK
                }
            };
            results.is(Op::Lookup, due)?;
            if due != Status::OK {
                return results.end();
            }
        }
        self.is_known(results, number)
    }

    /// The filehandle of what was removed.
    fn use_stale(&mut self) -> Result<(), Trouble> {
        let Some(handle) = self.removed.clone() else {
            return self.list();
        };
        let ops = Ops::new().put(&handle).get_attributes(&CHANGE_AND_SIZE);
        let mut results = self.link.ask(&ops)?;
        results.is(Op::PutFh, Status::STALE)?;
        results.end()
    }
}
