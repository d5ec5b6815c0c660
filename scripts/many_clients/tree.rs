//! The model of a directory and all below it.

use std::collections::BTreeMap;

/// A node's number in the model.
pub type Number = usize;

/// The directory that the model begins with.
pub const TOP: Number = 0;

/// A name in a directory.
#[derive(Clone, Copy, Debug, PartialEq, Eq)]
pub struct Place {
    pub directory: Number,
    pub name: &'static str,
}

#[derive(Debug)]
pub enum Content {
    File(Vec<u8>),
    Directory(BTreeMap<&'static str, Number>),
}

impl Content {
    pub fn directory() -> Content {
        Content::Directory(BTreeMap::new())
    }
}

#[derive(Debug)]
pub struct Node {
    /// What the server told of it: its filehandle, and its change attribute.
    pub handle: Vec<u8>,
    pub change: u64,
    pub content: Content,
    /// Where it stands; nowhere for the top.
    pub place: Option<Place>,
}

impl Node {
    /// A file's bytes, or a directory's names.
    pub fn size(&self) -> u64 {
        match &self.content {
            Content::File(bytes) => bytes.len() as u64,
            Content::Directory(names) => names.len() as u64,
        }
    }
}

#[derive(Debug)]
pub struct Tree {
    nodes: BTreeMap<Number, Node>,
    next: Number,
}

impl Tree {
    pub fn new(handle: Vec<u8>, change: u64) -> Tree {
        let top = Node {
            handle,
            change,
            content: Content::directory(),
            place: None,
        };
        Tree {
            nodes: BTreeMap::from([(TOP, top)]),
            next: TOP + 1,
        }
    }

    pub fn len(&self) -> usize {
        self.nodes.len()
    }

    pub fn node(&self, number: Number) -> &Node {
        &self.nodes[&number]
    }

    pub fn node_mut(&mut self, number: Number) -> &mut Node {
        self.nodes.get_mut(&number).expect("a node of the model")
    }

    pub fn is_directory(&self, number: Number) -> bool {
        matches!(self.node(number).content, Content::Directory(_))
    }

    /// The names of a directory, and none of a file.
    pub fn names(&self, number: Number) -> BTreeMap<&'static str, Number> {
        match &self.node(number).content {
            Content::Directory(names) => names.clone(),
            Content::File(_) => BTreeMap::new(),
        }
    }

    pub fn child(&self, at: Place) -> Option<Number> {
        self.names(at.directory).get(at.name).copied()
    }

    pub fn directories(&self) -> Vec<Number> {
        self.numbers(true)
    }

    pub fn files(&self) -> Vec<Number> {
        self.numbers(false)
    }

    fn numbers(&self, are_directories: bool) -> Vec<Number> {
        let all = self.nodes.keys().copied();
        all.filter(|number| self.is_directory(*number) == are_directories)
            .collect()
    }

    /// All places that have a node.
    pub fn places(&self) -> Vec<Place> {
        self.nodes.values().filter_map(|node| node.place).collect()
    }

    /// The names from the top to a node.
    pub fn path(&self, number: Number) -> Vec<&'static str> {
        let mut path = Vec::new();
        let mut at = number;
        while let Some(place) = self.node(at).place {
            path.insert(0, place.name);
            at = place.directory;
        }
        path
    }

    /// Whether a node is another one, or below it.
    pub fn is_below(&self, number: Number, above: Number) -> bool {
        let mut at = number;
        while at != above {
            match self.node(at).place {
                Some(place) => at = place.directory,
                None => return false,
            }
        }
        true
    }

    /// Whether both are files, or directories of which the second has no names.
    pub fn may_replace(&self, moved: Number, target: Number) -> bool {
        self.is_directory(moved) == self.is_directory(target) && self.names(target).is_empty()
    }

    /// How many names the longest path below a node has.
    pub fn height(&self, number: Number) -> usize {
        let names = self.names(number);
        let heights = names.values().map(|child| 1 + self.height(*child));
        heights.max().unwrap_or(0)
    }

    /// Puts a new node where there is none.
    pub fn add(&mut self, at: Place, node: Node) -> Number {
        let number = self.next;
        self.next += 1;
        self.nodes.insert(number, node);
        self.put(at, number);
        number
    }

    fn put(&mut self, at: Place, number: Number) {
        self.node_mut(number).place = Some(at);
        if let Content::Directory(names) = &mut self.node_mut(at.directory).content {
            names.insert(at.name, number);
        }
    }

    fn take(&mut self, at: Place) -> Option<Number> {
        match &mut self.node_mut(at.directory).content {
            Content::Directory(names) => names.remove(at.name),
            Content::File(_) => None,
        }
    }

    /// Drops what stands there, which has no names.
    pub fn remove(&mut self, at: Place) -> Option<(Number, Node)> {
        let number = self.take(at)?;
        let node = self.nodes.remove(&number)?;
        Some((number, node))
    }

    /// Moves what stands at the one place to the other, where nothing stands.
    pub fn rename(&mut self, from: Place, to: Place) {
        if let Some(number) = self.take(from) {
            self.put(to, number);
        }
    }
}
