//! All exports of an image.

use alloc::vec;
use alloc::vec::Vec;
use core::fmt;
use core::iter::FusedIterator;

use crate::ffi::{self, ExportEdge, ExportNode, Span};
use crate::{Export, Image};

/// The most edges of a node: one byte counts them.
const MOST_EDGES: usize = 255;

/// The exports of an image with their names, in the order in which a walk over the export trie visits them.
///
/// A name is any bytes except zeros, and need not be UTF-8. Names in a trie can share their beginnings, so all names
/// together can be far longer than the trie: a program that keeps the names of a hostile file adds up their sizes.
#[derive(Clone)]
pub struct Exports<'a> {
    image: Image<'a>,
    trie: Span,
    /// How many bytes the nodes that are left to visit may have.
    left: u64,
    /// The nodes that wait: the last one is next.
    waiting: Vec<Waiting>,
    /// The name that leads to the last visited node.
    name: Vec<u8>,
    /// Room for the edges of a node.
    edges: Vec<ExportEdge>,
}

/// A node that is left to visit.
#[derive(Clone, Copy)]
struct Waiting {
    offset: u64,
    /// How many bytes of the name of the node before it lead to it, before its label.
    shared: usize,
    label: Span,
}

impl<'a> Exports<'a> {
    pub(crate) fn new(image: Image<'a>) -> Self {
        let (status, trie) = ffi::find_export_trie(image.file(), image.raw());
        let root = Waiting {
            offset: 0,
            shared: 0,
            label: Span::default(),
        };
        Exports {
            image,
            trie,
            left: trie.size,
            waiting: if status == ffi::OK {
                vec![root]
            } else {
                Vec::new()
            },
            name: Vec::new(),
            edges: vec![ExportEdge::default(); MOST_EDGES],
        }
    }

    /// Reads a node, and puts its children before those that wait. `None` if it does not end in the trie, or if the
    /// visited nodes have more bytes than the trie.
    fn meet(&mut self, offset: u64) -> Option<ExportNode> {
        let (file, trie) = (self.image.file(), &self.trie);
        let (status, node) = ffi::read_export_node(file, self.image.raw(), trie, offset);
        if status != ffi::OK {
            return None;
        }
        let mut cursor = node.edges;
        let count = ffi::read_export_edges(file, trie, &mut cursor, &mut self.edges);
        if cursor.items > 0 {
            return None;
        }
        self.left = self.left.checked_sub(cursor.place - offset)?;
        let shared = self.name.len();
        let children = self.edges[..count].iter().rev().map(|edge| Waiting {
            offset: edge.child,
            shared,
            label: edge.label,
        });
        self.waiting.extend(children);
        Some(node)
    }
}

impl<'a> Iterator for Exports<'a> {
    type Item = (Vec<u8>, Export<'a>);

    fn next(&mut self) -> Option<Self::Item> {
        while let Some(next) = self.waiting.pop() {
            self.name.truncate(next.shared);
            self.name.extend_from_slice(self.image.part(next.label));
            let node = match self.meet(next.offset) {
                Some(node) => node,
                None => {
                    self.waiting.clear();
                    return None;
                }
            };
            if node.has_export != 0 {
                return Some((self.name.clone(), Export::new(node.exported, &self.image)));
            }
        }
        None
    }
}

impl<'a> FusedIterator for Exports<'a> {}

impl<'a> fmt::Debug for Exports<'a> {
    fn fmt(&self, f: &mut fmt::Formatter<'_>) -> fmt::Result {
        f.debug_struct("Exports").finish_non_exhaustive()
    }
}
