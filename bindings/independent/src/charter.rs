//! Charters as trees, their reader (question 11) and their own rules (questions 12 to 15).

use crate::bytes::Reader;
use crate::dialect::Dialect;
use crate::permissions::{Count, Permissions};
use std::collections::BTreeSet;

#[derive(Clone, PartialEq, Eq, Debug)]
pub struct Charter {
    pub trees: Vec<Tree>,
}

#[derive(Clone, PartialEq, Eq, Debug)]
pub struct Tree {
    pub kind: u8,
    pub root: Node,
}

#[derive(Clone, PartialEq, Eq, Debug)]
pub struct Node {
    pub group: u8,
    pub grant: Permissions,
    pub nondisclose: bool,
    /// The purposes for which the node grants, bit p for purpose p; without a map, all.
    pub purposes: Option<u16>,
    pub children: Vec<Node>,
}

const UNREADABLE: u32 = 11;

/// Reads a whole charter; every fault of the reading has the number 11.
pub fn read(bytes: &[u8]) -> Result<Charter, u32> {
    let mut reader = Reader::new(bytes);
    let mut nodes_left = 64;
    let count = reader.below(17, UNREADABLE, UNREADABLE)?;
    let mut trees = Vec::new();
    for _ in 0..count {
        let kind = reader.below(16, UNREADABLE, UNREADABLE)?;
        let root = read_node(&mut reader, 8, &mut nodes_left)?;
        trees.push(Tree { kind, root });
    }
    if reader.at_end() { Ok(Charter { trees }) } else { Err(UNREADABLE) }
}

/// Reads a whole charter of a dialect. In the old one a map had no bit 5; every fault having one number, it is asked after the reading.
pub fn read_in(dialect: Dialect, bytes: &[u8]) -> Result<Charter, u32> {
    let charter = read(bytes)?;
    if dialect == Dialect::Old && charter.has_maps() { Err(UNREADABLE) } else { Ok(charter) }
}

/// Reads a node with at most `levels` levels of nodes, itself included.
fn read_node(reader: &mut Reader, levels: usize, nodes_left: &mut usize) -> Result<Node, u32> {
    if levels == 0 || *nodes_left == 0 {
        return Err(UNREADABLE);
    }
    *nodes_left -= 1;
    let group = reader.below(64, UNREADABLE, UNREADABLE)?;
    let map = reader.below(64, UNREADABLE, UNREADABLE)?;
    let bit = |number: u8| map & (1 << number) != 0;
    let mut grant = Permissions { read: bit(0), write: bit(1), access: bit(2), ..Permissions::default() };
    if bit(4) {
        read_list(reader, &mut grant)?;
    }
    let purposes = if bit(5) { Some(reader.two(UNREADABLE)?) } else { None };
    let children = read_children(reader, levels - 1, nodes_left)?;
    Ok(Node { group, grant, nondisclose: bit(3), purposes, children })
}

fn read_children(reader: &mut Reader, levels: usize, nodes_left: &mut usize) -> Result<Vec<Node>, u32> {
    let count = reader.byte(UNREADABLE)?;
    (0..count).map(|_| read_node(reader, levels, nodes_left)).collect()
}

fn read_list(reader: &mut Reader, grant: &mut Permissions) -> Result<(), u32> {
    let count = reader.byte(UNREADABLE)?;
    if !(1..=64).contains(&count) {
        return Err(UNREADABLE);
    }
    for _ in 0..count {
        let group = reader.below(64, UNREADABLE, UNREADABLE)?;
        let rising = grant.disclose.keys().next_back().is_none_or(|&last| last < group);
        let times = match reader.two(UNREADABLE)? {
            n @ 1..=4095 => Count::Finite(n as u32),
            65535 => Count::Unlimited,
            _ => return Err(UNREADABLE),
        };
        if !rising {
            return Err(UNREADABLE);
        }
        grant.disclose.insert(group, times);
    }
    Ok(())
}

impl Charter {
    /// The tree of a kind.
    pub fn tree(&self, kind: u8) -> Option<&Tree> {
        self.trees.iter().find(|tree| tree.kind == kind)
    }

    /// Whether some node has a map of purposes.
    pub fn has_maps(&self) -> bool {
        let mut some = false;
        self.trees.iter().for_each(|tree| tree.root.visit(&mut |node| some |= node.purposes.is_some()));
        some
    }

    /// Questions 12 to 15: 12 of the whole charter, 13 and 14 node by node, tree after tree, then 15 of the whole charter.
    pub fn check(&self) -> Result<(), u32> {
        let kinds: BTreeSet<u8> = self.trees.iter().map(|tree| tree.kind).collect();
        if kinds.len() != self.trees.len() {
            return Err(12);
        }
        self.trees.iter().try_for_each(|tree| check_nodes(&tree.root, &mut Vec::new(), &mut Vec::new()))?;
        if !self.trees.iter().all(|tree| fences_hold(&tree.root)) {
            return Err(15);
        }
        Ok(())
    }

    /// The stored form.
    pub fn write(&self) -> Vec<u8> {
        let mut out = vec![self.trees.len() as u8];
        for tree in &self.trees {
            out.push(tree.kind);
            tree.root.write(&mut out);
        }
        out
    }
}

impl Node {
    fn write(&self, out: &mut Vec<u8>) {
        out.push(self.group);
        out.push(self.grant.map() | (self.nondisclose as u8) << 3 | (self.purposes.is_some() as u8) << 5);
        self.grant.write_list(out);
        self.purposes.iter().for_each(|purposes| out.extend_from_slice(&purposes.to_le_bytes()));
        out.push(self.children.len() as u8);
        for child in &self.children {
            child.write(out);
        }
    }

    /// Whether the node grants for a purpose.
    pub fn serves(&self, purpose: u8) -> bool {
        self.purposes.is_none_or(|purposes| purposes & (1 << purpose) != 0)
    }

    /// Visits this node and all below it, in stored order.
    pub fn visit<'a>(&'a self, see: &mut dyn FnMut(&'a Node)) {
        see(self);
        for child in &self.children {
            child.visit(see);
        }
    }
}

/// Questions 13 and 14 of a node and then of those below it, in reading order: the first node that fails one of them gives the number, and
/// 14 goes before 13. `above` holds the nodes above it, `earlier` all that its tree has before it.
fn check_nodes<'a>(node: &'a Node, above: &mut Vec<&'a Node>, earlier: &mut Vec<&'a Node>) -> Result<(), u32> {
    if !same_permissions(node, earlier) {
        return Err(14);
    }
    if !new_group(node, above) {
        return Err(13);
    }
    above.push(node);
    earlier.push(node);
    node.children.iter().try_for_each(|child| check_nodes(child, above, earlier))?;
    above.pop();
    Ok(())
}

/// Question 13 of one node: no node above it has its group.
fn new_group(node: &Node, above: &[&Node]) -> bool {
    above.iter().all(|other| other.group != node.group)
}

/// Question 14 of one node: each earlier node of its group has its map, its list and its map of purposes, as they are stored.
fn same_permissions(node: &Node, earlier: &[&Node]) -> bool {
    let mut same_group = earlier.iter().filter(|other| other.group == node.group);
    same_group.all(|other| (other.nondisclose, &other.grant, other.purposes) == (node.nondisclose, &node.grant, node.purposes))
}

/// Question 15 for a node and all below it.
fn fences_hold(node: &Node) -> bool {
    (!node.nondisclose || fence_holds(node)) && node.children.iter().all(fences_hold)
}

/// Whether the nodes below this one disclose only to groups of it and of nodes below it.
fn fence_holds(node: &Node) -> bool {
    let mut inside = BTreeSet::new();
    node.visit(&mut |below| {
        inside.insert(below.group);
    });
    let mut fine = true;
    for child in &node.children {
        child.visit(&mut |below| fine &= below.grant.disclose.keys().all(|group| inside.contains(group)));
    }
    fine
}
