//! The tree and its shape.

use super::{fault, Fault};

pub const MOST_NODES: usize = 4_096;
pub const MOST_DEPTH: usize = 32;
pub const INTEGER_TEXT: u32 = 65;
pub const OTHER_TEXT: u32 = 66;

/// "A node is four 32-bit words: symbol; size; text start; text length."
#[derive(Clone, Copy, Debug, PartialEq, Eq)]
pub struct Node {
    pub symbol: u32,
    pub size: u32,
    pub start: u32,
    pub length: u32,
}

impl Node {
    /// A text; only asked where the symbol is allowed. Node 0 isn't one, whatever its symbol.
    pub fn is_text(&self) -> bool {
        self.symbol == INTEGER_TEXT || self.symbol == OTHER_TEXT
    }
}

pub fn words(nodes: &[Node]) -> Vec<u32> {
    nodes
        .iter()
        .flat_map(|node| [node.symbol, node.size, node.start, node.length])
        .collect()
}

/// The nodes of a tree with so many tags. 10 stands at "the count of whole nodes where length or n
/// is wrong, else the first failing node".
pub fn parse(tags: u32, words: &[u32]) -> Result<Vec<Node>, Fault> {
    let n = words.len() / 4;
    if !words.len().is_multiple_of(4) {
        return Err(fault(10, n, "length"));
    }
    if n == 0 || n > MOST_NODES {
        return Err(fault(10, n, "number of nodes"));
    }
    let nodes: Vec<Node> = words.chunks_exact(4).map(node).collect();
    check_shape(tags, &nodes)?;
    Ok(nodes)
}

fn node(words: &[u32]) -> Node {
    Node {
        symbol: words[0],
        size: words[1],
        start: words[2],
        length: words[3],
    }
}

fn check_shape(tags: u32, nodes: &[Node]) -> Result<(), Fault> {
    // The open elements, each as the number of the node after its last.
    let mut open: Vec<usize> = Vec::new();
    for number in 0..nodes.len() {
        while open.last() == Some(&number) {
            open.pop();
        }
        check_node(tags, nodes, number, &open).map_err(|why| fault(10, number, why))?;
        if number == 0 || !nodes[number].is_text() {
            open.push(number + nodes[number].size as usize);
        }
    }
    Ok(())
}

/// One node beside the nodes before it, all of which passed. The parent is the innermost open
/// element. Any number of tags may be given, and document 01 speaks of 1 to 64: among 65 tags or
/// more 65 and 66 are texts all the same, but at node 0, which is a tag.
fn check_node(
    tags: u32,
    nodes: &[Node],
    number: usize,
    open: &[usize],
) -> Result<(), &'static str> {
    let node = nodes[number];
    let is_tag = 1 <= node.symbol && node.symbol <= tags;
    if !is_tag && !node.is_text() {
        return Err("symbol");
    }
    if node.size == 0 {
        return Err("size 0");
    }
    let Some(&parent_end) = open.last() else {
        return check_root(is_tag, node, nodes.len());
    };
    if number as u64 + u64::from(node.size) > parent_end as u64 {
        return Err("end past the parent's");
    }
    if !node.is_text() && open.len() == MOST_DEPTH {
        return Err("depth 33");
    }
    if node.is_text() && node.size != 1 {
        return Err("size of a text");
    }
    // The node before is a text of size 1, so it is a sibling unless it ended the parent before
    // this one, or is this one's parent, which a text can't be.
    if node.is_text() && nodes[number - 1].is_text() && is_sibling(nodes, number - 1, number) {
        return Err("text beside text");
    }
    Ok(())
}

/// "Node 0 is a tag of size n."
fn check_root(is_tag: bool, node: Node, n: usize) -> Result<(), &'static str> {
    if !is_tag {
        Err("node 0 is a text")
    } else if node.size as usize != n {
        Err("size of node 0")
    } else {
        Ok(())
    }
}

/// Whether two nodes have one parent; the nodes up to the later one passed, but for that one.
fn is_sibling(nodes: &[Node], earlier: usize, later: usize) -> bool {
    parent(nodes, earlier) == parent(nodes, later)
}

/// The nearest earlier node that reaches over this one.
fn parent(nodes: &[Node], number: usize) -> Option<usize> {
    (0..number)
        .rev()
        .find(|&above| above + nodes[above].size as usize > number)
}

/// The numbers of a node's children, in document order.
pub fn children(nodes: &[Node], number: usize) -> Vec<usize> {
    let end = number + nodes[number].size as usize;
    let mut children = Vec::new();
    let mut child = number + 1;
    while child < end {
        children.push(child);
        child += nodes[child].size as usize;
    }
    children
}
