// Made from crates/cube_shape/src/paths.rt by checks/lib/erase.py. Change that file.

use crate::source::cube_shape::node::{Node, Side};

/// Returns the parent of a node other than the root.
///
/// # Clauses of the proved source
///
/// - requires: `1 < node.0`
/// - ensures: `result.0 ≡ parent_of node.0`
pub fn parent(node: Node) -> Node {
    Node(node.0 / 2)
}

/// Returns which child of its parent a node other than the root is.
///
/// # Clauses of the proved source
///
/// - requires: `1 < node.0`
/// - ensures side: `result ≡ side_of node.0`
/// - ensures child: `node.0 ≡ child_of (parent_of node.0) result`
pub fn side(node: Node) -> Side {
    if node.0 % 2 == 0 {
        Side::Left
    } else {
        Side::Right
    }
}

/// Returns whether `a` is `b` or an ancestor of `b`.
///
/// # Clauses of the proved source
///
/// - requires first: `0 < a.0`
/// - requires second: `0 < b.0`
/// - ensures: `IsTrue result ↔ OnPath a.0 b.0`
pub fn on_path(a: Node, b: Node) -> bool {
    let steps = b.0.ilog2().saturating_sub(a.0.ilog2());
    b.0 >> steps == a.0
}

/// Returns the child of an ancestor that is on the path to a node below it.
///
/// # Clauses of the proved source
///
/// - requires above: `ancestor.0 < node.0`
/// - requires on_path: `OnPath ancestor.0 node.0`
/// - ensures child: `parent_of result.0 ≡ ancestor.0`
/// - ensures on_path: `OnPath result.0 node.0`
/// - ensures value: `result.0 ≡ child_on_path ancestor.0 node.0`
pub fn child_towards(ancestor: Node, node: Node) -> Node {
    let steps = node.0.ilog2() - ancestor.0.ilog2() - 1;
    Node(node.0 >> steps)
}
