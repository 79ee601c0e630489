//! Trees and the way from one subtree to the next.

use crate::refusal::{refuse_if, Refusal};

/// Most leaves of a tree.
pub const LEAVES_MAX: usize = 1_024;
/// Most nodes of a tree: those of the binary tree of 1,024 leaves.
pub const NODES_MAX: usize = 2 * LEAVES_MAX - 1;

/// A full tree that was not refused.
#[derive(Clone, Copy, Debug)]
pub struct Tree {
    branches: u32,
    leaves: u32,
}

/// A subtree, with its number when nodes are counted from the root (0), level by level and left to right.
#[derive(Clone, Copy, Debug, PartialEq, Eq)]
pub struct Subtree {
    pub node: u32,
    pub first: u32,
    pub width: u32,
}

impl Subtree {
    /// The leaf behind the last one.
    pub fn end(self) -> u32 {
        self.first + self.width
    }
}

impl Tree {
    /// The tree of so many branches and leaves, or refusal 1 or 2.
    pub fn new(branches: u32, leaves: u32) -> Result<Tree, Refusal> {
        refuse_if(!(2..=16).contains(&branches), 1)?;
        let power = (1..=10).any(|n| branches.checked_pow(n) == Some(leaves));
        refuse_if(!power || leaves as usize > LEAVES_MAX, 2)?;
        Ok(Tree { branches, leaves })
    }

    pub fn branches(self) -> u32 {
        self.branches
    }

    pub fn leaves(self) -> usize {
        self.leaves as usize
    }

    /// How many nodes it has, leaves included.
    pub fn nodes(self) -> usize {
        ((self.branches * self.leaves - 1) / (self.branches - 1)) as usize
    }

    pub fn root(self) -> Subtree {
        Subtree { node: 0, first: 0, width: self.leaves }
    }

    /// The leftmost child of a subtree above a leaf.
    pub fn first_child(self, of: Subtree) -> Subtree {
        Subtree {
            node: of.node * self.branches + 1,
            first: of.first,
            width: of.width / self.branches,
        }
    }

    /// What is visited when a subtree is finished: its right neighbour, or that of the nearest node above that has one.
    pub fn after(self, finished: Subtree) -> Option<Subtree> {
        let (mut node, mut width) = (finished.node, finished.width);
        // The last of a node's children has a number that the branching divides, and so has the root.
        while node % self.branches == 0 {
            if node == 0 {
                return None;
            }
            node = node / self.branches - 1;
            width *= self.branches;
        }
        Some(Subtree { node: node + 1, first: finished.end(), width })
    }
}

#[cfg(test)]
mod tests {
    use super::*;

    #[test]
    fn shapes_are_refused_in_order() {
        for branches in [0, 1, 17, u32::MAX] {
            assert_eq!(Tree::new(branches, 0).unwrap_err(), Refusal(1));
        }
        for (branches, leaves) in [(2, 0), (2, 1), (2, 6), (2, 2_048), (4, 512), (16, 4_096), (3, u32::MAX)] {
            assert_eq!(Tree::new(branches, leaves).unwrap_err(), Refusal(2));
        }
        for (branches, leaves) in [(2, 2), (2, 1_024), (4, 1_024), (10, 1_000), (16, 16), (16, 256)] {
            assert!(Tree::new(branches, leaves).is_ok());
        }
    }

    #[test]
    fn the_next_subtree_has_the_largest_width_that_divides_its_first_leaf() {
        for (branches, leaves) in [(2, 16), (3, 27), (4, 64), (16, 256)] {
            let tree = Tree::new(branches, leaves).unwrap();
            let mut all = vec![tree.root()];
            let mut place = 0;
            while place < all.len() {
                let mut child = (all[place].width > 1).then(|| tree.first_child(all[place]));
                for _ in 0..branches {
                    all.extend(child);
                    child = child.and_then(|one| tree.after(one));
                }
                place += 1;
            }
            assert_eq!(all.len(), tree.nodes());
            for subtree in all {
                let end = subtree.end();
                let powers = (0..).map(|n| branches.pow(n)).take_while(|&w| w < leaves);
                let width = powers.filter(|w| end % w == 0).max();
                let next = tree.after(subtree);
                assert_eq!(next.map(|s| s.first), (end < leaves).then_some(end));
                assert_eq!(next.map(|s| s.width), width.filter(|_| end < leaves));
            }
        }
    }

    #[test]
    fn nodes_are_counted_with_the_leaves() {
        assert_eq!(Tree::new(2, 4).unwrap().nodes(), 7);
        assert_eq!(Tree::new(4, 16).unwrap().nodes(), 21);
        assert_eq!(Tree::new(2, 1_024).unwrap().nodes(), NODES_MAX);
    }
}
