//! Who owns an index in each subtree of the static tree.

use crate::shop::FREE;
use crate::tree::{Tree, NODES_MAX};

/// The stations that own an index there, as bits, by the number of the node.
pub struct Owners {
    masks: [u32; NODES_MAX],
}

impl Owners {
    /// The leaves' owners, joined upwards to the root.
    pub fn new(tree: Tree, owners: &[u32]) -> Owners {
        let mut masks = [0; NODES_MAX];
        let nodes = tree.nodes();
        let leaves = masks[nodes - tree.leaves()..nodes].iter_mut();
        for (mask, &owner) in leaves.zip(owners) {
            *mask = if owner == FREE { 0 } else { 1 << owner };
        }
        let branches = tree.branches() as usize;
        for parent in (0..nodes - tree.leaves()).rev() {
            let children = parent * branches + 1..=parent * branches + branches;
            masks[parent] = masks[children].iter().fold(0, |all, one| all | one);
        }
        Owners { masks }
    }

    /// The owners in the subtree of that number.
    pub fn below(&self, node: u32) -> u32 {
        self.masks[node as usize]
    }
}

#[cfg(test)]
mod tests {
    use super::*;

    #[test]
    fn a_subtree_has_the_owners_of_its_leaves() {
        let tree = Tree::new(2, 4).unwrap();
        let owners = Owners::new(tree, &[0, FREE, 2, 31]);
        let left = tree.first_child(tree.root());
        let right = tree.after(left).unwrap();
        assert_eq!(owners.below(left.node), 1);
        assert_eq!(owners.below(right.node), 1 << 2 | 1 << 31);
        let leaf = tree.first_child(left);
        assert_eq!(owners.below(leaf.node), 1);
        assert_eq!(owners.below(tree.after(leaf).unwrap().node), 0);
    }
}
