//! Worst counts: the most silent and colliding slots that k active leaves can cost.

use crate::fault::{commits, Fault};
use crate::refusal::{refuse_if, Refusal};
use crate::tree::Tree;

/// X(k, t) by its recursion, each level of the tree worked out once.
pub fn worst_count(branches: u32, leaves: u32, k: u32) -> Result<u32, Refusal> {
    let tree = Tree::new(branches, leaves)?;
    if commits(Fault::WorstTakesAnyCount) && k > leaves {
        return Ok(0);
    }
    refuse_if(k > leaves, 5)?;
    let levels = Levels::below(tree);
    if commits(Fault::WorstGrows) {
        let all = (0..=k as usize).map(|k| levels.root(tree, k));
        return Ok(all.max().unwrap_or(0));
    }
    Ok(levels.root(tree, k as usize))
}

/// For each level of a tree but the root, from the leaves up, the most that j children together cost with k active
/// leaves: `most[level][j - 1][k]`.
pub struct Levels {
    most: Vec<Vec<Vec<u16>>>,
}

impl Levels {
    /// Works out what the root's children need, and what the root itself needs of all but one of them.
    pub fn below(tree: Tree) -> Levels {
        let branches = tree.branches() as usize;
        let mut one = vec![1, 0];
        let mut most = Vec::new();
        while (one.len() - 1) * branches < tree.leaves() {
            let parts = parts(&one, branches);
            one = of_parent(&parts[parts.len() - 1]);
            most.push(parts);
        }
        most.push(parts(&one, branches - 1));
        Levels { most }
    }

    /// X of the whole tree for one k.
    pub fn root(&self, tree: Tree, k: usize) -> u32 {
        match k {
            0 => 1,
            1 => 0,
            _ => 1 + u32::from(self.shared(self.most.len() - 1, tree.branches() as usize, k).0),
        }
    }

    /// The most that j children of a level cost with k active leaves, and how many of these lie in the last of them.
    pub fn shared(&self, level: usize, j: usize, k: usize) -> (u16, usize) {
        let one = &self.most[level][0];
        if j == 1 {
            return (one[k], k);
        }
        let others = &self.most[level][j - 2];
        let fewest = (k + 1).saturating_sub(others.len());
        let last = fewest..=k.min(one.len() - 1);
        let costs = last.map(|last| (others[k - last] + one[last], last));
        costs.max().unwrap_or((0, 0))
    }
}

/// X of a node from what its children cost together.
fn of_parent(children: &[u16]) -> Vec<u16> {
    let mut counts: Vec<u16> = children.iter().map(|cost| cost + 1).collect();
    counts[0] = 1;
    counts[1] = 0;
    counts
}

/// The most that 1, 2, .. up to `count` equal children cost together, for every number of active leaves.
fn parts(one: &[u16], count: usize) -> Vec<Vec<u16>> {
    let mut all = vec![one.to_vec()];
    for j in 1..count {
        let next = joined(&all[j - 1], one);
        all.push(next);
    }
    all
}

/// The largest sums over all ways of sharing the active leaves between the two.
fn joined(left: &[u16], right: &[u16]) -> Vec<u16> {
    let mut sums = vec![0; left.len() + right.len() - 1];
    for (k, &cost) in right.iter().enumerate() {
        for (sum, other) in sums[k..].iter_mut().zip(left) {
            *sum = (*sum).max(cost + other);
        }
    }
    sums
}

#[cfg(test)]
mod tests {
    use super::*;

    fn counts(m: u32, t: u32) -> Vec<u32> {
        (0..=t).map(|k| worst_count(m, t, k).unwrap()).collect()
    }

    #[test]
    fn the_counts_of_the_rules() {
        assert_eq!(counts(2, 4), [1, 0, 3, 2, 3]);
        assert_eq!(counts(4, 4), [1, 0, 3, 2, 1]);
        assert_eq!(counts(3, 9), [1, 0, 5, 4, 6, 5, 7, 6, 5, 4]);
        let of_64 = counts(4, 64);
        assert_eq!((of_64[2], of_64[32], of_64[64]), (11, 53, 21));
        let of_256 = counts(4, 256);
        assert_eq!((of_256[2], of_256[256]), (15, 85));
    }

    #[test]
    fn a_full_tree_collides_in_every_node_above_the_leaves() {
        for (m, t) in [(2, 2), (2, 1_024), (3, 729), (10, 1_000), (16, 256)] {
            assert_eq!(worst_count(m, t, t).unwrap(), (t - 1) / (m - 1));
            assert_eq!(worst_count(m, t, 0).unwrap(), 1);
            assert_eq!(worst_count(m, t, 1).unwrap(), 0);
        }
    }

    #[test]
    fn refusals_come_in_order() {
        assert_eq!(worst_count(1, 6, 9), Err(Refusal(1)));
        assert_eq!(worst_count(2, 6, 9), Err(Refusal(2)));
        assert_eq!(worst_count(2, 4, 5), Err(Refusal(5)));
    }
}
