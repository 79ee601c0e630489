//! Placements: leaves that cost as much as k of them can.

use crate::fault::{commits, Fault};
use crate::refusal::{refuse_if, Refusal};
use crate::row::ROW;
use crate::search::search;
use crate::tree::{Tree, NODES_MAX};
use crate::worst::Levels;

/// The silent and colliding slots of a search with these leaves active.
pub fn cost(branches: u32, leaves: u32, active: &[u8]) -> Result<u32, Refusal> {
    let mut log = [0; ROW * NODES_MAX];
    let found = search(branches, leaves, active, &mut log)?;
    if commits(Fault::PlacementCost) {
        return Ok(found.collisions);
    }
    Ok(found.silences + found.collisions)
}

/// Writes a costliest placement of k active leaves. Which one is the builder's choice.
pub fn place(branches: u32, leaves: u32, k: u32, list: &mut [u8]) -> Result<(), Refusal> {
    let tree = Tree::new(branches, leaves)?;
    let long = commits(Fault::PlacementTakesLongLists) && list.len() > tree.leaves();
    refuse_if(list.len() != tree.leaves() && !long, 3)?;
    refuse_if(k > leaves, 5)?;
    let levels = Levels::below(tree);
    fill(&levels, tree, k as usize, &mut list[..tree.leaves()]);
    Ok(())
}

/// Shares k among the children in one of the costliest ways, the last child first, and so on down to the leaves.
fn fill(levels: &Levels, tree: Tree, k: usize, list: &mut [u8]) {
    let branches = tree.branches() as usize;
    if list.len() == 1 {
        list[0] = k as u8;
        return;
    }
    let part = list.len() / branches;
    let level = level_of(part, branches);
    let mut left = k;
    for j in (1..=branches).rev() {
        let (_, last) = levels.shared(level, j, left);
        let child = &mut list[(j - 1) * part..j * part];
        fill(levels, tree, last, child);
        left -= last;
    }
}

/// How many levels above the leaves a node of that width stands.
fn level_of(width: usize, branches: usize) -> usize {
    width.ilog(branches) as usize
}

#[cfg(test)]
mod tests {
    use super::*;
    use crate::worst::worst_count;

    #[test]
    fn every_placement_costs_the_worst_count() {
        for (m, t) in [
            (2, 2),
            (2, 16),
            (2, 64),
            (3, 27),
            (4, 64),
            (10, 100),
            (16, 16),
            (16, 256),
        ] {
            for k in 0..=t {
                let mut list = vec![9; t as usize];
                place(m, t, k, &mut list).unwrap();
                assert_eq!(list.iter().map(|&leaf| u32::from(leaf)).sum::<u32>(), k);
                assert_eq!(cost(m, t, &list), worst_count(m, t, k));
            }
        }
    }

    #[test]
    fn the_costs_of_the_rules() {
        assert_eq!(cost(2, 4, &[0, 0, 0, 1]), Ok(0));
        assert_eq!(cost(2, 4, &[1, 1, 0, 0]), Ok(3));
        assert_eq!(cost(2, 4, &[1, 0, 1, 0]), Ok(1));
    }

    #[test]
    fn refusals_come_in_order_and_change_nothing() {
        let mut list = [7; 5];
        assert_eq!(place(17, 6, 9, &mut list), Err(Refusal(1)));
        assert_eq!(place(2, 6, 9, &mut list), Err(Refusal(2)));
        assert_eq!(place(2, 4, 9, &mut list), Err(Refusal(3)));
        assert_eq!(place(2, 4, 5, &mut list[..4]), Err(Refusal(5)));
        assert_eq!(list, [7; 5]);
    }
}
