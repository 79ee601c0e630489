//! Worst counts against every set of active leaves of small trees.

use independent::placement::cost;
use independent::worst::worst_count;

/// The largest cost of k active leaves, for each k.
fn largest_costs(m: u32, t: u32) -> Vec<u32> {
    let mut largest = vec![0; t as usize + 1];
    let mut leaves = vec![0; t as usize];
    for set in 0_u32..1 << t {
        for (place, leaf) in leaves.iter_mut().enumerate() {
            *leaf = (set >> place & 1) as u8;
        }
        let most = &mut largest[set.count_ones() as usize];
        *most = cost(m, t, &leaves).unwrap().max(*most);
    }
    largest
}

#[test]
fn no_set_of_leaves_costs_more_than_the_worst_count_and_one_costs_as_much() {
    for (m, t) in [
        (2, 2),
        (2, 4),
        (2, 8),
        (2, 16),
        (3, 3),
        (3, 9),
        (4, 4),
        (4, 16),
        (16, 16),
    ] {
        let worst: Vec<u32> = (0..=t).map(|k| worst_count(m, t, k).unwrap()).collect();
        assert_eq!(largest_costs(m, t), worst, "m {m}, t {t}");
    }
}
