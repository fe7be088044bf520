//! The cost of a cheapest joining set of a small survey with few sites: Dreyfus and Wagner's cheapest trees, and every
//! way to put the lists into trees.

use crate::View;
use std::cmp::Reverse;
use std::collections::BinaryHeap;

/// No more sites, and no more lists, are tried.
pub const MAX_SITES: usize = 12;
pub const MAX_LISTS: usize = 8;

/// No way.
const NONE: u64 = u64::MAX / 4;

/// For each set of sites, as bits, and each junction the cost of a cheapest tree that holds both.
fn trees(survey: View, sites: &[usize]) -> Vec<Vec<u64>> {
    let (n, k) = (survey.n(), sites.len());
    let mut ways: Vec<Vec<(usize, u64)>> = vec![Vec::new(); n];
    for t in 0..survey.m() {
        let (u, v, price) = (survey.first[t] as usize, survey.second[t] as usize, u64::from(survey.prices[t]));
        ways[u].push((v, price));
        ways[v].push((u, price));
    }
    let mut tree = vec![vec![NONE; n]; 1 << k];
    tree[0].fill(0);
    for set in 1usize..1 << k {
        let mut cost = vec![NONE; n];
        if set.is_power_of_two() {
            cost[sites[set.trailing_zeros() as usize]] = 0;
        }
        // Two trees that meet in a junction.
        let mut part = (set - 1) & set;
        while part > 0 {
            for v in 0..n {
                cost[v] = cost[v].min(tree[part][v] + tree[set ^ part][v]);
            }
            part = (part - 1) & set;
        }
        // A way from there.
        let mut heap: BinaryHeap<Reverse<(u64, usize)>> = (0..n).map(|v| Reverse((cost[v], v))).collect();
        while let Some(Reverse((least, u))) = heap.pop() {
            if least > cost[u] || least >= NONE {
                continue;
            }
            for &(v, price) in &ways[u] {
                if least + price < cost[v] {
                    cost[v] = least + price;
                    heap.push(Reverse((cost[v], v)));
                }
            }
        }
        tree[set] = cost;
    }
    tree
}

/// The cost of a cheapest set of tracks that joins every list, or nothing if no set does, or if there are too many sites
/// or lists to try.
pub fn cheapest(survey: View) -> Option<u64> {
    let lists = survey.lists();
    let mut sites = lists.concat();
    sites.sort_unstable();
    sites.dedup();
    if sites.len() > MAX_SITES || lists.len() > MAX_LISTS {
        return None;
    }
    let tree = trees(survey, &sites);
    let bit = |v: &usize| 1usize << sites.binary_search(v).expect("a site");
    let bits: Vec<usize> = lists.iter().map(|list| list.iter().map(bit).sum()).collect();
    // The cost of one tree for these lists.
    let one = |these: usize| {
        let all = (0..lists.len()).filter(|list| these >> list & 1 == 1).fold(0, |all, list| all | bits[list]);
        tree[all][sites[all.trailing_zeros() as usize]]
    };
    let mut forest = vec![0; 1 << lists.len()];
    for these in 1usize..1 << lists.len() {
        let lowest = these & these.wrapping_neg();
        forest[these] = NONE;
        let mut part = these;
        while part > 0 {
            if part & lowest != 0 {
                forest[these] = forest[these].min(one(part) + forest[these ^ part]);
            }
            part = (part - 1) & these;
        }
    }
    forest.last().copied().filter(|&cost| cost < NONE)
}
