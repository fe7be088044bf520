//! Small surveys for measuring how far plans are from the cheapest.

use super::Rng;
use crate::Survey;

/// A connected survey of 12 to 30 junctions, with one group of 3 to 9 members, or two or three groups of 2 to 4. Half of
/// them have prices by chance, from 1 to 100; in the others junctions lie in a square of 100 by 100 steps, and a track's
/// price is the steps between its ends along the sides, or up to a quarter more.
pub fn distant(rng: &mut Rng, one: bool) -> Survey {
    let n = rng.between(12, 30);
    let square = rng.chance(1, 2);
    let place: Vec<(usize, usize)> = (0..n).map(|_| (rng.below(100), rng.below(100))).collect();
    let extra = rng.between(n / 2, 2 * n);
    let mut tracks = Vec::new();
    for i in 1..n + extra {
        let (u, v) = if i < n { (i, rng.below(i)) } else { (rng.below(n), rng.below(n)) };
        if u == v {
            continue;
        }
        let steps = place[u].0.abs_diff(place[v].0) + place[u].1.abs_diff(place[v].1);
        let price = if square { steps + rng.below(steps / 4 + 1) } else { rng.between(1, 100) };
        tracks.push((u as u32, v as u32, price.max(1) as u32));
    }
    rng.shuffle(&mut tracks);
    let mut sites: Vec<usize> = (0..n).collect();
    rng.shuffle(&mut sites);
    let sizes = if one { vec![rng.between(3, 9)] } else { (0..rng.between(2, 3)).map(|_| rng.between(2, 4)).collect() };
    let mut groups = vec![0; n];
    let mut rest = sites.into_iter();
    for (i, size) in sizes.into_iter().enumerate() {
        for v in rest.by_ref().take(size) {
            groups[v] = i as u8 + 1;
        }
    }
    Survey::new(&groups, &tracks)
}
