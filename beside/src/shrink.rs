//! From an input in which the sides differ to a small one.

use std::time::{Duration, Instant};

/// After this the smallest input so far is good enough.
const LONGEST: Duration = Duration::from_secs(60);

/// An input none of whose simpler forms differs. Each form that `simpler` makes must be simpler than its own.
pub fn smallest<T>(
    mut input: T,
    simpler: impl Fn(&T) -> Box<dyn Iterator<Item = T> + '_>,
    differs: impl Fn(&T) -> bool,
) -> T {
    let start = Instant::now();
    while start.elapsed() < LONGEST {
        let Some(next) = simpler(&input).find(&differs) else { break };
        input = next;
    }
    input
}

/// Which parts of a list to leave out: halves first, then quarters, down to single places.
pub fn parts(length: usize) -> impl Iterator<Item = std::ops::Range<usize>> {
    let sizes = std::iter::successors(Some(length), |size| (*size > 1).then_some(size / 2));
    sizes
        .filter(|&size| size > 0)
        .flat_map(move |size| (0..length).step_by(size).map(move |start| start..length.min(start + size)))
}

/// The list without a part, its places `width` numbers wide.
pub fn without<T: Clone>(list: &[T], width: usize, part: &std::ops::Range<usize>) -> Vec<T> {
    let end = list.len().min(width * part.end);
    [&list[..end.min(width * part.start)], &list[end..]].concat()
}

/// The nodes and the connectivity without a node that no element has.
pub fn without_node(nodes: &[f64], elements: &[u32], node: usize) -> Option<(Vec<f64>, Vec<u32>)> {
    let renumbered = |&number: &u32| if number as usize > node { number - 1 } else { number };
    let used = elements.contains(&(node as u32));
    (!used).then(|| (without(nodes, 2, &(node..node + 1)), elements.iter().map(renumbered).collect()))
}

/// Each number of a list made 0, or 1 if it is neither.
pub fn plainer(list: &[f64]) -> impl Iterator<Item = Vec<f64>> {
    let changed = |place: usize, number: f64| {
        let mut list = list.to_vec();
        list[place] = number;
        list
    };
    (0..list.len()).flat_map(move |place| {
        let zero = (list[place].to_bits() != 0).then(|| changed(place, 0.0));
        let one = (list[place] != 0.0 && list[place] != 1.0).then(|| changed(place, 1.0));
        zero.into_iter().chain(one)
    })
}

/// The bits of floats, or how many there are if they are many.
pub fn hexadecimal(list: &[f64]) -> String {
    words(list, |number| format!("{:016x}", number.to_bits()))
}

pub fn decimal<T: ToString>(list: &[T]) -> String {
    words(list, |number| number.to_string())
}

fn words<T>(list: &[T], word: impl Fn(&T) -> String) -> String {
    const MOST: usize = 2000;
    if list.len() > MOST {
        return format!("({} numbers)", list.len());
    }
    list.iter().map(word).collect::<Vec<_>>().join(" ")
}
