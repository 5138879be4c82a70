//! The hand-worked probes of document 01 that a job file can ask (6, 7, 13, 14, 15), in both families.

use super::mesh::{FAMILIES, Mesh, Pair, SQUARE, rectangle};
use super::random::{Random, two_to};

pub fn all(_: &mut Random) -> Vec<Vec<u8>> {
    FAMILIES.into_iter().flat_map(of_family).collect()
}

fn of_family(family: u8) -> Vec<Vec<u8>> {
    let unit = Mesh::of(family, &[SQUARE]);
    let mut jobs = vec![unit.job(0, &[[1.0, 1.0]]), unit.job(0, &[[3.0, 1.0]])];
    for mesh in [two_squares(family), exchanged(two_squares(family))] {
        jobs.extend([0, 1, 3].map(|limit| mesh.job(limit, &[[2.0, 1.0]])));
        for hole in [[f64::NAN, 0.0], [0.0, f64::NAN], [f64::NAN, f64::NAN]] {
            jobs.push(with_first_node(&mesh, hole).job(0, &[[2.0, 1.0]]));
        }
    }
    jobs.extend([12, 11].map(|power| small_square(family, power)));
    jobs
}

/// Probe 13: the square and a second one on its right. The numbers of family 4 are document 01's.
fn two_squares(family: u8) -> Mesh {
    if family == 9 {
        return Mesh::grid(9, 2, 1, |at| at);
    }
    let mut mesh = Mesh::of(4, &[SQUARE]);
    mesh.nodes.extend([[4.0, 0.0], [4.0, 2.0]]);
    mesh.elements.push(vec![1, 4, 5, 2]);
    mesh
}

fn exchanged(mut mesh: Mesh) -> Mesh {
    mesh.elements.reverse();
    mesh
}

fn with_first_node(mesh: &Mesh, node: Pair) -> Mesh {
    let mut mesh = mesh.clone();
    mesh.nodes[0] = node;
    mesh
}

/// Probe 15: half side 2^-power, and points off the seeds, so that a step shows.
fn small_square(family: u8, power: i32) -> Vec<u8> {
    let half = two_to(-power);
    let mesh = Mesh::of(family, &[rectangle([0.0, 0.0], 2.0 * half, 2.0 * half)]);
    let points = [[1.25, 0.5], [0.375, 1.75], [2.5, 0.75]].map(|at: Pair| at.map(|x| half * x));
    mesh.job(1, &points)
}

#[cfg(test)]
mod tests {
    use super::*;
    use crate::document01::answer;

    fn text(job: Vec<u8>) -> String {
        String::from_utf8(answer(&job)).expect("a listing is ASCII")
    }

    /// One word of the line of point 0: 3 is the element, 4 and 5 are ξ and η, 6 is its distance.
    fn word(job: Vec<u8>, at: usize) -> String {
        let text = text(job);
        let line = text.lines().nth(1).expect("a job with a point has a second line");
        line.split(' ').nth(at).expect("a line has eleven words").to_string()
    }

    const ZERO: &str = "0000000000000000";
    const ONE: &str = "3ff0000000000000";
    const MINUS_ONE: &str = "bff0000000000000";
    const ROOT_OF_TWO: &str = "3ff6a09e667f3bcd";

    #[test]
    fn probe_6() {
        let job = Mesh::of(4, &[SQUARE]).job(0, &[[1.0, 1.0]]);
        let line = format!("0 0 {ROOT_OF_TWO} 0 {ZERO} {ZERO} {ZERO} 0 0 {ZERO} {ONE}");
        assert_eq!(text(job), format!("query 1 0 1\n{line}\n"));
    }

    #[test]
    fn probe_7_is_the_example() {
        let job = Mesh::of(4, &[SQUARE]).job(0, &[[3.0, 1.0]]);
        let line = "0 1 3ff6a09e667f3bcd 0 3ff0000000000000 0000000000000000 3ff0000000000000 \
                    0 1 0000000000000000 3ff0000000000000";
        assert_eq!(text(job), format!("query 1 0 0\n{line}\n"));
    }

    #[test]
    fn probe_13_in_both_orders() {
        let job = |mesh: Mesh| mesh.job(0, &[[2.0, 1.0]]);
        let answer = |mesh: Mesh| [3, 4, 5, 6].map(|at| word(job(mesh.clone()), at));
        assert_eq!(answer(two_squares(4)), ["0", ONE, ZERO, ZERO]);
        assert_eq!(answer(exchanged(two_squares(4))), ["0", MINUS_ONE, ZERO, ZERO]);
    }

    #[test]
    fn probe_14_a_nan_in_first_place_stays() {
        let mesh = with_first_node(&two_squares(4), [f64::NAN, f64::NAN]);
        let answer = [3, 6].map(|at| word(mesh.job(0, &[[2.0, 1.0]]), at));
        assert_eq!(answer, ["0", "nan"]);
    }

    /// The first point is at (0.25, -0.5) of the square; only a step gets there.
    #[test]
    fn probe_15_steps_at_half_side_2_to_minus_11_only() {
        let quarter = "3fd0000000000000";
        assert_eq!(word(small_square(4, 12), 4), ZERO);
        assert_eq!(word(small_square(4, 11), 4), quarter);
    }
}
