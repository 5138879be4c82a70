//! Jobs at the edges of the two searches: bounds, short steps, the limit, the rounding of each operation.

use super::keep;
use super::mesh::{FAMILIES, Mesh, Pair, rectangle};
use super::random::{Random, two_to};
use super::shapes::{moved_element, scatter};
use crate::document01::MOST_ITERATIONS;
use crate::wrong_turns::Turn;

// ---- bounds

/// A number, the one below it and the one above it.
fn neighbours(number: f64) -> [f64; 3] {
    [number.next_down(), number, number.next_up()]
}

/// Rectangles whose half sides multiply to 2^-23, so that the determinant of J transposed times J is 2^-46:
/// one digit below it, on it and one digit past it.
pub fn determinant_bound(random: &mut Random) -> Vec<Vec<u8>> {
    let mut jobs = Vec::new();
    for family in FAMILIES {
        for power in [-12, -11, -18, 3] {
            let height = 2.0 * two_to(-23 - power);
            for width in neighbours(2.0 * two_to(power)) {
                let limit = 1 + random.below(3) as u16;
                jobs.push(rectangle_job(random, family, [width, height], limit));
            }
        }
    }
    jobs
}

/// Rectangles with two or four faces of half length 2^-26, so that the squared tangent is 2^-52; and one digit
/// below and past it.
pub fn tangent_bound(random: &mut Random) -> Vec<Vec<u8>> {
    let mut jobs = Vec::new();
    for family in FAMILIES {
        for side in neighbours(two_to(-25)) {
            for sides in [[side, side], [side, two_to(-22)], [two_to(-22), side]] {
                let limit = 1 + random.below(3) as u16;
                jobs.push(rectangle_job(random, family, sides, limit));
            }
        }
    }
    jobs
}

/// A rectangle at the origin and points in and around it, none on a seed.
fn rectangle_job(random: &mut Random, family: u8, [width, height]: Pair, limit: u16) -> Vec<u8> {
    let points: Vec<Pair> =
        (0..6).map(|_| random.pair(-0.4, 1.4)).map(|[across, up]| [across * width, up * height]).collect();
    Mesh::of(family, &[rectangle([0.0, 0.0], width, height)]).job(limit, &points)
}

// ---- short steps

/// A short step must be stored and end the walk, on its bound and below; past the bound the walk goes on.
const SHORT_STEPS: [Turn; 8] = [
    Turn::ShortStepBoundPassed,
    Turn::ShortStepBoundDoubled,
    Turn::ShortStepNotStored,
    Turn::ShortStepGoesOn,
    Turn::FaceShortStepBoundPassed,
    Turn::FaceShortStepBoundDoubled,
    Turn::FaceShortStepNotStored,
    Turn::FaceShortStepGoesOn,
];

pub fn short_steps(random: &mut Random) -> Vec<Vec<u8>> {
    let mut jobs = Vec::new();
    for family in FAMILIES {
        for turn in SHORT_STEPS {
            jobs.extend(keep(random, 2, turn, |random| {
                let limit = 5 + random.below(20) as u16;
                moved_element(random, family, 0.5).job(limit, &scatter(random, 3, -1.0, 3.0))
            }));
        }
        jobs.extend([1, 2, 10].map(|limit| beside_the_centre(family, limit)));
    }
    jobs
}

/// Points so close to the centre of a square that the first step is 2^-53, 2^-52 (on the bound) or little more.
fn beside_the_centre(family: u8, limit: u16) -> Vec<u8> {
    let digits = [[1.0, 0.0], [0.0, -1.0], [2.0, 0.0], [2.0, 1.0], [-1.0, 3.0], [3.0, 4.0], [-4.0, 4.0]];
    let points = digits.map(|at: Pair| at.map(|count| 0.5 + count * two_to(-53)));
    Mesh::of(family, &[rectangle([-0.5, -0.5], 2.0, 2.0)]).job(limit, &points)
}

// ---- the limit

/// Every limit that is often used, up to the most that is accepted; the long ones on tiny meshes.
pub fn limits(random: &mut Random) -> Vec<Vec<u8>> {
    let mut jobs = Vec::new();
    for family in FAMILIES {
        for limit in [0, 1, 2, 3, 10, 50, 999, MOST_ITERATIONS] {
            let mesh = moved_element(random, family, 0.6);
            jobs.push(mesh.job(limit, &scatter(random, 4, -2.0, 4.0)));
        }
    }
    jobs
}

/// Walks that are still moving when the limit ends them: one step more or less shows.
pub fn deciding_limits(random: &mut Random) -> Vec<Vec<u8>> {
    let mut jobs = Vec::new();
    for family in FAMILIES {
        for limit in [1, 2, 3, 10, 50, MOST_ITERATIONS] {
            let moving = |random: &mut Random| {
                moved_element(random, family, 1.2).job(limit, &scatter(random, 2, -3.0, 5.0))
            };
            jobs.extend(keep(random, 1, Turn::OneStepMore, moving));
            jobs.extend(keep(random, 1, Turn::OneStepLess, moving));
        }
    }
    jobs
}

// ---- rounding

/// The sums of products that every answer goes through, each told by several jobs.
const FUSED_OFTEN: [Turn; 4] =
    [Turn::FusedPoint, Turn::FusedJacobian, Turn::FusedDistanceFirst, Turn::FusedDistanceSecond];

/// Every other sum of products of the searches.
const FUSED_ELSEWHERE: [Turn; 12] = [
    Turn::FusedGradientFirst,
    Turn::FusedGradientSecond,
    Turn::FusedHessianFirst,
    Turn::FusedHessianSecond,
    Turn::FusedDeterminantFirst,
    Turn::FusedDeterminantSecond,
    Turn::FusedSolveFirst,
    Turn::FusedSolveSecond,
    Turn::FusedTangentSquareFirst,
    Turn::FusedTangentSquareSecond,
    Turn::FusedFaceGradientFirst,
    Turn::FusedFaceGradientSecond,
];

/// Jobs whose listing changes if one multiply-add is fused, for each place where one could be.
pub fn fused(random: &mut Random) -> Vec<Vec<u8>> {
    let mut jobs = Vec::new();
    for family in FAMILIES {
        let make = |random: &mut Random| {
            let limit = random.below(4) as u16;
            moved_element(random, family, 0.4).job(limit, &scatter(random, 2, -1.0, 3.0))
        };
        for turn in FUSED_OFTEN {
            jobs.extend(keep(random, 4, turn, make));
        }
        for turn in FUSED_ELSEWHERE {
            jobs.extend(keep(random, 1, turn, make));
        }
    }
    jobs
}
