//! Document 01's query computed once more, with at most one wrong turn.
//!
//! Without a turn it must agree with the published Rust on every job. With one it shows what the list is worth:
//! a job tells a wrong turn when it changes the job's listing. The generator keeps jobs by that.

pub mod element;

use crate::document01::{Answer, Query, answer_by};
use crate::rounding;
use element::{Element, Projection};

/// What is chosen by "replace only on smaller".
#[derive(Clone, Copy, Debug, PartialEq)]
pub enum Choice {
    Nodes,
    Elements,
    Faces,
    Seeds,
    FaceSeeds,
}

/// One departure from document 01.
#[derive(Clone, Copy, Debug, PartialEq)]
pub enum Turn {
    /// No departure.
    Straight,

    // A multiply-add that rounds once. Of a sum of two products the first or the second may be fused. (A face's
    // tangent is not here: its products are with 0 and ±1, so they are exact.)
    FusedBubble,
    FusedPoint,
    FusedJacobian,
    FusedDistanceFirst,
    FusedDistanceSecond,
    FusedGradientFirst,
    FusedGradientSecond,
    FusedHessianFirst,
    FusedHessianSecond,
    FusedDeterminantFirst,
    FusedDeterminantSecond,
    FusedSolveFirst,
    FusedSolveSecond,
    FusedTangentSquareFirst,
    FusedTangentSquareSecond,
    FusedFaceGradientFirst,
    FusedFaceGradientSecond,

    // Another order of operations.
    SumBackwards,
    SumByPairs,
    BubbleFactored,
    ReciprocalDeterminant,
    ReciprocalTangentSquare,
    /// The square of J's determinant in place of the determinant of J transposed times J.
    DeterminantOfJacobian,
    /// A root that is not correctly rounded.
    RootByReciprocal,
    /// A subnormal squared distance counts as 0.
    SubnormalsFlushed,

    // Another choice among candidates.
    /// Squared distances where rooted ones decide, or the other way round.
    OtherMeasure(Choice),
    LastOfEqual(Choice),
    NanReplaced(Choice),

    // Another element search.
    StepsForgotten,
    OnlyFirstSeedSteps,
    FirstBestIsStepped,
    MidsidesBeforeCorners,
    BestOnTheWay,
    DeterminantBoundPassed,
    DeterminantBoundDoubled,
    DeterminantBoundMissing,
    DeterminantSigned,
    NanDeterminantStays,
    ShortStepBoundPassed,
    ShortStepBoundDoubled,
    ShortStepNotStored,
    ShortStepGoesOn,
    ShortBeforeClamp,

    // Another face search.
    FaceStepsForgotten,
    FaceFirstBestIsSeed,
    FaceMiddleSeedFirst,
    FaceBestOnTheWay,
    /// Faces 2 and 3 run with ξ and η, not counter-clockwise.
    FacesNotTurned,
    TangentBoundPassed,
    TangentBoundDoubled,
    TangentBoundMissing,
    NanTangentStays,
    FaceShortStepBoundPassed,
    FaceShortStepBoundDoubled,
    FaceShortStepNotStored,
    FaceShortStepGoesOn,

    // Both searches.
    NanClampedToOne,
    NanStays,
    OneStepMore,
    OneStepLess,
}

impl Turn {
    /// Every wrong turn.
    pub fn all() -> Vec<Turn> {
        use Turn::*;
        let mut turns = vec![
            FusedBubble,
            FusedPoint,
            FusedJacobian,
            FusedDistanceFirst,
            FusedDistanceSecond,
            FusedGradientFirst,
            FusedGradientSecond,
            FusedHessianFirst,
            FusedHessianSecond,
            FusedDeterminantFirst,
            FusedDeterminantSecond,
            FusedSolveFirst,
            FusedSolveSecond,
            FusedTangentSquareFirst,
            FusedTangentSquareSecond,
            FusedFaceGradientFirst,
            FusedFaceGradientSecond,
            SumBackwards,
            SumByPairs,
            BubbleFactored,
            ReciprocalDeterminant,
            ReciprocalTangentSquare,
            DeterminantOfJacobian,
            RootByReciprocal,
            SubnormalsFlushed,
            StepsForgotten,
            OnlyFirstSeedSteps,
            FirstBestIsStepped,
            MidsidesBeforeCorners,
            BestOnTheWay,
            DeterminantBoundPassed,
            DeterminantBoundDoubled,
            DeterminantBoundMissing,
            DeterminantSigned,
            NanDeterminantStays,
            ShortStepBoundPassed,
            ShortStepBoundDoubled,
            ShortStepNotStored,
            ShortStepGoesOn,
            ShortBeforeClamp,
            FaceStepsForgotten,
            FaceFirstBestIsSeed,
            FaceMiddleSeedFirst,
            FaceBestOnTheWay,
            FacesNotTurned,
            TangentBoundPassed,
            TangentBoundDoubled,
            TangentBoundMissing,
            NanTangentStays,
            FaceShortStepBoundPassed,
            FaceShortStepBoundDoubled,
            FaceShortStepNotStored,
            FaceShortStepGoesOn,
            NanClampedToOne,
            NanStays,
            OneStepMore,
            OneStepLess,
        ];
        use Choice::*;
        for choice in [Nodes, Elements, Faces, Seeds, FaceSeeds] {
            turns.extend([OtherMeasure(choice), LastOfEqual(choice), NanReplaced(choice)]);
        }
        turns
    }
}

/// The listing of a job, its numbers computed here with one wrong turn.
pub fn answer(job: &[u8], turn: Turn) -> Vec<u8> {
    answer_by(job, |query| nearest(query, turn))
}

/// Whether the wrong turn changes the job's listing.
pub fn tells(job: &[u8], turn: Turn) -> bool {
    answer(job, turn) != answer(job, Turn::Straight)
}

fn nearest(query: &Query, turn: Turn) -> Vec<Answer> {
    let elements: Vec<Element> = query.elements.iter().map(|row| Element::gather(query, row, turn)).collect();
    query.points.iter().map(|&point| nearest_to(point, query, &elements, turn)).collect()
}

fn nearest_to(point: [f64; 2], query: &Query, elements: &[Element], turn: Turn) -> Answer {
    let nodes: Vec<f64> = query.nodes.iter().map(|&node| turn.squared_distance(node, point)).collect();
    let inner: Vec<Projection<[f64; 2]>> = elements.iter().map(|element| element.search(point)).collect();
    let faces: Vec<Projection<f64>> =
        elements.iter().flat_map(|element| (0..4).map(|face| element.face_search(face, point))).collect();
    let node = turn.first_least(Choice::Nodes, nodes.iter().copied());
    let element = turn.first_least(Choice::Elements, inner.iter().map(|found| found.squared));
    let face = turn.first_least(Choice::Faces, faces.iter().map(|found| found.squared));
    Answer {
        node,
        node_distance: turn.root(nodes[node]),
        element,
        reference: inner[element].at,
        element_distance: turn.root(inner[element].squared),
        face_element: face / 4,
        face: (face % 4) as u8,
        s: faces[face].at,
        face_distance: turn.root(faces[face].squared),
    }
}

// ---- arithmetic and choice

impl Turn {
    /// a × b + c × d, each operation rounded once. The turns in `fusing` fuse the first and the second product.
    fn two_products(self, fusing: [Turn; 2], a: f64, b: f64, c: f64, d: f64) -> f64 {
        rounding::two_products(fusing.map(|turn| self == turn), a, b, c, d)
    }

    /// sum + a × b, each operation rounded once.
    fn add_product(self, fused: Turn, sum: f64, a: f64, b: f64) -> f64 {
        rounding::add_product(self == fused, sum, a, b)
    }

    fn squared_distance(self, from: [f64; 2], to: [f64; 2]) -> f64 {
        let across = from[0] - to[0];
        let along = from[1] - to[1];
        let fusing = [Turn::FusedDistanceFirst, Turn::FusedDistanceSecond];
        let square = self.two_products(fusing, across, across, along, along);
        if self == Turn::SubnormalsFlushed && square.is_subnormal() { 0.0 } else { square }
    }

    fn root(self, squared: f64) -> f64 {
        match self {
            Turn::RootByReciprocal if squared.is_normal() => squared * (1.0 / squared.sqrt()),
            _ => squared.sqrt(),
        }
    }

    /// The index of the first least of some squared distances, by the measure that the choice compares.
    fn first_least(self, choice: Choice, squared: impl Iterator<Item = f64>) -> usize {
        let mut best = (0, f64::NAN);
        for (index, squared) in squared.enumerate() {
            let distance = self.measure(choice, squared);
            if index == 0 || self.replaces(choice, distance, best.1) {
                best = (index, distance);
            }
        }
        best.0
    }

    fn measure(self, choice: Choice, squared: f64) -> f64 {
        let rooted = matches!(choice, Choice::Elements | Choice::Faces);
        if rooted != (self == Turn::OtherMeasure(choice)) { self.root(squared) } else { squared }
    }

    fn replaces(self, choice: Choice, new: f64, best: f64) -> bool {
        new < best
            || (self == Turn::LastOfEqual(choice) && new == best)
            || (self == Turn::NanReplaced(choice) && best.is_nan() && !new.is_nan())
    }

    fn clamp(self, coordinate: f64) -> f64 {
        match self {
            Turn::NanClampedToOne if coordinate.is_nan() => 1.0,
            Turn::NanStays if coordinate.is_nan() => coordinate,
            _ if coordinate.is_nan() => -1.0,
            _ => coordinate.clamp(-1.0, 1.0),
        }
    }

    fn steps(self, limit: u16) -> u16 {
        match self {
            Turn::OneStepMore => limit + 1,
            Turn::OneStepLess => limit.saturating_sub(1),
            _ => limit,
        }
    }
}

#[cfg(test)]
mod tests {
    use super::*;
    use crate::{document01, jobs};

    #[test]
    fn without_a_wrong_turn_it_agrees_with_the_published_rust() {
        for (at, job) in jobs::all().iter().enumerate() {
            assert_eq!(answer(&job.bytes, Turn::Straight), document01::answer(&job.bytes), "job {at}");
        }
    }

    #[test]
    fn every_wrong_turn_is_told_by_a_short_job() {
        let mut list = jobs::all();
        list.retain(|job| jobs::searches(&job.bytes) <= 1000);
        for turn in Turn::all() {
            assert!(list.iter().any(|job| tells(&job.bytes, turn)), "{turn:?}");
        }
    }
}
