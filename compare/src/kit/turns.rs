//! The wrong turns of the numbers, in words.

use crate::wrong_turns::{Choice, Turn};
use Turn::*;

/// The heading under which a turn is listed, and what it does.
pub fn described(turn: Turn) -> (&'static str, String) {
    (heading(turn), words(turn))
}

fn heading(turn: Turn) -> &'static str {
    match turn {
        Straight => unreachable!("no wrong turn"),
        OtherMeasure(_) | LastOfEqual(_) | NanReplaced(_) => "The choice among candidates",
        SumBackwards
        | SumByPairs
        | BubbleFactored
        | ReciprocalDeterminant
        | ReciprocalTangentSquare
        | DeterminantOfJacobian
        | RootByReciprocal
        | SubnormalsFlushed => "Another order of operations",
        StepsForgotten
        | OnlyFirstSeedSteps
        | FirstBestIsStepped
        | MidsidesBeforeCorners
        | BestOnTheWay
        | DeterminantBoundPassed
        | DeterminantBoundDoubled
        | DeterminantBoundMissing
        | DeterminantSigned
        | NanDeterminantStays
        | ShortStepBoundPassed
        | ShortStepBoundDoubled
        | ShortStepNotStored
        | ShortStepGoesOn
        | ShortBeforeClamp => "The element search",
        FaceStepsForgotten
        | FaceFirstBestIsSeed
        | FaceMiddleSeedFirst
        | FaceBestOnTheWay
        | FacesNotTurned
        | TangentBoundPassed
        | TangentBoundDoubled
        | TangentBoundMissing
        | NanTangentStays
        | FaceShortStepBoundPassed
        | FaceShortStepBoundDoubled
        | FaceShortStepNotStored
        | FaceShortStepGoesOn => "The face search",
        NanClampedToOne | NanStays | OneStepMore | OneStepLess => "Both searches",
        _ => "A fused multiply-add",
    }
}

fn words(turn: Turn) -> String {
    let text = match turn {
        Straight => unreachable!("no wrong turn"),
        FusedBubble => "in 1 - a × a of family 9",
        FusedPoint => "in the sums of the mapped point",
        FusedJacobian => "in the sums of the Jacobian",
        FusedDistanceFirst => "in a squared distance, its first product",
        FusedDistanceSecond => "in a squared distance, its second product",
        FusedGradientFirst => "in g0 and g1, the first product",
        FusedGradientSecond => "in g0 and g1, the second product",
        FusedHessianFirst => "in h00 to h11, the first product",
        FusedHessianSecond => "in h00 to h11, the second product",
        FusedDeterminantFirst => "in D, its first product",
        FusedDeterminantSecond => "in D, its second product",
        FusedSolveFirst => "in the numerators over D, the first product",
        FusedSolveSecond => "in the numerators over D, the second product",
        FusedTangentSquareFirst => "in q, its first product",
        FusedTangentSquareSecond => "in q, its second product",
        FusedFaceGradientFirst => "in the numerator over q, its first product",
        FusedFaceGradientSecond => "in the numerator over q, its second product",

        SumBackwards => "sums run from the last local node to the first",
        SumByPairs => "nodes 0 and 1, nodes 2 and 3, and the rest are summed apart",
        BubbleFactored => "1 - a × a is computed as (1 - a) × (1 + a)",
        ReciprocalDeterminant => "a numerator is multiplied by 1 ÷ D",
        ReciprocalTangentSquare => "a numerator is multiplied by 1 ÷ q",
        DeterminantOfJacobian => "D is the square of the Jacobian's determinant",
        RootByReciprocal => "the root is a × (1 ÷ root of a)",
        SubnormalsFlushed => "a subnormal squared distance counts as 0",

        StepsForgotten => "no element step is made",
        OnlyFirstSeedSteps => "steps are made from the first seed only",
        FirstBestIsStepped => "the first best is the first seed after its steps",
        MidsidesBeforeCorners => "the seeds on the middles of faces come before the corners",
        BestOnTheWay => "places on the way are compared too",
        DeterminantBoundPassed => "D of just ±2^-46 makes a step",
        DeterminantBoundDoubled => "the bound of D is 2^-45",
        DeterminantBoundMissing => "D has no bound",
        DeterminantSigned => "D is tested, not its magnitude",
        NanDeterminantStays => "a NaN D makes no step",
        ShortStepBoundPassed => "a squared step of just 2^-104 goes on",
        ShortStepBoundDoubled => "the bound of a squared step is 2^-103",
        ShortStepNotStored => "a short step is not stored",
        ShortStepGoesOn => "a short step does not end the seed's steps",
        ShortBeforeClamp => "a step is measured before the clamp",

        FaceStepsForgotten => "no face step is made",
        FaceFirstBestIsSeed => "the first best is the seed -1 after its steps",
        FaceMiddleSeedFirst => "the seeds are 0, -1, 1",
        FaceBestOnTheWay => "places on the way are compared too",
        FacesNotTurned => "faces 2 and 3 run the other way",
        TangentBoundPassed => "a q of just 2^-52 makes a step",
        TangentBoundDoubled => "the bound of q is 2^-51",
        TangentBoundMissing => "q has no bound",
        NanTangentStays => "a NaN q makes no step",
        FaceShortStepBoundPassed => "a step of just 2^-52 goes on",
        FaceShortStepBoundDoubled => "the bound of a step is 2^-51",
        FaceShortStepNotStored => "a short step is not stored",
        FaceShortStepGoesOn => "a short step does not end the seed's steps",

        NanClampedToOne => "the clamp makes 1 of NaN",
        NanStays => "the clamp leaves NaN",
        OneStepMore => "one step more than the limit",
        OneStepLess => "one step less than the limit",

        OtherMeasure(choice @ (Choice::Elements | Choice::Faces)) => {
            return format!("{} compare squared distances", candidates(choice));
        }
        OtherMeasure(choice) => return format!("{} compare rooted distances", candidates(choice)),
        LastOfEqual(choice) => return format!("of equal {} the last is named", candidates(choice)),
        NanReplaced(choice) => return format!("{}: a NaN that stands is replaced", candidates(choice)),
    };
    text.into()
}

fn candidates(choice: Choice) -> &'static str {
    match choice {
        Choice::Nodes => "nodes",
        Choice::Elements => "elements",
        Choice::Faces => "faces",
        Choice::Seeds => "seeds of an element",
        Choice::FaceSeeds => "seeds of a face",
    }
}
