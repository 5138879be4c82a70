//! The three operators computed once more, with at most one wrong turn.
//!
//! Without a turn it must agree with the published Rust on every case. With one it shows what the list is
//! worth: a case tells a wrong turn when it changes the case's text. The generator keeps cases by that.

pub mod material;
pub mod questions;
mod rows;

use crate::operators::{Call, text};
use crate::wrong_turns;

/// One departure from document 01.
#[derive(Clone, Copy, Debug, PartialEq)]
pub enum Turn {
    /// No departure.
    Straight,

    /// A turn of the shape numbers, the point or the Jacobian, as the query's second computation takes it.
    Mapped(wrong_turns::Turn),

    // A multiply-add that rounds once. Of a sum of two products the first or the second may be fused.
    FusedDeterminantFirst,
    FusedDeterminantSecond,
    FusedGradientFirst,
    FusedGradientSecond,
    FusedStress,
    FusedRotation,
    FusedSquaresFirst,
    FusedSquaresSecond,

    // Another order of operations.
    TermsBackwards,
    TermsInPairs,
    RotationTermsBackwards,
    RotationRegrouped,
    SquaresFactored,
    DividedByDeterminant,
    ReciprocalRadius,

    // Another choice of what is kept.
    ZeroKept,
    MinusZeroKept,
    NanOmitted,
    InfinityOmitted,
    TinyOmitted,

    // Terms left out because one factor is always 0.
    StructuralZeroSkipped,
    HoopTermSkipped,
    RotationZeroSkipped,

    // Another material.
    IdentityRotated,
    IdentityByBits,
    CopiedByCosine,
    CopiedBySine,
    RotatedBackwards,
    PairExchanged,
    MatricesExchanged,
    PairsNeglected,
    PairsTakenUngiven,
    PairOfPoint,
    PairOfMaterial,
    MaterialOfPoint,
    MaterialOfNextElement,
    MaterialByElementNumber,
    MaterialTransposed,

    // Another strain matrix.
    HoopInPlaneStrain,
    HoopForgotten,
    HoopInBothComponents,
    ShearHalved,
    ShearExchanged,
    NormalRowsExchanged,
    InverseTransposed,
    GradientByReference,
    RadiusIsHeight,
    ThicknessRead,

    // Another place or order of the triplets.
    ReferenceExchanged,
    ReferenceClamped,
    FirstReferenceForAll,
    FirstElementForAll,
    NodeBeforeRow,
    ComponentBeforeNode,
    RowsInBlocks,
    ColumnsInBlocks,
    ColumnComponentExchanged,
    ColumnsLocal,
    RowAndColumnExchanged,
    ColumnsNotDoubled,
    RowsNotFourfold,

    // Another answer to 16 or 17.
    DeterminantByMagnitude,
    DeterminantZeroPasses,
    DeterminantEpsilonRefused,
    DeterminantNanRefused,
    RadiusAtBoundPasses,
    RadiusBoundZero,
    RadiusBoundDoubled,
    RadiusByMagnitude,
    RadiusNanRefused,
    RadiusAskedInPlaneStrain,

    // Another answer to 6, 8, 12, 13, 14 or 15.
    UngivenPairsAsked,
    NodeAtCountPasses,
    MaterialsCountedByPoints,
    PairsCountedByPoints,
    ElementAtCountPasses,
    MaterialAtCountPasses,

    // Another answer to 7.
    RoomJustEnoughRefused,
    /// The rows', the columns' or the values' room is not asked about.
    RoomNotAsked(usize),
    RoomByReferencePoints,
    RoomByTriplets,
    RoomOfOtherOperator,

    // Another order or place of the questions.
    /// The question is asked after the one that follows it.
    AskedLate(u8),
    QuestionByQuestion,
    ElementAtPlaceZero,
    PointAtPlaceZero,
    ElementForPoint,
    LastBadElement,
    WrittenBeforeRefusal,
}

/// The questions of a call to stress in order; the other operators ask some of them.
pub const ORDER: [u8; 14] = [1, 2, 3, 5, 6, 7, 8, 11, 12, 13, 14, 15, 16, 17];

impl Turn {
    /// Every wrong turn.
    pub fn all() -> Vec<Turn> {
        [Turn::of_numbers(), Turn::of_rows(), Turn::of_questions()].concat()
    }

    /// Rounding, order of operations, what is kept.
    fn of_numbers() -> Vec<Turn> {
        use Turn::*;
        vec![
            Mapped(wrong_turns::Turn::FusedBubble),
            Mapped(wrong_turns::Turn::FusedPoint),
            Mapped(wrong_turns::Turn::FusedJacobian),
            Mapped(wrong_turns::Turn::SumBackwards),
            Mapped(wrong_turns::Turn::BubbleFactored),
            FusedDeterminantFirst,
            FusedDeterminantSecond,
            FusedGradientFirst,
            FusedGradientSecond,
            FusedStress,
            FusedRotation,
            FusedSquaresFirst,
            FusedSquaresSecond,
            TermsBackwards,
            TermsInPairs,
            RotationTermsBackwards,
            RotationRegrouped,
            SquaresFactored,
            DividedByDeterminant,
            ReciprocalRadius,
            ZeroKept,
            MinusZeroKept,
            NanOmitted,
            InfinityOmitted,
            TinyOmitted,
            StructuralZeroSkipped,
            HoopTermSkipped,
            RotationZeroSkipped,
        ]
    }

    /// Materials, strain matrix, places of the triplets.
    fn of_rows() -> Vec<Turn> {
        use Turn::*;
        vec![
            IdentityRotated,
            IdentityByBits,
            CopiedByCosine,
            CopiedBySine,
            RotatedBackwards,
            PairExchanged,
            MatricesExchanged,
            PairsNeglected,
            PairsTakenUngiven,
            PairOfPoint,
            PairOfMaterial,
            MaterialOfPoint,
            MaterialOfNextElement,
            MaterialByElementNumber,
            MaterialTransposed,
            HoopInPlaneStrain,
            HoopForgotten,
            HoopInBothComponents,
            ShearHalved,
            ShearExchanged,
            NormalRowsExchanged,
            InverseTransposed,
            GradientByReference,
            RadiusIsHeight,
            ThicknessRead,
            ReferenceExchanged,
            ReferenceClamped,
            FirstReferenceForAll,
            FirstElementForAll,
            NodeBeforeRow,
            ComponentBeforeNode,
            RowsInBlocks,
            ColumnsInBlocks,
            ColumnComponentExchanged,
            ColumnsLocal,
            RowAndColumnExchanged,
            ColumnsNotDoubled,
            RowsNotFourfold,
        ]
    }

    fn of_questions() -> Vec<Turn> {
        use Turn::*;
        let mut turns = vec![
            DeterminantByMagnitude,
            DeterminantZeroPasses,
            DeterminantEpsilonRefused,
            DeterminantNanRefused,
            RadiusAtBoundPasses,
            RadiusBoundZero,
            RadiusBoundDoubled,
            RadiusByMagnitude,
            RadiusNanRefused,
            RadiusAskedInPlaneStrain,
            UngivenPairsAsked,
            NodeAtCountPasses,
            MaterialsCountedByPoints,
            PairsCountedByPoints,
            ElementAtCountPasses,
            MaterialAtCountPasses,
            RoomJustEnoughRefused,
            RoomNotAsked(0),
            RoomNotAsked(1),
            RoomNotAsked(2),
            RoomByReferencePoints,
            RoomByTriplets,
            RoomOfOtherOperator,
            QuestionByQuestion,
            ElementAtPlaceZero,
            PointAtPlaceZero,
            ElementForPoint,
            LastBadElement,
            WrittenBeforeRefusal,
        ];
        // The last question has none after it.
        turns.extend(ORDER[..ORDER.len() - 1].iter().map(|&number| AskedLate(number)));
        turns
    }
}

/// The text of a call, computed here with one wrong turn.
pub fn answer(call: &Call, turn: Turn) -> Vec<u8> {
    match questions::first_no(call, turn) {
        None => text(Ok(rows::built(call, turn)), true),
        Some(refusal) => {
            let kept = turn != Turn::WrittenBeforeRefusal || !rows::written_before(call, &refusal);
            text(Err(refusal), kept)
        }
    }
}

/// Whether the wrong turn changes the call's text.
pub fn tells(call: &Call, turn: Turn) -> bool {
    answer(call, turn) != answer(call, Turn::Straight)
}

#[cfg(test)]
mod tests {
    use super::*;
    use crate::cases::{self, Case};
    use crate::operators::{self, OPERATORS};

    fn told(list: &[Case], turn: Turn) -> bool {
        list.iter().any(|case| tells(&case.call, turn))
    }

    #[test]
    fn without_a_wrong_turn_it_agrees_with_the_stored_text() {
        for (at, case) in cases::all().iter().enumerate() {
            assert_eq!(answer(&case.call, Turn::Straight), operators::answer(&case.call), "case {at}");
        }
    }

    #[test]
    fn every_wrong_turn_is_told() {
        let list = cases::all();
        for turn in Turn::all() {
            assert!(told(&list, turn), "{turn:?}");
        }
    }

    /// Each operator has a case with two faults for each question and the next one that it asks.
    #[test]
    fn every_question_asked_late_is_told_by_each_operator() {
        for operator in OPERATORS {
            let mut list = cases::all();
            list.retain(|case| case.call.operator == operator);
            let asked = questions::asked_by(operator);
            for &number in &asked[..asked.len() - 1] {
                assert!(told(&list, Turn::AskedLate(number)), "{operator:?}, question {number}");
            }
        }
    }
}
