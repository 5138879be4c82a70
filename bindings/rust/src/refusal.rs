//! Why a call was refused.

use std::error::Error;
use std::fmt::{self, Display, Formatter};

/// The question that was answered no. `docs/REFUSALS.md` has the table, with the numbers.
#[derive(Clone, Copy, Debug, PartialEq, Eq, Hash, PartialOrd, Ord)]
#[non_exhaustive]
pub enum Question {
    /// Is the family 4 or 9?
    Family = 1,
    /// Is the node list's length even, at most 1,000,000 nodes?
    NodeList = 2,
    /// Is the connectivity whole elements, at most 1,000,000?
    Connectivity = 3,
    /// Is the limit of steps at most 1,000?
    Iterations = 4,
    /// Are the point pairs whole, and points and element numbers at most 1,000,000 each?
    PointList = 5,
    /// Is the material table whole sixteens, at most 1,000,000, and the list of pairs even?
    MaterialTable = 6,
    /// Does each lent list hold the worst case? This crate lends enough, so it is never the answer here.
    Room = 7,
    /// Is every node number of the element below the number of nodes? The place is the element.
    NodeNumber = 8,
    /// Is there any node?
    NoNode = 9,
    /// Is there any element?
    NoElement = 10,
    /// Are there as many element numbers as reference points?
    ElementCount = 11,
    /// Are there as many material numbers as elements?
    MaterialCount = 12,
    /// Are there as many pairs as elements?
    PairCount = 13,
    /// Is the point's element number in the mesh? The place is the point.
    ElementNumber = 14,
    /// Is the material number of the point's element in the table? The place is the point.
    MaterialNumber = 15,
    /// Is the Jacobian determinant at the point not at most 0? The place is the point.
    Inverted = 16,
    /// Is the radius at the point not at most 2^-52? The place is the point.
    OnAxis = 17,
}

use Question::*;

impl Question {
    /// All of them, by number.
    pub const ALL: [Question; 17] = [
        Family,
        NodeList,
        Connectivity,
        Iterations,
        PointList,
        MaterialTable,
        Room,
        NodeNumber,
        NoNode,
        NoElement,
        ElementCount,
        MaterialCount,
        PairCount,
        ElementNumber,
        MaterialNumber,
        Inverted,
        OnAxis,
    ];

    /// Its number, 1 to 17.
    pub fn number(self) -> u64 {
        self as u64
    }

    /// What a no says, in words.
    pub fn words(self) -> &'static str {
        match self {
            Family => "the family is neither 4 nor 9",
            NodeList => "the node list's length is odd, or there are more than 1,000,000 nodes",
            Connectivity => "the connectivity is not whole elements, or there are more than 1,000,000",
            Iterations => "the limit of steps is above 1,000",
            PointList => {
                "the points are not whole pairs, or there are more than 1,000,000 of them or of element numbers"
            }
            MaterialTable => {
                "the material table is not whole sixteens, or there are more than 1,000,000, or the list of pairs is odd"
            }
            Room => "a lent list is too short",
            NodeNumber => "a node number of the element is not below the number of nodes",
            NoNode => "there is no node",
            NoElement => "there is no element",
            ElementCount => "there are not as many element numbers as reference points",
            MaterialCount => "there are not as many material numbers as elements",
            PairCount => "there are not as many pairs as elements",
            ElementNumber => "the point's element number is not in the mesh",
            MaterialNumber => "the material number of the point's element is not in the table",
            Inverted => "the Jacobian determinant at the point is at most 0",
            OnAxis => "the radius at the point is at most 2^-52",
        }
    }

    /// What the place counts, if it counts anything.
    pub fn counts(self) -> Option<&'static str> {
        match self {
            NodeNumber => Some("element"),
            ElementNumber | MaterialNumber | Inverted | OnAxis => Some("point"),
            _ => None,
        }
    }
}

/// The first question that was answered no, and where.
#[derive(Clone, Copy, Debug, PartialEq, Eq, Hash)]
pub struct Refusal {
    /// What was asked.
    pub question: Question,
    /// The element for `NodeNumber`, the point for `ElementNumber` and what follows it, else 0.
    pub place: usize,
}

impl Refusal {
    /// `Ok` for question 0, which is an acceptance.
    pub(crate) fn unless_accepted(question: u64, place: usize) -> Result<(), Refusal> {
        match question {
            0 => Ok(()),
            number => {
                let question = Question::ALL.into_iter().find(|question| question.number() == number);
                let question = question.expect("a call's refusal has a number from 1 to 17");
                Err(Refusal { question, place })
            }
        }
    }
}

impl Display for Refusal {
    fn fmt(&self, out: &mut Formatter<'_>) -> fmt::Result {
        write!(out, "refused by question {}", self.question.number())?;
        if let Some(counted) = self.question.counts() {
            write!(out, " at {counted} {}", self.place)?;
        }
        write!(out, ": {}", self.question.words())
    }
}

impl Error for Refusal {}
