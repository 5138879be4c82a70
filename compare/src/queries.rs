//! Document 01's query read on its own, for lists as a caller lends them: the questions and the two counts.
//!
//! No distance is computed here. The values of an accepted call come from the published Rust.

use crate::document01::{MOST_ITERATIONS, Refusal, ask, ask_node_numbers};
use crate::jobs::mesh::{Mesh, Pair};
use crate::operators::whole;

/// How many places a point has in each of the twelve lent lists, in the order of `QuadMeshQueryResult`.
pub const PLACES_A_POINT: [usize; 12] = [1, 2, 1, 1, 2, 2, 1, 1, 1, 1, 2, 1];

/// What a query is given.
#[derive(Clone)]
pub struct QueryCall {
    pub family: u64,
    pub limit: u64,
    pub nodes: Vec<f64>,
    pub elements: Vec<u32>,
    pub points: Vec<f64>,
    /// How many places beyond those of the points each lent list has; below 0, how many it lacks.
    pub spare: [isize; 12],
}

impl QueryCall {
    /// A query whose lent lists have just enough places.
    pub fn of(mesh: &Mesh, limit: u64, points: &[Pair]) -> QueryCall {
        QueryCall {
            family: mesh.family.into(),
            limit,
            nodes: mesh.nodes.concat(),
            elements: mesh.elements.concat(),
            points: points.concat(),
            spare: [0; 12],
        }
    }

    /// F, the nodes of an element. A family that is not known is refused before this matters.
    pub fn size(&self) -> usize {
        if self.family == 9 { 9 } else { 4 }
    }

    pub fn node_count(&self) -> usize {
        self.nodes.len() / 2
    }

    pub fn element_count(&self) -> usize {
        self.elements.len() / self.size()
    }

    pub fn point_count(&self) -> usize {
        self.points.len() / 2
    }

    pub fn rows(&self) -> impl Iterator<Item = &[u32]> {
        self.elements.chunks(self.size())
    }

    /// The lengths of the twelve lent lists.
    pub fn lent(&self) -> [usize; 12] {
        let length = |list| self.places(list).saturating_add_signed(self.spare[list]);
        std::array::from_fn(length)
    }

    /// The places that a lent list must have.
    pub fn places(&self, list: usize) -> usize {
        PLACES_A_POINT[list] * self.point_count()
    }
}

/// The first question answered "no".
pub fn questions(call: &QueryCall) -> Result<(), Refusal> {
    ask(call.family == 4 || call.family == 9, 1, 0)?;
    ask(whole(call.nodes.len(), 2), 2, 0)?;
    ask(whole(call.elements.len(), call.size()), 3, 0)?;
    ask(call.limit <= MOST_ITERATIONS.into(), 4, 0)?;
    ask(whole(call.points.len(), 2), 5, 0)?;
    let room = |(list, lent): (usize, &usize)| *lent >= call.places(list);
    ask(call.lent().iter().enumerate().all(room), 7, 0)?;
    ask_node_numbers(call.rows(), call.node_count())?;
    ask(call.node_count() > 0, 9, 0)?;
    ask(call.element_count() > 0, 10, 0)
}
