//! What a library answers, and the lists that are lent to it.
//!
//! Every lent place holds a number of its own before a call, so that a place that is written or left against the
//! rules shows.

use compare::operators::Call;
use compare::queries::QueryCall;
pub use sobrizenta::raw::{JobAnswer, OperatorAnswer, QueryAnswer};

/// The calls that are compared. The tests put faults behind them.
pub trait Library {
    fn query(&self, call: &QueryCall, lent: &mut QueryLists) -> QueryAnswer;

    /// `pairs` is the call's list of pairs.
    fn operator(&self, call: &Call, pairs: &[f64], lent: &mut TripletLists) -> OperatorAnswer;

    fn job(&self, job: &[u8], listing: &mut [u8]) -> JobAnswer;
}

// ---- lent lists

/// The twelve lists of a query.
pub struct QueryLists {
    pub nearest_node_indices: Vec<usize>,
    pub nearest_node_points: Vec<f64>,
    pub nearest_node_distances: Vec<f64>,
    pub nearest_element_indices: Vec<usize>,
    pub nearest_element_reference_points: Vec<f64>,
    pub nearest_element_points: Vec<f64>,
    pub nearest_element_distances: Vec<f64>,
    pub nearest_face_element_indices: Vec<usize>,
    pub nearest_face_local_faces: Vec<u8>,
    pub nearest_face_reference_coordinates: Vec<f64>,
    pub nearest_face_points: Vec<f64>,
    pub nearest_face_distances: Vec<f64>,
}

/// The three lists of an operator.
pub struct TripletLists {
    pub rows: Vec<usize>,
    pub columns: Vec<usize>,
    pub values: Vec<f64>,
}

impl QueryLists {
    /// Lists of the call's lengths, with their marks in them.
    pub fn of(call: &QueryCall) -> QueryLists {
        let lent = call.lent();
        QueryLists {
            nearest_node_indices: marked_indices(0, lent[0]),
            nearest_node_points: marked_floats(1, lent[1]),
            nearest_node_distances: marked_floats(2, lent[2]),
            nearest_element_indices: marked_indices(3, lent[3]),
            nearest_element_reference_points: marked_floats(4, lent[4]),
            nearest_element_points: marked_floats(5, lent[5]),
            nearest_element_distances: marked_floats(6, lent[6]),
            nearest_face_element_indices: marked_indices(7, lent[7]),
            nearest_face_local_faces: marked_bytes(8, lent[8]),
            nearest_face_reference_coordinates: marked_floats(9, lent[9]),
            nearest_face_points: marked_floats(10, lent[10]),
            nearest_face_distances: marked_floats(11, lent[11]),
        }
    }
}

impl TripletLists {
    pub fn of(call: &Call) -> TripletLists {
        let [rows, columns, values] = call.lent();
        TripletLists {
            rows: marked_indices(0, rows),
            columns: marked_indices(1, columns),
            values: marked_floats(2, values),
        }
    }
}

fn marked_indices(list: usize, length: usize) -> Vec<usize> {
    (0..length).map(|place| mark(list, place) as usize).collect()
}

fn marked_floats(list: usize, length: usize) -> Vec<f64> {
    (0..length).map(|place| f64::from_bits(float_mark(list, place))).collect()
}

pub fn marked_bytes(list: usize, length: usize) -> Vec<u8> {
    (0..length).map(|place| mark(list, place) as u8).collect()
}

/// The number that a place of a lent list holds before the call.
pub fn mark(list: usize, place: usize) -> u64 {
    let mixed = ((list as u64) << 40 ^ place as u64).wrapping_add(1).wrapping_mul(0x9e37_79b9_7f4a_7c15);
    (mixed ^ (mixed >> 29)).wrapping_mul(0xbf58_476d_1ce4_e5b9)
}

/// The same for a float: in every third place a NaN, its payload the mark's.
pub fn float_mark(list: usize, place: usize) -> u64 {
    let mark = mark(list, place);
    if place % 3 == 2 { mark | 0x7ff0_0000_0000_0001 } else { mark }
}
