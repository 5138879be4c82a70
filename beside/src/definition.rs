//! The rows of docs/DEFINITION.md: the document, the published Rust and the library answer alike.

use crate::archive::Archive;
use crate::{jobs, operators, queries};
use compare::definition::{Asked, document, rows};

#[test]
fn both_sides_answer_every_row_as_the_document_does() {
    let rows = rows(&document());
    assert!(rows.len() > 60, "{}", rows.len());
    for row in rows {
        assert_eq!(row.difference(), None);
        let compared = match &row.asked {
            Asked::Query(call) => queries::compared(&Archive, call),
            Asked::Operator(call) => operators::compared(&Archive, call),
            Asked::Job(file) => jobs::compared(&Archive, file),
        };
        assert!(compared.is_ok(), "line {}: {:?}", row.line, compared.err());
    }
}
