//! Files of the kit that are made for one fault or one form each.

use crate::document01::{MOST_ELEMENTS, MOST_NODES, MOST_POINTS};
use crate::jobs::mesh::{FAMILIES, Mesh, SQUARE, element_record, family_record, node_record, point_record};
use crate::jobs::random::Random;
use crate::jobs::refusals::{after, cut, past_the_counts, sound, with_changed, with_record};

/// A name that says what the file is about, and its bytes.
pub type Named = (String, Vec<u8>);

pub fn all() -> Vec<Named> {
    let mut files = [marks(), first_records(), bodies(), families(), iterations(), counts()].concat();
    files.extend(FAMILIES.into_iter().flat_map(node_numbers));
    files.extend(FAMILIES.into_iter().flat_map(two_faults));
    files.extend([empty_meshes(), forms(), repeated()].concat());
    files
}

fn named<const N: usize>(files: [(&str, Vec<u8>); N]) -> Vec<Named> {
    files.map(|(name, bytes)| (name.into(), bytes)).into()
}

/// How many records a sound job has.
fn records(family: u8) -> usize {
    sound(family).len()
}

// ---- the records

fn marks() -> Vec<Named> {
    let whole = sound(4).concat();
    let at_end = |tail: &[u8]| after(4, records(4), tail);
    let between = |record: &[u8]| with_record(9, 4, record.to_vec());
    named([
        ("refused-18-one-byte", b"Q".to_vec()),
        ("refused-18-line-feed-alone", b"\n".to_vec()),
        ("refused-18-lower-case-first", [b"qf", &whole[2..]].concat()),
        ("refused-18-space-before-the-first", [b" ", &whole[..]].concat()),
        ("refused-18-unknown-first", [b"QX", &whole[2..]].concat()),
        ("refused-18-byte-order-mark", [b"\xef\xbb\xbf", &whole[..]].concat()),
        ("refused-18-line-feed-at-end", at_end(b"\n")),
        ("refused-18-zero-at-end", at_end(b"\0")),
        ("refused-18-half-mark-at-end", at_end(b"Q")),
        ("refused-18-unknown-at-end", at_end(b"QX")),
        ("refused-18-end-of-line-between", between(b"\r\n")),
        ("refused-18-lower-case-between", between(&[&b"qn"[..], &[0; 16]].concat())),
        ("refused-18-half-lower-case-between", between(&[&b"Qp"[..], &[0; 16]].concat())),
        ("refused-18-exchanged-between", between(&[&b"NQ"[..], &[0; 16]].concat())),
        ("refused-18-unknown-between", between(b"QX")),
    ])
}

fn first_records() -> Vec<Named> {
    let node = node_record([0.0, 0.0]);
    let element = element_record(&[0, 1, 2, 3]);
    let point = point_record([1.0, 1.0]);
    let again = family_record(4, 1);
    let later = [node.clone(), sound(4).concat()].concat();
    named([
        ("refused-19-empty-file", vec![]),
        ("refused-19-node-first", later),
        ("refused-19-node-mark-alone", cut(&node, 0)),
        ("refused-19-element-first", element.clone()),
        ("refused-19-element-mark-alone", cut(&element, 0)),
        ("refused-19-point-first", point),
        ("refused-19-family-missing", sound(9)[1..].concat()),
        ("refused-19-family-twice", with_record(4, 1, again.clone())),
        ("refused-19-family-again-at-end", after(4, records(4), &again)),
        ("refused-19-family-again-cut-to-its-mark", after(4, records(4), &cut(&again, 0))),
        ("refused-19-family-again-cut-by-one", after(9, records(9), &cut(&again, 2))),
        ("refused-19-other-family-again", with_record(9, 3, family_record(4, 1))),
        ("refused-19-unknown-family-again", with_record(4, 3, family_record(5, 2000))),
    ])
}

fn bodies() -> Vec<Named> {
    let last_cut = |family: u8, count: usize, by: usize| {
        let whole = sound(family)[..count].concat();
        whole[..whole.len() - by].to_vec()
    };
    let mut files = named([
        ("refused-20-family-mark-alone", last_cut(4, 1, 3)),
        ("refused-20-family-cut-by-one", last_cut(4, 1, 1)),
        ("refused-20-unknown-family-cut-by-one", cut(&family_record(5, 1), 2)),
        ("refused-20-unknown-family-cut-by-two", cut(&family_record(8, 1), 1)),
        ("refused-20-node-mark-alone", last_cut(4, 2, 16)),
        ("refused-20-node-cut-by-one", last_cut(9, 3, 1)),
        ("refused-20-node-cut-by-half", last_cut(4, 3, 8)),
        ("refused-20-element-mark-alone", last_cut(4, 6, 16)),
        ("refused-20-element-cut-by-one-4", last_cut(4, 6, 1)),
        ("refused-20-element-cut-by-one-9", last_cut(9, 11, 1)),
        ("refused-20-element-of-four-in-family-9", after(9, 10, &element_record(&[0, 1, 2, 3]))),
        ("refused-20-point-mark-alone", last_cut(4, records(4), 16)),
        ("refused-20-point-cut-by-one", last_cut(9, records(9), 1)),
    ]);
    for (name, file) in past_counts(4) {
        files.push((format!("refused-20-{name}-cut-by-one"), file[..file.len() - 1].to_vec()));
    }
    files
}

fn families() -> Vec<Named> {
    let mut files = named([
        ("refused-1-family-0-with-mesh", with_changed(4, 0, family_record(0, 1))),
        ("refused-1-family-5-with-mesh", with_changed(4, 0, family_record(5, 1))),
        ("refused-1-before-4", family_record(8, 1001)),
        ("refused-1-before-later-18", [family_record(255, 1), b"X".to_vec()].concat()),
        ("refused-1-before-later-20", [&family_record(7, 1)[..], b"QE"].concat()),
    ]);
    for family in [1, 3, 8, 10, 13, 36, 52, 57, 255] {
        files.push((format!("refused-1-family-{family}"), family_record(family, 1)));
    }
    files
}

// ---- limits

/// One record too many of each kind, with nothing after it.
fn past_counts(family: u8) -> [(&'static str, Vec<u8>); 3] {
    let [nodes, elements, points] = past_the_counts(&mut Random::of_kind("past the counts"), family);
    [("node-513", nodes), ("element-257", elements), ("point-257", points)]
}

fn counts() -> Vec<Named> {
    let mut files = Vec::new();
    for family in FAMILIES {
        for (name, file) in past_counts(family) {
            files.push((format!("refused-21-{name}-family-{family}"), file));
        }
    }
    files.push(("refused-21-before-later-18".into(), [&past_counts(4)[2].1[..], b"Q"].concat()));
    files.extend(just_enough());
    files
}

/// The most nodes, elements and points that are accepted, each beside few of the others.
fn just_enough() -> Vec<Named> {
    let square = Mesh::of(4, &[SQUARE]);
    let place = |at: usize| [(at % 23) as f64 / 4.0, (at / 23) as f64 / 4.0];
    let mut nodes = square.clone();
    nodes.nodes.extend((4..MOST_NODES).map(place));
    let mut elements = nodes.clone();
    let row = |at: u32| (0..4).map(|local| (at * 7 + local * (at % 5 + 1)) % MOST_NODES as u32).collect();
    elements.elements.extend((1..MOST_ELEMENTS as u32).map(row));
    let points: Vec<[f64; 2]> = (0..MOST_POINTS).map(place).collect();
    named([
        ("limits-512-nodes", nodes.job(1, &points[..9])),
        ("limits-256-elements", elements.job(0, &points[..9])),
        ("limits-256-points", square.job(2, &points)),
    ])
}

fn iterations() -> Vec<Named> {
    let mut files = Vec::new();
    for limit in [0, 1, 255, 256, 257, 999, 1000, 1001, 1002, 1024, 4096, 32_768, 65_535] {
        let name = if limit <= 1000 { "limits" } else { "refused-4" };
        for family in FAMILIES {
            let changed = with_changed(family, 0, family_record(family, limit));
            files.push((format!("{name}-iterations-{limit}-family-{family}"), changed));
        }
    }
    files
}

// ---- the mesh

fn node_numbers(family: u8) -> Vec<Named> {
    let mesh = Mesh::grid(family, 3, 1, |at| at);
    let count = mesh.nodes.len() as u32;
    let last = usize::from(family) - 1;
    let with = |changes: &[(usize, usize, u32)]| {
        let mut bad = mesh.clone();
        for &(element, local, number) in changes {
            bad.elements[element][local] = number;
        }
        bad.job(1, &[[1.0, 0.5]])
    };
    let mut files = named([
        ("refused-8-one-past", with(&[(0, 0, count)])),
        ("refused-8-one-past-last-local", with(&[(2, last, count)])),
        ("refused-8-two-past", with(&[(1, 1, count + 1)])),
        ("refused-8-65536", with(&[(1, 2, 65_536)])),
        ("refused-8-2-to-31", with(&[(1, last, 1 << 31)])),
        ("refused-8-most", with(&[(2, 0, u32::MAX)])),
        ("refused-8-two-elements", with(&[(1, last, count), (2, 0, u32::MAX)])),
        ("refused-8-element-before-too-few-nodes", element_before_too_few_nodes(family)),
        ("elements-last-node-used", with(&[])),
    ]);
    files.iter_mut().for_each(|(name, _)| name.push_str(&format!("-family-{family}")));
    files
}

/// The element stands before its nodes, and the last of them never comes.
fn element_before_too_few_nodes(family: u8) -> Vec<u8> {
    let mut records = sound(family);
    let element = records.remove(1 + usize::from(family));
    records.remove(usize::from(family));
    records.insert(1, element);
    records.concat()
}

fn empty_meshes() -> Vec<Named> {
    let whole = Mesh::of(4, &[SQUARE]);
    let no_elements = Mesh { elements: vec![], ..whole.clone() };
    let no_nodes = Mesh { nodes: vec![], ..whole };
    let nothing = Mesh { elements: vec![], ..no_nodes.clone() };
    let point: &[[f64; 2]] = &[[1.0, 1.0]];
    named([
        ("refused-9-family-alone", family_record(4, 0)),
        ("refused-9-point-alone", nothing.job(1000, point)),
        ("refused-10-nodes-alone", no_elements.job(0, &[])),
        ("refused-10-nodes-and-point", no_elements.job(1000, point)),
        ("refused-8-element-alone", no_nodes.job(0, &[])),
        ("refused-8-element-and-point", no_nodes.job(1000, point)),
    ])
}

// ---- two faults: the earlier record counts, in one record the earlier question; the query's come last

fn two_faults(family: u8) -> Vec<Named> {
    let bad_element = element_record(&vec![u32::MAX; family.into()]);
    let bad_number = with_changed(family, 1 + usize::from(family), bad_element.clone());
    let few = family_record(family, 0);
    let many = family_record(family, 1001);
    let mut files = named([
        ("two-faults-18-before-8", [&bad_number[..], b"Q"].concat()),
        ("two-faults-19-before-8", [&bad_number[..], b"QF"].concat()),
        ("two-faults-20-before-8", [&bad_number[..], b"QN"].concat()),
        ("two-faults-20-before-8-in-one-record", [&few[..], &bad_element[..bad_element.len() - 1]].concat()),
        ("two-faults-18-before-4", [&many[..], b"\n"].concat()),
        ("two-faults-19-before-4", [&many[..], &many].concat()),
        ("two-faults-20-before-4", [&many[..], b"QP123"].concat()),
        ("two-faults-4-before-8", [&many[..], &bad_element].concat()),
        ("two-faults-4-before-9", many.clone()),
        ("two-faults-4-before-10", [&many[..], &node_record([0.0, 0.0])].concat()),
        ("two-faults-8-before-9", [&few[..], &bad_element].concat()),
        ("two-faults-18-before-later-19", after(family, records(family), b"QXQF")),
        ("two-faults-19-before-later-18", after(family, records(family), b"QFQX")),
    ]);
    files.iter_mut().for_each(|(name, _)| name.push_str(&format!("-family-{family}")));
    files
}

// ---- accepted files of other forms

fn forms() -> Vec<Named> {
    let mut files = Vec::new();
    for family in FAMILIES {
        let [first, rest @ ..] = &sound(family)[..] else { unreachable!("a sound job has records") };
        let turned = |by: usize| {
            let mut rest = rest.to_vec();
            rest.rotate_left(by);
            [first.clone(), rest.concat()].concat()
        };
        let reversed: Vec<Vec<u8>> = rest.iter().rev().cloned().collect();
        files.push((format!("order-points-first-family-{family}"), turned(rest.len() - 2)));
        files.push((format!("order-element-first-family-{family}"), turned(usize::from(family))));
        files.push((format!("order-reversed-family-{family}"), [first.clone(), reversed.concat()].concat()));
        files.push((format!("points-none-family-{family}"), Mesh::of(family, &[SQUARE]).job(1, &[])));
    }
    files
}

/// Rows that repeat a node number, and rows that repeat a place under another number.
fn repeated() -> Vec<Named> {
    let mut files = Vec::new();
    for family in FAMILIES {
        let last = usize::from(family) - 1;
        let mut far = Mesh::grid(family, 2, 2, |at| at);
        far.elements[1][last] = far.elements[1][0];
        let mut often = far.clone();
        often.elements[2].fill(1);
        let mut places = Mesh::of(family, &[SQUARE]);
        places.nodes[1] = places.nodes[0];
        let points = [[1.0, 1.0], [2.5, 3.5]];
        files.push((format!("repeated-first-and-last-family-{family}"), far.job(1, &points)));
        files.push((format!("repeated-all-family-{family}"), often.job(1, &points)));
        files.push((format!("repeated-place-not-number-family-{family}"), places.job(1, &points)));
    }
    files
}
