//! Files that document 01 refuses, question by question, and files damaged at random.

use super::files::{full_mesh, full_points};
use super::mesh::{FAMILIES, Mesh, Pair, SQUARE, element_record, family_record, node_record, point_record};
use super::random::Random;
use super::shapes::{moved_element, scatter};

/// The records of a sound little job: QF, the nodes, one element, two points.
pub fn sound(family: u8) -> Vec<Vec<u8>> {
    let mut records = vec![family_record(family, 1)];
    records.extend(Mesh::of(family, &[SQUARE]).records());
    records.extend([[3.0, 1.0], [0.5, 0.25]].map(point_record));
    records
}

/// The first `count` records of a sound job, and then some bytes.
pub fn after(family: u8, count: usize, tail: &[u8]) -> Vec<u8> {
    [&sound(family)[..count].concat(), tail].concat()
}

/// A sound job with one record more, at a place of its own.
pub fn with_record(family: u8, place: usize, record: Vec<u8>) -> Vec<u8> {
    let mut records = sound(family);
    records.insert(place, record);
    records.concat()
}

/// A sound job with one record changed.
pub fn with_changed(family: u8, place: usize, record: Vec<u8>) -> Vec<u8> {
    let mut records = sound(family);
    records[place] = record;
    records.concat()
}

/// What a record begins with when it is cut after some bytes of its body.
pub fn cut(record: &[u8], body: usize) -> Vec<u8> {
    record[..2 + body].to_vec()
}

// ---- 18, 19, 20

/// Marks that are not whole or not known, at the beginning, in the middle and at the end.
pub fn marks(_: &mut Random) -> Vec<Vec<u8>> {
    let strays: [&[u8]; 12] =
        [b"Q", b"\n", b"\0", b"F", b"QX", b"XQ", b"qn", b"Qn", b"qN", b"QQ", b"Q\n", b"\xef\xbb\xbf"];
    let mut jobs: Vec<Vec<u8>> = strays.map(<[u8]>::to_vec).into();
    for (at, stray) in strays.into_iter().enumerate() {
        let family = FAMILIES[at % 2];
        let all = sound(family).len();
        jobs.push(after(family, all, stray));
        jobs.push(with_record(family, 1 + at % (all - 1), [stray, &[0; 16]].concat()));
    }
    // A space before the first mark, and a lower-case QF.
    jobs.push([b" ", &sound(4).concat()[..]].concat());
    jobs.push([b"qf", &sound(4).concat()[2..]].concat());
    jobs
}

/// No QF in front, or one later on, whole or cut short.
pub fn first_record(_: &mut Random) -> Vec<Vec<u8>> {
    let mut jobs = vec![Vec::new()];
    let bodies = [node_record([0.0, 0.0]), element_record(&[0, 1, 2, 3]), point_record([1.0, 1.0])];
    for record in bodies {
        jobs.push(record.clone());
        jobs.push(cut(&record, 0));
        jobs.push([record, sound(4).concat()].concat());
    }
    for family in FAMILIES {
        jobs.push(sound(family)[1..].concat());
        let all = sound(family).len();
        let again = family_record(family, 1);
        jobs.extend([1, 4, all].map(|place| with_record(family, place, again.clone())));
        jobs.extend([0, 1, 2].map(|body| after(family, all, &cut(&again, body))));
        jobs.push(after(family, 2, &cut(&again, 0)));
        jobs.push(with_record(family, 3, family_record(5, 2000)));
    }
    jobs
}

/// Every kind of record cut at several places.
pub fn bodies(random: &mut Random) -> Vec<Vec<u8>> {
    let mut jobs = vec![];
    for family in FAMILIES {
        let records = sound(family);
        let (element, all) = (1 + usize::from(family), records.len());
        for place in [0, 1, element - 1, element, all - 1] {
            let whole = records[place].len() - 2;
            for body in [0, 1, whole / 2, whole - 1] {
                jobs.push(after(family, place, &cut(&records[place], body)));
            }
        }
        jobs.extend(cut_past_the_counts(random, family));
    }
    // An element of family 4 in a file of family 9.
    jobs.push(after(9, 10, &element_record(&[0, 1, 2, 3])));
    // A family that is not known, in a record that is not whole.
    jobs.extend([0, 5, 255].map(|family| cut(&family_record(family, 1), 2)));
    jobs.push(cut(&family_record(8, 1), 1));
    jobs
}

/// One record more than is accepted, but cut short: by its body, its last byte, its second half.
fn cut_past_the_counts(random: &mut Random, family: u8) -> Vec<Vec<u8>> {
    let [nodes, elements, points] = past_the_counts(random, family);
    let shortened = [(nodes, 16), (elements, 1), (points, 8)];
    shortened.map(|(file, by)| file[..file.len() - by].to_vec()).into()
}

// ---- 1, 21, 4

pub fn families(_: &mut Random) -> Vec<Vec<u8>> {
    let mut jobs: Vec<Vec<u8>> = [0, 1, 3, 5, 8, 10, 36, 255].map(|family| family_record(family, 1)).into();
    jobs.push(with_changed(4, 0, family_record(0, 1)));
    jobs.push(with_changed(9, 0, family_record(5, 1)));
    // Too many iterations are asked about later; what follows is not read.
    jobs.push(family_record(8, 1001));
    jobs.push([family_record(255, 1), b"X".to_vec()].concat());
    jobs
}

/// The 513th node, the 257th element, the 257th point; each with nothing after it.
pub fn past_the_counts(random: &mut Random, family: u8) -> [Vec<u8>; 3] {
    let mesh = full_mesh(random, family);
    let join = |records: Vec<Vec<u8>>| [family_record(family, 1), records.concat()].concat();
    let node = |&node: &Pair| node_record(node);
    let mut nodes: Vec<Vec<u8>> = mesh.nodes.iter().map(node).collect();
    nodes.push(node_record([1.0, 1.0]));
    let mut elements: Vec<Vec<u8>> = mesh.elements.iter().map(|row| element_record(row)).collect();
    elements.push(elements[0].clone());
    let mut points: Vec<Vec<u8>> = full_points(random).into_iter().map(point_record).collect();
    points.push(points[0].clone());
    [join(nodes), join(elements), join(points)]
}

pub fn counts(random: &mut Random) -> Vec<Vec<u8>> {
    let mut jobs = Vec::new();
    for family in FAMILIES {
        jobs.extend(past_the_counts(random, family));
    }
    let whole = full_mesh(random, 9).job(1, &full_points(random));
    let more = [node_record([0.0, 0.0]), element_record(&[0; 9]), point_record([0.0, 0.0])];
    jobs.extend(more.map(|record| [&whole[..], &record].concat()));
    // Still refused at that record, whatever follows it.
    let long = [&whole[..], &element_record(&[0; 9]), &[b'Q'; 300]].concat();
    jobs.push(long);
    jobs
}

pub fn iterations(_: &mut Random) -> Vec<Vec<u8>> {
    let job = |family, limit| with_changed(family, 0, family_record(family, limit));
    let limits = [1001, 1002, 1024, 4096, 32768, 65535];
    let mut jobs: Vec<Vec<u8>> =
        FAMILIES.into_iter().flat_map(|family| limits.map(|limit| job(family, limit))).collect();
    // No nodes and no elements: asked later.
    jobs.push(family_record(4, 1001));
    jobs
}

// ---- 8, 9, 10

pub fn meshes(random: &mut Random) -> Vec<Vec<u8>> {
    let mut jobs = Vec::new();
    for family in FAMILIES {
        let mesh = Mesh::grid(family, 3, 1, |at| at);
        let count = mesh.nodes.len() as u32;
        for element in 0..3 {
            for number in [count, count + 1, 1 << 31, u32::MAX] {
                let mut bad = mesh.clone();
                bad.elements[element][random.below(family.into())] = number;
                jobs.push(bad.job(1, &[[1.0, 1.0]]));
            }
        }
        jobs.extend(bad_twice(&mesh));
        jobs.push(element_before_too_few_nodes(family));
        jobs.extend(empty_meshes(family));
    }
    jobs
}

/// Two bad elements: the first is named, also when it repeats a node or its last number is the bad one.
fn bad_twice(mesh: &Mesh) -> [Vec<u8>; 2] {
    let mut bad = mesh.clone();
    bad.elements[2][0] = u32::MAX;
    *bad.elements[1].last_mut().expect("an element has nodes") = mesh.nodes.len() as u32;
    let first = bad.job(1, &[[1.0, 1.0]]);
    bad.elements[0].fill(u32::MAX);
    [first, bad.job(1, &[])]
}

/// The element stands before its nodes, and one of them never comes.
fn element_before_too_few_nodes(family: u8) -> Vec<u8> {
    let mut records = sound(family);
    records.remove(1);
    records[1..].reverse();
    records.concat()
}

/// Neither nodes nor elements, nodes only, elements only; with and without points.
fn empty_meshes(family: u8) -> Vec<Vec<u8>> {
    let whole = Mesh::of(family, &[SQUARE]);
    let no_elements = Mesh { elements: vec![], ..whole.clone() };
    let no_nodes = Mesh { nodes: vec![], ..whole };
    let nothing = Mesh { elements: vec![], ..no_nodes.clone() };
    let points: [&[Pair]; 2] = [&[], &[[1.0, 1.0]]];
    let meshes = [nothing, no_elements, no_nodes];
    meshes.iter().flat_map(|mesh| points.map(|points| mesh.job(1000, points))).collect()
}

// ---- two faults, and any fault

pub fn two_faults(random: &mut Random) -> Vec<Vec<u8>> {
    let of_family =
        |family| [faulty_records(family), faulty_meshes(family), too_many_and_worse(random, family)].concat();
    FAMILIES.into_iter().flat_map(of_family).collect()
}

/// Two faults in the records: the earlier record counts, and in one record the earlier question.
fn faulty_records(family: u8) -> Vec<Vec<u8>> {
    let all = sound(family).len();
    let unknown_then_cut = with_record(family, 2, b"QX".to_vec());
    let unknown_family_again = family_record(5, 9999);
    vec![
        unknown_then_cut[..unknown_then_cut.len() - 1].to_vec(),
        after(family, all, b"QFQX"),
        after(family, all, b"QXQF"),
        after(family, all, b"QNQF"),
        after(family, all, &[&unknown_family_again[..], b"?"].concat()),
        after(family, all, &cut(&unknown_family_again, 2)),
        [&family_record(7, 1)[..], b"QE", &sound(family).concat()].concat(),
    ]
}

/// Faults in the mesh and the limit are asked about after every record; the limit first, then the numbers.
fn faulty_meshes(family: u8) -> Vec<Vec<u8>> {
    let bad_element = element_record(&vec![u32::MAX; family.into()]);
    let bad_number = with_changed(family, 1 + usize::from(family), bad_element.clone());
    let few = family_record(family, 0);
    let many = family_record(family, 1001);
    let cut_element = &bad_element[..bad_element.len() - 1];
    vec![
        [&bad_number[..], b"Q"].concat(),
        [&bad_number[..], b"QF"].concat(),
        [&bad_number[..], b"QN"].concat(),
        [&many, &bad_number[few.len()..]].concat(),
        [&many[..], b"qn"].concat(),
        [&many[..], &many].concat(),
        [&many[..], b"QP123"].concat(),
        [&many[..], &bad_element].concat(),
        [&many[..], &node_record([0.0, 0.0])].concat(),
        [&few[..], &bad_element].concat(),
        [&few[..], cut_element].concat(),
    ]
}

/// One record too many, and a fault after it; or a fault before it, in QF.
fn too_many_and_worse(random: &mut Random, family: u8) -> Vec<Vec<u8>> {
    let [nodes, elements, points] = past_the_counts(random, family);
    let first = family_record(family, 1).len();
    vec![
        [&nodes[..], b"Q"].concat(),
        [&elements[..], b"QF"].concat(),
        [&points[..], b"QN"].concat(),
        [&family_record(family, 1001), &points[first..]].concat(),
        [&family_record(7, 1), &points[first..]].concat(),
    ]
}

/// Sound files with one byte changed, lost or added, or with their end cut off.
pub fn damaged(random: &mut Random) -> Vec<Vec<u8>> {
    (0..48).map(|at| damage(random, FAMILIES[at % 2], at / 2 % 4)).collect()
}

fn damage(random: &mut Random, family: u8, how: usize) -> Vec<u8> {
    let limit = random.below(4) as u16;
    let mut file = moved_element(random, family, 0.5).job(limit, &scatter(random, 3, -1.0, 3.0));
    let at = random.below(file.len());
    match how {
        0 => file[at] ^= 1 << random.below(8),
        1 => file.truncate(at),
        2 => drop(file.remove(at)),
        _ => file.insert(at, random.pick(b"QFNEP\0\x01\xff")),
    }
    file
}
