//! Meshes to ask about, and the bytes of the job files that ask.

/// Node coordinates or a point.
pub type Pair = [f64; 2];

pub const FAMILIES: [u8; 2] = [4, 9];

/// The square of document 01's example, without its midsides.
pub const SQUARE: [Pair; 4] = [[0.0, 0.0], [2.0, 0.0], [2.0, 2.0], [0.0, 2.0]];

#[derive(Clone)]
pub struct Mesh {
    pub family: u8,
    pub nodes: Vec<Pair>,
    pub elements: Vec<Vec<u32>>,
}

impl Mesh {
    /// Elements with straight sides, each with nodes of its own in local order.
    pub fn of(family: u8, quads: &[[Pair; 4]]) -> Mesh {
        let mut mesh = Mesh { family, nodes: Vec::new(), elements: Vec::new() };
        for &corners in quads {
            mesh.add(&local_nodes(family, corners));
        }
        mesh
    }

    /// Adds an element and its nodes, given in local order.
    pub fn add(&mut self, nodes: &[Pair]) {
        let first = self.nodes.len() as u32;
        self.elements.push((first..first + nodes.len() as u32).collect());
        self.nodes.extend(nodes);
    }

    /// Columns by rows of elements that share nodes. `place` puts a node where it belongs, given where it
    /// would be if every element were a square of side 2 and the mesh began at the origin.
    pub fn grid(family: u8, columns: u32, rows: u32, mut place: impl FnMut(Pair) -> Pair) -> Mesh {
        let cells = if family == 4 { 1 } else { 2 };
        let (wide, high) = (cells * columns + 1, cells * rows + 1);
        let side = 2.0 / f64::from(cells);
        let lattice = (0..high).flat_map(|row| (0..wide).map(move |column| [column, row]));
        let nodes = lattice.map(|at| place(at.map(|steps| side * f64::from(steps)))).collect();
        let row_of = |column, row| grid_row(family, wide, cells * column, cells * row);
        let elements =
            (0..rows).flat_map(|row| (0..columns).map(move |column| row_of(column, row))).collect();
        Mesh { family, nodes, elements }
    }

    /// The nodes first, then the elements, then the points.
    pub fn job(&self, limit: u16, points: &[Pair]) -> Vec<u8> {
        let mut records = vec![family_record(self.family, limit)];
        records.extend(self.records());
        records.extend(points.iter().map(|&point| point_record(point)));
        records.concat()
    }

    /// One record for each node and each element.
    pub fn records(&self) -> Vec<Vec<u8>> {
        let nodes = self.nodes.iter().map(|&node| node_record(node));
        nodes.chain(self.elements.iter().map(|row| element_record(row))).collect()
    }
}

/// The node numbers of the element whose lower left node is at (column, row) of a lattice `wide` nodes wide.
fn grid_row(family: u8, wide: u32, column: u32, row: u32) -> Vec<u32> {
    let reach = if family == 4 { 1 } else { 2 };
    let mut places = vec![[0, 0], [reach, 0], [reach, reach], [0, reach]];
    if family == 9 {
        places.extend([[1, 0], [2, 1], [1, 2], [0, 1], [1, 1]]);
    }
    places.iter().map(|[right, up]| (row + up) * wide + column + right).collect()
}

/// The nodes of an element with straight sides: its corners and, in family 9, the middles.
pub fn local_nodes(family: u8, corners: [Pair; 4]) -> Vec<Pair> {
    let mut nodes = corners.to_vec();
    if family == 9 {
        nodes.extend((0..4).map(|face| middle(corners[face], corners[(face + 1) % 4])));
        nodes.push(middle(nodes[4], nodes[6]));
    }
    nodes
}

pub fn middle(a: Pair, b: Pair) -> Pair {
    [0.5 * (a[0] + b[0]), 0.5 * (a[1] + b[1])]
}

/// A rectangle with its lower left corner at `corner`.
pub fn rectangle(corner: Pair, width: f64, height: f64) -> [Pair; 4] {
    let [left, bottom] = corner;
    let (right, top) = (left + width, bottom + height);
    [[left, bottom], [right, bottom], [right, top], [left, top]]
}

pub fn family_record(family: u8, limit: u16) -> Vec<u8> {
    [b"QF", &[family][..], &limit.to_le_bytes()].concat()
}

pub fn node_record(node: Pair) -> Vec<u8> {
    pair_record(b"QN", node)
}

pub fn point_record(point: Pair) -> Vec<u8> {
    pair_record(b"QP", point)
}

fn pair_record(mark: &[u8; 2], [x, y]: Pair) -> Vec<u8> {
    [&mark[..], &x.to_le_bytes(), &y.to_le_bytes()].concat()
}

pub fn element_record(row: &[u32]) -> Vec<u8> {
    let numbers = row.iter().flat_map(|number| number.to_le_bytes());
    b"QE".iter().copied().chain(numbers).collect()
}
