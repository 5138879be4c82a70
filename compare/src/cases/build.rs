//! Calls put together step by step.

use crate::jobs::mesh::{Mesh, Pair};
use crate::jobs::random::Random;
use crate::operators::{Call, Formulation, OPERATORS, Operator, Pairs, questions};

/// Sixteen numbers, row by row.
pub type Material = [f64; 16];

/// The element of a point and where the point is in it.
pub type Point = (usize, Pair);

/// Different numbers of few digits, none of them 0.
pub const PLAIN: Material =
    [4.0, 1.5, 0.75, 0.25, -1.25, 5.0, 0.5, -0.125, 0.375, -0.5, 6.0, 1.0, 0.0625, -0.75, 2.0, 3.0];

/// Elastic and isotropic, with zeros where normal strains and shear do not meet: λ = 115.5, μ = 77.
pub const STEEL: Material =
    [269.5, 115.5, 115.5, 0.0, 115.5, 269.5, 115.5, 0.0, 115.5, 115.5, 269.5, 0.0, 0.0, 0.0, 0.0, 77.0];

/// A square of side 2 with its axis of turning one unit to its left.
pub const RING: [Pair; 4] = [[1.0, 0.0], [3.0, 0.0], [3.0, 2.0], [1.0, 2.0]];

impl Call {
    /// An axisymmetric call with no points yet. Stress has one plain material; the lent lists have just enough
    /// places.
    pub fn of(operator: Operator, mesh: &Mesh) -> Call {
        let call = Call {
            operator,
            family: mesh.family.into(),
            formulation: Formulation::Axisymmetric,
            thickness: 1.0,
            yes: 1,
            nodes: mesh.nodes.concat(),
            elements: mesh.elements.concat(),
            element_indices: Vec::new(),
            reference_points: Vec::new(),
            material_ids: Vec::new(),
            material_table: Vec::new(),
            pairs: Pairs::NotGiven(Vec::new()),
            spare: [0; 3],
        };
        if operator == Operator::Stress { call.made_of(&[PLAIN]) } else { call }
    }

    pub fn at(mut self, points: &[Point]) -> Call {
        for &(element, reference) in points {
            self.element_indices.push(element);
            self.reference_points.extend(reference);
        }
        self
    }

    pub fn in_plane(mut self) -> Call {
        self.formulation = Formulation::PlaneStrain;
        self
    }

    /// The elements take the materials in turn.
    pub fn made_of(mut self, materials: &[Material]) -> Call {
        let number = |element| element % materials.len();
        self.material_ids = (0..self.element_count()).map(number).collect();
        self.material_table = materials.concat();
        self
    }

    /// The elements take the angles in turn.
    pub fn turned_by(mut self, angles: &[f64]) -> Call {
        let of_elements = angles.iter().copied().cycle().take(self.element_count());
        self.pairs = Pairs::OfAngles(of_elements.collect());
        self
    }

    /// The elements take pairs that may belong to no angle, in turn.
    pub fn paired(mut self, pairs: &[Pair]) -> Call {
        let of_elements = pairs.iter().copied().cycle().take(self.element_count());
        self.pairs = Pairs::Any(of_elements.flatten().collect());
        self
    }

    pub fn accepted(&self) -> bool {
        questions(self).is_ok()
    }
}

/// Where each call is among those of `ways`.
pub const INTERPOLATION: usize = 0;
pub const STRAIN: usize = 1;
pub const STRAIN_IN_PLANE: usize = 2;
pub const STRESS: usize = 3;
pub const STRESS_IN_PLANE: usize = 4;
pub const TURNED: usize = 5;
pub const TURNED_IN_PLANE: usize = 6;

/// Each operator in each formulation, and stress without and with pairs: seven calls.
pub fn ways(mesh: &Mesh, points: &[Point], materials: &[Material], angles: &[f64]) -> Vec<Call> {
    let [interpolation, strain, stress] = each_operator(mesh, points);
    let stress = stress.made_of(materials);
    let turned = stress.clone().turned_by(angles);
    vec![
        interpolation,
        strain.clone(),
        strain.in_plane(),
        stress.clone(),
        stress.in_plane(),
        turned.clone(),
        turned.in_plane(),
    ]
}

/// The three operators, axisymmetric and without pairs.
pub fn each_operator(mesh: &Mesh, points: &[Point]) -> [Call; 3] {
    OPERATORS.map(|operator| Call::of(operator, mesh).at(points))
}

/// Strain and stress, which alone ask about the determinant and the radius.
pub fn strain_and_stress(mesh: &Mesh, points: &[Point]) -> [Call; 2] {
    [Operator::Strain, Operator::Stress].map(|operator| Call::of(operator, mesh).at(points))
}

/// A mesh moved to the right.
pub fn moved_right(mut mesh: Mesh, by: f64) -> Mesh {
    mesh.nodes.iter_mut().for_each(|node| node[0] += by);
    mesh
}

/// Points in elements chosen at random, within the reference square.
pub fn points_in(random: &mut Random, mesh: &Mesh, count: usize) -> Vec<Point> {
    (0..count).map(|_| (random.below(mesh.elements.len()), random.pair(-1.0, 1.0))).collect()
}

/// Points at multiples of an eighth, within the reference square.
pub fn dyadic_points(random: &mut Random, mesh: &Mesh, count: usize) -> Vec<Point> {
    let mut eighths = || random.below(17) as f64 / 8.0 - 1.0;
    let references: Vec<Pair> = (0..count).map(|_| [eighths(), eighths()]).collect();
    references.into_iter().map(|reference| (random.below(mesh.elements.len()), reference)).collect()
}

/// Sixteen numbers with all their digits.
pub fn any_material(random: &mut Random) -> Material {
    std::array::from_fn(|_| random.between(-2.0, 2.0))
}

/// The first mesh and points that `make` makes in which every operator is accepted.
pub fn first_sound(
    random: &mut Random,
    make: impl Fn(&mut Random) -> (Mesh, Vec<Point>),
) -> (Mesh, Vec<Point>) {
    const MOST_TRIES: usize = 10_000;
    let sound = |(mesh, points): &(Mesh, Vec<Point>)| Call::of(Operator::Strain, mesh).at(points).accepted();
    (0..MOST_TRIES).map(|_| make(random)).find(sound).expect("most meshes are sound")
}
