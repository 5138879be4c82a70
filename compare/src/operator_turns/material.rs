//! The material of a point: picked, and turned by its pair.

use super::Turn;
use crate::operators::Call;
use crate::rounding;

/// Sixteen numbers of the table, row by row.
pub type Matrix = [[f64; 4]; 4];

/// The whole sixteens of a table.
pub fn matrices(table: &[f64]) -> Vec<Matrix> {
    let matrix =
        |part: &[f64]| std::array::from_fn(|row| std::array::from_fn(|column| part[4 * row + column]));
    table.chunks_exact(16).map(matrix).collect()
}

/// A material turned by a pair (c, s), with no wrong turn. Our own reading of `rotate_material_in_plane`; where
/// the pair belongs to an angle, a test compares it with the Rust.
pub fn oriented(material: &Matrix, pair: [f64; 2]) -> Matrix {
    Turn::Straight.oriented(material, pair)
}

/// The material of a point's element, turned if pairs are given.
pub fn material_at(call: &Call, turn: Turn, point: usize, element: usize) -> Matrix {
    let owner = match turn {
        Turn::MaterialOfPoint => point % call.element_count(),
        Turn::MaterialOfNextElement => (element + 1) % call.element_count(),
        _ => element,
    };
    let number = match turn {
        Turn::MaterialByElementNumber => element,
        _ => material_number(call, owner),
    };
    let material = matrices(&call.material_table).get(number).copied().unwrap_or([[f64::NAN; 4]; 4]);
    let material = if turn == Turn::MaterialTransposed { transposed(&material) } else { material };
    match pair_at(call, turn, point, element) {
        Some(pair) => turn.oriented(&material, pair),
        None => material,
    }
}

fn material_number(call: &Call, element: usize) -> usize {
    call.material_ids.get(element).copied().unwrap_or(0)
}

fn pair_at(call: &Call, turn: Turn, point: usize, element: usize) -> Option<[f64; 2]> {
    let given = match turn {
        Turn::PairsNeglected => false,
        Turn::PairsTakenUngiven => true,
        _ => call.pairs_given(),
    };
    let owner = match turn {
        Turn::PairOfPoint => point % call.element_count(),
        Turn::PairOfMaterial => material_number(call, element),
        _ => element,
    };
    let pairs = call.pair_list();
    let [c, s] = [2 * owner, 2 * owner + 1].map(|at| pairs.get(at).copied().unwrap_or(1.0));
    given.then_some(if turn == Turn::PairExchanged { [s, c] } else { [c, s] })
}

/// Which of two factors changes the axes.
enum Side {
    Left,
    Right,
}

fn transposed(matrix: &Matrix) -> Matrix {
    std::array::from_fn(|row| std::array::from_fn(|column| matrix[column][row]))
}

impl Turn {
    fn oriented(self, material: &Matrix, [c, s]: [f64; 2]) -> Matrix {
        if self.copies(c, s) {
            return *material;
        }
        let s = if self == Turn::RotatedBackwards { -s } else { s };
        let [to_local, to_global] = self.changes_of_axes(c, s);
        if self == Turn::RotationRegrouped {
            self.product(Side::Right, &self.product(Side::Left, &to_global, material), &to_local)
        } else {
            self.product(Side::Left, &to_global, &self.product(Side::Right, material, &to_local))
        }
    }

    /// Whether the pair is (1, 0). A zero of either sign is 0.
    fn copies(self, c: f64, s: f64) -> bool {
        match self {
            Turn::IdentityRotated => false,
            Turn::IdentityByBits => c == 1.0 && s.to_bits() == 0,
            Turn::CopiedByCosine => c == 1.0,
            Turn::CopiedBySine => s == 0.0,
            _ => c == 1.0 && s == 0.0,
        }
    }

    /// From global to local strains, and from local to global stresses; shear strains are engineering ones.
    fn changes_of_axes(self, c: f64, s: f64) -> [Matrix; 2] {
        let (cc, ss, cs) = (c * c, s * s, c * s);
        let squares = self.squares(c, s);
        let strains = [
            [cc, ss, 0.0, cs],
            [ss, cc, 0.0, -cs],
            [0.0, 0.0, 1.0, 0.0],
            [-2.0 * cs, 2.0 * cs, 0.0, squares],
        ];
        let stresses = [
            [cc, ss, 0.0, -2.0 * cs],
            [ss, cc, 0.0, 2.0 * cs],
            [0.0, 0.0, 1.0, 0.0],
            [cs, -cs, 0.0, squares],
        ];
        if self == Turn::MatricesExchanged { [stresses, strains] } else { [strains, stresses] }
    }

    /// c² - s², each operation rounded once.
    fn squares(self, c: f64, s: f64) -> f64 {
        match self {
            Turn::SquaresFactored => (c - s) * (c + s),
            _ => self.two_products([Turn::FusedSquaresFirst, Turn::FusedSquaresSecond], c, c, -s, s),
        }
    }

    /// A product with a change of axes on the left or on the right. The third axis stays as it is, so the places
    /// of the change in its third row or its third column, but not in both, are always 0.
    fn product(self, change: Side, left: &Matrix, right: &Matrix) -> Matrix {
        let entry = |row: usize, column: usize| {
            let kept = match change {
                Side::Left => row == 2,
                Side::Right => column == 2,
            };
            let skipped = |k| self == Turn::RotationZeroSkipped && (k == 2) != kept;
            let term = |k: usize| (!skipped(k)).then_some((left[row][k], right[k][column]));
            self.four_terms(Turn::FusedRotation, Turn::RotationTermsBackwards, [0, 1, 2, 3].map(term))
        };
        std::array::from_fn(|row| std::array::from_fn(|column| entry(row, column)))
    }

    /// The sum of four products from +0, in order. A term that is not there is skipped.
    pub fn four_terms(self, fused: Turn, backwards: Turn, mut terms: [Option<(f64, f64)>; 4]) -> f64 {
        if self == backwards {
            terms.reverse();
        }
        let add = |sum, (a, b): (f64, f64)| rounding::add_product(self == fused, sum, a, b);
        let sum = |part: &[Option<(f64, f64)>]| part.iter().flatten().copied().fold(0.0, add);
        if self == Turn::TermsInPairs { sum(&terms[..2]) + sum(&terms[2..]) } else { sum(&terms) }
    }
}

#[cfg(test)]
mod tests {
    use super::*;
    use crate::cases;
    use crate::operators::Pairs;
    use crate::physics::solenoid_stress::rotate_material_in_plane;

    fn bits(matrix: &Matrix) -> [[Option<u64>; 4]; 4] {
        matrix.map(|row| row.map(|number| (!number.is_nan()).then_some(number.to_bits())))
    }

    /// The materials and the angles of the list, each with each.
    #[test]
    fn a_pair_of_an_angle_turns_as_the_rust_does() {
        let list = cases::all();
        let materials: Vec<Matrix> =
            list.iter().flat_map(|case| matrices(&case.call.material_table)).collect();
        let angles_of = |pairs: &Pairs| match pairs {
            Pairs::OfAngles(angles) => angles.clone(),
            _ => Vec::new(),
        };
        for angle in list.iter().flat_map(|case| angles_of(&case.call.pairs)) {
            for material in &materials {
                let ours = oriented(material, [angle.cos(), angle.sin()]);
                assert_eq!(bits(&ours), bits(&rotate_material_in_plane(material, angle)), "angle {angle}");
            }
        }
    }

    /// Worked by hand: the first two axes are exchanged and shear changes its sign.
    #[test]
    fn the_pair_of_a_quarter_turn() {
        let material: Matrix =
            std::array::from_fn(|row| std::array::from_fn(|column| (10 * row + column + 1) as f64));
        let turned = [
            [12.0, 11.0, 13.0, -14.0],
            [2.0, 1.0, 3.0, -4.0],
            [22.0, 21.0, 23.0, -24.0],
            [-32.0, -31.0, -33.0, 34.0],
        ];
        assert_eq!(oriented(&material, [0.0, 1.0]), turned);
        assert_eq!(oriented(&material, [0.0, -1.0]), turned);
    }

    /// Worked by hand: of a material with one number, a pair that no angle has.
    #[test]
    fn a_pair_off_the_circle() {
        let mut material = [[0.0; 4]; 4];
        material[0][0] = 1.0;
        let turned = [[16.0, 4.0, 0.0, 8.0], [4.0, 1.0, 0.0, 2.0], [0.0; 4], [8.0, 2.0, 0.0, 4.0]];
        assert_eq!(oriented(&material, [2.0, 1.0]), turned);
    }
}
