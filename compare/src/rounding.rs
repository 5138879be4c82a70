//! Sums of products, each operation rounded once, or one multiply-add fused.

/// sum + a × b.
pub fn add_product(fused: bool, sum: f64, a: f64, b: f64) -> f64 {
    if fused { a.mul_add(b, sum) } else { sum + a * b }
}

/// a × b + c × d; the first or the second product may be fused.
pub fn two_products(fused: [bool; 2], a: f64, b: f64, c: f64, d: f64) -> f64 {
    match fused {
        [true, _] => a.mul_add(b, c * d),
        [_, true] => c.mul_add(d, a * b),
        _ => a * b + c * d,
    }
}
