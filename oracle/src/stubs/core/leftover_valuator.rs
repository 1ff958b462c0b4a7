//! Stub: the Rust's valuation of a leftover was not given to us. Costs are not compared, so nothing is worth anything here.

pub fn valuate(_area: u64, _power: f32) -> f32 {
    0.0
}
