//! Stands in for the crate fast-math, whose power of two is outside the port. It is NOT a power of two: it hands its
//! argument back, so that the decoder's linear gains are its band values and lines of 1.0 show them.
pub fn exp2_raw(x: f32) -> f32 {
    x
}
