//! Stands in for the crate num-traits: the two methods that the Rust takes from it, both before the quantizer and outside
//! the port. For the rest, f32's own methods come first.
pub mod real {
    pub trait Real {
        fn powf(self, n: Self) -> Self;
        fn powi(self, n: i32) -> Self;
    }

    impl Real for f32 {
        fn powf(self, n: f32) -> f32 {
            f32::powf(self, n)
        }

        fn powi(self, n: i32) -> f32 {
            f32::powi(self, n)
        }
    }
}
