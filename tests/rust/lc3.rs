//! The modules of lc3-codec 0.2.0 that noise shaping uses, and no more.
pub mod common {
    pub mod complex;
    pub mod config;
}
pub mod tables {
    pub mod band_index_tables;
    pub mod spec_noise_shape_quant_tables;
}
pub mod encoder {
    pub mod spectral_noise_shaping;
}
pub mod decoder {
    pub mod side_info;
    pub mod spectral_noise_shaping;
}
