//! The two settings that the layer placer reads.

#[derive(Debug, Clone)]
pub struct Config {
    pub spacing: f64,
    pub margin: f64,
}
