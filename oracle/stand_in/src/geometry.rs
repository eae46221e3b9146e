//! The two traits that a kind and a container have, with the members that the five files write or call.

use crate::error::{Error, Result};

pub type GeometryId = String;

/// Allowed turns of a flat shape. The box half carries one and never reads it.
#[derive(Debug, Clone, PartialEq, Default)]
pub enum RotationConstraint<S> {
    #[default]
    None,
    Discrete(Vec<S>),
}

/// A shape to be placed.
pub trait Geometry: Clone + Send + Sync {
    type Scalar: Copy;
    fn id(&self) -> &GeometryId;
    fn quantity(&self) -> usize;
    fn measure(&self) -> Self::Scalar;
    fn aabb_vec(&self) -> (Vec<Self::Scalar>, Vec<Self::Scalar>);
    fn centroid(&self) -> Vec<Self::Scalar>;
    fn validate(&self) -> Result<()>;
    fn rotation_constraint(&self) -> &RotationConstraint<Self::Scalar>;
}

/// A container.
pub trait Boundary: Clone + Send + Sync {
    type Scalar: Copy;
    fn measure(&self) -> Self::Scalar;
    fn aabb_vec(&self) -> (Vec<Self::Scalar>, Vec<Self::Scalar>);
    fn validate(&self) -> Result<()>;
    fn contains_point(&self, point: &[Self::Scalar]) -> bool;
}

/// A quantity of at least 1.
pub fn check_quantity(parameter: &str, id: &str, value: i128) -> Result<usize> {
    match usize::try_from(value) {
        Ok(quantity) if quantity >= 1 => Ok(quantity),
        _ => Err(Error::OutOfRange { parameter: parameter.to_string(), id: Some(id.to_string()), got: value as f64 }),
    }
}
