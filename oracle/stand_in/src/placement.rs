//! The record of one placed box, with the fields that the box half fills in and reads.

use crate::geometry::GeometryId;

#[derive(Debug, Clone)]
pub struct Placement<S> {
    pub geometry_id: GeometryId,
    pub instance: usize,
    pub position: Vec<S>,
    pub rotation: Vec<S>,
    pub boundary_index: usize,
    pub mirrored: bool,
    pub rotation_index: Option<usize>,
}

impl<S: Copy> Placement<S> {
    #[allow(clippy::too_many_arguments)]
    pub fn new_3d(geometry_id: GeometryId, instance: usize, x: S, y: S, z: S, rx: S, ry: S, rz: S) -> Self {
        Self {
            geometry_id,
            instance,
            position: vec![x, y, z],
            rotation: vec![rx, ry, rz],
            boundary_index: 0,
            mirrored: false,
            rotation_index: None,
        }
    }

    pub fn with_boundary(mut self, index: usize) -> Self {
        self.boundary_index = index;
        self
    }

    pub fn with_rotation_index(mut self, index: usize) -> Self {
        self.rotation_index = Some(index);
        self
    }
}
