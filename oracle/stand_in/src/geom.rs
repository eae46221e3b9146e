//! A vector of three numbers: component-wise, with no operation of its own.

pub mod nalgebra_types {
    use std::ops::{Add, Index, Sub};

    /// A column of three numbers, read by name, by index or in turn.
    #[derive(Debug, Clone, Copy, PartialEq)]
    pub struct NaVector3<T> {
        pub x: T,
        pub y: T,
        pub z: T,
    }

    /// A point is held like a vector: only the support part, which stays off, uses it.
    pub type NaPoint3<T> = NaVector3<T>;

    impl<T> NaVector3<T> {
        pub fn new(x: T, y: T, z: T) -> Self {
            Self { x, y, z }
        }

        /// The three numbers in turn: x, y, z.
        pub fn iter(&self) -> std::array::IntoIter<&T, 3> {
            [&self.x, &self.y, &self.z].into_iter()
        }
    }

    impl NaVector3<f64> {
        /// The length. Only the equality of two points uses it, and no placement does.
        pub fn norm(&self) -> f64 {
            (self.x * self.x + self.y * self.y + self.z * self.z).sqrt()
        }
    }

    impl<T: Add<Output = T>> Add for NaVector3<T> {
        type Output = Self;
        fn add(self, other: Self) -> Self {
            Self::new(self.x + other.x, self.y + other.y, self.z + other.z)
        }
    }

    impl<T: Sub<Output = T>> Sub for NaVector3<T> {
        type Output = Self;
        fn sub(self, other: Self) -> Self {
            Self::new(self.x - other.x, self.y - other.y, self.z - other.z)
        }
    }

    impl<T> Index<usize> for NaVector3<T> {
        type Output = T;
        fn index(&self, axis: usize) -> &T {
            match axis {
                0 => &self.x,
                1 => &self.y,
                2 => &self.z,
                _ => panic!("a vector of three has no axis {axis}"),
            }
        }
    }
}
