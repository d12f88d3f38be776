//! Stands in for the crate `nalgebra`: vectors and small matrices, with what airframe/mod.rs asks of them. Sums and products are
//! f32's, in the order of the motors. The inverse is not nalgebra's: it is worked out in f64, by elimination, and rounded once.

use core::ops::{Add, Mul};

#[derive(Clone, Copy)]
pub struct Vector3<T> {
    pub x: T,
    pub y: T,
    pub z: T,
}

impl Vector3<f32> {
    pub const fn new(x: f32, y: f32, z: f32) -> Self {
        Vector3 { x, y, z }
    }

    pub fn normalize(&self) -> Self {
        let norm = (self.x * self.x + self.y * self.y + self.z * self.z).sqrt();
        Vector3::new(self.x / norm, self.y / norm, self.z / norm)
    }

    pub fn cross(&self, by: &Self) -> Self {
        Vector3::new(
            self.y * by.z - self.z * by.y,
            self.z * by.x - self.x * by.z,
            self.x * by.y - self.y * by.x,
        )
    }
}

impl Mul<f32> for Vector3<f32> {
    type Output = Self;

    fn mul(self, by: f32) -> Self {
        Vector3::new(self.x * by, self.y * by, self.z * by)
    }
}

impl Add for Vector3<f32> {
    type Output = Self;

    fn add(self, other: Self) -> Self {
        Vector3::new(self.x + other.x, self.y + other.y, self.z + other.z)
    }
}

pub struct Point3<T> {
    pub coords: Vector3<T>,
}

impl Point3<f32> {
    pub const fn new(x: f32, y: f32, z: f32) -> Self {
        Point3 { coords: Vector3::new(x, y, z) }
    }
}

pub struct Vector4<T>([T; 4]);

impl Vector4<f32> {
    pub fn new(x: f32, y: f32, z: f32, w: f32) -> Self {
        Vector4([x, y, z, w])
    }
}

/// Row by row.
pub struct SMatrix<T, const R: usize, const C: usize>(pub [[T; C]; R]);

impl<const R: usize, const C: usize> SMatrix<f32, R, C> {
    pub fn zeros() -> Self {
        SMatrix([[0.0; C]; R])
    }

    pub fn transpose(&self) -> SMatrix<f32, C, R> {
        SMatrix(core::array::from_fn(|j| core::array::from_fn(|i| self.0[i][j])))
    }
}

impl<const C: usize> SMatrix<f32, 4, C> {
    pub fn set_column(&mut self, j: usize, column: &Vector4<f32>) {
        for (row, x) in self.0.iter_mut().zip(column.0) {
            row[j] = x;
        }
    }
}

impl<const R: usize, const C: usize, const D: usize> Mul<SMatrix<f32, C, D>> for &SMatrix<f32, R, C> {
    type Output = SMatrix<f32, R, D>;

    fn mul(self, by: SMatrix<f32, C, D>) -> SMatrix<f32, R, D> {
        SMatrix(core::array::from_fn(|i| {
            core::array::from_fn(|j| self.0[i].iter().zip(&by.0).fold(0.0, |sum, (x, row)| sum + x * row[j]))
        }))
    }
}

impl<const R: usize, const C: usize, const D: usize> Mul<SMatrix<f32, C, D>> for SMatrix<f32, R, C> {
    type Output = SMatrix<f32, R, D>;

    fn mul(self, by: SMatrix<f32, C, D>) -> SMatrix<f32, R, D> {
        &self * by
    }
}

impl SMatrix<f32, 4, 4> {
    /// None where a pivot is zero or not finite.
    pub fn try_inverse(self) -> Option<Self> {
        let mut left = self.0.map(|row| row.map(f64::from));
        let mut right: [[f64; 4]; 4] = core::array::from_fn(|i| core::array::from_fn(|j| f64::from(u8::from(i == j))));
        for k in 0..4 {
            let best = (k..4).max_by(|&a, &b| left[a][k].abs().total_cmp(&left[b][k].abs()))?;
            left.swap(k, best);
            right.swap(k, best);
            let pivot = left[k][k];
            if pivot == 0.0 || !pivot.is_finite() {
                return None;
            }
            left[k] = left[k].map(|x| x / pivot);
            right[k] = right[k].map(|x| x / pivot);
            for i in (0..4).filter(|&i| i != k) {
                let by = left[i][k];
                for j in 0..4 {
                    left[i][j] -= by * left[k][j];
                    right[i][j] -= by * right[k][j];
                }
            }
        }
        Some(SMatrix(right.map(|row| row.map(|x| x as f32))))
    }
}
