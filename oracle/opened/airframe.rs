// airframe/mod.rs and what is added to it.
include!("../sources/airframe/mod.rs");

impl MotorSetup<4> {
    /// The x, the y and the reaction of each motor. All lie in one plane and push straight down, which document 01's columns rest on.
    pub fn motors(&self) -> [[f32; 3]; 4] {
        core::array::from_fn(|i| {
            let Motor { position: Point3 { coords }, direction, reaction } = &self.motor[i];
            assert!(coords.z == 0.0 && direction.x == 0.0 && direction.y == 0.0 && direction.z == -1.0);
            [coords.x, coords.y, *reaction]
        })
    }
}
