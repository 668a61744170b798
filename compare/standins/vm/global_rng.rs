//! Stand-in: the process's random source. No random instruction is compared.

use crate::rng::RandomSource;

#[derive(Debug)]
pub struct ProcessRng;

impl RandomSource for ProcessRng {
    fn sample(&mut self) -> f32 {
        unreachable!("not compared")
    }
}
