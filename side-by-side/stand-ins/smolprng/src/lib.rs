//! Stands in for smolprng, which the text names in `make_random_qubo` alone. The driver never calls it.

pub trait Algorithm {}

pub struct PRNG<T: Algorithm> {
    pub generator: T,
}

impl<T: Algorithm> PRNG<T> {
    pub fn gen_f64(&mut self) -> f64 {
        unimplemented!("the driver draws no numbers")
    }
}
