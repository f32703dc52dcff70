// A stand-in for the crate `volute`: what truth-table gates name, which the oracle never makes.
#[derive(Debug, PartialEq, Eq, Hash, Clone)]
pub struct Lut;

impl Lut {
    pub fn num_bits(&self) -> usize {
        unimplemented!()
    }
    pub fn num_vars(&self) -> usize {
        unimplemented!()
    }
    pub fn value(&self, _: usize) -> bool {
        unimplemented!()
    }
}

impl std::fmt::Display for Lut {
    fn fmt(&self, _: &mut std::fmt::Formatter<'_>) -> std::fmt::Result {
        unimplemented!()
    }
}
