// A stand-in for the crate `rand`: what `Network::shuffle` names, which the oracle never calls.
pub trait SeedableRng: Sized {
    fn seed_from_u64(seed: u64) -> Self;
}

pub mod rngs {
    pub struct SmallRng;
    impl super::SeedableRng for SmallRng {
        fn seed_from_u64(_: u64) -> Self {
            unimplemented!()
        }
    }
}

pub mod seq {
    pub trait SliceRandom {
        fn shuffle<R>(&mut self, rng: &mut R);
    }
    impl<T> SliceRandom for [T] {
        fn shuffle<R>(&mut self, _: &mut R) {
            unimplemented!()
        }
    }
}
