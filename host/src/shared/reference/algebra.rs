//! What the lifted files take from the algebra crate: a meter that never stops, and packed sets.

use std::fmt;
use std::marker::PhantomData;

#[derive(Clone, Copy, Debug, PartialEq, Eq)]
pub enum Stop {
    Allocation,
    InvalidProgram,
    WrongProgram,
}

impl Stop {
    pub fn is_resource_refusal(self) -> bool {
        self == Self::Allocation
    }
}

impl fmt::Display for Stop {
    fn fmt(&self, f: &mut fmt::Formatter<'_>) -> fmt::Result {
        write!(f, "{self:?}")
    }
}

#[expect(dead_code, reason = "the lifted files implement it")]
pub trait Refusal {
    fn is_resource_refusal(&self) -> bool;
    fn from_stop(stop: Stop) -> Self;
}

/// Why a charge is refused; the meter here refuses none.
#[expect(dead_code, reason = "the lifted files match on it")]
pub enum ChargeError {
    Stopped(Stop),
    WorkLimit,
}

pub struct Meter<'a> {
    charged: u64,
    owner: PhantomData<&'a Cancellation>,
}

impl Meter<'_> {
    pub fn charge(&mut self) -> Result<(), ChargeError> {
        self.charged += 1;
        Ok(())
    }

    pub fn poll(&mut self) -> Result<(), Stop> {
        Ok(())
    }

    pub fn charged(&self) -> u64 {
        self.charged
    }

    /// Whether `current + added` is within `limit`.
    pub fn check_count(current: usize, added: usize, limit: usize) -> Result<(), ()> {
        match current.checked_add(added) {
            Some(total) if total <= limit => Ok(()),
            _ => Err(()),
        }
    }
}

pub struct Cancellation;

pub struct Metered<T> {
    pub result: T,
    pub charged: u64,
}

impl Cancellation {
    pub fn metered<T>(&self, _limit: u64, run: impl FnOnce(&mut Meter<'_>) -> T) -> Metered<T> {
        let mut meter = Meter {
            charged: 0,
            owner: PhantomData,
        };
        Metered {
            result: run(&mut meter),
            charged: meter.charged,
        }
    }
}

pub struct MeterBytes;

impl MeterBytes {
    pub fn check(value: u128, limit: u128) -> Result<(), ()> {
        if value <= limit { Ok(()) } else { Err(()) }
    }
}

pub mod words {
    use std::ops::{Deref, DerefMut};

    /// A set of places over packed words of either width.
    #[derive(Clone, Debug, Default)]
    pub struct Words<W, S = Vec<W>> {
        storage: S,
        width: std::marker::PhantomData<W>,
    }

    impl<W, S> Words<W, S> {
        pub fn new(storage: S) -> Self {
            Self {
                storage,
                width: std::marker::PhantomData,
            }
        }
    }

    impl<W> Words<W> {
        pub fn storage_mut(&mut self) -> &mut Vec<W> {
            &mut self.storage
        }

        pub fn capacity(&self) -> usize {
            self.storage.capacity()
        }
    }

    impl<W> From<Vec<W>> for Words<W> {
        fn from(storage: Vec<W>) -> Self {
            Self::new(storage)
        }
    }

    impl<W, S: AsRef<[W]>> Deref for Words<W, S> {
        type Target = [W];
        fn deref(&self) -> &[W] {
            self.storage.as_ref()
        }
    }

    impl<W, S: AsRef<[W]> + AsMut<[W]>> DerefMut for Words<W, S> {
        fn deref_mut(&mut self) -> &mut [W] {
            self.storage.as_mut()
        }
    }

    impl<'a, W> IntoIterator for &'a Words<W> {
        type Item = &'a W;
        type IntoIter = std::slice::Iter<'a, W>;
        fn into_iter(self) -> Self::IntoIter {
            self.storage.iter()
        }
    }

    /// The set places of one word, rising.
    pub struct Bits(u64);

    impl Bits {
        pub fn next_with<E>(
            &mut self,
            mut tick: impl FnMut() -> Result<(), E>,
        ) -> Result<Option<usize>, E> {
            match self.next() {
                None => Ok(None),
                Some(bit) => tick().map(|()| Some(bit)),
            }
        }
    }

    impl Iterator for Bits {
        type Item = usize;
        fn next(&mut self) -> Option<usize> {
            if self.0 == 0 {
                return None;
            }
            let bit = self.0.trailing_zeros() as usize;
            self.0 &= self.0 - 1;
            Some(bit)
        }
    }

    impl Words<u64> {
        pub fn popcount(word: u64) -> u32 {
            word.count_ones()
        }

        pub fn bits(word: u64) -> Bits {
            Bits(word)
        }

        pub fn locate(place: usize) -> (usize, u64) {
            (place / 64, 1 << (place % 64))
        }

        pub fn positions(&self) -> impl Iterator<Item = usize> + '_ {
            self.iter()
                .enumerate()
                .flat_map(|(word, &bits)| Bits(bits).map(move |bit| word * 64 + bit))
        }

        pub fn half32(&self, half: usize) -> u32 {
            (self[half / 2] >> (half % 2 * 32)) as u32
        }
    }

    impl<S: AsRef<[u64]>> Words<u64, S> {
        pub fn contains(&self, place: usize) -> bool {
            self[place / 64] >> (place % 64) & 1 != 0
        }

        pub fn get_bit(&self, place: usize) -> Option<bool> {
            self.get(place / 64)
                .map(|word| word >> (place % 64) & 1 != 0)
        }

        /// The lowest set place from word `start` on, one tick a word read.
        pub fn next_from_with<E>(
            &self,
            start: usize,
            mut tick: impl FnMut() -> Result<(), E>,
        ) -> Result<Option<usize>, E> {
            for (index, &word) in self.iter().enumerate().skip(start) {
                tick()?;
                if word != 0 {
                    return Ok(Some(index * 64 + word.trailing_zeros() as usize));
                }
            }
            Ok(None)
        }
    }

    impl<S: AsRef<[u64]> + AsMut<[u64]>> Words<u64, S> {
        pub fn insert(&mut self, place: usize) {
            self[place / 64] |= 1 << (place % 64);
        }

        pub fn remove(&mut self, place: usize) {
            self[place / 64] &= !(1 << (place % 64));
        }
    }

    impl Words<u32> {
        pub fn first_bit(word: u32) -> usize {
            word.trailing_zeros() as usize
        }
    }

    impl<S: AsRef<[u32]> + AsMut<[u32]>> Words<u32, S> {
        pub fn insert(&mut self, place: usize) {
            self[place / 32] |= 1 << (place % 32);
        }
    }
}
