//! Stretches lent to a function, between canary values that must stay.

use std::fmt::Debug;

const GUARD: usize = 8;

/// What a stretch is made of: words or bytes.
pub trait Value: Copy + PartialEq + Debug {
    const SIZE: usize;
    const CANARY: Self;
    /// Adds the value to the bytes, low byte first.
    fn put(self, bytes: &mut Vec<u8>);
    /// The value of so many bytes.
    fn get(bytes: &[u8]) -> Self;
}

impl Value for u32 {
    const SIZE: usize = 4;
    const CANARY: u32 = 0xC0DE_CAFE;

    fn put(self, bytes: &mut Vec<u8>) {
        bytes.extend_from_slice(&self.to_le_bytes());
    }

    fn get(bytes: &[u8]) -> u32 {
        u32::from_le_bytes([bytes[0], bytes[1], bytes[2], bytes[3]])
    }
}

impl Value for u16 {
    const SIZE: usize = 2;
    const CANARY: u16 = 0xC0DE;

    fn put(self, bytes: &mut Vec<u8>) {
        bytes.extend_from_slice(&self.to_le_bytes());
    }

    fn get(bytes: &[u8]) -> u16 {
        u16::from_le_bytes([bytes[0], bytes[1]])
    }
}

impl Value for u8 {
    const SIZE: usize = 1;
    const CANARY: u8 = 0xCD;

    fn put(self, bytes: &mut Vec<u8>) {
        bytes.push(self);
    }

    fn get(bytes: &[u8]) -> u8 {
        bytes[0]
    }
}

/// A stretch with canaries before and after it.
#[derive(Clone, Debug)]
pub struct Lent<T> {
    all: Vec<T>,
}

impl<T: Value> Lent<T> {
    pub fn new(values: &[T]) -> Lent<T> {
        let guard = [T::CANARY; GUARD];
        Lent {
            all: [&guard, values, &guard].concat(),
        }
    }

    /// How many bytes the canaries on one side take.
    pub fn guard() -> usize {
        GUARD * T::SIZE
    }

    /// All of it as bytes, canaries too.
    pub fn bytes(&self) -> Vec<u8> {
        let mut bytes = Vec::with_capacity(self.all.len() * T::SIZE);
        self.all.iter().for_each(|value| value.put(&mut bytes));
        bytes
    }

    /// What those bytes are, if they are long enough.
    pub fn of(bytes: &[u8]) -> Option<Lent<T>> {
        let values = bytes.chunks_exact(T::SIZE);
        let good = bytes.len() >= 2 * Lent::<T>::guard() && values.remainder().is_empty();
        good.then(|| Lent {
            all: values.map(T::get).collect(),
        })
    }

    /// What is lent.
    pub fn get(&self) -> &[T] {
        &self.all[GUARD..self.all.len() - GUARD]
    }

    pub fn get_mut(&mut self) -> &mut [T] {
        let end = self.all.len() - GUARD;
        &mut self.all[GUARD..end]
    }

    /// All of it, canaries too.
    pub fn all_mut(&mut self) -> &mut [T] {
        &mut self.all
    }

    /// Whether every word or byte is as expected, the canaries too.
    pub fn check(&self, name: &str, expected: &[T]) -> Result<(), String> {
        let guard = |part: &[T]| part.iter().all(|value| *value == T::CANARY);
        let end = self.all.len() - GUARD;
        if !guard(&self.all[..GUARD]) || !guard(&self.all[end..]) {
            return Err(format!("{name}: written outside of what was lent"));
        }
        if self.get() == expected {
            return Ok(());
        }
        let differs = |place: &usize| self.get().get(*place) != expected.get(*place);
        let place = (0..self.get().len().max(expected.len())).find(differs);
        let place = place.unwrap_or_default();
        Err(format!(
            "{name}: place {place} is {:?}, expected {:?}",
            self.get().get(place),
            expected.get(place)
        ))
    }
}
