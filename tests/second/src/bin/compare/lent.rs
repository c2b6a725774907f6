//! Slices lent between canaries.

/// How many canaries stand before a slice at least, and past it.
const CANARY: usize = 64;

/// A slice in the middle of canaries, at any alignment that its numbers allow.
#[derive(Clone)]
pub struct Lent<T> {
    pub all: Vec<T>,
    pub start: usize,
    length: usize,
}

impl<T: From<u8> + Copy> Lent<T> {
    pub fn of(content: impl ExactSizeIterator<Item = T>, shift: usize, salt: u8) -> Self {
        let start = CANARY + shift;
        let length = content.len();
        let guards = |count: usize| (0..count).map(|at| T::from(canary(at, salt)));
        let mut all: Vec<T> = guards(start).collect();
        all.extend(content);
        all.extend(guards(CANARY));
        Lent { all, start, length }
    }

    pub fn inner(&self) -> &[T] {
        &self.all[self.start..self.start + self.length]
    }

    pub fn inner_mut(&mut self) -> &mut [T] {
        &mut self.all[self.start..self.start + self.length]
    }
}

/// Never 0, so that clearing shows.
pub fn canary(at: usize, salt: u8) -> u8 {
    (at as u8).wrapping_mul(29).wrapping_add(salt) | 1
}

/// The first place at which two slices with their canaries differ, from the slice's own first.
pub fn differ<T: From<u8> + Copy + PartialEq + std::fmt::Debug>(
    title: &str,
    got: &Lent<T>,
    wanted: &Lent<T>,
) -> Option<String> {
    let at = (0..got.all.len()).find(|&at| got.all[at] != wanted.all[at])?;
    let place = at as i64 - got.start as i64;
    let length = got.inner().len();
    Some(format!(
        "{title} of {length} at {place}: {:?} instead of {:?}",
        got.all[at], wanted.all[at]
    ))
}
