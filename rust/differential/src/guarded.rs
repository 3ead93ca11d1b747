//! A buffer between guard bytes, so that a write outside it is seen.

const GUARD: usize = 32;

pub struct Guarded {
    bytes: Vec<u8>,
    from: usize,
    to: usize,
}

/// The guard byte at an offset.
fn guard(at: usize) -> u8 {
    (at * 37 + 11) as u8
}

impl Guarded {
    /// A copy of some bytes. `shift` moves it off its alignment.
    pub fn new(content: &[u8], shift: usize) -> Guarded {
        let from = GUARD + shift;
        let to = from + content.len();
        let mut bytes: Vec<u8> = (0..from).map(guard).collect();
        bytes.extend(content);
        bytes.extend((to..to + GUARD).map(guard));
        Guarded { bytes, from, to }
    }

    pub fn get(&self) -> &[u8] {
        &self.bytes[self.from..self.to]
    }

    pub fn get_mut(&mut self) -> &mut [u8] {
        &mut self.bytes[self.from..self.to]
    }

    /// Whether every guard byte stands.
    pub fn stands(&self) -> bool {
        let mut outside = (0..self.from).chain(self.to..self.bytes.len());
        outside.all(|at| self.bytes[at] == guard(at))
    }
}
