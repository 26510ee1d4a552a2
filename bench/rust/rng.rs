//! The generator of the texts: the same in every run, and in crates/bench.
use crate::ast::{Eid, EntityType, EntityUID, Name, PolicyID};

/// Marsaglia's xorshift with 64 bits.
pub struct Rng(pub u64);

impl Rng {
    pub fn below(&mut self, n: usize) -> usize {
        self.0 ^= self.0 << 13;
        self.0 ^= self.0 >> 7;
        self.0 ^= self.0 << 17;
        (self.0 >> 11) as usize % n
    }

    /// `least` to `most` small letters.
    pub fn text(&mut self, least: usize, most: usize) -> String {
        let len = least + self.below(most - least + 1);
        (0..len).map(|_| (b'a' + self.below(26) as u8) as char).collect()
    }

    pub fn id(&mut self) -> PolicyID {
        PolicyID::from_string(self.text(8, 16))
    }

    pub fn entity(&mut self, ty: &str) -> EntityUID {
        let ty = EntityType::EntityType(Name::of_text(ty));
        EntityUID::from_components(ty, Eid::Eid(self.text(8, 16)))
    }

    pub fn shuffle<T>(&mut self, items: &mut [T]) {
        for i in (1..items.len()).rev() {
            items.swap(i, self.below(i + 1))
        }
    }
}
