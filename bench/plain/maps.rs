//! The standard library's maps: with its own hash, whose key nobody knows, or, where `short_hash` is set, with a short one
//! of a fixed seed.

#[cfg(not(short_hash))]
pub use std::collections::{HashMap, HashSet};

#[cfg(short_hash)]
pub use short::{HashMap, HashSet};

/// Who measures.
pub const WHO: &str = if cfg!(short_hash) { "short" } else { "plain" };

#[cfg(short_hash)]
mod short {
    use std::hash::{BuildHasherDefault, Hasher};

    #[derive(Default)]
    pub struct Short(u64);

    impl Short {
        fn mix(&mut self, number: u64) {
            self.0 = (self.0.rotate_left(5) ^ number).wrapping_mul(0x517c_c1b7_2722_0a95);
        }
    }

    impl Hasher for Short {
        fn write(&mut self, bytes: &[u8]) {
            bytes.iter().for_each(|byte| self.mix(u64::from(*byte)));
        }

        fn write_u8(&mut self, number: u8) {
            self.mix(u64::from(number));
        }

        fn write_u16(&mut self, number: u16) {
            self.mix(u64::from(number));
        }

        fn write_u32(&mut self, number: u32) {
            self.mix(u64::from(number));
        }

        fn write_u64(&mut self, number: u64) {
            self.mix(number);
        }

        fn finish(&self) -> u64 {
            self.0.rotate_left(26)
        }
    }

    pub type HashMap<K, V> = std::collections::HashMap<K, V, BuildHasherDefault<Short>>;
    pub type HashSet<K> = std::collections::HashSet<K, BuildHasherDefault<Short>>;
}
