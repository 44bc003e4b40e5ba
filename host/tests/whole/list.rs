//! The host's list of blocks, and the shards that it asks for; blocks are known by numbers.
use crate::bytes::{Shape, SECTOR};
use crate::random::Random;
use crate::writes::parity;
use std::collections::HashMap;
use std::rc::Rc;

/// The bytes of a block by its number: 0 is zeros, all others differ.
pub fn content(number: u64, shape: &Shape) -> Vec<u8> {
    let mut bytes = vec![0; shape.strip_length() * SECTOR];
    if number != 0 {
        let mut random = Random(number.wrapping_mul(0x9e37_79b9_7f4a_7c15) | 1);
        random.next();
        random.fill(&mut bytes);
    }
    bytes
}

/// The shards of stripes that were asked for, by the numbers of their blocks.
#[derive(Default)]
pub struct Shards(HashMap<Vec<u64>, Rc<Vec<Vec<u8>>>>);

impl Shards {
    /// Data and parity of a stripe with these blocks.
    pub fn of(&mut self, shape: &Shape, blocks: &[u64]) -> Rc<Vec<Vec<u8>>> {
        if self.0.len() > 4096 {
            self.0.clear();
        }
        let made = self.0.entry(blocks.to_vec()).or_insert_with(|| {
            let mut all: Vec<_> = blocks.iter().map(|&b| content(b, shape)).collect();
            let parities: Vec<_> = (0..shape.m.into()).map(|j| parity(&all, j)).collect();
            all.extend(parities);
            Rc::new(all)
        });
        made.clone()
    }
}
