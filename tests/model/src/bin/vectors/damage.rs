//! Damage done to a valid block: places changed, the check made again or not.
use crate::bases::Base;
use model::record::seal;

#[derive(Clone)]
pub struct Damage {
    pub base: usize,
    pub sealed: bool,
    pub length: usize,
    pub edits: Vec<(usize, u8)>,
}

impl Damage {
    pub fn none(base: usize) -> Damage {
        Damage { base, sealed: false, length: 512, edits: Vec::new() }
    }

    pub fn sealed(base: usize, edits: &[(usize, u8)]) -> Damage {
        Damage { base, sealed: true, length: 512, edits: edits.to_vec() }
    }

    pub fn loose(base: usize, edits: &[(usize, u8)]) -> Damage {
        Damage { base, sealed: false, length: 512, edits: edits.to_vec() }
    }

    /// Edits first, then the check if sealed, then cut or filled with zeros.
    pub fn block(&self, bases: &[Base]) -> Vec<u8> {
        let mut block = bases[self.base].block.to_vec();
        for &(place, value) in &self.edits {
            block[place] = value;
        }
        if self.sealed {
            seal(&mut block);
        }
        block.resize(self.length, 0);
        block
    }

    /// `BASE SEALED LENGTH;PLACE VALUE ...`
    pub fn line(&self) -> String {
        let pairs: Vec<String> = self.edits.iter().map(|(p, v)| format!("{p} {v}")).collect();
        format!("{} {} {};{}", self.base, u8::from(self.sealed), self.length, pairs.join(" "))
    }
}
