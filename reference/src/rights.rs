//! Rights over the operations: a second admission of tables.

use crate::files::{Files, Loaded, REACHES, reached, words};
use crate::side::Reference;
use crate::walker::MAX_TABLE;

/// An operation that is not granted.
pub const DENIED: u16 = 48;

const FIRST: u16 = 256;
const LAST: u16 = 1_279;

/// What `sst_admit` answers.
#[derive(Clone, Copy, PartialEq, Eq, Debug)]
pub struct Admitted {
    pub number: u16,
    pub location: u64,
}

/// The entries `sst_admit` and `sst_load_admitted`; the second has the first one's location beside what `sst_load` answers.
pub trait Rights {
    fn name(&self) -> &'static str;
    fn admit(&self, table: &[u8], set: &[u8]) -> Admitted;
    fn load_admitted(&self, file: &[u8], set: &[u8], table: &mut [u8]) -> (Loaded, u64);
}

impl Rights for Reference {
    fn name(&self) -> &'static str {
        "rust"
    }

    fn admit(&self, table: &[u8], set: &[u8]) -> Admitted {
        let mut table = words(table);
        table.truncate(MAX_TABLE);
        let Some(reached) = reached(&table) else { return Admitted { number: REACHES, location: 0 } };
        let granted = granted(set);
        let mut admitted = Admitted { number: 0, location: 0 };
        // From the highest location down: the last one found is the lowest.
        for (index, word) in table.iter().enumerate().rev() {
            let location = index + 1;
            if (FIRST..=LAST).contains(word) && !granted.contains(word) && reached.has(location) {
                admitted = Admitted { number: DENIED, location: location as u64 };
            }
        }
        admitted
    }

    fn load_admitted(&self, file: &[u8], set: &[u8], table: &mut [u8]) -> (Loaded, u64) {
        let loaded = self.load(file, table);
        if loaded.number != 0 {
            return (loaded, 0);
        }
        let Admitted { number, location } = self.admit(&table[..2 * loaded.words as usize], set);
        (Loaded { number, ..loaded }, location)
    }
}

/// The operations that a set of bits grants, in order.
pub fn granted(set: &[u8]) -> Vec<u16> {
    let bits = set.iter().flat_map(|byte| (0..8).rev().map(move |bit| byte >> bit & 1 == 1));
    (FIRST..=LAST).zip(bits).filter(|(_, granted)| *granted).map(|(operation, _)| operation).collect()
}

#[cfg(test)]
mod tests {
    use super::*;
    use crate::tables::bytes;

    #[track_caller]
    fn is(table: &[u16], set: &[u8], number: u16, location: u64) {
        assert_eq!(Reference.admit(&bytes(table), set), Admitted { number, location }, "{table:?}");
    }

    #[test]
    fn bits() {
        assert_eq!(granted(&[]), []);
        assert_eq!(granted(&[128]), [256]);
        assert_eq!(granted(&[1, 64]), [263, 265]);
        let mut set = [0; 200];
        set[127] = 1;
        set[128] = 255;
        assert_eq!(granted(&set), [1_279]);
        assert_eq!(granted(&[255; 128]).len(), 1_024);
    }

    #[test]
    fn admission() {
        is(&[256, 9], &[128], 0, 0);
        is(&[256, 9], &[127, 255], 48, 1);
        is(&[256, 9], &[], 48, 1);
        is(&[9], &[], 0, 0);
        // Operands and words where nothing leads do not count; setParameter is no operation.
        is(&[5, 256, 13, 512, 9, 300], &[], 0, 0);
        // The lowest location, in whatever order they are reached.
        is(&[1, 3, 257, 256, 2, 3], &[], 48, 3);
        is(&[8, 5, 257, 9, 256, 9], &[], 48, 3);
        is(&[8, 5, 257, 9, 256, 9], &[64], 48, 5);
        is(&[8, 5, 257, 9, 256, 9], &[192], 0, 0);
        for operation in [256, 511, 512, 767, 768, 1_023, 1_024, 1_279] {
            let mut set = vec![255; 128];
            is(&[operation, 9], &set, 0, 0);
            let bit = usize::from(operation - 256);
            set[bit / 8] ^= 128 >> (bit % 8);
            is(&[operation, 9], &set, 48, 1);
            set.truncate(bit / 8);
            is(&[operation, 9], &set, 48, 1);
        }
        is(&[256], &[255; 128], 41, 0);
        is(&[], &[255; 128], 41, 0);
        // Words past 4,096 are outside.
        let mut table = vec![4; 4_097];
        table[4_096] = 9;
        is(&table, &[], 41, 0);
    }

    #[test]
    fn loading() {
        let mut file = vec![0; 40];
        let written = Reference.write(&bytes(&[4, 300, 9]), 1, &mut file);
        file.truncate(2 * written.words as usize);
        let mut table = [7; 9];
        let done = Reference.load_admitted(&file, &[], &mut table);
        assert_eq!(done, (Loaded { number: 48, words: 3, verdict: 1 }, 2));
        assert_eq!(table, [0, 4, 1, 44, 0, 9, 0, 0, 7]);
        let done = Reference.load_admitted(&file, &[255; 6], &mut table);
        assert_eq!(done, (Loaded { number: 0, words: 3, verdict: 1 }, 0));
        let done = Reference.load_admitted(&file[1..], &[], &mut table);
        assert_eq!(done, (Loaded { number: 40, words: 0, verdict: 0 }, 0));
        assert_eq!(table, [0, 0, 0, 0, 0, 0, 0, 0, 7]);
    }
}
