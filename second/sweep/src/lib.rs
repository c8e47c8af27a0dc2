//! The sweep of free space alone, written twice from document 01 (request R-2
//! of document 02): `simple` plainly, `fast` for speed. They are what the
//! product's time is measured against, and share only the record.

#![forbid(unsafe_code)]

pub mod fast;
pub mod record;
pub mod simple;

/// A refusal's number and the zone told with it.
pub type Refusal = (u32, u32);

#[cfg(test)]
mod tests {
    use reference::generate::Rng;
    use reference::map::zone_check_by_words;

    use crate::{fast, simple};

    fn agree(block: &[u8]) {
        let check = zone_check_by_words(block);
        assert_eq!(simple::zone_check(block), check, "simple");
        assert_eq!(fast::zone_check(block), check, "fast");
    }

    /// Words of few kinds, so that sums often come to 2^32 - 1 or 2^32.
    #[test]
    fn zone_checks() {
        let words = [0, 1, 2, 0x7FFF_FFFF, 0x8000_0000, 0xFFFF_FFFE, u32::MAX];
        let mut rng = Rng::new(0);
        for round in 0..20_000 {
            let kinds = rng.between(1, words.len());
            let word = |_| rng.pick(&words[words.len() - kinds..]).to_le_bytes();
            let block: Vec<u8> = (0..64 << (round % 3)).flat_map(word).collect();
            agree(&block);
        }
    }

    #[test]
    fn zone_checks_of_single_words() {
        let mut block = vec![0; 256];
        agree(&block);
        for word in 0..64 {
            block.fill(0);
            block[4 * word..][..4].fill(0xFF);
            agree(&block);
            block[(4 * word + 4) % 256] = 1;
            agree(&block);
        }
    }
}
