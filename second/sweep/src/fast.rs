//! The sweep written for speed: words instead of bits, one walk over the map,
//! and the free spans kept until the whole map has been accepted.

use crate::record::Record;
use crate::Refusal;

/// A free span: its first disc bit and the one after its last.
type Span = (u32, u32);

/// The free spans of a zone, as block bits. No block is walked through more
/// than 583 fragments: the longest has 8,160 allocation bits, and with it idlen
/// is at least 13.
type ZoneSpans = [(u16, u16); 584];

/// No block bit at which a fragment can start: the chain's end.
const NOWHERE: usize = 0;

/// Writes the fill to every byte of the image that lies on a free map bit;
/// answers how many those are. The image is the stretch of disc from `first`.
pub fn sweep_free(map: &[u8], image: &mut [u8], first: u64, fill: u8) -> Result<u64, Refusal> {
    let record = Record::read(map)?;
    check_blocks(&record, map)?;
    let end = first.saturating_add(image.len() as u64);
    let mut spans: ZoneSpans = [(0, 0); 584];
    let mut free = Vec::new();
    for zone in 0..record.nzones {
        let block = block(&record, map, zone);
        let count = check_zone(&record, zone, block, &mut spans)?;
        if touches(&record, zone, first, end) {
            let on_disc = |span| on_disc(&record, zone, span);
            free.extend(spans[..count].iter().map(on_disc));
        }
    }
    record.stretch_end(first, image.len())?;
    Ok(fill_spans(&free, image, first, fill, record.log2bpmb))
}

fn block<'a>(record: &Record, map: &'a [u8], zone: usize) -> &'a [u8] {
    &map[zone * record.sector_size..][..record.sector_size]
}

/// Whether a zone has addresses from `first` up to but not including `end`.
fn touches(record: &Record, zone: usize, first: u64, end: u64) -> bool {
    let address = |block_bit| (record.disc_bit(zone, block_bit) as u64) << record.log2bpmb;
    address(record.first_bit(zone)) < end && first < address(record.end_bit())
}

fn on_disc(record: &Record, zone: usize, &(from, to): &(u16, u16)) -> Span {
    let disc_bit = |block_bit| record.disc_bit(zone, block_bit as usize) as u32;
    (disc_bit(from), disc_bit(to))
}

/// The zone checks, then the cross checks (refusals 3 and 4).
fn check_blocks(record: &Record, map: &[u8]) -> Result<(), Refusal> {
    let mut cross = 0;
    for zone in 0..record.nzones {
        let block = block(record, map, zone);
        if zone_check(block) != block[0] {
            return Err((3, zone as u32));
        }
        cross ^= block[3];
    }
    if cross != 255 {
        return Err((4, 0));
    }
    Ok(())
}

/// The check byte of a block. Adding each carry to the next word is adding
/// modulo 2^32 - 1, with 0 only where all words are 0. So the words may be
/// added in any order, two at a time, and the carries at the end.
pub(crate) fn zone_check(block: &[u8]) -> u8 {
    let (mut both, mut high) = (0u64, 0u64);
    for words in block.chunks_exact(8) {
        let words = u64::from_le_bytes(words.try_into().expect("8 bytes"));
        both = both.wrapping_add(words);
        high += words >> 32;
    }
    // The low words' sum has far fewer than 64 bits, so it is not cut off.
    let low = both.wrapping_sub(high << 32);

    // Word 0 comes last: its check byte counts as 0, its carry is dropped.
    let word_0 = u32::from_le_bytes([block[0], block[1], block[2], block[3]]);
    let sum = add_carries(add_carries(low + high - word_0 as u64));
    let [a, b, c, d] = (sum as u32).wrapping_add(word_0 & !0xFF).to_le_bytes();
    a ^ b ^ c ^ d
}

fn add_carries(sum: u64) -> u64 {
    (sum & 0xFFFF_FFFF) + (sum >> 32)
}

/// What a walk over the fragments of a zone has found so far. Faults are only
/// noted, as 6 comes before 5 and 7 wherever it is found.
struct Walk {
    /// Where the next fragment starts.
    start: usize,
    /// Where the next free fragment must start.
    next_free: usize,
    /// How many free fragments there were.
    count: usize,
    /// The ends of all fragments, or-ed. Every zone starts at a multiple of
    /// k, so the lengths are multiples of k if the ends are.
    ends: usize,
    wrong_id: bool,
    /// Where the last fragment ends that object 1 does not own.
    last_end: usize,
}

/// Checks one zone (refusals 6, 5, 7) and puts down its free spans; answers
/// how many. A function of its own, so that its loop has all the registers.
#[inline(never)]
fn check_zone(
    record: &Record,
    zone: usize,
    block: &[u8],
    spans: &mut ZoneSpans,
) -> Result<usize, Refusal> {
    let free_link = u16::from_le_bytes([block[1], block[2]]) as usize;
    let mut walk = Walk {
        start: record.first_bit(zone),
        next_free: link_target(8, free_link & 0x7FFF),
        count: 0,
        ends: 0,
        wrong_id: false,
        last_end: 0,
    };
    while walk.start < record.end_bit() {
        let (id, end) = fragment_at(block, walk.start, record.idlen);
        walk.take(id, end, record.ids, spans);
    }

    let refused = |number| Err((number, zone as u32));
    if walk.start != record.end_bit() || walk.ends & (record.cluster_bits - 1) != 0 {
        return refused(6);
    }
    if free_link & 0x8000 == 0 || walk.next_free != NOWHERE {
        return refused(5);
    }
    let disc_end = (record.disc_end() + 512).saturating_sub(zone * record.zone_bits);
    if walk.wrong_id || walk.last_end > disc_end || !object_2_right(record, zone, block) {
        return refused(7);
    }
    Ok(walk.count)
}

impl Walk {
    /// Takes in the fragment at `start`. It is put down as if it were free and
    /// nothing here is a branch, as no processor could foretell the owners.
    #[inline(always)]
    fn take(&mut self, id: usize, end: usize, ids: usize, spans: &mut ZoneSpans) {
        let is_free = self.start == self.next_free;
        spans[self.count] = (self.start as u16, end as u16);
        self.count += is_free as usize;
        let target = link_target(self.start, id);
        self.next_free = if is_free { target } else { self.next_free };
        self.ends |= end;
        self.wrong_id |= !is_free & (id.wrapping_sub(1) >= ids - 1);
        self.last_end = if is_free | (id != 1) {
            end
        } else {
            self.last_end
        };
        self.start = end;
    }
}

/// Where a link leads that counts from a block bit.
#[inline(always)]
fn link_target(from: usize, link: usize) -> usize {
    if link == 0 {
        NOWHERE
    } else {
        from + link
    }
}

/// Whether the middle zone starts with object 2. If that fragment were free,
/// 2 would be a link, which can land on no start and was refused before.
fn object_2_right(record: &Record, zone: usize, block: &[u8]) -> bool {
    let (id, _) = fragment_at(block, record.first_bit(zone), record.idlen);
    zone != record.nzones / 2 || id == 2
}

/// The id of the fragment that starts at a block bit, and the block bit after
/// its closing bit, which is past the zone where it is not closed before.
#[inline(always)]
fn fragment_at(block: &[u8], start: usize, idlen: usize) -> (usize, usize) {
    let byte = start / 8;
    let (word, next_word) = words_at(block, byte);
    let id = word >> (start % 8) & ((1 << idlen) - 1);
    let rest = word >> (start % 8 + idlen);
    let end = if rest != 0 {
        start + idlen + 1 + rest.trailing_zeros() as usize
    } else if next_word != 0 {
        8 * byte + 65 + next_word.trailing_zeros() as usize
    } else {
        long_end(block, byte + 16)
    };
    (id as usize, end)
}

/// The 16 bytes from one of the block on, as two words, with 0 for those past
/// its end.
#[inline(always)]
fn words_at(block: &[u8], byte: usize) -> (u64, u64) {
    let words = match block.get(byte..byte + 16) {
        Some(bytes) => u128::from_le_bytes(bytes.try_into().expect("16 bytes")),
        None => last_words(&block[byte..]),
    };
    (words as u64, (words >> 64) as u64)
}

#[cold]
fn last_words(rest: &[u8]) -> u128 {
    let mut bytes = [0; 16];
    bytes[..rest.len()].copy_from_slice(rest);
    u128::from_le_bytes(bytes)
}

/// The end of a fragment that is not closed before a byte. First the zeros are
/// passed over, 32 bytes at a time.
#[inline(never)]
fn long_end(block: &[u8], byte: usize) -> usize {
    let mut byte = byte;
    while matches!(block.get(byte..byte + 32), Some(bytes) if bytes == [0; 32]) {
        byte += 32;
    }
    closing_end(block, byte)
}

/// The block bit after the first bit set from a byte on; one past the block
/// where there is none.
fn closing_end(block: &[u8], byte: usize) -> usize {
    let mut byte = byte;
    while byte < block.len() {
        let (word, _) = words_at(block, byte);
        if word != 0 {
            return 8 * byte + word.trailing_zeros() as usize + 1;
        }
        byte += 8;
    }
    8 * block.len() + 1
}

/// Fills the spans as far as the image has them; answers how many bytes.
fn fill_spans(free: &[Span], image: &mut [u8], first: u64, fill: u8, log2bpmb: u32) -> u64 {
    let length = image.len() as u64;
    let within = |disc_bit: u32| {
        let address = (disc_bit as u64) << log2bpmb;
        address.saturating_sub(first).min(length) as usize
    };
    // The spans ascend, so those in the image follow one another.
    let begin = free.partition_point(|&(_, to)| within(to) == 0);
    let mut count = 0;
    for &(from, to) in &free[begin..] {
        let (from, to) = (within(from), within(to));
        if from == to {
            break;
        }
        image[from..to].fill(fill);
        count += to - from;
    }
    count as u64
}
