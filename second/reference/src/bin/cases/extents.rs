//! Document 02, R-11, "How far may I read?": address is to "also answer how many
//! bytes follow at consecutive disc addresses in the same piece, the asked byte
//! included. Touching pieces count as separate." The example that R-11 gives is in
//! `bench`, with the others of map B.
//!
//! A piece is named by its disc bit and length, as in (12,20). Positions, addresses
//! and runs are written out in bytes: disc bit and length times B. A map bit has
//! 1,024 bytes and a sector 256 where nothing else is said.

use reference::generate::{as_e_plus, build, map_b, with_bytes};
use reference::geometry::DiscRecord;

use crate::calls::{groups, Cases};
use crate::maps::*;

groups![
    bytes_of_a_piece,
    two_touching_pieces,
    three_touching_pieces,
    touching_across_a_zone_end,
    whole_zones,
    longest_run,
    earlier_zones_last,
    start_offsets,
    start_offset_past_two_pieces,
    start_offsets_of_larger_sectors,
    up_to_the_object_end,
    shortest_pieces,
    large_map_bits,
    disc_end_inside_a_map_bit,
    addresses_above_2_to_the_31,
    object_2,
    object_2_in_several_zones,
    touching_objects,
    touching_free_space,
    refused_maps,
    refused_arguments,
    e_plus_discs,
];

/// Asks at each of the positions, and states the address and the run.
#[track_caller]
fn located<const N: usize>(cases: &mut Cases, map: &[u8], n: u32, answers: [(u64, [u64; 2]); N]) {
    for (position, address_and_run) in answers {
        cases.address(map, n, position).answers(&address_and_run);
    }
}

/// One zone with object 5 in two pieces that touch, (12,20) and (32,30): addresses
/// 12,288 to 32,767 and 32,768 to 63,487.
fn two_pieces() -> Vec<u8> {
    let zone = vec![object(2, 12), object(5, 20), object(5, 30), free(1_474)];
    build(&plain(1), &[zone])
}

/// "the asked byte included": the first byte, the second, one in the middle and the
/// last of (12,20), which is all of object 5.
fn bytes_of_a_piece(cases: &mut Cases) {
    let answers = [
        (0, [12_288, 20_480]),
        (1, [12_289, 20_479]),
        (10_000, [22_288, 10_480]),
        (20_479, [32_767, 1]),
    ];
    located(cases, &map_b(), 0x000500, answers);
}

/// "Touching pieces count as separate": the first and last byte of each.
fn two_touching_pieces(cases: &mut Cases) {
    let answers = [
        (0, [12_288, 20_480]),
        (20_479, [32_767, 1]),
        (20_480, [32_768, 30_720]),
        (51_199, [63_487, 1]),
    ];
    located(cases, &two_pieces(), 0x000500, answers);
}

/// "Touching pieces count as separate": (14,14), (28,20) and (48,16) in map bits of
/// 128 bytes, at the last byte of one and the first of the next.
fn three_touching_pieces(cases: &mut Cases) {
    let zone = vec![
        object(2, 14),
        object(5, 14),
        object(5, 20),
        object(5, 16),
        free(1_472),
    ];
    let map = build(&clusters_of_two(1), &[zone]);
    let answers = [
        (1_791, [3_583, 1]),
        (1_792, [3_584, 2_560]),
        (4_351, [6_143, 1]),
        (4_352, [6_144, 2_048]),
    ];
    located(cases, &map, 0x000500, answers);
}

/// "Touching pieces count as separate": (3522,30) is the last of zone 1 and (3552,40)
/// the first of zone 2. (1516,20) is the last of zone 0, which is 480 bits short, and
/// (1536,24) the first of zone 1.
fn touching_across_a_zone_end(cases: &mut Cases) {
    let zones = [
        vec![free(1_536)],
        vec![object(2, 12), free(1_974), object(5, 30)],
        vec![object(5, 40), free(1_976)],
    ];
    let map = build(&plain(3), &zones);
    let answers = [(30_719, [3_637_247, 1]), (30_720, [3_637_248, 40_960])];
    located(cases, &map, 0x000500, answers);

    let zones = [
        vec![free(1_516), object(5, 20)],
        vec![object(5, 24), free(1_992)],
        vec![object(2, 12), free(2_004)],
        vec![free(2_016)],
    ];
    let map = build(&plain(4), &zones);
    let answers = [(20_479, [1_572_863, 1]), (20_480, [1_572_864, 24_576])];
    located(cases, &map, 0x000500, answers);
}

/// "in the same piece": (0,1536) and (3552,2016) fill zones 0 and 2, and (1548,2004)
/// all of zone 1 but object 2. The last two touch.
fn whole_zones(cases: &mut Cases) {
    let zones = [
        vec![object(7, 1_536)],
        vec![object(2, 12), object(7, 2_004)],
        vec![object(7, 2_016)],
    ];
    let map = build(&plain(3), &zones);
    let answers = [
        (0, [0, 1_572_864]),
        (3_624_959, [3_637_247, 1]),
        (3_624_960, [3_637_248, 2_064_384]),
    ];
    located(cases, &map, 0x000700, answers);
}

/// No piece has more bytes than (15840,8160), a whole zone in blocks of 1,024 bytes,
/// with 4,096 bytes a map bit.
fn longest_run(cases: &mut Cases) {
    let record = DiscRecord {
        log2bpmb: 12,
        ..large_sectors(3)
    };
    let zones = [
        vec![free(7_680)],
        vec![object(2, 16), free(8_144)],
        vec![object(5, 8_160)],
    ];
    let map = build(&disc_of(24_000, record), &zones);
    let answers = [(0, [64_880_640, 33_423_360]), (33_423_359, [98_303_999, 1])];
    located(cases, &map, 0x000500, answers);
}

/// Three zones with object 400, whose start zone is 2: (3552,40) there, then (0,20)
/// and (3522,30). Its last piece ends where its first one starts.
fn from_zone_2() -> Vec<u8> {
    let zones = [
        vec![object(400, 20), free(1_516)],
        vec![object(2, 12), free(1_974), object(400, 30)],
        vec![object(400, 40), free(1_976)],
    ];
    build(&plain(3), &zones)
}

/// "take all its fragments in ascending order, then later zones, then from zone 0":
/// asked again where each run ends, up to the object's end. That its own first piece
/// follows there on the disc is no matter.
fn earlier_zones_last(cases: &mut Cases) {
    let map = from_zone_2();
    let answers = [
        (0, [3_637_248, 40_960]),
        (40_960, [0, 20_480]),
        (61_440, [3_606_528, 30_720]),
        (92_159, [3_637_247, 1]),
    ];
    located(cases, &map, 400 << 8, answers);
    cases.address(&map, 400 << 8, 92_160).gives(16);
}

/// "Start offset is 0 for s = 0, else (s-1)*S": inside the first of two pieces that
/// touch, 80 sectors long, in its last sector, and at its end, which is the second's
/// first byte. R-11's example of 19,968 bytes is the same here, and the byte after
/// them is in the second piece.
fn start_offsets(cases: &mut Cases) {
    let map = two_pieces();
    let answers = [(0, [12_800, 19_968]), (19_968, [32_768, 30_720])];
    located(cases, &map, 0x000503, answers);
    located(cases, &map, 0x000550, [(0, [32_512, 256])]);
    located(cases, &map, 0x000551, [(0, [32_768, 30_720])]);
}

/// The same with the start offset in the third piece: 254 sectors are 65,024 bytes,
/// of which the first two pieces have 61,440.
fn start_offset_past_two_pieces(cases: &mut Cases) {
    let map = from_zone_2();
    let n = 400 << 8 | 0xFF;
    located(cases, &map, n, [(0, [3_610_112, 27_136])]);
    cases.address(&map, n, 27_136).gives(16);
}

/// The same with sectors of 512 bytes and map bits of 128: (16,16) has four sectors,
/// (32,24), which touches it, has six.
fn start_offsets_of_larger_sectors(cases: &mut Cases) {
    let zone = vec![object(2, 16), object(5, 16), object(5, 24), free(3_528)];
    let map = build(&clusters_of_four(1), &[zone]);
    located(cases, &map, 0x000504, [(0, [3_584, 512])]);
    located(cases, &map, 0x000505, [(0, [4_096, 3_072])]);
    located(cases, &map, 0x00050A, [(511, [7_167, 1])]);
}

/// "start offset plus position not below the object's length": a file that shares
/// the object starts with the second piece's second sector, and may be read to the
/// piece's end, as no map tells how long a file is. Another one starts with the
/// object's last sector, the 200th.
fn up_to_the_object_end(cases: &mut Cases) {
    let map = two_pieces();
    located(cases, &map, 0x000552, [(0, [33_024, 30_464])]);
    located(cases, &map, 0x0005C8, [(255, [63_487, 1])]);
    cases.address(&map, 0x0005C8, 256).gives(16);
}

/// Pieces of m bits: (16,16) with m 16 by clusters of 8 map bits of 128 bytes, and
/// (1512,12) and (1524,12) with m 12, which touch and end with the disc.
fn shortest_pieces(cases: &mut Cases) {
    let zone = vec![object(2, 16), object(5, 16), free(7_648)];
    let map = build(&clusters_of_eight(1), &[zone]);
    located(cases, &map, 0x000500, [(0, [2_048, 2_048])]);
    let zone = vec![object(2, 12), free(1_500), object(5, 12), object(5, 12)];
    let map = build(&plain(1), &[zone]);
    let answers = [
        (12_287, [1_560_575, 1]),
        (12_288, [1_560_576, 12_288]),
        (24_575, [1_572_863, 1]),
    ];
    located(cases, &map, 0x000500, answers);
}

/// The record of one zone with map bits of 4,096 bytes, sixteen sectors each.
fn bits_of_4096() -> DiscRecord {
    let record = DiscRecord {
        log2bpmb: 12,
        ..plain(1)
    };
    disc_of(1_536, record)
}

/// (12,13) and (25,12), which touch: the first byte, the last of the first map bit,
/// the last of the piece, and the first of the next.
fn large_map_bits(cases: &mut Cases) {
    let zone = vec![object(2, 12), object(5, 13), object(5, 12), free(1_499)];
    let map = build(&bits_of_4096(), &[zone]);
    let answers = [
        (0, [49_152, 53_248]),
        (4_095, [53_247, 49_153]),
        (53_247, [102_399, 1]),
        (53_248, [102_400, 49_152]),
    ];
    located(cases, &map, 0x000500, answers);
}

/// "Every disc bit from disc_size div B onward is owned by 1": the disc has one more
/// sector after (1412,88), which is none of the object's.
fn disc_end_inside_a_map_bit(cases: &mut Cases) {
    let record = DiscRecord {
        disc_size: 1_500 * 4_096 + 256,
        ..bits_of_4096()
    };
    let zone = vec![object(2, 12), free(1_400), object(5, 88), object(1, 36)];
    let map = build(&record, &[zone]);
    let answers = [(0, [5_783_552, 360_448]), (360_447, [6_143_999, 1])];
    located(cases, &map, 0x000500, answers);
}

/// The last zone of 130 has (524183,200), in which address 2^31 lies, and (524383,1247),
/// which touches it and ends with the disc. A disc that is not E+ has 2,160,992,256
/// bytes at most, by the rule on P*nzones, so that no address is near 2^32.
fn addresses_above_2_to_the_31(cases: &mut Cases) {
    let record = DiscRecord {
        log2secsize: 9,
        idlen: 15,
        log2bpmb: 12,
        zone_spare: 49,
        ..plain(130)
    };
    let record = disc_of(130 * 4_047 - 480, record);
    let mut zones = full_zones(&record);
    zones[129] = vec![object(32_515, 2_600), object(5, 200), object(5, 1_247)];
    let map = build(&record, &zones);
    let answers = [
        (0, [2_147_053_568, 819_200]),
        (430_080, [2_147_483_648, 389_120]),
        (5_926_911, [2_152_980_479, 1]),
    ];
    located(cases, &map, 0x000500, answers);
}

/// Object 2 in (0,12) and (12,20), which touch, and with a start offset of as many
/// sectors as the first has.
fn object_2(cases: &mut Cases) {
    let zone = vec![object(2, 12), object(2, 20), free(1_504)];
    let map = build(&plain(1), &[zone]);
    let answers = [(12_287, [12_287, 1]), (12_288, [12_288, 20_480])];
    located(cases, &map, 0x000200, answers);
    located(cases, &map, 0x000231, [(0, [12_288, 20_480])]);
}

/// "for object 2, nzones div 2": (1536,12) in zone 1, then (1500,36), which ends where
/// that one starts. Of three zones (1536,2016), all of zone 1, then (3552,12).
fn object_2_in_several_zones(cases: &mut Cases) {
    let zones = [
        vec![free(1_500), object(2, 36)],
        vec![object(2, 12), free(2_004)],
    ];
    let map = build(&plain(2), &zones);
    let answers = [
        (12_287, [1_585_151, 1]),
        (12_288, [1_536_000, 36_864]),
        (49_151, [1_572_863, 1]),
    ];
    located(cases, &map, 0x000200, answers);

    let zones = [
        vec![free(1_536)],
        vec![object(2, 2_016)],
        vec![object(2, 12), free(2_004)],
    ];
    let map = build(&plain(3), &zones);
    let answers = [
        (2_064_383, [3_637_247, 1]),
        (2_064_384, [3_637_248, 12_288]),
    ];
    located(cases, &map, 0x000200, answers);
}

/// "in the same piece": objects 2, 5, 133 and 5 again touch, and 133 is 5 but for one
/// bit. Object 5 has (12,20) and (62,40).
fn touching_objects(cases: &mut Cases) {
    let zone = vec![
        object(2, 12),
        object(5, 20),
        object(133, 30),
        object(5, 40),
        free(1_434),
    ];
    let map = build(&plain(1), &[zone]);
    located(cases, &map, 0x000200, [(0, [0, 12_288])]);
    let answers = [(20_479, [32_767, 1]), (20_480, [63_488, 40_960])];
    located(cases, &map, 0x000500, answers);
    located(cases, &map, 133 << 8, [(0, [32_768, 30_720])]);
}

/// "in the same piece": free space before, between and after (24,20) and (56,24).
fn touching_free_space(cases: &mut Cases) {
    let zone = vec![
        object(2, 12),
        free(12),
        object(5, 20),
        free(12),
        object(5, 24),
        free(1_456),
    ];
    let map = build(&plain(1), &[zone]);
    let answers = [(20_479, [45_055, 1]), (20_480, [57_344, 24_576])];
    located(cases, &map, 0x000500, answers);
}

/// "A refusal answers its number and zone, any other number 0": 1 to 7, with an
/// internal number and a position that do on the map as it was.
fn refused_maps(cases: &mut Cases) {
    let whole = three_zones();
    let dirty = with_bytes(&whole, 36, &[1]);
    for (map, number, zone) in [
        (&whole[..63], 1, 0),
        (&dirty[..], 2, 0),
        (&damaged(&[CHECK_2]), 3, 2),
        (&damaged(&[CROSS_1]), 4, 0),
        (&damaged_below_checks(&[LINK_1]), 5, 1),
        (&damaged_below_checks(&[FRAGMENT_2]), 6, 2),
        (&damaged_below_checks(&[ID_1]), 7, 1),
    ] {
        cases.address(map, 0x000700, 0).told(number, zone);
    }
}

/// The same for 8, 10 and 16. Map bits have 512 bytes here; object 7's last piece is
/// (4552,900), and it has 940 map bits in all.
fn refused_arguments(cases: &mut Cases) {
    let map = three_zones();
    cases.address(&map, 0x000107, 0).gives(8);
    cases.address(&map, 1 << 24 | 0x000700, 0).gives(8);
    cases.address(&map, 0x000900, 0).gives(10);
    located(cases, &map, 0x000700, [(481_279, [2_791_423, 1])]);
    cases.address(&map, 0x000700, 481_280).gives(16);
}

/// "Address refuses E+ with 8": pieces that touch, with idlen 11 and with 19.
fn e_plus_discs(cases: &mut Cases) {
    let map = as_e_plus(&two_pieces());
    cases.address(&map, 0x000500, 20_479).gives(8);
    let zone = vec![object(2, 20), object(5, 20), object(5, 30), free(1_466)];
    let map = build(&e_plus(1), &[zone]);
    cases.address(&map, 0x000500, 0).gives(8);
}
