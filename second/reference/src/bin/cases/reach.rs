//! Document 01, "The calls": address and sweep.

use reference::case::{Call, Case};
use reference::generate::{build, map_690, map_b};

use crate::calls::{groups, Cases};
use crate::maps::*;

groups![
    internal_numbers,
    start_offsets,
    start_offsets_of_larger_sectors,
    positions_that_wrap,
    address_across_pieces,
    address_in_object_order,
    sweep_pieces,
    sweep_inside_a_piece,
    sweep_single_bytes,
    sweep_across_zones,
    sweep_outside_the_class,
    sweep_of_the_fill,
    sweep_empty_stretches,
    sweep_past_the_disc_end,
    sweep_stretches_that_wrap,
    sweep_ids,
];

/// "internal number n below 2^24: id = n div 256", and 8 for an id outside 2
/// to P*nzones-1.
fn internal_numbers(cases: &mut Cases) {
    let b = map_b();
    cases.address(&b, 0x000200, 12_287).answers(&[12_287, 1]);
    for n in [
        0x0000FF,
        0x000100,
        (1 << 24) - 1,
        1 << 24,
        (1 << 24) + 0x000500,
        u32::MAX,
    ] {
        cases.address(&b, n, 0).gives(8);
    }
}

/// "Start offset is 0 for s = 0, else (s-1)*S", 16 where it is past the object
/// by itself: object 5 has 80 sectors, object 2 has 48.
fn start_offsets(cases: &mut Cases) {
    let b = map_b();
    cases.address(&b, 0x000550, 255).answers(&[32_767, 1]);
    cases.address(&b, 0x000551, 0).gives(16);
    cases.address(&b, 0x000231, 0).gives(16);
}

/// The same with sectors of 512 and 1,024 bytes, where B is 128.
fn start_offsets_of_larger_sectors(cases: &mut Cases) {
    let zone = vec![object(2, 16), free(3_552), object(5, 16)];
    let map = build(&clusters_of_four(1), &[zone]);
    let last = 3_584 * 128 - 1;
    cases.address(&map, 0x000504, 511).answers(&[last, 1]);
    let zone = vec![object(2, 16), free(7_640), object(5, 24)];
    let map = build(&clusters_of_eight(1), &[zone]);
    cases.address(&map, 0x000504, 0).gives(16);
}

/// "start offset plus position not below the object's length": sums that would
/// be inside the object modulo 2^32 or 2^64.
fn positions_that_wrap(cases: &mut Cases) {
    let b = map_b();
    cases.address(&b, 0x000503, u64::MAX).gives(16);
    cases
        .address(&b, 0x000503, 0u64.wrapping_sub(512))
        .gives(16);
    let position = 20_479u64.wrapping_sub(254 * 256);
    cases.address(&b, 0x0005FF, position).gives(16);
    cases.address(&b, 0x000503, (1 << 32) - 512).gives(16);
    cases.address(&b, 0x000500, 1 << 32).gives(16);
}

/// "The object's bytes are its pieces joined in order": the edges of object
/// 690's pieces, by disc bit and length, the last of which fills zone 3.
fn address_across_pieces(cases: &mut Cases) {
    let map = map_690();
    let mut position = 0;
    for (disc_bit, length) in [
        (7_608, 40),
        (7_748, 12),
        (12_616, 1_016),
        (0, 20),
        (32, 30),
        (162, 12),
        (4_052, 16),
        (5_568, 2_016),
    ] {
        let answer = [disc_bit * 1_024, length * 1_024];
        cases.address(&map, 690 << 8, position).answers(&answer);
        position += length * 1_024;
    }
    let last = [7_584 * 1_024 - 1, 1];
    cases.address(&map, 690 << 8, position - 1).answers(&last);
    cases.address(&map, 690 << 8, position).gives(16);
    let n = 690 << 8 | 0xFF;
    cases.address(&map, n, position - 254 * 256).gives(16);
    let position = position - 254 * 256 - 1;
    cases.address(&map, n, position).answers(&last);
}

/// "its pieces joined in order": the last byte of one and the first of the
/// next, which is in an earlier zone: objects 600 and 2 of four zones.
fn address_in_object_order(cases: &mut Cases) {
    let map = four_zones();
    let position = (32 + 34) * 1_024;
    let n = 600 << 8;
    let last = 5_728 * 1_024 - 1;
    cases.address(&map, n, position - 1).answers(&[last, 1]);
    cases.address(&map, n, position).answers(&[0, 20 * 1_024]);
    let position = (12 + 30) * 1_024;
    let n = 2 << 8;
    let answer = [1_638 * 1_024, 35 * 1_024];
    cases.address(&map, n, position).answers(&answer);
    // The start offset alone reaches the second piece: 254 sectors are 63
    // map bits and two sectors. 34 - 31 map bits less two sectors are left.
    let n = 600 << 8 | 0xFF;
    let address = (5_694 + 63 - 32) * 1_024 + 512;
    let run = (34 - 31) * 1_024 - 512;
    cases.address(&map, n, 0).answers(&[address, run]);
}

/// Three zones with map bits of 128 bytes, so that a stretch spans pieces:
/// object 400 at 0, 42 and 3580, object 7 at 28, 3522 and 3552; free from 14,
/// 58, 1550, 3566 and 3600; the disc ends at 5468.
fn short_pieces() -> Vec<u8> {
    build(
        &disc_of(5_468, clusters_of_two(3)),
        &[
            vec![
                object(400, 14),
                free(14),
                object(7, 14),
                object(400, 16),
                free(1_478),
            ],
            vec![object(2, 14), free(1_972), object(7, 30)],
            vec![
                object(7, 14),
                free(14),
                object(400, 20),
                free(1_868),
                object(1, 100),
            ],
        ],
    )
}

/// "Writes the fill at each address of that class within the stretch, nowhere
/// else": several pieces in one stretch.
fn sweep_pieces(cases: &mut Cases) {
    let map = short_pieces();
    let length = 60 * 128;
    cases
        .sweep_object(&map, 400, 0, length)
        .answers(&[30 * 128]);
    cases.sweep_object(&map, 7, 0, length).answers(&[14 * 128]);
    cases.sweep_free(&map, 0, length).answers(&[16 * 128]);
    let map = map_690();
    let first = 18 * 1_024;
    cases
        .sweep_object(&map, 690, first, 16_384)
        .answers(&[4_096]);
    cases.sweep_free(&map, 60 * 1_024, 8_192).answers(&[6_144]);
}

/// "within the stretch": it starts and ends inside a piece.
fn sweep_inside_a_piece(cases: &mut Cases) {
    let map = short_pieces();
    let count = (14 * 128 - 100) + (6_100 - 42 * 128);
    cases.sweep_object(&map, 400, 100, 6_000).answers(&[count]);
    let count = (28 * 128 - 1_900) + 76;
    cases.sweep_free(&map, 1_900, 5_600).answers(&[count]);
}

/// "each address of that class": not the last byte before a piece, but its own
/// last one.
fn sweep_single_bytes(cases: &mut Cases) {
    let map = short_pieces();
    for (address, count) in [(14 * 128 - 1, 0), (28 * 128 - 1, 1)] {
        cases.sweep_free(&map, address, 1).answers(&[count]);
    }
}

/// "each address of that class", over the border of zones 1 and 2.
fn sweep_across_zones(cases: &mut Cases) {
    let map = short_pieces();
    let first = 3_520 * 128;
    let length = 50 * 128;
    let count = 44 * 128;
    cases.sweep_object(&map, 7, first, length).answers(&[count]);
    cases.sweep_free(&map, first, length).answers(&[6 * 128]);
}

/// "answers how many those are": none, which is no refusal.
fn sweep_outside_the_class(cases: &mut Cases) {
    let map = short_pieces();
    let first = 100 * 128;
    cases.sweep_object(&map, 400, first, 1_000).answers(&[0]);
    cases.sweep_free(&nothing_free(), 0, 100).answers(&[0]);
}

/// "answers how many those are": bytes that hold the fill already count, here
/// all of them or, where each byte has another value, one.
fn sweep_of_the_fill(cases: &mut Cases) {
    let mut case = Case::new(Call::SweepFree, &short_pieces());
    case.wide = 10 * 128;
    case.fill = 0x5A;
    case.image = vec![0x5A; 8 * 128];
    cases.add(case).answers(&[4 * 128]);
    let mut case = Case::new(Call::SweepObject, &short_pieces());
    case.number = 400;
    case.wide = 12 * 128;
    case.fill = 0;
    case.image = (0..4 * 128).map(|index| index as u8).collect();
    cases.add(case).answers(&[2 * 128]);
}

/// "stretch ending past disc_size": an empty one ends where it starts.
fn sweep_empty_stretches(cases: &mut Cases) {
    let map = short_pieces();
    let disc_size = 5_468 * 128;
    cases.sweep_object(&map, 400, disc_size, 0).answers(&[0]);
    cases.sweep_object(&map, 400, disc_size + 1, 0).gives(16);
    cases.sweep_free(&map_b(), 1_572_865, 0).gives(16);
}

/// "stretch ending past disc_size", though the object lies before it.
fn sweep_past_the_disc_end(cases: &mut Cases) {
    let first = 5_468 * 128 - 100;
    cases.sweep_object(&short_pieces(), 7, first, 101).gives(16);
}

/// "stretch ending past disc_size": first addresses and ends that are small
/// modulo 2^32 or 2^64.
fn sweep_stretches_that_wrap(cases: &mut Cases) {
    let map = short_pieces();
    cases.sweep_free(&map_b(), u64::MAX, 1).gives(16);
    cases.sweep_free(&map, u64::MAX - 4, 10).gives(16);
    cases.sweep_free(&map, 1 << 32, 10).gives(16);
    cases.sweep_object(&map, 400, (1 << 32) - 5, 10).gives(16);
}

/// "id argument outside 3 (sweep, edits) to P*nzones-1": 465 ids here.
fn sweep_ids(cases: &mut Cases) {
    cases.sweep_object(&map_b(), 2, 0, 10).gives(8);
    let map = short_pieces();
    for id in [465, 7 + 65_536] {
        cases.sweep_object(&map, id, 0, 10).gives(8);
    }
}
