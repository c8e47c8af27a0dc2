//! Document 01, "Bench examples", and document 000's object 690.

use reference::generate::{map_690, map_a, map_b, map_floppy, map_of_eight_zones};

use crate::calls::{groups, Cases};
use crate::maps::{first, pairs_of};

groups![
    maps_a_and_b,
    place_5,
    claims,
    addresses,
    sweeps,
    absent_ids,
    object_690,
    object_690_released,
    cross_check_changes,
    floppy,
    floppy_edits,
];

/// "A is accepted", "B is accepted", "Release of 5 gives A."
fn maps_a_and_b(cases: &mut Cases) {
    let (a, b) = (map_a(), map_b());
    cases.check(&a).done();
    cases.list(&a, 2, 4).pairs(&[0, 12]);
    cases.free(&a, 4).pairs(&[12, 1_524]);
    cases.check(&b).done();
    cases.list(&b, 5, 4).pairs(&[12, 20]);
    cases.free(&b, 4).pairs(&[32, 1_504]);
    assert_eq!(cases.release(&b, 5, 4).pairs(&[12, 20]), a);
}

/// "A, place 5", and the place that makes B.
fn place_5(cases: &mut Cases) {
    let a = map_a();
    assert_eq!(cases.place(&a, 5, &[12, 20]).done(), map_b());
    for (pair, number) in [
        ([12, 11], 12),
        ([12, 1_512], 0),
        ([12, 1_513], 13),
        ([12, 1_524], 0),
        ([23, 12], 13),
        ([24, 12], 0),
    ] {
        cases.place(&a, 5, &pair).gives(number);
    }
}

/// "A, claim": 'The claim examples read "parent zone 0"' (R-6 of document 02).
fn claims(cases: &mut Cases) {
    let a = map_a();
    for (size, length) in [
        (1, 12),
        (1_548_288, 1_512),
        (1_548_289, 1_524),
        (1_560_576, 1_524),
    ] {
        cases.claim(&a, size, 0).claims(3, &[12, length]);
    }
    cases.claim(&a, 1_560_577, 0).gives(15);
}

/// "B, address", with the run that R-11 of document 02 adds: "for map B, 0x000503
/// at 0 has 19,968". Object 5 ends with address 32,767.
fn addresses(cases: &mut Cases) {
    let b = map_b();
    cases.address(&b, 0x000503, 0).answers(&[12_800, 19_968]);
    cases.address(&b, 0x000500, 19_967).answers(&[32_255, 513]);
    cases.address(&b, 0x000501, 19_967).answers(&[32_255, 513]);
    cases.address(&b, 0x000503, 19_968).gives(16);
    cases.address(&b, 0x000503, 19_967).answers(&[32_767, 1]);
}

/// "B, sweep of 5", and the same stretches swept of what is free.
fn sweeps(cases: &mut Cases) {
    let b = map_b();
    cases.sweep_object(&b, 5, 12_000, 1_000).answers(&[712]);
    cases.sweep_object(&b, 5, 1_572_864, 0).answers(&[0]);
    cases.sweep_object(&b, 5, 1_572_864, 1).gives(16);
    cases.sweep_free(&b, 1_572_864, 0).answers(&[0]);
    cases.sweep_free(&b, 1_572_864, 1).gives(16);
    cases.sweep_free(&b, 32_000, 1_000).answers(&[232]);
}

/// "Id 167 is absent in A (10); 168 is 8; release of 2 is 8."
fn absent_ids(cases: &mut Cases) {
    let a = map_a();
    cases.list(&a, 167, 4).gives(10);
    cases.list(&a, 168, 4).gives(8);
    cases.address(&a, 167 << 8, 0).gives(10);
    cases.address(&a, 168 << 8, 0).gives(8);
    cases.release(&a, 2, 4).gives(8);
    cases.release(&a, 167, 4).gives(10);
    cases.release(&a, 168, 4).gives(8);
}

/// "Id 690 with 168 ids per zone: start zone 4 (document 000)."
fn object_690(cases: &mut Cases) {
    let map = map_690();
    cases.check(&map).done();
    cases.list(&map, 690, 20).done();
    cases.list(&map, 690, 16).done();
    cases.list(&map, 690, 15).gives(17);
    cases.list(&map, 1, 4).done();
    cases.list(&map, 2, 4).done();
    cases.free(&map, 24).done();
    cases.free(&map, 13).gives(17);
    cases.claim(&map, 1, 0).claims(4, &[62, 12]);
    let in_zone_1 = [first(1), 1_363];
    cases.claim(&map, 1_363 * 1_024, 0).claims(168, &in_zone_1);
    cases.release(&map, 7, 2).done();
    cases.release(&map, 3, 2).done();
}

/// Object 690 lies in zones 0, 2, 3, 4 and 6: released, and given back in its
/// order or in a wrong one.
fn object_690_released(cases: &mut Cases) {
    let map = map_690();
    let pairs = pairs_of(&map, 690);
    let released = cases.release(&map, 690, 16).pairs(&pairs);
    cases.release(&map, 690, 15).gives(17);
    cases.check(&released).done();
    assert_eq!(cases.place(&released, 690, &pairs).done(), map);
    // The same pairs are in the wrong order for an id of another zone, and
    // rotated they are wrong for this one.
    cases.place(&released, 5, &pairs).gives(12);
    let mut rotated = pairs.clone();
    rotated.rotate_left(4);
    cases.place(&released, 690, &rotated).gives(12);
    cases.place(&map, 690, &pairs).gives(11);
    let in_zone_1 = [first(1), 2_000];
    cases
        .claim(&released, 2_000 * 1_024, 0)
        .claims(168, &in_zone_1);
}

/// "Zones 1,4 change by 1,1; zones 0,2,3,6,7 by 1,2,3,1,1": placed, released
/// again, and a claim, which touches one zone and leaves them alone.
fn cross_check_changes(cases: &mut Cases) {
    let map = map_of_eight_zones();
    for zones in [
        vec![1, 4],
        vec![1, 2, 5],
        vec![0, 2, 3, 6, 7],
        vec![0, 1, 2, 3, 4, 5, 6, 7],
        vec![3],
    ] {
        let list: Vec<u32> = zones
            .iter()
            .flat_map(|zone| [first(*zone) + 12, 24])
            .collect();
        let placed = cases.place(&map, 3, &list).done();
        assert_eq!(cases.release(&placed, 3, 16).pairs(&list), map);
        cases.claim(&placed, 12 * 1_024 + 1, 0).done();
    }
}

/// The 800K floppy of the last bench line: clusters of 8 map bits.
fn floppy(cases: &mut Cases) {
    let map = map_floppy();
    cases.check(&map).done();
    cases.list(&map, 9, 2).pairs(&[32, 16]);
    cases.free(&map, 2).pairs(&[48, 6_352]);
    cases.list(&map, 429, 2).gives(10);
    cases.list(&map, 430, 2).gives(8);
    cases.address(&map, 9 << 8 | 2, 1_023).answers(&[6_143, 1]);
    cases.address(&map, 9 << 8 | 2, 1_024).gives(16);
    cases.sweep_free(&map, 819_200 - 100, 100).answers(&[100]);
    let first = 32 * 128 - 10;
    cases.sweep_object(&map, 9, first, 3_000).answers(&[2_048]);
}

/// Edits of the floppy: need and leftovers in clusters of 8 map bits.
fn floppy_edits(cases: &mut Cases) {
    let map = map_floppy();
    for (size, length) in [
        (1, 16),
        (2_048, 16),
        (2_049, 24),
        (6_328 * 128, 6_328),
        (6_336 * 128, 6_336),
        (6_336 * 128 + 1, 6_352),
    ] {
        cases.claim(&map, size, 0).claims(3, &[48, length]);
    }
    cases.claim(&map, 6_352 * 128 + 1, 0).gives(15);
    for (pair, number) in [
        ([48, 16], 0),
        ([52, 16], 12),
        ([48, 20], 12),
        ([48, 8], 12),
        ([56, 16], 13),
        ([64, 6_336], 0),
    ] {
        cases.place(&map, 3, &pair).gives(number);
    }
    cases.release(&map, 9, 2).pairs(&[32, 16]);
}
