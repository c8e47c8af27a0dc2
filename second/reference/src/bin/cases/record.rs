//! Document 01, "The disc record and its ranges".

use reference::generate::{build, map_a, repair_zone_checks};
use reference::geometry::DiscRecord;

use crate::calls::{groups, Cases};
use crate::maps::{clusters_of_eight, clusters_of_four, free, object, plain, with_ones_outside};

groups![
    bytes_far_out_of_range,
    nzones,
    idlen,
    zone_spare,
    zone_in_clusters,
    shortest_zone,
    ids_at_most,
    ids_without_cluster_rounding,
    disc_size_in_sectors,
    disc_size_above_two_to_the_31,
    disc_ends_in_a_map_bit,
    each_rule_broken_alone,
    disc_size_rules_broken_alone,
    carried_fields,
];

/// A map of 64 bytes is too short for every record, and the record is judged
/// first: 1 where it is inside its ranges, 2 where it is not.
pub fn head(cases: &mut Cases, record: DiscRecord, number: u32) {
    let mut map = vec![0; 64];
    record.write(&mut map);
    cases.check(&map).gives(number);
}

/// "log2secsize 8 to 10": 40 is 8 for a shift that counts modulo 32. "log2bpmb
/// 7 to 12": 42 is 10.
fn bytes_far_out_of_range(cases: &mut Cases) {
    let record = DiscRecord {
        log2secsize: 40,
        ..plain(1)
    };
    head(cases, record, 2);
    let record = DiscRecord {
        log2bpmb: 42,
        ..plain(1)
    };
    head(cases, record, 2);
}

/// "nzones 1 to 127", and "Raise nzones from 127 to 255" (R-4 of document 02):
/// every value of its byte but 0, here around the old limit and the new one.
fn nzones(cases: &mut Cases) {
    for (nzones, number) in [(0, 2), (1, 1), (127, 1), (128, 1), (255, 1)] {
        let record = DiscRecord {
            nzones,
            idlen: 15,
            ..plain(1)
        };
        head(cases, record, number);
    }
}

/// "idlen from log2secsize+3": one less for sectors of 512 and 1,024 bytes.
fn idlen(cases: &mut Cases) {
    for (record, idlen) in [(clusters_of_four(1), 11), (clusters_of_eight(1), 12)] {
        head(cases, DiscRecord { idlen, ..record }, 2);
    }
}

/// "Z = 8S - zone_spare", "Z - 480 at least m": Z - 480 is m, below 0, or Z
/// itself is.
fn zone_spare(cases: &mut Cases) {
    for (zone_spare, number) in [(2_048 - 492, 1), (2_048 - 479, 2), (2_049, 2)] {
        let record = DiscRecord {
            zone_spare,
            disc_size: 256,
            ..plain(1)
        };
        head(cases, record, number);
    }
}

/// "Z a multiple of k": of 4 and of 8, where it is one of k/2.
fn zone_in_clusters(cases: &mut Cases) {
    for (record, zone_spare) in [(clusters_of_four(1), 34), (clusters_of_eight(1), 36)] {
        let record = DiscRecord {
            zone_spare,
            disc_size: 1_024,
            ..record
        };
        head(cases, record, 2);
    }
}

/// "Z - 480 at least m": object 2 alone fills the smallest zone.
fn shortest_zone(cases: &mut Cases) {
    let record = DiscRecord {
        idlen: 15,
        log2bpmb: 7,
        zone_spare: 2_048 - 496,
        disc_size: 16 * 128,
        ..plain(1)
    };
    let map = build(&record, &[vec![object(2, 16)]]);
    cases.check(&map).done();
    cases.free(&map, 0).pairs(&[]);
    cases.claim(&map, 1, 0).gives(15);
    let mut smaller = map.clone();
    DiscRecord {
        zone_spare: 2_048 - 494,
        disc_size: 256,
        ..record
    }
    .write(&mut smaller);
    repair_zone_checks(&mut smaller, 256);
    cases.check(&smaller).gives(2);
}

/// "P*nzones at most 2^idlen": 128 ids in each of 16 zones, and one zone more.
fn ids_at_most(cases: &mut Cases) {
    let mut zones = vec![vec![free(1_536)]; 16];
    zones[0] = vec![free(1_056)];
    zones[8] = vec![object(2, 12), object(2_047, 24), free(1_500)];
    let mut record = DiscRecord {
        log2bpmb: 8,
        nzones: 16,
        zone_spare: 512,
        disc_size: (16 * 1_536 - 480) * 256,
        ..plain(1)
    };
    let map = build(&record, &zones);
    cases.check(&map).done();
    cases.release(&map, 2_047, 2).done();
    record.nzones = 17;
    let mut more = map.clone();
    more.extend_from_slice(&map[256..512]);
    record.write(&mut more);
    repair_zone_checks(&mut more, 256);
    cases.check(&more).gives(2);
}

/// "P (ids per zone) = Z div (idlen+1), without that rounding": 582 ids a zone
/// and 8,192 in all leave room for 14 zones, where 510 would for 16.
fn ids_without_cluster_rounding(cases: &mut Cases) {
    head(cases, clusters_of_eight(14), 1);
    head(cases, clusters_of_eight(15), 2);
}

/// "a multiple of S", not of B alone.
fn disc_size_in_sectors(cases: &mut Cases) {
    let record = DiscRecord {
        disc_size: 1_024 + 512,
        ..clusters_of_eight(1)
    };
    head(cases, record, 2);
}

/// "disc_size ... at most (nzones*Z - 480)*B": the largest that the other ranges
/// allow is (254*2079 - 480)*4096 bytes, with 129 ids in each zone.
fn disc_size_above_two_to_the_31(cases: &mut Cases) {
    let whole = (254 * 2_079 - 480) * 4_096;
    for (disc_size, number) in [(whole, 1), (whole + 1_024, 2)] {
        let record = DiscRecord {
            log2secsize: 10,
            idlen: 15,
            log2bpmb: 12,
            nzones: 254,
            zone_spare: 8_192 - 2_079,
            disc_size,
            ..plain(1)
        };
        head(cases, record, number);
    }
}

/// "Every disc bit from disc_size div B onward is owned by 1": map bits of
/// 4,096 bytes, and a disc that ends 256 bytes into one of them.
fn disc_ends_in_a_map_bit(cases: &mut Cases) {
    let record = DiscRecord {
        log2bpmb: 12,
        zone_spare: 35,
        disc_size: 1_400 * 4_096 + 256,
        ..plain(1)
    };
    let map = build(&record, &[vec![object(2, 12), free(1_388), object(1, 133)]]);
    cases.check(&map).done();
    let first = 1_400 * 4_096 - 100;
    cases.sweep_free(&map, first, 356).answers(&[100]);
    cases.sweep_free(&map, first, 357).gives(16);
    cases.place(&map, 4, &[1_388, 12]).done();
    cases.place(&map, 4, &[1_388, 13]).gives(13);
    cases.place(&map, 4, &[1_521, 12]).gives(13);
    cases.place(&map, 4, &[1_522, 12]).gives(12);
    let free_past = vec![object(2, 12), free(1_389), object(1, 132)];
    cases.check(&build(&record, &[free_past])).gives(7);
    let owned_past = vec![object(2, 12), object(5, 1_389), object(1, 132)];
    cases.check(&build(&record, &[owned_past])).gives(7);
    let two_of_1 = vec![object(2, 12), free(1_300), object(1, 88), object(1, 133)];
    cases.check(&build(&record, &[two_of_1])).done();
}

/// Map A with another record, its zone check made right again.
fn a_with(cases: &mut Cases, record: DiscRecord) {
    let mut map = map_a();
    record.write(&mut map);
    repair_zone_checks(&mut map, 256);
    cases.check(&map).gives(2);
}

/// "record outside its ranges": each rule broken alone on a map of the right
/// length.
#[rustfmt::skip]
fn each_rule_broken_alone(cases: &mut Cases) {
    let small = DiscRecord { disc_size: 256, ..plain(1) };
    a_with(cases, DiscRecord { log2secsize: 7, ..small });
    a_with(cases, DiscRecord { log2secsize: 11, idlen: 14, disc_size: 2_048, ..small });
    a_with(cases, DiscRecord { idlen: 10, ..small });
    a_with(cases, DiscRecord { idlen: 16, ..small });
    a_with(cases, DiscRecord { log2bpmb: 6, ..small });
    a_with(cases, DiscRecord { log2bpmb: 13, ..small });
    a_with(cases, DiscRecord { nzones: 0, ..small });
    a_with(cases, DiscRecord { zone_spare: 31, ..small });
    a_with(cases, DiscRecord { zone_spare: 33, log2bpmb: 7, ..small });
    a_with(cases, DiscRecord { zone_spare: 2_048 - 491, ..small });
    a_with(cases, DiscRecord { zone_spare: 65_535, ..small });
}

/// "disc_size above 0, a multiple of S, and at most (nzones*Z - 480)*B", in the
/// same way.
fn disc_size_rules_broken_alone(cases: &mut Cases) {
    for disc_size in [0, 1_572_864 - 255, 1_572_864 + 256, u32::MAX - 255] {
        let record = DiscRecord {
            disc_size,
            ..plain(1)
        };
        a_with(cases, record);
    }
}

/// "Other fields are carried and not judged": all ones in them, and an edit
/// that leaves them.
fn carried_fields(cases: &mut Cases) {
    let map = with_ones_outside(map_a());
    cases.place(&map, 5, &[12, 20]).done();
}
