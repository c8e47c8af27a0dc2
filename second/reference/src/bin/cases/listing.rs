//! Document 01, "The calls": lists of an object's pieces and of free spans.

use reference::generate::{build, map_b};

use crate::calls::{groups, Cases};
use crate::maps::*;

groups![
    object_order,
    object_2_order,
    object_order_without_cluster_rounding,
    touching_pieces,
    id_arguments,
    room,
];

/// "the start zone is id div P ...; take all its fragments in ascending order,
/// then later zones, then from zone 0": start zones 3, 2 and 0 of four.
fn object_order(cases: &mut Cases) {
    let map = four_zones();
    let of_600 = [5_629, 32, 5_694, 34, 0, 20, 1_611, 27, 3_592, 29];
    cases.list(&map, 600, 10).pairs(&of_600);
    let of_400 = [3_564, 28, 20, 21, 1_585, 26];
    cases.list(&map, 400, 6).pairs(&of_400);
    cases.list(&map, 1, 4).pairs(&[86, 36, 5_598, 31]);
}

/// "for object 2, nzones div 2", and not 2 div P.
fn object_2_order(cases: &mut Cases) {
    let of_2 = [3_552, 12, 5_568, 30, 1_638, 35];
    cases.list(&four_zones(), 2, 7).pairs(&of_2);
}

/// "P (ids per zone) = Z div (idlen+1), without that rounding": with 582 ids a
/// zone 581 starts in zone 0 and 582 in zone 1, with 510 both would in zone 1.
fn object_order_without_cluster_rounding(cases: &mut Cases) {
    let zones = [
        vec![object(581, 16), object(582, 16), free(7_648)],
        vec![object(2, 16), object(581, 16), object(582, 16), free(8_112)],
    ];
    let map = build(&clusters_of_eight(2), &zones);
    let second = 8_160 - 480;
    cases.list(&map, 581, 4).pairs(&[0, 16, second + 16, 16]);
    cases.list(&map, 582, 4).pairs(&[second + 32, 16, 16, 16]);
}

/// "one pair for each of its fragments, even where two touch", also at the
/// border of two zones.
fn touching_pieces(cases: &mut Cases) {
    let zones = [
        vec![free(1_500), object(5, 36)],
        vec![object(2, 12), free(1_980), object(5, 12), object(5, 12)],
        vec![object(5, 40), object(5, 20), free(1_956)],
    ];
    let map = build(&plain(3), &zones);
    let pieces = [1_500, 36, 3_528, 12, 3_540, 12, 3_552, 40, 3_592, 20];
    cases.list(&map, 5, 10).pairs(&pieces);
}

/// "id argument outside 1 (list, start zone) to P*nzones-1": 5 is there, and no
/// number that is 5 in fewer bits.
fn id_arguments(cases: &mut Cases) {
    let map = map_b();
    cases.list(&map, 1, 4).gives(10);
    for id in [0, 5 + 65_536, u32::MAX] {
        cases.list(&map, id, 4).gives(8);
    }
}

/// "Entries past the last pair are untouched", "too few entries for the
/// pairs": an odd number of them, and none at all for no pair.
fn room(cases: &mut Cases) {
    cases.list(&map_b(), 5, 3).pairs(&[12, 20]);
    let map = two_holes();
    cases.free(&map, 3).gives(17);
    cases.free(&map, 5).pairs(&[12, 100, 132, 50]);
    cases.free(&nothing_free(), 1).pairs(&[]);
}
