//! Document 01, "Runs in demand 3": calls that cancel, each on the map as the
//! call before left it. A run that is undone last first gives every byte back.

use reference::generate::{build, map_b};

use crate::calls::{groups, Cases};
use crate::maps::*;

groups![
    release_then_place,
    place_then_release,
    claim_then_release,
    release_then_claim,
    undone_last_first,
    refused_calls_between,
    pieces_given_to_another,
    touching_pieces_come_back,
];

/// "the first is a release and the second, a place ..., gives the same pairs to
/// the same number": an object of three zones, and one of four whose start zone
/// is the last.
fn release_then_place(cases: &mut Cases) {
    let map = three_zones();
    let released = cases.release(&map, 7, 8).done();
    let pairs = pairs_of(&map, 7);
    assert_eq!(cases.place(&released, 7, &pairs).done(), map);
    let map = four_zones();
    let pairs = pairs_of(&map, 600);
    let released = cases.release(&map, 600, 10).pairs(&pairs);
    assert_eq!(cases.place(&released, 600, &pairs).done(), map);
}

/// "the second releases the number that the first placed".
fn place_then_release(cases: &mut Cases) {
    let map = four_zones();
    let list = [6_000, 100, 122, 12, 1_700, 30, 3_621, 1_947];
    let placed = cases.place(&map, 505, &list).done();
    assert_eq!(cases.release(&placed, 505, 8).pairs(&list), map);
}

/// "... or claimed": in zone 0, and in zone 1 once zone 0 has no hole left.
fn claim_then_release(cases: &mut Cases) {
    let map = four_zones();
    let size = 1_414 * 1_024;
    let claimed = cases.claim(&map, size, 0).claims(3, &[122, 1_414]);
    let second = cases.claim(&claimed, 1, 0).claims(168, &[1_673, 12]);
    assert_eq!(cases.release(&second, 168, 2).pairs(&[1_673, 12]), claimed);
    assert_eq!(cases.release(&claimed, 3, 2).pairs(&[122, 1_414]), map);
}

/// "the first is a release and the second ... a claim": the lowest id of zone 0, in
/// its first hole.
fn release_then_claim(cases: &mut Cases) {
    let zones = [
        vec![object(7, 20), object(3, 30), object(8, 1_486)],
        vec![object(2, 12), object(4, 40), free(1_964)],
    ];
    let map = build(&plain(2), &zones);
    let released = cases.release(&map, 3, 2).pairs(&[20, 30]);
    let claimed = cases.claim(&released, 30 * 1_024, 0).claims(3, &[20, 30]);
    assert_eq!(claimed, map);
}

/// "A run is undone last first": three calls and their undoing, over zones 0 to
/// 2.
fn undone_last_first(cases: &mut Cases) {
    let map = three_zones();
    let list = [100, 50, first(1) + 100, 60];
    let first_left = cases.place(&map, 9, &list).done();
    let second_left = cases.claim(&first_left, 300 * 512, 0).done();
    let pairs = pairs_of(&second_left, 7);
    let third_left = cases.release(&second_left, 7, 6).pairs(&pairs);
    let back = cases.place(&third_left, 7, &pairs).done();
    assert_eq!(back, second_left);
    let back = cases.release(&back, 3, 2).done();
    assert_eq!(back, first_left);
    assert_eq!(cases.release(&back, 9, 4).pairs(&list), map);
}

/// "with refused calls struck out": they write nothing.
fn refused_calls_between(cases: &mut Cases) {
    let map = map_b();
    let claimed = cases.claim(&map, 1, 0).claims(3, &[32, 12]);
    cases.place(&claimed, 4, &[32, 12]).gives(13);
    cases.release(&claimed, 3, 1).gives(17);
    assert_eq!(cases.release(&claimed, 3, 2).pairs(&[32, 12]), map);
}

/// "A place's list may hold pairs that an earlier call answered", for another
/// number: right for one of the same start zone only.
fn pieces_given_to_another(cases: &mut Cases) {
    let map = four_zones();
    let pairs = pairs_of(&map, 400);
    let released = cases.release(&map, 400, 6).pairs(&pairs);
    cases.place(&released, 401, &pairs).done();
    cases.place(&released, 4, &pairs).gives(12);
}

/// "gives the same pairs to the same number": pieces that touch, and pieces with
/// free bits between, come back as they were.
fn touching_pieces_come_back(cases: &mut Cases) {
    let zone = vec![
        object(2, 12),
        free(12),
        object(5, 20),
        object(5, 30),
        free(13),
        object(5, 40),
        free(1_409),
    ];
    let map = build(&plain(1), &[zone]);
    let pairs = [24, 20, 44, 30, 87, 40];
    let released = cases.release(&map, 5, 6).pairs(&pairs);
    assert_eq!(spans_of(&released), [12, 1_524]);
    assert_eq!(cases.place(&released, 5, &pairs).done(), map);
}
