/* Shoalswift: maps of discs in Acorn's E and E+ formats.
 *
 * Every function answers a refusal number, 0 where the call is accepted. *zone is always written: the zone told, or 0. Every other
 * number handed in by pointer is always written too, 0 where the call is refused (*equal of choose_copy is told even then). A refused
 * call changes no byte of map, image or list. No function keeps a pointer, allocates, or has state; calls on different maps may run
 * at the same time. No function writes more than one map.
 *
 * What a caller owes: each pointer with a length is valid for that many elements (it may be any non-null, aligned pointer where the
 * length is 0), each pointer to a number is valid, and nothing that is written overlaps anything else that is handed in. There
 * is nothing else to test beforehand: any bytes and any numbers may be handed in.
 *
 * A map is the blocks of all zones, zone 0 first. Lists are pairs of 32-bit numbers: disc bit, length in map bits; that of mend_positions has one number for each.
 *
 *  1  map shorter than 64 bytes, or not nzones*S;        10  id not on the map
 *     copy_over, format: another length                  11  id already on the map (place)
 *  2  record outside its ranges, or bytes of the map     12  list empty, odd, out of object order, overlapping, across zones, off
 *     not 0 that have to be (36 to 63; E+: 40 to 43);        the map, not in clusters or too short; claim of 0 bytes, or
 *     format: no map can be drawn for such a disc            with a parent zone that is not on the disc
 *  3  a zone check differs
 *  4  cross checks don't give 255                        13  a listed bit isn't free, or a leftover of 1 to m-1 free bits
 *  5  FreeLink's top bit clear, or a link that lands     14  claim: no unused id (cannot arise)
 *     on no fragment start                               15  claim: all free bits are fewer than needed
 *  6  a fragment without room, closing bit or whole      16  start offset plus position past the object; stretch past the disc
 *     clusters                                           17  too few entries for the pairs or positions
 *  7  id, object 2 or disc-end rule broken
 *  8  id or internal number outside its range;
 *     address: any number on an E+ disc
 *  9  edits: two free fragments of a zone touch          3, 5, 6, 7 and 9 tell the lowest such zone, all others zone 0.
 *
 * The stack that a call needs on x86-64, in bytes below its caller's frame: what `make stack` measures on maps with the most
 * fragments and on generated ones, rounded up. `make stack` fails where a call needs more than stands here. In a program that binds
 * its functions lazily, the first call that comes to memset needs 4096 more, for the dynamic linker.
 *
 *  shoalswift_check            1024
 *  shoalswift_geometry         1024
 *  shoalswift_list             1536
 *  shoalswift_free             1024
 *  shoalswift_address          1024
 *  shoalswift_sweep_object     1024
 *  shoalswift_sweep_free       1024
 *  shoalswift_release         20480
 *  shoalswift_place           20480
 *  shoalswift_claim           20480
 *  shoalswift_choose_copy      1024
 *  shoalswift_copy_over        1024
 *  shoalswift_copy_addresses   1024
 *  shoalswift_mend            12288
 *  shoalswift_mend_positions  12288
 *  shoalswift_format           1024
 *  shoalswift_format_length    1024
 */
#ifndef SHOALSWIFT_H
#define SHOALSWIFT_H

#include <stddef.h>
#include <stdint.h>

/* A new major number: callers have to change. A new minor number: there is more to call. */
#define SHOALSWIFT_VERSION_MAJOR 3
#define SHOALSWIFT_VERSION_MINOR 2
#define SHOALSWIFT_VERSION_PATCH 0
#define SHOALSWIFT_VERSION "3.2.0"

#ifdef __cplusplus
extern "C" {
#endif

/* Checks a map: 1 to 7. */
uint32_t shoalswift_check(const uint8_t *map, size_t map_len, uint32_t *zone);

/* Checks a map and tells its geometry: the bytes of a sector, which are those of a zone's block; the bytes of disc behind a map bit;
 * the zones; the ids per zone, every id being below *ids * *zones; the bytes of the disc. 1 to 7. */
uint32_t shoalswift_geometry(const uint8_t *map, size_t map_len, uint32_t *sector, uint32_t *unit, uint32_t *zones, uint32_t *ids,
                             uint64_t *disc_size, uint32_t *zone);

/* Writes an object's pieces in object order, a pair for each fragment; *pairs is their number. Further: 8, 10, 17. */
uint32_t shoalswift_list(const uint8_t *map, size_t map_len, uint32_t id, uint32_t *list, size_t list_len, uint64_t *pairs,
                         uint32_t *zone);

/* Writes the free spans, ascending, a pair for each free fragment; *pairs is their number. Further: 17. */
uint32_t shoalswift_free(const uint8_t *map, size_t map_len, uint32_t *list, size_t list_len, uint64_t *pairs, uint32_t *zone);

/* Where a byte of the file with internal number n lies: *address is its disc address, and *run is how many bytes follow at consecutive
 * disc addresses in the same piece, the asked one included. At position + *run is the first byte of the object's next piece, even of one
 * that touches; at the object's end that is refused with 16. Further: 8, on an E+ disc whatever n is; 10, 16. */
uint32_t shoalswift_address(const uint8_t *map, size_t map_len, uint32_t n, uint64_t position, uint64_t *address, uint64_t *run,
                            uint32_t *zone);

/* Writes the fill at each address of an object, or of free space, within a stretch of image that starts at disc address first;
 * *count is the number of these addresses. What lies outside the stretch is neither written nor counted. Further: 8 and 10 (object),
 * 16. */
uint32_t shoalswift_sweep_object(const uint8_t *map, size_t map_len, uint8_t *image, size_t image_len, uint64_t first, uint8_t fill,
                                 uint32_t id, uint64_t *count, uint32_t *zone);
uint32_t shoalswift_sweep_free(const uint8_t *map, size_t map_len, uint8_t *image, size_t image_len, uint64_t first, uint8_t fill,
                               uint64_t *count, uint32_t *zone);

/* Frees an ordinary object's fragments and writes its pieces in object order; *pairs is their number. Further: 8, 9, 10, 17. */
uint32_t shoalswift_release(uint8_t *map, size_t map_len, uint32_t id, uint32_t *list, size_t list_len, uint64_t *pairs,
                            uint32_t *zone);

/* Gives the listed pieces to an absent id. Further: 8, 9, 11, 12, 13. */
uint32_t shoalswift_place(uint8_t *map, size_t map_len, uint32_t id, const uint32_t *list, size_t list_len, uint32_t *zone);

/* Gives room for size bytes to an unused id, and writes the pieces given in object order, as shoalswift_list would; *pairs is their number.
 * One hole that is long enough is taken if there is one: zones are tried from the parent zone on (that one, the one below it, the one above it,
 * two below and so on), and in a zone the first such hole is taken. If there is none, holes are taken the largest first, of equal ones the lower
 * disc bit first: whole, while they are no longer than what remains to be found, and of the last one what remains. No piece is shorter than a
 * fragment may be, and where less than that would be left of a hole all of it is taken, so that the pieces may have some bits more than size
 * asks for. The id is the lowest unused one whose start zone is the zone of the first hole taken, or if that has none left the lowest unused
 * one. Further: 9, 12 (0 bytes, or no such parent zone), 15, 17. */
uint32_t shoalswift_claim(uint8_t *map, size_t map_len, uint64_t size, uint32_t parent, uint32_t *list, size_t list_len, uint32_t *id,
                          uint64_t *pairs, uint32_t *zone);

/* A disc has its map twice. Chooses of two copies the one that is an accepted map: *which is 1 for the first if that is accepted, else 2
 * for the second if that is; else the first's refusal is answered and *which is 0. *equal is 1 where the copies are byte for byte equal
 * and else 0, whether or not they are accepted. 1 to 7. To bring an edited map to a disc, write the second copy first. If that is cut off,
 * this chooses the new map where the first copy is refused, the old one where the second is, and one of these where they are equal; two
 * accepted copies that are not equal may yield a map that is neither, as a half-written one may be accepted by chance. */
uint32_t shoalswift_choose_copy(const uint8_t *first, size_t first_len, const uint8_t *second, size_t second_len, uint32_t *which,
                                uint32_t *equal, uint32_t *zone);

/* Writes an accepted map over another copy, whatever that holds. The source's refusal, 1 to 7; then 1 where the lengths differ. */
uint32_t shoalswift_copy_over(const uint8_t *source, size_t source_len, uint8_t *target, size_t target_len, uint32_t *zone);

/* The disc addresses of an accepted map's two copies: *first is that of the middle zone's first map bit, *second lies straight after the
 * first copy's bytes. 1 to 7. */
uint32_t shoalswift_copy_addresses(const uint8_t *map, size_t map_len, uint64_t *first, uint64_t *second, uint32_t *zone);

/* Mends a map that is right but for zone checks, cross checks and free fragments that touch: joins the touching free fragments of each zone,
 * sets zone 0's cross check, and no other, so that all give 255, and sets every zone check. Who holds which bits stays as it is, and so does
 * every byte of a map that is in order. The map is then accepted, and no edit refuses it with 9. The refusal that shoalswift_check would
 * answer with 3 and 4 ignored: 1, 2, 5, 6 or 7. */
uint32_t shoalswift_mend(uint8_t *map, size_t map_len, uint32_t *zone);

/* Writes the positions in the map, from 0 on and ascending, of the bytes that shoalswift_mend would change, an entry for each; *count is their
 * number. As shoalswift_mend, further: 17. */
uint32_t shoalswift_mend_positions(const uint8_t *map, size_t map_len, uint32_t *list, size_t list_len, uint64_t *count, uint32_t *zone);

/* Writes the map of a blank disc, whatever the buffer holds. log2secsize is 8 to 10, idlen log2secsize + 3 to 15, and capacity the disc's
 * bytes, a multiple of the sector, up to 999 Mbytes (of 1,048,576 bytes). Bytes per map bit follow from the capacity: 256 up to 124 Mbytes, 512
 * up to 249, 1024 up to 499, 2048 up to 999; there are as few zones as cover it. Object 2 stands at the start of the middle zone, with room
 * for two copies of the map and for no root directory; what the map has past the disc's end is in object 1; all else is free. The map is then
 * accepted, and no edit refuses it with 9. 2 where there is no such disc, or none whose map can be drawn; then 1 where the buffer is not as
 * long as shoalswift_format_length tells. */
uint32_t shoalswift_format(uint32_t log2secsize, uint64_t capacity, uint32_t idlen, uint8_t *map, size_t map_len, uint32_t *zone);

/* The length in bytes of the map that shoalswift_format wants for such a disc. 2 where that would refuse it with 2. */
uint32_t shoalswift_format_length(uint32_t log2secsize, uint64_t capacity, uint32_t idlen, uint64_t *length, uint32_t *zone);

#ifdef __cplusplus
}
#endif

#endif
