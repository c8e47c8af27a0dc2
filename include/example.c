#include <stdio.h>
#include "shoalswift.h"

int main(void) {
    static uint8_t map[20971 * 1024 + 1]; /* the longest map and a byte, so that a longer file is refused */
    uint32_t sector, unit, zones, ids, zone, list[2 * 512];
    uint64_t disc_size, pairs;
    size_t length = fread(map, 1, sizeof map, stdin);
    uint32_t refusal = shoalswift_geometry(map, length, &sector, &unit, &zones, &ids, &disc_size, &zone);
    if (refusal == 0) refusal = shoalswift_list(map, length, 5, list, 2 * 512, &pairs, &zone);
    if (refusal != 0) return printf("refusal %u, zone %u\n", refusal, zone), 1;
    for (uint64_t i = 0; i < pairs; i++)
        printf("object 5: %u bytes from %llu\n", list[2 * i + 1] * unit, (unsigned long long)list[2 * i] * unit);
    return 0;
}
