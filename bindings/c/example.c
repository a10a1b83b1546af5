/* Sales by minute: build a map, keep it as it is by a snapshot, change it, sum a range, unite two maps. */
#include <inttypes.h>
#include <stdio.h>
#include <stdlib.h>

#include "pam.h"

static void must(uint8_t status, const char *what)
{
    if (status != PAM_OK) {
        fprintf(stderr, "%s: status %u\n", what, status);
        exit(EXIT_FAILURE);
    }
}

static void tell(const char *name, pam_map *m, uint64_t lo, uint64_t hi)
{
    uint64_t len, sum, greatest;

    must(pam_map_len(m, &len), "len");
    must(pam_map_fold_range(m, lo, hi, &sum, &greatest), "fold_range");
    printf("%s: %" PRIu64 " entries; %" PRIu64 " to %" PRIu64 ": sum %" PRIu64 ", greatest %" PRIu64 "\n",
           name, len, lo, hi, sum, greatest);
}

int main(void)
{
    const uint64_t minutes[] = {540, 541, 545, 560}, sales[] = {12, 7, 30, 4};
    const uint64_t late_minutes[] = {545, 600}, late_sales[] = {5, 9};
    pam_map day = {0}, snapshot = {0}, late = {0}, both = {0};

    must(pam_map_build(&day, minutes, 4, sales, 4), "build");
    must(pam_map_share(&day, &snapshot), "share"); /* O(1): no entry is copied */

    must(pam_map_put(&day, 541, 100), "put");
    must(pam_map_del(&day, 560), "del");
    tell("day", &day, 540, 550);
    tell("snapshot", &snapshot, 540, 550);

    must(pam_map_build(&late, late_minutes, 2, late_sales, 2), "build");
    must(pam_map_union(&day, &late, PAM_SUM, &both), "union");
    tell("both", &both, 540, 600);

    uint64_t keys[8], vals[8];
    size_t count;
    must(pam_map_fill(&both, 0, keys, 8, vals, 8, &count), "fill");
    for (size_t i = 0; i < count; i++)
        printf("%" PRIu64 " %" PRIu64 "\n", keys[i], vals[i]);

    pam_map_free(&both);
    pam_map_free(&late);
    pam_map_free(&snapshot);
    pam_map_free(&day);
    return 0;
}
