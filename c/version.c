/* A caller whose header is of another version than the archive: every call is turned away before it. In the archive's place stand a version
 * of its own and functions that must not be reached. */
#include "../include/juplatsk.h"

#include <stdio.h>
#include <stdlib.h>

static uint32_t archive_version;

uint32_t juplatsk_version(void)
{
    return archive_version;
}

uint32_t juplatsk_root(double x, double root[1])
{
    root[0] = x;
    return JP_ACCEPTED;
}

uint32_t juplatsk_solve_counts(const uint16_t *regions, size_t regions_len, const double *ideals, size_t ideals_len, uint32_t *counts,
                               size_t counts_len, bool stated, uint32_t limit, uint32_t answer[3])
{
    (void)regions, (void)regions_len, (void)ideals, (void)ideals_len, (void)counts, (void)counts_len, (void)stated, (void)limit;
    (void)answer;
    abort();
}

static void with_version(uint32_t version)
{
    const double ideals[1] = {3};
    uint32_t counts[1] = {9};
    uint32_t answer[3] = {5, 5, 5};
    double root[1] = {7};
    archive_version = version;
    printf("version %u: fits %d,", version, jp_version_fits());
    printf(" root %u", jp_root(2, root));
    printf(" (%g)", root[0]);
    if (!jp_version_fits()) {
        printf(", solve %u", jp_solve_counts(NULL, 0, ideals, 1, counts, 1, jp_limit_default(), answer));
        printf(" (%u, %u %u %u)", counts[0], answer[0], answer[1], answer[2]);
    }
    printf("\n");
}

int main(void)
{
    with_version(JP_VERSION);
    with_version(JP_VERSION + 1);
    with_version(JP_VERSION - 100);
    with_version(JP_VERSION + 100);
    with_version(JP_VERSION + 10000);
    printf("%s\n", jp_refusal_text(JP_BAD_VERSION));
    return 0;
}
