/* One operation of pam.h on so many random pairs: border OPERATION SIZE SEED. Nanoseconds go to standard error, a checksum to
   standard output. main.rs and border.py do the same. */
#include <inttypes.h>
#include <stdio.h>
#include <stdlib.h>
#include <string.h>
#include <time.h>

#include "pam.h"

static uint64_t state, size, *keys, *vals, *more, checksum;
static struct timespec begun;

static uint64_t number(void)
{
    uint64_t z = state += 0x9e3779b97f4a7c15;
    z = (z ^ z >> 30) * 0xbf58476d1ce4e5b9;
    z = (z ^ z >> 27) * 0x94d049bb133111eb;
    return z ^ z >> 31;
}

static void must(uint8_t status)
{
    if (status != PAM_OK) {
        fprintf(stderr, "status %u\n", status);
        exit(1);
    }
}

static void start(void) { clock_gettime(CLOCK_MONOTONIC, &begun); }

static void stop(void)
{
    struct timespec now;
    clock_gettime(CLOCK_MONOTONIC, &now);
    fprintf(stderr, "%" PRId64 "\n", (now.tv_sec - begun.tv_sec) * 1000000000 + now.tv_nsec - begun.tv_nsec);
}

static pam_map built(uint64_t from, uint64_t count)
{
    pam_map m = {0};
    must(pam_map_build(&m, keys + from, count, vals + from, count));
    return m;
}

static void put(void)
{
    pam_map m = {0};
    must(pam_map_new(&m));
    start();
    for (uint64_t i = 0; i < size; i++)
        must(pam_map_put(&m, keys[i], vals[i]));
    stop();
    must(pam_map_len(&m, &checksum));
}

static void get(void)
{
    pam_map m = built(0, size);
    uint64_t val;
    start();
    for (uint64_t i = 0; i < size; i++) {
        must(pam_map_get(&m, keys[i], &val));
        checksum += val;
    }
    stop();
}

static void build(void)
{
    start();
    pam_map m = built(0, size);
    stop();
    must(pam_map_len(&m, &checksum));
}

static void put_many(void)
{
    pam_map m = built(0, size / 2);
    start();
    must(pam_map_put_many(&m, keys + size / 2, size / 2, vals + size / 2, size / 2));
    stop();
    must(pam_map_len(&m, &checksum));
}

static void get_many(void)
{
    pam_map m = built(0, size);
    uint8_t *present = calloc(size, 1);
    start();
    must(pam_map_get_many(&m, keys, size, more, size, present, size));
    stop();
    for (uint64_t i = 0; i < size; i++)
        checksum += more[i] * present[i];
}

/* Sums of so many ranges, each of a part of all keys. */
static void sums_of(uint64_t count, uint64_t wide)
{
    pam_map m = built(0, size);
    uint64_t sum, greatest;
    start();
    for (uint64_t i = 0; i < count; i++) {
        uint64_t lo = keys[i % size], hi = lo > UINT64_MAX - wide ? UINT64_MAX : lo + wide;
        must(pam_map_fold_range(&m, lo, hi, &sum, &greatest));
        checksum += sum;
    }
    stop();
}

static void sums(void)
{
    sums_of(100000, UINT64_MAX / size * 100);
}

static void wide_sums(void)
{
    sums_of(100, UINT64_MAX / 2);
}

static void unite(void)
{
    pam_map a = built(0, size / 2), b = built(size / 2, size / 2), both = {0};
    uint64_t greatest;
    start();
    must(pam_map_union(&a, &b, PAM_SECOND, &both));
    stop();
    must(pam_map_fold(&both, &checksum, &greatest));
}

static void walk(void)
{
    pam_map m = built(0, size);
    uint64_t from = 0;
    size_t count;
    start();
    do {
        must(pam_map_fill(&m, from, more, 1024, vals, 1024, &count));
        for (size_t i = 0; i < count; i++)
            checksum += more[i] ^ vals[i];
        from = count ? more[count - 1] + 1 : 0;
    } while (count == 1024);
    stop();
}

/* Rising keys with small gaps and small values, as bytes and back; or those of the other operations. */
static void bytes(int rising, int back)
{
    for (uint64_t i = 0; rising && i < size; i++) {
        keys[i] = 10 * i + number() % 10;
        vals[i] %= 128;
    }
    pam_map m = built(0, size), again = {0};
    size_t needed;
    uint8_t *out = malloc(size * 20 + 64);
    if (!back)
        start();
    must(pam_map_bytes(&m, out, size * 20 + 64, &needed));
    if (back) {
        start();
        must(pam_map_from_bytes(&again, out, needed));
    }
    stop();
    checksum = needed;
}

int main(int count, char **words)
{
    if (count != 4)
        return 2;
    size = strtoull(words[2], NULL, 10);
    state = strtoull(words[3], NULL, 10);
    keys = malloc(size * 8);
    vals = malloc(size * 8);
    more = malloc(size * 8);
    for (uint64_t i = 0; i < size; i++) {
        keys[i] = number();
        vals[i] = number() >> 44;
    }
    const struct {
        const char *name;
        void (*call)(void);
    } operations[] = {{"put", put}, {"get", get}, {"build", build}, {"put_many", put_many},
                      {"get_many", get_many}, {"sums", sums}, {"wide_sums", wide_sums}, {"union", unite}, {"walk", walk}};
    for (size_t i = 0; i < sizeof operations / sizeof *operations; i++)
        if (!strcmp(words[1], operations[i].name))
            operations[i].call();
    if (!strncmp(words[1], "bytes", 5))
        bytes(strstr(words[1], "rising") != NULL, strstr(words[1], "back") != NULL);
    printf("%" PRIu64 "\n", checksum);
    return 0;
}
