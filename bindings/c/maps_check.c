/* Every call on maps once, each status that is not want of memory, and sharing. It prints what is wrong, and ends with 1 then. */
#include "pam.h"

#include <stdio.h>
#include <string.h>

static int wrong = 0;

#define CHECK(test)                                              \
    do {                                                         \
        if (!(test)) {                                           \
            printf("%s:%d: %s\n", __FILE__, __LINE__, #test);    \
            wrong = 1;                                           \
        }                                                        \
    } while (0)

static int is_map(pam_map *map, size_t n, const uint64_t *keys, const uint64_t *vals) {
    uint64_t found_keys[16], found_vals[16];
    size_t count = 0;
    if (pam_map_fill(map, 0, found_keys, 16, found_vals, 16, &count) != PAM_OK) {
        return 0;
    }
    return count == n && memcmp(found_keys, keys, n * sizeof *keys) == 0 && memcmp(found_vals, vals, n * sizeof *vals) == 0;
}

static void check_points(void) {
    pam_map map = {0};
    uint64_t val = 7, len = 7;
    CHECK(pam_map_get(&map, 1, &val) == PAM_BAD_CALL && val == 7);
    CHECK(pam_map_new(&map) == PAM_OK);
    CHECK(pam_map_new(&map) == PAM_BAD_CALL);
    CHECK(pam_map_put(&map, 1, 10) == PAM_OK);
    CHECK(pam_map_put(&map, 2, 20) == PAM_OK);
    CHECK(pam_map_get(&map, 1, &val) == PAM_OK && val == 10);
    CHECK(pam_map_get(&map, 3, &val) == PAM_NOT_THERE && val == 10);
    CHECK(pam_map_len(&map, &len) == PAM_OK && len == 2);
    CHECK(pam_map_del(&map, 3) == PAM_NOT_THERE);
    CHECK(pam_map_del(&map, 1) == PAM_OK);
    CHECK(pam_map_len(&map, &len) == PAM_OK && len == 1);
    CHECK(pam_map_free(&map) == PAM_OK);
    CHECK(pam_map_free(&map) == PAM_OK);
    CHECK(pam_map_put(&map, 1, 1) == PAM_BAD_CALL);
    CHECK(pam_map_put(NULL, 1, 1) == PAM_BAD_CALL);
    CHECK(pam_map_get(&map, 1, NULL) == PAM_BAD_CALL);
}

static const uint64_t KEYS[] = {5, 1, 3, 5};
static const uint64_t VALS[] = {99, 10, 30, 50};

static void check_questions(void) {
    pam_map map = {0};
    uint64_t sum = 7, greatest = 7, key = 7, val = 7, rank = 7;
    CHECK(pam_map_build(&map, KEYS, 4, VALS, 3) == PAM_BAD_CALL);
    CHECK(pam_map_build(&map, KEYS, 4, VALS, 4) == PAM_OK);
    CHECK(pam_map_build(&map, KEYS, 4, VALS, 4) == PAM_BAD_CALL);
    CHECK(pam_map_fold(&map, &sum, &greatest) == PAM_OK && sum == 90 && greatest == 50);
    CHECK(pam_map_fold_range(&map, 2, 5, &sum, &greatest) == PAM_OK && sum == 80 && greatest == 50);
    CHECK(pam_map_fold_range(&map, 6, 9, &sum, &greatest) == PAM_OK && sum == 0 && greatest == 0);
    CHECK(pam_map_least(&map, &val) == PAM_OK && val == 10 && pam_map_least_range(&map, 2, 5, &val) == PAM_OK && val == 30);
    CHECK(pam_map_least_range(&map, 6, 9, &val) == PAM_NOT_THERE && pam_map_least_range(&map, 5, 1, &val) == PAM_NOT_THERE && val == 30);
    CHECK(pam_map_count(&map, 1, 4, &rank) == PAM_OK && rank == 2 && pam_map_count(&map, 5, 1, &rank) == PAM_OK && rank == 0);
    CHECK(pam_map_rank(&map, 4, &rank) == PAM_OK && rank == 2);
    CHECK(pam_map_select(&map, 1, &key, &val) == PAM_OK && key == 3 && val == 30);
    CHECK(pam_map_select(&map, 3, &key, &val) == PAM_NOT_THERE && key == 3 && val == 30);
    CHECK(pam_map_next(&map, 3, &key, &val) == PAM_OK && key == 5 && val == 50);
    CHECK(pam_map_next(&map, 5, &key, &val) == PAM_NOT_THERE);
    CHECK(pam_map_prev(&map, 3, &key, &val) == PAM_OK && key == 1 && val == 10);
    CHECK(pam_map_prev(&map, 1, &key, &val) == PAM_NOT_THERE);
    CHECK(pam_map_first(&map, &key, &val) == PAM_OK && key == 1 && val == 10);
    CHECK(pam_map_last(&map, &key, &val) == PAM_OK && key == 5 && val == 50);
    CHECK(pam_map_free(&map) == PAM_OK);
}

static void check_two_maps(void) {
    pam_map a = {0}, b = {0}, out = {0}, from = {0};
    const uint64_t a_keys[] = {1, 2}, a_vals[] = {10, 20}, b_keys[] = {2, 3}, b_vals[] = {5, 6};
    const uint64_t both[] = {1, 2, 3}, first[] = {10, 20, 6}, second[] = {10, 5, 6}, added[] = {10, 25, 6};
    const uint64_t two[] = {2}, five[] = {5}, one[] = {1}, ten[] = {10}, twenty[] = {20};
    CHECK(pam_map_build(&a, a_keys, 2, a_vals, 2) == PAM_OK && pam_map_build(&b, b_keys, 2, b_vals, 2) == PAM_OK);
    CHECK(pam_map_union(&a, &b, PAM_FIRST, &out) == PAM_OK && is_map(&out, 3, both, first));
    CHECK(pam_map_union(&a, &b, PAM_FIRST, &out) == PAM_BAD_CALL && pam_map_free(&out) == PAM_OK);
    CHECK(pam_map_union(&a, &b, PAM_SECOND, &out) == PAM_OK && is_map(&out, 3, both, second) && pam_map_free(&out) == PAM_OK);
    CHECK(pam_map_union(&a, &b, PAM_SUM, &out) == PAM_OK && is_map(&out, 3, both, added) && pam_map_free(&out) == PAM_OK);
    CHECK(pam_map_union(&a, &b, PAM_MAX, &out) == PAM_OK && is_map(&out, 3, both, first) && pam_map_free(&out) == PAM_OK);
    CHECK(pam_map_union(&a, &b, 4, &out) == PAM_BAD_CALL && pam_map_union(&a, &from, 0, &out) == PAM_BAD_CALL);
    CHECK(pam_map_union(&a, &a, PAM_SUM, &a) == PAM_BAD_CALL);
    CHECK(pam_map_union(&b, &b, PAM_SUM, &out) == PAM_OK && is_map(&b, 2, b_keys, b_vals) && pam_map_free(&out) == PAM_OK);
    CHECK(pam_map_intersection(&a, &b, PAM_SECOND, &out) == PAM_OK && is_map(&out, 1, two, five) && pam_map_free(&out) == PAM_OK);
    CHECK(pam_map_difference(&a, &b, &out) == PAM_OK && is_map(&out, 1, one, ten) && pam_map_free(&out) == PAM_OK);
    CHECK(pam_map_split(&a, 2, &out, &from) == PAM_OK && is_map(&out, 1, one, ten) && is_map(&from, 1, two, twenty));
    CHECK(pam_map_free(&out) == PAM_OK && pam_map_free(&from) == PAM_OK);
    CHECK(pam_map_range(&a, 2, 9, &out) == PAM_OK && is_map(&out, 1, two, twenty) && pam_map_free(&out) == PAM_OK);
    CHECK(pam_map_share(&a, &out) == PAM_OK && pam_map_put(&out, 1, 11) == PAM_OK && is_map(&a, 2, a_keys, a_vals));
    CHECK(pam_map_free(&out) == PAM_OK && pam_map_free(&a) == PAM_OK && pam_map_free(&b) == PAM_OK);
}

static void check_arrays(void) {
    pam_map map = {0};
    uint64_t keys[2] = {7, 7}, vals[2] = {7, 7};
    uint8_t present[2] = {7, 7};
    size_t count = 7;
    const uint64_t asked[] = {5, 4}, three[] = {3}, thirty[] = {30};
    CHECK(pam_map_new(&map) == PAM_OK);
    CHECK(pam_map_put_many(&map, KEYS, 4, VALS, 4) == PAM_OK);
    CHECK(pam_map_put_many(&map, KEYS, 4, VALS, 3) == PAM_BAD_CALL && pam_map_put_many(&map, NULL, 0, NULL, 0) == PAM_OK);
    CHECK(pam_map_get_many(&map, asked, 2, vals, 2, present, 2) == PAM_OK);
    CHECK(vals[0] == 50 && present[0] == 1 && vals[1] == 0 && present[1] == 0);
    CHECK(pam_map_fill(&map, 2, keys, 2, vals, 1, &count) == PAM_BAD_CALL && count == 7);
    CHECK(pam_map_fill(&map, 2, keys, 2, vals, 2, &count) == PAM_OK && count == 2 && keys[0] == 3 && vals[1] == 50);
    CHECK(pam_map_fill(&map, 4, keys, 2, vals, 2, &count) == PAM_OK && count == 1 && keys[0] == 5 && keys[1] == 5);
    const uint64_t gone[] = {1, 5, 9};
    CHECK(pam_map_del_many(&map, gone, 3) == PAM_OK && is_map(&map, 1, three, thirty));
    CHECK(pam_map_free(&map) == PAM_OK);
}

static void check_signed_keys(void) {
    static const int64_t NUMBERS[] = {INT64_MIN, -5, -1, 0, 1, INT64_MAX};
    pam_map map = {0};
    uint64_t sum = 7, greatest = 7, key = 7, val = 7;
    CHECK(pam_key_of_signed(INT64_MIN) == 0 && pam_key_of_signed(INT64_MAX) == UINT64_MAX && pam_map_new(&map) == PAM_OK);
    for (size_t i = 0; i < 6; i++) {
        CHECK(pam_signed_of_key(pam_key_of_signed(NUMBERS[i])) == NUMBERS[i]);
        CHECK(i == 0 || pam_key_of_signed(NUMBERS[i - 1]) < pam_key_of_signed(NUMBERS[i]));
        CHECK(pam_map_put(&map, pam_key_of_signed(NUMBERS[i]), i) == PAM_OK);
    }
    CHECK(pam_map_fold_range(&map, pam_key_of_signed(-5), pam_key_of_signed(0), &sum, &greatest) == PAM_OK && sum == 6);
    CHECK(pam_map_prev(&map, pam_key_of_signed(-1), &key, &val) == PAM_OK && pam_signed_of_key(key) == -5 && val == 1);
    CHECK(pam_map_free(&map) == PAM_OK);
}

static const uint8_t ROW[] = "foobarfoo";
static const size_t ENDS[] = {3, 3, 6, 9};

static uint8_t put_text(pam_text_map *map, const char *key, uint64_t val) {
    return pam_text_map_put(map, (const uint8_t *)key, strlen(key), val);
}

static void check_texts(void) {
    pam_text_map map = {0}, out = {0};
    uint8_t key[4] = "----", keys[8];
    uint64_t val = 7, sum = 7, greatest = 7, vals[3];
    size_t len = 7, ends[3], count = 7;
    CHECK(put_text(&map, "a", 1) == PAM_BAD_CALL && pam_text_map_new(NULL) == PAM_BAD_CALL);
    CHECK(pam_text_map_new(&map) == PAM_OK && pam_text_map_new(&map) == PAM_BAD_CALL);
    CHECK(pam_text_map_put_many(&map, ROW, 9, ENDS, 4, VALS, 3) == PAM_BAD_CALL && pam_text_map_put_many(&map, ROW, 8, ENDS, 4, VALS, 4) == PAM_BAD_CALL);
    CHECK(pam_text_map_put_many(&map, ROW, 9, ENDS, 4, VALS, 4) == PAM_OK && pam_text_map_put_many(&map, NULL, 0, NULL, 0, NULL, 0) == PAM_OK);
    CHECK(pam_text_map_len(&map, &val) == PAM_OK && val == 3);
    CHECK(pam_text_map_get(&map, NULL, 0, &val) == PAM_OK && val == 10);
    CHECK(pam_text_map_get(&map, ROW, 2, &val) == PAM_NOT_THERE && val == 10 && pam_text_map_get(&map, NULL, 1, &val) == PAM_BAD_CALL);
    CHECK(pam_text_map_contains(&map, ROW, 3) == PAM_OK && pam_text_map_contains(&map, ROW, 4) == PAM_NOT_THERE);
    CHECK(pam_text_map_fold_range(&map, NULL, 0, ROW + 3, 3, &sum, &greatest) == PAM_OK && sum == 40 && greatest == 30);
    CHECK(pam_text_map_rank(&map, ROW, 1, &val) == PAM_OK && val == 2);
    CHECK(pam_text_map_next(&map, ROW + 3, 3, key, 2, &len, &val) == PAM_NO_ROOM && len == 3 && val == 2 && key[0] == '-');
    CHECK(pam_text_map_next(&map, ROW + 3, 3, key, 4, &len, &val) == PAM_OK && val == 50 && memcmp(key, "foo-", 4) == 0);
    CHECK(pam_text_map_prev(&map, ROW + 3, 3, NULL, 0, &len, &val) == PAM_OK && len == 0 && val == 10);
    CHECK(pam_text_map_prev(&map, NULL, 0, key, 4, &len, &val) == PAM_NOT_THERE);
    CHECK(pam_text_map_last(&map, key, 4, &len, &val) == PAM_OK && len == 3 && val == 50);
    CHECK(pam_text_map_fill(&map, NULL, 0, keys, 5, ends, 3, vals, 3, &count) == PAM_OK && count == 2 && ends[0] == 0 && ends[1] == 3 && vals[1] == 30);
    CHECK(pam_text_map_fill(&map, ROW, 3, keys, 2, ends, 3, vals, 3, &count) == PAM_NO_ROOM && count == 3);
    CHECK(pam_text_map_fill(&map, ROW, 3, keys, 8, ends, 3, vals, 2, &count) == PAM_BAD_CALL && count == 3);
    CHECK(pam_text_map_union(&map, &map, PAM_SUM, &out) == PAM_OK && pam_text_map_fold(&out, &sum, &greatest) == PAM_OK && sum == 180);
    CHECK(pam_text_map_del(&out, ROW, 3) == PAM_OK && pam_text_map_del(&out, ROW, 3) == PAM_NOT_THERE);
    CHECK(pam_text_map_free(&out) == PAM_OK && pam_text_map_free(&map) == PAM_OK && pam_text_map_free(&map) == PAM_OK);
}

int main(void) {
    check_points();
    check_questions();
    check_two_maps();
    check_arrays();
    check_signed_keys();
    check_texts();
    puts(wrong ? "wrong" : "all maps' calls as they should be");
    return wrong;
}
