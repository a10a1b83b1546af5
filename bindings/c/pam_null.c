/* The public names of pam.h: each tests for null and for one handle given twice, and calls the proved export.
 *
 * An export takes references, which are never null and never lie over another. This file is what makes them so for null pointers,
 * for a null array of length 0, and for one handle given twice; that lengths are true and that arrays lie apart is the caller's.
 * It is trusted: nothing here is proved.
 */
#include "pam.h"

static uint64_t no_numbers[1];
static uint8_t no_bytes[1];
static size_t no_sizes[1];

#define BAD(pointer) ((pointer) == NULL)
#define BAD_ARRAY(items, len) ((items) == NULL && (len) != 0)

uint8_t pam_x_map_new(pam_map *map);
uint8_t pam_x_map_free(pam_map *map);
uint8_t pam_x_map_share(pam_map *map, pam_map *out);
uint8_t pam_x_map_len(pam_map *map, uint64_t *len);
uint8_t pam_x_map_get(pam_map *map, uint64_t key, uint64_t *val);
uint8_t pam_x_map_put(pam_map *map, uint64_t key, uint64_t val);
uint8_t pam_x_map_del(pam_map *map, uint64_t key);
uint8_t pam_x_map_fold(pam_map *map, uint64_t *sum, uint64_t *greatest);
uint8_t pam_x_map_fold_range(pam_map *map, uint64_t lo, uint64_t hi, uint64_t *sum, uint64_t *greatest);
uint8_t pam_x_map_least(pam_map *map, uint64_t *least);
uint8_t pam_x_map_least_range(pam_map *map, uint64_t lo, uint64_t hi, uint64_t *least);
uint8_t pam_x_map_count(pam_map *map, uint64_t lo, uint64_t hi, uint64_t *count);
uint8_t pam_x_map_rank(pam_map *map, uint64_t key, uint64_t *rank);
uint8_t pam_x_map_select(pam_map *map, uint64_t at, uint64_t *key, uint64_t *val);
uint8_t pam_x_map_next(pam_map *map, uint64_t than, uint64_t *key, uint64_t *val);
uint8_t pam_x_map_prev(pam_map *map, uint64_t than, uint64_t *key, uint64_t *val);
uint8_t pam_x_map_first(pam_map *map, uint64_t *key, uint64_t *val);
uint8_t pam_x_map_last(pam_map *map, uint64_t *key, uint64_t *val);
uint8_t pam_x_map_union(pam_map *a, pam_map *b, uint8_t how, pam_map *out);
uint8_t pam_x_map_intersection(pam_map *a, pam_map *b, uint8_t how, pam_map *out);
uint8_t pam_x_map_difference(pam_map *a, pam_map *b, pam_map *out);
uint8_t pam_x_map_split(pam_map *map, uint64_t key, pam_map *below, pam_map *from);
uint8_t pam_x_map_range(pam_map *map, uint64_t lo, uint64_t hi, pam_map *out);
uint8_t pam_x_map_fill(pam_map *map, uint64_t from_key, uint64_t *keys, size_t keys_len, uint64_t *vals, size_t vals_len, size_t *count);
uint8_t pam_x_map_build(pam_map *map, const uint64_t *keys, size_t keys_len, const uint64_t *vals, size_t vals_len);
uint8_t pam_x_map_put_many(pam_map *map, const uint64_t *keys, size_t keys_len, const uint64_t *vals, size_t vals_len);
uint8_t pam_x_map_get_many(pam_map *map, const uint64_t *keys, size_t keys_len, uint64_t *vals, size_t vals_len, uint8_t *present, size_t present_len);
uint8_t pam_x_map_del_many(pam_map *map, const uint64_t *keys, size_t keys_len);
uint8_t pam_x_map_bytes(pam_map *map, uint8_t *out, size_t room, size_t *needed);
uint8_t pam_x_map_from_bytes(pam_map *map, const uint8_t *bytes, size_t len);
uint8_t pam_x_text_map_new(pam_text_map *map);
uint8_t pam_x_text_map_free(pam_text_map *map);
uint8_t pam_x_text_map_share(pam_text_map *map, pam_text_map *out);
uint8_t pam_x_text_map_len(pam_text_map *map, uint64_t *len);
uint8_t pam_x_text_map_get(pam_text_map *map, const uint8_t *key, size_t len, uint64_t *val);
uint8_t pam_x_text_map_contains(pam_text_map *map, const uint8_t *key, size_t len);
uint8_t pam_x_text_map_put(pam_text_map *map, const uint8_t *key, size_t len, uint64_t val);
uint8_t pam_x_text_map_del(pam_text_map *map, const uint8_t *key, size_t len);
uint8_t pam_x_text_map_fold(pam_text_map *map, uint64_t *sum, uint64_t *greatest);
uint8_t pam_x_text_map_fold_range(pam_text_map *map, const uint8_t *lo, size_t lo_len, const uint8_t *hi, size_t hi_len, uint64_t *sum, uint64_t *greatest);
uint8_t pam_x_text_map_rank(pam_text_map *map, const uint8_t *key, size_t len, uint64_t *rank);
uint8_t pam_x_text_map_select(pam_text_map *map, uint64_t at, uint8_t *key, size_t room, size_t *key_len, uint64_t *val);
uint8_t pam_x_text_map_next(pam_text_map *map, const uint8_t *than, size_t than_len, uint8_t *key, size_t room, size_t *key_len, uint64_t *val);
uint8_t pam_x_text_map_prev(pam_text_map *map, const uint8_t *than, size_t than_len, uint8_t *key, size_t room, size_t *key_len, uint64_t *val);
uint8_t pam_x_text_map_first(pam_text_map *map, uint8_t *key, size_t room, size_t *key_len, uint64_t *val);
uint8_t pam_x_text_map_last(pam_text_map *map, uint8_t *key, size_t room, size_t *key_len, uint64_t *val);
uint8_t pam_x_text_map_union(pam_text_map *a, pam_text_map *b, uint8_t how, pam_text_map *out);
uint8_t pam_x_text_map_intersection(pam_text_map *a, pam_text_map *b, uint8_t how, pam_text_map *out);
uint8_t pam_x_text_map_difference(pam_text_map *a, pam_text_map *b, pam_text_map *out);
uint8_t pam_x_text_map_split(pam_text_map *map, const uint8_t *key, size_t len, pam_text_map *below, pam_text_map *from);
uint8_t pam_x_text_map_range(pam_text_map *map, const uint8_t *lo, size_t lo_len, const uint8_t *hi, size_t hi_len, pam_text_map *out);
uint8_t pam_x_text_map_fill(pam_text_map *map, const uint8_t *from_key, size_t from_len, uint8_t *keys, size_t room, size_t *ends, size_t ends_len, uint64_t *vals, size_t vals_len, size_t *count);
uint8_t pam_x_text_map_put_many(pam_text_map *map, const uint8_t *keys, size_t keys_len, const size_t *ends, size_t ends_len, const uint64_t *vals, size_t vals_len);
uint8_t pam_x_seq_new(pam_seq *seq);
uint8_t pam_x_seq_free(pam_seq *seq);
uint8_t pam_x_seq_share(pam_seq *seq, pam_seq *out);
uint8_t pam_x_seq_len(pam_seq *seq, uint64_t *len);
uint8_t pam_x_seq_get(pam_seq *seq, uint64_t place, uint64_t *item);
uint8_t pam_x_seq_set(pam_seq *seq, uint64_t place, uint64_t item);
uint8_t pam_x_seq_push(pam_seq *seq, uint64_t item);
uint8_t pam_x_seq_push_many(pam_seq *seq, const uint64_t *items, size_t items_len);
uint8_t pam_x_seq_build(pam_seq *seq, const uint64_t *items, size_t items_len);
uint8_t pam_x_seq_append(pam_seq *a, pam_seq *b, pam_seq *out);
uint8_t pam_x_seq_take(pam_seq *seq, uint64_t count, pam_seq *out);
uint8_t pam_x_seq_skip(pam_seq *seq, uint64_t count, pam_seq *out);
uint8_t pam_x_seq_reverse(pam_seq *seq, pam_seq *out);
uint8_t pam_x_seq_fold(pam_seq *seq, uint64_t *sum, uint64_t *greatest);
uint8_t pam_x_seq_fold_range(pam_seq *seq, uint64_t from, uint64_t count, uint64_t *sum, uint64_t *greatest);
uint8_t pam_x_seq_fill(pam_seq *seq, uint64_t from_place, uint64_t *items, size_t items_len, size_t *count);
uint8_t pam_x_intervals_new(pam_intervals *set);
uint8_t pam_x_intervals_free(pam_intervals *set);
uint8_t pam_x_intervals_share(pam_intervals *set, pam_intervals *out);
uint8_t pam_x_intervals_len(pam_intervals *set, uint64_t *len);
uint8_t pam_x_intervals_add(pam_intervals *set, uint64_t left, uint64_t right);
uint8_t pam_x_intervals_del(pam_intervals *set, uint64_t left, uint64_t right);
uint8_t pam_x_intervals_any(pam_intervals *set, uint64_t point);
uint8_t pam_x_intervals_build(pam_intervals *set, const uint64_t *lefts, size_t lefts_len, const uint64_t *rights, size_t rights_len);
uint8_t pam_x_intervals_stab(pam_intervals *set, uint64_t point, uint64_t *lefts, size_t lefts_len, uint64_t *rights, size_t rights_len, size_t *count);
uint8_t pam_x_intervals_overlapping(pam_intervals *set, uint64_t lo, uint64_t hi, uint64_t *lefts, size_t lefts_len, uint64_t *rights, size_t rights_len, size_t *count);
uint8_t pam_x_intervals_fill(pam_intervals *set, uint64_t from_left, uint64_t from_right, uint64_t *lefts, size_t lefts_len, uint64_t *rights, size_t rights_len, size_t *count);

uint8_t pam_map_new(pam_map *map) {
    if (BAD(map)) {
        return PAM_BAD_CALL;
    }
    return pam_x_map_new(map);
}

uint8_t pam_map_free(pam_map *map) {
    if (BAD(map)) {
        return PAM_BAD_CALL;
    }
    return pam_x_map_free(map);
}

uint8_t pam_map_share(pam_map *map, pam_map *out) {
    if (BAD(map) || BAD(out) || map == out) {
        return PAM_BAD_CALL;
    }
    return pam_x_map_share(map, out);
}

uint8_t pam_map_len(pam_map *map, uint64_t *len) {
    if (BAD(map) || BAD(len)) {
        return PAM_BAD_CALL;
    }
    return pam_x_map_len(map, len);
}

uint8_t pam_map_get(pam_map *map, uint64_t key, uint64_t *val) {
    if (BAD(map) || BAD(val)) {
        return PAM_BAD_CALL;
    }
    return pam_x_map_get(map, key, val);
}

uint8_t pam_map_put(pam_map *map, uint64_t key, uint64_t val) {
    if (BAD(map)) {
        return PAM_BAD_CALL;
    }
    return pam_x_map_put(map, key, val);
}

uint8_t pam_map_del(pam_map *map, uint64_t key) {
    if (BAD(map)) {
        return PAM_BAD_CALL;
    }
    return pam_x_map_del(map, key);
}

uint8_t pam_map_fold(pam_map *map, uint64_t *sum, uint64_t *greatest) {
    if (BAD(map) || BAD(sum) || BAD(greatest)) {
        return PAM_BAD_CALL;
    }
    return pam_x_map_fold(map, sum, greatest);
}

uint8_t pam_map_fold_range(pam_map *map, uint64_t lo, uint64_t hi, uint64_t *sum, uint64_t *greatest) {
    if (BAD(map) || BAD(sum) || BAD(greatest)) {
        return PAM_BAD_CALL;
    }
    return pam_x_map_fold_range(map, lo, hi, sum, greatest);
}

uint8_t pam_map_least(pam_map *map, uint64_t *least) {
    if (BAD(map) || BAD(least)) {
        return PAM_BAD_CALL;
    }
    return pam_x_map_least(map, least);
}

uint8_t pam_map_least_range(pam_map *map, uint64_t lo, uint64_t hi, uint64_t *least) {
    if (BAD(map) || BAD(least)) {
        return PAM_BAD_CALL;
    }
    return pam_x_map_least_range(map, lo, hi, least);
}

uint8_t pam_map_count(pam_map *map, uint64_t lo, uint64_t hi, uint64_t *count) {
    if (BAD(map) || BAD(count)) {
        return PAM_BAD_CALL;
    }
    return pam_x_map_count(map, lo, hi, count);
}

uint8_t pam_map_rank(pam_map *map, uint64_t key, uint64_t *rank) {
    if (BAD(map) || BAD(rank)) {
        return PAM_BAD_CALL;
    }
    return pam_x_map_rank(map, key, rank);
}

uint8_t pam_map_select(pam_map *map, uint64_t at, uint64_t *key, uint64_t *val) {
    if (BAD(map) || BAD(key) || BAD(val)) {
        return PAM_BAD_CALL;
    }
    return pam_x_map_select(map, at, key, val);
}

uint8_t pam_map_next(pam_map *map, uint64_t than, uint64_t *key, uint64_t *val) {
    if (BAD(map) || BAD(key) || BAD(val)) {
        return PAM_BAD_CALL;
    }
    return pam_x_map_next(map, than, key, val);
}

uint8_t pam_map_prev(pam_map *map, uint64_t than, uint64_t *key, uint64_t *val) {
    if (BAD(map) || BAD(key) || BAD(val)) {
        return PAM_BAD_CALL;
    }
    return pam_x_map_prev(map, than, key, val);
}

uint8_t pam_map_first(pam_map *map, uint64_t *key, uint64_t *val) {
    if (BAD(map) || BAD(key) || BAD(val)) {
        return PAM_BAD_CALL;
    }
    return pam_x_map_first(map, key, val);
}

uint8_t pam_map_last(pam_map *map, uint64_t *key, uint64_t *val) {
    if (BAD(map) || BAD(key) || BAD(val)) {
        return PAM_BAD_CALL;
    }
    return pam_x_map_last(map, key, val);
}

uint8_t pam_map_union(pam_map *a, pam_map *b, uint8_t how, pam_map *out) {
    if (BAD(a) || BAD(b) || BAD(out) || a == out || b == out) {
        return PAM_BAD_CALL;
    }
    if (a == b) {
        pam_map other = {0};
        uint8_t status = pam_x_map_share(a, &other);
        if (status == PAM_OK) {
            status = pam_x_map_union(a, &other, how, out);
            pam_x_map_free(&other);
        }
        return status;
    }
    return pam_x_map_union(a, b, how, out);
}

uint8_t pam_map_intersection(pam_map *a, pam_map *b, uint8_t how, pam_map *out) {
    if (BAD(a) || BAD(b) || BAD(out) || a == out || b == out) {
        return PAM_BAD_CALL;
    }
    if (a == b) {
        pam_map other = {0};
        uint8_t status = pam_x_map_share(a, &other);
        if (status == PAM_OK) {
            status = pam_x_map_intersection(a, &other, how, out);
            pam_x_map_free(&other);
        }
        return status;
    }
    return pam_x_map_intersection(a, b, how, out);
}

uint8_t pam_map_difference(pam_map *a, pam_map *b, pam_map *out) {
    if (BAD(a) || BAD(b) || BAD(out) || a == out || b == out) {
        return PAM_BAD_CALL;
    }
    if (a == b) {
        pam_map other = {0};
        uint8_t status = pam_x_map_share(a, &other);
        if (status == PAM_OK) {
            status = pam_x_map_difference(a, &other, out);
            pam_x_map_free(&other);
        }
        return status;
    }
    return pam_x_map_difference(a, b, out);
}

uint8_t pam_map_split(pam_map *map, uint64_t key, pam_map *below, pam_map *from) {
    if (BAD(map) || BAD(below) || BAD(from) || map == below || from == below || map == from) {
        return PAM_BAD_CALL;
    }
    return pam_x_map_split(map, key, below, from);
}

uint8_t pam_map_range(pam_map *map, uint64_t lo, uint64_t hi, pam_map *out) {
    if (BAD(map) || BAD(out) || map == out) {
        return PAM_BAD_CALL;
    }
    return pam_x_map_range(map, lo, hi, out);
}

uint8_t pam_map_fill(pam_map *map, uint64_t from_key, uint64_t *keys, size_t keys_len, uint64_t *vals, size_t vals_len, size_t *count) {
    if (BAD(map) || BAD_ARRAY(keys, keys_len) || BAD_ARRAY(vals, vals_len) || BAD(count)) {
        return PAM_BAD_CALL;
    }
    return pam_x_map_fill(map, from_key, keys ? keys : no_numbers, keys_len, vals ? vals : no_numbers, vals_len, count);
}

uint8_t pam_map_build(pam_map *map, const uint64_t *keys, size_t keys_len, const uint64_t *vals, size_t vals_len) {
    if (BAD(map) || BAD_ARRAY(keys, keys_len) || BAD_ARRAY(vals, vals_len)) {
        return PAM_BAD_CALL;
    }
    return pam_x_map_build(map, keys ? keys : no_numbers, keys_len, vals ? vals : no_numbers, vals_len);
}

uint8_t pam_map_put_many(pam_map *map, const uint64_t *keys, size_t keys_len, const uint64_t *vals, size_t vals_len) {
    if (BAD(map) || BAD_ARRAY(keys, keys_len) || BAD_ARRAY(vals, vals_len)) {
        return PAM_BAD_CALL;
    }
    return pam_x_map_put_many(map, keys ? keys : no_numbers, keys_len, vals ? vals : no_numbers, vals_len);
}

uint8_t pam_map_get_many(pam_map *map, const uint64_t *keys, size_t keys_len, uint64_t *vals, size_t vals_len, uint8_t *present, size_t present_len) {
    if (BAD(map) || BAD_ARRAY(keys, keys_len) || BAD_ARRAY(vals, vals_len) || BAD_ARRAY(present, present_len)) {
        return PAM_BAD_CALL;
    }
    return pam_x_map_get_many(map, keys ? keys : no_numbers, keys_len, vals ? vals : no_numbers, vals_len, present ? present : no_bytes, present_len);
}

uint8_t pam_map_del_many(pam_map *map, const uint64_t *keys, size_t keys_len) {
    if (BAD(map) || BAD_ARRAY(keys, keys_len)) {
        return PAM_BAD_CALL;
    }
    return pam_x_map_del_many(map, keys ? keys : no_numbers, keys_len);
}

uint8_t pam_map_bytes(pam_map *map, uint8_t *out, size_t room, size_t *needed) {
    if (BAD(map) || BAD_ARRAY(out, room) || BAD(needed)) {
        return PAM_BAD_CALL;
    }
    return pam_x_map_bytes(map, out ? out : no_bytes, room, needed);
}

uint8_t pam_map_from_bytes(pam_map *map, const uint8_t *bytes, size_t len) {
    if (BAD(map) || BAD_ARRAY(bytes, len)) {
        return PAM_BAD_CALL;
    }
    return pam_x_map_from_bytes(map, bytes ? bytes : no_bytes, len);
}

uint8_t pam_text_map_new(pam_text_map *map) {
    if (BAD(map)) {
        return PAM_BAD_CALL;
    }
    return pam_x_text_map_new(map);
}

uint8_t pam_text_map_free(pam_text_map *map) {
    if (BAD(map)) {
        return PAM_BAD_CALL;
    }
    return pam_x_text_map_free(map);
}

uint8_t pam_text_map_share(pam_text_map *map, pam_text_map *out) {
    if (BAD(map) || BAD(out) || map == out) {
        return PAM_BAD_CALL;
    }
    return pam_x_text_map_share(map, out);
}

uint8_t pam_text_map_len(pam_text_map *map, uint64_t *len) {
    if (BAD(map) || BAD(len)) {
        return PAM_BAD_CALL;
    }
    return pam_x_text_map_len(map, len);
}

uint8_t pam_text_map_get(pam_text_map *map, const uint8_t *key, size_t len, uint64_t *val) {
    if (BAD(map) || BAD_ARRAY(key, len) || BAD(val)) {
        return PAM_BAD_CALL;
    }
    return pam_x_text_map_get(map, key ? key : no_bytes, len, val);
}

uint8_t pam_text_map_contains(pam_text_map *map, const uint8_t *key, size_t len) {
    if (BAD(map) || BAD_ARRAY(key, len)) {
        return PAM_BAD_CALL;
    }
    return pam_x_text_map_contains(map, key ? key : no_bytes, len);
}

uint8_t pam_text_map_put(pam_text_map *map, const uint8_t *key, size_t len, uint64_t val) {
    if (BAD(map) || BAD_ARRAY(key, len)) {
        return PAM_BAD_CALL;
    }
    return pam_x_text_map_put(map, key ? key : no_bytes, len, val);
}

uint8_t pam_text_map_del(pam_text_map *map, const uint8_t *key, size_t len) {
    if (BAD(map) || BAD_ARRAY(key, len)) {
        return PAM_BAD_CALL;
    }
    return pam_x_text_map_del(map, key ? key : no_bytes, len);
}

uint8_t pam_text_map_fold(pam_text_map *map, uint64_t *sum, uint64_t *greatest) {
    if (BAD(map) || BAD(sum) || BAD(greatest)) {
        return PAM_BAD_CALL;
    }
    return pam_x_text_map_fold(map, sum, greatest);
}

uint8_t pam_text_map_fold_range(pam_text_map *map, const uint8_t *lo, size_t lo_len, const uint8_t *hi, size_t hi_len, uint64_t *sum, uint64_t *greatest) {
    if (BAD(map) || BAD_ARRAY(lo, lo_len) || BAD_ARRAY(hi, hi_len) || BAD(sum) || BAD(greatest)) {
        return PAM_BAD_CALL;
    }
    return pam_x_text_map_fold_range(map, lo ? lo : no_bytes, lo_len, hi ? hi : no_bytes, hi_len, sum, greatest);
}

uint8_t pam_text_map_rank(pam_text_map *map, const uint8_t *key, size_t len, uint64_t *rank) {
    if (BAD(map) || BAD_ARRAY(key, len) || BAD(rank)) {
        return PAM_BAD_CALL;
    }
    return pam_x_text_map_rank(map, key ? key : no_bytes, len, rank);
}

uint8_t pam_text_map_select(pam_text_map *map, uint64_t at, uint8_t *key, size_t room, size_t *key_len, uint64_t *val) {
    if (BAD(map) || BAD_ARRAY(key, room) || BAD(key_len) || BAD(val)) {
        return PAM_BAD_CALL;
    }
    return pam_x_text_map_select(map, at, key ? key : no_bytes, room, key_len, val);
}

uint8_t pam_text_map_next(pam_text_map *map, const uint8_t *than, size_t than_len, uint8_t *key, size_t room, size_t *key_len, uint64_t *val) {
    if (BAD(map) || BAD_ARRAY(than, than_len) || BAD_ARRAY(key, room) || BAD(key_len) || BAD(val)) {
        return PAM_BAD_CALL;
    }
    return pam_x_text_map_next(map, than ? than : no_bytes, than_len, key ? key : no_bytes, room, key_len, val);
}

uint8_t pam_text_map_prev(pam_text_map *map, const uint8_t *than, size_t than_len, uint8_t *key, size_t room, size_t *key_len, uint64_t *val) {
    if (BAD(map) || BAD_ARRAY(than, than_len) || BAD_ARRAY(key, room) || BAD(key_len) || BAD(val)) {
        return PAM_BAD_CALL;
    }
    return pam_x_text_map_prev(map, than ? than : no_bytes, than_len, key ? key : no_bytes, room, key_len, val);
}

uint8_t pam_text_map_first(pam_text_map *map, uint8_t *key, size_t room, size_t *key_len, uint64_t *val) {
    if (BAD(map) || BAD_ARRAY(key, room) || BAD(key_len) || BAD(val)) {
        return PAM_BAD_CALL;
    }
    return pam_x_text_map_first(map, key ? key : no_bytes, room, key_len, val);
}

uint8_t pam_text_map_last(pam_text_map *map, uint8_t *key, size_t room, size_t *key_len, uint64_t *val) {
    if (BAD(map) || BAD_ARRAY(key, room) || BAD(key_len) || BAD(val)) {
        return PAM_BAD_CALL;
    }
    return pam_x_text_map_last(map, key ? key : no_bytes, room, key_len, val);
}

uint8_t pam_text_map_union(pam_text_map *a, pam_text_map *b, uint8_t how, pam_text_map *out) {
    if (BAD(a) || BAD(b) || BAD(out) || a == out || b == out) {
        return PAM_BAD_CALL;
    }
    if (a == b) {
        pam_text_map other = {0};
        uint8_t status = pam_x_text_map_share(a, &other);
        if (status == PAM_OK) {
            status = pam_x_text_map_union(a, &other, how, out);
            pam_x_text_map_free(&other);
        }
        return status;
    }
    return pam_x_text_map_union(a, b, how, out);
}

uint8_t pam_text_map_intersection(pam_text_map *a, pam_text_map *b, uint8_t how, pam_text_map *out) {
    if (BAD(a) || BAD(b) || BAD(out) || a == out || b == out) {
        return PAM_BAD_CALL;
    }
    if (a == b) {
        pam_text_map other = {0};
        uint8_t status = pam_x_text_map_share(a, &other);
        if (status == PAM_OK) {
            status = pam_x_text_map_intersection(a, &other, how, out);
            pam_x_text_map_free(&other);
        }
        return status;
    }
    return pam_x_text_map_intersection(a, b, how, out);
}

uint8_t pam_text_map_difference(pam_text_map *a, pam_text_map *b, pam_text_map *out) {
    if (BAD(a) || BAD(b) || BAD(out) || a == out || b == out) {
        return PAM_BAD_CALL;
    }
    if (a == b) {
        pam_text_map other = {0};
        uint8_t status = pam_x_text_map_share(a, &other);
        if (status == PAM_OK) {
            status = pam_x_text_map_difference(a, &other, out);
            pam_x_text_map_free(&other);
        }
        return status;
    }
    return pam_x_text_map_difference(a, b, out);
}

uint8_t pam_text_map_split(pam_text_map *map, const uint8_t *key, size_t len, pam_text_map *below, pam_text_map *from) {
    if (BAD(map) || BAD_ARRAY(key, len) || BAD(below) || BAD(from) || map == below || from == below || map == from) {
        return PAM_BAD_CALL;
    }
    return pam_x_text_map_split(map, key ? key : no_bytes, len, below, from);
}

uint8_t pam_text_map_range(pam_text_map *map, const uint8_t *lo, size_t lo_len, const uint8_t *hi, size_t hi_len, pam_text_map *out) {
    if (BAD(map) || BAD_ARRAY(lo, lo_len) || BAD_ARRAY(hi, hi_len) || BAD(out) || map == out) {
        return PAM_BAD_CALL;
    }
    return pam_x_text_map_range(map, lo ? lo : no_bytes, lo_len, hi ? hi : no_bytes, hi_len, out);
}

uint8_t pam_text_map_fill(pam_text_map *map, const uint8_t *from_key, size_t from_len, uint8_t *keys, size_t room, size_t *ends, size_t ends_len, uint64_t *vals, size_t vals_len, size_t *count) {
    if (BAD(map) || BAD_ARRAY(from_key, from_len) || BAD_ARRAY(keys, room) || BAD_ARRAY(ends, ends_len) || BAD_ARRAY(vals, vals_len) || BAD(count)) {
        return PAM_BAD_CALL;
    }
    return pam_x_text_map_fill(map, from_key ? from_key : no_bytes, from_len, keys ? keys : no_bytes, room, ends ? ends : no_sizes, ends_len, vals ? vals : no_numbers, vals_len, count);
}

uint8_t pam_text_map_put_many(pam_text_map *map, const uint8_t *keys, size_t keys_len, const size_t *ends, size_t ends_len, const uint64_t *vals, size_t vals_len) {
    if (BAD(map) || BAD_ARRAY(keys, keys_len) || BAD_ARRAY(ends, ends_len) || BAD_ARRAY(vals, vals_len)) {
        return PAM_BAD_CALL;
    }
    return pam_x_text_map_put_many(map, keys ? keys : no_bytes, keys_len, ends ? ends : no_sizes, ends_len, vals ? vals : no_numbers, vals_len);
}

uint8_t pam_seq_new(pam_seq *seq) {
    if (BAD(seq)) {
        return PAM_BAD_CALL;
    }
    return pam_x_seq_new(seq);
}

uint8_t pam_seq_free(pam_seq *seq) {
    if (BAD(seq)) {
        return PAM_BAD_CALL;
    }
    return pam_x_seq_free(seq);
}

uint8_t pam_seq_share(pam_seq *seq, pam_seq *out) {
    if (BAD(seq) || BAD(out) || seq == out) {
        return PAM_BAD_CALL;
    }
    return pam_x_seq_share(seq, out);
}

uint8_t pam_seq_len(pam_seq *seq, uint64_t *len) {
    if (BAD(seq) || BAD(len)) {
        return PAM_BAD_CALL;
    }
    return pam_x_seq_len(seq, len);
}

uint8_t pam_seq_get(pam_seq *seq, uint64_t place, uint64_t *item) {
    if (BAD(seq) || BAD(item)) {
        return PAM_BAD_CALL;
    }
    return pam_x_seq_get(seq, place, item);
}

uint8_t pam_seq_set(pam_seq *seq, uint64_t place, uint64_t item) {
    if (BAD(seq)) {
        return PAM_BAD_CALL;
    }
    return pam_x_seq_set(seq, place, item);
}

uint8_t pam_seq_push(pam_seq *seq, uint64_t item) {
    if (BAD(seq)) {
        return PAM_BAD_CALL;
    }
    return pam_x_seq_push(seq, item);
}

uint8_t pam_seq_push_many(pam_seq *seq, const uint64_t *items, size_t items_len) {
    if (BAD(seq) || BAD_ARRAY(items, items_len)) {
        return PAM_BAD_CALL;
    }
    return pam_x_seq_push_many(seq, items ? items : no_numbers, items_len);
}

uint8_t pam_seq_build(pam_seq *seq, const uint64_t *items, size_t items_len) {
    if (BAD(seq) || BAD_ARRAY(items, items_len)) {
        return PAM_BAD_CALL;
    }
    return pam_x_seq_build(seq, items ? items : no_numbers, items_len);
}

uint8_t pam_seq_append(pam_seq *a, pam_seq *b, pam_seq *out) {
    if (BAD(a) || BAD(b) || BAD(out) || a == out || b == out) {
        return PAM_BAD_CALL;
    }
    if (a == b) {
        pam_seq other = {0};
        uint8_t status = pam_x_seq_share(a, &other);
        if (status == PAM_OK) {
            status = pam_x_seq_append(a, &other, out);
            pam_x_seq_free(&other);
        }
        return status;
    }
    return pam_x_seq_append(a, b, out);
}

uint8_t pam_seq_take(pam_seq *seq, uint64_t count, pam_seq *out) {
    if (BAD(seq) || BAD(out) || seq == out) {
        return PAM_BAD_CALL;
    }
    return pam_x_seq_take(seq, count, out);
}

uint8_t pam_seq_skip(pam_seq *seq, uint64_t count, pam_seq *out) {
    if (BAD(seq) || BAD(out) || seq == out) {
        return PAM_BAD_CALL;
    }
    return pam_x_seq_skip(seq, count, out);
}

uint8_t pam_seq_reverse(pam_seq *seq, pam_seq *out) {
    if (BAD(seq) || BAD(out) || seq == out) {
        return PAM_BAD_CALL;
    }
    return pam_x_seq_reverse(seq, out);
}

uint8_t pam_seq_fold(pam_seq *seq, uint64_t *sum, uint64_t *greatest) {
    if (BAD(seq) || BAD(sum) || BAD(greatest)) {
        return PAM_BAD_CALL;
    }
    return pam_x_seq_fold(seq, sum, greatest);
}

uint8_t pam_seq_fold_range(pam_seq *seq, uint64_t from, uint64_t count, uint64_t *sum, uint64_t *greatest) {
    if (BAD(seq) || BAD(sum) || BAD(greatest)) {
        return PAM_BAD_CALL;
    }
    return pam_x_seq_fold_range(seq, from, count, sum, greatest);
}

uint8_t pam_seq_fill(pam_seq *seq, uint64_t from_place, uint64_t *items, size_t items_len, size_t *count) {
    if (BAD(seq) || BAD_ARRAY(items, items_len) || BAD(count)) {
        return PAM_BAD_CALL;
    }
    return pam_x_seq_fill(seq, from_place, items ? items : no_numbers, items_len, count);
}

uint8_t pam_intervals_new(pam_intervals *set) {
    if (BAD(set)) {
        return PAM_BAD_CALL;
    }
    return pam_x_intervals_new(set);
}

uint8_t pam_intervals_free(pam_intervals *set) {
    if (BAD(set)) {
        return PAM_BAD_CALL;
    }
    return pam_x_intervals_free(set);
}

uint8_t pam_intervals_share(pam_intervals *set, pam_intervals *out) {
    if (BAD(set) || BAD(out) || set == out) {
        return PAM_BAD_CALL;
    }
    return pam_x_intervals_share(set, out);
}

uint8_t pam_intervals_len(pam_intervals *set, uint64_t *len) {
    if (BAD(set) || BAD(len)) {
        return PAM_BAD_CALL;
    }
    return pam_x_intervals_len(set, len);
}

uint8_t pam_intervals_add(pam_intervals *set, uint64_t left, uint64_t right) {
    if (BAD(set)) {
        return PAM_BAD_CALL;
    }
    return pam_x_intervals_add(set, left, right);
}

uint8_t pam_intervals_del(pam_intervals *set, uint64_t left, uint64_t right) {
    if (BAD(set)) {
        return PAM_BAD_CALL;
    }
    return pam_x_intervals_del(set, left, right);
}

uint8_t pam_intervals_any(pam_intervals *set, uint64_t point) {
    if (BAD(set)) {
        return PAM_BAD_CALL;
    }
    return pam_x_intervals_any(set, point);
}

uint8_t pam_intervals_build(pam_intervals *set, const uint64_t *lefts, size_t lefts_len, const uint64_t *rights, size_t rights_len) {
    if (BAD(set) || BAD_ARRAY(lefts, lefts_len) || BAD_ARRAY(rights, rights_len)) {
        return PAM_BAD_CALL;
    }
    return pam_x_intervals_build(set, lefts ? lefts : no_numbers, lefts_len, rights ? rights : no_numbers, rights_len);
}

uint8_t pam_intervals_stab(pam_intervals *set, uint64_t point, uint64_t *lefts, size_t lefts_len, uint64_t *rights, size_t rights_len, size_t *count) {
    if (BAD(set) || BAD_ARRAY(lefts, lefts_len) || BAD_ARRAY(rights, rights_len) || BAD(count)) {
        return PAM_BAD_CALL;
    }
    return pam_x_intervals_stab(set, point, lefts ? lefts : no_numbers, lefts_len, rights ? rights : no_numbers, rights_len, count);
}

uint8_t pam_intervals_overlapping(pam_intervals *set, uint64_t lo, uint64_t hi, uint64_t *lefts, size_t lefts_len, uint64_t *rights, size_t rights_len, size_t *count) {
    if (BAD(set) || BAD_ARRAY(lefts, lefts_len) || BAD_ARRAY(rights, rights_len) || BAD(count)) {
        return PAM_BAD_CALL;
    }
    return pam_x_intervals_overlapping(set, lo, hi, lefts ? lefts : no_numbers, lefts_len, rights ? rights : no_numbers, rights_len, count);
}

uint8_t pam_intervals_fill(pam_intervals *set, uint64_t from_left, uint64_t from_right, uint64_t *lefts, size_t lefts_len, uint64_t *rights, size_t rights_len, size_t *count) {
    if (BAD(set) || BAD_ARRAY(lefts, lefts_len) || BAD_ARRAY(rights, rights_len) || BAD(count)) {
        return PAM_BAD_CALL;
    }
    return pam_x_intervals_fill(set, from_left, from_right, lefts ? lefts : no_numbers, lefts_len, rights ? rights : no_numbers, rights_len, count);
}
