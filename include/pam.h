/* pam: persistent ordered maps from numbers or from byte strings, sequences and sets of intervals, for C.
 *
 * A handle is closed, which is what {0} makes, or open with a map, a sequence or a set. `new`, `build`, `from_bytes` and every
 * call with a result open a closed handle, and `free` closes it. Maps are persistent: a share and a part cost O(1) and O(log n),
 * use the memory of what they come from, and no change of one is seen in another.
 *
 * Every call answers a status. Nothing changes and nothing is written but at PAM_OK, except that at PAM_NO_ROOM the number
 * needed is written. Results go through the pointers that come last.
 *
 * What the caller keeps, since nothing checks it:
 *   - A handle is written by these calls alone and never copied; a share is the copy. Two calls never use one handle at a time,
 *     not even two calls that only read: a share, in O(1), is for another thread.
 *   - A pointer leads to as many objects as its length says, aligned for their type, and no array or result of one call lies
 *     over another or over a handle. A null pointer is a bad call, except that an array of length 0 may be null.
 *   - Every handle is freed: none is freed by itself.
 *   - `malloc`, `realloc` and `free` of the program align to 16, and no call is made from a signal handler or from a forked
 *     child of a process with threads.
 * Use after free is no danger: a freed handle is closed, and a closed handle is answered by PAM_BAD_CALL.
 *
 * Link with libpam_c.a, the archive of the toolchain's allocator, and pam_null.c, or with the shared library of them.
 */
#ifndef PAM_H
#define PAM_H

#include <stddef.h>
#include <stdint.h>

#ifdef __cplusplus
extern "C" {
#endif

typedef struct pam_map {
    void *at;
    uint64_t state;
} pam_map;

typedef struct pam_text_map {
    void *at;
    uint64_t state;
} pam_text_map;

typedef struct pam_seq {
    void *at;
    uint64_t state;
} pam_seq;

typedef struct pam_intervals {
    void *at;
    uint64_t state;
} pam_intervals;

/* Statuses. */
enum {
    PAM_OK = 0,
    PAM_NOT_THERE = 1, /* there is no such entry, item or interval */
    PAM_NO_ROOM = 2,   /* the arrays are too short; how long they must be is written */
    PAM_NOT_A_MAP = 3, /* the bytes are no map's */
    PAM_BAD_CALL = 4,  /* a null or closed handle where an open one is wanted, an open one where a result goes, a null array or
                          result, arrays of one call whose lengths differ, an unknown `how`, left > right, lo > hi, or ends of keys
                          that fall or lie outside */
    PAM_NO_MEMORY = 7
};

/* How the value at a key that two maps have is made of the value in the first and the value in the second. */
enum {
    PAM_FIRST = 0,
    PAM_SECOND = 1,
    PAM_SUM = 2, /* a sum above UINT64_MAX is UINT64_MAX */
    PAM_MAX = 3
};

/* ---- Maps from uint64_t to uint64_t, with the sum, the greatest and the least of the values. n is the number of entries. ---- */

/* Opens a closed handle with the empty map, in O(1). 0, 4, 7 */
uint8_t pam_map_new(pam_map *map);
/* Closes a handle, in O(1) for each entry that no other map shares; one that is closed stays so. 0 (4 only where it is null) */
uint8_t pam_map_free(pam_map *map);
/* Opens `out` with the same map, in O(1). 0, 4, 7 */
uint8_t pam_map_share(pam_map *map, pam_map *out);
/* How many entries there are, in O(1). 0, 4 */
uint8_t pam_map_len(pam_map *map, uint64_t *len);

/* The value at a key, in O(log n). 0, 1, 4 */
uint8_t pam_map_get(pam_map *map, uint64_t key, uint64_t *val);
/* Sets a key to a value, in O(log n). 0, 4, 7 */
uint8_t pam_map_put(pam_map *map, uint64_t key, uint64_t val);
/* Removes a key, in O(log n). 0, 1, 4, 7 */
uint8_t pam_map_del(pam_map *map, uint64_t key);

/* The sum, at most UINT64_MAX, and the greatest of all values, in O(1); both 0 where there are none. 0, 4 */
uint8_t pam_map_fold(pam_map *map, uint64_t *sum, uint64_t *greatest);
/* The same of the values at keys from `lo` to `hi`, both included, in O(log n). 0, 4 */
uint8_t pam_map_fold_range(pam_map *map, uint64_t lo, uint64_t hi, uint64_t *sum, uint64_t *greatest);
/* The least of all values, in O(1), and of those at keys from `lo` to `hi`, both included, in O(log n). 0, 1, 4 */
uint8_t pam_map_least(pam_map *map, uint64_t *least);
uint8_t pam_map_least_range(pam_map *map, uint64_t lo, uint64_t hi, uint64_t *least);

/* How many keys are from `lo` to `hi`, both included, in O(log n). 0, 4 */
uint8_t pam_map_count(pam_map *map, uint64_t lo, uint64_t hi, uint64_t *count);
/* How many keys are less than `key`, in O(log n). 0, 4 */
uint8_t pam_map_rank(pam_map *map, uint64_t key, uint64_t *rank);
/* The entry at a place, counted from 0, in O(log n). 0, 1, 4 */
uint8_t pam_map_select(pam_map *map, uint64_t at, uint64_t *key, uint64_t *val);
/* The entry with the least key greater than `than`, and with the greatest key less than it, in O(log n). 0, 1, 4 */
uint8_t pam_map_next(pam_map *map, uint64_t than, uint64_t *key, uint64_t *val);
uint8_t pam_map_prev(pam_map *map, uint64_t than, uint64_t *key, uint64_t *val);
/* The entries with the least and the greatest key, in O(log n). 0, 1, 4 */
uint8_t pam_map_first(pam_map *map, uint64_t *key, uint64_t *val);
uint8_t pam_map_last(pam_map *map, uint64_t *key, uint64_t *val);

/* The entries of either map, and those whose keys both have; at a key of both the value that `how` makes. For maps of m and n
 * entries, m at most n, in O(m log(n / m + 1)). `a` and `b` may be one handle. 0, 4, 7 */
uint8_t pam_map_union(pam_map *a, pam_map *b, uint8_t how, pam_map *out);
uint8_t pam_map_intersection(pam_map *a, pam_map *b, uint8_t how, pam_map *out);
/* The entries of `a` whose keys `b` hasn't, in the same time. `a` and `b` may be one handle. 0, 4, 7 */
uint8_t pam_map_difference(pam_map *a, pam_map *b, pam_map *out);
/* The entries with keys less than `key`, and those with keys at least `key`, in O(log n). 0, 4, 7 */
uint8_t pam_map_split(pam_map *map, uint64_t key, pam_map *below, pam_map *from);
/* The entries with keys from `lo` to `hi`, both included, in O(log n). 0, 4, 7 */
uint8_t pam_map_range(pam_map *map, uint64_t lo, uint64_t hi, pam_map *out);

/* Writes the first entries with keys at least `from_key`, as many as there are and fit, and how many these are, in O(log n + k)
 * for k of them; where memory is refused, in O(log n) for each. 0, 4 */
uint8_t pam_map_fill(pam_map *map, uint64_t from_key, uint64_t *keys, size_t keys_len, uint64_t *vals, size_t vals_len, size_t *count);
/* Opens a closed handle with the map of n pairs, in O(n log n); a later pair of a key wins. 0, 4, 7 */
uint8_t pam_map_build(pam_map *map, const uint64_t *keys, size_t keys_len, const uint64_t *vals, size_t vals_len);
/* Puts m pairs in order, in O(m log(m + n)); a later pair of a key wins. 0, 4, 7 */
uint8_t pam_map_put_many(pam_map *map, const uint64_t *keys, size_t keys_len, const uint64_t *vals, size_t vals_len);
/* For each of m keys its value and 1, or 0 and 0 where it is not there, in O(m log n). 0, 4 */
uint8_t pam_map_get_many(pam_map *map, const uint64_t *keys, size_t keys_len, uint64_t *vals, size_t vals_len, uint8_t *present, size_t present_len);
/* Removes m keys, which the map need not have, in O(m log(m + n)). 0, 4, 7 */
uint8_t pam_map_del_many(pam_map *map, const uint64_t *keys, size_t keys_len);

/* Writes the map as bytes, and how many they are, in O(n). 0, 2, 4, 7 */
uint8_t pam_map_bytes(pam_map *map, uint8_t *out, size_t room, size_t *needed);
/* Opens a closed handle with the map that bytes are, in O(n log n). 0, 3, 4, 7 */
uint8_t pam_map_from_bytes(pam_map *map, const uint8_t *bytes, size_t len);

/* Signed keys: the key that stands for a number, which is the number moved up by 2^63, and the number for which a key stands. Keys
 * are in the order of their numbers, so that all calls do with them as with these: a range from -5 to 5 is that of their keys. */
static inline uint64_t pam_key_of_signed(int64_t number) {
    return (uint64_t)number ^ (UINT64_C(1) << 63);
}
static inline int64_t pam_signed_of_key(uint64_t key) {
    return key >> 63 ? (int64_t)(key & INT64_MAX) : (int64_t)key + INT64_MIN;
}

/* ---- Maps from byte strings to uint64_t, with the sum and the greatest of the values. n is the number of entries. ----
 *
 * A key is any bytes, also none, and keys are in the order of their bytes: by the first that differs, and a key comes before those
 * that it begins (as memcmp). Bounds count comparisons of keys. A call copies the keys that it is given, and may be refused the
 * memory of the copy. A key that is answered is written into an array of the caller: `key_len` becomes the number of its bytes, and
 * where the array is shorter the call answers PAM_NO_ROOM and writes nothing else. */

/* As those of maps. */
uint8_t pam_text_map_new(pam_text_map *map);
uint8_t pam_text_map_free(pam_text_map *map);
uint8_t pam_text_map_share(pam_text_map *map, pam_text_map *out);
uint8_t pam_text_map_len(pam_text_map *map, uint64_t *len);

/* The value at a key, in O(log n). 0, 1, 4, 7 */
uint8_t pam_text_map_get(pam_text_map *map, const uint8_t *key, size_t len, uint64_t *val);
/* Whether a key is there, in O(log n): 0 where it is, 1 where it isn't. 0, 1, 4, 7 */
uint8_t pam_text_map_contains(pam_text_map *map, const uint8_t *key, size_t len);
/* Sets a key to a value, in O(log n). 0, 4, 7 */
uint8_t pam_text_map_put(pam_text_map *map, const uint8_t *key, size_t len, uint64_t val);
/* Removes a key, in O(log n). 0, 1, 4, 7 */
uint8_t pam_text_map_del(pam_text_map *map, const uint8_t *key, size_t len);

/* The sum, at most UINT64_MAX, and the greatest of all values, in O(1); both 0 where there are none. 0, 4 */
uint8_t pam_text_map_fold(pam_text_map *map, uint64_t *sum, uint64_t *greatest);
/* The same of the values at keys from `lo` to `hi`, both included, in O(log n). 0, 4, 7 */
uint8_t pam_text_map_fold_range(pam_text_map *map, const uint8_t *lo, size_t lo_len, const uint8_t *hi, size_t hi_len, uint64_t *sum, uint64_t *greatest);

/* How many keys are less than a key, in O(log n). 0, 4, 7 */
uint8_t pam_text_map_rank(pam_text_map *map, const uint8_t *key, size_t len, uint64_t *rank);
/* The entry at a place, counted from 0, in O(log n). 0, 1, 2, 4, 7 */
uint8_t pam_text_map_select(pam_text_map *map, uint64_t at, uint8_t *key, size_t room, size_t *key_len, uint64_t *val);
/* The entry with the least key greater than `than`, and with the greatest key less than it, in O(log n). `than` and `key` are two
 * arrays. 0, 1, 2, 4, 7 */
uint8_t pam_text_map_next(pam_text_map *map, const uint8_t *than, size_t than_len, uint8_t *key, size_t room, size_t *key_len, uint64_t *val);
uint8_t pam_text_map_prev(pam_text_map *map, const uint8_t *than, size_t than_len, uint8_t *key, size_t room, size_t *key_len, uint64_t *val);
/* The entries with the least and the greatest key, in O(log n). 0, 1, 2, 4, 7 */
uint8_t pam_text_map_first(pam_text_map *map, uint8_t *key, size_t room, size_t *key_len, uint64_t *val);
uint8_t pam_text_map_last(pam_text_map *map, uint8_t *key, size_t room, size_t *key_len, uint64_t *val);

/* As those of maps, in the same time. `a` and `b` may be one handle. 0, 4, 7 */
uint8_t pam_text_map_union(pam_text_map *a, pam_text_map *b, uint8_t how, pam_text_map *out);
uint8_t pam_text_map_intersection(pam_text_map *a, pam_text_map *b, uint8_t how, pam_text_map *out);
uint8_t pam_text_map_difference(pam_text_map *a, pam_text_map *b, pam_text_map *out);
/* The entries with keys less than a key, and those with keys at least it, in O(log n). 0, 4, 7 */
uint8_t pam_text_map_split(pam_text_map *map, const uint8_t *key, size_t len, pam_text_map *below, pam_text_map *from);
/* The entries with keys from `lo` to `hi`, both included, in O(log n). 0, 4, 7 */
uint8_t pam_text_map_range(pam_text_map *map, const uint8_t *lo, size_t lo_len, const uint8_t *hi, size_t hi_len, pam_text_map *out);

/* Writes the first entries with keys at least `from_key`, as many as there are and fit, and how many these are, in O(log n + k) for k
 * of them: the bytes of their keys in a row, where in that row each key ends, and the values. PAM_NO_ROOM where there is a place in
 * `ends` and `vals` for the first one, but no room for its key; how many bytes that has is written to `count`. The key behind the
 * last one written is that with a byte 0 at its end. No two of the arrays overlap. 0, 2, 4, 7 */
uint8_t pam_text_map_fill(pam_text_map *map, const uint8_t *from_key, size_t from_len, uint8_t *keys, size_t room, size_t *ends, size_t ends_len, uint64_t *vals, size_t vals_len, size_t *count);
/* Puts m entries in order, in O(m log(m + n)); a later value of a key wins. The bytes of the keys lie in a row: the first key begins
 * at 0, and each other where the one before it ends. A bad call where an end is less than the one before it, or greater than
 * `keys_len`. 0, 4, 7 */
uint8_t pam_text_map_put_many(pam_text_map *map, const uint8_t *keys, size_t keys_len, const size_t *ends, size_t ends_len, const uint64_t *vals, size_t vals_len);

/* ---- Sequences of uint64_t, with the sum and the greatest of the items. n is the number of items. ---- */

/* As those of maps. */
uint8_t pam_seq_new(pam_seq *seq);
uint8_t pam_seq_free(pam_seq *seq);
uint8_t pam_seq_share(pam_seq *seq, pam_seq *out);
uint8_t pam_seq_len(pam_seq *seq, uint64_t *len);
/* The item at a place, counted from 0, in O(log n). 0, 1, 4 */
uint8_t pam_seq_get(pam_seq *seq, uint64_t place, uint64_t *item);
/* Changes the item at a place, in O(log n). 0, 1, 4, 7 */
uint8_t pam_seq_set(pam_seq *seq, uint64_t place, uint64_t item);
/* Appends an item, in O(log n), or m items in order, in O(log n + m). 0, 4, 7 */
uint8_t pam_seq_push(pam_seq *seq, uint64_t item);
uint8_t pam_seq_push_many(pam_seq *seq, const uint64_t *items, size_t items_len);
/* Opens a closed handle with the sequence of the items, in O(n). 0, 4, 7 */
uint8_t pam_seq_build(pam_seq *seq, const uint64_t *items, size_t items_len);
/* The items of `a` and then those of `b`, in O(log n). `a` and `b` may be one handle. 0, 4, 7 */
uint8_t pam_seq_append(pam_seq *a, pam_seq *b, pam_seq *out);
/* The first `count` items, and those after them, in O(log n); all and none where there are fewer. 0, 4, 7 */
uint8_t pam_seq_take(pam_seq *seq, uint64_t count, pam_seq *out);
uint8_t pam_seq_skip(pam_seq *seq, uint64_t count, pam_seq *out);
/* The items in reverse, in O(n). 0, 4, 7 */
uint8_t pam_seq_reverse(pam_seq *seq, pam_seq *out);
/* The sum, at most UINT64_MAX, and the greatest of all items, in O(1), and of `count` items from a place, in O(log n); both 0
 * where there are none. 0, 4 */
uint8_t pam_seq_fold(pam_seq *seq, uint64_t *sum, uint64_t *greatest);
uint8_t pam_seq_fold_range(pam_seq *seq, uint64_t from, uint64_t count, uint64_t *sum, uint64_t *greatest);
/* Writes the items from a place on, as many as there are and fit, and how many these are, in O(log n) and O(1) for each. 0, 4 */
uint8_t pam_seq_fill(pam_seq *seq, uint64_t from_place, uint64_t *items, size_t items_len, size_t *count);

/* ---- Sets of closed intervals of uint64_t. n is the number of intervals, k that of those written. ---- */

/* As those of maps. */
uint8_t pam_intervals_new(pam_intervals *set);
uint8_t pam_intervals_free(pam_intervals *set);
uint8_t pam_intervals_share(pam_intervals *set, pam_intervals *out);
uint8_t pam_intervals_len(pam_intervals *set, uint64_t *len);
/* Adds an interval, in O(log n); a bad call where left > right. 0, 4, 7 */
uint8_t pam_intervals_add(pam_intervals *set, uint64_t left, uint64_t right);
/* Removes an interval, in O(log n). 0, 1, 4, 7 */
uint8_t pam_intervals_del(pam_intervals *set, uint64_t left, uint64_t right);
/* Whether an interval contains the point, in O(log n): 0 where one does, 1 where none does. 0, 1, 4 */
uint8_t pam_intervals_any(pam_intervals *set, uint64_t point);
/* Opens a closed handle with the set of the intervals, in O(n log n); a bad call where one has left > right. 0, 4, 7 */
uint8_t pam_intervals_build(pam_intervals *set, const uint64_t *lefts, size_t lefts_len, const uint64_t *rights, size_t rights_len);
/* The intervals that contain a point, and those that have a point of lo to hi, in order, and how many they are, in
 * O(log n + k log n); `overlapping` is a bad call where lo > hi. 0, 2, 4, 7 */
uint8_t pam_intervals_stab(pam_intervals *set, uint64_t point, uint64_t *lefts, size_t lefts_len, uint64_t *rights, size_t rights_len, size_t *count);
uint8_t pam_intervals_overlapping(pam_intervals *set, uint64_t lo, uint64_t hi, uint64_t *lefts, size_t lefts_len, uint64_t *rights, size_t rights_len, size_t *count);
/* Writes the first intervals that are at least (from_left, from_right), by left and then by right, as many as there are and fit,
 * and how many these are, in O(log n + k). 0, 4, 7 */
uint8_t pam_intervals_fill(pam_intervals *set, uint64_t from_left, uint64_t from_right, uint64_t *lefts, size_t lefts_len, uint64_t *rights, size_t rights_len, size_t *count);

#ifdef __cplusplus
}
#endif

#endif
