/* hashbag: counted hash multisets of numbers and of byte strings. Made by `bash tests/pages/header.sh --write` from crates/hashbag_c.
 *
 * A handle is one word. It starts as HASHBAG_NONE, which is empty: it has no bag. `hashbag_numbers_new` and `hashbag_texts_new` put a bag into
 * it, and `hashbag_free` leaves it empty again. A call on an empty handle, or on one that has a bag of the other kind, changes nothing, and
 * returns HASHBAG_EMPTY or HASHBAG_KIND, or a count of 0.
 *
 * A walk is a handle of its own, `hashbag_walk`, which starts as HASHBAG_NONE too. `hashbag_numbers_walk` and `hashbag_texts_walk` copy the pairs of a
 * bag into it, `hashbag_numbers_next` and `hashbag_texts_next` write the next ones, and `hashbag_walk_free` leaves it empty again.
 *
 * The library is proved for callers that keep to this:
 *  1. Handles. A handle was HASHBAG_NONE first, and since then only this library wrote it. It is never copied: no two handles have one bag. A
 *     call with two handles gets two different ones.
 *  2. Memory. A pointer isn't null, not even with the length 0, but for `hashbag_free(NULL)` and `hashbag_walk_free(NULL)`, which do nothing. It is
 *     aligned, and there is memory of the length that is given. What a call writes overlaps no other argument. Who replaces `malloc` replaces
 *     `realloc` and `free` too, and aligns to 16.
 *  3. Threads. A handle stays on the thread that put a bag or a walk into it, and has one call at a time, also of calls that only read. There is no call
 *     from a signal handler, or in the child of a `fork` of a program with threads.
 *
 * Lines of C aren't proved: those that leave a null pointer alone, `hashbag_error_text`, and the calls of `malloc`, `realloc` and `free`.
 */
#ifndef HASHBAG_H
#define HASHBAG_H

#include <stdbool.h>
#include <stddef.h>
#include <stdint.h>

#ifdef __cplusplus
extern "C" {
#endif

typedef struct hashbag {
    void *at;
} hashbag;

typedef struct hashbag_walk {
    void *at;
} hashbag_walk;

#define HASHBAG_NONE { NULL }

/* The version: that of the Rust crate that is ported, a hyphen, and the number of the release. */
#define HASHBAG_VERSION "0.1.13-3"

/* What the calls that can fail return. */
enum hashbag_error {
    HASHBAG_OK = 0,
    /* An allocation failed, or a call would make room for more than 3 * 2^57 distinct values. */
    HASHBAG_MEMORY = 1,
    /* The total would pass the bag's limit. */
    HASHBAG_TOO_MANY = 2,
    /* The tree is neither an array nor an object. Or it is an object that has no array as its member `pairs`, or that has
     * another member than `limit` and `pairs`. */
    HASHBAG_JSON_NOT_AN_ARRAY = 3,
    /* The pair is no array of exactly two. */
    HASHBAG_JSON_NOT_A_PAIR = 4,
    /* The second part of the pair is no whole number from 0 to `SIZE_MAX`. A float isn't one, not even 1.0. */
    HASHBAG_JSON_BAD_COUNT = 5,
    /* The first part of the pair isn't the tree of an item. */
    HASHBAG_JSON_BAD_ITEM = 6,
    /* The total would pass the limit with the pair. */
    HASHBAG_JSON_TOO_MANY = 7,
    /* The limit would be below the total. */
    HASHBAG_BELOW_TOTAL = 9,
    /* The member `limit` of an object is absent, or no whole number from 0 to `SIZE_MAX`. A float isn't one, not even 1.0. */
    HASHBAG_JSON_BAD_LIMIT = 10,
    /* The handle has no bag. */
    HASHBAG_EMPTY = 20,
    /* The handle has a bag of the other kind. */
    HASHBAG_KIND = 21,
    /* The ends of byte strings aren't ascending, or an end is past the last byte. */
    HASHBAG_ENDS = 22,
    /* The text is longer than the buffer. */
    HASHBAG_SHORT = 23,
    /* The text isn't JSON, or isn't UTF-8. */
    HASHBAG_NOT_JSON = 24,
};

/* ---- bags of either kind */

/* Frees the bag, and leaves an empty handle. An empty handle stays empty. */
void hashbag_free(hashbag *handle);

/* Returns the number of occurrences: the sum of all counts. Returns 0 for an empty handle. */
size_t hashbag_len(hashbag *handle);

/* Returns the number of distinct values. Returns 0 for an empty handle. */
size_t hashbag_set_len(hashbag *handle);

/* Returns the limit: the greatest total that the bag may have. Returns 0 for an empty handle. */
size_t hashbag_limit(hashbag *handle);

/* Sets the limit to `most`, and returns 0. Nothing else changes.
 *
 * Errors:
 * `HASHBAG_BELOW_TOTAL` if `most` is below the total; `HASHBAG_EMPTY` if the handle has no bag. Then nothing changes. */
uint8_t hashbag_set_limit(hashbag *handle, size_t most);

/* Removes all occurrences. The bag keeps its limit, its keys and its memory. */
void hashbag_clear(hashbag *handle);

/* Makes room for `n` absent values, and returns 0. Inserting these values then allocates nothing but the bytes of byte
 * strings.
 *
 * Errors:
 * `HASHBAG_MEMORY` if an allocation fails; `HASHBAG_EMPTY` if the handle has no bag. Then nothing changes. */
uint8_t hashbag_reserve(hashbag *handle, size_t n);

/* Frees memory that the bag doesn't need, and returns 0. If less memory is enough for the values, they are moved into
 * a new allocation. A bag without values allocates nothing.
 *
 * Errors:
 * `HASHBAG_MEMORY` if an allocation fails; `HASHBAG_EMPTY` if the handle has no bag. Then nothing changes. */
uint8_t hashbag_shrink_to_fit(hashbag *handle);

/* Returns how many distinct values the bag can have before it grows. Returns 0 for an empty handle. */
size_t hashbag_capacity(hashbag *handle);

/* Puts a bag with the same counts, limit and keys into `copy`, and returns 0. The bag that `copy` had is freed.
 * `handle` and `copy` must be different handles.
 *
 * Errors:
 * `HASHBAG_MEMORY` if an allocation fails; `HASHBAG_EMPTY` if `handle` has no bag. Then nothing changes. */
uint8_t hashbag_clone(hashbag *handle, hashbag *copy);

/* Returns whether two handles have bags of one kind in which each value occurs equally often, or both handles are
 * empty. `a` and `b` must be different handles. */
bool hashbag_equal(hashbag *a, hashbag *b);

/* ---- two bags of one kind */

/* Adds all occurrences of the bag of `from` to the bag of `into`, and returns 0: each count is then the sum of both
 * counts. The bag of `from` is unchanged. `into` and `from` must be different handles.
 *
 * Errors:
 * `HASHBAG_TOO_MANY` if the total would pass the limit of `into`; `HASHBAG_MEMORY` if an allocation fails;
 * `HASHBAG_EMPTY` if a handle is empty; `HASHBAG_KIND` if the bags are of different kinds. Nothing changes then. */
uint8_t hashbag_merge(hashbag *into, hashbag *from);

/* Lowers each count in the bag of `handle` to the lesser of the counts in both bags, and returns 0. The call doesn't
 * allocate, and the bag of `other` is unchanged. `handle` and `other` must be different handles.
 *
 * Errors:
 * `HASHBAG_EMPTY` if a handle is empty; `HASHBAG_KIND` if the bags are of different kinds. Nothing changes then. */
uint8_t hashbag_keep_common(hashbag *handle, hashbag *other);

/* Subtracts each count in the bag of `other` from the count in the bag of `handle`, never below 0, and returns 0. The
 * call doesn't allocate, and the bag of `other` is unchanged. `handle` and `other` must be different handles.
 *
 * Errors:
 * `HASHBAG_EMPTY` if a handle is empty; `HASHBAG_KIND` if the bags are of different kinds. Nothing changes then. */
uint8_t hashbag_take_away(hashbag *handle, hashbag *other);

/* Raises each count in the bag of `into` to the greater of the counts in both bags, and returns 0. The bag of `from`
 * is unchanged. `into` and `from` must be different handles. The call makes a copy of the bag of `from`, and frees it.
 *
 * Errors:
 * `HASHBAG_MEMORY` if an allocation fails; `HASHBAG_TOO_MANY` if the total of the greater counts would pass the limit
 * of `into`; `HASHBAG_EMPTY` if a handle is empty; `HASHBAG_KIND` if the bags are of different kinds. Nothing changes
 * then. */
uint8_t hashbag_keep_most(hashbag *into, hashbag *from);

/* ---- bags of numbers */

/* Puts an empty bag of numbers with the limit `most` into the handle, and returns 0. The bag that the handle had is
 * freed.
 *
 * The numbers are hashed under fixed keys, the same in every run. Use `hashbag_numbers_new_keyed` if strangers choose
 * the numbers.
 *
 * Errors:
 * `HASHBAG_MEMORY` if an allocation fails. Nothing changes then. */
uint8_t hashbag_numbers_new(hashbag *handle, size_t most);

/* Does the same as `hashbag_numbers_new`, with two keys of the caller. Draw the keys at random: whoever knows them can
 * find numbers that collide.
 *
 * Errors:
 * `HASHBAG_MEMORY` if an allocation fails. Nothing changes then. */
uint8_t hashbag_numbers_new_keyed(hashbag *handle, size_t most, uint64_t key0, uint64_t key1);

/* Inserts `n` occurrences of a number, writes the count before, and returns 0. If `n` is 0, the bag is unchanged.
 *
 * Errors:
 * `HASHBAG_TOO_MANY` if the total would pass the limit; `HASHBAG_MEMORY` if the number is absent, there is no room,
 * and an allocation fails; `HASHBAG_EMPTY` if the handle has no bag; `HASHBAG_KIND` if its bag is one of byte strings.
 * Then nothing changes, and nothing is written. */
uint8_t hashbag_numbers_insert(hashbag *handle, uint64_t value, size_t n, size_t *before);

/* Returns the count of a number, or 0 if the number is absent or the handle has no bag of numbers. */
size_t hashbag_numbers_contains(hashbag *handle, uint64_t value);

/* Removes `n` occurrences of a number, or all if there are fewer, and returns the count after. Returns 0 if the handle
 * has no bag of numbers. */
size_t hashbag_numbers_remove(hashbag *handle, uint64_t value, size_t n);

/* Removes all occurrences of a number, and returns how many there were. Returns 0 if the handle has no bag of numbers. */
size_t hashbag_numbers_take_all(hashbag *handle, uint64_t value);

/* Sets the count of a number to `n`, writes the count before, and returns 0. If `n` is 0, the number is removed.
 *
 * Errors:
 * `HASHBAG_TOO_MANY` if the total would pass the limit; `HASHBAG_MEMORY` if the number is absent, there is no room,
 * and an allocation fails; `HASHBAG_EMPTY` if the handle has no bag; `HASHBAG_KIND` if its bag is one of byte strings.
 * Then nothing changes, and nothing is written. */
uint8_t hashbag_numbers_set_count(hashbag *handle, uint64_t value, size_t n, size_t *before);

/* ---- bags of numbers, many at once */

/* Inserts each of `values_len` numbers once, in order, until an insertion fails. Writes how many were inserted, and
 * returns 0 if all were.
 *
 * Errors:
 * Same as `hashbag_numbers_insert`. Then the numbers before the one that failed have been inserted. */
uint8_t hashbag_numbers_insert_all(hashbag *handle, const uint64_t *values, size_t values_len, size_t *done);

/* Keeps at most `most[i]` occurrences of each number `values[i]`, and returns 0. If a number is listed twice, its
 * first place counts. A number that isn't listed is removed. If the arrays differ in length, the rest of the longer
 * one is ignored.
 *
 * Errors:
 * `HASHBAG_MEMORY` if the allocation of a bag of the listed numbers fails; `HASHBAG_EMPTY` if the handle has no bag;
 * `HASHBAG_KIND` if its bag is one of byte strings. Then nothing changes. */
uint8_t hashbag_numbers_retain(hashbag *handle, const uint64_t *values, size_t values_len, const size_t *most,
                               size_t most_len);

/* Writes distinct numbers and their counts into two arrays, as many as both have places for, in no particular order.
 * Returns how many were written: all, if each array has `hashbag_set_len` places; 0 if the handle has no bag of
 * numbers. */
size_t hashbag_numbers_read(hashbag *handle, uint64_t *values, size_t values_len, size_t *counts, size_t counts_len);

/* Writes each number of two bags once, with its count in the first and in the second bag, 0 in a bag that lacks it.
 * The numbers of the first bag come first. Returns how many were written: as many as the shortest array has places
 * for; 0 if a handle has no bag of numbers. All are written if each array has as many places as both bags together
 * have distinct numbers. `a` and `b` must be different handles. */
size_t hashbag_numbers_outer_join(hashbag *a, hashbag *b, uint64_t *values, size_t values_len, size_t *firsts,
                                  size_t firsts_len, size_t *seconds, size_t seconds_len);

/* ---- joins of bags of numbers */

/* Writes each number that the first bag has more often than the second, with how many more: as many as both arrays
 * have places for, in no particular order. Returns how many. All are written if both arrays have as many places as the
 * first bag has distinct numbers. `a` and `b` must be different handles. It returns 0 if one of them has no bag of
 * numbers. It doesn't allocate. */
size_t hashbag_numbers_difference(hashbag *a, hashbag *b, uint64_t *values, size_t values_len, size_t *counts,
                                  size_t counts_len);

/* Writes each number of the first bag that the second lacks, with its count: as many as both arrays have places for,
 * in no particular order. Returns how many. All are written if both arrays have as many places as the first bag has
 * distinct numbers. `a` and `b` must be different handles. It returns 0 if one of them has no bag of numbers. It
 * doesn't allocate. */
size_t hashbag_numbers_not_in(hashbag *a, hashbag *b, uint64_t *values, size_t values_len, size_t *counts,
                              size_t counts_len);

/* Writes each number of two bags once, with its count in the first less its count in the second. The numbers of the
 * first bag come first. A difference above `PTRDIFF_MAX` or below `PTRDIFF_MIN` is written as that bound. It writes as
 * many as both arrays have places for, and returns how many. All are written if both arrays have as many places as
 * both bags together have distinct numbers. `a` and `b` must be different handles. It returns 0 if one of them has no
 * bag of numbers. It doesn't allocate. */
size_t hashbag_numbers_signed_difference(hashbag *a, hashbag *b, uint64_t *values, size_t values_len,
                                         ptrdiff_t *differences, size_t differences_len);

/* ---- bags of numbers, in an order */

/* Writes the distinct numbers in ascending order, and their counts, into two arrays, as many as both have places for.
 * Writes how many into `n`, and returns 0. All are written if each array has `hashbag_set_len` places. It makes one
 * allocation, a list of all distinct numbers, and sorts it.
 *
 * Errors:
 * `HASHBAG_MEMORY` if the allocation fails; `HASHBAG_EMPTY`; `HASHBAG_KIND`. Nothing is written then. The bag is
 * unchanged in any case. */
uint8_t hashbag_numbers_sorted(hashbag *handle, uint64_t *values, size_t values_len, size_t *counts,
                               size_t counts_len, size_t *n);

/* Writes the k most common numbers and their counts into two arrays: k is the lesser of their lengths. They are in
 * descending order of counts, and in ascending order if they occur equally often. Writes how many into `n`, and
 * returns 0. It reads each distinct number once, and makes two allocations at most, each of as many pairs as it
 * writes.
 *
 * Errors:
 * `HASHBAG_MEMORY` if an allocation fails; `HASHBAG_EMPTY`; `HASHBAG_KIND`. Nothing is written then. The bag is
 * unchanged in any case. */
uint8_t hashbag_numbers_most_common(hashbag *handle, uint64_t *values, size_t values_len, size_t *counts,
                                    size_t counts_len, size_t *n);

/* ---- bags of numbers as JSON */

/* Writes a bag of numbers as a JSON text at the beginning of `bytes`, writes the length of the text into `len`, and
 * returns 0. No NUL follows. The text is `[[5,2],[7,1]]`: each distinct number with its count, numbers in ascending
 * order, without spaces. A bag with a limit below `SIZE_MAX` is `{"limit":9,"pairs":[[5,2],[7,1]]}`. Bags with the
 * same counts and the same limit have the same text. The whole text is first built in memory that the call allocates.
 *
 * Errors:
 * `HASHBAG_SHORT` if the text is longer than `bytes`: `len` is its length then, and nothing else is written.
 * `HASHBAG_MEMORY` if an allocation fails; `HASHBAG_EMPTY`; `HASHBAG_KIND`. Nothing is written then. The bag is
 * unchanged in any case. */
uint8_t hashbag_numbers_to_json(hashbag *handle, uint8_t *bytes, size_t bytes_len, size_t *len);

/* Reads a bag of numbers from a JSON text, puts it into the handle, and returns 0. The bag that the handle had is
 * freed. The limit of the new bag is the limit in the text or `most`, whichever is less. The text has one of the forms
 * that `hashbag_numbers_to_json` writes; spaces may be between its tokens. Equal numbers add up, and a pair with the
 * count 0 is checked and adds nothing.
 *
 * Its numbers are hashed under fixed keys, alike in every run. Use `hashbag_numbers_from_json_keyed` if strangers
 * wrote the text.
 *
 * Errors:
 * `HASHBAG_NOT_JSON` if the text isn't JSON or isn't UTF-8: `at` is then how many of its bytes had been read when that
 * was found. One of `HASHBAG_JSON_..` for the first fault of a JSON text: if a pair is at fault, `at` is its number,
 * counted from 0. `HASHBAG_MEMORY` if an allocation fails. Then the handle is unchanged, and `at` too except in the
 * two cases above. */
uint8_t hashbag_numbers_from_json(hashbag *handle, size_t most, const uint8_t *text, size_t text_len, size_t *at);

/* Reads a bag from a JSON text into the handle, as `hashbag_numbers_from_json` does, with two keys of the caller. Draw
 * the keys at random: whoever knows them can find numbers that collide.
 *
 * Errors:
 * Same as `hashbag_numbers_from_json`. */
uint8_t hashbag_numbers_from_json_keyed(hashbag *handle, size_t most, uint64_t key0, uint64_t key1,
                                        const uint8_t *text, size_t text_len, size_t *at);

/* ---- bags of byte strings */

/* Puts an empty bag of byte strings with the limit `most` into the handle, and returns 0. The bag that the handle had
 * is freed.
 *
 * The byte strings are hashed by SipHash under fixed keys, the same in every run. Use `hashbag_texts_new_keyed` if
 * strangers choose the strings.
 *
 * Errors:
 * `HASHBAG_MEMORY` if an allocation fails. Nothing changes then. */
uint8_t hashbag_texts_new(hashbag *handle, size_t most);

/* Does the same as `hashbag_texts_new`, with two keys of SipHash, which the caller draws at random: then nobody can
 * choose byte strings that collide.
 *
 * Errors:
 * `HASHBAG_MEMORY` if an allocation fails. Nothing changes then. */
uint8_t hashbag_texts_new_keyed(hashbag *handle, size_t most, uint64_t key0, uint64_t key1);

/* Inserts `n` occurrences of a byte string, writes the count before, and returns 0. With 0 nothing changes. The bytes
 * are copied if the string is absent.
 *
 * Errors:
 * `HASHBAG_TOO_MANY` if the total would pass the limit; `HASHBAG_MEMORY` if the string is absent and an allocation
 * fails; `HASHBAG_EMPTY`; `HASHBAG_KIND`. Nothing changes then, and nothing is written. */
uint8_t hashbag_texts_insert(hashbag *handle, const uint8_t *value, size_t value_len, size_t n, size_t *before);

/* Returns the count of a byte string, 0 if it is absent or the handle has no bag of byte strings. */
size_t hashbag_texts_contains(hashbag *handle, const uint8_t *value, size_t value_len);

/* Removes `n` occurrences of a byte string, or all if there are fewer, and returns the count after. It is 0 if the
 * handle has no bag of byte strings. */
size_t hashbag_texts_remove(hashbag *handle, const uint8_t *value, size_t value_len, size_t n);

/* Removes all occurrences of a byte string, and returns how many there were. It is 0 if the handle has no bag of byte
 * strings. */
size_t hashbag_texts_take_all(hashbag *handle, const uint8_t *value, size_t value_len);

/* Sets the count of a byte string to `n`, writes the count before, and returns 0. With 0 the string is removed. The
 * bytes are copied if the string is absent.
 *
 * Errors:
 * `HASHBAG_TOO_MANY` if the total would pass the limit; `HASHBAG_MEMORY` if the string is absent and an allocation
 * fails; `HASHBAG_EMPTY`; `HASHBAG_KIND`. Nothing changes then, and nothing is written. */
uint8_t hashbag_texts_set_count(hashbag *handle, const uint8_t *value, size_t value_len, size_t n, size_t *before);

/* ---- bags of byte strings, many at once */

/* Inserts byte strings that lie one after another in `bytes`, each once, in turn, until one fails. String 0 is
 * `bytes[0..ends[0]]`, and string i is `bytes[ends[i - 1]..ends[i]]`. Writes how many were inserted, and returns 0 if
 * that is all.
 *
 * Errors:
 * `HASHBAG_TOO_MANY` if the total would pass the limit; `HASHBAG_MEMORY` if an allocation fails; `HASHBAG_EMPTY`;
 * `HASHBAG_KIND`; `HASHBAG_ENDS` if an end is below the one before it, or above `bytes_len`. The strings before the
 * one that fails stay in the bag. */
uint8_t hashbag_texts_insert_all(hashbag *handle, const uint8_t *bytes, size_t bytes_len, const size_t *ends,
                                 size_t ends_len, size_t *done);

/* Inserts the pieces of `bytes` between separators, each once, in turn, until one fails. There is one piece more than
 * separators, and some may be empty. Writes how many were inserted, and returns 0 if that is all.
 *
 * Errors:
 * `HASHBAG_TOO_MANY` if the total would pass the limit; `HASHBAG_MEMORY` if an allocation fails; `HASHBAG_EMPTY`;
 * `HASHBAG_KIND`. The pieces before the one that fails stay in the bag. */
uint8_t hashbag_texts_insert_split(hashbag *handle, const uint8_t *bytes, size_t bytes_len, uint8_t separator,
                                   size_t *done);

/* Keeps at most `most[i]` occurrences of each listed string i, and returns 0. The strings lie one after another in
 * `bytes`, as those of `hashbag_texts_insert_all`: string i ends at `ends[i]`. If a string is listed twice, its first
 * place counts. A string that isn't listed is removed. If `ends` and `most` differ in length, the rest of the longer
 * one is ignored.
 *
 * Errors:
 * `HASHBAG_ENDS` if an end is below the one before it, or above `bytes_len`; `HASHBAG_MEMORY` if an allocation fails,
 * since it makes a bag of the listed strings; `HASHBAG_EMPTY`; `HASHBAG_KIND`. Nothing changes then. */
uint8_t hashbag_texts_retain(hashbag *handle, const uint8_t *bytes, size_t bytes_len, const size_t *ends,
                             size_t ends_len, const size_t *most, size_t most_len);

/* Returns how many bytes the distinct byte strings have in all: `hashbag_texts_read` needs as many places. Returns 0
 * if the handle has no bag of byte strings. */
size_t hashbag_texts_bytes(hashbag *handle);

/* Writes distinct byte strings one after another into `bytes`, the place where each string ends into `ends`, and its
 * count into `counts`. Returns how many strings were written. It stops before the first string for which there is no
 * place. All are written, in no particular order, if `ends` and `counts` have `hashbag_set_len` places and `bytes` has
 * `hashbag_texts_bytes`. It returns 0 if the handle has no bag of byte strings. */
size_t hashbag_texts_read(hashbag *handle, uint8_t *bytes, size_t bytes_len, size_t *ends, size_t ends_len,
                          size_t *counts, size_t counts_len);

/* ---- joins of bags of byte strings */

/* Writes the byte strings of two bags, each once, as `hashbag_texts_read` does, with the count of each in the first
 * and in the second. A bag that lacks it counts 0. The strings of the first bag are first. It writes as many as there
 * are places for, and returns how many. All are written if `ends`, `firsts` and `seconds` have as many places as both
 * bags together have distinct strings, and `bytes` as many as these strings have bytes. `a` and `b` must be different
 * handles. It returns 0 if one of them has no bag of byte strings. */
size_t hashbag_texts_outer_join(hashbag *a, hashbag *b, uint8_t *bytes, size_t bytes_len, size_t *ends,
                                size_t ends_len, size_t *firsts, size_t firsts_len, size_t *seconds,
                                size_t seconds_len);

/* Writes the byte strings that the first bag has more often than the second, each with how many more. They are written
 * as by `hashbag_texts_read`, in no particular order, as many as there are places for. Returns how many. All are
 * written if `ends` and `counts` have as many places as the first bag has distinct strings, and `bytes` as many as
 * these strings have bytes. `a` and `b` must be different handles. It returns 0 if one of them has no bag of byte
 * strings. It doesn't allocate. */
size_t hashbag_texts_difference(hashbag *a, hashbag *b, uint8_t *bytes, size_t bytes_len, size_t *ends,
                                size_t ends_len, size_t *counts, size_t counts_len);

/* Writes the byte strings of the first bag that the second lacks, each with its count. They are written as by
 * `hashbag_texts_read`, in no particular order, as many as there are places for. Returns how many. All are written if
 * `ends` and `counts` have as many places as the first bag has distinct strings, and `bytes` as many as these strings
 * have bytes. `a` and `b` must be different handles. It returns 0 if one of them has no bag of byte strings. It
 * doesn't allocate. */
size_t hashbag_texts_not_in(hashbag *a, hashbag *b, uint8_t *bytes, size_t bytes_len, size_t *ends, size_t ends_len,
                            size_t *counts, size_t counts_len);

/* Writes the byte strings of two bags, each once, as `hashbag_texts_read` does, with its count in the first less its
 * count in the second. The strings of the first bag come first. A difference above `PTRDIFF_MAX` or below
 * `PTRDIFF_MIN` is written as that bound. It writes as many as there are places for, and returns how many. All are
 * written if `ends` and `differences` have as many places as both bags together have distinct strings, and `bytes` as
 * many as these strings have bytes. `a` and `b` must be different handles. It returns 0 if one of them has no bag of
 * byte strings. It doesn't allocate. */
size_t hashbag_texts_signed_difference(hashbag *a, hashbag *b, uint8_t *bytes, size_t bytes_len, size_t *ends,
                                       size_t ends_len, ptrdiff_t *differences, size_t differences_len);

/* ---- bags of byte strings, in an order */

/* Writes the distinct byte strings in ascending order, by unsigned bytes, and their counts, as `hashbag_texts_read`
 * does. Writes how many into `n`, and returns 0, also if not all have places. All are written if `ends` and `counts`
 * have `hashbag_set_len` places and `bytes` has `hashbag_texts_bytes`. It makes one allocation, a list of all distinct
 * strings, and sorts it.
 *
 * Errors:
 * `HASHBAG_MEMORY` if the allocation fails; `HASHBAG_EMPTY`; `HASHBAG_KIND`. Nothing is written then. The bag is
 * unchanged in any case. */
uint8_t hashbag_texts_sorted(hashbag *handle, uint8_t *bytes, size_t bytes_len, size_t *ends, size_t ends_len,
                             size_t *counts, size_t counts_len, size_t *n);

/* Writes the k most common byte strings and their counts, as `hashbag_texts_read` does: in descending order of counts,
 * and in ascending order, by unsigned bytes, if they occur equally often. k is the lesser of `ends_len` and
 * `counts_len`. Writes how many into `n`, and returns 0. All k are written if `bytes` has `hashbag_texts_bytes`
 * places. It reads each distinct string once, and makes two allocations at most, each of as many pairs as it may
 * write.
 *
 * Errors:
 * `HASHBAG_MEMORY` if an allocation fails; `HASHBAG_EMPTY`; `HASHBAG_KIND`. Nothing is written then. The bag is
 * unchanged in any case. */
uint8_t hashbag_texts_most_common(hashbag *handle, uint8_t *bytes, size_t bytes_len, size_t *ends, size_t ends_len,
                                  size_t *counts, size_t counts_len, size_t *n);

/* ---- bags of byte strings as JSON */

/* Writes a bag of byte strings as a JSON text at the beginning of `bytes`, writes the length of the text into `len`,
 * and returns 0. No NUL follows. The text is `[["cat",2],["dog",1]]`: each distinct string with its count, strings in
 * ascending order by their bytes, without spaces. A string that isn't UTF-8 is an array of its bytes, as `[255,0]`. A
 * bag with a limit below `SIZE_MAX` is `{"limit":9,"pairs":[["cat",2],["dog",1]]}`. Bags with the same counts and the
 * same limit have the same text. The whole text is first built in memory that the call allocates.
 *
 * Errors:
 * `HASHBAG_SHORT` if the text is longer than `bytes`: `len` is its length then, and nothing else is written.
 * `HASHBAG_MEMORY` if an allocation fails; `HASHBAG_EMPTY`; `HASHBAG_KIND`. Nothing is written then. The bag is
 * unchanged in any case. */
uint8_t hashbag_texts_to_json(hashbag *handle, uint8_t *bytes, size_t bytes_len, size_t *len);

/* Reads a bag of byte strings from a JSON text, puts it into the handle, and returns 0. The bag that the handle had is
 * freed. The limit of the new bag is the limit in the text or `most`, whichever is less. The text has one of the forms
 * that `hashbag_texts_to_json` writes. Spaces may be between its tokens, and a string may be an array of its bytes
 * even if they are UTF-8. Equal strings add up, and a pair with the count 0 is checked and adds nothing.
 *
 * Its strings are hashed by SipHash under fixed keys, alike in every run. Use `hashbag_texts_from_json_keyed` if
 * strangers wrote the text.
 *
 * Errors:
 * `HASHBAG_NOT_JSON` if the text isn't JSON or isn't UTF-8: `at` is then how many of its bytes had been read when that
 * was found. One of `HASHBAG_JSON_..` for the first fault of a JSON text: if a pair is at fault, `at` is its number,
 * counted from 0. `HASHBAG_MEMORY` if an allocation fails. Then the handle is unchanged, and `at` too except in the
 * two cases above. */
uint8_t hashbag_texts_from_json(hashbag *handle, size_t most, const uint8_t *text, size_t text_len, size_t *at);

/* Reads a bag from a JSON text into the handle, as `hashbag_texts_from_json` does, with two keys of SipHash. The
 * caller draws them at random: then nobody can choose byte strings that collide.
 *
 * Errors:
 * Same as `hashbag_texts_from_json`. */
uint8_t hashbag_texts_from_json_keyed(hashbag *handle, size_t most, uint64_t key0, uint64_t key1,
                                      const uint8_t *text, size_t text_len, size_t *at);

/* ---- walks of either kind */

/* Returns how many distinct values are left of a walk. It is 0 at the end, and for an empty walk. */
size_t hashbag_walk_left(hashbag_walk *walk);

/* Frees what is left of a walk, and leaves an empty walk. An empty walk stays empty. */
void hashbag_walk_free(hashbag_walk *walk);

/* ---- walks over bags of numbers */

/* Begins a walk over a bag of numbers, and returns 0. The walk has a copy of all distinct numbers with their counts,
 * in no particular order, so the bag may change or be freed meanwhile. A walk that was there is freed. It makes two
 * allocations at most, one of all pairs.
 *
 * Errors:
 * `HASHBAG_MEMORY` if an allocation fails; `HASHBAG_EMPTY`; `HASHBAG_KIND`. Nothing changes then. */
uint8_t hashbag_numbers_walk(hashbag *handle, hashbag_walk *walk);

/* Writes the next numbers of a walk and their counts into two arrays, as many as both have places for, and returns how
 * many. The next call goes on after them: the parts of all calls together are all distinct numbers, each once. It
 * returns 0 at the end, or if the walk isn't one over numbers. It doesn't allocate. */
size_t hashbag_numbers_next(hashbag_walk *walk, uint64_t *values, size_t values_len, size_t *counts,
                            size_t counts_len);

/* ---- walks over bags of byte strings */

/* Begins a walk over a bag of byte strings, and returns 0. The walk has a copy of all distinct strings with their
 * counts, in no particular order, so the bag may change or be freed meanwhile. A walk that was there is freed. It
 * makes an allocation for each string, one for their list, and one for the walk.
 *
 * Errors:
 * `HASHBAG_MEMORY` if an allocation fails; `HASHBAG_EMPTY`; `HASHBAG_KIND`. Nothing changes then. */
uint8_t hashbag_texts_walk(hashbag *handle, hashbag_walk *walk);

/* Writes the next byte strings of a walk and their counts, as `hashbag_texts_read` does: as many as there are places
 * for. Returns how many. The next call goes on after them: the parts of all calls together are all distinct strings,
 * each once. It returns 0 at the end, or if the walk isn't one over byte strings. It also returns 0 if the next string
 * is longer than `bytes`: `hashbag_walk_left` isn't 0 then, and `hashbag_texts_next_len` returns how many bytes it
 * needs. It doesn't allocate. */
size_t hashbag_texts_next(hashbag_walk *walk, uint8_t *bytes, size_t bytes_len, size_t *ends, size_t ends_len,
                          size_t *counts, size_t counts_len);

/* Returns how many bytes the next byte string of a walk has, which `hashbag_texts_next` needs places for to write it.
 * It is 0 at the end, or if the walk isn't one over byte strings. */
size_t hashbag_texts_next_len(hashbag_walk *walk);

/* ---- errors */

/* Returns what a number means that a call returned, as a text: of the enum above, or `unknown error`. It isn't to be freed. This function isn't
 * proved. */
const char *hashbag_error_text(uint8_t code);

#ifdef __cplusplus
}
#endif

#endif
