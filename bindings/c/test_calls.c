/* Calls each function of the library, and compares what it returns with an array of counts or with a result found by hand. The status is 0 if all is
 * right. `bindings/try` also runs it under AddressSanitizer and valgrind. */
#include "hashbag.h"
#include <stdio.h>
#include <stdlib.h>
#include <string.h>

#define CHECK(it)                                          \
    do {                                                   \
        if (!(it)) {                                       \
            printf("test_calls: line %d: %s\n", __LINE__, #it); \
            exit(1);                                       \
        }                                                  \
    } while (0)
#define TEXT(it) (const uint8_t *)(it), strlen(it)

/* Numbers that repeat in each run. */
static uint64_t state = 88172645463325252u;

static uint64_t draw(uint64_t n) {
    state ^= state << 13;
    state ^= state >> 7;
    state ^= state << 17;
    return state % n;
}

static uint64_t scattered(uint64_t i) {
    return i * 0x9e3779b97f4a7c15u;
}

/* An empty handle, and a bag of the other kind: each call says so, and changes nothing. */
static void wrong_handles(void) {
    hashbag empty = HASHBAG_NONE, numbers = HASHBAG_NONE, texts = HASHBAG_NONE;
    size_t word = 77, ends[1] = {1}, counts[1];
    uint64_t value = 5;
    uint8_t byte;
    CHECK(hashbag_numbers_new(&numbers, 9) == HASHBAG_OK && hashbag_texts_new(&texts, 9) == HASHBAG_OK);
    CHECK(hashbag_numbers_insert(&empty, 5, 1, &word) == HASHBAG_EMPTY && hashbag_numbers_insert(&texts, 5, 1, &word) == HASHBAG_KIND);
    CHECK(hashbag_numbers_set_count(&empty, 5, 1, &word) == HASHBAG_EMPTY && hashbag_numbers_set_count(&texts, 5, 1, &word) == HASHBAG_KIND);
    CHECK(hashbag_texts_insert(&empty, TEXT("a"), 1, &word) == HASHBAG_EMPTY && hashbag_texts_insert(&numbers, TEXT("a"), 1, &word) == HASHBAG_KIND);
    CHECK(hashbag_texts_set_count(&empty, TEXT("a"), 1, &word) == HASHBAG_EMPTY && hashbag_texts_set_count(&numbers, TEXT("a"), 1, &word) == HASHBAG_KIND);
    CHECK(hashbag_numbers_sorted(&empty, &value, 1, counts, 1, &word) == HASHBAG_EMPTY && hashbag_numbers_sorted(&texts, &value, 1, counts, 1, &word) == HASHBAG_KIND);
    CHECK(hashbag_numbers_most_common(&empty, &value, 1, counts, 1, &word) == HASHBAG_EMPTY && hashbag_numbers_most_common(&texts, &value, 1, counts, 1, &word) == HASHBAG_KIND);
    CHECK(hashbag_texts_sorted(&empty, &byte, 1, ends, 1, counts, 1, &word) == HASHBAG_EMPTY && hashbag_texts_sorted(&numbers, &byte, 1, ends, 1, counts, 1, &word) == HASHBAG_KIND);
    CHECK(hashbag_texts_most_common(&empty, &byte, 1, ends, 1, counts, 1, &word) == HASHBAG_EMPTY && hashbag_texts_most_common(&numbers, &byte, 1, ends, 1, counts, 1, &word) == HASHBAG_KIND);
    CHECK(hashbag_numbers_to_json(&empty, &byte, 1, &word) == HASHBAG_EMPTY && hashbag_numbers_to_json(&texts, &byte, 1, &word) == HASHBAG_KIND);
    CHECK(hashbag_texts_to_json(&empty, &byte, 1, &word) == HASHBAG_EMPTY && hashbag_texts_to_json(&numbers, &byte, 1, &word) == HASHBAG_KIND);
    CHECK(word == 77);
    CHECK(hashbag_numbers_insert_all(&empty, &value, 1, &word) == HASHBAG_EMPTY && word == 0);
    CHECK(hashbag_numbers_insert_all(&texts, &value, 1, &word) == HASHBAG_KIND && word == 0);
    CHECK(hashbag_texts_insert_all(&empty, TEXT("a"), ends, 1, &word) == HASHBAG_EMPTY && hashbag_texts_insert_all(&numbers, TEXT("a"), ends, 1, &word) == HASHBAG_KIND);
    CHECK(hashbag_texts_insert_split(&empty, TEXT("a"), ',', &word) == HASHBAG_EMPTY && hashbag_texts_insert_split(&numbers, TEXT("a"), ',', &word) == HASHBAG_KIND);
    CHECK(hashbag_numbers_retain(&empty, &value, 1, ends, 1) == HASHBAG_EMPTY && hashbag_numbers_retain(&texts, &value, 1, ends, 1) == HASHBAG_KIND);
    CHECK(hashbag_texts_retain(&empty, TEXT("a"), ends, 1, ends, 1) == HASHBAG_EMPTY && hashbag_texts_retain(&numbers, TEXT("a"), ends, 1, ends, 1) == HASHBAG_KIND);
    CHECK(hashbag_set_limit(&empty, 1) == HASHBAG_EMPTY && hashbag_reserve(&empty, 1) == HASHBAG_EMPTY && hashbag_shrink_to_fit(&empty) == HASHBAG_EMPTY);
    CHECK(hashbag_clone(&empty, &texts) == HASHBAG_EMPTY && hashbag_limit(&texts) == 9);
    CHECK(hashbag_merge(&empty, &numbers) == HASHBAG_EMPTY && hashbag_merge(&texts, &empty) == HASHBAG_EMPTY && hashbag_merge(&numbers, &texts) == HASHBAG_KIND);
    CHECK(hashbag_keep_common(&empty, &texts) == HASHBAG_EMPTY && hashbag_keep_common(&numbers, &empty) == HASHBAG_EMPTY && hashbag_keep_common(&texts, &numbers) == HASHBAG_KIND);
    CHECK(hashbag_keep_most(&empty, &texts) == HASHBAG_EMPTY && hashbag_keep_most(&texts, &empty) == HASHBAG_EMPTY && hashbag_keep_most(&numbers, &texts) == HASHBAG_KIND);
    CHECK(hashbag_take_away(&empty, &texts) == HASHBAG_EMPTY && hashbag_take_away(&texts, &empty) == HASHBAG_EMPTY && hashbag_take_away(&numbers, &texts) == HASHBAG_KIND);
    CHECK(hashbag_numbers_take_all(&empty, 5) == 0 && hashbag_numbers_take_all(&texts, 5) == 0 && hashbag_texts_take_all(&numbers, TEXT("a")) == 0);
    CHECK(hashbag_numbers_contains(&empty, 5) == 0 && hashbag_numbers_contains(&texts, 5) == 0 && hashbag_texts_contains(&numbers, TEXT("a")) == 0);
    CHECK(hashbag_numbers_remove(&texts, 5, 1) == 0 && hashbag_texts_remove(&numbers, TEXT("a"), 1) == 0 && hashbag_texts_bytes(&numbers) == 0);
    CHECK(hashbag_numbers_read(&texts, &value, 1, counts, 1) == 0 && hashbag_texts_read(&numbers, &byte, 1, ends, 1, counts, 1) == 0);
    CHECK(hashbag_numbers_outer_join(&numbers, &texts, &value, 1, &word, 1, counts, 1) == 0 && hashbag_numbers_outer_join(&empty, &numbers, &value, 1, &word, 1, counts, 1) == 0);
    CHECK(hashbag_texts_outer_join(&texts, &numbers, &byte, 1, ends, 1, &word, 1, counts, 1) == 0 && hashbag_texts_outer_join(&texts, &empty, &byte, 1, ends, 1, &word, 1, counts, 1) == 0);
    CHECK(hashbag_numbers_difference(&numbers, &texts, &value, 1, counts, 1) == 0 && hashbag_numbers_difference(&empty, &numbers, &value, 1, counts, 1) == 0);
    CHECK(hashbag_numbers_not_in(&texts, &numbers, &value, 1, counts, 1) == 0 && hashbag_numbers_not_in(&numbers, &empty, &value, 1, counts, 1) == 0);
    ptrdiff_t sign;
    CHECK(hashbag_numbers_signed_difference(&texts, &numbers, &value, 1, &sign, 1) == 0 && hashbag_numbers_signed_difference(&numbers, &empty, &value, 1, &sign, 1) == 0);
    CHECK(hashbag_texts_signed_difference(&texts, &numbers, &byte, 1, ends, 1, &sign, 1) == 0 && hashbag_texts_signed_difference(&empty, &texts, &byte, 1, ends, 1, &sign, 1) == 0);
    CHECK(hashbag_texts_difference(&texts, &numbers, &byte, 1, ends, 1, counts, 1) == 0 && hashbag_texts_difference(&empty, &texts, &byte, 1, ends, 1, counts, 1) == 0);
    CHECK(hashbag_texts_not_in(&numbers, &texts, &byte, 1, ends, 1, counts, 1) == 0 && hashbag_texts_not_in(&texts, &empty, &byte, 1, ends, 1, counts, 1) == 0);
    CHECK(hashbag_len(&empty) == 0 && hashbag_set_len(&empty) == 0 && hashbag_limit(&empty) == 0 && hashbag_capacity(&empty) == 0);
    CHECK(!hashbag_equal(&numbers, &texts) && !hashbag_equal(&empty, &texts) && !hashbag_equal(&numbers, &empty));
    hashbag other = HASHBAG_NONE;
    CHECK(hashbag_equal(&empty, &other));
    hashbag_walk walk = HASHBAG_NONE;
    CHECK(hashbag_numbers_walk(&empty, &walk) == HASHBAG_EMPTY && hashbag_numbers_walk(&texts, &walk) == HASHBAG_KIND);
    CHECK(hashbag_texts_walk(&empty, &walk) == HASHBAG_EMPTY && hashbag_texts_walk(&numbers, &walk) == HASHBAG_KIND && walk.at == NULL);
    CHECK(hashbag_numbers_next(&walk, &value, 1, counts, 1) == 0 && hashbag_texts_next(&walk, &byte, 1, ends, 1, counts, 1) == 0);
    CHECK(hashbag_walk_left(&walk) == 0 && hashbag_texts_next_len(&walk) == 0);
    hashbag_walk_free(&walk);
    hashbag_clear(&empty);
    hashbag_free(&empty);
    hashbag_free(&numbers);
    hashbag_free(&numbers);
    hashbag_free(&texts);
    CHECK(hashbag_len(&texts) == 0 && texts.at == NULL);
}

/* What isn't proved: null pointers, and a text of its own for each error. */
static void lines_of_c(void) {
    static const uint8_t codes[15] = {HASHBAG_OK, HASHBAG_MEMORY, HASHBAG_TOO_MANY, HASHBAG_JSON_NOT_AN_ARRAY, HASHBAG_JSON_NOT_A_PAIR, HASHBAG_JSON_BAD_COUNT,
                                      HASHBAG_JSON_BAD_ITEM, HASHBAG_JSON_TOO_MANY, HASHBAG_BELOW_TOTAL, HASHBAG_JSON_BAD_LIMIT, HASHBAG_EMPTY, HASHBAG_KIND,
                                      HASHBAG_ENDS, HASHBAG_SHORT, HASHBAG_NOT_JSON};
    int known = 0;
    hashbag_free(NULL);
    hashbag_walk_free(NULL);
    for (int code = 0; code < 256; code++) known += strcmp(hashbag_error_text((uint8_t)code), "unknown error") != 0;
    CHECK(known == 15);
    for (int i = 0; i < 15; i++)
        for (int k = 0; k < i; k++) CHECK(strcmp(hashbag_error_text(codes[i]), hashbag_error_text(codes[k])) != 0);
    CHECK(!strcmp(hashbag_error_text(HASHBAG_BELOW_TOTAL), "the limit would be below the total"));
}

/* Random calls beside an array of counts. */
static void against_counts(hashbag *bag, size_t *model, uint64_t values, size_t most) {
    size_t total = 0, distinct = 0, before;
    for (int i = 0; i < 200000; i++) {
        uint64_t v = draw(values);
        size_t n = draw(4);
        switch (draw(4)) {
        case 0:
        case 1: {
            uint8_t code = hashbag_numbers_insert(bag, scattered(v), n, &before);
            CHECK(code == (total + n > most ? HASHBAG_TOO_MANY : HASHBAG_OK));
            if (code == HASHBAG_OK) {
                CHECK(before == model[v]);
                model[v] += n, total += n;
            }
            break;
        }
        case 2: {
            size_t gone = model[v] < n ? model[v] : n;
            model[v] -= gone, total -= gone;
            CHECK(hashbag_numbers_remove(bag, scattered(v), n) == model[v]);
            break;
        }
        default: {
            uint8_t code = hashbag_numbers_set_count(bag, scattered(v), n, &before);
            CHECK(code == (total - model[v] + n > most ? HASHBAG_TOO_MANY : HASHBAG_OK));
            if (code == HASHBAG_OK) {
                CHECK(before == model[v]);
                total = total - model[v] + n, model[v] = n;
            }
        }
        }
    }
    for (uint64_t v = 0; v < values; v++) {
        distinct += model[v] > 0;
        CHECK(hashbag_numbers_contains(bag, scattered(v)) == model[v]);
    }
    CHECK(hashbag_len(bag) == total && hashbag_set_len(bag) == distinct && hashbag_limit(bag) == most);
}

static void numbers(void) {
    enum { VALUES = 5000, MOST = 6000 };
    static size_t model[VALUES];
    hashbag bag = HASHBAG_NONE, twin = HASHBAG_NONE;
    size_t before, done, sum = 0;
    CHECK(hashbag_numbers_new(&bag, 10) == HASHBAG_OK && hashbag_numbers_insert(&bag, 5, 10, &before) == HASHBAG_OK && before == 0);
    CHECK(hashbag_set_limit(&bag, 9) == HASHBAG_BELOW_TOTAL && hashbag_limit(&bag) == 10 && hashbag_set_limit(&bag, MOST) == HASHBAG_OK);
    hashbag_clear(&bag);
    CHECK(hashbag_len(&bag) == 0 && hashbag_limit(&bag) == MOST);
    against_counts(&bag, model, VALUES, MOST);
    size_t distinct = hashbag_set_len(&bag);
    uint64_t *values = malloc(2 * distinct * sizeof *values);
    size_t *counts = malloc(2 * distinct * sizeof *counts), *seconds = malloc(2 * distinct * sizeof *seconds);
    CHECK(hashbag_numbers_read(&bag, values, distinct, counts, distinct) == distinct);
    for (size_t i = 0; i < distinct; i++) {
        CHECK(hashbag_numbers_contains(&bag, values[i]) == counts[i]);
        sum += counts[i];
    }
    CHECK(sum == hashbag_len(&bag));
    CHECK(hashbag_numbers_read(&bag, values, 3, counts, 2) == 2 && hashbag_numbers_read(&bag, values, 0, counts, 5) == 0);
    CHECK(hashbag_numbers_sorted(&bag, values, distinct, counts, distinct, &done) == HASHBAG_OK && done == distinct);
    for (size_t i = 0; i < distinct; i++) CHECK(hashbag_numbers_contains(&bag, values[i]) == counts[i] && counts[i] > 0 && (i == 0 || values[i - 1] < values[i]));
    uint64_t first_values[5];
    size_t first_counts[5];
    CHECK(hashbag_numbers_sorted(&bag, first_values, 5, first_counts, 4, &done) == HASHBAG_OK && done == 4 && !memcmp(first_values, values, 4 * sizeof *values));
    CHECK(hashbag_numbers_most_common(&bag, values, distinct, counts, distinct, &done) == HASHBAG_OK && done == distinct);
    for (size_t i = 0; i < distinct; i++) {
        CHECK(hashbag_numbers_contains(&bag, values[i]) == counts[i] && counts[i] > 0);
        CHECK(i == 0 || counts[i - 1] > counts[i] || (counts[i - 1] == counts[i] && values[i - 1] < values[i]));
    }
    CHECK(hashbag_numbers_most_common(&bag, first_values, 4, first_counts, 5, &done) == HASHBAG_OK && done == 4);
    CHECK(!memcmp(first_values, values, 4 * sizeof *values) && !memcmp(first_counts, counts, 4 * sizeof *counts));
    CHECK(hashbag_numbers_most_common(&bag, values, 0, counts, 5, &done) == HASHBAG_OK && done == 0);
    CHECK(hashbag_numbers_new_keyed(&twin, SIZE_MAX, draw(1000), draw(1000)) == HASHBAG_OK && !hashbag_equal(&bag, &twin));
    CHECK(hashbag_numbers_read(&bag, values, distinct, counts, distinct) == distinct);
    CHECK(hashbag_reserve(&twin, distinct) == HASHBAG_OK && hashbag_capacity(&twin) >= distinct);
    CHECK(hashbag_reserve(&twin, SIZE_MAX) == HASHBAG_MEMORY);
    for (size_t i = 0; i < distinct; i++) CHECK(hashbag_numbers_insert(&twin, values[i], counts[i], &before) == HASHBAG_OK && before == 0);
    CHECK(hashbag_equal(&bag, &twin));
    CHECK(hashbag_numbers_insert_all(&twin, values, distinct, &done) == HASHBAG_OK && done == distinct && hashbag_len(&twin) == sum + distinct);
    CHECK(hashbag_numbers_insert(&twin, 1, 7, &before) == HASHBAG_OK);
    size_t joined = hashbag_numbers_outer_join(&bag, &twin, values, 2 * distinct, counts, 2 * distinct, seconds, 2 * distinct);
    CHECK(joined == distinct + 1 && values[distinct] == 1 && counts[distinct] == 0 && seconds[distinct] == 7);
    for (size_t i = 0; i < distinct; i++) CHECK(counts[i] == hashbag_numbers_contains(&bag, values[i]) && seconds[i] == counts[i] + 1);
    CHECK(hashbag_numbers_outer_join(&bag, &twin, values, 4, counts, 3, seconds, 2) == 2);
    CHECK(hashbag_clone(&bag, &twin) == HASHBAG_OK && hashbag_equal(&bag, &twin) && hashbag_limit(&twin) == MOST && hashbag_len(&twin) == sum);
    CHECK(hashbag_reserve(&twin, 20000) == HASHBAG_OK && hashbag_shrink_to_fit(&twin) == HASHBAG_OK && hashbag_capacity(&twin) < 20000 && hashbag_equal(&bag, &twin));
    CHECK(hashbag_numbers_read(&bag, values, distinct, counts, distinct) == distinct);
    for (size_t i = 0; i < distinct; i++) {
        CHECK(hashbag_numbers_take_all(&twin, values[i]) == counts[i] && hashbag_numbers_take_all(&twin, values[i]) == 0);
        CHECK(hashbag_set_len(&twin) == distinct - 1 - i && hashbag_numbers_contains(&bag, values[i]) == counts[i]);
    }
    CHECK(hashbag_len(&twin) == 0 && hashbag_shrink_to_fit(&twin) == HASHBAG_OK && hashbag_capacity(&twin) == 0);
    CHECK(hashbag_numbers_new(&twin, 3) == HASHBAG_OK && hashbag_numbers_insert_all(&twin, values, 9, &done) == HASHBAG_TOO_MANY && done == 3);
    free(values), free(counts), free(seconds);
    hashbag_free(&bag), hashbag_free(&twin);
}

static void texts(void) {
    hashbag bag = HASHBAG_NONE, pieces = HASHBAG_NONE;
    size_t before, done;
    CHECK(hashbag_texts_new_keyed(&bag, SIZE_MAX, 1, 2) == HASHBAG_OK);
    CHECK(hashbag_texts_insert(&bag, TEXT("the"), 2, &before) == HASHBAG_OK && before == 0);
    CHECK(hashbag_texts_insert(&bag, TEXT(""), 1, &before) == HASHBAG_OK && before == 0);
    CHECK(hashbag_texts_insert(&bag, (const uint8_t *)"a\0b", 3, 1, &before) == HASHBAG_OK && hashbag_texts_contains(&bag, (const uint8_t *)"a\0b", 3) == 1);
    CHECK(hashbag_texts_contains(&bag, TEXT("a")) == 0 && hashbag_texts_contains(&bag, TEXT("")) == 1 && hashbag_len(&bag) == 4 && hashbag_set_len(&bag) == 3);
    CHECK(hashbag_texts_insert(&bag, TEXT("none"), 0, &before) == HASHBAG_OK && hashbag_set_len(&bag) == 3);
    CHECK(hashbag_texts_remove(&bag, TEXT("the"), 1) == 1 && hashbag_texts_remove(&bag, TEXT("the"), 5) == 0 && hashbag_set_len(&bag) == 2);
    static uint8_t bytes[600000];
    static size_t ends[40000];
    size_t at = 0;
    for (int i = 0; i < 40000; i++) {
        at += (size_t)sprintf((char *)bytes + at, "word %llu", (unsigned long long)draw(3000));
        ends[i] = at;
    }
    CHECK(hashbag_texts_insert_all(&bag, bytes, at, ends, 40000, &done) == HASHBAG_OK && done == 40000 && hashbag_len(&bag) == 40002);
    size_t falling[3] = {4, 3, 8}, past[3] = {4, at + 1, at + 2};
    CHECK(hashbag_texts_insert_all(&bag, bytes, at, falling, 3, &done) == HASHBAG_ENDS && done == 1);
    CHECK(hashbag_texts_insert_all(&bag, bytes, at, past, 3, &done) == HASHBAG_ENDS && done == 1);
    CHECK(hashbag_texts_new(&pieces, SIZE_MAX) == HASHBAG_OK && hashbag_texts_insert_split(&pieces, TEXT("ab,,c,ab,"), ',', &done) == HASHBAG_OK && done == 5);
    CHECK(hashbag_texts_contains(&pieces, TEXT("ab")) == 2 && hashbag_texts_contains(&pieces, TEXT("")) == 2 && hashbag_texts_contains(&pieces, TEXT("c")) == 1);
    CHECK(hashbag_texts_insert_split(&pieces, TEXT(""), ',', &done) == HASHBAG_OK && done == 1 && hashbag_len(&pieces) == 6);
    CHECK(hashbag_set_limit(&pieces, 8) == HASHBAG_OK && hashbag_texts_insert_split(&pieces, TEXT("x,y,z"), ',', &done) == HASHBAG_TOO_MANY && done == 2);
    hashbag_free(&pieces);
    size_t n = hashbag_set_len(&bag), size = hashbag_texts_bytes(&bag), sum = 0, from = 0;
    uint8_t *all = malloc(size);
    size_t *all_ends = malloc(n * sizeof *all_ends), *counts = malloc(n * sizeof *counts);
    CHECK(hashbag_texts_read(&bag, all, size, all_ends, n, counts, n) == n && all_ends[n - 1] == size);
    for (size_t i = 0; i < n; i++) {
        CHECK(hashbag_texts_contains(&bag, all + from, all_ends[i] - from) == counts[i]);
        from = all_ends[i], sum += counts[i];
    }
    CHECK(sum == hashbag_len(&bag));
    CHECK(hashbag_texts_read(&bag, all, size, all_ends, n - 1, counts, n) == n - 1 && hashbag_texts_read(&bag, all, size, all_ends, n, counts, 2) == 2);
    free(all), free(all_ends), free(counts);
    hashbag_free(&bag);
}

/* Counts of byte strings that are set, copies of bags, and joins, found by hand. */
static void two_bags_of_texts(void) {
    hashbag bag = HASHBAG_NONE, twin = HASHBAG_NONE;
    size_t before, ends[9], firsts[9], seconds[9];
    uint8_t bytes[9];
    CHECK(hashbag_texts_new_keyed(&bag, 9, 1, 2) == HASHBAG_OK && hashbag_texts_set_count(&bag, TEXT("bb"), 5, &before) == HASHBAG_OK && before == 0);
    CHECK(hashbag_texts_set_count(&bag, TEXT("bb"), 2, &before) == HASHBAG_OK && before == 5 && hashbag_texts_contains(&bag, TEXT("bb")) == 2);
    CHECK(hashbag_texts_set_count(&bag, TEXT("bb"), 10, &before) == HASHBAG_TOO_MANY && before == 5 && hashbag_texts_contains(&bag, TEXT("bb")) == 2);
    CHECK(hashbag_texts_set_count(&bag, TEXT("bb"), 9, &before) == HASHBAG_OK && before == 2 && hashbag_len(&bag) == 9);
    CHECK(hashbag_texts_set_count(&bag, TEXT("bb"), 0, &before) == HASHBAG_OK && before == 9 && hashbag_set_len(&bag) == 0);
    CHECK(hashbag_texts_insert(&bag, TEXT("a"), 2, &before) == HASHBAG_OK && hashbag_texts_insert(&bag, TEXT(""), 3, &before) == HASHBAG_OK);
    CHECK(hashbag_clone(&bag, &twin) == HASHBAG_OK && hashbag_equal(&bag, &twin) && hashbag_limit(&twin) == 9);
    CHECK(hashbag_texts_take_all(&twin, TEXT("a")) == 2 && hashbag_texts_take_all(&twin, TEXT("a")) == 0 && hashbag_texts_contains(&bag, TEXT("a")) == 2);
    CHECK(hashbag_texts_insert(&twin, TEXT("ccc"), 1, &before) == HASHBAG_OK);
    CHECK(hashbag_texts_outer_join(&bag, &twin, bytes, 4, ends, 3, firsts, 3, seconds, 3) == 3);
    CHECK(!memcmp(bytes, "accc", 4) && ends[2] == 4 && firsts[2] == 0 && seconds[2] == 1);
    CHECK(ends[0] == 0 ? firsts[0] == 3 && seconds[0] == 3 && ends[1] == 1 : ends[0] == 1 && firsts[0] == 2 && seconds[0] == 0 && ends[1] == 1);
    CHECK(ends[0] == 0 ? firsts[1] == 2 && seconds[1] == 0 : firsts[1] == 3 && seconds[1] == 3);
    CHECK(hashbag_texts_outer_join(&bag, &twin, bytes, 3, ends, 9, firsts, 9, seconds, 9) == 2);
    CHECK(hashbag_texts_outer_join(&bag, &twin, bytes, 9, ends, 9, firsts, 1, seconds, 9) == 1);
    CHECK(hashbag_texts_difference(&bag, &twin, bytes, 9, ends, 9, firsts, 9) == 1 && bytes[0] == 'a' && ends[0] == 1 && firsts[0] == 2);
    CHECK(hashbag_texts_insert(&twin, TEXT(""), 1, &before) == HASHBAG_OK && hashbag_texts_difference(&twin, &bag, bytes, 9, ends, 9, firsts, 9) == 2);
    CHECK(ends[1] == 3 && !memcmp(bytes, "ccc", 3) && firsts[0] == 1 && firsts[1] == 1 && (ends[0] == 0 || ends[0] == 3));
    CHECK(hashbag_texts_not_in(&bag, &twin, bytes, 9, ends, 9, firsts, 9) == 1 && bytes[0] == 'a' && ends[0] == 1 && firsts[0] == 2);
    CHECK(hashbag_texts_not_in(&twin, &bag, bytes, 3, ends, 1, firsts, 1) == 1 && !memcmp(bytes, "ccc", 3) && ends[0] == 3 && firsts[0] == 1);
    CHECK(hashbag_texts_not_in(&twin, &bag, bytes, 2, ends, 9, firsts, 9) == 0 && hashbag_texts_not_in(&twin, &bag, bytes, 9, ends, 9, firsts, 0) == 0);
    ptrdiff_t signs[9];
    CHECK(hashbag_texts_signed_difference(&bag, &twin, bytes, 4, ends, 3, signs, 3) == 3 && !memcmp(bytes, "accc", 4) && ends[2] == 4 && signs[2] == -1);
    CHECK(ends[0] == 0 ? signs[0] == -1 && signs[1] == 2 && ends[1] == 1 : ends[0] == 1 && signs[0] == 2 && signs[1] == -1 && ends[1] == 1);
    CHECK(hashbag_texts_signed_difference(&bag, &twin, bytes, 3, ends, 9, signs, 9) == 2 && hashbag_texts_signed_difference(&bag, &twin, bytes, 9, ends, 9, signs, 1) == 1);
    CHECK(hashbag_shrink_to_fit(&bag) == HASHBAG_OK && hashbag_len(&bag) == 5);
    hashbag_free(&bag), hashbag_free(&twin);
}

/* Byte strings in an order, found by hand. */
static void ordered_texts(void) {
    hashbag bag = HASHBAG_NONE;
    size_t done, n = 77, ends[9], counts[9];
    uint8_t bytes[9];
    CHECK(hashbag_texts_new(&bag, SIZE_MAX) == HASHBAG_OK && hashbag_texts_insert_split(&bag, TEXT("b,ab,,b"), ',', &done) == HASHBAG_OK);
    CHECK(hashbag_texts_sorted(&bag, bytes, 9, ends, 9, counts, 9, &n) == HASHBAG_OK && n == 3 && !memcmp(bytes, "abb", 3));
    CHECK(ends[0] == 0 && ends[1] == 2 && ends[2] == 3 && counts[0] == 1 && counts[1] == 1 && counts[2] == 2);
    CHECK(hashbag_texts_sorted(&bag, bytes, 2, ends, 3, counts, 3, &n) == HASHBAG_OK && n == 2 && hashbag_texts_sorted(&bag, bytes, 9, ends, 9, counts, 1, &n) == HASHBAG_OK && n == 1);
    CHECK(hashbag_texts_most_common(&bag, bytes, 3, ends, 3, counts, 3, &n) == HASHBAG_OK && n == 3 && !memcmp(bytes, "bab", 3));
    CHECK(ends[0] == 1 && ends[1] == 1 && ends[2] == 3 && counts[0] == 2 && counts[1] == 1 && counts[2] == 1);
    CHECK(hashbag_texts_most_common(&bag, bytes, 2, ends, 3, counts, 3, &n) == HASHBAG_OK && n == 2 && hashbag_texts_most_common(&bag, bytes, 0, ends, 3, counts, 3, &n) == HASHBAG_OK && n == 0);
    CHECK(hashbag_texts_most_common(&bag, bytes, 9, ends, 1, counts, 9, &n) == HASHBAG_OK && n == 1 && bytes[0] == 'b' && ends[0] == 1 && counts[0] == 2);
    CHECK(hashbag_len(&bag) == 4 && hashbag_set_len(&bag) == 3);
    hashbag_free(&bag);
}

/* What a list keeps: values listed twice, with 0, and not there; more numbers than values; totals of a list above any size. */
static void retained(void) {
    hashbag numbers = HASHBAG_NONE, texts = HASHBAG_NONE;
    size_t done, before;
    uint64_t held[9] = {1, 1, 1, 2, 2, 2, 2, 2, 3}, values[5] = {2, 9, 2, 1, 3};
    size_t most[5] = {4, 7, 1, SIZE_MAX, 0}, all[5] = {SIZE_MAX, SIZE_MAX, SIZE_MAX, SIZE_MAX, SIZE_MAX};
    CHECK(hashbag_numbers_new(&numbers, 10) == HASHBAG_OK && hashbag_numbers_insert_all(&numbers, held, 9, &done) == HASHBAG_OK);
    CHECK(hashbag_numbers_retain(&numbers, values, 5, all, 5) == HASHBAG_OK && hashbag_len(&numbers) == 9);
    CHECK(hashbag_numbers_retain(&numbers, values, 5, most, 5) == HASHBAG_OK && hashbag_len(&numbers) == 7 && hashbag_set_len(&numbers) == 2);
    CHECK(hashbag_numbers_contains(&numbers, 2) == 4 && hashbag_numbers_contains(&numbers, 1) == 3 && hashbag_limit(&numbers) == 10);
    CHECK(hashbag_numbers_retain(&numbers, values, 5, most, 1) == HASHBAG_OK && hashbag_len(&numbers) == 4 && hashbag_numbers_contains(&numbers, 2) == 4);
    CHECK(hashbag_numbers_retain(&numbers, values, 0, most, 5) == HASHBAG_OK && hashbag_len(&numbers) == 0);
    size_t ends[4] = {1, 3, 3, 4}, falling[2] = {2, 1}, past[1] = {5};
    CHECK(hashbag_texts_new(&texts, SIZE_MAX) == HASHBAG_OK && hashbag_texts_insert_split(&texts, TEXT("a,bc,bc,,a,,d"), ',', &done) == HASHBAG_OK);
    CHECK(hashbag_texts_retain(&texts, TEXT("abca"), falling, 2, most, 2) == HASHBAG_ENDS && hashbag_texts_retain(&texts, TEXT("abca"), past, 1, most, 1) == HASHBAG_ENDS);
    CHECK(hashbag_len(&texts) == 7);
    size_t few[4] = {1, 5, 2, 0};
    CHECK(hashbag_texts_retain(&texts, TEXT("abca"), ends, 4, few, 4) == HASHBAG_OK && hashbag_len(&texts) == 5 && hashbag_set_len(&texts) == 3);
    CHECK(hashbag_texts_contains(&texts, TEXT("a")) == 1 && hashbag_texts_contains(&texts, TEXT("bc")) == 2 && hashbag_texts_contains(&texts, TEXT("")) == 2);
    CHECK(hashbag_texts_insert(&texts, TEXT("d"), 1, &before) == HASHBAG_OK && before == 0);
    hashbag_free(&numbers), hashbag_free(&texts);
}

/* Sums, common parts and differences of random bags of numbers, beside arrays of counts. */
static void combined_numbers(void) {
    enum { VALUES = 300 };
    for (int round = 0; round < 200; round++) {
        hashbag a = HASHBAG_NONE, b = HASHBAG_NONE, sum = HASHBAG_NONE, common = HASHBAG_NONE, most = HASHBAG_NONE, less = HASHBAG_NONE;
        size_t x[VALUES] = {0}, y[VALUES] = {0}, before, total = 0;
        CHECK(hashbag_numbers_new(&a, SIZE_MAX) == HASHBAG_OK && hashbag_numbers_new_keyed(&b, SIZE_MAX, draw(9), draw(9)) == HASHBAG_OK);
        uint64_t m = draw(VALUES) + 1, n = draw(VALUES) + 1;
        for (int i = 0; i < 200; i++) {
            uint64_t v = draw(m), w = draw(n);
            CHECK(hashbag_numbers_insert(&a, scattered(v), 1, &before) == HASHBAG_OK && hashbag_numbers_insert(&b, scattered(w), 2, &before) == HASHBAG_OK);
            x[v]++, y[w] += 2, total += 3;
        }
        CHECK(hashbag_clone(&a, &sum) == HASHBAG_OK && hashbag_clone(&a, &common) == HASHBAG_OK && hashbag_clone(&a, &less) == HASHBAG_OK);
        CHECK(hashbag_clone(&a, &most) == HASHBAG_OK && hashbag_keep_most(&most, &b) == HASHBAG_OK);
        CHECK(hashbag_set_limit(&sum, total - 1) == HASHBAG_OK && hashbag_merge(&sum, &b) == HASHBAG_TOO_MANY && hashbag_equal(&sum, &a));
        CHECK(hashbag_set_limit(&sum, total) == HASHBAG_OK && hashbag_merge(&sum, &b) == HASHBAG_OK && hashbag_len(&sum) == total);
        CHECK(hashbag_keep_common(&common, &b) == HASHBAG_OK && hashbag_take_away(&less, &b) == HASHBAG_OK);
        for (uint64_t v = 0; v < VALUES; v++) {
            CHECK(hashbag_numbers_contains(&sum, scattered(v)) == x[v] + y[v] && hashbag_numbers_contains(&b, scattered(v)) == y[v]);
            CHECK(hashbag_numbers_contains(&common, scattered(v)) == (x[v] < y[v] ? x[v] : y[v]));
            CHECK(hashbag_numbers_contains(&most, scattered(v)) == (x[v] < y[v] ? y[v] : x[v]));
            CHECK(hashbag_numbers_contains(&less, scattered(v)) == (x[v] < y[v] ? 0 : x[v] - y[v]));
        }
        uint64_t values[VALUES];
        size_t counts[VALUES], all = 0, alone = 0;
        size_t found = hashbag_numbers_difference(&a, &b, values, VALUES, counts, VALUES);
        for (size_t i = 0; i < found; i++) {
            CHECK(counts[i] > 0 && hashbag_numbers_contains(&less, values[i]) == counts[i]);
            all += counts[i];
        }
        CHECK(found == hashbag_set_len(&less) && all == hashbag_len(&less));
        CHECK(hashbag_numbers_difference(&a, &b, values, 3, counts, 2) == (found < 2 ? found : 2));
        for (uint64_t v = 0; v < VALUES; v++) alone += x[v] > 0 && y[v] == 0;
        found = hashbag_numbers_not_in(&a, &b, values, VALUES, counts, VALUES);
        CHECK(found == alone && hashbag_numbers_not_in(&a, &b, values, found, counts, found) == found);
        for (size_t i = 0; i < found; i++) {
            CHECK(counts[i] > 0 && hashbag_numbers_contains(&a, values[i]) == counts[i] && hashbag_numbers_contains(&b, values[i]) == 0);
            for (size_t j = 0; j < i; j++) CHECK(values[i] != values[j]);
        }
        static uint64_t both[2 * VALUES];
        static ptrdiff_t signs[2 * VALUES];
        found = hashbag_numbers_signed_difference(&a, &b, both, 2 * VALUES, signs, 2 * VALUES);
        CHECK(found == hashbag_set_len(&sum));
        for (size_t i = 0; i < found; i++) {
            CHECK(signs[i] == (ptrdiff_t)hashbag_numbers_contains(&a, both[i]) - (ptrdiff_t)hashbag_numbers_contains(&b, both[i]));
            for (size_t j = 0; j < i; j++) CHECK(both[i] != both[j]);
        }
        size_t greatest = hashbag_len(&most);
        CHECK(hashbag_clone(&a, &most) == HASHBAG_OK && (greatest == 200 || hashbag_set_limit(&most, greatest - 1) == HASHBAG_OK));
        CHECK(hashbag_keep_most(&most, &b) == (greatest == 200 ? HASHBAG_OK : HASHBAG_TOO_MANY) && hashbag_equal(&most, &a) && hashbag_len(&b) == 400);
        hashbag_free(&a), hashbag_free(&b), hashbag_free(&sum), hashbag_free(&common), hashbag_free(&most), hashbag_free(&less);
    }
}

/* Differences past the bounds of a signed number are written as the bounds. */
static void signed_bounds(void) {
    hashbag a = HASHBAG_NONE, b = HASHBAG_NONE;
    size_t before;
    uint64_t value;
    ptrdiff_t sign;
    CHECK(hashbag_numbers_new(&a, SIZE_MAX) == HASHBAG_OK && hashbag_numbers_new(&b, SIZE_MAX) == HASHBAG_OK);
    CHECK(hashbag_numbers_insert(&a, 5, SIZE_MAX, &before) == HASHBAG_OK && hashbag_numbers_signed_difference(&a, &b, &value, 1, &sign, 1) == 1);
    CHECK(value == 5 && sign == PTRDIFF_MAX && hashbag_numbers_signed_difference(&b, &a, &value, 1, &sign, 1) == 1 && value == 5 && sign == PTRDIFF_MIN);
    CHECK(hashbag_numbers_insert(&b, 5, 7, &before) == HASHBAG_OK && hashbag_numbers_remove(&a, 5, SIZE_MAX - 3) == 3);
    CHECK(hashbag_numbers_signed_difference(&a, &b, &value, 1, &sign, 1) == 1 && sign == -4 && hashbag_numbers_signed_difference(&b, &a, &value, 1, &sign, 1) == 1 && sign == 4);
    hashbag_free(&a), hashbag_free(&b);
}

static void combined_texts(void) {
    hashbag a = HASHBAG_NONE, b = HASHBAG_NONE, made = HASHBAG_NONE;
    size_t done;
    CHECK(hashbag_texts_new_keyed(&a, SIZE_MAX, 1, 2) == HASHBAG_OK && hashbag_texts_insert_split(&a, TEXT("x,x,x,,y"), ',', &done) == HASHBAG_OK);
    CHECK(hashbag_texts_new_keyed(&b, 5, 3, 4) == HASHBAG_OK && hashbag_texts_insert_split(&b, TEXT("x,,,z,z"), ',', &done) == HASHBAG_OK);
    CHECK(hashbag_clone(&a, &made) == HASHBAG_OK && hashbag_merge(&made, &b) == HASHBAG_OK && hashbag_len(&made) == 10 && hashbag_set_len(&made) == 4);
    CHECK(hashbag_texts_contains(&made, TEXT("x")) == 4 && hashbag_texts_contains(&made, TEXT("")) == 3 && hashbag_texts_contains(&made, TEXT("z")) == 2);
    CHECK(hashbag_clone(&a, &made) == HASHBAG_OK && hashbag_keep_common(&made, &b) == HASHBAG_OK && hashbag_len(&made) == 2 && hashbag_set_len(&made) == 2);
    CHECK(hashbag_texts_contains(&made, TEXT("x")) == 1 && hashbag_texts_contains(&made, TEXT("")) == 1);
    CHECK(hashbag_clone(&a, &made) == HASHBAG_OK && hashbag_take_away(&made, &b) == HASHBAG_OK && hashbag_len(&made) == 3 && hashbag_set_len(&made) == 2);
    CHECK(hashbag_texts_contains(&made, TEXT("x")) == 2 && hashbag_texts_contains(&made, TEXT("y")) == 1);
    CHECK(hashbag_clone(&a, &made) == HASHBAG_OK && hashbag_keep_most(&made, &b) == HASHBAG_OK && hashbag_len(&made) == 8 && hashbag_set_len(&made) == 4);
    CHECK(hashbag_texts_contains(&made, TEXT("x")) == 3 && hashbag_texts_contains(&made, TEXT("")) == 2 && hashbag_texts_contains(&made, TEXT("z")) == 2);
    CHECK(hashbag_merge(&b, &a) == HASHBAG_TOO_MANY && hashbag_len(&b) == 5 && hashbag_len(&a) == 5);
    hashbag_free(&a), hashbag_free(&b), hashbag_free(&made);
}

/* Walks in small parts, over bags that change or are freed meanwhile. */
static void number_walks(void) {
    enum { VALUES = 1000 };
    static char seen[VALUES];
    hashbag bag = HASHBAG_NONE;
    hashbag_walk walk = HASHBAG_NONE;
    size_t before, ends[1], counts[7], read = 0, n;
    uint64_t values[7];
    uint8_t byte;
    CHECK(hashbag_numbers_new(&bag, SIZE_MAX) == HASHBAG_OK);
    for (uint64_t v = 0; v < VALUES; v++) CHECK(hashbag_numbers_insert(&bag, v, v + 1, &before) == HASHBAG_OK);
    CHECK(hashbag_numbers_walk(&bag, &walk) == HASHBAG_OK && hashbag_walk_left(&walk) == VALUES && hashbag_set_len(&bag) == VALUES);
    hashbag_free(&bag);
    CHECK(hashbag_numbers_next(&walk, values, 0, counts, 7) == 0 && hashbag_numbers_next(&walk, values, 7, counts, 0) == 0 && hashbag_walk_left(&walk) == VALUES);
    while ((n = hashbag_numbers_next(&walk, values, 7, counts, draw(7) + 1)) > 0) {
        for (size_t i = 0; i < n; i++) {
            CHECK(values[i] < VALUES && counts[i] == values[i] + 1 && !seen[values[i]]);
            seen[values[i]] = 1;
        }
        read += n;
        CHECK(hashbag_walk_left(&walk) == VALUES - read);
    }
    CHECK(read == VALUES && hashbag_numbers_next(&walk, values, 7, counts, 7) == 0);
    CHECK(hashbag_numbers_new(&bag, 9) == HASHBAG_OK && hashbag_numbers_insert(&bag, 5, 2, &before) == HASHBAG_OK);
    CHECK(hashbag_numbers_walk(&bag, &walk) == HASHBAG_OK && hashbag_numbers_walk(&bag, &walk) == HASHBAG_OK && hashbag_walk_left(&walk) == 1);
    CHECK(hashbag_texts_next(&walk, &byte, 1, ends, 1, counts, 1) == 0 && hashbag_texts_next_len(&walk) == 0);
    CHECK(hashbag_texts_walk(&bag, &walk) == HASHBAG_KIND && hashbag_walk_left(&walk) == 1);
    hashbag_clear(&bag);
    CHECK(hashbag_numbers_next(&walk, values, 7, counts, 7) == 1 && values[0] == 5 && counts[0] == 2);
    CHECK(hashbag_numbers_walk(&bag, &walk) == HASHBAG_OK && hashbag_walk_left(&walk) == 0 && hashbag_numbers_next(&walk, values, 7, counts, 7) == 0);
    hashbag_free(&bag), hashbag_walk_free(&walk), hashbag_walk_free(&walk);
    CHECK(walk.at == NULL && hashbag_walk_left(&walk) == 0);
}

static void text_walks(void) {
    enum { VALUES = 500 };
    static char seen[VALUES];
    hashbag bag = HASHBAG_NONE;
    hashbag_walk walk = HASHBAG_NONE;
    size_t before, ends[5], counts[5], read = 0, n;
    uint64_t value;
    uint8_t bytes[24];
    char text[24];
    CHECK(hashbag_texts_new_keyed(&bag, SIZE_MAX, 1, 2) == HASHBAG_OK);
    for (size_t v = 0; v < VALUES; v++) {
        size_t len = (size_t)sprintf(text, "%zu%s", v, v % 3 ? "" : " times three");
        CHECK(hashbag_texts_insert(&bag, (uint8_t *)text, len, v + 1, &before) == HASHBAG_OK);
    }
    CHECK(hashbag_texts_walk(&bag, &walk) == HASHBAG_OK && hashbag_walk_left(&walk) == VALUES);
    hashbag_free(&bag);
    while (hashbag_walk_left(&walk) > 0) {
        size_t next = hashbag_texts_next_len(&walk), size = next + draw(3);
        if (next > 0) CHECK(hashbag_texts_next(&walk, bytes, next - 1, ends, 5, counts, 5) == 0 && hashbag_walk_left(&walk) == VALUES - read);
        n = hashbag_texts_next(&walk, bytes, size, ends, 5, counts, draw(5) + 1);
        CHECK(n > 0 && ends[0] == next && ends[n - 1] <= size);
        for (size_t i = 0, from = 0; i < n; from = ends[i++]) {
            size_t v = counts[i] - 1, len = (size_t)sprintf(text, "%zu%s", v, v % 3 ? "" : " times three");
            CHECK(v < VALUES && !seen[v] && len == ends[i] - from && !memcmp(text, bytes + from, len));
            seen[v] = 1;
        }
        read += n;
    }
    CHECK(read == VALUES && hashbag_texts_next(&walk, bytes, 24, ends, 5, counts, 5) == 0 && hashbag_texts_next_len(&walk) == 0);
    CHECK(hashbag_texts_new(&bag, 9) == HASHBAG_OK && hashbag_texts_insert(&bag, TEXT(""), 3, &before) == HASHBAG_OK && hashbag_texts_walk(&bag, &walk) == HASHBAG_OK);
    CHECK(hashbag_texts_next_len(&walk) == 0 && hashbag_walk_left(&walk) == 1 && hashbag_numbers_next(&walk, &value, 1, counts, 1) == 0);
    CHECK(hashbag_texts_next(&walk, bytes, 0, ends, 1, counts, 1) == 1 && ends[0] == 0 && counts[0] == 3 && hashbag_walk_left(&walk) == 0);
    CHECK(hashbag_texts_insert(&bag, TEXT("left"), 1, &before) == HASHBAG_OK && hashbag_texts_walk(&bag, &walk) == HASHBAG_OK && hashbag_walk_left(&walk) == 2);
    hashbag_free(&bag), hashbag_walk_free(&walk);
}

/* What a JSON text is read as: its error and the place of it, or its counts. */
struct text {
    const char *text;
    uint8_t code;
    size_t at;
};

static const struct text BAD_NUMBERS[] = {
    {"5", HASHBAG_JSON_NOT_AN_ARRAY, 77},
    {"{\"limit\":5,\"pairs\":[],\"x\":1}", HASHBAG_JSON_NOT_AN_ARRAY, 77},
    {"{\"limit\":5}", HASHBAG_JSON_NOT_AN_ARRAY, 77},
    {"{\"pairs\":[]}", HASHBAG_JSON_BAD_LIMIT, 77},
    {"[[5,2],[7]]", HASHBAG_JSON_NOT_A_PAIR, 1},
    {"[[5,2],[7,1],[8,-1]]", HASHBAG_JSON_BAD_COUNT, 2},
    {"[[5,1.0]]", HASHBAG_JSON_BAD_COUNT, 0},
    {"[[5,2],[-7,1]]", HASHBAG_JSON_BAD_ITEM, 1},
    {"[[\"5\",1]]", HASHBAG_JSON_BAD_ITEM, 0},
    {"[[5,2],[5,98],[6,0],[7,1]]", HASHBAG_JSON_TOO_MANY, 3},
    {"{\"limit\":3,\"pairs\":[[5,2],[7,2]]}", HASHBAG_JSON_TOO_MANY, 1},
};
static const struct text BAD_TEXTS[] = {
    {"[[5,1]]", HASHBAG_JSON_BAD_ITEM, 0},
    {"[[\"a\",1],[[97,256],1]]", HASHBAG_JSON_BAD_ITEM, 1},
    {"[[\"a\",1],[[97,-1],1]]", HASHBAG_JSON_BAD_ITEM, 1},
    {"[[\"a\",1],[[\"a\"],1]]", HASHBAG_JSON_BAD_ITEM, 1},
    {"[[\"a\",1],[\"b\",100]]", HASHBAG_JSON_TOO_MANY, 1},
};
/* The place of these is where the JSON ends, or behind the byte that is wrong. */
static const struct text NO_JSON[] = {
    {"", HASHBAG_NOT_JSON, 0},
    {"[[5,2]", HASHBAG_NOT_JSON, 6},
    {"[[5,2]]]", HASHBAG_NOT_JSON, 8},
    {"[\n[5,2],\n[5,\"\xff\"]]", HASHBAG_NOT_JSON, 14},
};

static void json_errors(void) {
    hashbag bag = HASHBAG_NONE;
    size_t at;
    CHECK(hashbag_numbers_new(&bag, 8) == HASHBAG_OK);
    for (size_t i = 0; i < sizeof BAD_NUMBERS / sizeof *BAD_NUMBERS; i++) {
        const struct text *it = &BAD_NUMBERS[i];
        at = 77;
        CHECK(hashbag_numbers_from_json(&bag, 100, TEXT(it->text), &at) == it->code && at == it->at && hashbag_limit(&bag) == 8);
        at = 77;
        CHECK(hashbag_numbers_from_json_keyed(&bag, 100, 1, 2, TEXT(it->text), &at) == it->code && at == it->at && hashbag_limit(&bag) == 8);
    }
    for (size_t i = 0; i < sizeof BAD_TEXTS / sizeof *BAD_TEXTS; i++) {
        const struct text *it = &BAD_TEXTS[i];
        at = 77;
        CHECK(hashbag_texts_from_json(&bag, 100, TEXT(it->text), &at) == it->code && at == it->at && hashbag_limit(&bag) == 8);
        at = 77;
        CHECK(hashbag_texts_from_json_keyed(&bag, 100, 1, 2, TEXT(it->text), &at) == it->code && at == it->at && hashbag_limit(&bag) == 8);
    }
    for (size_t i = 0; i < sizeof NO_JSON / sizeof *NO_JSON; i++) {
        const struct text *it = &NO_JSON[i];
        at = 77;
        CHECK(hashbag_numbers_from_json(&bag, 100, TEXT(it->text), &at) == it->code && at == it->at && hashbag_limit(&bag) == 8);
        at = 77;
        CHECK(hashbag_texts_from_json(&bag, 100, TEXT(it->text), &at) == it->code && at == it->at && hashbag_limit(&bag) == 8);
    }
    hashbag_free(&bag);
}

static void json_numbers(void) {
    hashbag bag = HASHBAG_NONE, back = HASHBAG_NONE;
    size_t before, len = 77, at = 77, n;
    static uint8_t text[60000];
    CHECK(hashbag_numbers_new(&bag, SIZE_MAX) == HASHBAG_OK && hashbag_numbers_to_json(&bag, text, 2, &len) == HASHBAG_OK && len == 2 && !memcmp(text, "[]", 2));
    CHECK(hashbag_numbers_insert(&bag, UINT64_MAX, 1, &before) == HASHBAG_OK && hashbag_numbers_insert(&bag, 5, 2, &before) == HASHBAG_OK);
    static const char PAIRS[] = "[[5,2],[18446744073709551615,1]]", LIMITED[] = "{\"limit\":9,\"pairs\":[[5,2],[18446744073709551615,1]]}";
    memset(text, '#', sizeof text);
    CHECK(hashbag_numbers_to_json(&bag, text, 31, &len) == HASHBAG_SHORT && len == 32 && text[0] == '#');
    CHECK(hashbag_numbers_to_json(&bag, text, 0, &len) == HASHBAG_SHORT && len == 32 && text[0] == '#');
    CHECK(hashbag_numbers_to_json(&bag, text, 32, &len) == HASHBAG_OK && len == 32 && !memcmp(text, PAIRS, 32) && text[32] == '#');
    CHECK(hashbag_set_limit(&bag, 9) == HASHBAG_OK && hashbag_numbers_to_json(&bag, text, 100, &len) == HASHBAG_OK && len == 52 && !memcmp(text, LIMITED, 52));
    CHECK(hashbag_numbers_from_json(&back, SIZE_MAX, text, len, &at) == HASHBAG_OK && hashbag_equal(&bag, &back) && hashbag_limit(&back) == 9 && at == 77);
    CHECK(hashbag_numbers_from_json(&back, 5, text, len, &at) == HASHBAG_OK && hashbag_equal(&bag, &back) && hashbag_limit(&back) == 5 && at == 77);
    CHECK(hashbag_numbers_from_json(&back, 2, text, len, &at) == HASHBAG_JSON_TOO_MANY && at == 1 && hashbag_limit(&back) == 5);
    CHECK(hashbag_numbers_from_json(&back, SIZE_MAX, TEXT(" [ [7, 1],[8,0],\n[7,2] ] "), &at) == HASHBAG_OK && hashbag_numbers_contains(&back, 7) == 3);
    CHECK(hashbag_len(&back) == 3 && hashbag_set_len(&back) == 1 && hashbag_limit(&back) == SIZE_MAX);
    for (int round = 0; round < 50; round++) {
        static char wanted[60000];
        static uint64_t values[1000];
        static size_t counts[1000];
        CHECK(hashbag_numbers_new_keyed(&bag, SIZE_MAX, draw(9), draw(9)) == HASHBAG_OK);
        for (int i = 0; i < 900; i++) CHECK(hashbag_numbers_insert(&bag, draw(2) ? draw(300) : scattered(draw(300)), draw(4), &before) == HASHBAG_OK);
        CHECK(hashbag_numbers_sorted(&bag, values, 1000, counts, 1000, &n) == HASHBAG_OK);
        size_t size = (size_t)sprintf(wanted, "[");
        for (size_t i = 0; i < n; i++) size += (size_t)sprintf(wanted + size, "%s[%llu,%zu]", i ? "," : "", (unsigned long long)values[i], counts[i]);
        size += (size_t)sprintf(wanted + size, "]");
        CHECK(hashbag_numbers_to_json(&bag, text, sizeof text, &len) == HASHBAG_OK && len == size && !memcmp(text, wanted, size));
        CHECK(hashbag_numbers_from_json_keyed(&back, SIZE_MAX, draw(9), draw(9), text, len, &at) == HASHBAG_OK && hashbag_equal(&bag, &back));
    }
    hashbag_free(&bag), hashbag_free(&back);
}

static void json_texts(void) {
    hashbag bag = HASHBAG_NONE, back = HASHBAG_NONE;
    size_t before, len = 77, at = 77;
    uint8_t text[200];
    CHECK(hashbag_texts_new(&bag, SIZE_MAX) == HASHBAG_OK && hashbag_texts_insert(&bag, TEXT("a\"b\\\n\x01\xc3\xa9/"), 2, &before) == HASHBAG_OK);
    CHECK(hashbag_texts_insert(&bag, TEXT("\xff\x01"), 1, &before) == HASHBAG_OK && hashbag_texts_insert(&bag, TEXT(""), 3, &before) == HASHBAG_OK);
    static const char PAIRS[] = "[[\"\",3],[\"a\\\"b\\\\\\n\\u0001\xc3\xa9/\",2],[[255,1],1]]";
    CHECK(hashbag_texts_to_json(&bag, text, sizeof text, &len) == HASHBAG_OK && len == strlen(PAIRS) && !memcmp(text, PAIRS, len));
    memset(text, '#', sizeof text);
    CHECK(hashbag_texts_to_json(&bag, text, len - 1, &before) == HASHBAG_SHORT && before == len && text[0] == '#');
    CHECK(hashbag_texts_to_json(&bag, text, len, &before) == HASHBAG_OK && before == len && text[len] == '#');
    CHECK(hashbag_texts_from_json(&back, SIZE_MAX, text, len, &at) == HASHBAG_OK && hashbag_equal(&bag, &back) && hashbag_limit(&back) == SIZE_MAX && at == 77);
    CHECK(hashbag_set_limit(&bag, 6) == HASHBAG_OK && hashbag_texts_to_json(&bag, text, sizeof text, &len) == HASHBAG_OK);
    CHECK(hashbag_texts_from_json_keyed(&back, SIZE_MAX, 1, 2, text, len, &at) == HASHBAG_OK && hashbag_equal(&bag, &back) && hashbag_limit(&back) == 6);
    CHECK(hashbag_texts_from_json(&back, SIZE_MAX, TEXT("[[\"\\u0061\",1],[[97],2],[[],1],[\"\\ud83d\\ude00\",1]]"), &at) == HASHBAG_OK);
    CHECK(hashbag_texts_contains(&back, TEXT("a")) == 3 && hashbag_texts_contains(&back, TEXT("")) == 1 && hashbag_texts_contains(&back, TEXT("\xf0\x9f\x98\x80")) == 1);
    /* A bag of the other kind is freed, and the handle gets one of this kind. */
    CHECK(hashbag_numbers_from_json(&back, SIZE_MAX, TEXT("[[5,2]]"), &at) == HASHBAG_OK && hashbag_numbers_contains(&back, 5) == 2);
    hashbag_free(&bag), hashbag_free(&back);
}

int main(void) {
    lines_of_c();
    wrong_handles();
    numbers();
    texts();
    two_bags_of_texts();
    ordered_texts();
    retained();
    combined_numbers();
    signed_bounds();
    combined_texts();
    number_walks();
    text_walks();
    json_errors();
    json_numbers();
    json_texts();
    puts("test_calls: ok");
    return 0;
}
