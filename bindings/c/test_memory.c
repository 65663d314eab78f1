/* Refuses each allocation in turn: the call returns HASHBAG_MEMORY, the bag is as it was, and nothing leaks or is freed twice. What it refuses are the
 * calls of `malloc` and `realloc` in heap.c: it is linked with `--wrap=malloc --wrap=realloc --wrap=free`. The status is 0 if all is right. */
#include "hashbag.h"
#include <stdio.h>
#include <stdlib.h>
#include <string.h>

#define CHECK(it)                                           \
    do {                                                    \
        if (!(it)) {                                        \
            printf("test_memory: line %d: %s\n", __LINE__, #it); \
            exit(1);                                        \
        }                                                   \
    } while (0)

static long left = -1, live = 0, asked = 0, moved = 0, hits = 0;

static int is_refused(void) {
    asked++;
    int is = left >= 0 && left-- == 0;
    hits += is;
    return is;
}

void *__real_malloc(size_t size);
void *__real_realloc(void *p, size_t size);
void __real_free(void *p);
void *__wrap_malloc(size_t size);
void *__wrap_realloc(void *p, size_t size);
void __wrap_free(void *p);

void *__wrap_malloc(size_t size) {
    void *p = is_refused() ? NULL : __real_malloc(size);
    live += p != NULL;
    return p;
}

void *__wrap_realloc(void *p, size_t size) {
    moved++;
    return is_refused() ? NULL : __real_realloc(p, size);
}

void __wrap_free(void *p) {
    live--;
    __real_free(p);
}

static int refused;

/* Whether a call was refused memory. */
static int fails(uint8_t code) {
    refused += code == HASHBAG_MEMORY;
    return code != HASHBAG_OK;
}

/* A bag that is copied over another one, and one that is shrunk. */
static void copies(hashbag *bag) {
    hashbag copy = HASHBAG_NONE;
    size_t total = hashbag_len(bag);
    fails(hashbag_numbers_new(&copy, 7));
    if (fails(hashbag_clone(bag, &copy))) CHECK(hashbag_limit(&copy) == (copy.at ? 7 : 0));
    else CHECK(hashbag_equal(bag, &copy) && hashbag_len(&copy) == total);
    if (copy.at) {
        size_t before = hashbag_len(&copy);
        long hits_before = hits;
        int is_unchanged = fails(hashbag_merge(&copy, bag));
        CHECK(hashbag_len(&copy) == before + (is_unchanged ? 0 : total));
        /* A merge that was refused one table may go on with a smaller one. */
        if (!is_unchanged) refused += (int)(hits - hits_before);
        before = hashbag_len(&copy);
        hits_before = hits;
        is_unchanged = fails(hashbag_keep_most(&copy, bag));
        CHECK(is_unchanged ? hashbag_len(&copy) == before : hashbag_len(&copy) >= before);
        if (!is_unchanged) refused += (int)(hits - hits_before);
    }
    CHECK(hashbag_len(bag) == total);
    fails(hashbag_reserve(bag, 9000));
    size_t capacity = hashbag_capacity(bag);
    if (fails(hashbag_shrink_to_fit(bag))) CHECK(hashbag_capacity(bag) == capacity);
    CHECK(hashbag_len(bag) == total && hashbag_capacity(bag) <= capacity);
    hashbag_free(&copy);
}

/* A bag as JSON, and back over another one. A call that fails leaves its buffer or its handle as it was. */
static void json(hashbag *bag, int is_texts) {
    hashbag back = HASHBAG_NONE;
    static uint8_t text[400];
    size_t len = 999, at = 999, total = hashbag_len(bag);
    memset(text, '#', sizeof text);
    uint8_t code = is_texts ? hashbag_texts_to_json(bag, text, 400, &len) : hashbag_numbers_to_json(bag, text, 400, &len);
    if (fails(code)) CHECK(len == 999 && text[0] == '#');
    CHECK(hashbag_len(bag) == total);
    if (code != HASHBAG_OK) return;
    fails(hashbag_numbers_new(&back, 7));
    size_t limit = hashbag_limit(&back);
    long hits_before = hits;
    code = is_texts ? hashbag_texts_from_json(&back, SIZE_MAX, text, len, &at) : hashbag_numbers_from_json(&back, SIZE_MAX, text, len, &at);
    if (fails(code)) CHECK(code == HASHBAG_MEMORY && at == 999 && hashbag_limit(&back) == limit);
    else {
        CHECK(at == 999 && hashbag_equal(bag, &back));
        /* An insertion that was refused one table may go on with a smaller one. */
        refused += (int)(hits - hits_before);
    }
    hashbag_free(&back);
}

static void numbers_as_json(void) {
    hashbag bag = HASHBAG_NONE;
    size_t before;
    fails(hashbag_numbers_new(&bag, 50));
    for (uint64_t i = 0; i < 9; i++) fails(bag.at ? hashbag_numbers_insert(&bag, i * i, i % 3 + 1, &before) : HASHBAG_OK);
    json(&bag, 0);
    hashbag_free(&bag);
}

static void texts_as_json(void) {
    hashbag bag = HASHBAG_NONE;
    size_t before;
    const char *texts[4] = {"", "a\"\n", "\xff\xfe", "\xc3\xa9"};
    fails(hashbag_texts_new(&bag, 50));
    for (size_t i = 0; i < 4; i++) fails(bag.at ? hashbag_texts_insert(&bag, (const uint8_t *)texts[i], strlen(texts[i]), i + 1, &before) : HASHBAG_OK);
    json(&bag, 1);
    hashbag_free(&bag);
}

static void numbers(void) {
    hashbag bag = HASHBAG_NONE;
    size_t before, total = 0, done;
    if (fails(hashbag_numbers_new(&bag, SIZE_MAX))) CHECK(bag.at == NULL);
    for (uint64_t i = 0; i < 400; i++) {
        uint64_t v = i * 0x9e3779b97f4a7c15u;
        size_t distinct = hashbag_set_len(&bag);
        uint8_t code = i % 2 ? hashbag_numbers_insert(&bag, v, i % 3 + 1, &before) : hashbag_numbers_set_count(&bag, v, i % 3 + 1, &before);
        if (!fails(code)) total += i % 3 + 1;
        else CHECK(code == (bag.at ? HASHBAG_MEMORY : HASHBAG_EMPTY) && hashbag_set_len(&bag) == distinct && hashbag_numbers_contains(&bag, v) == 0);
        CHECK(hashbag_len(&bag) == total);
    }
    fails(hashbag_reserve(&bag, 5000));
    uint64_t values[3] = {1, 2, 3};
    fails(hashbag_numbers_insert_all(&bag, values, 3, &done));
    CHECK(hashbag_len(&bag) == total + done);
    static uint64_t listed[500];
    static size_t counts[500];
    size_t n = 999;
    if (fails(hashbag_numbers_sorted(&bag, listed, 500, counts, 500, &n))) CHECK(n == 999);
    else CHECK(n == hashbag_set_len(&bag));
    n = 999;
    if (fails(hashbag_numbers_most_common(&bag, listed, 10, counts, 10, &n))) CHECK(n == 999);
    else CHECK(n == 10);
    CHECK(hashbag_len(&bag) == total + done);
    hashbag_walk walk = HASHBAG_NONE;
    if (fails(hashbag_numbers_walk(&bag, &walk))) CHECK(walk.at == NULL);
    else CHECK(hashbag_numbers_next(&walk, listed, 9, counts, 10) == 9);
    size_t unread = hashbag_walk_left(&walk);
    if (fails(hashbag_numbers_walk(&bag, &walk))) CHECK(hashbag_walk_left(&walk) == unread);
    else CHECK(hashbag_walk_left(&walk) == hashbag_set_len(&bag));
    hashbag_walk_free(&walk);
    CHECK(hashbag_len(&bag) == total + done);
    copies(&bag);
    size_t most[3] = {1, 0, SIZE_MAX};
    if (fails(hashbag_numbers_retain(&bag, values, 3, most, 3))) CHECK(hashbag_len(&bag) == total + done);
    else CHECK(hashbag_set_len(&bag) <= 2 && hashbag_len(&bag) <= 2);
    hashbag_free(&bag);
}

static void texts(void) {
    hashbag bag = HASHBAG_NONE;
    size_t before, total = 0, done;
    char text[32];
    fails(hashbag_texts_new(&bag, SIZE_MAX));
    for (int i = 0; i < 100; i++) {
        size_t size = (size_t)sprintf(text, "word %d", i);
        if (!fails(hashbag_texts_insert(&bag, (uint8_t *)text, size, 2, &before))) total += 2;
        else CHECK(hashbag_texts_contains(&bag, (uint8_t *)text, size) == 0);
        CHECK(hashbag_len(&bag) == total);
    }
    size_t ends[3] = {2, 4, 6};
    fails(hashbag_texts_insert_all(&bag, (const uint8_t *)"aabbcc", 6, ends, 3, &done));
    total += done;
    CHECK(hashbag_len(&bag) == total);
    fails(hashbag_texts_insert_split(&bag, (const uint8_t *)"dd,ee,ff", 8, ',', &done));
    total += done;
    CHECK(hashbag_len(&bag) == total);
    if (!fails(hashbag_texts_set_count(&bag, (const uint8_t *)"gg", 2, 3, &before))) total += 3;
    CHECK(hashbag_len(&bag) == total);
    static uint8_t bytes[2000];
    static size_t listed[200], counts[200];
    size_t n = 999;
    if (fails(hashbag_texts_sorted(&bag, bytes, 2000, listed, 200, counts, 200, &n))) CHECK(n == 999);
    else CHECK(n == hashbag_set_len(&bag));
    n = 999;
    if (fails(hashbag_texts_most_common(&bag, bytes, 2000, listed, 10, counts, 10, &n))) CHECK(n == 999);
    else CHECK(n == 10);
    CHECK(hashbag_len(&bag) == total);
    hashbag_walk walk = HASHBAG_NONE;
    if (fails(hashbag_texts_walk(&bag, &walk))) CHECK(walk.at == NULL);
    else CHECK(hashbag_texts_next(&walk, bytes, 2000, listed, 9, counts, 10) == 9);
    size_t unread = hashbag_walk_left(&walk);
    if (fails(hashbag_texts_walk(&bag, &walk))) CHECK(hashbag_walk_left(&walk) == unread);
    else CHECK(hashbag_walk_left(&walk) == hashbag_set_len(&bag));
    hashbag_walk_free(&walk);
    CHECK(hashbag_len(&bag) == total);
    copies(&bag);
    size_t most[3] = {1, 0, SIZE_MAX};
    if (fails(hashbag_texts_retain(&bag, (const uint8_t *)"aabbcc", 6, ends, 3, most, 3))) CHECK(hashbag_len(&bag) == total);
    else CHECK(hashbag_set_len(&bag) <= 2 && hashbag_len(&bag) <= 2);
    hashbag_free(&bag);
}

/* Runs all calls with the nth allocation refused, or none with -1. */
static int runs(long n) {
    refused = 0;
    left = n;
    numbers();
    texts();
    numbers_as_json();
    texts_as_json();
    CHECK(live == 0);
    return refused;
}

int main(void) {
    CHECK(runs(-1) == 0);
    long all = asked;
    CHECK(all > 100 && moved > 0);
    for (long n = 0; n < all; n++) CHECK(runs(n) > 0);
    printf("test_memory: each of %ld allocations refused: ok\n", all);
    return 0;
}
