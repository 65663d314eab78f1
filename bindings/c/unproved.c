/* What the library has beside its proved functions. Nothing proves these lines. */
#include "hashbag.h"

/* The proved functions, by the names that `bindings/build` gives them. Each takes a handle: never null. */
__attribute__((visibility("hidden"))) void hashbag_proved_free(hashbag *handle);
__attribute__((visibility("hidden"))) void hashbag_proved_walk_free(hashbag_walk *walk);

void hashbag_free(hashbag *handle) {
    if (handle != NULL) hashbag_proved_free(handle);
}

void hashbag_walk_free(hashbag_walk *walk) {
    if (walk != NULL) hashbag_proved_walk_free(walk);
}

const char *hashbag_error_text(uint8_t code) {
    switch ((enum hashbag_error)code) {
    case HASHBAG_OK: return "no error";
    case HASHBAG_MEMORY: return "no memory";
    case HASHBAG_TOO_MANY: return "the total would pass the limit";
    case HASHBAG_JSON_NOT_AN_ARRAY: return "the JSON has no array of pairs";
    case HASHBAG_JSON_NOT_A_PAIR: return "a pair of the JSON isn't an array of two";
    case HASHBAG_JSON_BAD_COUNT: return "a count of the JSON is no whole number in range";
    case HASHBAG_JSON_BAD_ITEM: return "an item of the JSON isn't one of such a bag";
    case HASHBAG_JSON_TOO_MANY: return "with a pair of the JSON, the total would pass the limit";
    case HASHBAG_BELOW_TOTAL: return "the limit would be below the total";
    case HASHBAG_JSON_BAD_LIMIT: return "the limit of the JSON is absent, or no whole number in range";
    case HASHBAG_EMPTY: return "the handle has no bag";
    case HASHBAG_KIND: return "the handle has a bag of the other kind";
    case HASHBAG_ENDS: return "the ends aren't ascending, or one is past the last byte";
    case HASHBAG_SHORT: return "the text is longer than the buffer";
    case HASHBAG_NOT_JSON: return "the text isn't JSON, or isn't UTF-8";
    }
    return "unknown error";
}
