/* What the tests share: the arguments of a call, and the calls by their numbers. */
#ifndef ASKING_H
#define ASKING_H

#include <stdint.h>
#include <stdio.h>
#include <stdlib.h>
#include <string.h>

#include "cargo_toml.h"

enum { VERSION, MANIFEST, COMPLETE, FEATURES, CHECK, LINT, INDEX, DOCUMENT, CALLS };

static const char *const NAMES[CALLS] = {"version", "manifest", "complete", "features",
                                         "check",   "lint",     "index",    "document"};

struct bytes {
    uint8_t *at;
    size_t count;
};

/* All that some call takes. */
struct given {
    struct bytes text, paths, root, root_path, keep, checksum;
    uint64_t max_items, key_1, key_2;
};

static inline uint32_t ask(int call, const struct given *it, uint8_t *out, size_t count,
                           size_t *needed) {
    const uint8_t *text = it->text.at;
    size_t length = it->text.count;
    uint64_t one = it->key_1, two = it->key_2;
    switch (call) {
        case VERSION:
            return cargo_toml_version(out, count, needed);
        case MANIFEST:
            return cargo_toml_manifest(text, length, out, count, needed);
        case COMPLETE:
            return cargo_toml_complete(text, length, it->paths.at, it->paths.count, it->root.at,
                                       it->root.count, it->root_path.at, it->root_path.count, out,
                                       count, needed);
        case FEATURES:
            return cargo_toml_features(text, length, it->keep.at, it->keep.count, it->max_items,
                                       one, two, out, count, needed);
        case CHECK:
            return cargo_toml_check(text, length, out, count, needed);
        case LINT:
            return cargo_toml_lint(text, length, one, two, out, count, needed);
        case INDEX:
            return cargo_toml_index(text, length, it->checksum.at, it->checksum.count, one, two,
                                    out, count, needed);
        default:
            return cargo_toml_document(text, length, one, two, out, count, needed);
    }
}

static inline void fail(const char *what, const char *name) {
    fprintf(stderr, "FAILED: %s: %s\n", name, what);
    exit(1);
}

/* Memory for a test itself. */
static inline uint8_t *room(size_t count) {
    uint8_t *at = malloc(count ? count : 1);
    if (!at) fail("the test itself has no memory", "room");
    return at;
}

/* A file of a row, or nothing where it isn't there. */
static inline struct bytes part(const char *row, const char *name) {
    char path[4096];
    struct bytes it = {room(1), 0};
    FILE *file;
    snprintf(path, sizeof path, "%s/%s", row, name);
    if (!(file = fopen(path, "rb"))) return it;
    for (size_t size = 1 << 16;; size *= 2) {
        it.at = realloc(it.at, size);
        if (!it.at) fail("the test itself has no memory", path);
        it.count += fread(it.at + it.count, 1, size - it.count, file);
        if (it.count < size) break;
    }
    fclose(file);
    return it;
}

/* The arguments of a row: a file for each, and a number as text. */
static inline struct given given_of(const char *row) {
    struct given it = {.text = part(row, "Cargo.toml"),
                       .paths = part(row, "paths"),
                       .root = part(row, "root"),
                       .root_path = part(row, "root_path"),
                       .keep = part(row, "keep"),
                       .checksum = part(row, "checksum"),
                       .max_items = CARGO_TOML_MAX_ITEMS,
                       .key_1 = 1,
                       .key_2 = 2};
    struct bytes number = part(row, "max_items");
    if (number.count) {
        char digits[32] = "";
        memcpy(digits, number.at, number.count < 31 ? number.count : 31);
        it.max_items = strtoull(digits, NULL, 10);
    }
    free(number.at);
    return it;
}

static inline void let_go(struct given *it) {
    struct bytes *all[] = {&it->text, &it->paths,    &it->root, &it->root_path,
                           &it->keep, &it->checksum};
    for (size_t i = 0; i < sizeof all / sizeof *all; i++) free(all[i]->at);
}

/* The whole answer of a call, in a block of just its length. */
static inline struct bytes answer(int call, const struct given *it, uint32_t *status) {
    size_t needed = 1;
    struct bytes all = {room(0), 0};
    *status = ask(call, it, all.at, 0, &needed);
    free(all.at);
    all.at = room(needed);
    all.count = needed;
    if (ask(call, it, all.at, all.count, &needed) != *status || needed != all.count)
        fail("a second call answers otherwise", NAMES[call]);
    return all;
}

static inline int is_same(struct bytes one, struct bytes two) {
    return one.count == two.count && memcmp(one.at, two.at, one.count) == 0;
}

#endif
