/* Asks each call, in a thread with a stack of 256 KiB, of texts that nest as deep as their length
 * allows, which are refused, and of texts that nest almost as deep as is read. */
#include <pthread.h>

#include "asking.h"

#define STACK (256 << 10)
#define LENGTH 12856
#define LIMIT 128

/* A text: what it begins with, what is said over and over, what turns back, and how it ends. */
struct shape {
    const char *begins, *step, *middle, *back, *ends;
    int steps; /* of depth, in one step */
};

static const struct shape SHAPES[] = {
    {"x = ", "{a.a.a=", "1", "}", "\n", 3},  {"x = ", "{a=", "1", "}", "\n", 1},
    {"x = ", "[", "", "]", "\n", 1},         {"x = ", "[{a=", "1", "}]", "\n", 2},
    {"[x", ".a", "", "", "]\nb = 1\n", 1},   {"[[x", ".a", "", "", "]]\nb = 1\n", 1},
    {"x", ".a", "", "", " = 1\n", 1},        {"[package.metadata", ".a", "", "", "]\nb = 1\n", 1},
    {"x = [", "{a.a=[", "1", "]}", "]\n", 3},
};

static size_t put(uint8_t *at, const char *text) {
    memcpy(at, text, strlen(text));
    return strlen(text);
}

/* The text of a shape with so many steps. */
static struct bytes text_of(const struct shape *it, size_t steps) {
    size_t most = strlen(it->begins) + strlen(it->middle) + strlen(it->ends) +
                  steps * (strlen(it->step) + strlen(it->back));
    struct bytes text = {room(most), 0};
    text.count += put(text.at, it->begins);
    for (size_t i = 0; i < steps; i++) text.count += put(text.at + text.count, it->step);
    text.count += put(text.at + text.count, it->middle);
    for (size_t i = 0; i < steps; i++) text.count += put(text.at + text.count, it->back);
    text.count += put(text.at + text.count, it->ends);
    return text;
}

/* A deep text is refused, or no TOML: then `check` is done, and has found why. */
static void try_all(const struct given *it, int is_deep) {
    for (int call = MANIFEST; call < CALLS; call++) {
        uint32_t status;
        struct bytes came = answer(call, it, &status);
        int has_found = call == CHECK && came.count > sizeof "{\"faults\":[]}";
        if (is_deep && status != CARGO_TOML_REFUSED && !has_found)
            fail("a deep text is read", NAMES[call]);
        if (status > CARGO_TOML_REFUSED) fail("no refusal", NAMES[call]);
        free(came.at);
    }
}

static void *work(void *unused) {
    struct given it = {.max_items = CARGO_TOML_MAX_ITEMS, .key_1 = 1, .key_2 = 2};
    uint8_t none = 0;
    it.paths.at = it.root.at = it.root_path.at = it.keep.at = it.checksum.at = &none;
    for (size_t i = 0; i < sizeof SHAPES / sizeof *SHAPES; i++) {
        const struct shape *shape = &SHAPES[i];
        size_t whole = LENGTH / strlen(shape->step), under = (LIMIT - 3) / (size_t)shape->steps;
        it.text = text_of(shape, whole);
        try_all(&it, 1);
        /* cut behind the last step, as the hostile ones are */
        it.text.count = strlen(shape->begins) + whole * strlen(shape->step);
        try_all(&it, 1);
        free(it.text.at);
        it.text = text_of(shape, under);
        try_all(&it, 0);
        free(it.text.at);
    }
    return unused;
}

int main(void) {
    pthread_t thread;
    pthread_attr_t how;
    pthread_attr_init(&how);
    if (pthread_attr_setstacksize(&how, STACK) || pthread_create(&thread, &how, work, NULL))
        return 1;
    pthread_join(thread, NULL);
    pthread_attr_destroy(&how);
    printf("%zu shapes in a stack of %d KiB\n", sizeof SHAPES / sizeof *SHAPES, STACK >> 10);
    return 0;
}
