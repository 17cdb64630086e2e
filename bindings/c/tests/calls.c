/* Asks each call of each row, a folder, and prints a line for it: the row, the call, the status and
 * the answer. The answer has to be the same in a buffer of any length, and with other keys, and the
 * buffer behind it has to stay. */
#include "asking.h"

#define MARK 0xAA

/* A buffer of this length gets what fits, and no byte behind that changes. */
static void is_cut_well(int call, const struct given *it, struct bytes whole, uint32_t status,
                        size_t count) {
    size_t needed = 0, filled = whole.count < count ? whole.count : count;
    uint8_t *out = room(count + 8);
    memset(out, MARK, count + 8);
    if (ask(call, it, out, count, &needed) != status || needed != whole.count)
        fail("the length of a buffer changes the answer", NAMES[call]);
    if (memcmp(out, whole.at, filled) != 0) fail("a cut answer is another", NAMES[call]);
    for (size_t i = filled; i < count + 8; i++)
        if (out[i] != MARK) fail("a byte behind the answer was written", NAMES[call]);
    free(out);
}

static void try_call(const char *row, int call, struct given *it) {
    uint32_t status, again;
    struct bytes whole = answer(call, it, &status);
    is_cut_well(call, it, whole, status, 0);
    is_cut_well(call, it, whole, status, whole.count / 2);
    is_cut_well(call, it, whole, status, whole.count ? whole.count - 1 : 0);
    is_cut_well(call, it, whole, status, whole.count + 100);
    it->key_1 = UINT64_MAX;
    it->key_2 = 0;
    struct bytes other = answer(call, it, &again);
    if (again != status || !is_same(whole, other)) fail("keys change the answer", NAMES[call]);
    it->key_1 = 1;
    it->key_2 = 2;
    const char *name = strrchr(row, '/');
    printf("%s %s %u %.*s\n", name ? name + 1 : row, NAMES[call], status, (int)whole.count,
           (const char *)whole.at);
    free(other.at);
    free(whole.at);
}

int main(int count, char **words) {
    for (int i = 1; i < count; i++) {
        struct given it = given_of(words[i]);
        for (int call = 0; call < CALLS; call++) try_call(words[i], call, &it);
        let_go(&it);
    }
    return 0;
}
