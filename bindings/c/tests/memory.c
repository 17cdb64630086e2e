/* Refuses each request for memory in turn, alone and with all after it, in each call of each row.
 * Each time the status is CARGO_TOML_MEMORY, the length 0 and the buffer as it was; or the
 * answer is that with memory, since a call may do without a request, as for room in advance. No
 * block is held that wasn't before. Prints how many were refused. */
#include "asking.h"

extern long heap_held, heap_asked, heap_refused;
void heap_refuse(long which, int rest);

#define MARK 0xAA

static long refusals, without;

/* Asks a call with this request refused. */
static void refuse_one(int call, const struct given *it, struct bytes whole, uint32_t status,
                       uint8_t *out, long which, int rest) {
    size_t needed = 1, count = whole.count;
    long before = heap_held;
    memset(out, MARK, count);
    heap_refuse(which, rest);
    uint32_t came = ask(call, it, out, count, &needed);
    long refused = heap_refused;
    heap_refuse(0, 0);
    refusals++;
    if (!refused) fail("a call asks otherwise a second time", NAMES[call]);
    if (heap_held != before) fail("a block is lost", NAMES[call]);
    if (came == status && needed == count && memcmp(out, whole.at, count) == 0) {
        without++;
        return;
    }
    if (came != CARGO_TOML_MEMORY || needed != 0) fail("it is not told", NAMES[call]);
    for (size_t i = 0; i < count; i++)
        if (out[i] != MARK) fail("the buffer was written", NAMES[call]);
}

static void try_call(int call, const struct given *it) {
    uint32_t status;
    size_t needed;
    struct bytes whole = answer(call, it, &status);
    uint8_t *out = room(whole.count);
    heap_refuse(0, 0);
    ask(call, it, out, whole.count, &needed);
    long wanted = heap_asked;
    for (long which = 1; which <= wanted; which++)
        for (int rest = 0; rest < 2; rest++)
            refuse_one(call, it, whole, status, out, which, rest);
    free(out);
    free(whole.at);
}

int main(int count, char **words) {
    for (int i = 1; i < count; i++) {
        struct given it = given_of(words[i]);
        for (int call = 0; call < CALLS; call++) try_call(call, &it);
        let_go(&it);
    }
    printf("%ld times memory was refused, %ld calls did without\n", refusals, without);
    return 0;
}
