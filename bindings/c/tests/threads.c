/* Asks each call of each row in eight threads at once, over and over: each answer has to be the one
 * that one thread had before. */
#include <pthread.h>

#include "asking.h"

#define THREADS 8
#define ROUNDS 200

static int rows;
static struct given *given;
static struct bytes *wanted;

static void *work(void *unused) {
    (void)unused;
    for (int round = 0; round < ROUNDS; round++) {
        for (int at = 0; at < rows * CALLS; at++) {
            uint32_t status;
            struct bytes came = answer(at % CALLS, &given[at / CALLS], &status);
            if (!is_same(came, wanted[at])) fail("threads answer otherwise", NAMES[at % CALLS]);
            free(came.at);
        }
    }
    return NULL;
}

int main(int count, char **words) {
    pthread_t all[THREADS];
    uint32_t status;
    rows = count - 1;
    given = calloc((size_t)rows + 1, sizeof *given);
    wanted = calloc((size_t)rows * CALLS + 1, sizeof *wanted);
    if (!given || !wanted) return 1;
    for (int i = 0; i < rows; i++) given[i] = given_of(words[i + 1]);
    for (int at = 0; at < rows * CALLS; at++)
        wanted[at] = answer(at % CALLS, &given[at / CALLS], &status);
    for (int i = 0; i < THREADS; i++)
        if (pthread_create(&all[i], NULL, work, NULL)) return 1;
    for (int i = 0; i < THREADS; i++) pthread_join(all[i], NULL);
    printf("%d equal answers in %d threads\n", THREADS * ROUNDS * rows * CALLS, THREADS);
    for (int at = 0; at < rows * CALLS; at++) free(wanted[at].at);
    for (int i = 0; i < rows; i++) let_go(&given[i]);
    free(wanted);
    free(given);
    return 0;
}
