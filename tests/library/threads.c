/* Looks up on several threads while another thread changes bundles, and measures what a change costs them.
 * usage: threads ROUNDS [READERS] [BUNDLES]
 * The writer makes each change in a snapshot (docs/LIBRARY.md, "Threads"), and has a handle of it ready for each reader, which takes it before its
 * next lookup unless the writer is at the lock: then it looks up in the state that it has, so it never waits. The writer closes the handles that
 * the readers had, so that it frees what it made.
 * The time of a lookup is that of its thread's processor, which other programs of the machine don't lengthen. */
#include <pthread.h>
#include <sched.h>
#include <time.h>

#include "common.h"

enum { LONGEST = 10000 };

typedef struct reader {
    resb handle;
    pthread_mutex_t lock; /* of the next three: the handle that is ready for it, the one that it had before, and if it is to end */
    resb next, last;
    bool is_done;
    long looks, took[LONGEST]; /* the lookups, and those that took so many tenths of a microsecond, or more */
    pthread_t thread;
} reader;

static reader *readers;
static int count = 3, bundles = 1, rounds = 100;
static resb engine = RESB_CLOSED;

static uint64_t now(void) {
    struct timespec t;
    EXPECT(clock_gettime(CLOCK_THREAD_CPUTIME_ID, &t) == 0);
    return (uint64_t)t.tv_sec * 1000000000 + (uint64_t)t.tv_nsec;
}

/* Takes the handle that is ready, if there is one and the lock is free. Returns true if the reader is to end. */
static bool renew(reader *mine) {
    if (pthread_mutex_trylock(&mine->lock) != 0)
        return false;
    if (mine->next.is_open) {
        mine->last = mine->handle;
        mine->handle = mine->next;
        mine->next = (resb)RESB_CLOSED;
    }
    bool is_done = mine->is_done;
    pthread_mutex_unlock(&mine->lock);
    return is_done;
}

static void *reads(void *at) {
    reader *mine = at;
    int last = 0;
    for (;;) {
        uint16_t units[16];
        size_t len = 0;
        int value = 0;
        uint64_t begin = now();
        if (renew(mine))
            return NULL;
        EXPECT(resb_text(&mine->handle, S("shop"), S("de_AT"), S("turn"), units, 16, &len) == RESB_OK);
        uint64_t took = (now() - begin) / 100;
        for (size_t k = 0; k < len; k++)
            value = 10 * value + (units[k] - '0');
        EXPECT(value >= last && value <= rounds);
        last = value;
        mine->took[took < LONGEST ? took : LONGEST - 1]++;
        if (++mine->looks % 20 == 0)
            sched_yield(); /* there may be fewer processors than readers */
    }
}

/* Changes the bundle to that of a round. */
static void change(resb *changed, int round) {
    char text[64];
    uint64_t line;
    size_t place;
    resb_edit edit = {S("de"), RESB_DISCARDED};
    sprintf(text, "de{turn{\"%d\"}}", round);
    EXPECT(resb_prepare(S(text), true, &edit.bundle, &line) == RESB_OK);
    EXPECT(resb_release(changed, S("shop"), &edit, 1, &place) == RESB_OK);
}

/* Returns true once a reader has taken its handle, and then closes the one that it had. */
static bool has_taken(reader *it) {
    resb last = RESB_CLOSED;
    pthread_mutex_lock(&it->lock);
    bool result = !it->next.is_open;
    if (result) {
        last = it->last;
        it->last = (resb)RESB_CLOSED;
    }
    pthread_mutex_unlock(&it->lock);
    resb_close(&last);
    return result;
}

static void change_all(int round) {
    resb last = engine, next = RESB_CLOSED;
    uint8_t seed[16] = {0};
    memcpy(seed, &round, sizeof round);
    EXPECT(resb_snapshot(&last, seed, 16, &next) == RESB_OK);
    change(&next, round);
    engine = next;
    for (int i = 0; i < count; i++) {
        resb ready = RESB_CLOSED;
        EXPECT(resb_share(&engine, &ready) == RESB_OK);
        pthread_mutex_lock(&readers[i].lock);
        readers[i].next = ready;
        pthread_mutex_unlock(&readers[i].lock);
    }
    for (int i = 0; i < count; i++)
        while (!has_taken(&readers[i]))
            sched_yield();
    resb_close(&last);
}

/* Opens the engine with the bundle of round 0 and some others, 1,000 in an application. */
static void begin(void) {
    uint8_t seed[16] = {0};
    EXPECT(resb_open(&engine, seed, 16) == RESB_OK);
    change(&engine, 0);
    for (int i = 1; i < bundles; i++) {
        char app[16], name[16], text[512] = "";
        sprintf(app, i < 1000 ? "shop" : "shop%d", i / 1000);
        sprintf(name, "aa_%03d", i % 1000);
        size_t at = (size_t)sprintf(text, "x{");
        for (int k = 0; k < 20; k++)
            at += (size_t)sprintf(text + at, "k%d{\"%d\"}", k, i + k);
        text[at] = '}';
        EXPECT(resb_install(&engine, S(app), S(name), S(text), true) == RESB_OK);
    }
}

/* Returns the microseconds within which all lookups but some took place. */
static double within(const long *took, long but) {
    int i = LONGEST - 1;
    for (long seen = took[i]; i > 0 && seen <= but; seen += took[i])
        i--;
    return (i + 1) / 10.0;
}

int main(int argc, char **argv) {
    rounds = argc > 1 ? atoi(argv[1]) : rounds;
    count = argc > 2 ? atoi(argv[2]) : count;
    bundles = argc > 3 ? atoi(argv[3]) : bundles;
    EXPECT(count > 0 && (readers = calloc((size_t)count, sizeof *readers)) != NULL);
    begin();
    for (int i = 0; i < count; i++)
        EXPECT(pthread_mutex_init(&readers[i].lock, NULL) == 0 && resb_share(&engine, &readers[i].handle) == RESB_OK);
    for (int i = 0; i < count; i++)
        EXPECT(pthread_create(&readers[i].thread, NULL, reads, &readers[i]) == 0);
    uint64_t begun = now();
    for (int round = 1; round <= rounds; round++)
        change_all(round);
    uint64_t took = now() - begun;
    long looks = 0, *all = readers[0].took;
    for (int i = 0; i < count; i++) {
        pthread_mutex_lock(&readers[i].lock);
        readers[i].is_done = true;
        pthread_mutex_unlock(&readers[i].lock);
        pthread_join(readers[i].thread, NULL);
        resb_close(&readers[i].handle);
        looks += readers[i].looks;
        for (int k = 0; i > 0 && k < LONGEST; k++)
            all[k] += readers[i].took[k];
    }
    resb_close(&engine);
    printf("%ld lookups on %d threads beside %d changes of %d bundles, %.1f us each: half took at most %.1f us, all but one of 1,000 %.1f us, and "
           "the slowest %.1f us\n", looks, count, rounds, bundles, (double)took / 1000 / rounds, within(all, looks / 2), within(all, looks / 1000),
           within(all, 0));
    free(readers);
    return 0;
}
