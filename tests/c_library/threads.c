/* Eight threads, each with a session of its own: all come to the same file. It fails if one does not. */
#include <abc2midi_live.h>
#include <pthread.h>
#include <stdio.h>
#include <stdlib.h>
#include <string.h>

enum { THREADS = 8, EDITS = 200, ROOM = 65536 };

typedef struct outcome {
    uint8_t midi[ROOM];
    size_t size;
    int is_right;
} outcome;

static void *edit(void *to)
{
    static const char head[] = "X:1\nM:4/4\nK:D\n", even[] = "DFAd fdAF|\n", odd[] = "A2ce aece|\n";
    outcome *made = to;
    abc_live_session session = {0};
    abc_live_work work = {0, 0, 0};
    int at;
    made->is_right = abc_live_open(&session) == ABC_LIVE_OK
                     && abc_live_insert(&session, 1, (const uint8_t *)head, sizeof head - 1, &work) == ABC_LIVE_OK;
    for (at = 0; at < EDITS && made->is_right; at++) {
        const char *line = at % 3 ? even : odd;
        made->is_right = abc_live_insert(&session, 4, (const uint8_t *)line, strlen(line), &work) == ABC_LIVE_OK
                         && (at % 2 || abc_live_delete(&session, 4, 4, &work) == ABC_LIVE_OK);
    }
    made->is_right = made->is_right && abc_live_output(&session, 1, made->midi, ROOM, &made->size) == ABC_LIVE_OK;
    made->is_right = abc_live_close(&session) == ABC_LIVE_OK && made->is_right;
    return NULL;
}

int main(void)
{
    static outcome made[THREADS];
    pthread_t threads[THREADS];
    int at, failed = 0;
    for (at = 0; at < THREADS; at++)
        if (pthread_create(&threads[at], NULL, edit, &made[at]) != 0)
            return EXIT_FAILURE;
    for (at = 0; at < THREADS; at++) {
        pthread_join(threads[at], NULL);
        failed += !made[at].is_right || made[at].size != made[0].size || memcmp(made[at].midi, made[0].midi, made[0].size) != 0;
    }
    printf("%d of %d threads failed\n", failed, THREADS);
    return failed ? EXIT_FAILURE : EXIT_SUCCESS;
}
