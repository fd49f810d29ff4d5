/*
 * One session that two threads use in turn: the first opens it, both edit it, the second closes it. Each turn moves the session out of
 * a shared struct and back, under a mutex. The file must be that of a session of one thread. With the argument `unlocked` a flag without
 * an order replaces the mutex: the turns are the same, and ThreadSanitizer has to report them.
 */
#define _POSIX_C_SOURCE 200809L
#include <abc2midi_live.h>
#include <pthread.h>
#include <sched.h>
#include <stdio.h>
#include <stdlib.h>
#include <string.h>

enum { THREADS = 2, TURNS = 60, ROOM = 65536 };

typedef struct shared {
    abc_live_session session;
    abc_live_work work;
    uint8_t midi[ROOM];
    size_t size;
    int failures;
    int turn;
    int is_unlocked;
    pthread_mutex_t mutex;
    pthread_cond_t turned;
} shared;

typedef struct player {
    shared *with;
    int first;
} player;

#define TEXT(text) (const uint8_t *)(text), sizeof(text) - 1

/* One turn on a session: an edit, or a whole text. Whether each call is right. */
static int edit(abc_live_session *session, abc_live_work *work, int turn)
{
    if (turn == 0)
        return abc_live_open(session) == ABC_LIVE_OK
               && abc_live_insert(session, 1, TEXT("X:1\nT:Handed over\nM:4/4\nK:D\nDFAd fdAF|\n"), work) == ABC_LIVE_OK;
    if (turn % 7 == 0)
        return abc_live_set_text(session, TEXT("X:1\nT:Anew\nM:4/4\nK:D\nA2ce aece|\n"), work) == ABC_LIVE_OK;
    if (turn % 3 == 0)
        return abc_live_replace(session, 5, 5, TEXT("A2ce aece|\nfdAF DFAd|\n"), work) == ABC_LIVE_OK;
    return abc_live_insert(session, 5, TEXT("DFAd fdAF|\n"), work) == ABC_LIVE_OK;
}

/* The last turn copies the file and closes the session. */
static int finish(abc_live_session *session, uint8_t *midi, size_t *size)
{
    int is_right = abc_live_output(session, 1, midi, ROOM, size) == ABC_LIVE_OK;
    return abc_live_close(session) == ABC_LIVE_OK && is_right;
}

/* Moves the session to the calling thread, makes a turn, and moves it back. */
static void take_turn(shared *with, int turn)
{
    abc_live_session session = with->session;
    memset(&with->session, 0, sizeof with->session);
    with->failures += !edit(&session, &with->work, turn);
    if (turn == TURNS - 1)
        with->failures += !finish(&session, with->midi, &with->size);
    with->session = session;
}

static void play_locked(player *own)
{
    shared *with = own->with;
    int turn;
    for (turn = own->first; turn < TURNS; turn += THREADS) {
        pthread_mutex_lock(&with->mutex);
        while (with->turn != turn)
            pthread_cond_wait(&with->turned, &with->mutex);
        take_turn(with, turn);
        with->turn++;
        pthread_cond_broadcast(&with->turned);
        pthread_mutex_unlock(&with->mutex);
    }
}

/* The flag is relaxed: it orders nothing for ThreadSanitizer, and the processors that run this test keep the order. */
static void play_unlocked(player *own)
{
    int turn;
    for (turn = own->first; turn < TURNS; turn += THREADS) {
        while (__atomic_load_n(&own->with->turn, __ATOMIC_RELAXED) != turn)
            sched_yield();
        take_turn(own->with, turn);
        __atomic_store_n(&own->with->turn, turn + 1, __ATOMIC_RELAXED);
    }
}

static void *play(void *own)
{
    player *it = own;
    if (it->with->is_unlocked)
        play_unlocked(it);
    else
        play_locked(it);
    return NULL;
}

/* Whether the file is that of a session whose turns were all on this thread. */
static int is_file_of_one_thread(const shared *with)
{
    static uint8_t midi[ROOM];
    abc_live_session session = {0};
    abc_live_work work = {0, 0, 0};
    size_t size = 0;
    int turn, is_right = 1;
    for (turn = 0; turn < TURNS; turn++)
        is_right = edit(&session, &work, turn) && is_right;
    is_right = finish(&session, midi, &size) && is_right;
    return is_right && size == with->size && memcmp(midi, with->midi, size) == 0 && memcmp(&work, &with->work, sizeof work) == 0;
}

int main(int count, char **words)
{
    static shared with = {.mutex = PTHREAD_MUTEX_INITIALIZER, .turned = PTHREAD_COND_INITIALIZER};
    player players[THREADS];
    pthread_t threads[THREADS];
    int at, is_right;
    with.is_unlocked = count > 1 && strcmp(words[1], "unlocked") == 0;
    for (at = 0; at < THREADS; at++) {
        players[at] = (player){&with, at};
        if (pthread_create(&threads[at], NULL, play, &players[at]) != 0)
            return EXIT_FAILURE;
    }
    for (at = 0; at < THREADS; at++)
        pthread_join(threads[at], NULL);
    is_right = with.failures == 0 && is_file_of_one_thread(&with);
    printf("%s\n", is_right ? "the file is that of one thread" : "FAILED");
    return is_right ? EXIT_SUCCESS : EXIT_FAILURE;
}
