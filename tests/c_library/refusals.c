/*
 * Refuses each request for memory of a call in turn, alone and with all after it. The call must answer as with ample memory, or
 * ABC_LIVE_OUT_OF_MEMORY and leave the session as it was; made again with ample memory it must give the same as ever.
 * It is linked with --wrap=malloc,--wrap=realloc. The last line is 'N passed, M failed'.
 */
#include <abc2midi_live.h>
#include <stdbool.h>
#include <stdio.h>
#include <stdlib.h>
#include <string.h>

void *__real_malloc(size_t size);
void *__real_realloc(void *old, size_t size);
void *__wrap_malloc(size_t size);
void *__wrap_realloc(void *old, size_t size);

static unsigned long requests, refused; /* `refused` is the number of the first refused request, or 0 */
static bool all_after;

static bool is_refused(void)
{
    requests++;
    return refused && (requests == refused || (all_after && requests > refused));
}

void *__wrap_malloc(size_t size)
{
    return is_refused() ? NULL : __real_malloc(size);
}

void *__wrap_realloc(void *old, size_t size)
{
    return is_refused() ? NULL : __real_realloc(old, size);
}

enum { WHOLE = 1000 }; /* the `from` of a whole text */

typedef struct edit {
    const char *name;
    uint32_t from, to; /* `to` is 0 for an insertion and a whole text */
    const char *text;  /* none for a deletion */
    abc_live_code wanted;
} edit;

static const char book[] = "M:3/4\n\nX:1\nT:One\nK:G\n|:GAB cde|1 f2:|2 g3|]\n\nX:2\nK:Dm\nV:a\n[DFA]>d z\nV:b\nD,2 ^C%oops\n\nX:3\nQ:0\nK:C\nC/0\n";

static abc_live_code make(abc_live_session *session, const edit *e)
{
    abc_live_work work = {0, 0, 0};
    const uint8_t *text = (const uint8_t *)e->text;
    size_t bytes = e->text ? strlen(e->text) : 0;
    if (e->from == WHOLE)
        return abc_live_set_text(session, text, bytes, &work);
    if (!e->text)
        return abc_live_delete(session, e->from, e->to, &work);
    if (e->to == 0)
        return abc_live_insert(session, e->from, text, bytes, &work);
    return abc_live_replace(session, e->from, e->to, text, bytes, &work);
}

/* All that a session tells, as bytes. */
static size_t tell(abc_live_session *session, uint8_t *to, size_t room)
{
    uint32_t numbers[16], lines = 0, number = 0;
    abc_live_fault faults[64];
    size_t at = 0, count = 0, size = 0, index;
    abc_live_line_count(session, &lines);
    for (number = 1; number <= lines; number++) {
        abc_live_line(session, number, to + at, room - at, &size);
        at += size;
        to[at++] = '\n';
    }
    abc_live_faults(session, faults, 64, &count);
    memcpy(to + at, faults, count * sizeof *faults);
    at += count * sizeof *faults;
    abc_live_title_count(session, &count);
    for (index = 0; index < count; index++) {
        abc_live_title(session, index, &number, to + at, room - at, &size);
        at += size;
        at += (size_t)snprintf((char *)to + at, room - at, " is %lu\n", (unsigned long)number);
    }
    abc_live_written(session, numbers, 16, &count);
    for (index = 0; index < count; index++)
        at += (size_t)snprintf((char *)to + at, room - at, "written %lu\n", (unsigned long)numbers[index]);
    abc_live_removed(session, numbers, 16, &count);
    for (index = 0; index < count; index++)
        at += (size_t)snprintf((char *)to + at, room - at, "removed %lu\n", (unsigned long)numbers[index]);
    abc_live_numbers(session, numbers, 16, &count);
    for (index = 0; index < count; index++) {
        at += (size_t)snprintf((char *)to + at, room - at, "file %lu\n", (unsigned long)numbers[index]);
        abc_live_output(session, numbers[index], to + at, room - at, &size);
        at += size;
    }
    return at;
}

static abc_live_session begun(void)
{
    abc_live_session session = {0};
    abc_live_work work = {0, 0, 0};
    if (abc_live_open(&session) != ABC_LIVE_OK
        || abc_live_insert(&session, 1, (const uint8_t *)book, sizeof book - 1, &work) != ABC_LIVE_OK) {
        printf("FAILED: no book is opened\n0 passed, 1 failed\n");
        exit(EXIT_FAILURE);
    }
    return session;
}

static uint8_t before[65536], after[65536], now[65536];

/* Makes the edit with this request refused. Whether it came to the request; `ok` says whether all was as it must be. */
static bool refuse_one(const edit *e, unsigned long number, size_t size_before, size_t size_after, bool *ok)
{
    abc_live_session session = begun();
    abc_live_code code;
    unsigned long made;
    size_t size;
    requests = 0;
    refused = number;
    code = make(&session, e);
    made = requests;
    refused = 0;
    size = tell(&session, now, sizeof now);
    if (code == e->wanted)
        *ok = *ok && size == size_after && memcmp(now, after, size) == 0;
    else
        *ok = *ok && code == ABC_LIVE_OUT_OF_MEMORY && e->wanted == ABC_LIVE_OK && size == size_before && memcmp(now, before, size) == 0;
    if (code == ABC_LIVE_OUT_OF_MEMORY) {
        *ok = *ok && make(&session, e) == e->wanted;
        size = tell(&session, now, sizeof now);
        *ok = *ok && size == size_after && memcmp(now, after, size) == 0;
    }
    *ok = *ok && abc_live_close(&session) == ABC_LIVE_OK;
    return made >= number;
}

static bool refuse_each(const edit *e)
{
    abc_live_session session = begun();
    size_t size_before = tell(&session, before, sizeof before), size_after;
    bool ok = make(&session, e) == e->wanted;
    unsigned long number = 0;
    size_after = tell(&session, after, sizeof after);
    abc_live_close(&session);
    while (refuse_one(e, ++number, size_before, size_after, &ok))
        continue;
    printf("%s: %lu requests refused in turn%s\n", e->name, number - 1, all_after ? ", with all after each" : "");
    if (e->from == WHOLE && e->wanted != ABC_LIVE_OK)
        return ok && number == 1; /* it is refused before the first request */
    return ok && (number > 1 || !e->text);
}

/* Refuses the requests of `abc_live_open`: the session is not open then, and opens with ample memory. */
static bool refuse_opening(void)
{
    unsigned long number = 0, made;
    bool ok = true;
    do {
        abc_live_session session = {0};
        abc_live_code code;
        requests = 0;
        refused = ++number;
        code = abc_live_open(&session);
        made = requests;
        refused = 0;
        ok = ok && code == (made < number ? ABC_LIVE_OK : ABC_LIVE_OUT_OF_MEMORY);
        if (code != ABC_LIVE_OK)
            ok = ok && abc_live_close(&session) == ABC_LIVE_MISUSED && abc_live_open(&session) == ABC_LIVE_OK;
        ok = ok && abc_live_close(&session) == ABC_LIVE_OK;
    } while (made >= number);
    printf("open: %lu requests refused in turn\n", number - 1);
    return ok && number > 1;
}

/* Refuses the requests of `abc_live_tokens`: it may do without, or nothing is copied, and the session stays as it was. */
static bool refuse_tokens(void)
{
    abc_live_session session = begun();
    abc_live_work work = {0, 0, 0};
    abc_live_token found[32], wanted[32];
    size_t count = 0, wanted_count = 0, size_before = tell(&session, before, sizeof before);
    unsigned long number = 0, made, failures = 0;
    bool ok = abc_live_tokens(&session, 11, wanted, 32, &wanted_count, &work) == ABC_LIVE_OK && wanted_count > 3;
    do {
        abc_live_code code;
        memset(found, 0, sizeof found);
        requests = 0;
        refused = ++number;
        code = abc_live_tokens(&session, 11, found, 32, &count, &work);
        made = requests;
        refused = 0;
        if (code == ABC_LIVE_OK)
            ok = ok && count == wanted_count && memcmp(found, wanted, count * sizeof *found) == 0;
        else
            ok = ok && made >= number && code == ABC_LIVE_OUT_OF_MEMORY && count == 0 && found[0].kind == 0;
        failures += code != ABC_LIVE_OK;
        ok = ok && tell(&session, now, sizeof now) == size_before && memcmp(now, before, size_before) == 0;
    } while (made >= number);
    abc_live_close(&session);
    printf("tokens: %lu requests refused in turn\n", number - 1);
    return ok && failures > 0;
}

/* What the calls on plays copied: the code, the sizes of tracks and the entries. */
typedef struct played {
    abc_live_code code;
    size_t count;
    size_t sizes[16];
    abc_live_entry entries[64];
} played;

/* Calls `abc_live_tracks`, or `abc_live_play` if `is_play`. */
static void play(abc_live_session *session, bool is_play, played *to)
{
    memset(to, 0, sizeof *to);
    to->code = is_play ? abc_live_play(session, 2, to->entries, 64, &to->count) : abc_live_tracks(session, 2, to->sizes, 16, &to->count);
}

/* Refuses the requests of a call on plays: it may do without, or nothing is copied, and the session stays as it was. */
static bool refuse_play(bool is_play)
{
    static played found, wanted, nothing;
    abc_live_session session = begun();
    size_t size_before = tell(&session, before, sizeof before);
    unsigned long number = 0, made, failures = 0;
    bool ok;
    play(&session, is_play, &wanted);
    ok = wanted.code == ABC_LIVE_OK && wanted.count > 2;
    nothing.code = ABC_LIVE_OUT_OF_MEMORY;
    do {
        requests = 0;
        refused = ++number;
        play(&session, is_play, &found);
        made = requests;
        refused = 0;
        if (found.code != ABC_LIVE_OK)
            failures++;
        ok = ok && memcmp(&found, found.code == ABC_LIVE_OK ? &wanted : &nothing, sizeof found) == 0;
        ok = ok && (made >= number || found.code == ABC_LIVE_OK);
        ok = ok && tell(&session, now, sizeof now) == size_before && memcmp(now, before, size_before) == 0;
    } while (made >= number);
    abc_live_close(&session);
    printf("%s: %lu requests refused in turn\n", is_play ? "play" : "tracks", number - 1);
    return ok && failures > 0;
}

int main(void)
{
    static const char *const calls[] = {"open", "tokens", "tracks", "play"};
    static char long_line[4 + 65536 + 1]; /* a short line, and one of 65,536 bytes */
    const edit edits[] = {
        {"a tune comes", 1, 0, "X:7\nK:A\nabc|\n\n", ABC_LIVE_OK},
        {"a note changes", 6, 6, "|:GAB cdf|1 f2:|2 g3|]\n", ABC_LIVE_OK},
        {"a meter goes", 1, 1, NULL, ABC_LIVE_OK},
        {"tunes go", 2, 12, NULL, ABC_LIVE_OK},
        {"a comment becomes lines", 2, 2, "% one\n% two\n% three", ABC_LIVE_OK},
        {"a line that is not there", 99, 99, "C\nD\nE\n", ABC_LIVE_BAD_RANGE},
        {"a line before the first", 0, 0, "C\nD\n", ABC_LIVE_BAD_RANGE},
        {"a line that is too long", 1, 0, long_line, ABC_LIVE_BAD_LINE},
        {"a long line in the place of another", 2, 2, long_line, ABC_LIVE_BAD_LINE},
        {"a whole text", WHOLE, 0, "M:3/4\n\nX:1\nT:One\nK:G\n|:GAB cde|1 f2:|2 a3|]\n\nX:3\nQ:0\nK:C\nC/0\n", ABC_LIVE_OK},
        {"the whole text as it was", WHOLE, 0, book, ABC_LIVE_OK},
        {"a whole text with a line that is too long", WHOLE, 0, long_line, ABC_LIVE_BAD_LINE},
    };
    unsigned passed = 0, failed = 0;
    size_t at;
    memset(long_line, 'z', sizeof long_line - 1);
    long_line[3] = '\n';
    for (at = 0; at < 2 * sizeof edits / sizeof *edits; at++) {
        bool ok;
        all_after = at % 2;
        ok = refuse_each(&edits[at / 2]);
        if (!ok)
            printf("FAILED: %s\n", edits[at / 2].name);
        passed += ok;
        failed += !ok;
    }
    all_after = false;
    for (at = 0; at < sizeof calls / sizeof *calls; at++) {
        bool ok = at == 0 ? refuse_opening() : at == 1 ? refuse_tokens() : refuse_play(at == 3);
        if (!ok)
            printf("FAILED: %s\n", calls[at]);
        passed += ok;
        failed += !ok;
    }
    printf("%u passed, %u failed\n", passed, failed);
    return failed ? EXIT_FAILURE : EXIT_SUCCESS;
}
