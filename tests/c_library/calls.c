/* Each call on its happy path, at its limits, and misused. It is C and C++. The last line is 'N passed, M failed'. */
#include <abc2midi_live.h>
#include <stdio.h>
#include <stdlib.h>
#include <string.h>

static unsigned passed, failed;

static void look(int is, const char *what, unsigned long at)
{
    if (is) {
        passed++;
    } else {
        failed++;
        printf("FAILED: line %lu: %s\n", at, what);
    }
}
#define CHECK(is) look((is) != 0, #is, __LINE__)

#define TEXT(text) (const uint8_t *)(text), strlen(text)

static abc_live_session opened(void)
{
    abc_live_session session;
    memset(&session, 0, sizeof session);
    CHECK(abc_live_open(&session) == ABC_LIVE_OK);
    return session;
}

/* Every call on a session that is not open. */
static void refuse_all(abc_live_session *session)
{
    abc_live_work work = {7, 8, 9};
    uint32_t number = 5, numbers[2] = {1, 2};
    uint8_t bytes[2] = {3, 4};
    abc_live_fault fault = {1, 2, 3};
    abc_live_token token = {1, 2, 3, 0};
    abc_live_entry entry = {1, 2, 3, 4, 5, 6, 7, 8, 9};
    size_t count = 5, sizes[1] = {6};
    CHECK(abc_live_insert(session, 1, TEXT("X:1\n"), &work) == ABC_LIVE_MISUSED);
    CHECK(abc_live_replace(session, 1, 1, TEXT("X:1\n"), &work) == ABC_LIVE_MISUSED);
    CHECK(abc_live_delete(session, 1, 1, &work) == ABC_LIVE_MISUSED);
    CHECK(abc_live_set_text(session, TEXT("X:1\n"), &work) == ABC_LIVE_MISUSED);
    CHECK(work.scanned == 7 && work.folded == 8 && work.built == 9);
    CHECK(abc_live_written(session, numbers, 2, &count) == ABC_LIVE_MISUSED && count == 0);
    count = 5;
    CHECK(abc_live_removed(session, numbers, 2, &count) == ABC_LIVE_MISUSED && count == 0);
    count = 5;
    CHECK(abc_live_numbers(session, numbers, 2, &count) == ABC_LIVE_MISUSED && count == 0);
    count = 5;
    CHECK(abc_live_output(session, 1, bytes, 2, &count) == ABC_LIVE_MISUSED && count == 0);
    count = 5;
    CHECK(abc_live_title_count(session, &count) == ABC_LIVE_MISUSED && count == 0);
    count = 5;
    CHECK(abc_live_title(session, 0, &number, bytes, 2, &count) == ABC_LIVE_MISUSED && count == 0 && number == 0);
    count = 5;
    CHECK(abc_live_faults(session, &fault, 1, &count) == ABC_LIVE_MISUSED && count == 0);
    number = 5;
    CHECK(abc_live_line_count(session, &number) == ABC_LIVE_MISUSED && number == 0);
    count = 5;
    CHECK(abc_live_line(session, 1, bytes, 2, &count) == ABC_LIVE_MISUSED && count == 0);
    count = 5;
    CHECK(abc_live_tokens(session, 1, &token, 1, &count, &work) == ABC_LIVE_MISUSED && count == 0 && token.kind == 3);
    CHECK(work.scanned == 7 && work.folded == 8 && work.built == 9);
    count = 5;
    CHECK(abc_live_tracks(session, 1, sizes, 1, &count) == ABC_LIVE_MISUSED && count == 0 && sizes[0] == 6);
    count = 5;
    CHECK(abc_live_play(session, 1, &entry, 1, &count) == ABC_LIVE_MISUSED && count == 0 && entry.on == 1 && entry.ties == 9);
    CHECK(numbers[0] == 1 && numbers[1] == 2 && bytes[0] == 3 && bytes[1] == 4 && fault.line == 1 && fault.code == 3);
    CHECK(abc_live_close(session) == ABC_LIVE_MISUSED);
}

static void open_and_close(void)
{
    abc_live_session session, moved;
    memset(&session, 0, sizeof session);
    refuse_all(&session);
    CHECK(abc_live_open(&session) == ABC_LIVE_OK);
    CHECK(abc_live_open(&session) == ABC_LIVE_MISUSED);
    moved = session;
    memset(&session, 0, sizeof session);
    refuse_all(&session);
    CHECK(abc_live_close(&moved) == ABC_LIVE_OK);
    CHECK(abc_live_close(&moved) == ABC_LIVE_MISUSED);
    refuse_all(&moved);
    CHECK(abc_live_open(&moved) == ABC_LIVE_OK);
    CHECK(abc_live_close(&moved) == ABC_LIVE_OK);
}

/* Lines are cut at line feeds; a last one without a line feed counts if it is not empty. */
static void cut_lines(void)
{
    static const struct {
        const char *text;
        uint32_t lines;
    } cases[] = {{"", 0}, {"\n", 1}, {"A", 1}, {"A\n", 1}, {"A\nB", 2}, {"A\nB\n", 2}, {"\n\n", 2}, {"A\n\nB", 3}, {"A\r\n\r\n", 2}};
    abc_live_work work = {0, 0, 0};
    size_t at;
    for (at = 0; at < sizeof cases / sizeof *cases; at++) {
        abc_live_session session = opened();
        uint32_t count = 99;
        CHECK(abc_live_insert(&session, 1, TEXT(cases[at].text), &work) == ABC_LIVE_OK);
        CHECK(abc_live_line_count(&session, &count) == ABC_LIVE_OK && count == cases[at].lines);
        CHECK(abc_live_close(&session) == ABC_LIVE_OK);
    }
}

static void edit_a_book(void)
{
    abc_live_session session = opened();
    abc_live_work work = {0, 0, 0};
    uint32_t numbers[2] = {0, 0}, number = 0, count32 = 0;
    uint8_t bytes[256];
    size_t count = 0, size = 0;
    abc_live_fault fault = {0, 0, 0};
    CHECK(abc_live_written(&session, NULL, 0, &count) == ABC_LIVE_OK && count == 0);
    CHECK(abc_live_insert(&session, 1, NULL, 0, &work) == ABC_LIVE_OK && work.scanned == 0);
    CHECK(abc_live_insert(&session, 1, TEXT("X:2\nT:Two\nK:C\nCDEF|\n\nX:1\nM:oops\nK:C\nC|\n"), &work) == ABC_LIVE_OK);
    CHECK(work.scanned == 9 && work.folded == 8 && work.built == 2);
    CHECK(abc_live_written(&session, numbers, 2, &count) == ABC_LIVE_OK && count == 2 && numbers[0] == 1 && numbers[1] == 2);
    CHECK(abc_live_removed(&session, numbers, 2, &count) == ABC_LIVE_OK && count == 0);
    CHECK(abc_live_numbers(&session, numbers, 1, &count) == ABC_LIVE_SHORT_BUFFER && count == 2);
    CHECK(abc_live_numbers(&session, numbers, 2, &count) == ABC_LIVE_OK && count == 2 && numbers[0] == 1 && numbers[1] == 2);
    CHECK(abc_live_title_count(&session, &count) == ABC_LIVE_OK && count == 2);
    memset(bytes, '#', sizeof bytes);
    CHECK(abc_live_title(&session, 0, &number, bytes, 2, &count) == ABC_LIVE_SHORT_BUFFER && count == 3 && number == 2 && bytes[0] == '#');
    CHECK(abc_live_title(&session, 0, &number, bytes, 4, &count) == ABC_LIVE_OK && count == 3 && memcmp(bytes, "Two#", 4) == 0);
    CHECK(abc_live_title(&session, 1, &number, NULL, 0, &count) == ABC_LIVE_OK && count == 0 && number == 1);
    CHECK(abc_live_title(&session, 2, &number, bytes, 4, &count) == ABC_LIVE_NOT_FOUND && count == 0 && number == 0);
    CHECK(abc_live_output(&session, 2, NULL, 0, &size) == ABC_LIVE_SHORT_BUFFER && size > 22 && size < sizeof bytes);
    CHECK(abc_live_output(&session, 2, bytes, size - 1, &size) == ABC_LIVE_SHORT_BUFFER);
    CHECK(abc_live_output(&session, 2, bytes, size, &size) == ABC_LIVE_OK && memcmp(bytes, "MThd", 4) == 0);
    CHECK(abc_live_output(&session, 3, bytes, size, &size) == ABC_LIVE_NOT_FOUND && size == 0);
    CHECK(abc_live_faults(&session, NULL, 0, &count) == ABC_LIVE_SHORT_BUFFER && count == 1);
    CHECK(abc_live_faults(&session, &fault, 1, &count) == ABC_LIVE_OK && count == 1);
    CHECK(fault.line == 7 && fault.column == 1);
    CHECK(abc_live_fault_name(fault.code, bytes, sizeof bytes, &count) == ABC_LIVE_OK && count == 8 && memcmp(bytes, "BadMeter", 8) == 0);
    CHECK(abc_live_line_count(&session, &count32) == ABC_LIVE_OK && count32 == 9);
    CHECK(abc_live_line(&session, 2, bytes, sizeof bytes, &count) == ABC_LIVE_OK && count == 5 && memcmp(bytes, "T:Two", 5) == 0);
    CHECK(abc_live_line(&session, 5, NULL, 0, &count) == ABC_LIVE_OK && count == 0);
    CHECK(abc_live_line(&session, 0, bytes, sizeof bytes, &count) == ABC_LIVE_NOT_FOUND);
    CHECK(abc_live_line(&session, 10, bytes, sizeof bytes, &count) == ABC_LIVE_NOT_FOUND);
    CHECK(abc_live_replace(&session, 1, 1, TEXT("X:3"), &work) == ABC_LIVE_OK);
    CHECK(abc_live_written(&session, numbers, 2, &count) == ABC_LIVE_OK && count == 1 && numbers[0] == 3);
    CHECK(abc_live_removed(&session, numbers, 2, &count) == ABC_LIVE_OK && count == 1 && numbers[0] == 2);
    CHECK(abc_live_delete(&session, 1, 9, &work) == ABC_LIVE_OK);
    CHECK(abc_live_removed(&session, numbers, 2, &count) == ABC_LIVE_OK && count == 2);
    CHECK(abc_live_numbers(&session, numbers, 2, &count) == ABC_LIVE_OK && count == 0);
    CHECK(abc_live_close(&session) == ABC_LIVE_OK);
}

/* Whether the tokens of a line are these. A buffer that is one token too short stays as it was. */
static int has_tokens(abc_live_session *session, uint32_t number, const abc_live_token *wanted, size_t wanted_count)
{
    abc_live_token found[32];
    abc_live_work work = {0, 0, 0};
    size_t count = 0;
    memset(found, 0xff, sizeof found);
    if (abc_live_tokens(session, number, found, wanted_count - 1, &count, &work) != ABC_LIVE_SHORT_BUFFER || count != wanted_count
        || found[0].from != UINT32_MAX)
        return 0;
    return abc_live_tokens(session, number, found, 32, &count, &work) == ABC_LIVE_OK && count == wanted_count
           && memcmp(found, wanted, count * sizeof *wanted) == 0 && found[count].from == UINT32_MAX;
}

/* The tokens of lines: with the parts of chords, comments, and lines that are one token. The rows are worked out by hand. */
static void tokens(void)
{
    static const abc_live_token number_line[] = {{1, 5, ABC_LIVE_TOKEN_NUMBER_FIELD, 0}, {5, 10, ABC_LIVE_TOKEN_COMMENT, 0}};
    static const abc_live_token music[] = {
        {1, 3, ABC_LIVE_TOKEN_BAR_LINE, 0}, {3, 13, ABC_LIVE_TOKEN_CHORD, 0}, {4, 5, ABC_LIVE_TOKEN_NOTE, 1},
        {5, 6, ABC_LIVE_TOKEN_NOTE, 1}, {6, 9, ABC_LIVE_TOKEN_DYNAMIC, 1}, {9, 12, ABC_LIVE_TOKEN_QUOTED, 1},
        {13, 14, ABC_LIVE_TOKEN_TIE, 0}, {14, 15, ABC_LIVE_TOKEN_BAR_LINE, 0}, {15, 16, ABC_LIVE_TOKEN_ENDING, 0},
        {16, 17, ABC_LIVE_TOKEN_REST, 0}, {17, 18, ABC_LIVE_TOKEN_BAD_BYTE, 0}, {18, 19, ABC_LIVE_TOKEN_BAD_BYTE, 0},
        {19, 22, ABC_LIVE_TOKEN_COMMENT, 0}};
    static const abc_live_token blank[] = {{1, 1, ABC_LIVE_TOKEN_BLANK, 0}};
    static const abc_live_token free_text[] = {{1, 7, ABC_LIVE_TOKEN_FREE_TEXT, 0}};
    static const abc_live_token key[] = {{1, 4, ABC_LIVE_TOKEN_KEY_FIELD, 0}};
    abc_live_session session = opened();
    abc_live_work work = {0, 0, 0};
    abc_live_token token = {9, 9, 9, 9};
    size_t count = 9;
    CHECK(abc_live_insert(&session, 1, TEXT("X:1 % one\nK:G\n|:[CE!f!\"a\"]-|1z\xc3\xa9% x\r\n\nfree|C\n"), &work) == ABC_LIVE_OK);
    CHECK(has_tokens(&session, 1, number_line, 2) && has_tokens(&session, 2, key, 1) && has_tokens(&session, 3, music, 13));
    CHECK(has_tokens(&session, 4, blank, 1) && has_tokens(&session, 5, free_text, 1));
    CHECK(abc_live_tokens(&session, 0, &token, 1, &count, &work) == ABC_LIVE_NOT_FOUND && count == 0 && token.kind == 9);
    CHECK(abc_live_tokens(&session, 6, NULL, 0, &count, &work) == ABC_LIVE_NOT_FOUND && count == 0);
    work.scanned = 0;
    CHECK(abc_live_tokens(&session, 5, &token, 1, &count, &work) == ABC_LIVE_OK && work.scanned == 0);
    CHECK(abc_live_tokens(&session, 2, &token, 1, &count, &work) == ABC_LIVE_OK && work.scanned == 1);
    CHECK(abc_live_delete(&session, 1, 1, &work) == ABC_LIVE_OK && has_tokens(&session, 1, key, 1));
    CHECK(abc_live_insert(&session, 1, TEXT("\nwords\n"), &work) == ABC_LIVE_OK);
    CHECK(abc_live_tokens(&session, 3, &token, 1, &count, &work) == ABC_LIVE_OK);
    CHECK(count == 1 && token.kind == ABC_LIVE_TOKEN_FREE_TEXT && token.from == 1 && token.to == 4);
    CHECK(abc_live_close(&session) == ABC_LIVE_OK);
}

/* Whether the tracks of a number's file have these sizes, and its play these entries. Buffers that are too short stay as they were. */
static int plays(abc_live_session *session, uint32_t number, const size_t *sizes, size_t tracks, const abc_live_entry *wanted)
{
    size_t found_sizes[16], count = 0, total = 0, at;
    abc_live_entry found[32];
    memset(found_sizes, 0xff, sizeof found_sizes);
    memset(found, 0xff, sizeof found);
    for (at = 0; at < tracks; at++)
        total += sizes[at];
    if (abc_live_tracks(session, number, found_sizes, tracks - 1, &count) != ABC_LIVE_SHORT_BUFFER || count != tracks
        || found_sizes[0] != SIZE_MAX)
        return 0;
    if (abc_live_tracks(session, number, found_sizes, 16, &count) != ABC_LIVE_OK || count != tracks
        || memcmp(found_sizes, sizes, tracks * sizeof *sizes) != 0 || found_sizes[tracks] != SIZE_MAX)
        return 0;
    if (abc_live_play(session, number, found, total - 1, &count) != ABC_LIVE_SHORT_BUFFER || count != total || found[0].on != UINT64_MAX)
        return 0;
    return abc_live_play(session, number, found, 32, &count) == ABC_LIVE_OK && count == total
           && memcmp(found, wanted, total * sizeof *wanted) == 0 && found[total].on == UINT64_MAX;
}

/* The play of a number: chords, ties, rests, a silent tone and a repeat in two voices. The rows are worked out by hand. */
static void play_tunes(void)
{
    static const char book[] = "X:1\nK:C\nV:1\n[CE]-|C z|\nV:2\n|:C,,,,,,,,:|\n\nX:1\nK:C\nD\n";
    static const size_t sizes[] = {0, 6, 5};
    static const abc_live_entry entries[] = {
        {0, 240, 4, 2, 3, ABC_LIVE_ENTRY_NOTE, 60, 80, ABC_LIVE_TIED},
        {0, 240, 4, 3, 4, ABC_LIVE_ENTRY_NOTE, 64, 80, ABC_LIVE_TIED},
        {240, 240, 4, 6, 7, ABC_LIVE_ENTRY_BAR, ABC_LIVE_NO_KEY, 0, 0},
        {240, 480, 4, 7, 8, ABC_LIVE_ENTRY_NOTE, 60, 80, ABC_LIVE_JOINED},
        {480, 720, 4, 9, 10, ABC_LIVE_ENTRY_REST, ABC_LIVE_NO_KEY, 0, 0},
        {720, 720, 4, 10, 11, ABC_LIVE_ENTRY_BAR, ABC_LIVE_NO_KEY, 0, 0},
        {0, 0, 6, 1, 3, ABC_LIVE_ENTRY_BAR, ABC_LIVE_NO_KEY, 0, 0},
        {0, 240, 6, 3, 12, ABC_LIVE_ENTRY_NOTE, ABC_LIVE_NO_KEY, 0, 0},
        {240, 240, 6, 12, 14, ABC_LIVE_ENTRY_BAR, ABC_LIVE_NO_KEY, 0, 0},
        {240, 480, 6, 3, 12, ABC_LIVE_ENTRY_NOTE, ABC_LIVE_NO_KEY, 0, 0},
        {480, 480, 6, 12, 14, ABC_LIVE_ENTRY_BAR, ABC_LIVE_NO_KEY, 0, 0}};
    static const size_t second_sizes[] = {0, 1};
    static const abc_live_entry second[] = {{0, 240, 3, 1, 2, ABC_LIVE_ENTRY_NOTE, 62, 80, 0}};
    abc_live_session session = opened();
    abc_live_work work = {0, 0, 0}, before;
    abc_live_entry entry = {1, 2, 3, 4, 5, 6, 7, 8, 9};
    size_t count = 9, size = 9;
    CHECK(abc_live_insert(&session, 1, TEXT(book), &work) == ABC_LIVE_OK);
    before = work;
    CHECK(plays(&session, 1, sizes, 3, entries));
    CHECK(memcmp(&work, &before, sizeof work) == 0);
    CHECK(abc_live_tracks(&session, 2, &size, 1, &count) == ABC_LIVE_NOT_FOUND && count == 0 && size == 9);
    count = 9;
    CHECK(abc_live_play(&session, 2, &entry, 1, &count) == ABC_LIVE_NOT_FOUND && count == 0 && entry.on == 1 && entry.ties == 9);
    CHECK(abc_live_delete(&session, 1, 7, &work) == ABC_LIVE_OK && plays(&session, 1, second_sizes, 2, second));
    CHECK(abc_live_delete(&session, 3, 3, &work) == ABC_LIVE_OK);
    CHECK(abc_live_tracks(&session, 1, NULL, 0, &count) == ABC_LIVE_SHORT_BUFFER && count == 1);
    CHECK(abc_live_tracks(&session, 1, &size, 1, &count) == ABC_LIVE_OK && count == 1 && size == 0);
    CHECK(abc_live_play(&session, 1, NULL, 0, &count) == ABC_LIVE_OK && count == 0);
    CHECK(abc_live_close(&session) == ABC_LIVE_OK);
}

/* A text with a part of a note and `bars` bar lines that is played 1,000 times. */
static size_t put_long_tune(char *text, size_t bars)
{
    size_t at = (size_t)sprintf(text, "X:1\nP:A1000\nK:C\nP:A\nC");
    while (bars-- > 0) {
        text[at++] = '|';
        text[at++] = ' ';
    }
    return at;
}

/* A play of 1,000,000 items and bar lines is the longest. */
static void refuse_long_plays(void)
{
    static char text[4096];
    abc_live_session session = opened();
    abc_live_work work = {0, 0, 0};
    abc_live_entry entry = {1, 2, 3, 4, 5, 6, 7, 8, 9};
    size_t count = 9, sizes[2] = {8, 9};
    CHECK(abc_live_set_text(&session, (const uint8_t *)text, put_long_tune(text, 999), &work) == ABC_LIVE_OK);
    CHECK(abc_live_tracks(&session, 1, sizes, 2, &count) == ABC_LIVE_OK && count == 2 && sizes[0] == 0 && sizes[1] == 1000000);
    CHECK(abc_live_play(&session, 1, &entry, 1, &count) == ABC_LIVE_SHORT_BUFFER && count == 1000000 && entry.on == 1);
    CHECK(abc_live_set_text(&session, (const uint8_t *)text, put_long_tune(text, 1000), &work) == ABC_LIVE_OK);
    CHECK(abc_live_output(&session, 1, NULL, 0, &count) == ABC_LIVE_SHORT_BUFFER);
    CHECK(abc_live_tracks(&session, 1, sizes, 2, &count) == ABC_LIVE_TOO_LONG && count == 0 && sizes[1] == 1000000);
    count = 9;
    CHECK(abc_live_play(&session, 1, &entry, 1, &count) == ABC_LIVE_TOO_LONG && count == 0 && entry.on == 1);
    CHECK(abc_live_close(&session) == ABC_LIVE_OK);
}

/* An edit that is refused is answered the first reason, and changes nothing. */
static void refuse_edits(void)
{
    abc_live_session session = opened();
    abc_live_work work = {0, 0, 0};
    uint32_t count = 0, numbers[2] = {0, 0};
    size_t written = 0, size = 65536;
    uint8_t *longest = (uint8_t *)malloc(size), *feeds = (uint8_t *)malloc(1048577);
    CHECK(longest && feeds);
    memset(longest, '%', size);
    memset(feeds, '\n', 1048577);
    CHECK(abc_live_insert(&session, 1, TEXT("X:1\nK:C\nC\n"), &work) == ABC_LIVE_OK);
    CHECK(abc_live_insert(&session, 0, TEXT("%"), &work) == ABC_LIVE_BAD_RANGE);
    CHECK(abc_live_insert(&session, 5, TEXT("%"), &work) == ABC_LIVE_BAD_RANGE);
    CHECK(abc_live_insert(&session, UINT32_MAX, longest, size, &work) == ABC_LIVE_BAD_RANGE);
    CHECK(abc_live_replace(&session, 2, 1, TEXT("%"), &work) == ABC_LIVE_BAD_RANGE);
    CHECK(abc_live_replace(&session, 1, UINT32_MAX, TEXT("%"), &work) == ABC_LIVE_BAD_RANGE);
    CHECK(abc_live_delete(&session, 0, 1, &work) == ABC_LIVE_BAD_RANGE);
    CHECK(abc_live_delete(&session, 1, 4, &work) == ABC_LIVE_BAD_RANGE);
    CHECK(abc_live_insert(&session, 4, longest, size, &work) == ABC_LIVE_BAD_LINE);
    CHECK(abc_live_insert(&session, 4, feeds, 1048574, &work) == ABC_LIVE_TOO_LARGE);
    CHECK(abc_live_line_count(&session, &count) == ABC_LIVE_OK && count == 3 && work.scanned == 3);
    CHECK(abc_live_written(&session, numbers, 2, &written) == ABC_LIVE_OK && written == 1 && numbers[0] == 1);
    CHECK(abc_live_insert(&session, 4, longest, size - 1, &work) == ABC_LIVE_OK);
    CHECK(abc_live_insert(&session, 5, feeds, 1048572, &work) == ABC_LIVE_OK);
    CHECK(abc_live_insert(&session, 5, TEXT("%"), &work) == ABC_LIVE_TOO_LARGE);
    CHECK(abc_live_line_count(&session, &count) == ABC_LIVE_OK && count == 1048576);
    free(longest);
    free(feeds);
    CHECK(abc_live_close(&session) == ABC_LIVE_OK);
}

/* Whether the last report has these numbers, none of them 0. */
static int reports(abc_live_session *session, uint32_t written, uint32_t removed)
{
    uint32_t number = 0, gone = 0;
    size_t count = 9, gone_count = 9;
    return abc_live_written(session, &number, 1, &count) == ABC_LIVE_OK && count == (written ? 1u : 0u) && number == written
           && abc_live_removed(session, &gone, 1, &gone_count) == ABC_LIVE_OK && gone_count == (removed ? 1u : 0u) && gone == removed;
}

/* Whether a line of the text is this one. */
static int has_line(abc_live_session *session, uint32_t number, const char *line)
{
    uint8_t bytes[16];
    size_t count = 0;
    return abc_live_line(session, number, bytes, sizeof bytes, &count) == ABC_LIVE_OK && count == strlen(line)
           && memcmp(bytes, line, count) == 0;
}

/* A whole text is one edit of the lines that differ: what stays at both ends is not scanned again. */
static void set_whole_texts(void)
{
    abc_live_session session = opened();
    abc_live_work work = {0, 0, 0};
    uint32_t count = 99;
    CHECK(abc_live_set_text(&session, NULL, 0, &work) == ABC_LIVE_OK && reports(&session, 0, 0));
    CHECK(abc_live_set_text(&session, TEXT("X:1\nK:C\nC|\n"), &work) == ABC_LIVE_OK && reports(&session, 1, 0));
    CHECK(work.scanned == 3 && work.built == 1);
    CHECK(abc_live_set_text(&session, TEXT("X:1\nK:C\nC|\n\nX:2\nK:C\nD|"), &work) == ABC_LIVE_OK && reports(&session, 2, 0));
    CHECK(work.scanned == 7 && work.built == 2);
    CHECK(abc_live_set_text(&session, TEXT("X:1\nK:C\nC|\n\nX:2\nK:C\nD|\n"), &work) == ABC_LIVE_OK && reports(&session, 0, 0));
    CHECK(work.scanned == 7 && work.built == 2);
    CHECK(abc_live_set_text(&session, TEXT("X:1\nK:C\nE|\n\nX:2\nK:C\nD|\n"), &work) == ABC_LIVE_OK && reports(&session, 1, 0));
    CHECK(work.scanned == 8 && work.built == 3);
    CHECK(abc_live_set_text(&session, TEXT("X:1\nK:C\nE|\n\nX:2\nK:C\nD|\r\n"), &work) == ABC_LIVE_OK && reports(&session, 0, 0));
    CHECK(work.scanned == 9 && has_line(&session, 7, "D|\r"));
    CHECK(abc_live_set_text(&session, TEXT("X:1\nK:C\nE|\n"), &work) == ABC_LIVE_OK && reports(&session, 0, 2));
    CHECK(abc_live_set_text(&session, TEXT("E|\n\nX:1\nK:C\nE|\n"), &work) == ABC_LIVE_OK && reports(&session, 0, 0));
    CHECK(abc_live_line_count(&session, &count) == ABC_LIVE_OK && count == 5);
    CHECK(has_line(&session, 1, "E|") && has_line(&session, 2, "") && has_line(&session, 3, "X:1") && has_line(&session, 5, "E|"));
    CHECK(abc_live_set_text(&session, NULL, 0, &work) == ABC_LIVE_OK && reports(&session, 0, 1));
    CHECK(abc_live_line_count(&session, &count) == ABC_LIVE_OK && count == 0);
    CHECK(abc_live_close(&session) == ABC_LIVE_OK);
}

/* A whole text that is refused changes nothing. */
static void refuse_whole_texts(void)
{
    abc_live_session session = opened();
    abc_live_work work = {0, 0, 0};
    uint32_t count = 0;
    size_t size = 65536, most = 1048576;
    uint8_t *longest = (uint8_t *)malloc(size), *feeds = (uint8_t *)malloc(most + 1);
    CHECK(longest && feeds);
    memset(longest, '%', size);
    memset(feeds, '\n', most + 1);
    CHECK(abc_live_set_text(&session, TEXT("X:1\nK:C\nC\n"), &work) == ABC_LIVE_OK);
    CHECK(abc_live_set_text(&session, longest, size, &work) == ABC_LIVE_BAD_LINE);
    CHECK(abc_live_set_text(&session, feeds, most + 1, &work) == ABC_LIVE_TOO_LARGE);
    CHECK(abc_live_line_count(&session, &count) == ABC_LIVE_OK && count == 3 && work.scanned == 3 && reports(&session, 1, 0));
    CHECK(abc_live_set_text(&session, feeds, most, &work) == ABC_LIVE_OK && reports(&session, 0, 1));
    CHECK(abc_live_line_count(&session, &count) == ABC_LIVE_OK && count == most);
    CHECK(abc_live_set_text(&session, longest, size - 1, &work) == ABC_LIVE_OK);
    CHECK(abc_live_line_count(&session, &count) == ABC_LIVE_OK && count == 1);
    free(longest);
    free(feeds);
    CHECK(abc_live_close(&session) == ABC_LIVE_OK);
}

/* The name of each code is that of its constant. */
static void name_codes_of_calls(void)
{
    static const struct {
        abc_live_code code;
        const char *name;
    } cases[] = {{ABC_LIVE_OK, "ABC_LIVE_OK"}, {ABC_LIVE_MISUSED, "ABC_LIVE_MISUSED"}, {ABC_LIVE_BAD_RANGE, "ABC_LIVE_BAD_RANGE"},
                 {ABC_LIVE_BAD_LINE, "ABC_LIVE_BAD_LINE"}, {ABC_LIVE_TOO_LARGE, "ABC_LIVE_TOO_LARGE"},
                 {ABC_LIVE_OUT_OF_MEMORY, "ABC_LIVE_OUT_OF_MEMORY"}, {ABC_LIVE_NOT_FOUND, "ABC_LIVE_NOT_FOUND"},
                 {ABC_LIVE_SHORT_BUFFER, "ABC_LIVE_SHORT_BUFFER"}, {ABC_LIVE_TOO_LONG, "ABC_LIVE_TOO_LONG"}};
    uint8_t bytes[31];
    size_t at, count = 0;
    for (at = 0; at < sizeof cases / sizeof *cases; at++) {
        CHECK(abc_live_code_name(cases[at].code, bytes, sizeof bytes, &count) == ABC_LIVE_OK);
        CHECK(cases[at].code == at && count == strlen(cases[at].name) && memcmp(bytes, cases[at].name, count) == 0);
    }
    CHECK(abc_live_code_name((abc_live_code)at, bytes, sizeof bytes, &count) == ABC_LIVE_NOT_FOUND && count == 0);
    CHECK(abc_live_code_name(UINT32_MAX, bytes, sizeof bytes, &count) == ABC_LIVE_NOT_FOUND && count == 0);
    CHECK(abc_live_code_name(ABC_LIVE_OK, bytes, 3, &count) == ABC_LIVE_SHORT_BUFFER && count == strlen("ABC_LIVE_OK"));
}

/* The sizes that the header promises for 1.x. */
static void measure_structs(void)
{
    CHECK(sizeof(abc_live_session) == 16 && sizeof(abc_live_work) == 24 && sizeof(abc_live_fault) == 12);
    CHECK(sizeof(abc_live_token) == 16 && sizeof(abc_live_entry) == 32);
}

static void name_codes(void)
{
    uint8_t bytes[64];
    size_t count = 0;
    uint32_t code;
    CHECK(abc_live_fault_name(0, bytes, sizeof bytes, &count) == ABC_LIVE_NOT_FOUND && count == 0);
    for (code = 1; abc_live_fault_name(code, bytes, sizeof bytes, &count) == ABC_LIVE_OK; code++)
        printf("code %lu %.*s\n", (unsigned long)code, (int)count, (const char *)bytes);
    CHECK(abc_live_fault_name(code, bytes, sizeof bytes, &count) == ABC_LIVE_NOT_FOUND && count == 0);
    CHECK(abc_live_fault_name(UINT32_MAX, bytes, sizeof bytes, &count) == ABC_LIVE_NOT_FOUND);
    CHECK(abc_live_fault_name(1, bytes, 3, &count) == ABC_LIVE_SHORT_BUFFER && count == strlen("BadReference"));
}

int main(void)
{
    CHECK(abc_live_version() == ABC_LIVE_VERSION_NUMBER);
    open_and_close();
    cut_lines();
    edit_a_book();
    tokens();
    play_tunes();
    refuse_long_plays();
    refuse_edits();
    set_whole_texts();
    refuse_whole_texts();
    name_codes();
    name_codes_of_calls();
    measure_structs();
    printf("%u passed, %u failed\n", passed, failed);
    return failed ? EXIT_FAILURE : EXIT_SUCCESS;
}
