/*
 * Answers the commands of the program by the C library: standard input has them, standard output gets the answers. `build` is left
 * out. With an argument it makes each edit on a second session too, in turn, which has other lines before and must answer its own. A third
 * one then gets the whole text after each edit, and must report the same at no more work.
 */
#include <abc2midi_live.h>
#include <stdbool.h>
#include <stdio.h>
#include <stdlib.h>
#include <string.h>

typedef struct input {
    uint8_t *bytes;
    size_t size, at;
} input;

typedef struct line {
    const uint8_t *bytes;
    size_t size;
} line;

static void fail(const char *what)
{
    fprintf(stderr, "%s\n", what);
    exit(EXIT_FAILURE);
}

static void *room_for(size_t count, size_t each)
{
    void *room = calloc(count + 1, each);
    if (!room)
        fail("out of memory");
    return room;
}

static input read_input(void)
{
    input in = {room_for(1u << 20, 1), 0, 0};
    size_t room = 1u << 20, got;
    while ((got = fread(in.bytes + in.size, 1, room - in.size, stdin)) > 0) {
        in.size += got;
        if (in.size == room) {
            room *= 2;
            in.bytes = realloc(in.bytes, room);
            if (!in.bytes)
                fail("out of memory");
        }
    }
    return in;
}

/* Takes the next line, if there is one. */
static bool next_line(input *in, line *found)
{
    const uint8_t *end;
    if (in->at == in->size)
        return false;
    found->bytes = in->bytes + in->at;
    end = memchr(found->bytes, '\n', in->size - in->at);
    found->size = end ? (size_t)(end - found->bytes) : in->size - in->at;
    in->at += found->size + (end ? 1 : 0);
    return true;
}

/* Cuts a command into its words, at single blanks; 0 if it is none. */
static size_t words_of(line command, line *words, size_t most)
{
    size_t count = 0, from = 0, at;
    if (command.size && command.bytes[command.size - 1] == '\r')
        command.size--;
    for (at = 0; at <= command.size; at++) {
        if (at < command.size && command.bytes[at] != ' ')
            continue;
        if (count == most || at == from)
            return 0;
        words[count].bytes = command.bytes + from;
        words[count++].size = at - from;
        from = at + 1;
    }
    return count;
}

/* Reads a number of one to nine digits. */
static bool read_number(line word, uint32_t *number)
{
    size_t at;
    *number = 0;
    for (at = 0; at < word.size; at++) {
        if (word.bytes[at] < '0' || word.bytes[at] > '9')
            return false;
        *number = *number * 10 + (uint32_t)(word.bytes[at] - '0');
    }
    return word.size >= 1 && word.size <= 9;
}

static bool is_word(line word, const char *name)
{
    return word.size == strlen(name) && memcmp(word.bytes, name, word.size) == 0;
}

typedef abc_live_code (*numbers_call)(abc_live_session *, uint32_t *, size_t, size_t *);

/* The numbers that a call copies; they are to be freed. */
static uint32_t *numbers_of(abc_live_session *session, numbers_call call, size_t *count)
{
    size_t got = 0;
    uint32_t *numbers;
    call(session, NULL, 0, count);
    numbers = room_for(*count, sizeof *numbers);
    if (call(session, numbers, *count, &got) != ABC_LIVE_OK || got != *count)
        fail("numbers are not copied");
    return numbers;
}

static void print_numbers(abc_live_session *session, numbers_call call)
{
    size_t count = 0, at;
    uint32_t *numbers = numbers_of(session, call, &count);
    for (at = 0; at < count; at++)
        printf(" %lu", (unsigned long)numbers[at]);
    free(numbers);
}

static void answer_edit(abc_live_session *session, abc_live_code code)
{
    static const char *const names[] = {"", "", "BadRange", "BadLine", "TooLarge", "OutOfMemory"};
    if (code == ABC_LIVE_OK) {
        printf("ok written");
        print_numbers(session, abc_live_written);
        printf(" removed");
        print_numbers(session, abc_live_removed);
        printf("\n");
    } else if (code >= ABC_LIVE_BAD_RANGE && code <= ABC_LIVE_OUT_OF_MEMORY) {
        printf("error %s\n", names[code]);
    } else {
        fail("an edit has no such answer");
    }
}

static void answer_faults(abc_live_session *session)
{
    size_t count = 0, got = 0, size, at;
    abc_live_fault *faults;
    uint8_t name[64];
    abc_live_faults(session, NULL, 0, &count);
    faults = room_for(count, sizeof *faults);
    if (abc_live_faults(session, faults, count, &got) != ABC_LIVE_OK || got != count)
        fail("faults are not copied");
    for (at = 0; at < count; at++) {
        if (abc_live_fault_name(faults[at].code, name, sizeof name, &size) != ABC_LIVE_OK)
            fail("a fault has no name");
        printf("%lu:%lu %.*s\n", (unsigned long)faults[at].line, (unsigned long)faults[at].column, (int)size, (const char *)name);
    }
    printf("end\n");
    free(faults);
}

static void answer_titles(abc_live_session *session)
{
    size_t count = 0, at;
    abc_live_title_count(session, &count);
    for (at = 0; at < count; at++) {
        uint32_t number = 0, again = 0;
        size_t size = 0, got = 0;
        uint8_t *bytes;
        abc_live_title(session, at, &number, NULL, 0, &size);
        bytes = room_for(size, 1);
        if (abc_live_title(session, at, &again, bytes, size, &got) != ABC_LIVE_OK || got != size || again != number)
            fail("a title is not copied");
        printf("%lu ", (unsigned long)number);
        fwrite(bytes, 1, size, stdout);
        printf("\n");
        free(bytes);
    }
    printf("end\n");
}

static void answer_hex(abc_live_session *session, uint32_t number)
{
    size_t size = 0, got = 0, at;
    uint8_t *bytes;
    if (abc_live_output(session, number, NULL, 0, &size) == ABC_LIVE_NOT_FOUND) {
        printf("none\n");
        return;
    }
    bytes = room_for(size, 1);
    if (abc_live_output(session, number, bytes, size, &got) != ABC_LIVE_OK || got != size)
        fail("a file is not copied");
    for (at = 0; at < size; at++)
        printf("%02X", bytes[at]);
    printf("\n");
    free(bytes);
}

/* The bytes of the next lines; none if there are fewer. */
static bool next_lines(input *in, uint32_t count, line *text)
{
    line one;
    size_t from = in->at;
    for (; count; count--)
        if (!next_line(in, &one))
            return false;
    text->bytes = in->bytes + from;
    text->size = in->at - from;
    return true;
}

typedef struct edit {
    uint32_t from, to;
    enum { INSERT, REPLACE, DELETE } kind;
    line text;
} edit;

static abc_live_code make_edit(abc_live_session *session, const edit *e, abc_live_work *work)
{
    switch (e->kind) {
    case INSERT:
        return abc_live_insert(session, e->from, e->text.bytes, e->text.size, work);
    case REPLACE:
        return abc_live_replace(session, e->from, e->to, e->text.bytes, e->text.size, work);
    default:
        return abc_live_delete(session, e->from, e->to, work);
    }
}

/* Makes the edit on the second session, which has three lines more before it. */
static void edit_other(abc_live_session *other, const edit *e, abc_live_code wanted)
{
    abc_live_work work = {0, 0, 0};
    edit moved = *e;
    moved.from += e->from ? 3 : 0;
    moved.to += 3;
    if (make_edit(other, &moved, &work) != wanted)
        fail("the second session has another answer");
}

static void compare_numbers(abc_live_session *session, abc_live_session *third, numbers_call call)
{
    size_t count = 0, others = 0;
    uint32_t *numbers = numbers_of(session, call, &count), *other_numbers = numbers_of(third, call, &others);
    if (others != count || memcmp(numbers, other_numbers, count * sizeof *numbers) != 0)
        fail("a whole text is reported otherwise than the edit");
    free(numbers);
    free(other_numbers);
}

/* The text of a session, each line with its line feed; it is to be freed. */
static uint8_t *text_of(abc_live_session *session, size_t *size)
{
    uint32_t count = 0, number;
    size_t one = 0, room = 0;
    uint8_t *text;
    abc_live_line_count(session, &count);
    for (number = 1; number <= count; number++) {
        abc_live_line(session, number, NULL, 0, &one);
        room += one + 1;
    }
    text = room_for(room, 1);
    for (number = 1, *size = 0; number <= count; number++) {
        if (abc_live_line(session, number, text + *size, room - *size, &one) != ABC_LIVE_OK)
            fail("a line is not copied");
        *size += one;
        text[(*size)++] = '\n';
    }
    return text;
}

/* Gives the third session the text after an edit, which added this work. */
static void set_third(abc_live_session *third, abc_live_session *session, uint64_t scanned)
{
    abc_live_work work = {0, 0, 0};
    size_t size = 0;
    uint8_t *text = text_of(session, &size);
    if (abc_live_set_text(third, text, size, &work) != ABC_LIVE_OK)
        fail("a whole text is refused");
    if (work.scanned > scanned)
        fail("a whole text scans more lines than the edit");
    compare_numbers(session, third, abc_live_written);
    compare_numbers(session, third, abc_live_removed);
    compare_numbers(session, third, abc_live_numbers);
    free(text);
}

/* Whether the text is the same by its lines, after three of the second session. */
static void compare_lines(abc_live_session *session, abc_live_session *other)
{
    static uint8_t one[65536], two[65536];
    uint32_t count = 0, others = 0, at;
    size_t size = 0, size2 = 0;
    abc_live_line_count(session, &count);
    abc_live_line_count(other, &others);
    if (others != count + 3)
        fail("the second session has another count of lines");
    for (at = 1; at <= count; at++) {
        if (abc_live_line(session, at, one, sizeof one, &size) != ABC_LIVE_OK
            || abc_live_line(other, at + 3, two, sizeof two, &size2) != ABC_LIVE_OK || size != size2 || memcmp(one, two, size) != 0)
            fail("the second session has another line");
    }
}

/* The sessions: one that answers, and two that are compared with it, or null. */
typedef struct sessions {
    abc_live_session *first, *other, *third;
} sessions;

/* Makes an edit on each session, and answers it. */
static void edit_all(const sessions *all, const edit *e)
{
    abc_live_work work = {0, 0, 0};
    abc_live_code code = make_edit(all->first, e, &work);
    answer_edit(all->first, code);
    if (all->other)
        edit_other(all->other, e, code);
    if (all->third && code == ABC_LIVE_OK)
        set_third(all->third, all->first, work.scanned);
}

/* Carries out one command. Whether more may follow. */
static bool answer(const sessions *all, input *in, line command)
{
    abc_live_session *session = all->first;
    line words[5];
    uint32_t numbers[4] = {0, 0, 0, 0};
    size_t count = words_of(command, words, 5), at;
    edit e = {0, 0, DELETE, {NULL, 0}};
    uint32_t lines = 0;
    for (at = 1; at < count; at++)
        if (!read_number(words[at], &numbers[at - 1]))
            count = 0;
    if (count == 1 && is_word(words[0], "quit"))
        return false;
    if (count == 1 && is_word(words[0], "faults")) {
        answer_faults(session);
    } else if (count == 1 && is_word(words[0], "titles")) {
        answer_titles(session);
    } else if (count == 2 && is_word(words[0], "hex")) {
        answer_hex(session, numbers[0]);
    } else if ((count == 3 && is_word(words[0], "insert") && numbers[1] <= 1048576)
               || (count == 4 && is_word(words[0], "replace") && numbers[2] <= 1048576) || (count == 3 && is_word(words[0], "delete"))) {
        e.kind = is_word(words[0], "insert") ? INSERT : is_word(words[0], "replace") ? REPLACE : DELETE;
        e.from = numbers[0];
        e.to = e.kind == INSERT ? 0 : numbers[1];
        lines = e.kind == INSERT ? numbers[1] : e.kind == REPLACE ? numbers[2] : 0;
        if (!next_lines(in, lines, &e.text)) {
            printf("error truncated\n");
            return false;
        }
        edit_all(all, &e);
    } else {
        printf("error command\n");
    }
    return true;
}

/* Opens the sessions that are compared with the first. */
static void open_others(abc_live_session *other, abc_live_session *third)
{
    abc_live_work work = {0, 0, 0};
    if (abc_live_open(other) != ABC_LIVE_OK || abc_live_insert(other, 1, (const uint8_t *)"%\n%\n\n", 5, &work) != ABC_LIVE_OK
        || abc_live_open(third) != ABC_LIVE_OK)
        fail("no other sessions are opened");
}

int main(int argc, char **argv)
{
    abc_live_session session = {0}, other = {0}, third = {0};
    sessions all = {&session, argc > 1 ? &other : NULL, argc > 1 ? &third : NULL};
    input in = read_input();
    line command;
    (void)argv;
    if (abc_live_open(&session) != ABC_LIVE_OK)
        fail("no session is opened");
    if (argc > 1)
        open_others(&other, &third);
    while (next_line(&in, &command) && answer(&all, &in, command))
        continue;
    if (argc > 1)
        compare_lines(&session, &other);
    abc_live_close(&session);
    abc_live_close(&other);
    abc_live_close(&third);
    free(in.bytes);
    return EXIT_SUCCESS;
}
