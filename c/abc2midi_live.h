/*
 * abc2midi_live: a session over the text of a tune book in ABC notation. It keeps the MIDI file of each tune current, edit by edit.
 *
 *     abc_live_session session = {0};
 *     abc_live_work work = {0};
 *     abc_live_open(&session);
 *     abc_live_insert(&session, 1, (const uint8_t *)"X:1\nK:C\nCDEF|\n", 14, &work);
 *     abc_live_output(&session, 1, bytes, sizeof bytes, &size);
 *     abc_live_close(&session);
 *
 * Compile with: cc program.c $(pkg-config --cflags --libs abc2midi_live)
 *
 * Rules for all calls
 * - Give each session zeros before its first call, as `= {0}` does.
 * - You may move a session: copy its bytes and zero the old place. Never use two copies of one session, and never change its bytes.
 * - A session is in one call at a time. Its calls may be on several threads, if each call ends before the next one begins: hand it
 *   over by a mutex, a channel or the like. Two sessions are independent: each may be on a thread of its own. Make no call from a
 *   signal handler, or in the child of a fork of a process with threads.
 * - Pointers are valid and do not overlap. A pointer to text or to a buffer may be null if its length or room is 0; no other may,
 *   also not one to counters.
 * - The library does not decode text: lines, titles and columns are bytes.
 * - The library keeps no pointer of yours after a call, has no global state, and never ends the process. It takes memory from
 *   `malloc`, `realloc` and `free` alone. The memory of a session is freed by `abc_live_close`.
 * - If a session is not open, every call on it but `abc_live_open` returns ABC_LIVE_MISUSED and does nothing, except that it sets
 *   `*count` and `*number` to 0.
 *
 * Buffers
 * A call that copies takes a buffer, its room in items, and a count. An item is a byte, a number, a fault, a token or an entry. The call sets
 * `*count` to the number of items that there are. If they fit, it copies them and returns ABC_LIVE_OK; the rest of the buffer
 * stays. If not, it copies none and returns ABC_LIVE_SHORT_BUFFER. So a call with a room of 0 asks for the count; it returns
 * ABC_LIVE_OK if there are no items. If a call returns ABC_LIVE_NOT_FOUND, `*count` is 0. Nothing ends with a zero byte.
 *
 * The structs of this header keep their fields and their sizes within 1.x. What they lack will come by new calls, with new structs.
 *
 * Tune numbers are 0 to 999,999,999. A tune whose `X:` is empty or a fault has the number 0. Of several tunes with one number, the
 * first that is not too long has the file.
 */
#ifndef ABC2MIDI_LIVE_H
#define ABC2MIDI_LIVE_H

#include <stddef.h>
#include <stdint.h>

#ifdef __cplusplus
extern "C" {
#endif

/* The version of this header. `abc_live_version` returns that of the library. */
#define ABC_LIVE_VERSION "1.0.0"
#define ABC_LIVE_VERSION_NUMBER 1000000

/* A session. Its fields belong to the library. All zero: not open. */
typedef struct abc_live_session {
    void *at;
    uint8_t state;
} abc_live_session;

/*
 * Counters of work: lines scanned, steps folded, tunes built. They are yours: set them to zeros, and each edit and each call of
 * `abc_live_tokens` adds its work. An edit that runs out of memory may add to them too; one that is refused for another reason adds nothing. A counter that reaches
 * UINT64_MAX stays there. One struct may serve several sessions, if their edits are not at the same time.
 */
typedef struct abc_live_work {
    uint64_t scanned;
    uint64_t folded;
    uint64_t built;
} abc_live_work;

/* A fault of the text: its line and its byte in the line, both from 1, and the number of its code, from 1. */
typedef struct abc_live_fault {
    uint32_t line;
    uint32_t column;
    uint32_t code;
} abc_live_fault;

/* A part of a line. Columns count bytes, from 1. */
typedef struct abc_live_token {
    uint32_t from;  /* The column of its first byte. */
    uint32_t to;    /* The column after its last byte. */
    uint32_t kind;  /* One of ABC_LIVE_TOKEN_.. */
    uint32_t depth; /* 1 for a part of a chord, else 0. */
} abc_live_token;

/* The kinds of tokens. A kind keeps its number within 1.x; new ones come at the end. */
enum {
    ABC_LIVE_TOKEN_NOTE = 1,
    ABC_LIVE_TOKEN_REST = 2,
    ABC_LIVE_TOKEN_BAR_REST = 3,
    ABC_LIVE_TOKEN_CHORD = 4,         /* With its brackets and its length. Its parts follow it. */
    ABC_LIVE_TOKEN_INLINE_FIELD = 5,  /* As `[K:G]`. */
    ABC_LIVE_TOKEN_BAR_LINE = 6,
    ABC_LIVE_TOKEN_ENDING = 7,
    ABC_LIVE_TOKEN_TUPLET = 8,
    ABC_LIVE_TOKEN_BROKEN_RHYTHM = 9,
    ABC_LIVE_TOKEN_TIE = 10,
    ABC_LIVE_TOKEN_DYNAMIC = 11,
    ABC_LIVE_TOKEN_BLANK = 12,        /* A space or tab, or a whole blank line. */
    ABC_LIVE_TOKEN_QUOTED = 13,       /* `".."` */
    ABC_LIVE_TOKEN_DECORATION = 14,   /* `!..!` that is no dynamic. */
    ABC_LIVE_TOKEN_GRACE = 15,        /* `{..}` */
    ABC_LIVE_TOKEN_SPACE = 16,        /* `y` */
    ABC_LIVE_TOKEN_NO_EFFECT = 17,    /* Another byte without effect. */
    ABC_LIVE_TOKEN_BAD_BYTE = 18,     /* A byte that begins no token. */
    ABC_LIVE_TOKEN_UNCLOSED = 19,     /* An opening byte without its closing byte. */
    ABC_LIVE_TOKEN_COMMENT = 20,
    ABC_LIVE_TOKEN_NUMBER_FIELD = 21, /* `X:` */
    ABC_LIVE_TOKEN_TITLE_FIELD = 22,  /* `T:` */
    ABC_LIVE_TOKEN_KEY_FIELD = 23,    /* `K:` */
    ABC_LIVE_TOKEN_OTHER_FIELD = 24,
    ABC_LIVE_TOKEN_DIRECTIVE = 25,    /* With its comment. */
    ABC_LIVE_TOKEN_FREE_TEXT = 26     /* A line outside the file header and the tunes. */
};

/*
 * An entry of a play: a tone, a rest or a bar line that is played. Ticks count from the beginning of the tune, as in its MIDI file: 480
 * are a quarter note. The tempos are in the first track of that file. Lines and columns count from 1, columns in bytes.
 */
typedef struct abc_live_entry {
    uint64_t on;      /* The tick at which it begins. */
    uint64_t off;     /* The tick of its own end: a tie does not lengthen it. It is `on` for a bar line. */
    uint32_t line;    /* The line of the token that gives it. */
    uint32_t from;    /* The column of the token's first byte. For a tone of a chord it is the note in the chord. */
    uint32_t to;      /* The column after the token's last byte. */
    uint8_t kind;     /* One of ABC_LIVE_ENTRY_.. */
    uint8_t key;      /* The key of a tone in MIDI, 0 to 127; else 128, ABC_LIVE_NO_KEY. */
    uint8_t velocity; /* The velocity of a tone with a key, else 0. */
    uint8_t ties;     /* Of a tone the sum of ABC_LIVE_JOINED and ABC_LIVE_TIED, each if it holds; else 0. */
} abc_live_entry;

/* The kinds of entries. A kind keeps its number within 1.x; new ones come at the end. */
enum {
    ABC_LIVE_ENTRY_NOTE = 1, /* One tone of a note or chord. It has no key if it is out of the range of MIDI; then it is silent. */
    ABC_LIVE_ENTRY_REST = 2, /* A rest, or a rest of bars. */
    ABC_LIVE_ENTRY_BAR = 3   /* A bar line that is passed. */
};

/* The key of a rest, a bar line and a silent tone. */
#define ABC_LIVE_NO_KEY 128

/* The bits of `ties`. A bit keeps its meaning within 1.x; new ones come after these. */
enum {
    ABC_LIVE_JOINED = 1, /* A tie joins the tone with one before it, so the file has no note-on for it. */
    ABC_LIVE_TIED = 2    /* A tie follows the tone, and it has a key. */
};

/*
 * The codes that calls return. A refused edit returns the first of 2 to 5 that applies. Only `abc_live_open`, edits,
 * `abc_live_tokens`, `abc_live_tracks` and `abc_live_play` return 5.
 */
typedef uint32_t abc_live_code;
enum {
    ABC_LIVE_OK = 0,
    ABC_LIVE_MISUSED = 1,       /* The session is not open, or `abc_live_open` was called on an open one. */
    ABC_LIVE_BAD_RANGE = 2,     /* The lines of the edit are not in the text, or run backwards. */
    ABC_LIVE_BAD_LINE = 3,      /* A line has more than 65,535 bytes. */
    ABC_LIVE_TOO_LARGE = 4,     /* The text would have more than 1,048,576 lines. */
    ABC_LIVE_OUT_OF_MEMORY = 5, /* An allocation failed. The session is as it was before the call. */
    ABC_LIVE_NOT_FOUND = 6,     /* There is no such number, line, title or fault code. */
    ABC_LIVE_SHORT_BUFFER = 7,  /* The items do not fit into the buffer. */
    ABC_LIVE_TOO_LONG = 8       /* More than 1,000,000 notes, chords, rests, fields, programs and bar lines would be played. */
};

/* Returns the version of the library: millions are its major number, thousands its minor one. It is ABC_LIVE_VERSION_NUMBER of the
 * header that the library was built with. */
uint32_t abc_live_version(void);

/*
 * Opens a session with no lines in a struct that has none: zeros, or a session that was closed.
 * Returns ABC_LIVE_OK, ABC_LIVE_OUT_OF_MEMORY (the session is not open), or ABC_LIVE_MISUSED (it is open already, and stays so).
 */
abc_live_code abc_live_open(abc_live_session *session);

/*
 * Closes a session and frees its memory. Afterwards it may be opened again.
 * Returns ABC_LIVE_OK, or ABC_LIVE_MISUSED if it is not open: to close twice is harmless.
 */
abc_live_code abc_live_close(abc_live_session *session);

/*
 * Edits. Lines are counted from 1. A text is cut into lines at its line feeds; bytes after the last line feed are a line, too,
 * if there are any. So "A\nB" and "A\nB\n" are two lines, "\n" is one empty line, and a text of 0 bytes is no line. A carriage
 * return before a line feed stays in its line, and has no effect there. The bytes EF BB BF that some files begin with are not
 * skipped: leave them out.
 *
 * An edit returns ABC_LIVE_OK, and the report of the session has the files that changed. Or it returns why it is refused, and text,
 * files and report stay as they were.
 */

/* Inserts the lines of a text before line `at`, which is from 1 to the count of lines plus one. */
abc_live_code abc_live_insert(abc_live_session *session, uint32_t at, const uint8_t *text, size_t bytes, abc_live_work *work);

/* Replaces the lines `from` to `to`, both included, by the lines of a text. These may be none. `from` is at most `to`. */
abc_live_code abc_live_replace(abc_live_session *session, uint32_t from, uint32_t to, const uint8_t *text, size_t bytes,
                               abc_live_work *work);

/* Deletes the lines `from` to `to`, both included. `from` is at most `to`. */
abc_live_code abc_live_delete(abc_live_session *session, uint32_t from, uint32_t to, abc_live_work *work);

/*
 * Gives the session a whole text, cut into lines as that of an edit. It finds which lines are the same at the front and at the end of
 * the old text and of the new one, and makes one edit of those between. A text without changes is an edit, too: its report is empty.
 * It returns what an edit does, but never ABC_LIVE_BAD_RANGE.
 */
abc_live_code abc_live_set_text(abc_live_session *session, const uint8_t *text, size_t bytes, abc_live_work *work);

/*
 * Copy the report of the last edit that returned ABC_LIVE_OK. The first has the tune numbers whose files are new or have other
 * bytes than before it, the second those that no longer have a file. Both lists rise, and are empty before the first edit.
 */
abc_live_code abc_live_written(abc_live_session *session, uint32_t *numbers, size_t room, size_t *count);
abc_live_code abc_live_removed(abc_live_session *session, uint32_t *numbers, size_t room, size_t *count);

/* Copies the tune numbers that have a MIDI file. They rise. */
abc_live_code abc_live_numbers(abc_live_session *session, uint32_t *numbers, size_t room, size_t *count);

/* Copies the bytes of the MIDI file of a tune number, or returns ABC_LIVE_NOT_FOUND if it has none. */
abc_live_code abc_live_output(abc_live_session *session, uint32_t number, uint8_t *bytes, size_t room, size_t *count);

/* Counts the tunes of the text. Each has a title, which may be empty. */
abc_live_code abc_live_title_count(abc_live_session *session, size_t *count);

/*
 * Sets `*number` to that of the tune at an index, and copies the bytes of its title. That is the first `T:` of its header, without
 * a comment and without blanks at both ends. The index counts from 0, in the order of the text: each line that begins with `X:`
 * begins a tune. The number is set also if the buffer is too short. Returns ABC_LIVE_NOT_FOUND, with the number 0, if there is no
 * such tune.
 */
abc_live_code abc_live_title(abc_live_session *session, size_t index, uint32_t *number, uint8_t *bytes, size_t room, size_t *count);

/* Copies the faults of the text, by line, then by column, then by the number of the code; none comes twice. */
abc_live_code abc_live_faults(abc_live_session *session, abc_live_fault *faults, size_t room, size_t *count);

/*
 * Copies the name of a fault code, as `BadMeter`: the word that the program prints, and the key of its sentences in faults.json.
 * A name has at most 31 letters of ASCII. The call needs no session. Returns ABC_LIVE_NOT_FOUND if no code has the number. A code
 * keeps its number and its name within 1.x; new ones come at the end.
 */
abc_live_code abc_live_fault_name(uint32_t code, uint8_t *bytes, size_t room, size_t *count);

/*
 * Copies the name of a code that calls return, as `ABC_LIVE_BAD_RANGE`. A name has at most 31 letters and underscores of ASCII. The
 * call needs no session. Returns ABC_LIVE_NOT_FOUND if no code has the number.
 */
abc_live_code abc_live_code_name(abc_live_code code, uint8_t *bytes, size_t room, size_t *count);

/* Counts the lines of the text. */
abc_live_code abc_live_line_count(abc_live_session *session, uint32_t *count);

/* Copies the bytes of a line, without its line feed, or returns ABC_LIVE_NOT_FOUND if there is no such line. */
abc_live_code abc_live_line(abc_live_session *session, uint32_t number, uint8_t *bytes, size_t room, size_t *count);

/*
 * Copies the tokens of a line, in order; after a chord come its parts. Those that are no parts lie end to end from the first byte of
 * the line to its last, without a carriage return at its end. They depend on the present text alone, and each call works them out
 * anew. It counts one line as scanned, but for a blank line, a comment and free text. Returns ABC_LIVE_NOT_FOUND if there is no such
 * line, or ABC_LIVE_OUT_OF_MEMORY.
 */
abc_live_code abc_live_tokens(abc_live_session *session, uint32_t number, abc_live_token *tokens, size_t room, size_t *count,
                              abc_live_work *work);

/*
 * Copies how many entries each track of the MIDI file of a tune number has, in the order of the file: at most 16 numbers. The first
 * track has the title and the changes, and no entry. Each track after it has a voice. It returns what `abc_live_play` returns.
 */
abc_live_code abc_live_tracks(abc_live_session *session, uint32_t number, size_t *sizes, size_t room, size_t *count);

/*
 * Copies the entries of a tune number, one track of its MIDI file after another: of each as many as `abc_live_tracks` copies. Those of
 * a track are in the order of play, with repeats, endings and parts as played. They depend on the present text alone, and each call
 * works them out anew. Returns ABC_LIVE_NOT_FOUND if the number has no file, or ABC_LIVE_OUT_OF_MEMORY. Returns ABC_LIVE_TOO_LONG if
 * the voices with a track play more than 1,000,000 notes, chords, rests, fields, programs and bar lines together.
 *
 * An entry begins where the one before it ends, and the tones of a chord begin together. After a voice that is shorter than its part the
 * next entry begins with the next part. The sound of a tied tone ends with the last tone that is joined
 * with it, even if an earlier one has a later end. A sound that begins and ends at one tick is not in the file.
 */
abc_live_code abc_live_play(abc_live_session *session, uint32_t number, abc_live_entry *entries, size_t room, size_t *count);

#ifdef __cplusplus
}
#endif

#endif
