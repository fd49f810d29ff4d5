/* Opens a book of tunes, puts a tune before it, and writes the MIDI files that changed: example BOOK DIR */
#include <abc2midi_live.h>
#include <stdio.h>
#include <stdlib.h>
#include <string.h>

/* Reads a whole file; its bytes are to be freed. NULL, with a message, if it cannot be read. */
static uint8_t *read_file(const char *path, size_t *size)
{
    FILE *file = fopen(path, "rb");
    uint8_t *bytes = NULL;
    if (file && fseek(file, 0, SEEK_END) == 0) {
        long end = ftell(file);
        bytes = end < 0 ? NULL : malloc((size_t)end + 1);
        rewind(file);
        *size = bytes ? fread(bytes, 1, (size_t)end, file) : 0;
    }
    if (!bytes)
        perror(path);
    if (file)
        fclose(file);
    return bytes;
}

/* Writes the file of a tune number. 0, with a message, if it cannot be written. */
static int write_tune(abc_live_session *session, const char *dir, uint32_t number)
{
    size_t size = 0, room = strlen(dir) + sizeof "/4294967295.mid";
    abc_live_output(session, number, NULL, 0, &size);
    uint8_t *midi = malloc(size + 1);
    char *path = malloc(room);
    FILE *file = NULL;
    int ok = 0;
    if (path) {
        snprintf(path, room, "%s/%u.mid", dir, (unsigned)number);
        file = fopen(path, "wb");
    }
    if (midi && file && abc_live_output(session, number, midi, size, &size) == ABC_LIVE_OK)
        ok = fwrite(midi, 1, size, file) == size;
    if (file)
        ok = fclose(file) == 0 && ok;
    if (ok)
        printf("wrote %u.mid\n", (unsigned)number);
    else
        fprintf(stderr, "%s/%u.mid cannot be written\n", dir, (unsigned)number);
    free(path);
    free(midi);
    return ok;
}

int main(int argc, char **argv)
{
    static const char tune[] = "X:1000\nT:One more\nM:4/4\nK:D\nDFAd fdAF|D8|]\n\n";
    abc_live_session session = {0};
    abc_live_work work = {0};
    uint32_t numbers[1000];
    size_t count = 0, size = 0;
    if (argc != 3) {
        fputs("usage: example BOOK DIR\n", stderr);
        return 2;
    }
    uint8_t *book = read_file(argv[1], &size);
    int ok = book && abc_live_open(&session) == ABC_LIVE_OK
             && abc_live_insert(&session, 1, book, size, &work) == ABC_LIVE_OK
             && abc_live_insert(&session, 1, (const uint8_t *)tune, strlen(tune), &work) == ABC_LIVE_OK
             && abc_live_written(&session, numbers, 1000, &count) == ABC_LIVE_OK;
    if (book && !ok)
        fputs("the book is refused, or there is not enough memory\n", stderr);
    for (size_t i = 0; ok && i < count; i++)
        ok = write_tune(&session, argv[2], numbers[i]);
    abc_live_close(&session);
    free(book);
    return ok ? EXIT_SUCCESS : EXIT_FAILURE;
}
