/* Opens a book, replaces one of its lines, and asks for a play: BOOK NUMBER LINE. The script play_cost counts the instructions. */
#include "abc2midi_live.h"
#include <stdint.h>
#include <stdio.h>
#include <stdlib.h>

enum { MOST_BYTES = 1 << 22, MOST_ENTRIES = 1 << 17 };

int main(int argc, char **argv) {
    static uint8_t text[MOST_BYTES];
    static abc_live_entry entries[MOST_ENTRIES];
    static const uint8_t music[] = "|:GABc dedB|dedB dedB|c2ec B2dB|A2A2 G4:|";
    abc_live_session session = {0};
    abc_live_work work = {0};
    size_t count = 0;
    FILE *book = argc == 4 ? fopen(argv[1], "rb") : NULL;
    if (!book) {
        return 2;
    }
    size_t size = fread(text, 1, sizeof text, book);
    uint32_t number = (uint32_t)strtoul(argv[2], NULL, 10), line = (uint32_t)strtoul(argv[3], NULL, 10);
    int done = abc_live_open(&session) == ABC_LIVE_OK && abc_live_set_text(&session, text, size, &work) == ABC_LIVE_OK &&
               abc_live_replace(&session, line, line, music, sizeof music - 1, &work) == ABC_LIVE_OK &&
               abc_live_play(&session, number, entries, MOST_ENTRIES, &count) == ABC_LIVE_OK;
    printf("%zu entries\n", count);
    abc_live_close(&session);
    fclose(book);
    return done ? 0 : 1;
}
