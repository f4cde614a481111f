/*
 * Saves and loads, for a test that lays the octets beside those of the Rust crate. `saved save` reads a datagram,
 * posts its first block, and prints the saved record and the saved table. `saved load` takes such octets and
 * prints what it saves of what it has loaded.
 */
#include <stdio.h>
#include <stdlib.h>
#include <string.h>

#include "pruvelaccio.h"

static uint8_t octets[PRUVELACCIO_DATAGRAM_OCTETS + PRUVELACCIO_SAVED_RECORD_OCTETS];
static uint8_t saved[PRUVELACCIO_SAVED_TABLE_OCTETS];
static pruvelaccio_header header;
static pruvelaccio_table table;

static bool made(size_t size)
{
    size_t length = 0;
    pruvelaccio_empty(&table);
    return pruvelaccio_read(octets, size, &header, &length).number == 0 &&
           pruvelaccio_post(&table, &header, 1, size - length).number == 0;
}

static bool told(pruvelaccio_saved answer)
{
    if (answer != PRUVELACCIO_SAVED_DONE) {
        fprintf(stderr, "%s\n", pruvelaccio_saved_meaning(answer));
    }
    return answer == PRUVELACCIO_SAVED_DONE;
}

static bool loaded(size_t size)
{
    const size_t record = PRUVELACCIO_SAVED_RECORD_OCTETS;
    return size > record && told(pruvelaccio_load_record(&header, octets, record)) &&
           told(pruvelaccio_load_table(&table, octets + record, size - record));
}

static bool printed(void)
{
    size_t length = 0;
    return told(pruvelaccio_save_record(&header, saved, sizeof(saved), &length)) &&
           fwrite(saved, 1, length, stdout) == length &&
           told(pruvelaccio_save_table(&table, saved, sizeof(saved), &length)) &&
           fwrite(saved, 1, length, stdout) == length;
}

int main(int count, char **words)
{
    const size_t size = fread(octets, 1, sizeof(octets), stdin);
    const bool save = count > 1 && strcmp(words[1], "save") == 0;
    return (save ? made(size) : loaded(size)) && printed() ? EXIT_SUCCESS : EXIT_FAILURE;
}
