/*
 * An example host: two datagrams come off the air, a message and the receipt that answers it, and the table
 * of pending messages is listed.
 */
#include <stdio.h>
#include <stdlib.h>

#include "pruvelaccio.h"

/* URN 207 to URN 3 with a machine request and one octet of data: document 01's B. */
static const uint8_t message[] = {0xE2, 0x67, 0x00, 0x00, 0x1D, 0x00, 0x00, 0x00, 0x01,
                                  0x00, 0xC1, 0x37, 0xE0, 0x76, 0x33, 0x00, 0x01};

/* URN 3 to URN 207, which it answers with code 1: document 01's C. */
static const uint8_t answer_to_it[] = {0xE2, 0x01, 0x00, 0x00, 0x7D, 0x06, 0x00, 0x00,
                                       0x01, 0x00, 0x08, 0xBE, 0x01, 0xB7, 0x5B, 0x00};

/* Whether a call was done; a refusal goes to standard error. */
static bool done(const char *call, pruvelaccio_answer answer)
{
    if (answer.number != 0) {
        fprintf(stderr, "%s: refusal %u at place %zu, block %u: %s\n", call, (unsigned)answer.number,
                answer.place, (unsigned)answer.block, pruvelaccio_meaning(answer.number));
    }
    return answer.number == 0;
}

/* A block with G8 is a receipt, any other is posted. */
static bool enter(pruvelaccio_table *table, const pruvelaccio_header *header, uint32_t number, size_t count)
{
    if (header->blocks.list[number - 1].response.present) {
        return done("receipt", pruvelaccio_receipt(table, header, number, count));
    }
    return done("post", pruvelaccio_post(table, header, number, count));
}

/* Reads a datagram and enters each of its blocks into the table. */
static bool receive(pruvelaccio_table *table, const uint8_t *datagram, size_t length)
{
    pruvelaccio_header header;
    size_t count = 0;
    if (!done("read", pruvelaccio_read(datagram, length, &header, NULL))) {
        return false;
    }
    pruvelaccio_user_data(datagram, length, &count);
    bool entered = true;
    for (uint32_t number = 1; entered && number <= header.blocks.count; number++) {
        entered = enter(table, &header, number, count);
    }
    return entered;
}

/* Prints the listing: its first line counts the rows, then the rows follow. */
static bool list(const pruvelaccio_table *table)
{
    uint8_t text[PRUVELACCIO_ROW_OCTETS];
    size_t written = 0;
    bool listed = true;
    for (uint32_t number = 0; listed && number <= table->count; number++) {
        listed = done("list_row", pruvelaccio_list_row(table, number, text, sizeof(text), &written)) &&
                 fwrite(text, 1, written, stdout) == written;
    }
    return listed;
}

int main(void)
{
    pruvelaccio_table table;
    pruvelaccio_empty(&table);
    const bool all = receive(&table, message, sizeof(message)) &&
                     receive(&table, answer_to_it, sizeof(answer_to_it)) && list(&table);
    return all ? EXIT_SUCCESS : EXIT_FAILURE;
}
