/*
 * An example host that sends: it composes a message, prints the datagram that would go to the radio, and enters
 * the message into the table of pending messages.
 *
 * The message is document 01's B, from URN 207 to URN 3. Its octets were worked out by hand from Table I; bits
 * stand in their order, the low bit of a field first:
 *
 *     bits 0 to 7      0100 0 1 1 1      version 2, no compression, G1, URN; the URN's first bit
 *     bits 8 to 30     1110011 and zeros the rest of URN 207
 *     bit 31           0                 no name
 *     bits 32 to 34    1 0 1             G2, the last recipient, URN
 *     bits 35 to 58    11 and zeros      URN 3
 *     bits 59 to 61    0 0 0             no name, no G3, no header size
 *     bits 62 to 66    0 0100            the last block, UMF 2
 *     bits 67 to 70    0 0 0 0           no version, no G4, no file name, no message size
 *     bits 71 to 79    00 0 000 00 0     the four codes, no marking
 *     bits 80 to 87    1 0000011         G5, year 96
 *     bits 88 to 96    1110 11000        month 7, day 3
 *     bits 97 to 113   00001 110110 111011   16:27:55
 *     bits 114 to 119  0 0 1 1 0 0       no extension, no G6, G7 with the machine request
 *     bits 120 to 127  0 0 0 and zeros   no G8, no G9, no G10, fill bits
 */
#include <stdio.h>
#include <stdlib.h>
#include <string.h>

#include "pruvelaccio.h"

/* What the message says; the gateway only counts its octets. */
static const uint8_t data[] = {0x01};

static pruvelaccio_optional_number number(uint32_t value)
{
    const pruvelaccio_optional_number present = {true, value};
    return present;
}

/* What is not said is absent: every octet of the record is 0 first. */
static void compose(pruvelaccio_header *header)
{
    const pruvelaccio_dtg dtg = {{96, 7, 3}, {16, 27, 55}};
    pruvelaccio_block *block = &header->blocks.list[0];
    memset(header, 0, sizeof(*header));
    header->front.version = 2;
    header->front.originator.present = true;
    header->front.originator.address.urn = number(207);
    header->front.recipients.present = true;
    header->front.recipients.addresses.list[0].urn = number(3);
    header->front.recipients.addresses.count = 1;
    block->format.umf = 2;
    block->times.origin.present = true;
    block->times.origin.stamp.dtg = dtg;
    block->times.requests.present = true;
    block->times.requests.requests.machine = true;
    header->blocks.count = 1;
}

/* Whether a call was done; a refusal goes to standard error. */
static bool done(const char *call, pruvelaccio_answer answer)
{
    if (answer.number != 0) {
        fprintf(stderr, "%s: refusal %u, block %u: %s\n", call, (unsigned)answer.number,
                (unsigned)answer.block, pruvelaccio_meaning(answer.number));
    }
    return answer.number == 0;
}

static void print_hex(const uint8_t *octets, size_t count)
{
    for (size_t i = 0; i < count; i++) {
        printf("%02X", octets[i]);
    }
}

/* Writes the header, and prints it with the data behind it. */
static bool print_datagram(const pruvelaccio_header *header)
{
    uint8_t out[PRUVELACCIO_HEADER_OCTETS];
    size_t length = 0;
    if (!done("write", pruvelaccio_write(header, sizeof(data), out, sizeof(out), &length))) {
        return false;
    }
    print_hex(out, length);
    print_hex(data, sizeof(data));
    printf("\n");
    return true;
}

/* The line that counts the rows, then the rows. */
static bool list(const pruvelaccio_table *table)
{
    uint8_t text[PRUVELACCIO_ROW_OCTETS];
    size_t written = 0;
    bool listed = true;
    for (uint32_t row = 0; listed && row <= table->count; row++) {
        listed = done("list_row", pruvelaccio_list_row(table, row, text, sizeof(text), &written)) &&
                 fwrite(text, 1, written, stdout) == written;
    }
    return listed;
}

int main(void)
{
    static pruvelaccio_header header;
    static pruvelaccio_table table;
    compose(&header);
    pruvelaccio_empty(&table);
    const bool all = print_datagram(&header) &&
                     done("post", pruvelaccio_post(&table, &header, 1, sizeof(data))) && list(&table);
    return all ? EXIT_SUCCESS : EXIT_FAILURE;
}
