/*
 * Thousands of records of octets, half of them any octets, half those of a valid record with 1 to 8 replaced, damaged
 * datagrams, and tables and keys of either kind, through every call that takes one. Each block of memory is as long as
 * the call may touch and no longer, so that under valgrind an octet read or written outside, or read before it was set,
 * is reported. What the calls answer is compared elsewhere (host/compare).
 */
#include <stdint.h>
#include <stdio.h>
#include <stdlib.h>
#include <string.h>

#include "pruvelaccio.h"

static const uint8_t SAMPLE[] = {0xE2, 0x67, 0x00, 0x00, 0x1D, 0x00, 0x00, 0x00, 0x01,
                                 0x00, 0xC1, 0x37, 0xE0, 0x76, 0x33, 0x00, 0x01};

static uint64_t state = 204547001;

static uint32_t any(uint32_t below)
{
    state ^= state << 13;
    state ^= state >> 7;
    state ^= state << 17;
    return (uint32_t)(state >> 32) % below;
}

static void *block(size_t size)
{
    void *memory = malloc(size > 0 ? size : 1);
    if (memory == NULL) {
        abort();
    }
    return memory;
}

/* Sums octets up, so that one that was never set would be seen to matter. */
static unsigned sum(const void *octets, size_t size)
{
    const unsigned char *at = octets;
    unsigned total = 0;
    for (size_t i = 0; i < size; i++) {
        total += at[i];
    }
    return total;
}

/* Every cell of an answer, likewise. */
static unsigned told(pruvelaccio_answer answer)
{
    return answer.number + answer.block + (unsigned)answer.place;
}

static unsigned told_size(pruvelaccio_size_answer answer)
{
    return answer.number + answer.block + (unsigned)(answer.place + answer.length);
}

static void damage(unsigned char *octets, size_t size)
{
    for (uint32_t n = 1 + any(8); n > 0; n--) {
        octets[any((uint32_t)size)] = (unsigned char)any(256);
    }
}

/* Any octets, most of them 0. */
static void fill_any(unsigned char *octets, size_t size)
{
    for (size_t i = 0; i < size; i++) {
        octets[i] = (unsigned char)(any(4) == 0 ? any(256) : 0);
    }
}

/* A record of octets: any, or a valid record's with some replaced. */
static void fill(unsigned char *record, int valid)
{
    size_t length;
    if (valid) {
        (void)pruvelaccio_read(SAMPLE, sizeof(SAMPLE), (pruvelaccio_header *)record, &length);
        damage(record, sizeof(pruvelaccio_header));
        return;
    }
    fill_any(record, sizeof(pruvelaccio_header));
}

/* A table of octets: any, or one with some rows, of which some octets are replaced every other time. */
static void fill_table(unsigned char *table, pruvelaccio_header *record)
{
    if (any(4) == 0) {
        fill_any(table, sizeof(pruvelaccio_table));
        return;
    }
    pruvelaccio_empty_octets(table);
    for (uint32_t rows = any(4); rows > 0; rows--) {
        record->front.originator.address.urn.value = rows;
        (void)pruvelaccio_post_octets(table, record, 1, 1);
    }
    if (any(2) == 0) {
        damage(table, any(2) == 0 ? 2 * sizeof(pruvelaccio_row) : sizeof(pruvelaccio_table));
    }
}

/* A key of octets: any, or that of the table's first row, of which some octets are replaced every other time. */
static void fill_key(unsigned char *key, const unsigned char *table)
{
    if (any(4) == 0) {
        fill_any(key, sizeof(pruvelaccio_key));
        return;
    }
    memcpy(key, table, sizeof(pruvelaccio_key));
    if (any(2) == 0) {
        damage(key, sizeof(pruvelaccio_key));
    }
}

static unsigned calls(const pruvelaccio_header *record, pruvelaccio_table *table)
{
    size_t room = any(64), length = 0;
    uint8_t *out = block(room);
    memset(out, 0x5A, room);
    unsigned answers = told(pruvelaccio_check(record, any(3), &length));
    answers += told(pruvelaccio_write(record, any(3), out, room, &length));
    answers += sum(out, room);
    answers += told(pruvelaccio_post(table, record, 1 + any(2), any(3)));
    answers += told(pruvelaccio_receipt(table, record, 1, 0));
    free(out);
    return answers;
}

static unsigned read_damaged(void)
{
    size_t size = any(sizeof(SAMPLE) + 1), length = 0;
    uint8_t *datagram = block(size);
    memcpy(datagram, SAMPLE, size);
    if (size > 0 && any(2) == 0) {
        datagram[any((uint32_t)size)] = (uint8_t)any(256);
    }
    pruvelaccio_header *record = block(sizeof(*record));
    pruvelaccio_answer answer = pruvelaccio_read(datagram, size, record, &length);
    unsigned answers = told(answer);
    if (answer.number == 0) {
        answers += sum(record, sizeof(*record));
    }
    free(record);
    free(datagram);
    return answers;
}

/* A table, a key and an output, each in a block of its own. */
static unsigned calls_on_a_table(void)
{
    size_t room = any(64), length;
    unsigned char *table = block(sizeof(pruvelaccio_table));
    unsigned char *key = block(sizeof(pruvelaccio_key));
    pruvelaccio_header *record = block(sizeof(*record));
    uint8_t *out = block(room);
    (void)pruvelaccio_read(SAMPLE, sizeof(SAMPLE), record, &length);
    fill_table(table, record);
    fill_key(key, table);
    memset(out, 0x5A, room);
    unsigned answers = told_size(pruvelaccio_list_row_octets(table, any(3), out, room));
    answers += sum(out, room);
    answers += told(pruvelaccio_post_octets(table, record, 1, 1));
    answers += told(pruvelaccio_receipt_octets(table, record, 1, 0));
    answers += told(pruvelaccio_release_octets(table, key));
    answers += sum(table, sizeof(pruvelaccio_table)) + sum(key, sizeof(pruvelaccio_key));
    free(out);
    free(record);
    free(key);
    free(table);
    return answers;
}

int main(int count, char **words)
{
    long rounds = count > 1 ? strtol(words[1], NULL, 10) : 1000;
    unsigned total = 0;
    static pruvelaccio_table table;
    pruvelaccio_empty(&table);
    for (long i = 0; i < rounds; i++) {
        pruvelaccio_header *record = block(sizeof(*record));
        fill((unsigned char *)record, i % 2 == 0);
        total += calls(record, &table);
        free(record);
        total += read_damaged();
        total += i % 4 == 0 ? calls_on_a_table() : 0;
    }
    printf("%ld records of octets and datagrams, and a quarter as many tables, sum of the answers %u\n", rounds,
           total);
    return 0;
}
