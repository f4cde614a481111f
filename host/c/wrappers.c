/*
 * Tests of the calls for C. Everything that a call is handed a pointer to stands in one struct with guards
 * between. While a call is to be refused the struct cannot be written to, so that even a store of the octets
 * that are there already is found out. A call that is done may change its own result only: one comparison
 * sees every octet.
 */
#include <signal.h>
#include <stdio.h>
#include <stdlib.h>
#include <sys/mman.h>

#include "pruvelaccio.h"

/*
 * Memory that no call may take for something of its own. As a record, a table or a key it is one: every flag is
 * set.
 */
#define PATTERN 0xA5

#define GUARD 64
#define PAGE 4096
#define LENGTH(list) (sizeof(list) / sizeof((list)[0]))

/* Whole pages, so that nothing else is protected with it. */
typedef struct objects {
    _Alignas(PAGE) uint8_t guard_0[GUARD];
    uint8_t datagram[PRUVELACCIO_DATAGRAM_OCTETS + 1];
    uint8_t guard_1[GUARD];
    pruvelaccio_header header;
    uint8_t guard_2[GUARD];
    pruvelaccio_table table;
    uint8_t guard_3[GUARD];
    pruvelaccio_key key;
    uint8_t guard_4[GUARD];
    size_t size;
    uint8_t guard_5[GUARD];
    uint8_t out[PRUVELACCIO_HEADER_OCTETS];
    uint8_t guard_6[GUARD];
} objects;

static objects now;
static objects before;
static size_t room;

static unsigned cases;
static unsigned failures;

/* Document 01's B with one octet of data, and C. */
static const uint8_t message[] = {0xE2, 0x67, 0x00, 0x00, 0x1D, 0x00, 0x00, 0x00, 0x01,
                                  0x00, 0xC1, 0x37, 0xE0, 0x76, 0x33, 0x00, 0x01};
static const uint8_t receipt[] = {0xE2, 0x01, 0x00, 0x00, 0x7D, 0x06, 0x00, 0x00,
                                  0x01, 0x00, 0x08, 0xBE, 0x01, 0xB7, 0x5B, 0x00};
#define MESSAGE_HEADER 16
#define MESSAGE_DATA 1

static void expect(const char *call, const char *what, bool holds)
{
    cases++;
    if (!holds) {
        failures++;
        printf("FAILED: %s: %s\n", call, what);
    }
}

/* What is to be refused while the objects are protected. */
static const char *refusing;

static void protect(int kind)
{
    if (mprotect(&now, sizeof(now), kind) != 0) {
        perror("mprotect");
        exit(EXIT_FAILURE);
    }
}

/* Only a store to protected memory comes here, from no function of the standard library. */
static void stored(int signal_number)
{
    (void)signal_number;
    printf("FAILED: %s: something was stored\n", refusing);
    fflush(stdout);
    _Exit(EXIT_FAILURE);
}

/*
 * The calls, each on the same objects.
 */

typedef struct call {
    const char *name;
    pruvelaccio_answer (*make)(uint32_t number, size_t count);
} call;

static pruvelaccio_answer make_read(uint32_t number, size_t count)
{
    (void)number;
    return pruvelaccio_read(now.datagram, count, &now.header, &now.size);
}

static pruvelaccio_answer make_check(uint32_t number, size_t count)
{
    (void)number;
    return pruvelaccio_check(&now.header, count, &now.size);
}

static pruvelaccio_answer make_write(uint32_t number, size_t count)
{
    (void)number;
    return pruvelaccio_write(&now.header, count, now.out, room, &now.size);
}

static pruvelaccio_answer make_post(uint32_t number, size_t count)
{
    return pruvelaccio_post(&now.table, &now.header, number, count);
}

static pruvelaccio_answer make_receipt(uint32_t number, size_t count)
{
    return pruvelaccio_receipt(&now.table, &now.header, number, count);
}

static pruvelaccio_answer make_release(uint32_t number, size_t count)
{
    (void)number;
    (void)count;
    return pruvelaccio_release(&now.table, &now.key);
}

static pruvelaccio_answer make_list_row(uint32_t number, size_t count)
{
    (void)count;
    return pruvelaccio_list_row(&now.table, number, now.out, room, &now.size);
}

static const call read_call = {"read", make_read};
static const call check_call = {"check", make_check};
static const call write_call = {"write", make_write};
static const call post_call = {"post", make_post};
static const call receipt_call = {"receipt", make_receipt};
static const call release_call = {"release", make_release};
static const call list_row_call = {"list_row", make_list_row};

static bool same_answer(pruvelaccio_answer a, pruvelaccio_answer b)
{
    return a.number == b.number && a.block == b.block && a.place == b.place;
}

static bool is_done(pruvelaccio_answer answer)
{
    const pruvelaccio_answer expected = {0, 0, 0};
    return same_answer(answer, expected);
}

/* The call is refused with this number, block and place, and nothing is stored to any object. */
static void refused(call made, const char *what, uint32_t number, size_t count, pruvelaccio_answer expected)
{
    refusing = what;
    protect(PROT_READ);
    const pruvelaccio_answer answer = made.make(number, count);
    protect(PROT_READ | PROT_WRITE);
    expect(made.name, what, same_answer(answer, expected));
}

/* The same with block 0 and place 0. */
static void refused_at_0(call made, const char *what, uint32_t number, size_t count, uint32_t refusal)
{
    const pruvelaccio_answer expected = {refusal, 0, 0};
    refused(made, what, number, count, expected);
}

/* The call is done. What it had to change is put into `before` by its caller, who then compares. */
static void done(call made, const char *what, uint32_t number, size_t count)
{
    memcpy(&before, &now, sizeof(now));
    const pruvelaccio_answer answer = made.make(number, count);
    expect(made.name, what, is_done(answer));
}

static void nothing_else_changed(call made, const char *what)
{
    expect(made.name, what, memcmp(&now, &before, sizeof(now)) == 0);
}

/* Patterned memory with an empty table, B's record, and room for every header. */
static void set_up(void)
{
    memset(&now, PATTERN, sizeof(now));
    pruvelaccio_empty(&now.table);
    pruvelaccio_read(message, sizeof(message), &now.header, NULL);
    room = sizeof(now.out);
}

/* The same with B posted and C's record. */
static void set_up_receipt(void)
{
    set_up();
    make_post(1, MESSAGE_DATA);
    pruvelaccio_read(receipt, sizeof(receipt), &now.header, NULL);
}

/*
 * Reading.
 */

typedef struct datagram_case {
    const char *what;
    uint8_t octets[13];
    size_t length;
    pruvelaccio_answer expected; /* number, block, place */
} datagram_case;

/*
 * The dates stand in G5, whose indicator is bit 27: the year has bits 28 to 34, the month 35 to 38 and the day 39 to
 * 43; behind them is 16:27:55.
 *
 * The last ones have sizes. Bit 8 is the header size's indicator; where it is 1, the size has bits 9 to 24, and the
 * first block begins at bit 25. The message size has its indicator and 20 bits: bits 17 to 37, or 33 to 53 behind a
 * header size. A second block behind those begins at bit 69, with its format at 70 and its size's indicator at 77.
 */
static const datagram_case datagram_cases[] = {
    {"no octets", {0}, 0, {1, 0, 0}},
    {"version 3", {0x03}, 1, {2, 0, 0}},
    {"version 1 cut behind an octet", {0x01}, 1, {1, 0, 8}},
    {"version 1, G10 present", {0x01, 0x08, 0x00, 0x80, 0x01}, 5, {7, 0, 31}},
    {"compression 2", {0x52}, 1, {3, 0, 5}},
    {"a name that is a marker", {0xA2, 0x7F}, 2, {4, 0, 8}},
    {"neither form of an address", {0x22}, 1, {6, 0, 7}},
    {"G10 present", {0x02, 0x08, 0x00, 0x00, 0x01, 0x01}, 6, {7, 0, 32}},
    {"requests without an originator", {0x02, 0x08, 0x00, 0x20, 0x00, 0x01}, 6, {41, 1, 0}},
    {"a fill bit", {0x02, 0x08, 0x00, 0x00, 0x02, 0x01}, 6, {9, 0, 33}},
    {"31 June 96", {0x02, 0x08, 0x00, 0x08, 0xB6, 0x0F, 0xB7, 0x1B, 0x00, 0x01}, 10, {3, 0, 39}},
    {"31 June 96 and nothing behind it", {0x02, 0x08, 0x00, 0x08, 0xB6, 0x0F}, 6, {3, 0, 39}},
    {"29 February 01", {0x02, 0x08, 0x00, 0x18, 0x90, 0x0E, 0xB7, 0x1B, 0x00, 0x01}, 10, {3, 0, 39}},
    {"30 February 00", {0x02, 0x08, 0x00, 0x08, 0x10, 0x0F, 0xB7, 0x1B, 0x00, 0x01}, 10, {3, 0, 39}},
    {"31 of month 13", {0x02, 0x08, 0x00, 0x08, 0xEE, 0x0F, 0xB7, 0x1B, 0x00, 0x01}, 10, {3, 0, 35}},
    {"31 June 100", {0x02, 0x08, 0x00, 0x48, 0xB6, 0x0F, 0xB7, 0x1B, 0x00, 0x01}, 10, {3, 0, 28}},
    {"no data", {0x02, 0x08, 0x00, 0x00, 0x00}, 5, {53, 1, 0}},
    {"header size 6 of 7", {0x02, 0x0D, 0x00, 0x08, 0x00, 0x00, 0x00, 0x01}, 8, {51, 0, 0}},
    {"header size 6 of 7, no data", {0x02, 0x0D, 0x00, 0x08}, 7, {51, 0, 0}},
    {"message size 2, an octet of data", {0x02, 0x08, 0x0A, 0x00, 0x00, 0x00, 0x00, 0x01}, 8, {52, 0, 0}},
    {"a second block without a size", {0x02, 0x19, 0x00, 0x0A, 0x06, 0x00, 0x00, 0x00, 0x80}, 13, {46, 2, 0}},
};

static void reading_refused(void)
{
    for (size_t i = 0; i < LENGTH(datagram_cases); i++) {
        const datagram_case *one = &datagram_cases[i];
        memset(&now, PATTERN, sizeof(now));
        memcpy(now.datagram, one->octets, one->length);
        refused(read_call, one->what, 0, one->length, one->expected);
    }
    memset(&now, PATTERN, sizeof(now));
    refused_at_0(read_call, "a datagram too long", 0, sizeof(now.datagram), 12);
}

/* C has G8 and no message size: an octet behind it would be its body. */
static void reading_needless(void)
{
    const pruvelaccio_answer expected = {54, 1, 0};
    memset(&now, PATTERN, sizeof(now));
    memcpy(now.datagram, receipt, sizeof(receipt));
    refused(read_call, "data behind a receipt", 0, sizeof(receipt) + 1, expected);
}

/* Sixteen recipients are written; then the recurrence bit of the last asks for one more, at bit 438. */
static void reading_too_many(void)
{
    const pruvelaccio_answer expected = {5, 0, 438};
    uint8_t octets[PRUVELACCIO_HEADER_OCTETS];
    size_t written = 0;
    set_up();
    for (size_t i = 0; i < PRUVELACCIO_ADDRESSEES; i++) {
        now.header.front.recipients.addresses.list[i].urn.present = true;
        now.header.front.recipients.addresses.list[i].urn.value = (uint32_t)i;
    }
    now.header.front.recipients.addresses.count = PRUVELACCIO_ADDRESSEES;
    pruvelaccio_write(&now.header, MESSAGE_DATA, octets, sizeof(octets), &written);
    octets[438 / 8] |= (uint8_t)(1 << 438 % 8);
    memset(&now, PATTERN, sizeof(now));
    memcpy(now.datagram, octets, written);
    refused(read_call, "seventeen recipients", 0, written, expected);
}

/* How many octets of a record are not 0. */
static size_t octets_used(const pruvelaccio_header *header)
{
    const unsigned char *octets = (const unsigned char *)header;
    size_t used = 0;
    for (size_t i = 0; i < sizeof(*header); i++) {
        used += octets[i] != 0 ? 1 : 0;
    }
    return used;
}

/*
 * Of B's record 19 octets are not 0: version, URN 207 with two presences, count and presence of the
 * recipients with a URN and its presence, UMF, G5's presence and its six numbers, G7's presence and machine
 * request, and the count of blocks. All others lose the pattern that was there.
 */
static void reading_done(void)
{
    memset(&now, PATTERN, sizeof(now));
    memcpy(now.datagram, message, sizeof(message));
    done(read_call, "a message", 0, sizeof(message));
    expect("read", "URN 207", now.header.front.originator.address.urn.value == 207);
    expect("read", "machine request", now.header.blocks.list[0].times.requests.requests.machine);
    expect("read", "every other octet 0", octets_used(&now.header) == 19);
    memcpy(&before.header, &now.header, sizeof(now.header));
    before.size = MESSAGE_HEADER;
    nothing_else_changed(read_call, "a message: the record and the length alone");
}

/*
 * B in version 1 has no bit 67, the presence of the standard version: every bit behind it stands one place
 * lower. Its record is B's but for the version, and is written again as these octets.
 */
static void version_1(void)
{
    static const uint8_t octets[] = {0xE1, 0x67, 0x00, 0x00, 0x1D, 0x00, 0x00, 0x00, 0x01,
                                     0x80, 0xE0, 0x1B, 0x70, 0xBB, 0x19, 0x00, 0x01};
    pruvelaccio_header record;
    uint8_t out[PRUVELACCIO_HEADER_OCTETS];
    size_t length = 0;
    size_t written = 0;
    set_up();
    now.header.front.version = 1;
    pruvelaccio_answer answer = pruvelaccio_read(octets, sizeof(octets), &record, &length);
    expect("read", "version 1", answer.number == 0 && length == MESSAGE_HEADER);
    expect("read", "version 1: the record", memcmp(&record, &now.header, sizeof(record)) == 0);
    answer = pruvelaccio_write(&record, MESSAGE_DATA, out, sizeof(out), &written);
    expect("write", "version 1", answer.number == 0 && written == length);
    expect("write", "version 1: the octets", memcmp(out, octets, written) == 0);
    answer = pruvelaccio_post(&now.table, &record, 1, MESSAGE_DATA);
    expect("post", "version 1", answer.number == 0);
    now.header.front.version = 2;
    refused_at_0(post_call, "version 2 behind version 1", 1, MESSAGE_DATA, 22);
}

static void user_data_handed_back(void)
{
    size_t length = 77;
    const uint8_t *data = pruvelaccio_user_data(message, sizeof(message), &length);
    expect("user_data", "a message", data == message + MESSAGE_HEADER && length == MESSAGE_DATA);
    data = pruvelaccio_user_data(message, MESSAGE_HEADER, &length);
    expect("user_data", "a refused datagram", data == message + MESSAGE_HEADER && length == 0);
    length = 77;
    expect("user_data", "NULL", pruvelaccio_user_data(NULL, 0, &length) == NULL && length == 0);
}

/*
 * The refusals of a record are the same for all four calls that are handed one.
 */

static void as_it_is(pruvelaccio_header *header)
{
    (void)header;
}

static void spoil_version(pruvelaccio_header *header)
{
    header->front.version = 3;
}

/* Version 1 has no message standard version. */
static void spoil_standard(pruvelaccio_header *header)
{
    header->front.version = 1;
    header->blocks.list[0].format.version.present = true;
}

static void spoil_format(pruvelaccio_header *header)
{
    header->blocks.list[0].format.umf = 9;
}

static const pruvelaccio_date june_31 = {96, 6, 31};
static const pruvelaccio_date february_29 = {1, 2, 29};

static void spoil_day(pruvelaccio_header *header)
{
    header->blocks.list[0].times.origin.stamp.dtg.date = june_31;
}

static void spoil_perish(pruvelaccio_header *header)
{
    header->blocks.list[0].times.perish.present = true;
    header->blocks.list[0].times.perish.dtg.date = february_29;
}

static void spoil_name(pruvelaccio_header *header)
{
    header->front.originator.address.urn.present = false;
    header->front.originator.address.name.present = true;
}

static void spoil_count(pruvelaccio_header *header)
{
    header->blocks.count = 0xFFFFFFFF;
}

static void spoil_recipients(pruvelaccio_header *header)
{
    header->front.recipients.addresses.count = 0xA5A5A5A5;
}

/* With the one recipient the sum is 0. */
static void spoil_information(pruvelaccio_header *header)
{
    header->front.information.present = true;
    header->front.information.addresses.count = 0xFFFFFFFF;
}

static void spoil_references(pruvelaccio_header *header)
{
    header->blocks.list[0].references.present = true;
    header->blocks.list[0].references.references.count = 0xA5A5A5A5;
}

static void spoil_address(pruvelaccio_header *header)
{
    header->front.originator.address.name.present = true;
}

static void spoil_originator(pruvelaccio_header *header)
{
    header->front.originator.present = false;
}

static void spoil_all(pruvelaccio_header *header)
{
    memset(header, PATTERN, sizeof(*header));
}

static void spoil_all_but_version(pruvelaccio_header *header)
{
    spoil_all(header);
    header->front.version = 2;
}

/* Two blocks of an octet each; the second is the first again. */
static void doubled(pruvelaccio_header *header)
{
    pruvelaccio_block *first = &header->blocks.list[0];
    header->sized = true;
    first->handling.size.present = true;
    first->handling.size.value = 1;
    memcpy(first + 1, first, sizeof(*first));
    header->blocks.count = 2;
}

/* The same without the header size; the first block has none either. */
static void spoil_header_size(pruvelaccio_header *header)
{
    doubled(header);
    header->sized = false;
    header->blocks.list[0].handling.size.present = false;
}

static void spoil_second_size(pruvelaccio_header *header)
{
    doubled(header);
    header->blocks.list[1].handling.size.present = false;
}

static void spoil_second_identity(pruvelaccio_header *header)
{
    doubled(header);
    header->blocks.list[1].format.umf = 1;
    header->blocks.list[1].format.identity.present = true;
}

/* And the first block asks without saying when it was made. */
static void spoil_both(pruvelaccio_header *header)
{
    spoil_second_identity(header);
    header->blocks.list[0].times.origin.present = false;
}

/* The second block is an answer, with an octet all the same. */
static void spoil_answer(pruvelaccio_header *header)
{
    doubled(header);
    pruvelaccio_block *second = &header->blocks.list[1];
    second->times.requests.present = false;
    second->response.present = true;
    second->response.response.stamp = second->times.origin.stamp;
    second->response.response.compliance.code = 1;
}

static void spoil_forwarded_answer(pruvelaccio_header *header)
{
    spoil_answer(header);
    header->blocks.list[1].format.umf = 4;
}

typedef struct record_case {
    const char *what;
    void (*spoil)(pruvelaccio_header *header);
    size_t count;
    pruvelaccio_answer expected; /* number, block, place */
} record_case;

static const record_case record_cases[] = {
    {"version 3", spoil_version, MESSAGE_DATA, {2, 0, 0}},
    {"version 1 with a standard version", spoil_standard, MESSAGE_DATA, {3, 0, 0}},
    {"every octet a pattern", spoil_all, MESSAGE_DATA, {2, 0, 0}},
    {"every octet a pattern but the version's", spoil_all_but_version, MESSAGE_DATA, {3, 0, 0}},
    {"UMF 9", spoil_format, MESSAGE_DATA, {3, 0, 0}},
    {"31 June", spoil_day, MESSAGE_DATA, {3, 0, 0}},
    {"29 February 01 in G6", spoil_perish, MESSAGE_DATA, {3, 0, 0}},
    {"a name of no characters", spoil_name, MESSAGE_DATA, {4, 0, 0}},
    {"4,294,967,295 blocks", spoil_count, MESSAGE_DATA, {5, 0, 0}},
    {"2,779,096,485 recipients", spoil_recipients, MESSAGE_DATA, {5, 0, 0}},
    {"4,294,967,295 information addressees", spoil_information, MESSAGE_DATA, {5, 0, 0}},
    {"2,779,096,485 references", spoil_references, MESSAGE_DATA, {5, 0, 0}},
    {"both forms of an address", spoil_address, MESSAGE_DATA, {6, 0, 0}},
    {"requests without an originator", spoil_originator, MESSAGE_DATA, {41, 1, 0}},
    {"no data", as_it_is, 0, {53, 1, 0}},
    {"several blocks, no header size", spoil_header_size, 2, {46, 0, 0}},
    {"several blocks, the second without a size", spoil_second_size, 2, {46, 2, 0}},
    {"G4 with UMF 1 in the second block", spoil_second_identity, 2, {43, 2, 0}},
    {"the same, and a request without G5 in the first", spoil_both, 2, {43, 2, 0}},
    {"sizes of two octets with three", doubled, 3, {52, 0, 0}},
    {"a second block with G8 and an octet", spoil_answer, 2, {54, 2, 0}},
    {"the same with UMF 4", spoil_forwarded_answer, 2, {53, 2, 0}},
    {"too much data", as_it_is, PRUVELACCIO_DATAGRAM_OCTETS, {12, 0, 0}},
    {"the most data that can be said", as_it_is, SIZE_MAX, {12, 0, 0}},
};

static void records_refused(call made)
{
    for (size_t i = 0; i < LENGTH(record_cases); i++) {
        set_up();
        record_cases[i].spoil(&now.header);
        refused(made, record_cases[i].what, 1, record_cases[i].count, record_cases[i].expected);
    }
}

/* B's record is checked and written as B. */
static void written(const char *what)
{
    done(check_call, what, 0, MESSAGE_DATA);
    before.size = MESSAGE_HEADER;
    nothing_else_changed(check_call, "a message: the length alone");
    room = MESSAGE_HEADER;
    done(write_call, what, 0, MESSAGE_DATA);
    memcpy(before.out, message, MESSAGE_HEADER);
    before.size = MESSAGE_HEADER;
    nothing_else_changed(write_call, "a message: the header's octets and their count alone");
}

/* A month's last day is taken, and the day behind it is not. */
static void last_day(uint32_t year, uint32_t month, uint32_t last)
{
    pruvelaccio_date *date = &now.header.blocks.list[0].times.origin.stamp.dtg.date;
    set_up();
    date->year = year;
    date->month = month;
    date->day = last;
    done(check_call, "a month's last day", 0, MESSAGE_DATA);
    date->day = last + 1;
    refused_at_0(check_call, "the day behind a month's last", 0, MESSAGE_DATA, 3);
}

static void last_days(void)
{
    static const uint32_t last[] = {31, 28, 31, 30, 31, 30, 31, 31, 30, 31, 30, 31};
    for (uint32_t i = 0; i < LENGTH(last); i++) {
        last_day(1, i + 1, last[i]);
    }
    last_day(0, 2, 29);
    last_day(4, 2, 29);
    last_day(96, 2, 29);
    last_day(98, 2, 28);
    last_day(99, 2, 28);
}

static void writing(void)
{
    set_up();
    room = MESSAGE_HEADER - 1;
    refused_at_0(write_call, "an octet of room too few", 0, MESSAGE_DATA, 11);
    set_up();
    written("a message");
}

/*
 * The table.
 */

/* How a table becomes one that every call refuses first. */
static void count_33(pruvelaccio_table *table)
{
    table->count = PRUVELACCIO_ROWS + 1;
}

static void pattern_all(pruvelaccio_table *table)
{
    memset(table, PATTERN, sizeof(*table));
}

static void ask_nothing(pruvelaccio_table *table)
{
    table->rows[0].asked.machine = false;
}

static void misfit_code(pruvelaccio_table *table)
{
    table->rows[0].recipients[0].machine = 0xA5A5A5A5;
}

static void crowd(pruvelaccio_table *table)
{
    table->rows[0].count = PRUVELACCIO_ADDRESSEES + 1;
}

static void hold_june_31(pruvelaccio_table *table)
{
    table->rows[0].key.stamp.dtg.date = june_31;
}

static void hold_february_29(pruvelaccio_table *table)
{
    table->rows[0].key.stamp.dtg.date = february_29;
}

typedef struct table_case {
    const char *what;
    void (*spoil)(pruvelaccio_table *table);
} table_case;

static const table_case table_cases[] = {
    {"every octet a pattern", pattern_all}, {"33 rows", count_33},         {"nothing asked", ask_nothing},
    {"a code that does not fit", misfit_code}, {"17 recipients", crowd},   {"31 June", hold_june_31},
    {"29 February 01", hold_february_29},
};

static void tables_refused(call made)
{
    for (size_t i = 0; i < LENGTH(table_cases); i++) {
        set_up_receipt();
        table_cases[i].spoil(&now.table);
        refused_at_0(made, table_cases[i].what, 1, MESSAGE_DATA, 30);
    }
}

/* Every octet that an empty table had loses the pattern that was there. */
static void emptying(void)
{
    memset(&now, PATTERN, sizeof(now));
    memcpy(&before, &now, sizeof(now));
    pruvelaccio_empty(&now.table);
    memset(&before.table, 0, sizeof(before.table));
    expect("empty", "every octet of the table and no other", memcmp(&now, &before, sizeof(now)) == 0);
}

/* The row that B makes, composed here; what it does not use is 0. */
static pruvelaccio_row row_of_b(uint32_t originator)
{
    const pruvelaccio_dtg dtg = {{96, 7, 3}, {16, 27, 55}};
    pruvelaccio_row row;
    memset(&row, 0, sizeof(row));
    row.key.address.urn.present = true;
    row.key.address.urn.value = originator;
    row.key.stamp.dtg = dtg;
    row.asked.machine = true;
    row.recipients[0].address.urn.present = true;
    row.recipients[0].address.urn.value = 3;
    row.count = 1;
    return row;
}

static void posting(void)
{
    set_up();
    refused_at_0(post_call, "block 0", 0, MESSAGE_DATA, 29);
    refused_at_0(post_call, "block 2 of 1", 2, MESSAGE_DATA, 29);
    now.header.blocks.list[0].times.requests.requests.machine = false;
    refused_at_0(post_call, "no request bit", 1, MESSAGE_DATA, 20);
    now.header.blocks.list[0].times.requests.present = false;
    refused_at_0(post_call, "no requests", 1, MESSAGE_DATA, 20);
    set_up();
    now.header.front.recipients.present = false;
    refused_at_0(post_call, "no recipients", 1, MESSAGE_DATA, 21);
    now.header.front.recipients.present = true;
    done(post_call, "a message", 1, MESSAGE_DATA);
    const pruvelaccio_row row = row_of_b(207);
    memcpy(&before.table.rows[0], &row, sizeof(row));
    before.table.count = 1;
    nothing_else_changed(post_call, "a message: its row and the count alone");
    refused_at_0(post_call, "the message again", 1, MESSAGE_DATA, 22);
}

/* B from an originator with this number. */
static void post_from(uint32_t originator)
{
    now.header.front.originator.address.urn.value = originator;
    done(post_call, "one of many messages", 1, MESSAGE_DATA);
}

/* Moves rows of `before` by whole rows. */
static void move_rows(size_t to, size_t from, size_t rows)
{
    memmove(&before.table.rows[to], &before.table.rows[from], rows * sizeof(pruvelaccio_row));
}

/* A new row goes between others, which keep what stands in their unused cells; unused rows stay as they are. */
static void posting_between(void)
{
    set_up();
    memset(&now.table, PATTERN, sizeof(now.table));
    now.table.count = 0;
    post_from(100);
    post_from(300);
    memset(now.table.rows[1].recipients[15].address.name.text.chars, PATTERN, PRUVELACCIO_CHARACTERS);
    post_from(200);
    const pruvelaccio_row row = row_of_b(200);
    move_rows(2, 1, 1);
    memcpy(&before.table.rows[1], &row, sizeof(row));
    before.table.count = 3;
    nothing_else_changed(post_call, "between two rows");
}

/* As many rows as there are places, in the order of their originators. */
static void fill_table(void)
{
    set_up();
    for (uint32_t i = 0; i < PRUVELACCIO_ROWS; i++) {
        post_from(i);
    }
}

static void posting_to_a_full_table(void)
{
    fill_table();
    for (size_t i = 0; i < PRUVELACCIO_ROWS; i++) {
        const pruvelaccio_row row = row_of_b((uint32_t)i);
        expect("post", "one of 32 rows", memcmp(&now.table.rows[i], &row, sizeof(row)) == 0);
    }
    now.header.front.originator.address.urn.value = PRUVELACCIO_ROWS;
    refused_at_0(post_call, "the 33rd message", 1, MESSAGE_DATA, 23);
}

static void receiving(void)
{
    set_up();
    refused_at_0(receipt_call, "a message", 1, MESSAGE_DATA, 24);
    pruvelaccio_read(receipt, sizeof(receipt), &now.header, NULL);
    refused_at_0(receipt_call, "nothing posted", 1, 0, 26);
    set_up_receipt();
    refused_at_0(receipt_call, "block 2 of 1", 2, 0, 29);
    now.header.front.recipients.present = false;
    refused_at_0(receipt_call, "to nobody", 1, 0, 25);
    set_up_receipt();
    now.header.front.originator.present = false;
    refused_at_0(receipt_call, "from nobody", 1, 0, 25);
    now.header.front.originator.present = true;
    now.header.front.originator.address.urn.value = 4;
    refused_at_0(receipt_call, "from another station", 1, 0, 27);
    now.header.front.originator.address.urn.value = 3;
    done(receipt_call, "the receipt", 1, 0);
    before.table.rows[0].recipients[0].machine = 1;
    nothing_else_changed(receipt_call, "the receipt: the code alone");
    refused_at_0(receipt_call, "the receipt again", 1, 0, 28);
}

/* In `before` the row goes: those behind it come down, and the last place is 0. */
static void take_out(size_t row)
{
    const size_t last = --before.table.count;
    move_rows(row, row + 1, last - row);
    memset(&before.table.rows[last], 0, sizeof(pruvelaccio_row));
}

static void releasing(void)
{
    set_up_receipt();
    refused_at_0(release_call, "a key of patterns", 0, 0, 3);
    now.key = now.table.rows[0].key;
    now.key.address.urn.value = 1 << 24;
    refused_at_0(release_call, "a URN of 25 bits", 0, 0, 3);
    now.key = now.table.rows[0].key;
    now.key.stamp.dtg.date = june_31;
    refused_at_0(release_call, "31 June", 0, 0, 3);
    now.key.stamp.dtg.date = february_29;
    refused_at_0(release_call, "29 February 01", 0, 0, 3);
    now.key = now.table.rows[0].key;
    now.key.address.urn.value = 208;
    refused_at_0(release_call, "another originator", 0, 0, 26);
    now.key.address.name.present = true;
    refused_at_0(release_call, "both forms of an address", 0, 0, 6);
    now.key.address.urn.present = false;
    now.key.address.name.text.len = 65;
    refused_at_0(release_call, "a name of 65 characters", 0, 0, 4);
    now.key = now.table.rows[0].key;
    done(release_call, "the key", 0, 0);
    take_out(0);
    nothing_else_changed(release_call, "the key: the table alone");
    refused_at_0(release_call, "the key again", 0, 0, 26);
}

/* The key is one of the table itself: it is gone, or another's, before the call has ended. */
static void releasing_by_its_own_key(void)
{
    for (size_t row = 0; row < PRUVELACCIO_ROWS; row++) {
        fill_table();
        memcpy(&before, &now, sizeof(now));
        const pruvelaccio_answer answer = pruvelaccio_release(&now.table, &now.table.rows[row].key);
        expect("release", "a key of the table", is_done(answer));
        take_out(row);
        nothing_else_changed(release_call, "a key of the table: the table alone");
    }
}

/* The place that is freed is 0, and unused rows behind it stay as they are. */
static void releasing_before_unused_rows(void)
{
    set_up();
    memset(&now.table, PATTERN, sizeof(now.table));
    now.table.count = 0;
    for (uint32_t i = 0; i < 3; i++) {
        post_from(i);
    }
    now.key = now.table.rows[1].key;
    done(release_call, "the second of three", 0, 0);
    take_out(1);
    nothing_else_changed(release_call, "the second of three");
}

static void listed(const char *what, uint32_t number, const char *text)
{
    room = strlen(text);
    done(list_row_call, what, number, 0);
    memcpy(before.out, text, strlen(text));
    before.size = strlen(text);
    nothing_else_changed(list_row_call, what);
}

static void listing(void)
{
    static const char row[] = "207 96-07-03 16:27:55 - asked m\n  3 m=?\n";
    set_up_receipt();
    room = 6;
    refused_at_0(list_row_call, "an octet too few for row 0", 0, 0, 11);
    room = sizeof(row) - 2;
    refused_at_0(list_row_call, "an octet too few for row 1", 1, 0, 11);
    listed("row 0", 0, "rows 1\n");
    listed("row 1", 1, row);
    listed("a row behind the last", 2, "");
}

/*
 * Octets as they are: flags that are neither 0 nor 1, and structs at any address.
 */

/*
 * Each flag that is 1 gets another octet. Which octets are flags settling shows: of octets that are all 2 it
 * makes each flag a 1.
 */
static void set_each(void *octets, const void *settled, size_t size, unsigned char octet)
{
    unsigned char *at = octets;
    const unsigned char *flags = settled;
    for (size_t i = 0; i < size; i++) {
        if (flags[i] == 1 && at[i] == 1) {
            at[i] = octet;
        }
    }
}

static void set_flags(unsigned char octet)
{
    static pruvelaccio_header flags;
    memset(&flags, 2, sizeof(flags));
    pruvelaccio_settle_record(&flags);
    set_each(&now.header, &flags, sizeof(flags), octet);
}

static void set_table_flags(unsigned char octet)
{
    static pruvelaccio_table flags;
    memset(&flags, 2, sizeof(flags));
    pruvelaccio_settle_table(&flags);
    set_each(&now.table, &flags, sizeof(flags), octet);
}

static void set_key_flags(unsigned char octet)
{
    static pruvelaccio_key flags;
    memset(&flags, 2, sizeof(flags));
    pruvelaccio_settle_key(&flags);
    set_each(&now.key, &flags, sizeof(flags), octet);
}

/* A posting, its receipt and a release with such flags do what they do with flags of 1. */
static void entered(unsigned char octet)
{
    set_up();
    set_flags(octet);
    done(post_call, "flags that are not 1", 1, MESSAGE_DATA);
    now.key = now.table.rows[0].key;
    set_table_flags(octet);
    refused_at_0(post_call, "again, the table's flags not 1", 1, MESSAGE_DATA, 22);
    pruvelaccio_read(receipt, sizeof(receipt), &now.header, NULL);
    set_flags(octet);
    done(receipt_call, "flags that are not 1", 1, 0);
    listed("rows by flags that are not 1", 0, "rows 1\n");
    listed("a row by flags that are not 1", 1, "207 96-07-03 16:27:55 - asked m\n  3 m=1\n");
    set_key_flags(octet);
    done(release_call, "flags that are not 1", 0, 0);
    take_out(0);
    nothing_else_changed(release_call, "flags that are not 1");
}

static void flags_other_than_1(void)
{
    static const unsigned char others[] = {2, 3, 0x80, 0xFF};
    for (size_t i = 0; i < LENGTH(others); i++) {
        set_up();
        set_flags(others[i]);
        const unsigned char *flag = (const unsigned char *)&now.header.front.originator.present;
        expect("set_flags", "a flag that is not 1", *flag == others[i]);
        written("flags that are not 1");
        entered(others[i]);
    }
}

static void at_an_odd_address(void)
{
    static uint8_t place[sizeof(pruvelaccio_header) + 1];
    uint8_t *record = (uintptr_t)place % 2 == 0 ? place + 1 : place;
    set_up();
    const pruvelaccio_size_answer got = pruvelaccio_read_octets(message, sizeof(message), record);
    expect("read_octets", "an odd address", got.number == 0 && got.length == MESSAGE_HEADER);
    expect("read_octets", "the same record", memcmp(record, &now.header, sizeof(now.header)) == 0);
    const pruvelaccio_size_answer checked = pruvelaccio_check_octets(record, MESSAGE_DATA);
    expect("check_octets", "an odd address", checked.number == 0 && checked.length == MESSAGE_HEADER);
    const pruvelaccio_size_answer put = pruvelaccio_write_octets(record, MESSAGE_DATA, now.out, room);
    expect("write_octets", "an odd address", put.number == 0 && memcmp(now.out, message, put.length) == 0);
}

/* A table and a key at odd addresses, with the library's own functions. */
static void tables_at_an_odd_address(void)
{
    static uint8_t places[sizeof(pruvelaccio_table) + 1];
    static uint8_t keys[sizeof(pruvelaccio_key) + 1];
    uint8_t *table = (uintptr_t)places % 2 == 0 ? places + 1 : places;
    uint8_t *key = (uintptr_t)keys % 2 == 0 ? keys + 1 : keys;
    set_up();
    memset(places, PATTERN, sizeof(places));
    pruvelaccio_empty_octets(table);
    expect("empty_octets", "an odd address", memcmp(table, &now.table, sizeof(now.table)) == 0);
    expect("post_octets", "an odd address",
           pruvelaccio_post_octets(table, &now.header, 1, MESSAGE_DATA).number == 0);
    set_up_receipt();
    expect("post_octets", "the same table", memcmp(table, &now.table, sizeof(now.table)) == 0);
    make_receipt(1, 0);
    expect("receipt_octets", "an odd address",
           pruvelaccio_receipt_octets(table, &now.header, 1, 0).number == 0);
    expect("receipt_octets", "the same table", memcmp(table, &now.table, sizeof(now.table)) == 0);
    const pruvelaccio_size_answer got = pruvelaccio_list_row_octets(table, 0, now.out, room);
    expect("list_row_octets", "an odd address", got.number == 0 && memcmp(now.out, "rows 1\n", 7) == 0);
    memcpy(key, &now.table.rows[0].key, sizeof(now.key));
    expect("release_octets", "an odd address", pruvelaccio_release_octets(table, key).number == 0);
    pruvelaccio_empty(&now.table);
    expect("release_octets", "the same table", memcmp(table, &now.table, sizeof(now.table)) == 0);
}

/* NULL with length 0, and sizes that are not wanted. */
static void without_octets(void)
{
    size_t size = 77;
    set_up();
    const pruvelaccio_header *header = &now.header;
    const pruvelaccio_table *table = &now.table;
    expect("read", "NULL", pruvelaccio_read(NULL, 0, &now.header, &size).number == 1 && size == 77);
    expect("write", "NULL", pruvelaccio_write(header, 1, NULL, 0, &size).number == 11 && size == 77);
    expect("list_row", "NULL", pruvelaccio_list_row(table, 0, NULL, 0, &size).number == 11 && size == 77);
    expect("list_row", "NULL", pruvelaccio_list_row(table, 1, NULL, 0, &size).number == 0 && size == 0);
    expect("user_data", "no size", pruvelaccio_user_data(message, sizeof(message), NULL) == message + 16);
    expect("check", "no size", pruvelaccio_check(header, 1, NULL).number == 0);
    expect("write", "no size", pruvelaccio_write(header, 1, now.out, room, NULL).number == 0);
    expect("list_row", "no size", pruvelaccio_list_row(table, 0, now.out, room, NULL).number == 0);
    expect("meaning", "of 30", strcmp(pruvelaccio_meaning(30), "the table is not well formed") == 0);
    expect("meaning", "of 31", strcmp(pruvelaccio_meaning(31), "unknown") == 0);
    expect("meaning", "of 8", strcmp(pruvelaccio_meaning(8), "unknown") == 0);
    expect("meaning", "of 54", strcmp(pruvelaccio_meaning(54), "a block has data octets and may have none") == 0);
}

/*
 * Flags settled.
 */

/* Of so many octets that are all a pattern, as many become 1 as there are flags, and no other changes. */
static void settled(const char *name, const void *octets, size_t size, size_t flags)
{
    const unsigned char *at = octets;
    size_t ones = 0;
    size_t patterns = 0;
    for (size_t i = 0; i < size; i++) {
        ones += at[i] == 1 ? 1 : 0;
        patterns += at[i] == PATTERN ? 1 : 0;
    }
    expect(name, "every flag 1, and nothing else changed", ones == flags && patterns == size - flags);
}

/* 7 flags of a record's own, 2 in each of 32 addressees, 31 in each block; 38 in each row; 3 in a key. */
static void flags_settled(void)
{
    memset(&now, PATTERN, sizeof(now));
    memcpy(&before, &now, sizeof(now));
    pruvelaccio_settle_record(&now.header);
    pruvelaccio_settle_table(&now.table);
    pruvelaccio_settle_key(&now.key);
    settled("settle_record", &now.header, sizeof(now.header), 7 + 32 * 2 + 16 * 31);
    settled("settle_table", &now.table, sizeof(now.table), 32 * 38);
    settled("settle_key", &now.key, sizeof(now.key), 3);
    memcpy(&before.header, &now.header, sizeof(now.header));
    memcpy(&before.table, &now.table, sizeof(now.table));
    memcpy(&before.key, &now.key, sizeof(now.key));
    expect("settle", "no octet beside them", memcmp(&now, &before, sizeof(now)) == 0);
}

static void flag_is_one(const char *what, const bool *flag)
{
    const unsigned char *octet = (const unsigned char *)flag;
    expect("settle", what, *octet == 1);
}

/* The last flag of each kind of list, by its name. */
static void last_flags_settled(void)
{
    const pruvelaccio_block *block = &now.header.blocks.list[PRUVELACCIO_BLOCKS - 1];
    const pruvelaccio_row *row = &now.table.rows[PRUVELACCIO_ROWS - 1];
    flag_is_one("the last recipient's", &now.header.front.recipients.addresses.list[15].name.present);
    flag_is_one("the last addressee's", &now.header.front.information.addresses.list[15].name.present);
    flag_is_one("the last amplification's", &block->response.response.amplification.present);
    flag_is_one("the last reference's", &block->references.references.list[3].stamp.extension.present);
    flag_is_one("the last block's reply", &block->times.requests.requests.reply);
    flag_is_one("the last row's reply", &row->asked.reply);
    flag_is_one("the last row's extension's", &row->key.stamp.extension.present);
    flag_is_one("the last row's last recipient's", &row->recipients[15].address.name.present);
}

/* A 0 stays 0. */
static void zeros_settled(void)
{
    memset(&now, 0, sizeof(now));
    memset(&before, 0, sizeof(before));
    pruvelaccio_settle_record(&now.header);
    pruvelaccio_settle_table(&now.table);
    pruvelaccio_settle_key(&now.key);
    expect("settle", "every octet 0", memcmp(&now, &before, sizeof(now)) == 0);
}

/*
 * Saving and loading.
 */

/* Octets to save to and to load from, with a guard behind them. */
static uint8_t saved[PRUVELACCIO_SAVED_TABLE_OCTETS + GUARD];

typedef struct keeper {
    const char *name;
    pruvelaccio_saved (*save)(size_t into, size_t *written);
    pruvelaccio_saved (*load)(size_t size);
    size_t size;
    void *object;
} keeper;

static pruvelaccio_saved save_record(size_t into, size_t *written)
{
    return pruvelaccio_save_record(&now.header, saved, into, written);
}

static pruvelaccio_saved load_record(size_t size)
{
    return pruvelaccio_load_record(&now.header, saved, size);
}

static pruvelaccio_saved save_table(size_t into, size_t *written)
{
    return pruvelaccio_save_table(&now.table, saved, into, written);
}

static pruvelaccio_saved load_table(size_t size)
{
    return pruvelaccio_load_table(&now.table, saved, size);
}

static const keeper keepers[] = {
    {"record", save_record, load_record, PRUVELACCIO_SAVED_RECORD_OCTETS, &now.header},
    {"table", save_table, load_table, PRUVELACCIO_SAVED_TABLE_OCTETS, &now.table},
};

/* How many octets from a place on still hold the pattern. */
static size_t patterned(const uint8_t *octets, size_t size)
{
    size_t count = 0;
    while (count < size && octets[count] == PATTERN) {
        count++;
    }
    return count;
}

/* The number 1 with its low octet first, the struct, and nothing behind it. */
static void saving(const keeper *one)
{
    static const uint8_t number[] = {1, 0, 0, 0};
    size_t written = 77;
    set_up_receipt();
    memset(saved, PATTERN, sizeof(saved));
    expect(one->name, "an octet of room too few", one->save(one->size - 1, &written) == PRUVELACCIO_SAVED_NO_ROOM);
    expect(one->name, "no room", one->save(0, &written) == PRUVELACCIO_SAVED_NO_ROOM && written == 77);
    expect(one->name, "nothing saved", patterned(saved, sizeof(saved)) == sizeof(saved));
    expect(one->name, "saved", one->save(one->size, &written) == PRUVELACCIO_SAVED_DONE);
    expect(one->name, "its size", written == one->size);
    expect(one->name, "its number", memcmp(saved, number, sizeof(number)) == 0);
    expect(one->name, "its octets", memcmp(saved + 4, one->object, one->size - 4) == 0);
    expect(one->name, "no more",
           patterned(saved + one->size, sizeof(saved) - one->size) == sizeof(saved) - one->size);
    expect(one->name, "a size not wanted", one->save(sizeof(saved), NULL) == PRUVELACCIO_SAVED_DONE);
}

/* What is saved is loaded again, and no other octet changes. */
static void loading(const keeper *one)
{
    memcpy(&before, &now, sizeof(now));
    memset(one->object, PATTERN, one->size - 4);
    expect(one->name, "loaded", one->load(one->size) == PRUVELACCIO_SAVED_DONE);
    expect(one->name, "the struct alone", memcmp(&now, &before, sizeof(now)) == 0);
}

static void not_loaded(const keeper *one, const char *what, size_t size, pruvelaccio_saved expected)
{
    refusing = what;
    protect(PROT_READ);
    const pruvelaccio_saved answer = one->load(size);
    protect(PROT_READ | PROT_WRITE);
    expect(one->name, what, answer == expected);
}

/* Octets of another layout and of another size; the first four octets are the number. */
static void loading_refused(const keeper *one)
{
    not_loaded(one, "no octets", 0, PRUVELACCIO_SAVED_OTHER_SIZE);
    not_loaded(one, "three octets", 3, PRUVELACCIO_SAVED_OTHER_SIZE);
    not_loaded(one, "the number alone", 4, PRUVELACCIO_SAVED_OTHER_SIZE);
    not_loaded(one, "an octet too few", one->size - 1, PRUVELACCIO_SAVED_OTHER_SIZE);
    not_loaded(one, "an octet too many", one->size + 1, PRUVELACCIO_SAVED_OTHER_SIZE);
    for (size_t i = 0; i < 4; i++) {
        saved[i] ^= 2;
        not_loaded(one, "another number", one->size, PRUVELACCIO_SAVED_OTHER_LAYOUT);
        not_loaded(one, "another number and size", one->size - 1, PRUVELACCIO_SAVED_OTHER_LAYOUT);
        saved[i] ^= 2;
    }
}

/* Any octets behind the number are some struct; its flags are settled. */
static void loading_any(const keeper *one)
{
    memset(&now, 0, sizeof(now));
    memset(saved + 4, PATTERN, sizeof(saved) - 4);
    expect(one->name, "any octets", one->load(one->size) == PRUVELACCIO_SAVED_DONE);
    settled(one->name, one->object, one->size - 4, one->object == &now.table ? 32 * 38 : 7 + 32 * 2 + 16 * 31);
}

static void keeping(void)
{
    for (size_t i = 0; i < LENGTH(keepers); i++) {
        saving(&keepers[i]);
        loading(&keepers[i]);
        loading_refused(&keepers[i]);
        loading_any(&keepers[i]);
    }
    set_up();
    save_record(sizeof(saved), NULL);
    not_loaded(&keepers[1], "a record for a table", PRUVELACCIO_SAVED_RECORD_OCTETS, PRUVELACCIO_SAVED_OTHER_SIZE);
    expect("saved_meaning", "of another layout",
           strcmp(pruvelaccio_saved_meaning(PRUVELACCIO_SAVED_OTHER_LAYOUT),
                  "the octets were saved with another layout") == 0);
}

static void calls_with_records(void)
{
    records_refused(check_call);
    records_refused(write_call);
    records_refused(post_call);
    records_refused(receipt_call);
    last_days();
    writing();
}

static void calls_with_tables(void)
{
    tables_refused(post_call);
    tables_refused(receipt_call);
    tables_refused(release_call);
    tables_refused(list_row_call);
    emptying();
    posting();
    posting_between();
    posting_to_a_full_table();
    receiving();
    releasing();
    releasing_by_its_own_key();
    releasing_before_unused_rows();
    listing();
}

int main(void)
{
    signal(SIGSEGV, stored);
    reading_refused();
    reading_needless();
    reading_too_many();
    reading_done();
    version_1();
    user_data_handed_back();
    calls_with_records();
    calls_with_tables();
    flags_other_than_1();
    at_an_odd_address();
    tables_at_an_odd_address();
    without_octets();
    flags_settled();
    last_flags_settled();
    zeros_settled();
    keeping();
    expect("layout", "its number", pruvelaccio_layout_mark() == PRUVELACCIO_LAYOUT);
    printf("wrappers: %u expectations, %u failed\n", cases, failures);
    return failures == 0 ? EXIT_SUCCESS : EXIT_FAILURE;
}
