/*
 * The proved gateway for C and C++: reading and writing the application header of MIL-STD-2045-47001C, and
 * the table of messages that still owe answers. Link libgateway.a (`host/build`), on x86-64 with
 * the System V calling convention.
 *
 * Every call takes any input. Its answer has number 0, done, or the number of a refusal with its bit place
 * and its message block. A refusal stores nothing through any pointer.
 *
 * Everything is lent: the library reads and changes a record, a table and a key where they lie. Any octets at
 * all are some record, some table and some key: a flag is set unless its octet is 0, a number is 32 bits with
 * the low octet first, and what is not used carries no meaning.
 *
 * The host sees to this:
 * - A pointer reaches as many octets as the length beside it says, or the whole struct. NULL is fine with
 *   length 0. A pointer to a size that the host does not want may be NULL. No other pointer may.
 * - What a call stores to lies apart from all else that it is lent; only the key of a release may be a key of
 *   the table itself. docs/CALLS.md has each pair. Nobody else changes any of it before the call has ended:
 *   memory that another process writes to is copied first.
 * - C takes a bool to hold 0 or 1. The library stores nothing else, and pruvelaccio_load_... makes it so. A host
 *   that puts octets from elsewhere under a struct and then looks at its flags settles them first
 *   (pruvelaccio_settle_...); the calls need none of that.
 * - The stack has room: a thread with 96 KB is enough for every call.
 * - One table is changed by one thread at a time. The library keeps nothing between calls.
 */
#ifndef PRUVELACCIO_H
#define PRUVELACCIO_H

#include <stdbool.h>
#include <stddef.h>
#include <stdint.h>
#include <string.h>

#ifdef __cplusplus
#define PRUVELACCIO_ASSERT(holds, words) static_assert(holds, words)
extern "C" {
#else
#define PRUVELACCIO_ASSERT(holds, words) _Static_assert(holds, words)
#endif

/* What neither the compiler nor the linker drops, though nothing uses it. */
#if defined(__has_attribute)
#if __has_attribute(retain)
#define PRUVELACCIO_KEPT __attribute__((used, retain))
#endif
#endif
#ifndef PRUVELACCIO_KEPT
#define PRUVELACCIO_KEPT __attribute__((used))
#endif

/* Octets that no header, no header with its data, and no row of the listing exceeds. */
#define PRUVELACCIO_HEADER_OCTETS 8192
#define PRUVELACCIO_DATAGRAM_OCTETS 65507
#define PRUVELACCIO_ROW_OCTETS 4096

#define PRUVELACCIO_CHARACTERS 64
#define PRUVELACCIO_ADDRESSEES 16
#define PRUVELACCIO_REFERENCES 4
#define PRUVELACCIO_BLOCKS 16
#define PRUVELACCIO_ROWS 32

/*
 * The record of a header. Numbers are 32 bits wide so that a record can hold a value that does not fit its
 * field: finding that out is the writer's task. What is not present, or lies behind a count, is an unused
 * cell and carries no meaning.
 */

typedef struct pruvelaccio_optional_number {
    bool present;
    uint32_t value;
} pruvelaccio_optional_number;

typedef struct pruvelaccio_text {
    uint8_t chars[PRUVELACCIO_CHARACTERS];
    uint32_t len;
} pruvelaccio_text;

typedef struct pruvelaccio_optional_text {
    bool present;
    pruvelaccio_text text;
} pruvelaccio_optional_text;

/* A URN or a unit name, exactly one of them. */
typedef struct pruvelaccio_address {
    pruvelaccio_optional_number urn;
    pruvelaccio_optional_text name;
} pruvelaccio_address;

typedef struct pruvelaccio_optional_address {
    bool present;
    pruvelaccio_address address;
} pruvelaccio_optional_address;

typedef struct pruvelaccio_addresses {
    pruvelaccio_address list[PRUVELACCIO_ADDRESSEES];
    uint32_t count;
} pruvelaccio_addresses;

typedef struct pruvelaccio_optional_addresses {
    bool present;
    pruvelaccio_addresses addresses;
} pruvelaccio_optional_addresses;

/* The fields up to the end of G3. */
typedef struct pruvelaccio_front {
    uint32_t version;                           /* 1 or 2 */
    pruvelaccio_optional_number compression;
    pruvelaccio_optional_address originator;    /* G1 */
    pruvelaccio_optional_addresses recipients;  /* G2 */
    pruvelaccio_optional_addresses information; /* G3; G2 and G3 hold at most 16 together */
} pruvelaccio_front;

/*
 * A day that its month has: April, June, September and November have 30, February has 29 in a year that
 * divides by four and 28 in any other, the rest have 31. A record or a key with another day is refused with 3,
 * a table with one in a row with 30.
 */
typedef struct pruvelaccio_date {
    uint32_t year;  /* its last two digits, 0 to 99; 0 is 2000 */
    uint32_t month; /* 1 to 12 */
    uint32_t day;   /* from 1 on */
} pruvelaccio_date;

typedef struct pruvelaccio_time {
    uint32_t hour;
    uint32_t minute;
    uint32_t second;
} pruvelaccio_time;

typedef struct pruvelaccio_dtg {
    pruvelaccio_date date;
    pruvelaccio_time time;
} pruvelaccio_dtg;

typedef struct pruvelaccio_optional_dtg {
    bool present;
    pruvelaccio_dtg dtg;
} pruvelaccio_optional_dtg;

/* A DTG with its extension. */
typedef struct pruvelaccio_stamp {
    pruvelaccio_dtg dtg;
    pruvelaccio_optional_number extension;
} pruvelaccio_stamp;

typedef struct pruvelaccio_optional_stamp {
    bool present;
    pruvelaccio_stamp stamp;
} pruvelaccio_optional_stamp;

/* G4: functional area designator, message number and subtype. */
typedef struct pruvelaccio_identity {
    uint32_t fad;
    uint32_t number;
    pruvelaccio_optional_number subtype;
} pruvelaccio_identity;

typedef struct pruvelaccio_optional_identity {
    bool present;
    pruvelaccio_identity identity;
} pruvelaccio_optional_identity;

/* User message format, message standard version, G4, file name. */
typedef struct pruvelaccio_format {
    uint32_t umf;
    pruvelaccio_optional_number version; /* absent in a record of version 1 */
    pruvelaccio_optional_identity identity;
    pruvelaccio_optional_text file;
} pruvelaccio_format;

typedef struct pruvelaccio_codes {
    uint32_t operation;
    uint32_t retransmit;
    uint32_t precedence;
    uint32_t classification;
} pruvelaccio_codes;

/* Message size, the four codes, control and release marking. */
typedef struct pruvelaccio_handling {
    pruvelaccio_optional_number size;
    pruvelaccio_codes codes;
    pruvelaccio_optional_text marking;
} pruvelaccio_handling;

/* G7: the three answers that a message can ask for. */
typedef struct pruvelaccio_requests {
    bool machine;
    bool acknowledge;
    bool reply;
} pruvelaccio_requests;

typedef struct pruvelaccio_optional_requests {
    bool present;
    pruvelaccio_requests requests;
} pruvelaccio_optional_requests;

/* G5 originator's DTG, G6 perishability DTG, G7 requests. */
typedef struct pruvelaccio_times {
    pruvelaccio_optional_stamp origin;
    pruvelaccio_optional_dtg perish;
    pruvelaccio_optional_requests requests;
} pruvelaccio_times;

/* Receipt/compliance with its CANTCO and CANTPRO reasons. */
typedef struct pruvelaccio_compliance {
    uint32_t code;
    pruvelaccio_optional_number cantco;
    pruvelaccio_optional_number cantpro;
} pruvelaccio_compliance;

/* G8: the DTG of the message answered, the answer, and its amplification. */
typedef struct pruvelaccio_response {
    pruvelaccio_stamp stamp;
    pruvelaccio_compliance compliance;
    pruvelaccio_optional_text amplification;
} pruvelaccio_response;

typedef struct pruvelaccio_optional_response {
    bool present;
    pruvelaccio_response response;
} pruvelaccio_optional_response;

/* An entry of G9: a message referred to. */
typedef struct pruvelaccio_reference {
    pruvelaccio_address address;
    pruvelaccio_stamp stamp;
} pruvelaccio_reference;

typedef struct pruvelaccio_references {
    pruvelaccio_reference list[PRUVELACCIO_REFERENCES];
    uint32_t count;
} pruvelaccio_references;

typedef struct pruvelaccio_optional_references {
    bool present;
    pruvelaccio_references references;
} pruvelaccio_optional_references;

/* A message block. The presence bit of G10 has to be 0 and has no cell. */
typedef struct pruvelaccio_block {
    pruvelaccio_format format;
    pruvelaccio_handling handling;
    pruvelaccio_times times;
    pruvelaccio_optional_response response;     /* G8 */
    pruvelaccio_optional_references references; /* G9 */
} pruvelaccio_block;

typedef struct pruvelaccio_blocks {
    pruvelaccio_block list[PRUVELACCIO_BLOCKS];
    uint32_t count;
} pruvelaccio_blocks;

/* Of the header size a record holds the presence only: its number is the header's own octets. */
typedef struct pruvelaccio_header {
    pruvelaccio_front front;
    bool sized;
    pruvelaccio_blocks blocks;
} pruvelaccio_header;

/*
 * The table of pending messages.
 */

/* What names a message: its originator's address, its DTG and extension. */
typedef struct pruvelaccio_key {
    pruvelaccio_address address;
    pruvelaccio_stamp stamp;
} pruvelaccio_key;

/* A recipient of a row, with the code that settled each request; 0 where there is none. */
typedef struct pruvelaccio_recipient {
    pruvelaccio_address address;
    uint32_t machine;
    uint32_t acknowledge;
    uint32_t reply;
} pruvelaccio_recipient;

/* A message that was posted. */
typedef struct pruvelaccio_row {
    pruvelaccio_key key;
    pruvelaccio_requests asked;
    pruvelaccio_recipient recipients[PRUVELACCIO_ADDRESSEES];
    uint32_t count;
} pruvelaccio_row;

typedef struct pruvelaccio_table {
    pruvelaccio_row rows[PRUVELACCIO_ROWS];
    uint32_t count;
} pruvelaccio_table;

/* The library was compiled with these sizes; a compiler that lays the structs out otherwise stops here. */
#if defined(__BYTE_ORDER__) && __BYTE_ORDER__ != __ORDER_LITTLE_ENDIAN__
#error "the numbers of a record have their low octet first"
#endif
PRUVELACCIO_ASSERT(sizeof(bool) == 1 && sizeof(size_t) == 8, "a bool is one octet and a size is eight");
#include "pruvelaccio_layout.h"

/*
 * The library's own functions: a record, a table and a key are pointers to their octets, which need not be
 * aligned; other octets are a pointer that is never NULL and a length. The calls further down are easier to
 * use.
 */

/*
 * Number 0: done, with 0 in block and place. Otherwise a refusal. Its block is the message block, counted from
 * 1, that breaks a rule (41 to 49) or has a wrong body (53, 54), and 0 where no block is to blame. Its place is
 * a bit place, and 0 for all refusals but a reading's.
 */
typedef struct pruvelaccio_answer {
    uint32_t number;
    uint32_t block;
    size_t place;
} pruvelaccio_answer;

/* The same with a length, which is 0 beside a refusal. */
typedef struct pruvelaccio_size_answer {
    uint32_t number;
    uint32_t block;
    size_t place;
    size_t length;
} pruvelaccio_size_answer;

/* The answers come back from the library as these octets. */
PRUVELACCIO_ASSERT(sizeof(pruvelaccio_answer) == 16, "octets of answer");
PRUVELACCIO_ASSERT(offsetof(pruvelaccio_answer, number) == 0, "place of answer.number");
PRUVELACCIO_ASSERT(offsetof(pruvelaccio_answer, block) == 4, "place of answer.block");
PRUVELACCIO_ASSERT(offsetof(pruvelaccio_answer, place) == 8, "place of answer.place");
PRUVELACCIO_ASSERT(sizeof(pruvelaccio_size_answer) == 24, "octets of size_answer");
PRUVELACCIO_ASSERT(offsetof(pruvelaccio_size_answer, number) == 0, "place of size_answer.number");
PRUVELACCIO_ASSERT(offsetof(pruvelaccio_size_answer, block) == 4, "place of size_answer.block");
PRUVELACCIO_ASSERT(offsetof(pruvelaccio_size_answer, place) == 8, "place of size_answer.place");
PRUVELACCIO_ASSERT(offsetof(pruvelaccio_size_answer, length) == 16, "place of size_answer.length");

pruvelaccio_size_answer pruvelaccio_read_octets(const uint8_t *datagram, size_t length, void *header);
size_t pruvelaccio_data_start(const uint8_t *datagram, size_t length);
pruvelaccio_size_answer pruvelaccio_check_octets(const void *header, size_t count);
pruvelaccio_size_answer pruvelaccio_write_octets(const void *header, size_t count, uint8_t *out, size_t room);
void pruvelaccio_empty_octets(void *table);
pruvelaccio_answer pruvelaccio_post_octets(void *table, const void *header, uint32_t number, size_t count);
pruvelaccio_answer pruvelaccio_receipt_octets(void *table, const void *header, uint32_t number, size_t count);
pruvelaccio_answer pruvelaccio_release_octets(void *table, const void *key);
pruvelaccio_size_answer pruvelaccio_list_row_octets(const void *table, uint32_t number, uint8_t *out,
                                                    size_t room);

/*
 * The calls.
 */

/* What a broken rule or a wrong size means, in words. */
static inline const char *pruvelaccio_rule_meaning(uint32_t number)
{
    switch (number) {
    case 41: return "rule (a): requests (G7) without an originator (G1)";
    case 42: return "rule (b): a response (G8) beside a perishability time (G6) or requests (G7)";
    case 43: return "rule (c): a message identification (G4) in UMF 1";
    case 44: return "rule (d): a message identification (G4) in UMF 4";
    case 45: return "rule (e): a response (G8) in a compressed message";
    case 46: return "rule (f): of several blocks one, or the header, has no size";
    case 47: return "rule (g): a CANTCO reason beside another R/C than 6";
    case 48: return "rule (h): a CANTPRO reason beside another R/C than 2";
    case 49: return "rule (i): a request is set, and there is no originator's time (G5)";
    case 51: return "the header size is not the header's octets";
    case 52: return "the message sizes do not sum to the data octets";
    case 53: return "a block has no data octets and needs some, or a response (G8) in UMF 4";
    case 54: return "a block has data octets and may have none";
    default: return "unknown";
    }
}

/* What an answer's number means, in words; for 41 and above those of a rule or a size. */
static inline const char *pruvelaccio_meaning(uint32_t number)
{
    switch (number) {
    case 0: return "done";
    case 1: return "the bits end inside a field";
    case 2: return "the version is neither 1 nor 2";
    case 3: return "another code is not legal, or a record of version 1 has a standard version";
    case 4: return "a text is empty, or a character or a length of it is bad";
    case 5: return "a list of addressees, blocks or references is longer than it may be, or empty";
    case 6: return "an address has both forms or neither";
    case 7: return "the presence bit of G10 is 1";
    case 9: return "a fill bit is 1";
    case 11: return "the output has too little room";
    case 12: return "header and data together are longer than 65,507 octets";
    case 20: return "a posting asks for nothing";
    case 21: return "a posting has no recipient";
    case 22: return "the table holds the key already";
    case 23: return "the table's 32 rows are all held";
    case 24: return "a receipt without G8";
    case 25: return "a receipt without originator, or with G2 not of exactly one entry";
    case 26: return "no row has the key";
    case 27: return "the answerer is no recipient of that row";
    case 28: return "nothing is open there that the code answers";
    case 29: return "the record has no such block";
    case 30: return "the table is not well formed";
    default: return pruvelaccio_rule_meaning(number);
    }
}

/* The library is never handed NULL, so that its slices always have an address. */
static inline const uint8_t *pruvelaccio_lent(const uint8_t *octets)
{
    static const uint8_t none = 0;
    return octets != NULL ? octets : &none;
}

/* The answer of a call that gives a size; the size is stored where the call was done. */
static inline pruvelaccio_answer pruvelaccio_take_size(pruvelaccio_size_answer got, size_t *size)
{
    pruvelaccio_answer answer = {got.number, got.block, got.place};
    if (got.number == 0 && size != NULL) {
        *size = got.length;
    }
    return answer;
}

/*
 * Reads a datagram into the record where it lies. Done, every octet of the record is determined: flags are 0
 * or 1, unused cells and the octets between the cells are 0. Refused, the record is as it was. The length is
 * the header's, fill bits included.
 */
static inline pruvelaccio_answer pruvelaccio_read(const uint8_t *datagram, size_t length,
                                                  pruvelaccio_header *header, size_t *header_length)
{
    return pruvelaccio_take_size(pruvelaccio_read_octets(pruvelaccio_lent(datagram), length, header),
                                 header_length);
}

/*
 * What lies behind the header, as a part of the datagram itself. It refuses nothing: a datagram that
 * reading refuses has no user data, so the length that is stored is 0.
 */
static inline const uint8_t *pruvelaccio_user_data(const uint8_t *datagram, size_t length,
                                                   size_t *data_length)
{
    const size_t start = pruvelaccio_data_start(pruvelaccio_lent(datagram), length);
    if (data_length != NULL) {
        *data_length = length - start;
    }
    return start == 0 ? datagram : datagram + start;
}

/* Whether a record is valid with so many octets of user data; done, it tells the octets of its header. */
static inline pruvelaccio_answer pruvelaccio_check(const pruvelaccio_header *header, size_t count,
                                                   size_t *header_length)
{
    return pruvelaccio_take_size(pruvelaccio_check_octets(header, count), header_length);
}

/* Writes a record's header to the first octets of the output. No other octet of the output changes. */
static inline pruvelaccio_answer pruvelaccio_write(const pruvelaccio_header *header, size_t count,
                                                   uint8_t *out, size_t room, size_t *written)
{
    uint8_t none = 0;
    uint8_t *lent = out != NULL ? out : &none;
    return pruvelaccio_take_size(pruvelaccio_write_octets(header, count, lent, room), written);
}

/* Makes a table with no row: every octet 0. */
static inline void pruvelaccio_empty(pruvelaccio_table *table)
{
    pruvelaccio_empty_octets(table);
}

/*
 * The three calls that change a table do it where it lies. Refused, every octet of it is as it was, whatever
 * octets they are. Done, every octet is determined: so tables that were made empty and have the same rows are
 * the same octets.
 */

/*
 * Posts block `number` of a record, counted from 1; `count` is the datagram's octets of user data. Done, the
 * rows behind the new one are moved up whole, and the new one has 0 in unused cells and between the cells.
 */
static inline pruvelaccio_answer pruvelaccio_post(pruvelaccio_table *table, const pruvelaccio_header *header,
                                                  uint32_t number, size_t count)
{
    return pruvelaccio_post_octets(table, header, number, count);
}

/* Settles what block `number` of a record answers. Done, the codes of one recipient alone change. */
static inline pruvelaccio_answer pruvelaccio_receipt(pruvelaccio_table *table,
                                                     const pruvelaccio_header *header, uint32_t number,
                                                     size_t count)
{
    return pruvelaccio_receipt_octets(table, header, number, count);
}

/*
 * Takes the row with a key out of the table. Done, the rows behind it are moved down whole, and the octets of
 * the last one's place are 0. The key is copied first, so that it may be a key of the table itself.
 */
static inline pruvelaccio_answer pruvelaccio_release(pruvelaccio_table *table, const pruvelaccio_key *key)
{
    unsigned char copy[PRUVELACCIO_KEY_OCTETS];
    memcpy(copy, key, sizeof(copy));
    return pruvelaccio_release_octets(table, copy);
}

/*
 * Writes a row of the listing to the first octets of the output: number 0 is the line that counts the rows,
 * number k the k-th row by key; past the last row there is nothing to write. No other octet of the output
 * changes.
 */
static inline pruvelaccio_answer pruvelaccio_list_row(const pruvelaccio_table *table, uint32_t number,
                                                      uint8_t *out, size_t room, size_t *written)
{
    uint8_t none = 0;
    uint8_t *lent = out != NULL ? out : &none;
    return pruvelaccio_take_size(pruvelaccio_list_row_octets(table, number, lent, room), written);
}

/*
 * Flags of octets that come from outside. The library takes every octet but 0 for a set flag; C takes a bool
 * to hold 0 or 1. Settling makes each flag that is not 0 a 1, in unused cells too, and changes nothing else.
 */

/* How many flags a list of them names. */
#define PRUVELACCIO_FLAGS(list) (sizeof(list) / sizeof((list)[0]))

static inline void pruvelaccio_settle(bool *flag)
{
    unsigned char *octet = (unsigned char *)flag;
    *octet = *octet != 0;
}

static inline void pruvelaccio_settle_address(pruvelaccio_address *address)
{
    pruvelaccio_settle(&address->urn.present);
    pruvelaccio_settle(&address->name.present);
}

static inline void pruvelaccio_settle_addresses(pruvelaccio_optional_addresses *group)
{
    pruvelaccio_settle(&group->present);
    for (size_t i = 0; i < PRUVELACCIO_ADDRESSEES; i++) {
        pruvelaccio_settle_address(&group->addresses.list[i]);
    }
}

static inline void pruvelaccio_settle_references(pruvelaccio_optional_references *group)
{
    pruvelaccio_settle(&group->present);
    for (size_t i = 0; i < PRUVELACCIO_REFERENCES; i++) {
        pruvelaccio_settle_address(&group->references.list[i].address);
        pruvelaccio_settle(&group->references.list[i].stamp.extension.present);
    }
}

static inline void pruvelaccio_settle_requests(pruvelaccio_requests *requests)
{
    pruvelaccio_settle(&requests->machine);
    pruvelaccio_settle(&requests->acknowledge);
    pruvelaccio_settle(&requests->reply);
}

static inline void pruvelaccio_settle_block(pruvelaccio_block *block)
{
    bool *const flags[] = {
        &block->format.version.present,
        &block->format.identity.present,
        &block->format.identity.identity.subtype.present,
        &block->format.file.present,
        &block->handling.size.present,
        &block->handling.marking.present,
        &block->times.origin.present,
        &block->times.origin.stamp.extension.present,
        &block->times.perish.present,
        &block->times.requests.present,
        &block->response.present,
        &block->response.response.stamp.extension.present,
        &block->response.response.compliance.cantco.present,
        &block->response.response.compliance.cantpro.present,
        &block->response.response.amplification.present,
    };
    for (size_t i = 0; i < PRUVELACCIO_FLAGS(flags); i++) {
        pruvelaccio_settle(flags[i]);
    }
    pruvelaccio_settle_requests(&block->times.requests.requests);
    pruvelaccio_settle_references(&block->references);
}

static inline void pruvelaccio_settle_record(pruvelaccio_header *header)
{
    pruvelaccio_settle(&header->front.compression.present);
    pruvelaccio_settle(&header->front.originator.present);
    pruvelaccio_settle_address(&header->front.originator.address);
    pruvelaccio_settle_addresses(&header->front.recipients);
    pruvelaccio_settle_addresses(&header->front.information);
    pruvelaccio_settle(&header->sized);
    for (size_t i = 0; i < PRUVELACCIO_BLOCKS; i++) {
        pruvelaccio_settle_block(&header->blocks.list[i]);
    }
}

static inline void pruvelaccio_settle_key(pruvelaccio_key *key)
{
    pruvelaccio_settle_address(&key->address);
    pruvelaccio_settle(&key->stamp.extension.present);
}

static inline void pruvelaccio_settle_row(pruvelaccio_row *row)
{
    pruvelaccio_settle_key(&row->key);
    pruvelaccio_settle_requests(&row->asked);
    for (size_t i = 0; i < PRUVELACCIO_ADDRESSEES; i++) {
        pruvelaccio_settle_address(&row->recipients[i].address);
    }
}

static inline void pruvelaccio_settle_table(pruvelaccio_table *table)
{
    for (size_t i = 0; i < PRUVELACCIO_ROWS; i++) {
        pruvelaccio_settle_row(&table->rows[i]);
    }
}

/*
 * Records and tables as they are kept in a file: the number of the layout, four octets with the low one
 * first, then the struct's own octets. The Rust crate writes and reads the same.
 */
#define PRUVELACCIO_NUMBER_OCTETS 4
#define PRUVELACCIO_SAVED_RECORD_OCTETS (PRUVELACCIO_NUMBER_OCTETS + PRUVELACCIO_RECORD_OCTETS)
#define PRUVELACCIO_SAVED_TABLE_OCTETS (PRUVELACCIO_NUMBER_OCTETS + PRUVELACCIO_TABLE_OCTETS)

/* What saving and loading answer. Whatever is not done stores nothing. */
typedef enum pruvelaccio_saved {
    PRUVELACCIO_SAVED_DONE = 0,
    PRUVELACCIO_SAVED_NO_ROOM = 1,
    PRUVELACCIO_SAVED_OTHER_LAYOUT = 2,
    PRUVELACCIO_SAVED_OTHER_SIZE = 3
} pruvelaccio_saved;

/* The same in words. */
static inline const char *pruvelaccio_saved_meaning(pruvelaccio_saved answer)
{
    switch (answer) {
    case PRUVELACCIO_SAVED_DONE: return "done";
    case PRUVELACCIO_SAVED_NO_ROOM: return "the output has too little room";
    case PRUVELACCIO_SAVED_OTHER_LAYOUT: return "the octets were saved with another layout";
    case PRUVELACCIO_SAVED_OTHER_SIZE: return "the octets are not as many as were saved";
    }
    return "unknown";
}

/* The number and the struct's octets, those between its cells as they are. */
static inline pruvelaccio_saved pruvelaccio_save(const void *from, size_t octets, uint8_t *out, size_t room,
                                                 size_t *written)
{
    if (room < PRUVELACCIO_NUMBER_OCTETS + octets) {
        return PRUVELACCIO_SAVED_NO_ROOM;
    }
    for (size_t i = 0; i < PRUVELACCIO_NUMBER_OCTETS; i++) {
        out[i] = (uint8_t)((uint32_t)PRUVELACCIO_LAYOUT >> (8 * i));
    }
    memcpy(out + PRUVELACCIO_NUMBER_OCTETS, from, octets);
    if (written != NULL) {
        *written = PRUVELACCIO_NUMBER_OCTETS + octets;
    }
    return PRUVELACCIO_SAVED_DONE;
}

/* Saves a record or a table to the first octets of the output, and tells how many they are. */
static inline pruvelaccio_saved pruvelaccio_save_record(const pruvelaccio_header *header, uint8_t *out,
                                                        size_t room, size_t *written)
{
    return pruvelaccio_save(header, PRUVELACCIO_RECORD_OCTETS, out, room, written);
}

static inline pruvelaccio_saved pruvelaccio_save_table(const pruvelaccio_table *table, uint8_t *out,
                                                       size_t room, size_t *written)
{
    return pruvelaccio_save(table, PRUVELACCIO_TABLE_OCTETS, out, room, written);
}

/*
 * Whether saved octets can be loaded. The number comes before the size, since another layout has another
 * size: whoever is told of one should be told the reason.
 */
static inline pruvelaccio_saved pruvelaccio_loadable(const void *octets, size_t size, size_t expected)
{
    const unsigned char *from = (const unsigned char *)octets;
    uint32_t number = 0;
    if (size < PRUVELACCIO_NUMBER_OCTETS) {
        return PRUVELACCIO_SAVED_OTHER_SIZE;
    }
    for (size_t i = 0; i < PRUVELACCIO_NUMBER_OCTETS; i++) {
        number |= (uint32_t)from[i] << (8 * i);
    }
    if (number != PRUVELACCIO_LAYOUT) {
        return PRUVELACCIO_SAVED_OTHER_LAYOUT;
    }
    return size == PRUVELACCIO_NUMBER_OCTETS + expected ? PRUVELACCIO_SAVED_DONE
                                                        : PRUVELACCIO_SAVED_OTHER_SIZE;
}

/*
 * Each octet behind the number is fetched once, and flags are settled in what was fetched: memory that
 * another process changes meanwhile cannot slip a bad flag in between the two.
 */
static inline void pruvelaccio_fetch(void *to, const void *octets, size_t size)
{
    const volatile unsigned char *from = (const volatile unsigned char *)octets + PRUVELACCIO_NUMBER_OCTETS;
    unsigned char *copy = (unsigned char *)to;
    for (size_t i = 0; i < size; i++) {
        copy[i] = from[i];
    }
}

/*
 * Loads a record or a table from all the octets that were saved, its flags settled. What the struct says is
 * not judged here: that is done by each call.
 */
static inline pruvelaccio_saved pruvelaccio_load_record(pruvelaccio_header *to, const void *octets,
                                                        size_t size)
{
    const pruvelaccio_saved answer = pruvelaccio_loadable(octets, size, PRUVELACCIO_RECORD_OCTETS);
    if (answer == PRUVELACCIO_SAVED_DONE) {
        pruvelaccio_fetch(to, octets, PRUVELACCIO_RECORD_OCTETS);
        pruvelaccio_settle_record(to);
    }
    return answer;
}

static inline pruvelaccio_saved pruvelaccio_load_table(pruvelaccio_table *to, const void *octets, size_t size)
{
    const pruvelaccio_saved answer = pruvelaccio_loadable(octets, size, PRUVELACCIO_TABLE_OCTETS);
    if (answer == PRUVELACCIO_SAVED_DONE) {
        pruvelaccio_fetch(to, octets, PRUVELACCIO_TABLE_OCTETS);
        pruvelaccio_settle_table(to);
    }
    return answer;
}

#ifdef __cplusplus
}
#endif

#undef PRUVELACCIO_ASSERT
#undef PRUVELACCIO_FLAGS
#undef PRUVELACCIO_KEPT

#endif
