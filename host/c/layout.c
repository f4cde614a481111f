/*
 * Prints the size of each struct and the offset of each of its fields, one a line. The Rust side prints the
 * same lines from its own structs, and a test compares the two.
 */
#include <stdio.h>

#include "pruvelaccio.h"

#define SIZE(type) printf("%s %zu\n", #type, sizeof(pruvelaccio_##type))
#define FIELD(type, field) printf("%s.%s %zu\n", #type, #field, offsetof(pruvelaccio_##type, field))

/* The parts of the fields before the blocks, and the fields. */
static void parts(void)
{
    SIZE(optional_number);
    FIELD(optional_number, present);
    FIELD(optional_number, value);
    SIZE(text);
    FIELD(text, chars);
    FIELD(text, len);
    SIZE(optional_text);
    FIELD(optional_text, present);
    FIELD(optional_text, text);
    SIZE(address);
    FIELD(address, urn);
    FIELD(address, name);
    SIZE(optional_address);
    FIELD(optional_address, present);
    FIELD(optional_address, address);
    SIZE(addresses);
    FIELD(addresses, list);
    FIELD(addresses, count);
    SIZE(optional_addresses);
    FIELD(optional_addresses, present);
    FIELD(optional_addresses, addresses);
    SIZE(front);
    FIELD(front, version);
    FIELD(front, compression);
    FIELD(front, originator);
    FIELD(front, recipients);
    FIELD(front, information);
}

/* Dates, times and stamps. */
static void moments(void)
{
    SIZE(date);
    FIELD(date, year);
    FIELD(date, month);
    FIELD(date, day);
    SIZE(time);
    FIELD(time, hour);
    FIELD(time, minute);
    FIELD(time, second);
    SIZE(dtg);
    FIELD(dtg, date);
    FIELD(dtg, time);
    SIZE(optional_dtg);
    FIELD(optional_dtg, present);
    FIELD(optional_dtg, dtg);
    SIZE(stamp);
    FIELD(stamp, dtg);
    FIELD(stamp, extension);
    SIZE(optional_stamp);
    FIELD(optional_stamp, present);
    FIELD(optional_stamp, stamp);
}

/* The fields of a block up to its marking. */
static void contents(void)
{
    SIZE(identity);
    FIELD(identity, fad);
    FIELD(identity, number);
    FIELD(identity, subtype);
    SIZE(optional_identity);
    FIELD(optional_identity, present);
    FIELD(optional_identity, identity);
    SIZE(format);
    FIELD(format, umf);
    FIELD(format, version);
    FIELD(format, identity);
    FIELD(format, file);
    SIZE(codes);
    FIELD(codes, operation);
    FIELD(codes, retransmit);
    FIELD(codes, precedence);
    FIELD(codes, classification);
    SIZE(handling);
    FIELD(handling, size);
    FIELD(handling, codes);
    FIELD(handling, marking);
}

/* What a block asks for, and what it answers. */
static void answering(void)
{
    SIZE(requests);
    FIELD(requests, machine);
    FIELD(requests, acknowledge);
    FIELD(requests, reply);
    SIZE(optional_requests);
    FIELD(optional_requests, present);
    FIELD(optional_requests, requests);
    SIZE(times);
    FIELD(times, origin);
    FIELD(times, perish);
    FIELD(times, requests);
    SIZE(compliance);
    FIELD(compliance, code);
    FIELD(compliance, cantco);
    FIELD(compliance, cantpro);
    SIZE(response);
    FIELD(response, stamp);
    FIELD(response, compliance);
    FIELD(response, amplification);
    SIZE(optional_response);
    FIELD(optional_response, present);
    FIELD(optional_response, response);
}

/* References, blocks, and the whole record. */
static void whole(void)
{
    SIZE(reference);
    FIELD(reference, address);
    FIELD(reference, stamp);
    SIZE(references);
    FIELD(references, list);
    FIELD(references, count);
    SIZE(optional_references);
    FIELD(optional_references, present);
    FIELD(optional_references, references);
    SIZE(block);
    FIELD(block, format);
    FIELD(block, handling);
    FIELD(block, times);
    FIELD(block, response);
    FIELD(block, references);
    SIZE(blocks);
    FIELD(blocks, list);
    FIELD(blocks, count);
    SIZE(header);
    FIELD(header, front);
    FIELD(header, sized);
    FIELD(header, blocks);
}

/* The table of pending messages. */
static void pending(void)
{
    SIZE(key);
    FIELD(key, address);
    FIELD(key, stamp);
    SIZE(recipient);
    FIELD(recipient, address);
    FIELD(recipient, machine);
    FIELD(recipient, acknowledge);
    FIELD(recipient, reply);
    SIZE(row);
    FIELD(row, key);
    FIELD(row, asked);
    FIELD(row, recipients);
    FIELD(row, count);
    SIZE(table);
    FIELD(table, rows);
    FIELD(table, count);
}

/* What the library's own functions answer. */
static void answers(void)
{
    SIZE(answer);
    FIELD(answer, number);
    FIELD(answer, block);
    FIELD(answer, place);
    SIZE(size_answer);
    FIELD(size_answer, number);
    FIELD(size_answer, block);
    FIELD(size_answer, place);
    FIELD(size_answer, length);
}

int main(void)
{
    parts();
    moments();
    contents();
    answering();
    whole();
    pending();
    answers();
    return 0;
}
