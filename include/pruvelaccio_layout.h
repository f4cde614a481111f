/*
 * The layout of the octets of a record and of a table: its number, and its places, asserted of the structs
 * of pruvelaccio.h, which includes this file behind them: the place of each field, counted from its struct's
 * first octet, its octets, and the octets of each struct. The library reads and changes what it is lent by
 * these numbers; a compiler that lays a struct out otherwise stops here. Written by layout/generate.py.
 */
#ifndef PRUVELACCIO_LAYOUT_H
#define PRUVELACCIO_LAYOUT_H

/* The number of this layout. Saved octets begin with it. */
#define PRUVELACCIO_LAYOUT 1

/*
 * The library's mark of the same number. Every file that includes this header asks for it, so that a program
 * and a library of different layouts do not link.
 */
uint32_t pruvelaccio_layout_1(void);
static uint32_t (*const pruvelaccio_layout_mark)(void) PRUVELACCIO_KEPT = pruvelaccio_layout_1;

/* The octets of what is lent to the library. */
#define PRUVELACCIO_RECORD_OCTETS 16312
#define PRUVELACCIO_TABLE_OCTETS 50948
#define PRUVELACCIO_KEY_OCTETS 112

#define PRUVELACCIO_STRUCT(type, octets) \
    PRUVELACCIO_ASSERT(sizeof(pruvelaccio_##type) == octets, "octets of " #type)
#define PRUVELACCIO_FIELD(type, field, place, octets)                                               \
    PRUVELACCIO_ASSERT(offsetof(pruvelaccio_##type, field) == place, "place of " #type "." #field); \
    PRUVELACCIO_ASSERT(sizeof(((pruvelaccio_##type *)0)->field) == octets, "octets of " #type "." #field)

PRUVELACCIO_STRUCT(optional_number, 8);
PRUVELACCIO_FIELD(optional_number, present, 0, 1);
PRUVELACCIO_FIELD(optional_number, value, 4, 4);

PRUVELACCIO_STRUCT(text, 68);
PRUVELACCIO_FIELD(text, chars, 0, 64);
PRUVELACCIO_FIELD(text, len, 64, 4);

PRUVELACCIO_STRUCT(optional_text, 72);
PRUVELACCIO_FIELD(optional_text, present, 0, 1);
PRUVELACCIO_FIELD(optional_text, text, 4, 68);

PRUVELACCIO_STRUCT(address, 80);
PRUVELACCIO_FIELD(address, urn, 0, 8);
PRUVELACCIO_FIELD(address, name, 8, 72);

PRUVELACCIO_STRUCT(optional_address, 84);
PRUVELACCIO_FIELD(optional_address, present, 0, 1);
PRUVELACCIO_FIELD(optional_address, address, 4, 80);

PRUVELACCIO_STRUCT(addresses, 1284);
PRUVELACCIO_FIELD(addresses, list, 0, 1280);
PRUVELACCIO_FIELD(addresses, count, 1280, 4);

PRUVELACCIO_STRUCT(optional_addresses, 1288);
PRUVELACCIO_FIELD(optional_addresses, present, 0, 1);
PRUVELACCIO_FIELD(optional_addresses, addresses, 4, 1284);

PRUVELACCIO_STRUCT(front, 2672);
PRUVELACCIO_FIELD(front, version, 0, 4);
PRUVELACCIO_FIELD(front, compression, 4, 8);
PRUVELACCIO_FIELD(front, originator, 12, 84);
PRUVELACCIO_FIELD(front, recipients, 96, 1288);
PRUVELACCIO_FIELD(front, information, 1384, 1288);

PRUVELACCIO_STRUCT(date, 12);
PRUVELACCIO_FIELD(date, year, 0, 4);
PRUVELACCIO_FIELD(date, month, 4, 4);
PRUVELACCIO_FIELD(date, day, 8, 4);

PRUVELACCIO_STRUCT(time, 12);
PRUVELACCIO_FIELD(time, hour, 0, 4);
PRUVELACCIO_FIELD(time, minute, 4, 4);
PRUVELACCIO_FIELD(time, second, 8, 4);

PRUVELACCIO_STRUCT(dtg, 24);
PRUVELACCIO_FIELD(dtg, date, 0, 12);
PRUVELACCIO_FIELD(dtg, time, 12, 12);

PRUVELACCIO_STRUCT(optional_dtg, 28);
PRUVELACCIO_FIELD(optional_dtg, present, 0, 1);
PRUVELACCIO_FIELD(optional_dtg, dtg, 4, 24);

PRUVELACCIO_STRUCT(stamp, 32);
PRUVELACCIO_FIELD(stamp, dtg, 0, 24);
PRUVELACCIO_FIELD(stamp, extension, 24, 8);

PRUVELACCIO_STRUCT(optional_stamp, 36);
PRUVELACCIO_FIELD(optional_stamp, present, 0, 1);
PRUVELACCIO_FIELD(optional_stamp, stamp, 4, 32);

PRUVELACCIO_STRUCT(identity, 16);
PRUVELACCIO_FIELD(identity, fad, 0, 4);
PRUVELACCIO_FIELD(identity, number, 4, 4);
PRUVELACCIO_FIELD(identity, subtype, 8, 8);

PRUVELACCIO_STRUCT(optional_identity, 20);
PRUVELACCIO_FIELD(optional_identity, present, 0, 1);
PRUVELACCIO_FIELD(optional_identity, identity, 4, 16);

PRUVELACCIO_STRUCT(format, 104);
PRUVELACCIO_FIELD(format, umf, 0, 4);
PRUVELACCIO_FIELD(format, version, 4, 8);
PRUVELACCIO_FIELD(format, identity, 12, 20);
PRUVELACCIO_FIELD(format, file, 32, 72);

PRUVELACCIO_STRUCT(codes, 16);
PRUVELACCIO_FIELD(codes, operation, 0, 4);
PRUVELACCIO_FIELD(codes, retransmit, 4, 4);
PRUVELACCIO_FIELD(codes, precedence, 8, 4);
PRUVELACCIO_FIELD(codes, classification, 12, 4);

PRUVELACCIO_STRUCT(handling, 96);
PRUVELACCIO_FIELD(handling, size, 0, 8);
PRUVELACCIO_FIELD(handling, codes, 8, 16);
PRUVELACCIO_FIELD(handling, marking, 24, 72);

PRUVELACCIO_STRUCT(requests, 3);
PRUVELACCIO_FIELD(requests, machine, 0, 1);
PRUVELACCIO_FIELD(requests, acknowledge, 1, 1);
PRUVELACCIO_FIELD(requests, reply, 2, 1);

PRUVELACCIO_STRUCT(optional_requests, 4);
PRUVELACCIO_FIELD(optional_requests, present, 0, 1);
PRUVELACCIO_FIELD(optional_requests, requests, 1, 3);

PRUVELACCIO_STRUCT(times, 68);
PRUVELACCIO_FIELD(times, origin, 0, 36);
PRUVELACCIO_FIELD(times, perish, 36, 28);
PRUVELACCIO_FIELD(times, requests, 64, 4);

PRUVELACCIO_STRUCT(compliance, 20);
PRUVELACCIO_FIELD(compliance, code, 0, 4);
PRUVELACCIO_FIELD(compliance, cantco, 4, 8);
PRUVELACCIO_FIELD(compliance, cantpro, 12, 8);

PRUVELACCIO_STRUCT(response, 124);
PRUVELACCIO_FIELD(response, stamp, 0, 32);
PRUVELACCIO_FIELD(response, compliance, 32, 20);
PRUVELACCIO_FIELD(response, amplification, 52, 72);

PRUVELACCIO_STRUCT(optional_response, 128);
PRUVELACCIO_FIELD(optional_response, present, 0, 1);
PRUVELACCIO_FIELD(optional_response, response, 4, 124);

PRUVELACCIO_STRUCT(reference, 112);
PRUVELACCIO_FIELD(reference, address, 0, 80);
PRUVELACCIO_FIELD(reference, stamp, 80, 32);

PRUVELACCIO_STRUCT(references, 452);
PRUVELACCIO_FIELD(references, list, 0, 448);
PRUVELACCIO_FIELD(references, count, 448, 4);

PRUVELACCIO_STRUCT(optional_references, 456);
PRUVELACCIO_FIELD(optional_references, present, 0, 1);
PRUVELACCIO_FIELD(optional_references, references, 4, 452);

PRUVELACCIO_STRUCT(block, 852);
PRUVELACCIO_FIELD(block, format, 0, 104);
PRUVELACCIO_FIELD(block, handling, 104, 96);
PRUVELACCIO_FIELD(block, times, 200, 68);
PRUVELACCIO_FIELD(block, response, 268, 128);
PRUVELACCIO_FIELD(block, references, 396, 456);

PRUVELACCIO_STRUCT(blocks, 13636);
PRUVELACCIO_FIELD(blocks, list, 0, 13632);
PRUVELACCIO_FIELD(blocks, count, 13632, 4);

PRUVELACCIO_STRUCT(header, 16312);
PRUVELACCIO_FIELD(header, front, 0, 2672);
PRUVELACCIO_FIELD(header, sized, 2672, 1);
PRUVELACCIO_FIELD(header, blocks, 2676, 13636);

PRUVELACCIO_STRUCT(key, 112);
PRUVELACCIO_FIELD(key, address, 0, 80);
PRUVELACCIO_FIELD(key, stamp, 80, 32);

PRUVELACCIO_STRUCT(recipient, 92);
PRUVELACCIO_FIELD(recipient, address, 0, 80);
PRUVELACCIO_FIELD(recipient, machine, 80, 4);
PRUVELACCIO_FIELD(recipient, acknowledge, 84, 4);
PRUVELACCIO_FIELD(recipient, reply, 88, 4);

PRUVELACCIO_STRUCT(row, 1592);
PRUVELACCIO_FIELD(row, key, 0, 112);
PRUVELACCIO_FIELD(row, asked, 112, 3);
PRUVELACCIO_FIELD(row, recipients, 116, 1472);
PRUVELACCIO_FIELD(row, count, 1588, 4);

PRUVELACCIO_STRUCT(table, 50948);
PRUVELACCIO_FIELD(table, rows, 0, 50944);
PRUVELACCIO_FIELD(table, count, 50944, 4);

#undef PRUVELACCIO_STRUCT
#undef PRUVELACCIO_FIELD

#endif
