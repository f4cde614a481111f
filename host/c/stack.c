/*
 * What each call takes of the stack, the wrapper for C included: the call is made on a thread whose stack was
 * painted, and what lost the paint is counted, less what a thread takes that does nothing. More than the header
 * promises is a failure.
 */
#define _DEFAULT_SOURCE
#include <pthread.h>
#include <stdio.h>
#include <stdlib.h>
#include <string.h>
#include <sys/mman.h>

#include "pruvelaccio.h"

#define STACK ((size_t)1 << 20)
#define PROMISED ((size_t)96 << 10)
#define PAINT 0x5A
#define LENGTH(list) (sizeof(list) / sizeof((list)[0]))

static const uint8_t message[] = {0xE2, 0x67, 0x00, 0x00, 0x1D, 0x00, 0x00, 0x00, 0x01,
                                  0x00, 0xC1, 0x37, 0xE0, 0x76, 0x33, 0x00, 0x01};
static const uint8_t receipt[] = {0xE2, 0x01, 0x00, 0x00, 0x7D, 0x06, 0x00, 0x00,
                                  0x01, 0x00, 0x08, 0xBE, 0x01, 0xB7, 0x5B, 0x00};

static pruvelaccio_header asking;
static pruvelaccio_header answering;
static pruvelaccio_header read_into;
static pruvelaccio_table table;
static uint8_t out[PRUVELACCIO_HEADER_OCTETS];
static uint8_t saved[PRUVELACCIO_SAVED_TABLE_OCTETS];

static void nothing(void)
{
}

static void reading(void)
{
    (void)pruvelaccio_read(message, sizeof(message), &read_into, NULL);
}

static void finding_data(void)
{
    (void)pruvelaccio_user_data(message, sizeof(message), NULL);
}

static void checking(void)
{
    (void)pruvelaccio_check(&asking, 1, NULL);
}

static void writing(void)
{
    (void)pruvelaccio_write(&asking, 1, out, sizeof(out), NULL);
}

static void posting(void)
{
    (void)pruvelaccio_post(&table, &asking, 1, 1);
}

static void receiving(void)
{
    (void)pruvelaccio_receipt(&table, &answering, 1, 0);
}

static void releasing(void)
{
    (void)pruvelaccio_release(&table, &table.rows[0].key);
}

static void listing(void)
{
    (void)pruvelaccio_list_row(&table, 1, out, sizeof(out), NULL);
}

static void emptying(void)
{
    static pruvelaccio_table other;
    pruvelaccio_empty(&other);
}

static void saving(void)
{
    (void)pruvelaccio_save_table(&table, saved, sizeof(saved), NULL);
}

static void loading(void)
{
    static pruvelaccio_table other;
    (void)pruvelaccio_load_table(&other, saved, sizeof(saved));
}

typedef struct call {
    const char *name;
    void (*make)(void);
} call;

/* Each finds what the ones before it left: a row to settle, to list and to take out, and a table saved. */
static const call calls[] = {
    {"read", reading},     {"user_data", finding_data}, {"check", checking},     {"write", writing},
    {"empty", emptying},   {"post", posting},           {"receipt", receiving},  {"list_row", listing},
    {"save", saving},      {"load", loading},           {"release", releasing},
};

static void *run(void *made)
{
    const call *one = made;
    one->make();
    return NULL;
}

static void required(const char *what, bool holds)
{
    if (!holds) {
        perror(what);
        exit(EXIT_FAILURE);
    }
}

/* The octets of a thread's stack that a call, and the thread itself, touched. */
static size_t touched(const call *one)
{
    static uint8_t *stack;
    pthread_t thread;
    pthread_attr_t attributes;
    if (stack == NULL) {
        stack = mmap(NULL, STACK, PROT_READ | PROT_WRITE, MAP_PRIVATE | MAP_ANONYMOUS, -1, 0);
        required("mmap", stack != MAP_FAILED);
    }
    memset(stack, PAINT, STACK);
    required("pthread_attr_init", pthread_attr_init(&attributes) == 0);
    required("pthread_attr_setstack", pthread_attr_setstack(&attributes, stack, STACK) == 0);
    required("pthread_create", pthread_create(&thread, &attributes, run, (void *)one) == 0);
    required("pthread_join", pthread_join(thread, NULL) == 0);
    pthread_attr_destroy(&attributes);
    size_t painted = 0;
    while (painted < STACK && stack[painted] == PAINT) {
        painted++;
    }
    return STACK - painted;
}

int main(void)
{
    static const call idle = {"nothing", nothing};
    bool kept = true;
    pruvelaccio_read(message, sizeof(message), &asking, NULL);
    pruvelaccio_read(receipt, sizeof(receipt), &answering, NULL);
    const size_t thread = touched(&idle);
    printf("stack:");
    for (size_t i = 0; i < LENGTH(calls); i++) {
        const size_t all = touched(&calls[i]);
        const size_t octets = all > thread ? all - thread : 0;
        printf(" %s %zu", calls[i].name, octets);
        kept = kept && octets <= PROMISED;
    }
    printf("; promised %zu\n", PROMISED);
    return kept && table.count == 0 ? EXIT_SUCCESS : EXIT_FAILURE;
}
