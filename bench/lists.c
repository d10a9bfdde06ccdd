/* The lister, the equation call and the verdict call beside a plain C program (peer.h): lists are compared
 * entry by entry and verdicts set by set, both are timed on the same cards in this process, and the stack
 * that the calls use is measured.
 */
#include <pthread.h>
#include <string.h>

#include "bench.h"
#include "bridgecrumb.h"
#include "chance.h"
#include "job.h"
#include "peer.h"

#define BEST_OF 40
#define STACK_LIMIT (64 * 1024)
#define SETS 4096

/* ---- the cards */

/* each bit of each column by a coin */
static void dense(uint8_t *card, int k, int m)
{
    card[0] = k;
    card[1] = m;
    for (int j = 0; j < m; j++) {
        uint32_t column;
        do
            column = pseudo_random() & (((uint32_t)1 << k) - 1);
        while (column == 0);
        put_column(card, j, column);
    }
}

static void chain(uint8_t *card, int k)
{
    card[0] = k;
    card[1] = k;
    put_chain(card, k);
}

/* ---- the comparison, the times and the stack */

static uint32_t peers[ENTRIES], engines[ENTRIES];

/* seconds of one run, and the least of all runs so far */
struct times {
    double peer, engine;
};

static void keep_least(struct times *least, double start, double middle, double end)
{
    least->peer = least_of(least->peer, middle - start);
    least->engine = least_of(least->engine, end - middle);
}

/* both wrote the same, past the count too */
static void same_lists(uint64_t answer, size_t count)
{
    if (BRIDGECRUMB_NUMBER(answer) != 0 || BRIDGECRUMB_VALUE(answer) != count)
        stop("the counts differ");
    for (size_t e = 0; e < ENTRIES; e++)
        if (peers[e] != engines[e])
            stop("the lists differ");
}

static double print_row(const char *name, const uint8_t *card, size_t count, struct times t)
{
    printf("%-14s %3d %3d %8zu %10.3f %10.3f %8.2f\n", name, card[0], card[1], count, t.peer * 1e3, t.engine * 1e3, t.peer / t.engine);
    fflush(stdout);
    return t.peer / t.engine;
}

static double compare_lists(const char *name, const uint8_t *card)
{
    size_t length = 2 + 2 * (size_t)card[1], peers_vector[17], engines_vector[17], count = 0;
    struct times least = {1e9, 1e9};
    for (int run = 0; run < BEST_OF; run++) {
        memset(peers, 0xff, sizeof peers);
        memset(engines, 0xff, sizeof engines);
        double start = now();
        count = peer_list(card, peers, peers_vector);
        double middle = now();
        uint64_t answer = bridgecrumb_list(false, card, length, engines, ENTRIES, engines_vector);
        keep_least(&least, start, middle, now());
        same_lists(answer, count);
        for (int i = 0; i < 17; i++)
            if (peers_vector[i] != engines_vector[i])
                stop("the vectors differ");
    }
    return print_row(name, card, count, least);
}

static double compare_equations(const char *name, const uint8_t *card, int disk)
{
    size_t length = 2 + 2 * (size_t)card[1], count = 0;
    struct times least = {1e9, 1e9};
    for (int run = 0; run < BEST_OF; run++) {
        memset(peers, 0xff, sizeof peers);
        memset(engines, 0xff, sizeof engines);
        double start = now();
        count = peer_equations(card, disk, peers);
        double middle = now();
        uint64_t answer = bridgecrumb_equations(false, card, length, disk, engines, ENTRIES);
        keep_least(&least, start, middle, now());
        same_lists(answer, count);
    }
    return print_row(name, card, count, least);
}

/* the verdicts on SETS sets of m disks */
static double compare_verdicts(const char *name, const uint8_t *card)
{
    static uint32_t sets[SETS], peers_say[SETS];
    static uint64_t engines_say[SETS];
    size_t length = 2 + 2 * (size_t)card[1], fatal = 0;
    int n = card[0] + card[1];
    struct times least = {1e9, 1e9};
    for (int i = 0; i < SETS; i++)
        for (sets[i] = 0; __builtin_popcount(sets[i]) < card[1];)
            sets[i] |= (uint32_t)1 << pseudo_random() % n;
    for (int run = 0; run < BEST_OF; run++) {
        double start = now();
        for (int i = 0; i < SETS; i++)
            peers_say[i] = peer_verdict(card, sets[i]);
        double middle = now();
        for (int i = 0; i < SETS; i++)
            engines_say[i] = bridgecrumb_verdict(false, card, length, sets[i]);
        keep_least(&least, start, middle, now());
        fatal = 0;
        for (int i = 0; i < SETS; i++) {
            if (engines_say[i] != 256 * (uint64_t)peers_say[i])
                stop("the verdicts differ");
            fatal += peers_say[i] != 0;
        }
    }
    return print_row(name, card, fatal, least);
}

/* a refused call answers its number and writes nothing; a verdict agrees with the list */
static void check_answers(const uint8_t *card)
{
    size_t length = 2 + 2 * (size_t)card[1], vector[17];
    uint32_t out[1] = {7};
    memset(vector, 0x55, sizeof vector);
    uint64_t full = bridgecrumb_list(false, card, length, engines, ENTRIES, (size_t[17]){0});
    if (bridgecrumb_list(false, card, length, out, 1, vector) != 10 + 256 * BRIDGECRUMB_VALUE(full))
        stop("a short slice is not refused by 10");
    if (bridgecrumb_list(false, card, length - 1, out, 1, vector) != 4)
        stop("a short card is not refused by 4");
    for (int i = 0; i < 17; i++)
        if (vector[i] != 0x5555555555555555)
            stop("a refused call wrote the vector");
    if (out[0] != 7)
        stop("a refused call wrote the slice");
    uint8_t bad[34];
    memcpy(bad, card, length);
    put_column(bad, 3, 0);
    if (bridgecrumb_list(false, bad, length, out, 1, vector) != 5 + 256 * 3 || bridgecrumb_verdict(false, bad, length, 0) != 5 + 256 * 3)
        stop("an empty column is not named");
    if (bridgecrumb_equations(false, card, length, card[0] + card[1], out, 1) != 9 || out[0] != 7)
        stop("a disk that the code lacks is not refused by 9");
    if (bridgecrumb_verdict(false, card, length, engines[0]) != 256 * (uint64_t)engines[0])
        stop("a disk of an entry is determined");
    if (bridgecrumb_verdict(false, card, length, engines[0] & (engines[0] - 1)) != 0)
        stop("an entry without a disk is fatal");
}

/* A thread on a stack of our own, filled with a pattern: what lies between the caller's frame and the
 * deepest byte that has changed once the call is back is what the call used, or a little more. */
static uint8_t stack[1024 * 1024] __attribute__((aligned(4096)));
static const uint8_t *stack_card;

static size_t used_below(const uint8_t *frame)
{
    const uint8_t *deepest = stack;
    while (*deepest == 0xa5)
        deepest++;
    return (size_t)(frame - deepest);
}

static void *call_list(void *used)
{
    static size_t vector[17];
    bridgecrumb_list(false, stack_card, 2 + 2 * (size_t)stack_card[1], engines, ENTRIES, vector);
    *(size_t *)used = used_below(__builtin_frame_address(0));
    return NULL;
}

static void *call_equations(void *used)
{
    bridgecrumb_equations(false, stack_card, 2 + 2 * (size_t)stack_card[1], 0, engines, ENTRIES);
    *(size_t *)used = used_below(__builtin_frame_address(0));
    return NULL;
}

static void *call_verdict(void *used)
{
    bridgecrumb_verdict(false, stack_card, 2 + 2 * (size_t)stack_card[1], 0xffff);
    *(size_t *)used = used_below(__builtin_frame_address(0));
    return NULL;
}

static void *call_least_wear(void *used)
{
    bridgecrumb_least_wear(false, stack_card, 2 + 2 * (size_t)stack_card[1], 0, 0);
    *(size_t *)used = used_below(__builtin_frame_address(0));
    return NULL;
}

static size_t stack_of(void *(*call)(void *), const uint8_t *card)
{
    pthread_attr_t attributes;
    pthread_t thread;
    size_t used = 0;
    stack_card = card;
    memset(stack, 0xa5, sizeof stack);
    if (pthread_attr_init(&attributes) || pthread_attr_setstack(&attributes, stack, sizeof stack) || pthread_create(&thread, &attributes, call, &used)
        || pthread_join(thread, NULL))
        stop("no thread");
    pthread_attr_destroy(&attributes);
    return used;
}

void bench_lists(void)
{
    static uint8_t cards[7][34];
    double lists = 1e9, equations = 1e9, verdicts = 1e9;
    dense(cards[0], 16, 16);
    dense(cards[1], 16, 16);
    dense(cards[2], 16, 16);
    dense(cards[3], 16, 8);
    dense(cards[4], 12, 4);
    dense(cards[5], 8, 8);
    chain(cards[6], 16);
    printf("%-14s %3s %3s %8s %10s %10s %8s\n", "list, card", "k", "m", "entries", "peer ms", "engine ms", "ratio");
    for (int c = 0; c < 7; c++) {
        double ratio = compare_lists(c < 6 ? "dense" : "chain", cards[c]);
        if (c < 3)
            lists = least_of(lists, ratio);
    }
    printf("%-14s %3s %3s %8s %10s %10s %8s\n", "equations of", "k", "m", "entries", "peer ms", "engine ms", "ratio");
    for (int c = 0; c < 3; c++) {
        equations = least_of(equations, compare_equations("dense, data", cards[c], 0));
        equations = least_of(equations, compare_equations("dense, parity", cards[c], 31));
    }
    compare_equations("chain, data", cards[6], 0);
    printf("%-14s %3s %3s %8s %10s %10s %8s\n", "4096 verdicts", "k", "m", "fatal", "peer ms", "engine ms", "ratio");
    for (int c = 0; c < 7; c++) {
        double ratio = compare_verdicts(c < 6 ? "dense" : "chain", cards[c]);
        verdicts = least_of(verdicts, ratio);
    }
    printf("best of %d runs each; every run's lists, vectors and verdicts are equal\n", BEST_OF);
    printf("dense k = m = 16: the lister is at least %.2f times as fast as the peer, the equation call %.2f times\n", lists, equations);
    printf("the verdict call is at least %.2f times as fast as the peer, which checks no card\n", verdicts);
    check_answers(cards[0]);
    size_t list = stack_of(call_list, cards[0]), told = stack_of(call_equations, cards[0]), verdict = stack_of(call_verdict, cards[0]);
    size_t least = stack_of(call_least_wear, cards[0]);
    printf("stack: bridgecrumb_list %zu bytes, bridgecrumb_equations %zu bytes, bridgecrumb_verdict %zu bytes, bridgecrumb_least_wear %zu bytes\n",
           list, told, verdict, least);
    if (list >= STACK_LIMIT || told >= STACK_LIMIT || least >= STACK_LIMIT)
        stop("a call uses 64 KiB of stack or more");
}
