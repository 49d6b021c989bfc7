/*
 * Benchmark of one refresh exchange through folderpink.h beside the same in plain C: nanoseconds
 * of processor time with 1, 8 and 64 connections in Refresh at both ends, at 1 and 25 words.
 * The two are timed by turns in one run, the set-up apart, and the best round of each is taken.
 * Fails where an exchange takes so long that a record, the table of records or the check word's
 * table must be copied in a call again, which no proof would see.
 * Usage: exchange_bench [test]; test: no timing, both must show the same values.
 */
#define _POSIX_C_SOURCE 199309L

#include <inttypes.h>
#include <stdbool.h>
#include <stdint.h>
#include <stdio.h>
#include <stdlib.h>
#include <string.h>
#include <time.h>

#include "exchange_reference.h"
#include "folderpink.h"
#include "reference.h"
#include "subpdu.h"

#define LIST_MAX (FOLDERPINK_CONNECTION_WORDS * FOLDERPINK_CONNECTIONS_MAX)

#define ROUNDS 400
#define EXCHANGES_PER_ROUND 1920
/* Of 4 ticks each: longer than an offset of the clocks serves, so that each is measured anew. */
#define EXCHANGES_TESTED 9600

#define SESSION_NUMBER 7

/* With a record copied once more in each call an exchange of 1 word took 1.9 times C's. */
#define RATIO_MAX 1.75

/* So that the calls of a library are direct ones, and what joins them to a line costs nothing. */
#define INLINE static inline __attribute__((always_inline))

#define COUNT_OF(array) (sizeof(array) / sizeof((array)[0]))

enum end {
    MASTER,
    SLAVE,
};

struct answer {
    uint8_t number;
    size_t count;
    bool fail_safe;
    uint64_t age;
};

/* The calls that an exchange needs, on the gateway of either end. */
struct library {
    void (*load)(enum end end, size_t connections, const uint32_t *list);
    struct answer (*start)(enum end end, uint64_t clock, size_t n);
    struct answer (*send)(enum end end, uint64_t clock, size_t n, const uint8_t *value,
                          size_t length, uint8_t *out);
    struct answer (*deliver)(enum end end, uint64_t clock, const uint8_t *bytes, size_t length,
                             uint8_t *out);
    struct answer (*show)(enum end end, uint64_t clock, size_t n, uint8_t *out);
};

/* The master's next clock reading, how many values were shown, a sum, and the buffers. */
struct line {
    size_t connections;
    size_t width;
    size_t next;
    uint64_t clock;
    uint64_t shown;
    uint64_t sum;
    uint8_t value[FOLDERPINK_VALUE_MAX];
    uint8_t frame[FOLDERPINK_FRAME_MAX];
    uint8_t output[FOLDERPINK_FRAME_MAX];
};

static void stop(const char *reason)
{
    fprintf(stderr, "exchange_bench: %s\n", reason);
    exit(EXIT_FAILURE);
}

/* ---- The product ---- */

static struct {
    struct folderpink_record records[FOLDERPINK_CONNECTIONS_MAX];
    size_t lent;
    struct folderpink_call call;
} product_ends[2];

INLINE struct folderpink_call *product_call(enum end end, uint64_t clock, size_t n)
{
    struct folderpink_call *call = &product_ends[end].call;

    call->clock = clock;
    call->entry = n;
    return call;
}

INLINE struct answer product_answer(struct folderpink_told told)
{
    return (struct answer){told.number, told.count, told.failsafe != 0, told.age};
}

static void product_load(enum end end, size_t connections, const uint32_t *list)
{
    struct folderpink_told told;

    product_ends[end].lent = connections;
    product_ends[end].call.session = SESSION_NUMBER;
    told = folderpink_load(&product_ends[end].call, product_ends[end].records, connections, list,
                           7 * connections);
    if (told.number != FOLDERPINK_DONE) {
        stop("the list was refused");
    }
}

static struct answer product_start(enum end end, uint64_t clock, size_t n)
{
    return product_answer(folderpink_start(product_call(end, clock, n), product_ends[end].records,
                                           product_ends[end].lent));
}

INLINE struct answer product_send(enum end end, uint64_t clock, size_t n, const uint8_t *value,
                                  size_t length, uint8_t *out)
{
    return product_answer(folderpink_send(product_call(end, clock, n), product_ends[end].records,
                                          product_ends[end].lent, value, length, out,
                                          FOLDERPINK_FRAME_MAX));
}

INLINE struct answer product_deliver(enum end end, uint64_t clock, const uint8_t *bytes,
                                     size_t length, uint8_t *out)
{
    return product_answer(folderpink_deliver(product_call(end, clock, 0), product_ends[end].records,
                                             product_ends[end].lent, bytes, length, out,
                                             FOLDERPINK_FRAME_MAX));
}

INLINE struct answer product_show(enum end end, uint64_t clock, size_t n, uint8_t *out)
{
    return product_answer(folderpink_show(product_call(end, clock, n), product_ends[end].records,
                                          product_ends[end].lent, out, FOLDERPINK_FRAME_MAX));
}

static const struct library product = {
    product_load, product_start, product_send, product_deliver, product_show,
};

/* ---- Plain C ---- */

static struct reference_record reference_records[2][FOLDERPINK_CONNECTIONS_MAX];
static struct reference_gateway reference_ends[2];

INLINE struct answer reference_answer(struct reference_called called)
{
    return (struct answer){called.answer, called.count, called.fail_safe, called.age};
}

static void load_reference(enum end end, size_t connections, const uint32_t *list)
{
    reference_load(&reference_ends[end], reference_records[end], connections, SESSION_NUMBER, list,
                   7 * connections);
}

static struct answer start_reference(enum end end, uint64_t clock, size_t n)
{
    return reference_answer(reference_start(&reference_ends[end], clock, n));
}

INLINE struct answer send_reference(enum end end, uint64_t clock, size_t n, const uint8_t *value,
                                    size_t length, uint8_t *out)
{
    return reference_answer(
        reference_send(&reference_ends[end], clock, n, value, length, out, FOLDERPINK_FRAME_MAX));
}

INLINE struct answer deliver_reference(enum end end, uint64_t clock, const uint8_t *bytes,
                                       size_t length, uint8_t *out)
{
    return reference_answer(
        reference_deliver(&reference_ends[end], clock, bytes, length, out, FOLDERPINK_FRAME_MAX));
}

INLINE struct answer show_reference(enum end end, uint64_t clock, size_t n, uint8_t *out)
{
    return reference_answer(
        reference_show(&reference_ends[end], clock, n, out, FOLDERPINK_FRAME_MAX));
}

static const struct library reference = {
    load_reference, start_reference, send_reference, deliver_reference, show_reference,
};

/* ---- A line ---- */

/* The slave's clock reads 5,000 ticks more than the master's. */
INLINE uint64_t at_slave(uint64_t clock)
{
    return clock + 5000;
}

/* A settings list with words of one width both ways, and the longest timers. */
static void make_list(uint32_t *list, enum end end, size_t connections, uint32_t words)
{
    for (uint32_t i = 0; i < connections; i++) {
        list[7 * i] = 0x10000102u;
        list[7 * i + 1] = 0x20000103u + i;
        list[7 * i + 2] = 0x30000000u + (end == SLAVE ? 1024u : 0u) + 33 * words;
        list[7 * i + 3] = 0x4000FFFFu;
        list[7 * i + 4] = 0x5000FFFFu;
        list[7 * i + 5] = 0x6000FFFFu;
        list[7 * i + 6] = 0x70012345u;
    }
}

/* A setup request, with its reply. */
static void ask(const struct library *library, struct line *line, size_t n)
{
    struct answer answer;

    answer = library->send(MASTER, line->clock, n, line->value, 0, line->frame);
    answer =
        library->deliver(SLAVE, at_slave(line->clock + 1), line->frame, answer.count, line->output);
    library->deliver(MASTER, line->clock + 2, line->output, answer.count, line->frame);
    line->clock += 3;
}

/* Both ends loaded, and all connections brought to Refresh. */
static void set_up(const struct library *library, struct line *line, size_t connections,
                   uint32_t words)
{
    uint32_t list[LIST_MAX];

    *line = (struct line){.connections = connections, .width = 4 * words, .clock = 1};
    for (unsigned i = 0; i < FOLDERPINK_VALUE_MAX; i++) {
        line->value[i] = (uint8_t)(37 * i);
    }
    make_list(list, MASTER, connections, words);
    library->load(MASTER, connections, list);
    make_list(list, SLAVE, connections, words);
    library->load(SLAVE, connections, list);
    for (size_t n = 0; n < connections; n++) {
        library->start(MASTER, line->clock, n);
        line->clock++;
        for (unsigned request = 0; request < 5; request++) {
            ask(library, line, n);
        }
    }
}

/* Counts a value that was shown; the sum takes its first word, the 25th and its age. */
INLINE void count_shown(struct line *line, struct answer answer)
{
    if (answer.number == FOLDERPINK_DONE && !answer.fail_safe) {
        line->shown++;
    }
    line->sum = 31 * (line->sum & 0xFFFFFFFFu) + get_word(line->output) +
                get_word(line->output + 96) + answer.age;
}

/*
 * One exchange: the master sends, the slave takes and shows; then the other way. Where the master
 * measures the clocks in place of sending its value, it gets the slave's reply.
 */
INLINE void exchange(const struct library *library, struct line *line, size_t n)
{
    struct answer answer;
    uint64_t now = line->clock;

    put_word(line->value, (uint32_t)now);
    answer = library->send(MASTER, now, n, line->value, line->width, line->frame);
    now = at_slave(line->clock + 1);
    answer = library->deliver(SLAVE, now, line->frame, answer.count, line->output);
    if (answer.count > 0) {
        library->deliver(MASTER, line->clock + 2, line->output, answer.count, line->frame);
    }
    count_shown(line, library->show(SLAVE, now, n, line->output));

    now = at_slave(line->clock + 2);
    put_word(line->value, (uint32_t)now);
    answer = library->send(SLAVE, now, n, line->value, line->width, line->frame);
    now = line->clock + 3;
    library->deliver(MASTER, now, line->frame, answer.count, line->output);
    count_shown(line, library->show(MASTER, now, n, line->output));

    line->clock += 4;
}

/* So many exchanges, over the connections by turns. */
INLINE void exchange_all(const struct library *library, struct line *line, unsigned exchanges)
{
    for (unsigned i = 0; i < exchanges; i++) {
        exchange(library, line, line->next);
        line->next = line->next + 1 < line->connections ? line->next + 1 : 0;
    }
}

static void exchange_product(struct line *line, unsigned exchanges)
{
    exchange_all(&product, line, exchanges);
}

static void exchange_reference(struct line *line, unsigned exchanges)
{
    exchange_all(&reference, line, exchanges);
}

/* The sum, with all bytes of the output. */
static uint64_t total(const struct line *line)
{
    uint64_t sum = line->sum;

    for (size_t i = 0; i < sizeof line->output; i++) {
        sum += line->output[i];
    }
    return sum;
}

static void compare(const struct line *a, const struct line *b, uint64_t exchanges)
{
    if (a->shown != 2 * exchanges || b->shown != a->shown || total(a) != total(b)) {
        stop("the two did not show the same values");
    }
}

/* ---- Test and benchmark ---- */

static struct line product_line;
static struct line reference_line;

static void set_up_both(size_t connections, uint32_t words)
{
    set_up(&product, &product_line, connections, words);
    set_up(&reference, &reference_line, connections, words);
}

static void test(size_t connections, uint32_t words)
{
    set_up_both(connections, words);
    exchange_product(&product_line, EXCHANGES_TESTED);
    exchange_reference(&reference_line, EXCHANGES_TESTED);
    compare(&product_line, &reference_line, EXCHANGES_TESTED);
    printf("exchange: connections %zu, words %u, exchanges %u, shown %" PRIu64 ", sum %" PRIu64
           ", the same in C\n",
           connections, words, EXCHANGES_TESTED, product_line.shown, total(&product_line));
}

static double now_ns(void)
{
    struct timespec now;

    clock_gettime(CLOCK_PROCESS_CPUTIME_ID, &now);
    return 1e9 * (double)now.tv_sec + (double)now.tv_nsec;
}

static double time_round(void (*run)(struct line *, unsigned), struct line *line)
{
    const double start = now_ns();

    run(line, EXCHANGES_PER_ROUND);
    return (now_ns() - start) / EXCHANGES_PER_ROUND;
}

static double smaller(double a, double b)
{
    return a < b ? a : b;
}

static bool is_slow;

static void bench(size_t connections, uint32_t words)
{
    double product_ns = 1e12;
    double reference_ns = 1e12;

    set_up_both(connections, words);
    for (uint64_t round = 1; round <= ROUNDS; round++) {
        product_ns = smaller(product_ns, time_round(exchange_product, &product_line));
        reference_ns = smaller(reference_ns, time_round(exchange_reference, &reference_line));
        compare(&product_line, &reference_line, round * EXCHANGES_PER_ROUND);
    }
    printf("exchange, connections %zu, words %u: product %.0f ns, C %.0f ns, ratio %.2f\n",
           connections, words, product_ns, reference_ns, product_ns / reference_ns);
    is_slow = is_slow || product_ns > RATIO_MAX * reference_ns;
}

int main(int argc, char **argv)
{
    static const size_t connections[] = {1, 8, 64};
    static const uint32_t words[] = {1, 25};
    const bool tested = argc == 2 && strcmp(argv[1], "test") == 0;

    if (argc != 1 && !tested) {
        stop("usage: exchange_bench [test]");
    }
    reference_init();
    for (size_t i = 0; i < COUNT_OF(connections); i++) {
        for (size_t j = 0; j < COUNT_OF(words); j++) {
            (tested ? test : bench)(connections[i], words[j]);
        }
    }
    if (is_slow) {
        stop("a ratio is above 1.75: is a record or a table copied?");
    }
    return EXIT_SUCCESS;
}
