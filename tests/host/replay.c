/*
 * The program replay in C, over folderpink.h alone: reads a list of calls (docs/REPLAY.md) from
 * standard input and prints their answers. So the calls as C makes them are held to the answers
 * that the sample lists expect. At the end it says on standard error how many bytes of stack a
 * call used at most, and fails if these are more than the header says.
 */
#include <inttypes.h>
#include <stdbool.h>
#include <stdint.h>
#include <stdio.h>
#include <stdlib.h>
#include <string.h>

#include "folderpink.h"
#include "stack.h"

#define LINE_MAX_LENGTH 4096
#define FRAME_BYTES_MAX 512
#define LIST_MAX 450
#define RECORDS_MAX 70
#define ROOM_MAX 256
#define FILL 0xEE

/* A piece of a line. */
struct text {
    const uint8_t *at;
    size_t length;
};

enum kind {
    NOTHING,
    LOAD,
    START,
    RESTART,
    NOT_READY,
    READY,
    SET_RESULT,
    CLEAR_RESULT,
    SET_RECORD,
    CLEAR_RECORD,
    INVOKE,
    READ_ERROR,
    WRITE_ERROR,
    STOP,
    SHOW,
    SEND,
    DELIVER,
    CHECK,
};

/* The line's call: what it is asked with beside the clock and the entry, and what it answers. */
static struct {
    enum kind kind;
    uint32_t list[LIST_MAX];
    uint8_t bytes[LINE_MAX_LENGTH / 2];
    size_t length;
    struct folderpink_told told;
    uint8_t number;
} now;

/* All that stays between calls. */
static struct folderpink_record records[RECORDS_MAX];
static struct folderpink_call call;
static size_t lent = FOLDERPINK_CONNECTIONS_MAX;
static size_t room = FOLDERPINK_OUTPUT_MIN;
static size_t session;
static uint8_t output[ROOM_MAX];
static size_t stack_most;

/* ---- Words, numbers and bytes ---- */

static bool is(struct text text, const char *word)
{
    return text.length == strlen(word) && memcmp(text.at, word, text.length) == 0;
}

/* The bytes before the first space; the rest is what follows it, nothing where there is none. */
static struct text next_word(struct text *rest)
{
    struct text word = *rest;
    const uint8_t *space = rest->length == 0 ? NULL : memchr(rest->at, ' ', rest->length);

    if (space == NULL) {
        rest->length = 0;
        return word;
    }
    word.length = (size_t)(space - rest->at);
    rest->at = space + 1;
    rest->length -= word.length + 1;
    return word;
}

/* Decimal, without sign or leading zeros. */
static bool read_number(struct text word, uint64_t most, uint64_t *number)
{
    if (word.length == 0 || (word.length > 1 && word.at[0] == '0')) {
        return false;
    }
    *number = 0;
    for (size_t i = 0; i < word.length; i++) {
        const uint64_t digit = (uint64_t)word.at[i] - '0';

        if (digit > 9 || *number > (most - digit) / 10) {
            return false;
        }
        *number = 10 * *number + digit;
    }
    return true;
}

static bool read_digit(uint8_t character, unsigned *digit)
{
    if (character >= '0' && character <= '9') {
        *digit = character - '0';
        return true;
    }
    *digit = character - 'a' + 10u;
    return character >= 'a' && character <= 'f';
}

/* Lowercase hexadecimal, two digits a byte. */
static bool read_hex(struct text word, uint8_t *bytes)
{
    unsigned high;
    unsigned low;

    for (size_t i = 0; i < word.length / 2; i++) {
        if (!read_digit(word.at[2 * i], &high) || !read_digit(word.at[2 * i + 1], &low)) {
            return false;
        }
        bytes[i] = (uint8_t)(16 * high + low);
    }
    return word.length % 2 == 0;
}

/* `-` is no bytes. */
static bool read_bytes(struct text word, size_t most)
{
    now.length = word.length / 2;
    return is(word, "-") || (word.length > 0 && now.length <= most && read_hex(word, now.bytes));
}

/* Eight digits. */
static bool read_word(struct text word, uint32_t *read)
{
    uint8_t b[4];

    if (word.length != 8 || !read_hex(word, b)) {
        return false;
    }
    *read = (uint32_t)b[0] << 24 | (uint32_t)b[1] << 16 | (uint32_t)b[2] << 8 | b[3];
    return true;
}

/* After `load` a space and eight digits a word, and nothing else. */
static bool read_list(struct text line)
{
    now.length = (line.length - 4) / 9;
    if (line.length != 4 + 9 * now.length || now.length > LIST_MAX) {
        return false;
    }
    for (size_t i = 0; i < now.length; i++) {
        const uint8_t *space = line.at + 4 + 9 * i;

        if (*space != ' ' || !read_word((struct text){space + 1, 8}, &now.list[i])) {
            return false;
        }
    }
    return true;
}

/* ---- Lines ---- */

/* The calls that name an entry. */
static const struct {
    const char *word;
    enum kind kind;
} entry_calls[] = {
    {"start", START},        {"restart", RESTART},       {"notready", NOT_READY},
    {"ready", READY},        {"result", SET_RESULT},     {"noresult", CLEAR_RESULT},
    {"record", SET_RECORD},  {"norecord", CLEAR_RECORD}, {"invoke", INVOKE},
    {"readerr", READ_ERROR}, {"writeerr", WRITE_ERROR},  {"stop", STOP},
    {"show", SHOW},          {"send", SEND},
};

static enum kind kind_of(struct text word)
{
    for (size_t i = 0; i < sizeof entry_calls / sizeof entry_calls[0]; i++) {
        if (is(word, entry_calls[i].word)) {
            return entry_calls[i].kind;
        }
    }
    return NOTHING;
}

static bool lends_bytes(enum kind kind)
{
    return kind == SEND || kind == SET_RESULT || kind == SET_RECORD || kind == INVOKE ||
           kind == WRITE_ERROR;
}

/*
 * CLOCK ENTRY, the command word of an invoke, and the bytes that a call is lent. The last word is
 * all that is left of the line.
 */
static bool read_entry_call(struct text word, struct text rest)
{
    const enum kind kind = kind_of(word);
    const bool lends = lends_bytes(kind);
    const struct text clock = next_word(&rest);
    const struct text entry = lends ? next_word(&rest) : rest;

    now.kind = kind;
    return kind != NOTHING && read_number(clock, UINT64_MAX, &call.clock) &&
           read_number(entry, UINT32_MAX, &call.entry) &&
           (kind != INVOKE || read_word(next_word(&rest), &call.word)) &&
           (!lends || read_bytes(rest, kind == SEND ? sizeof now.bytes : FRAME_BYTES_MAX));
}

static bool read_deliver(struct text rest)
{
    const struct text clock = next_word(&rest);

    now.kind = DELIVER;
    call.entry = 0;
    return read_number(clock, UINT64_MAX, &call.clock) && read_bytes(rest, FRAME_BYTES_MAX);
}

static bool set(size_t *number, struct text word, uint64_t most)
{
    uint64_t read;
    const bool right = read_number(word, most, &read);

    *number = right ? read : *number;
    return right;
}

/* Whether the line has one of the forms. */
static bool read_call(struct text line)
{
    struct text rest = line;
    const struct text word = next_word(&rest);

    now.kind = NOTHING;
    if (line.length > LINE_MAX_LENGTH) {
        return false;
    }
    if (line.length == 0 || line.at[0] == '#') {
        return true;
    }
    if (is(word, "records")) {
        return set(&lent, rest, RECORDS_MAX);
    }
    if (is(word, "room")) {
        return set(&room, rest, ROOM_MAX);
    }
    if (is(word, "session")) {
        return set(&session, rest, UINT16_MAX);
    }
    if (is(word, "load")) {
        now.kind = LOAD;
        return read_list(line);
    }
    if (is(word, "check")) {
        now.kind = CHECK;
        return read_bytes(rest, FRAME_BYTES_MAX);
    }
    if (is(word, "deliver")) {
        return read_deliver(rest);
    }
    return read_entry_call(word, rest);
}

/* ---- Calls ---- */

static void make_call(void)
{
    switch (now.kind) {
    case NOTHING:
        break;
    case LOAD:
        now.told = folderpink_load(&call, records, lent, now.list, now.length);
        break;
    case START:
        now.told = folderpink_start(&call, records, lent);
        break;
    case RESTART:
        now.told = folderpink_restart(&call, records, lent);
        break;
    case NOT_READY:
    case READY:
        now.told = folderpink_set_not_ready(&call, records, lent);
        break;
    case SET_RESULT:
        now.told = folderpink_set_result(&call, records, lent, now.bytes, now.length);
        break;
    case CLEAR_RESULT:
        now.told = folderpink_clear_result(&call, records, lent);
        break;
    case SET_RECORD:
        now.told = folderpink_set_record(&call, records, lent, now.bytes, now.length);
        break;
    case CLEAR_RECORD:
        now.told = folderpink_clear_record(&call, records, lent);
        break;
    case INVOKE:
        now.told = folderpink_invoke(&call, records, lent, now.bytes, now.length);
        break;
    case READ_ERROR:
        now.told = folderpink_read_error(&call, records, lent);
        break;
    case WRITE_ERROR:
        now.told = folderpink_write_error(&call, records, lent, now.bytes, now.length);
        break;
    case STOP:
        now.told = folderpink_stop(&call, records, lent, output, room);
        break;
    case SHOW:
        now.told = folderpink_show(&call, records, lent, output, room);
        break;
    case SEND:
        now.told = folderpink_send(&call, records, lent, now.bytes, now.length, output, room);
        break;
    case DELIVER:
        now.told = folderpink_deliver(&call, records, lent, now.bytes, now.length, output, room);
        break;
    case CHECK:
        now.number = folderpink_check_frame(now.bytes, now.length);
        break;
    }
}

/* What the last call was asked with. */
static struct folderpink_call asked;

/* Whether a byte past those written was changed, or more of the call than its gateway. */
static bool is_dirty(size_t count)
{
    if (call.clock != asked.clock || call.entry != asked.entry || call.notready != asked.notready ||
        call.session != asked.session || call.word != asked.word) {
        return true;
    }
    for (size_t i = count; i < sizeof output; i++) {
        if (output[i] != FILL) {
            return true;
        }
    }
    return false;
}

static void print_told(const struct folderpink_told *told)
{
    printf("%u ", (unsigned)told->number);
    if (told->named) {
        printf("%zu", told->entry);
    } else {
        printf("-");
    }
    printf(" %zu %u ", told->count, (unsigned)told->failsafe);
    for (size_t i = 0; i < told->count && i < sizeof output; i++) {
        printf("%02x", output[i]);
    }
    printf("%s", told->count == 0 ? "-" : "");
    if (told->aged) {
        printf(" %" PRIu64, told->age);
    }
    printf("%s\n", is_dirty(told->count) ? " DIRTY" : "");
}

/* Makes the call on a painted stack, and prints what it answered. */
static void run_call(void)
{
    size_t used;

    if (now.kind == NOTHING) {
        return;
    }
    memset(output, FILL, sizeof output);
    call.notready = now.kind == NOT_READY;
    call.session = (uint16_t)session;
    asked = call;
    used = stack_used(make_call);
    stack_most = used > stack_most ? used : stack_most;
    if (now.kind == CHECK) {
        printf("%u\n", (unsigned)now.number);
        return;
    }
    print_told(&now.told);
}

/* Reads a line without its newline, of which one byte past the longest is kept; false at the end.
 */
static bool read_line(uint8_t *line, size_t *length)
{
    int byte;

    *length = 0;
    while ((byte = getchar()) != EOF && byte != '\n') {
        if (*length <= LINE_MAX_LENGTH) {
            line[(*length)++] = (uint8_t)byte;
        }
    }
    return byte != EOF || *length > 0;
}

int main(void)
{
    static uint8_t line[LINE_MAX_LENGTH + 1];
    size_t length;

    for (uint64_t place = 1; read_line(line, &length); place++) {
        if (read_call((struct text){line, length})) {
            run_call();
        } else {
            printf("? %" PRIu64 "\n", place);
        }
    }
    fprintf(stderr, "%zu bytes of stack\n", stack_most);
    return fflush(stdout) == 0 && stack_most <= FOLDERPINK_STACK ? EXIT_SUCCESS : EXIT_FAILURE;
}
