/*
 * The calls of an exchange in plain C, written from documents 01 and 02: the baseline of the
 * exchange benchmark. A gateway is passed by pointer. Stop, restart, stations that are not
 * ready, commands and their results, and the tests of a settings list are left out: no exchange
 * meets them.
 */
#include "exchange_reference.h"

#include <string.h>

#include "folderpink.h"
#include "reference.h"
#include "subpdu.h"

#define SETUP_DATA_MAX 16
#define REQUESTS_MAX 45

/* In ticks: when a master measures again, how long an offset serves, how far ahead drift leads. */
#define MEASUREMENT_INTERVAL 10000u
#define OFFSET_LIFE 30000u
#define DRIFT_MAX 3u

#define STAMP_SPAN ((uint64_t)1 << 48)
#define STAMP_HALF ((uint64_t)1 << 47)

struct fields {
    uint32_t ctrl;
    uint32_t cid;
    uint64_t stamp;
    uint16_t obl;
};

static struct reference_called gives(uint8_t answer, int entry, size_t count)
{
    return (struct reference_called){
        .answer = answer, .entry = entry, .count = count, .fail_safe = false, .age = 0};
}

/* ---- Time ---- */

static bool is_above(struct reference_stamp last, uint64_t stamp)
{
    return !last.known || last.at < stamp;
}

static struct reference_stamp at(uint64_t stamp)
{
    return (struct reference_stamp){.known = true, .at = stamp};
}

/* A record's clock in the master's. */
static uint64_t master_time(const struct reference_record *record, uint64_t clock)
{
    return (record->slave ? clock + record->offset : clock) % STAMP_SPAN;
}

static bool is_setup(enum folderpink_state state)
{
    return state > FOLDERPINK_CLOSE && state < FOLDERPINK_REFRESH;
}

static uint64_t ticks_since(uint64_t start, uint64_t clock)
{
    return clock < start ? 0 : clock - start;
}

/* The timer has expired, or a slave's offset is too old. */
static bool is_expired(const struct reference_record *record, uint64_t clock)
{
    const uint64_t passed = ticks_since(record->since, clock);

    if (record->state == FOLDERPINK_REFRESH) {
        return passed > record->interval ||
               (record->slave && ticks_since(record->reference, clock) > OFFSET_LIFE);
    }
    return is_setup(record->state) && passed > record->round_trip;
}

/* A measurement in Refresh whose next step is late. */
static bool is_stale(const struct reference_record *record, uint64_t clock)
{
    if (record->state != FOLDERPINK_REFRESH || (!record->pending.known && !record->answered)) {
        return false;
    }
    return ticks_since(record->pending.known ? record->pending.at : record->measured, clock) >
           record->round_trip;
}

static void drop_measurement(struct reference_record *record)
{
    record->pending.known = false;
    record->answered = false;
}

static void end(struct reference_record *record)
{
    record->state = FOLDERPINK_TERMINATE;
    record->taken = false;
    memset(record->value, 0, FOLDERPINK_VALUE_MAX);
}

static bool is_reading(const struct reference_gateway *gateway, uint64_t clock)
{
    return clock <= FOLDERPINK_CLOCK_MAX && (!gateway->last.known || gateway->last.at <= clock);
}

/* Ends every connection that has expired, the bit of each such entry is set; drops measurements. */
static uint64_t clock_step(struct reference_gateway *gateway, uint64_t clock)
{
    uint64_t ended = 0;

    gateway->last = at(clock);
    for (size_t i = 0; i < gateway->count; i++) {
        struct reference_record *record = &gateway->records[i];

        if (is_expired(record, clock)) {
            end(record);
            ended |= (uint64_t)1 << i;
        } else if (is_stale(record, clock)) {
            drop_measurement(record);
        }
    }
    return ended;
}

/* Numbers 1, and 2 for too few records; else the clock step, and the entries that it ended. */
static uint8_t begin(struct reference_gateway *gateway, uint64_t clock, uint64_t *ended)
{
    if (!is_reading(gateway, clock)) {
        return FOLDERPINK_CLOCK;
    }
    if (gateway->lent < gateway->count) {
        return FOLDERPINK_BUFFER;
    }
    *ended = clock_step(gateway, clock);
    return FOLDERPINK_DONE;
}

/* ---- Frames ---- */

/* Writes both SubPDUs; returns the length of the frame. */
static size_t write_frame(uint8_t *out, const struct fields *fields, const uint8_t *data,
                          size_t length)
{
    const size_t covered = AT_DATA + length;
    const size_t half = covered + WORD_SIZE;

    put_word(out + AT_CTRL, fields->ctrl);
    put_word(out + AT_CID, fields->cid);
    put_word(out + AT_TCODE_OBL, (uint32_t)(fields->stamp & 0xFFFFu) << 16 | fields->obl);
    put_word(out + AT_CC, (uint32_t)(fields->stamp >> 16));
    put_word(out + AT_RSV, 0);
    memcpy(out + AT_DATA, data, length);
    put_word(out + covered, reference_crc32c(out, covered));
    memcpy(out + half, out, half);
    return 2 * half;
}

static uint32_t session_of(const struct fields *fields)
{
    return fields->ctrl & SESSION;
}

static bool has_sequence(const struct fields *fields)
{
    return (fields->ctrl & OFFSET_OP_SEQ) != 0;
}

static struct fields read_fields(const uint8_t *frame)
{
    const uint32_t time = get_word(frame + AT_TCODE_OBL);

    return (struct fields){
        .ctrl = get_word(frame + AT_CTRL),
        .cid = get_word(frame + AT_CID),
        .stamp = (uint64_t)get_word(frame + AT_CC) << 16 | time >> 16,
        .obl = (uint16_t)time,
    };
}

/* ---- Setup, and measurements of the clocks in Refresh ---- */

/*
 * The command that leads out of each setup state; a slave's Close stands for Starting. In Refresh
 * a measurement's next.
 */
static uint32_t command_due(const struct reference_record *record)
{
    switch (record->state) {
    case FOLDERPINK_ESTABLISH_PENDING:
        return S_INIT_CONFIRM_NET_PRM;
    case FOLDERPINK_ESTABLISH:
        return S_INIT_VERIFY_STN_PRM;
    case FOLDERPINK_PARAM_VERIFY:
        return S_REFRESH_READY;
    case FOLDERPINK_REFRESH_PENDING:
        return S_REFRESH_GO;
    case FOLDERPINK_REFRESH:
        return record->answered ? S_REFRESH_GO : S_REFRESH_MO;
    default:
        return S_CONNECT;
    }
}

static enum folderpink_state state_after(uint32_t command)
{
    switch (command) {
    case S_CONNECT:
        return FOLDERPINK_ESTABLISH_PENDING;
    case S_INIT_CONFIRM_NET_PRM:
        return FOLDERPINK_ESTABLISH;
    case S_INIT_VERIFY_STN_PRM:
        return FOLDERPINK_PARAM_VERIFY;
    case S_REFRESH_READY:
        return FOLDERPINK_REFRESH_PENDING;
    case S_REFRESH_GO:
        return FOLDERPINK_REFRESH;
    default:
        return FOLDERPINK_TERMINATE;
    }
}

static bool is_measurement(uint32_t command)
{
    return command == S_REFRESH_MO || command == S_REFRESH_GO;
}

static bool takes(const struct reference_record *record, uint32_t command)
{
    const enum folderpink_state state = record->state;

    if (command == S_DISCONNECT) {
        return state != FOLDERPINK_CLOSE && state != FOLDERPINK_TERMINATE;
    }
    if (command == S_CONNECT) {
        return state == FOLDERPINK_CLOSE || state == FOLDERPINK_ESTABLISH_PENDING;
    }
    if (state == FOLDERPINK_REFRESH) {
        return is_measurement(command);
    }
    return is_setup(state) && command == command_due(record);
}

/* Offset op seq of the measurement under way: setup's has none. */
static bool sequence_of(const struct reference_record *record)
{
    return record->state == FOLDERPINK_REFRESH && record->sequence;
}

/* S-RefreshGO closes the measurement under way, and no other. */
static bool is_stray(const struct reference_record *record, const struct fields *fields)
{
    if (fields->ctrl >> 24 != S_REFRESH_GO) {
        return false;
    }
    return (record->state == FOLDERPINK_REFRESH && !record->answered) ||
           has_sequence(fields) != sequence_of(record);
}

/* The data of a request; returns its length. */
static size_t setup_data(const struct reference_record *record, uint32_t command, uint8_t *data)
{
    switch (command) {
    case S_INIT_CONFIRM_NET_PRM:
        put_word(data, record->interval);
        put_word(data + 4, record->round_trip);
        put_word(data + 8, record->age);
        put_word(data + 12, 32u * record->master_words + record->slave_words);
        return 16;
    case S_CONNECT:
        put_word(data, 1);
        return 4;
    case S_INIT_VERIFY_STN_PRM:
        put_word(data, record->station);
        return 4;
    default:
        put_word(data, 0);
        return 4;
    }
}

static size_t send_request(struct reference_record *record, uint64_t clock, uint64_t stamp,
                           uint8_t *out)
{
    const uint32_t command = command_due(record);
    const bool go = command == S_REFRESH_GO;
    struct fields fields = {
        .ctrl = command << 24 | (command == S_CONNECT ? 0 : record->session),
        .cid = record->cid,
        .stamp = stamp,
        .obl = go ? (uint16_t)(clock - record->measured) : 0,
    };
    uint8_t data[SETUP_DATA_MAX];
    const size_t length = setup_data(record, command, data);

    if (command == S_REFRESH_MO) {
        record->sequence = !record->sequence;
        record->reference = clock;
    }
    if (record->state != FOLDERPINK_REFRESH) {
        record->since = clock;
        record->requests++;
    }
    record->sent = at(stamp);
    record->pending = at(stamp);
    fields.ctrl |= sequence_of(record) ? OFFSET_OP_SEQ : 0;
    return write_frame(out, &fields, data, length);
}

/* A request at a slave, with its reply. */
static struct reference_called take_request(struct reference_record *record, int entry,
                                            uint64_t clock, const struct fields *fields,
                                            const uint8_t *data, size_t length, uint8_t *out)
{
    const uint32_t command = fields->ctrl >> 24;
    struct fields reply = {
        .ctrl = command << 24 | ACK | APPLICATION | record->session |
                (fields->ctrl & OFFSET_OP_SEQ),
        .cid = record->cid,
        .stamp = fields->stamp,
        .obl = 0,
    };
    uint8_t due[SETUP_DATA_MAX];
    const size_t due_length = setup_data(record, command, due);

    if (!takes(record, command)) {
        return gives(FOLDERPINK_TURN, entry, 0);
    }
    if (command != S_CONNECT && session_of(fields) != record->session) {
        return gives(FOLDERPINK_SESSION, entry, 0);
    }
    if (length != due_length) {
        return gives(FOLDERPINK_WIDTH, entry, 0);
    }
    if (!is_above(record->accepted, fields->stamp) || is_stray(record, fields)) {
        return gives(FOLDERPINK_REPEAT, entry, 0);
    }
    record->accepted = at(fields->stamp);
    if (command == S_DISCONNECT) {
        end(record);
        return gives(FOLDERPINK_DONE, entry, 0);
    }
    if (memcmp(data, due, length) != 0) {
        end(record);
        reply.ctrl |= ERROR;
        return gives(FOLDERPINK_UNEQUAL, entry, write_frame(out, &reply, data, length));
    }
    if (command == S_REFRESH_READY || command == S_REFRESH_MO) {
        record->measured = clock;
    }
    if (command == S_REFRESH_GO) {
        record->offset = (fields->stamp - fields->obl - record->measured) % STAMP_SPAN;
        record->reference = record->measured;
    }
    record->answered = command == S_REFRESH_MO;
    record->sequence = has_sequence(fields);
    if (record->state != FOLDERPINK_REFRESH) {
        record->state = state_after(command);
        record->since = clock;
        record->taken = false;
        memset(record->value, 0, FOLDERPINK_VALUE_MAX);
    }
    return gives(FOLDERPINK_DONE, entry, write_frame(out, &reply, data, length));
}

/* The session number comes with the reply to S-Connect, any one; later replies repeat it. */
static bool is_session(const struct reference_record *record, const struct fields *fields)
{
    if (fields->ctrl >> 24 == S_CONNECT) {
        return session_of(fields) != 0;
    }
    return session_of(fields) == record->session;
}

/* In setup the reply to the pending request, in Refresh a measurement's. */
static bool hears(const struct reference_record *record, uint32_t command)
{
    if (record->state == FOLDERPINK_REFRESH) {
        return is_measurement(command);
    }
    return is_setup(record->state) && record->pending.known && command == command_due(record);
}

/* The reply that is awaited: of the measurement under way, and of its last step. */
static bool is_awaited(const struct reference_record *record, const struct fields *fields)
{
    return record->pending.known && record->pending.at == fields->stamp &&
           command_due(record) == fields->ctrl >> 24 &&
           sequence_of(record) == has_sequence(fields);
}

/* A reply at a master. */
static struct reference_called take_reply(struct reference_record *record, int entry,
                                          uint64_t clock, const struct fields *fields,
                                          const uint8_t *data, size_t length)
{
    const uint32_t command = fields->ctrl >> 24;
    uint8_t due[SETUP_DATA_MAX];
    const size_t due_length = setup_data(record, command, due);

    if (!(fields->ctrl & ACK) || !hears(record, command)) {
        return gives(FOLDERPINK_TURN, entry, 0);
    }
    if (!is_session(record, fields)) {
        return gives(FOLDERPINK_SESSION, entry, 0);
    }
    if (length != due_length) {
        return gives(FOLDERPINK_WIDTH, entry, 0);
    }
    if (!is_awaited(record, fields)) {
        return gives(FOLDERPINK_REPEAT, entry, 0);
    }
    if ((fields->ctrl & ERROR) || memcmp(data, due, length) != 0) {
        end(record);
        return gives(FOLDERPINK_UNEQUAL, entry, 0);
    }
    if (command == S_REFRESH_READY || command == S_REFRESH_MO) {
        record->measured = clock;
    }
    record->answered = command == S_REFRESH_MO;
    record->pending.known = false;
    if (record->state != FOLDERPINK_REFRESH) {
        record->session = session_of(fields);
        record->state = state_after(command);
        record->since = clock;
        record->sequence = false;
        record->reference = clock;
    }
    return gives(FOLDERPINK_DONE, entry, 0);
}

/* ---- Refresh ---- */

static size_t send_width(const struct reference_record *record)
{
    return 4u * (record->slave ? record->slave_words : record->master_words);
}

static size_t show_width(const struct reference_record *record)
{
    return 4u * (record->slave ? record->master_words : record->slave_words);
}

/* A master's measurement goes first: S-RefreshGO when it is due, S-RefreshMO in its time. */
static bool is_value_due(const struct reference_record *record, uint64_t clock)
{
    if (record->slave || record->pending.known) {
        return true;
    }
    return !record->answered && ticks_since(record->reference, clock) < MEASUREMENT_INTERVAL;
}

static size_t send_refresh(struct reference_record *record, uint64_t stamp, const uint8_t *value,
                           size_t length, uint8_t *out)
{
    const struct fields fields = {
        .ctrl = S_REFRESH << 24 | (record->slave ? APPLICATION : 0) | record->session,
        .cid = record->cid,
        .stamp = stamp,
        .obl = 0,
    };

    record->sent = at(stamp);
    return write_frame(out, &fields, value, length);
}

static struct reference_called take_refresh(struct reference_record *record, int entry,
                                            uint64_t clock, const struct fields *fields,
                                            const uint8_t *data, size_t length)
{
    const uint64_t stamp = fields->stamp;
    const uint64_t age = (master_time(record, clock) - stamp) % STAMP_SPAN;
    const uint64_t counted = age >= STAMP_HALF ? 0 : age;
    const uint32_t allowance = (record->slave ? 0 : record->round_trip) + DRIFT_MAX;

    if (record->state != FOLDERPINK_REFRESH) {
        return gives(FOLDERPINK_TURN, entry, 0);
    }
    if (session_of(fields) != record->session) {
        return gives(FOLDERPINK_SESSION, entry, 0);
    }
    if (length != show_width(record)) {
        return gives(FOLDERPINK_WIDTH, entry, 0);
    }
    if (!is_above(record->accepted, stamp)) {
        return gives(FOLDERPINK_REPEAT, entry, 0);
    }
    if (age >= STAMP_HALF && STAMP_SPAN - age > allowance) {
        return gives(FOLDERPINK_AHEAD, entry, 0);
    }
    if (counted > record->age) {
        end(record);
        return gives(FOLDERPINK_LATE, entry, 0);
    }
    record->since = clock;
    record->accepted = at(stamp);
    record->taken = true;
    record->value_age = counted;
    memcpy(record->value, data, length);
    memset(record->value + length, 0, FOLDERPINK_VALUE_MAX - length);
    return gives(FOLDERPINK_DONE, entry, 0);
}

/* ---- The calls ---- */

/* The list is a right one, and the records are as many as its connections at least. */
void reference_load(struct reference_gateway *gateway, struct reference_record *records,
                    size_t lent, uint16_t session, const uint32_t *list, size_t length)
{
    *gateway = (struct reference_gateway){.records = records, .lent = lent, .count = length / 7};
    for (size_t i = 0; i < gateway->count; i++) {
        const uint32_t *words = list + 7 * i;
        const bool slave = words[2] >> 10 & 1u;

        records[i] = (struct reference_record){
            .cid = words[0] << 16 | (words[1] & 0xFFFFu),
            .slave = slave,
            .master_words = words[2] >> 5 & 31u,
            .slave_words = words[2] & 31u,
            .interval = words[3] & 0xFFFFu,
            .round_trip = words[4] & 0xFFFFu,
            .age = words[5] & 0xFFFFu,
            .station = words[6] & 0xFFFFFFFu,
            .state = FOLDERPINK_CLOSE,
            .session = slave ? SUB_CID_ACTIVE | session : 0,
        };
    }
}

struct reference_called reference_start(struct reference_gateway *gateway, uint64_t clock, size_t n)
{
    struct reference_record *record;
    uint64_t ended;
    uint8_t answer;

    answer = begin(gateway, clock, &ended);
    if (answer != FOLDERPINK_DONE) {
        return gives(answer, -1, 0);
    }
    if (n >= gateway->count) {
        return gives(FOLDERPINK_ENTRY, -1, 0);
    }
    if (ended >> n & 1u) {
        return gives(FOLDERPINK_EXPIRED, (int)n, 0);
    }
    record = &gateway->records[n];
    if (record->slave || record->state != FOLDERPINK_CLOSE) {
        return gives(FOLDERPINK_TURN, (int)n, 0);
    }
    record->state = FOLDERPINK_STARTING;
    record->since = clock;
    record->pending.known = false;
    record->requests = 0;
    return gives(FOLDERPINK_DONE, (int)n, 0);
}

struct reference_called reference_send(struct reference_gateway *gateway, uint64_t clock, size_t n,
                                       const uint8_t *value, size_t length, uint8_t *out,
                                       size_t room)
{
    struct reference_record *record;
    uint64_t ended;
    uint8_t answer;
    bool refresh;
    bool valued;
    uint64_t stamp;

    answer = begin(gateway, clock, &ended);
    if (answer != FOLDERPINK_DONE) {
        return gives(answer, -1, 0);
    }
    if (room < FOLDERPINK_FRAME_MAX) {
        return gives(FOLDERPINK_BUFFER, -1, 0);
    }
    if (n >= gateway->count) {
        return gives(FOLDERPINK_ENTRY, -1, 0);
    }
    if (ended >> n & 1u) {
        return gives(FOLDERPINK_EXPIRED, (int)n, 0);
    }
    record = &gateway->records[n];
    refresh = record->state == FOLDERPINK_REFRESH;
    valued = refresh && is_value_due(record, clock);
    if (!refresh && (record->slave || !is_setup(record->state) || record->pending.known)) {
        return gives(FOLDERPINK_TURN, (int)n, 0);
    }
    if (valued && length != send_width(record)) {
        return gives(FOLDERPINK_WIDTH, (int)n, 0);
    }
    if (!refresh && record->requests >= REQUESTS_MAX) {
        end(record);
        return gives(FOLDERPINK_EXHAUSTED, (int)n, 0);
    }
    stamp = master_time(record, clock);
    if (!is_above(record->sent, stamp)) {
        return gives(FOLDERPINK_TOO_SOON, (int)n, 0);
    }
    return gives(FOLDERPINK_DONE, (int)n,
                 valued ? send_refresh(record, stamp, value, length, out)
                        : send_request(record, clock, stamp, out));
}

static int find(const struct reference_gateway *gateway, uint32_t cid)
{
    for (size_t i = 0; i < gateway->count; i++) {
        if (gateway->records[i].cid == cid) {
            return (int)i;
        }
    }
    return -1;
}

struct reference_called reference_deliver(struct reference_gateway *gateway, uint64_t clock,
                                          const uint8_t *bytes, size_t length, uint8_t *out,
                                          size_t room)
{
    struct reference_record *record;
    struct fields fields;
    const uint8_t *data;
    size_t data_length;
    uint64_t ended;
    uint8_t answer;
    int entry;

    answer = begin(gateway, clock, &ended);
    if (answer != FOLDERPINK_DONE) {
        return gives(answer, -1, 0);
    }
    if (room < FOLDERPINK_FRAME_MAX) {
        return gives(FOLDERPINK_BUFFER, -1, 0);
    }
    if (length == 0) {
        return gives(FOLDERPINK_DONE, -1, 0);
    }
    answer = reference_check_frame(bytes, length);
    if (answer != FOLDERPINK_DONE) {
        return gives(answer, -1, 0);
    }
    fields = read_fields(bytes);
    data = bytes + AT_DATA;
    data_length = length / 2 - AT_DATA - WORD_SIZE;
    entry = find(gateway, fields.cid);
    if (entry < 0) {
        return gives(FOLDERPINK_STRANGER, -1, 0);
    }
    if (ended >> entry & 1u) {
        return gives(FOLDERPINK_EXPIRED, entry, 0);
    }
    record = &gateway->records[entry];
    if (((fields.ctrl & APPLICATION) != 0) == record->slave) {
        return gives(FOLDERPINK_ECHO, entry, 0);
    }
    if (fields.ctrl >> 24 == S_REFRESH) {
        return take_refresh(record, entry, clock, &fields, data, data_length);
    }
    if (record->slave) {
        return take_request(record, entry, clock, &fields, data, data_length, out);
    }
    return take_reply(record, entry, clock, &fields, data, data_length);
}

struct reference_called reference_show(struct reference_gateway *gateway, uint64_t clock, size_t n,
                                       uint8_t *out, size_t room)
{
    const struct reference_record *record;
    struct reference_called called;
    uint64_t ended;
    uint8_t answer;

    answer = begin(gateway, clock, &ended);
    if (answer != FOLDERPINK_DONE) {
        return gives(answer, -1, 0);
    }
    if (room < FOLDERPINK_FRAME_MAX) {
        return gives(FOLDERPINK_BUFFER, -1, 0);
    }
    if (n >= gateway->count) {
        return gives(FOLDERPINK_ENTRY, -1, 0);
    }
    record = &gateway->records[n];
    called = gives(FOLDERPINK_DONE, (int)n, show_width(record));
    called.fail_safe = record->state != FOLDERPINK_REFRESH || !record->taken;
    if (called.fail_safe) {
        memset(out, 0, called.count);
    } else {
        memcpy(out, record->value, called.count);
        called.age = record->value_age + (clock - record->since);
    }
    return called;
}
