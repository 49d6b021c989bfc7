/*
 * The FSCP 8/2 safety link, for C and C++ on x86-64: a gateway of 1 to 64 connections, and the
 * frame check alone.
 *
 * Link with libgateway.a, for folderpink_check_frame also with libframe.a (tests/host/run archives
 * builds both). They need memcpy, memmove and memset, and nothing else: no call at start-up, no
 * heap, no input or output. A call always returns and keeps nothing between calls: all that a
 * gateway remembers is in the records and in the struct folderpink_call that the caller holds. So
 * two gateways may be called at the same time from two threads.
 *
 * In every call, the caller sees to it that
 * - a pointer and the length after it are readable memory of so many elements (records, words or
 *   bytes), and the call's pointer is to one struct; writable where the pointer is not to const;
 *   nobody else writes it during the call, nor reads it where it is writable;
 * - no two of them overlap;
 * - calls and records are aligned to 8 bytes and lists to 4; bytes need no alignment;
 * - no pointer is null, also where the length is 0;
 * - FOLDERPINK_STACK bytes of stack are left.
 *
 * Between the calls on a gateway, the caller sees to it that
 * - the records are lent whole each time, and as the last call left them: nobody else writes them;
 * - call.gateway, which each call writes, refused or not, goes into the next call as it was left.
 * What the link promises of a shown value counts on this. Reading the records and the gateway
 * between calls is free.
 *
 * Every call answers, whatever the lengths and contents: a length that does not suit is refused
 * by a number.
 */
#ifndef FOLDERPINK_H
#define FOLDERPINK_H

#include <stddef.h>
#include <stdint.h>

#ifdef __cplusplus
extern "C" {
#endif

/* A frame has 56, 64, .. 248 bytes: SubPDU-A, then SubPDU-B. */
#define FOLDERPINK_FRAME_MIN 56
#define FOLDERPINK_FRAME_MAX 248

/* An output that is lent has at least the bytes of the longest frame. */
#define FOLDERPINK_OUTPUT_MIN FOLDERPINK_FRAME_MAX

/* A value has 1 to 25 words of 4 bytes; so have S-InvokeFunc's request and its result. */
#define FOLDERPINK_VALUE_MAX 100

/*
 * An error record is handed over as it is encoded, in 16 to 56 bytes: date and time, two decimal
 * digits a byte (the year in two bytes, month, day, hour, minute, second, and the day of the week,
 * 0 to 6); a word with the count of details, 0 to 10; the details, a word each; and a word that is
 * 1 where more error records follow, else 0. A word is 4 bytes, the highest first.
 */
#define FOLDERPINK_ERROR_RECORD_MIN 16
#define FOLDERPINK_ERROR_RECORD_MAX 56

/* The most connections of a gateway, and how many words of the settings list each has. */
#define FOLDERPINK_CONNECTIONS_MAX 64
#define FOLDERPINK_CONNECTION_WORDS 7

/* The highest clock reading, in ticks of 128 us: 2^48 - 131,073. */
#define FOLDERPINK_CLOCK_MAX UINT64_C(281474976579583)

/*
 * The bytes of stack that a call may use, its arguments, memcpy, memmove and memset included, but
 * not what a dynamic linker uses where it binds these at their first call. Measured, not proved: the
 * host tests make every call of their lists on a painted stack, and hold what was overwritten to
 * this.
 */
#define FOLDERPINK_STACK 2048

/*
 * The answers. Where several apply, the first in this order is given: 1; 2 for too few records;
 * then all timers are tested (the clock step, which also drops measurements of the clocks whose
 * next step is late); 2 for an output that is too short; 3, or 4 to 8; 9;
 * 10 and so on, 21 and 20 before 12 and 19 after it. A loading knows 18 and 2 only.
 *
 * From 9 on, 18 apart, and with 0 (load and a delivery of 0 bytes apart) the connection is named.
 * Loading apart, 1, and 2 for too few records, change nothing. All others leave what the clock
 * step left, save that 15, 16 and 19 end the connection. A refusal writes nothing to the output,
 * save that a slave's 16 writes its reply.
 */
enum folderpink_number {
    /* Done; of the frame check: a sound frame. */
    FOLDERPINK_DONE = 0,

    /* clock: the reading is above FOLDERPINK_CLOCK_MAX, or below the gateway's last. */
    FOLDERPINK_CLOCK = 1,

    /*
     * buffer: fewer records than the table has connections; or an output under 248 bytes, which
     * cannot be where a call is lent none.
     */
    FOLDERPINK_BUFFER = 2,

    /* entry: there is no such connection. */
    FOLDERPINK_ENTRY = 3,

    /* length: not a frame's. */
    FOLDERPINK_LENGTH = 4,

    /* copies: SubPDU-A and SubPDU-B differ. */
    FOLDERPINK_COPIES = 5,

    /* check word: the CRC32 is not that of the SubPDU's bytes before it. */
    FOLDERPINK_CHECK_WORD = 6,

    /*
     * form: Cmd unlisted; Ack, Error or Application not allowed with this Cmd; Busy outside a
     * reply to S-InitConfirmNetPrm, S-InitVerifyStnPrm, S-InvokeFunc or S-RefreshReady; OBL not 0
     * outside an S-RefreshGO request; Offset op seq outside S-RefreshMO and S-RefreshGO; Sub CID
     * active in an S-Connect request; Sub CID not 0 where it is not active; another bit of CTRL, or
     * RSV, not 0.
     */
    FOLDERPINK_FORM = 7,

    /* stranger: the frame's CID is none of the table. */
    FOLDERPINK_STRANGER = 8,

    /*
     * expired: this call's clock step ended the connection, as its timer has expired, or as a
     * slave's ts_offset is over 30,000 ticks old in Refresh; and the call is no show.
     */
    FOLDERPINK_EXPIRED = 9,

    /* echo: the frame is one's own. */
    FOLDERPINK_ECHO = 10,

    /*
     * turn: not allowed in this state, nothing due, or a call of the other role; S-ReadErrorInfo
     * where no error record is set.
     */
    FOLDERPINK_TURN = 11,

    /* width: a value, a command, a result or S-Data of the wrong length. */
    FOLDERPINK_WIDTH = 12,

    /*
     * repeat: the timestamp is not above the last accepted, or a reply's not the pending one; an
     * S-RefreshGO, or a reply in Refresh, of another measurement than the one under way.
     */
    FOLDERPINK_REPEAT = 13,

    /* ahead: an S-Refresh is ahead by more than is allowed. */
    FOLDERPINK_AHEAD = 14,

    /* late: an S-Refresh is older than A; ends the connection. */
    FOLDERPINK_LATE = 15,

    /* unequal: the contents differ, or a reply has Error 1; ends the connection. */
    FOLDERPINK_UNEQUAL = 16,

    /* too soon: the timestamp to be sent is not above the last sent. */
    FOLDERPINK_TOO_SOON = 17,

    /* settings: the list is not right; the table is of no connections then. */
    FOLDERPINK_SETTINGS = 18,

    /* exhausted: a master's request would be number 46 since its start; ends the connection. */
    FOLDERPINK_EXHAUSTED = 19,

    /*
     * record: not an error record, as its length or a digit, date, count or flag is out of range;
     * the connection stays.
     */
    FOLDERPINK_RECORD = 20,

    /*
     * session: a frame without a session number, or with another than the connection's; the
     * connection stays.
     */
    FOLDERPINK_SESSION = 21
};

/* The states of a connection; above 9 is Terminate too. */
enum folderpink_state {
    FOLDERPINK_CLOSE = 0,
    FOLDERPINK_STARTING = 1, /* a master's, before its first reply */
    FOLDERPINK_ESTABLISH_PENDING = 2,
    FOLDERPINK_ESTABLISH = 3,
    FOLDERPINK_PARAM_VERIFY = 4,
    FOLDERPINK_FUNC_RUNNING = 5, /* a slave's, from its first S-InvokeFunc on */
    FOLDERPINK_REFRESH_PENDING = 6,
    FOLDERPINK_REFRESH = 7,
    FOLDERPINK_TERMINATE = 8,
    FOLDERPINK_TERMINATE_MORE = 9 /* a slave's, while more error records follow */
};

/*
 * All that a connection keeps, but for its value, its words and its error record. A flag is 0, or
 * set.
 */
struct folderpink_stored {
    uint64_t since;     /* the clock reading where the timer starts */
    uint64_t reference; /* at a slave the s2 that ts_offset was reckoned with; at a master the clock
                           reading of its last S-RefreshMO, or of entry into Refresh */

    /* The settings, with the state and two flags among them. */
    uint32_t interval;   /* I, in ticks, as R and A */
    uint32_t roundtrip;  /* R */
    uint32_t connection; /* the CID */
    uint8_t state;       /* one of folderpink_state */
    uint8_t slave;       /* a flag: the role */
    uint8_t hasasked;    /* a flag: a master's request waits for its reply */
    uint8_t answered;    /* a flag: a measurement in Refresh was answered, and is not closed */
    uint64_t asked;      /* the timestamp of the request that waits, where hasasked is set */
    uint64_t measured;   /* s2 at a slave, m2 at a master */
    uint32_t age;        /* A */
    uint32_t station;    /* the station word */
    uint8_t masterwords; /* M */
    uint8_t slavewords;  /* S */

    uint8_t hassent;
    uint8_t hasaccepted;
    uint8_t requests;   /* setup requests written since the last start or loading */
    uint8_t queue;      /* a master's: 0 nothing waits; 1 S-InvokeFunc, 2 S-ReadErrorInfo,
                           3 S-WriteErrorInfo waits; else it is closed: S-RefreshReady has gone
                           since the last start */
    uint8_t invoked;    /* a flag, a master's: S-InvokeFunc has gone since the last start */
    uint8_t notready;   /* a flag: what set_not_ready set */
    uint64_t sent;      /* the timestamp last sent, where hassent is set */
    uint64_t accepted;  /* the timestamp last accepted, where hasaccepted is set */
    uint64_t offset;    /* ts_offset at a slave */
    uint64_t valueage;  /* how old the value was when it was accepted, in ticks; 0 where none was */
    uint16_t session;   /* the session number, where hassession is set: a slave's as it was given, a
                           master's as the S-Connect reply had it */
    uint8_t hassession;
    uint8_t sequence;   /* a flag: Offset op seq of the last measurement of this Refresh */
    uint8_t words;      /* how many words were handed over: a slave's result, 0 for none; a master's
                           command, where one waits */
    uint8_t errorinfo;  /* how many words of an error record were handed over: a slave's, 0 for
                           none; a master's, where S-WriteErrorInfo waits */
    uint8_t taken;      /* a flag: a value was accepted in this Refresh */
};

/*
 * A connection's record. Its value is the last one accepted in this Refresh, with zeros after it,
 * or the fail-safe value, all zeros. Use folderpink_show to read it: only a call tests the timers.
 * The first stored.words of its words are a slave's result, or the command that waits at a master;
 * the first stored.errorinfo words of its errorinfo are a slave's error record, or the one that
 * waits at a master. Bytes between the fields and after them have no meaning.
 */
struct folderpink_record {
    struct folderpink_stored stored;
    uint8_t value[FOLDERPINK_VALUE_MAX];
    uint8_t words[FOLDERPINK_VALUE_MAX];
    uint8_t errorinfo[FOLDERPINK_ERROR_RECORD_MAX];
};

/* What a gateway keeps beside the records. All zeros: never loaded, a table of no connections. */
struct folderpink_gateway {
    uint64_t last; /* the last accepted clock reading, 0 before the first */
    size_t count;  /* the size of the table */
};

/*
 * What a call is asked with. The caller sets clock, entry, notready, session and word as each call
 * needs them; they stay. gateway is the library's, from folderpink_load on: each call leaves in it
 * what the next one needs.
 */
struct folderpink_call {
    struct folderpink_gateway gateway;
    uint64_t clock;                    /* the caller's clock reading */
    size_t entry;                      /* the connection, from 0 on; deliver does not look at it */
    uint8_t notready;                  /* a flag, of set_not_ready alone */
    uint16_t session;                  /* the session number, of load and restart alone */
    uint32_t word;                     /* the command word, of invoke alone */
};

/* What a call answers. */
struct folderpink_told {
    size_t count;     /* how many bytes it wrote at the start of the output */
    size_t entry;     /* the connection, where named is set, else 0 */
    uint64_t age;     /* how old the shown value is, in ticks, where aged is set, else 0 */
    uint8_t named;    /* a flag, 0 or 1 */
    uint8_t number;   /* one of folderpink_number */
    uint8_t failsafe; /* 1: a show without a value, its bytes are zeros; else 0 */
    uint8_t aged;     /* 1: a done show of a value; else 0 */
};

/*
 * Loads a settings list: 7 words for each of 1 to 64 connections, the top four bits of each its
 * kind, in this order:
 *   0x10000000 + master address, 0x20000000 + slave address (network x 256 + station, 16 bits),
 *   0x30000000 + role (0 master, 1 slave) x 1,024 + words from the master x 32 + words from the
 *   slave (each 1 to 25),
 *   0x40000000 + I, 0x50000000 + R, 0x60000000 + A (each 1 to 65,535 ticks),
 *   0x70000000 + station word (28 bits).
 * The two addresses differ, and no CID occurs twice.
 *
 * Done, the list's connections are in the first records, all in Close; the records before may
 * have held anything, zeros for example. Refused (18, or 2 for too few records), the records stay
 * and the table is of no connections. Records past the table stay in every call. Of the call only
 * session is looked at, and the gateway is set.
 *
 * call.session is the session number of the list's slaves; a list without slaves does not look at
 * it. The slave's replies bring it to the master, every later frame of both carries it until the
 * slave's restart, and a frame with another is refused (21). Where frames of before the loading may
 * still travel, none of those may carry it, nor the number of a later restart: what the link
 * promises of a shown value counts on this.
 */
struct folderpink_told folderpink_load(struct folderpink_call *call,
                                       struct folderpink_record *records, size_t records_length,
                                       const uint32_t *list, size_t list_length);

/* A master leaves Close: its next sends write the setup requests. */
struct folderpink_told folderpink_start(struct folderpink_call *call,
                                        struct folderpink_record *records, size_t records_length);

/*
 * From Terminate to Close. Timestamps are remembered. call.session is a slave's session number from
 * now on; a master's restart does not look at it, and forgets the number that it had.
 */
struct folderpink_told folderpink_restart(struct folderpink_call *call,
                                          struct folderpink_record *records, size_t records_length);

/* A slave's user says that the station is not ready (call.notready set), or ready again. */
struct folderpink_told folderpink_set_not_ready(struct folderpink_call *call,
                                                struct folderpink_record *records,
                                                size_t records_length);

/*
 * A slave's user sets the result of a command (S-InvokeFunc), in any state: the whole S-Data of
 * the reply, 1 to 25 words, the command word's place included; else 12, and an earlier result
 * stays. While no result of the request's length is set, the reply is Busy, and the master asks
 * again. Which command came is told by that Busy reply, as deliver writes it: out[0] is 3, and the
 * command's words are the count / 2 - 24 bytes from out[20] on. A result is not used up: it answers
 * every later command of its length too, also another one, until it is cleared, replaced or unset
 * by loading. So clear it once its command is over.
 */
struct folderpink_told folderpink_set_result(struct folderpink_call *call,
                                             struct folderpink_record *records,
                                             size_t records_length, const uint8_t *bytes,
                                             size_t bytes_length);

/* A slave's user clears the result, in any state; done where none is set, too. */
struct folderpink_told folderpink_clear_result(struct folderpink_call *call,
                                               struct folderpink_record *records,
                                               size_t records_length);

/*
 * A slave's user sets the station's error record, in any state: 16 to 56 bytes, as it is encoded;
 * else 20, and an earlier one stays. It is the reply to every S-ReadErrorInfo, until it is cleared,
 * replaced or unset by loading. With none set there is no reply (11), and the master's timer ends
 * its start.
 */
struct folderpink_told folderpink_set_record(struct folderpink_call *call,
                                             struct folderpink_record *records,
                                             size_t records_length, const uint8_t *bytes,
                                             size_t bytes_length);

/* A slave's user clears the error record, in any state; done where none is set, too. */
struct folderpink_told folderpink_clear_record(struct folderpink_call *call,
                                               struct folderpink_record *records,
                                               size_t records_length);

/*
 * A master's user queues a command for the station, a tare for example (S-InvokeFunc): call.word,
 * and 0 to 24 further words. Nothing is sent by this call: send writes the command where
 * S-RefreshReady would be due, again after each Busy reply, and S-RefreshReady once it is
 * answered. Each counts among the 45 requests of a start. The command waits until its reply
 * without Busy, whose words deliver writes, or until the connection's end, which drops it.
 * 11: not a master in setup (from start on, before Refresh), a command waits already (read_error
 * and write_error queue one too), or S-RefreshReady has gone since the last start. 12: not 0 to 24
 * whole words.
 */
struct folderpink_told folderpink_invoke(struct folderpink_call *call,
                                         struct folderpink_record *records, size_t records_length,
                                         const uint8_t *bytes, size_t bytes_length);

/*
 * A master's user queues the reading of the station's error record (S-ReadErrorInfo), as invoke
 * queues a command; it is never answered Busy. Its reply is the error record, which deliver writes:
 * 16 to 56 bytes, as it is encoded. A reply that is none is refused (20), and the request stays
 * pending. 11: as invoke, and once S-InvokeFunc has gone since the last start.
 */
struct folderpink_told folderpink_read_error(struct folderpink_call *call,
                                             struct folderpink_record *records,
                                             size_t records_length);

/*
 * A master's user queues an error record for the station (S-WriteErrorInfo), as invoke queues a
 * command: 16 to 56 bytes, as it is encoded, else 20; 11 as invoke. The station's reply repeats it,
 * never with Busy; a master's deliver writes nothing of it, a slave's all of it: out[0] is 0xFB,
 * and the error record is the count / 2 - 24 bytes from out[20] on. The station is in Terminate
 * then, and takes further ones while the last that it took says that more follow. The master is
 * still in setup: queue the next, or stop, else its timer ends the start.
 */
struct folderpink_told folderpink_write_error(struct folderpink_call *call,
                                              struct folderpink_record *records,
                                              size_t records_length, const uint8_t *bytes,
                                              size_t bytes_length);

/* To Terminate, from any state but Close and Terminate; a master's writes S-Disconnect. */
struct folderpink_told folderpink_stop(struct folderpink_call *call,
                                       struct folderpink_record *records, size_t records_length,
                                       uint8_t *out, size_t out_length);

/*
 * Writes the last value accepted in this Refresh, 4 bytes a word; or, with none or outside
 * Refresh, zeros of the same width and the mark failsafe.
 *
 * The age of a value is told with it, in ticks of 128 us, and is at most A + I. The clocks of the
 * two ends may drift apart by one tick in 10,000: the true age is at most 10 ticks above what a
 * slave tells, and R + 10 above what a master tells. To be sure, add that.
 */
struct folderpink_told folderpink_show(struct folderpink_call *call,
                                       struct folderpink_record *records, size_t records_length,
                                       uint8_t *out, size_t out_length);

/*
 * Writes the frame to be sent: in Refresh S-Refresh with the value (4 x M bytes of a master, 4 x S
 * of a slave), before it a master's next setup request or queued command, whatever value is lent.
 *
 * In Refresh a master also measures the clocks: its send writes S-RefreshMO 10,000 ticks or more
 * after the last one, or after entry into Refresh, and S-RefreshGO once that is answered, whatever
 * value is lent: out[0] is 0xFD or 0xFE then, and the value has not gone, so send it again. A step
 * that takes more than R ticks drops the measurement. A slave ends when it is over 30,000 ticks
 * since it answered the last S-RefreshReady or S-RefreshMO whose S-RefreshGO it took: so a master
 * has to send every some thousand ticks, and deliver what comes back.
 */
struct folderpink_told folderpink_send(struct folderpink_call *call,
                                       struct folderpink_record *records, size_t records_length,
                                       const uint8_t *value, size_t value_length, uint8_t *out,
                                       size_t out_length);

/*
 * Takes what a cycle of the bus brought: a frame, or 0 bytes for nothing, which takes the clock
 * step alone. What is written at a slave is its reply, to be sent. At a master it is the result of
 * the command that was queued, count / 4 words for the user, or the station's error record (16 to
 * 56 bytes, after read_error), NOT to be sent: a master's deliver never writes a frame. The count
 * does not tell a frame from these; the role of the connection that is named does (stored.slave
 * of records[told.entry], or the caller's own list).
 */
struct folderpink_told folderpink_deliver(struct folderpink_call *call,
                                          struct folderpink_record *records, size_t records_length,
                                          const uint8_t *bytes, size_t bytes_length, uint8_t *out,
                                          size_t out_length);

/*
 * The frame check alone: 0 for a sound frame, or 4 to 7. Whether the frame is due, and for whom,
 * is not looked at. 0 bytes are no frame (4).
 */
uint8_t folderpink_check_frame(const uint8_t *bytes, size_t length);

/*
 * The layout that the library was proved with: crates/gateway/proofs/InMemory.antt has each number
 * below, as the memory model of the proofs gives it.
 */
#ifdef __cplusplus
#define FOLDERPINK_LAYOUT(fact) static_assert(fact, #fact)
#define FOLDERPINK_ALIGN alignof
#else
#define FOLDERPINK_LAYOUT(fact) _Static_assert(fact, #fact)
#define FOLDERPINK_ALIGN _Alignof
#endif

FOLDERPINK_LAYOUT(sizeof(size_t) == 8);

FOLDERPINK_LAYOUT(sizeof(struct folderpink_stored) == 104);
FOLDERPINK_LAYOUT(FOLDERPINK_ALIGN(struct folderpink_stored) == 8);
FOLDERPINK_LAYOUT(offsetof(struct folderpink_stored, since) == 0);
FOLDERPINK_LAYOUT(offsetof(struct folderpink_stored, reference) == 8);
FOLDERPINK_LAYOUT(offsetof(struct folderpink_stored, interval) == 16);
FOLDERPINK_LAYOUT(offsetof(struct folderpink_stored, roundtrip) == 20);
FOLDERPINK_LAYOUT(offsetof(struct folderpink_stored, connection) == 24);
FOLDERPINK_LAYOUT(offsetof(struct folderpink_stored, state) == 28);
FOLDERPINK_LAYOUT(offsetof(struct folderpink_stored, slave) == 29);
FOLDERPINK_LAYOUT(offsetof(struct folderpink_stored, hasasked) == 30);
FOLDERPINK_LAYOUT(offsetof(struct folderpink_stored, answered) == 31);
FOLDERPINK_LAYOUT(offsetof(struct folderpink_stored, asked) == 32);
FOLDERPINK_LAYOUT(offsetof(struct folderpink_stored, measured) == 40);
FOLDERPINK_LAYOUT(offsetof(struct folderpink_stored, age) == 48);
FOLDERPINK_LAYOUT(offsetof(struct folderpink_stored, station) == 52);
FOLDERPINK_LAYOUT(offsetof(struct folderpink_stored, masterwords) == 56);
FOLDERPINK_LAYOUT(offsetof(struct folderpink_stored, slavewords) == 57);
FOLDERPINK_LAYOUT(offsetof(struct folderpink_stored, hassent) == 58);
FOLDERPINK_LAYOUT(offsetof(struct folderpink_stored, hasaccepted) == 59);
FOLDERPINK_LAYOUT(offsetof(struct folderpink_stored, requests) == 60);
FOLDERPINK_LAYOUT(offsetof(struct folderpink_stored, queue) == 61);
FOLDERPINK_LAYOUT(offsetof(struct folderpink_stored, invoked) == 62);
FOLDERPINK_LAYOUT(offsetof(struct folderpink_stored, notready) == 63);
FOLDERPINK_LAYOUT(offsetof(struct folderpink_stored, sent) == 64);
FOLDERPINK_LAYOUT(offsetof(struct folderpink_stored, accepted) == 72);
FOLDERPINK_LAYOUT(offsetof(struct folderpink_stored, offset) == 80);
FOLDERPINK_LAYOUT(offsetof(struct folderpink_stored, valueage) == 88);
FOLDERPINK_LAYOUT(offsetof(struct folderpink_stored, session) == 96);
FOLDERPINK_LAYOUT(offsetof(struct folderpink_stored, hassession) == 98);
FOLDERPINK_LAYOUT(offsetof(struct folderpink_stored, sequence) == 99);
FOLDERPINK_LAYOUT(offsetof(struct folderpink_stored, words) == 100);
FOLDERPINK_LAYOUT(offsetof(struct folderpink_stored, errorinfo) == 101);
FOLDERPINK_LAYOUT(offsetof(struct folderpink_stored, taken) == 102);

FOLDERPINK_LAYOUT(sizeof(struct folderpink_record) == 360);
FOLDERPINK_LAYOUT(FOLDERPINK_ALIGN(struct folderpink_record) == 8);
FOLDERPINK_LAYOUT(offsetof(struct folderpink_record, stored) == 0);
FOLDERPINK_LAYOUT(offsetof(struct folderpink_record, value) == 104);
FOLDERPINK_LAYOUT(offsetof(struct folderpink_record, words) == 204);
FOLDERPINK_LAYOUT(offsetof(struct folderpink_record, errorinfo) == 304);

FOLDERPINK_LAYOUT(sizeof(struct folderpink_gateway) == 16);
FOLDERPINK_LAYOUT(FOLDERPINK_ALIGN(struct folderpink_gateway) == 8);
FOLDERPINK_LAYOUT(offsetof(struct folderpink_gateway, last) == 0);
FOLDERPINK_LAYOUT(offsetof(struct folderpink_gateway, count) == 8);

FOLDERPINK_LAYOUT(sizeof(struct folderpink_call) == 40);
FOLDERPINK_LAYOUT(FOLDERPINK_ALIGN(struct folderpink_call) == 8);
FOLDERPINK_LAYOUT(offsetof(struct folderpink_call, gateway) == 0);
FOLDERPINK_LAYOUT(offsetof(struct folderpink_call, clock) == 16);
FOLDERPINK_LAYOUT(offsetof(struct folderpink_call, entry) == 24);
FOLDERPINK_LAYOUT(offsetof(struct folderpink_call, notready) == 32);
FOLDERPINK_LAYOUT(offsetof(struct folderpink_call, session) == 34);
FOLDERPINK_LAYOUT(offsetof(struct folderpink_call, word) == 36);

FOLDERPINK_LAYOUT(sizeof(struct folderpink_told) == 32);
FOLDERPINK_LAYOUT(FOLDERPINK_ALIGN(struct folderpink_told) == 8);
FOLDERPINK_LAYOUT(offsetof(struct folderpink_told, count) == 0);
FOLDERPINK_LAYOUT(offsetof(struct folderpink_told, entry) == 8);
FOLDERPINK_LAYOUT(offsetof(struct folderpink_told, age) == 16);
FOLDERPINK_LAYOUT(offsetof(struct folderpink_told, named) == 24);
FOLDERPINK_LAYOUT(offsetof(struct folderpink_told, number) == 25);
FOLDERPINK_LAYOUT(offsetof(struct folderpink_told, failsafe) == 26);
FOLDERPINK_LAYOUT(offsetof(struct folderpink_told, aged) == 27);

#undef FOLDERPINK_LAYOUT
#undef FOLDERPINK_ALIGN

#ifdef __cplusplus
}
#endif

#endif
