/*
 * The calls of an exchange in plain C: the baseline of the exchange benchmark. They answer as
 * the calls of folderpink.h do.
 */
#ifndef EXCHANGE_REFERENCE_H
#define EXCHANGE_REFERENCE_H

#include <stdbool.h>
#include <stddef.h>
#include <stdint.h>

#include "folderpink.h"

/* A timestamp that is remembered, if any. */
struct reference_stamp {
    bool known;
    uint64_t at;
};

/* What the clock step looks at stands in the first 64 bytes. */
struct reference_record {
    uint32_t cid;
    bool slave;
    bool answered; /* S-RefreshMO of this Refresh was answered, and its measurement is not closed */
    uint8_t master_words;
    uint8_t slave_words;
    uint32_t interval;
    uint32_t round_trip;
    uint32_t age;
    uint32_t station;
    enum folderpink_state state;
    uint32_t session; /* as CTRL has it: 0 without a number */
    uint64_t since;
    uint64_t reference; /* slave: s2 of the offset in use; master: the last S-RefreshMO, or entry */
    struct reference_stamp pending;
    struct reference_stamp sent;
    struct reference_stamp accepted;
    uint64_t measured; /* s2 or m2 of the measurement under way */
    uint64_t offset;
    bool sequence; /* Offset op seq of this Refresh's last measurement */
    uint8_t requests;
    bool taken;
    uint64_t value_age;
    uint8_t value[FOLDERPINK_VALUE_MAX];
};

/* The records are lent: so many, the first `count` of them in use. */
struct reference_gateway {
    struct reference_record *records;
    size_t lent;
    struct reference_stamp last;
    size_t count;
};

/* What a call gives. The entry is -1 where there is none. */
struct reference_called {
    uint8_t answer;
    int entry;
    size_t count;
    bool fail_safe;
    uint64_t age; /* of the shown value; 0 without one */
};

void reference_load(struct reference_gateway *gateway, struct reference_record *records,
                    size_t lent, uint16_t session, const uint32_t *list, size_t length);
struct reference_called reference_start(struct reference_gateway *gateway, uint64_t clock,
                                        size_t n);
struct reference_called reference_send(struct reference_gateway *gateway, uint64_t clock, size_t n,
                                       const uint8_t *value, size_t length, uint8_t *out,
                                       size_t room);
struct reference_called reference_deliver(struct reference_gateway *gateway, uint64_t clock,
                                          const uint8_t *bytes, size_t length, uint8_t *out,
                                          size_t room);
struct reference_called reference_show(struct reference_gateway *gateway, uint64_t clock, size_t n,
                                       uint8_t *out, size_t room);

#endif
