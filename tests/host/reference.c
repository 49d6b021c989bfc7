/*
 * Frame check in plain C, written from documents 01 and 02 alone: the host test compares
 * folderpink_check_frame with it, the benchmark takes it as the baseline.
 */
#include "reference.h"

#include <stdbool.h>
#include <string.h>

#include "folderpink.h"
#include "subpdu.h"

#define GENERATOR 0x1EDC6F41u

#define ALWAYS_ZERO (MO_BUSY | RESERVED)

static uint32_t crc_table[256];

/* RFC 3720 takes each byte lowest bit first, so the generator is used in reversed bit order. */
static uint32_t reverse_bits(uint32_t word)
{
    uint32_t reversed = 0;

    for (unsigned bit = 0; bit < 32; bit++) {
        reversed = (reversed << 1) | ((word >> bit) & 1u);
    }
    return reversed;
}

void reference_init(void)
{
    const uint32_t generator = reverse_bits(GENERATOR);

    for (uint32_t index = 0; index < 256; index++) {
        uint32_t remainder = index;

        for (unsigned bit = 0; bit < 8; bit++) {
            remainder = (remainder & 1u) ? (remainder >> 1) ^ generator : remainder >> 1;
        }
        crc_table[index] = remainder;
    }
}

uint32_t reference_crc32c(const uint8_t *bytes, size_t length)
{
    uint32_t crc = 0xFFFFFFFFu;

    for (size_t i = 0; i < length; i++) {
        crc = (crc >> 8) ^ crc_table[(crc ^ bytes[i]) & 0xFFu];
    }
    return ~crc;
}

static bool is_frame_length(size_t length)
{
    return length >= 56 && length <= 248 && length % 8 == 0;
}

static bool is_check_word_right(const uint8_t *subpdu, size_t length)
{
    const size_t covered = length - WORD_SIZE;

    return reference_crc32c(subpdu, covered) == get_word(subpdu + covered);
}

/* A session number stands in Sub CID, with Sub CID active; an S-Connect request has none. */
static bool is_session_right(uint32_t ctrl)
{
    if (ctrl & SUB_CID_ACTIVE) {
        return ctrl >> 24 != S_CONNECT || (ctrl & ACK) != 0;
    }
    return (ctrl & SUB_CID) == 0;
}

/* Offset op seq joins S-RefreshMO and S-RefreshGO, and stands in no other frame. */
static bool is_sequence_right(uint32_t ctrl)
{
    const uint32_t command = ctrl >> 24;

    return (ctrl & OFFSET_OP_SEQ) == 0 || command == S_REFRESH_MO || command == S_REFRESH_GO;
}

static bool is_form_right(const uint8_t *subpdu)
{
    const uint32_t ctrl = get_word(subpdu + AT_CTRL);
    const uint32_t obl = get_word(subpdu + AT_TCODE_OBL) & 0xFFFFu;
    const bool ack = (ctrl & ACK) != 0;
    const bool busy = (ctrl & BUSY) != 0;
    const bool error = (ctrl & ERROR) != 0;
    const bool application = (ctrl & APPLICATION) != 0;

    if ((ctrl & ALWAYS_ZERO) != 0 || get_word(subpdu + AT_RSV) != 0) {
        return false;
    }
    if (!is_session_right(ctrl) || !is_sequence_right(ctrl)) {
        return false;
    }
    if (error && !ack) {
        return false;
    }
    switch (ctrl >> 24) {
    case S_REFRESH:
        return !ack && !busy && obl == 0;
    case S_DISCONNECT:
        return !ack && !busy && !application && obl == 0;
    case S_REFRESH_GO:
        return application == ack && !busy && (obl == 0 || !ack);
    case S_CONNECT:
    case S_READ_ERROR_INFO:
    case S_WRITE_ERROR_INFO:
    case S_REFRESH_MO:
        return application == ack && !busy && obl == 0;
    case S_INIT_CONFIRM_NET_PRM:
    case S_INIT_VERIFY_STN_PRM:
    case S_INVOKE_FUNC:
    case S_REFRESH_READY:
        return application == ack && (!busy || ack) && obl == 0;
    default:
        return false;
    }
}

uint8_t reference_check_frame(const uint8_t *bytes, size_t length)
{
    const size_t half = length / 2;

    if (!is_frame_length(length)) {
        return FOLDERPINK_LENGTH;
    }
    if (memcmp(bytes, bytes + half, half) != 0) {
        return FOLDERPINK_COPIES;
    }
    if (!is_check_word_right(bytes, half)) {
        return FOLDERPINK_CHECK_WORD;
    }
    if (!is_form_right(bytes)) {
        return FOLDERPINK_FORM;
    }
    return FOLDERPINK_DONE;
}
