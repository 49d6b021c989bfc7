/*
 * Host test of folderpink_check_frame: compares it with the reference, and with the answer
 * that documents 01 and 02 settle, on sound frames, damaged frames and other byte strings.
 * Ends at the first difference with a dump of the bytes and a non-zero exit status.
 */
#define _DEFAULT_SOURCE

#include <signal.h>
#include <stdbool.h>
#include <stdint.h>
#include <stdio.h>
#include <stdlib.h>
#include <string.h>
#include <sys/mman.h>
#include <unistd.h>

#include "folderpink.h"
#include "reference.h"
#include "subpdu.h"

_Static_assert(FOLDERPINK_DONE == 0, "no number is given for a sound frame");
_Static_assert(FOLDERPINK_LENGTH == 4, "number of: length");
_Static_assert(FOLDERPINK_COPIES == 5, "number of: copies");
_Static_assert(FOLDERPINK_CHECK_WORD == 6, "number of: check word");
_Static_assert(FOLDERPINK_FORM == 7, "number of: form");
_Static_assert(FOLDERPINK_FRAME_MIN == 56, "shortest frame");
_Static_assert(FOLDERPINK_FRAME_MAX == 248, "longest frame");

#define SEED 0x9E3779B97F4A7C15u
#define RANDOM_ROUNDS 200
#define LONGEST_STRING 1000
#define LEAST_FRAMES 1000000u
#define LEAST_PER_ANSWER 100000u
#define TIME_LIMIT_SECONDS 60

/* For compare(): the reference alone gives the answer. */
#define NOT_FIXED (-1)

#define FRAME_STEP 8

#define CONNECT_REQUEST 0x00000000u
#define GO_REQUEST 0xFE000000u
#define GO_REQUEST_OF_SEQUENCE_1 0xFE100000u

#define COUNT_OF(array) (sizeof(array) / sizeof((array)[0]))

/*
 * Every CTRL word of a sound frame without a session number: requests, replies and replies with
 * Error. All but the first are sound with each session number too.
 */
static const uint32_t legal_ctrl[] = {
    CONNECT_REQUEST,                       /* S-Connect */
    0x00840000u, 0x00A40000u,
    0x01000000u, 0x01840000u, 0x01A40000u, /* S-InitConfirmNetPrm */
    0x02000000u, 0x02840000u, 0x02A40000u, /* S-InitVerifyStnPrm */
    0x03000000u, 0x03840000u, 0x03A40000u, /* S-InvokeFunc */
    0xFA000000u, 0xFA840000u, 0xFAA40000u, /* S-ReadErrorInfo */
    0xFB000000u, 0xFB840000u, 0xFBA40000u, /* S-WriteErrorInfo */
    0xFC000000u, 0xFC840000u, 0xFCA40000u, /* S-RefreshReady */
    0xFD000000u, 0xFD840000u, 0xFDA40000u, /* S-RefreshMO */
    0xFD100000u, 0xFD940000u, 0xFDB40000u, /* the same with Offset op seq */
    GO_REQUEST,  0xFE840000u, 0xFEA40000u, /* S-RefreshGO */
    GO_REQUEST_OF_SEQUENCE_1,              /* the same with Offset op seq */
    0xFE940000u, 0xFEB40000u,
    0x01C40000u, 0x01E40000u,              /* replies with Busy, without Error and with it */
    0x02C40000u, 0x02E40000u,
    0x03C40000u, 0x03E40000u,
    0xFCC40000u, 0xFCE40000u,
    0xF9000000u,                           /* S-Disconnect */
    0xFF000000u, 0xFF040000u,              /* S-Refresh of a master, of a slave */
};

static uint64_t counts[256];

/* ---- Random numbers ---- */

static uint64_t random_state = SEED;

static uint32_t random_word(void)
{
    random_state ^= random_state << 13;
    random_state ^= random_state >> 7;
    random_state ^= random_state << 17;
    return (uint32_t)(random_state >> 32);
}

static uint32_t random_below(uint32_t limit)
{
    return random_word() % limit;
}

static void fill_random(uint8_t *bytes, size_t length)
{
    for (size_t i = 0; i < length; i++) {
        bytes[i] = (uint8_t)random_word();
    }
}

/* ---- Memory between two pages without access ---- */

static uint8_t *page;
static uint8_t *page_copy;
static size_t page_size;

static void stop(const char *reason)
{
    fprintf(stderr, "check_frame_test: %s\n", reason);
    exit(EXIT_FAILURE);
}

static void map_page(void)
{
    uint8_t *pages;

    page_size = (size_t)sysconf(_SC_PAGESIZE);
    pages = mmap(NULL, 3 * page_size, PROT_NONE, MAP_PRIVATE | MAP_ANONYMOUS, -1, 0);
    if (pages == MAP_FAILED) {
        stop("mmap failed");
    }
    page = pages + page_size;
    if (mprotect(page, page_size, PROT_READ | PROT_WRITE) != 0) {
        stop("mprotect failed");
    }
    page_copy = calloc(1, page_size);
    if (page_copy == NULL) {
        stop("out of memory");
    }
}

/* Takes the end of the page, its start and any place inside by turns. */
static size_t next_place(size_t length)
{
    static unsigned turn;
    const size_t last = page_size - length;

    turn = (turn + 1) % 3;
    if (turn == 0) {
        return last;
    }
    return turn == 1 ? 0 : random_below((uint32_t)last + 1);
}

static const uint8_t *place(const uint8_t *bytes, size_t length)
{
    const size_t offset = next_place(length);

    memcpy(page + offset, bytes, length);
    memcpy(page_copy + offset, bytes, length);
    return page + offset;
}

static void on_signal(int number)
{
    static const char fault[] = "check_frame_test: access outside the given bytes\n";
    static const char late[] = "check_frame_test: time limit exceeded\n";
    const ssize_t written = number == SIGALRM ? write(STDERR_FILENO, late, sizeof late - 1)
                                              : write(STDERR_FILENO, fault, sizeof fault - 1);

    (void)written;
    _exit(EXIT_FAILURE);
}

static void set_signals(void)
{
    signal(SIGSEGV, on_signal);
    signal(SIGBUS, on_signal);
    signal(SIGALRM, on_signal);
    alarm(TIME_LIMIT_SECONDS);
}

/* ---- Comparing ---- */

/* At most the first LONGEST_STRING bytes. */
static void dump(const uint8_t *bytes, size_t length)
{
    const size_t shown = length < LONGEST_STRING ? length : LONGEST_STRING;

    for (size_t i = 0; i < shown; i++) {
        fprintf(stderr, "%02X%c", bytes[i], i % 16 == 15 || i + 1 == shown ? '\n' : ' ');
    }
}

static void judge(const uint8_t *bytes, size_t length, uint8_t given, uint8_t reference, int fixed)
{
    if (given == reference && (fixed == NOT_FIXED || given == fixed)) {
        counts[given]++;
        return;
    }
    fprintf(stderr, "check_frame_test: %zu bytes, folderpink_check_frame %u, reference %u", length,
            (unsigned)given, (unsigned)reference);
    if (fixed != NOT_FIXED) {
        fprintf(stderr, ", fixed %d", fixed);
    }
    fputc('\n', stderr);
    dump(bytes, length);
    exit(EXIT_FAILURE);
}

static void compare(const uint8_t *bytes, size_t length, int fixed)
{
    const uint8_t *placed = place(bytes, length);
    const uint8_t given = folderpink_check_frame(placed, length);

    if (memcmp(page, page_copy, page_size) != 0) {
        fprintf(stderr, "check_frame_test: %zu bytes, memory changed\n", length);
        dump(bytes, length);
        exit(EXIT_FAILURE);
    }
    judge(bytes, length, given, reference_check_frame(bytes, length), fixed);
}

/* ---- Frames ---- */

static void flip_bit(uint8_t *bytes, size_t bit)
{
    bytes[bit / 8] ^= (uint8_t)(1u << (bit % 8));
}

static void copy_a_to_b(uint8_t *frame, size_t length)
{
    memcpy(frame + length / 2, frame, length / 2);
}

/* Writes the check word of SubPDU-A, then SubPDU-B. */
static void seal(uint8_t *frame, size_t length)
{
    const size_t covered = length / 2 - WORD_SIZE;

    put_word(frame + covered, reference_crc32c(frame, covered));
    copy_a_to_b(frame, length);
}

/* CID, T code, CC and S-Data are random. */
static void make_frame(uint8_t *frame, size_t length, uint32_t ctrl, uint32_t obl, uint32_t rsv)
{
    fill_random(frame, length / 2);
    put_word(frame + AT_CTRL, ctrl);
    put_word(frame + AT_TCODE_OBL, (random_word() << 16) | obl);
    put_word(frame + AT_RSV, rsv);
    seal(frame, length);
}

/* With a session number, which may be any. */
static uint32_t in_session(uint32_t ctrl, uint32_t number)
{
    return ctrl | SUB_CID_ACTIVE | number;
}

static uint32_t without_session(uint32_t ctrl)
{
    return ctrl & ~SESSION;
}

static bool is_listed_ctrl(uint32_t ctrl)
{
    for (size_t i = 0; i < COUNT_OF(legal_ctrl); i++) {
        if (legal_ctrl[i] == ctrl) {
            return true;
        }
    }
    return false;
}

static bool is_legal_ctrl(uint32_t ctrl)
{
    const uint32_t rest = without_session(ctrl);

    if (ctrl & SUB_CID_ACTIVE) {
        return is_listed_ctrl(rest) && rest != CONNECT_REQUEST;
    }
    return is_listed_ctrl(ctrl);
}

static bool may_have_obl(uint32_t ctrl)
{
    const uint32_t rest = without_session(ctrl);

    return rest == GO_REQUEST || rest == GO_REQUEST_OF_SEQUENCE_1;
}

static uint32_t legal_obl(uint32_t ctrl)
{
    return may_have_obl(ctrl) ? random_below(0x10000) : 0;
}

/* One of the listed words, in a session or in none. */
static uint32_t random_legal_ctrl(void)
{
    const uint32_t ctrl = legal_ctrl[random_below(COUNT_OF(legal_ctrl))];

    if (ctrl == CONNECT_REQUEST || random_below(2) == 0) {
        return ctrl;
    }
    return in_session(ctrl, random_below(0x10000));
}

/* The answer for a frame whose length, copies and check word are right. */
static int answer_by_form(const uint8_t *frame)
{
    const uint32_t ctrl = get_word(frame + AT_CTRL);
    const uint32_t obl = get_word(frame + AT_TCODE_OBL) & 0xFFFFu;
    const uint32_t rsv = get_word(frame + AT_RSV);

    if (!is_legal_ctrl(ctrl) || rsv != 0 || (obl != 0 && !may_have_obl(ctrl))) {
        return FOLDERPINK_FORM;
    }
    return FOLDERPINK_DONE;
}

static void compare_sealed(uint8_t *frame, size_t length)
{
    seal(frame, length);
    compare(frame, length, answer_by_form(frame));
}

static bool is_listed_length(size_t length)
{
    for (size_t listed = FOLDERPINK_FRAME_MIN; listed <= FOLDERPINK_FRAME_MAX;
         listed += FRAME_STEP) {
        if (listed == length) {
            return true;
        }
    }
    return false;
}

static int answer_by_length(size_t length)
{
    return is_listed_length(length) ? NOT_FIXED : FOLDERPINK_LENGTH;
}

/* ---- Fixed answers ---- */

/* The vectors of RFC 3720, B.4, and the answer for a frame whose SubPDUs begin with them. */
static const struct {
    uint8_t bytes[48];
    size_t length;
    uint32_t crc;
    uint8_t answer;
} rfc_vectors[] = {
    {{0}, 32, 0x8A9136AAu, 0},
    {{0xFF, 0xFF, 0xFF, 0xFF, 0xFF, 0xFF, 0xFF, 0xFF,
      0xFF, 0xFF, 0xFF, 0xFF, 0xFF, 0xFF, 0xFF, 0xFF,
      0xFF, 0xFF, 0xFF, 0xFF, 0xFF, 0xFF, 0xFF, 0xFF,
      0xFF, 0xFF, 0xFF, 0xFF, 0xFF, 0xFF, 0xFF, 0xFF},
     32, 0x62A8AB43u, 7},
    {{0x00, 0x01, 0x02, 0x03, 0x04, 0x05, 0x06, 0x07,
      0x08, 0x09, 0x0A, 0x0B, 0x0C, 0x0D, 0x0E, 0x0F,
      0x10, 0x11, 0x12, 0x13, 0x14, 0x15, 0x16, 0x17,
      0x18, 0x19, 0x1A, 0x1B, 0x1C, 0x1D, 0x1E, 0x1F},
     32, 0x46DD794Eu, 7},
    {{0x1F, 0x1E, 0x1D, 0x1C, 0x1B, 0x1A, 0x19, 0x18,
      0x17, 0x16, 0x15, 0x14, 0x13, 0x12, 0x11, 0x10,
      0x0F, 0x0E, 0x0D, 0x0C, 0x0B, 0x0A, 0x09, 0x08,
      0x07, 0x06, 0x05, 0x04, 0x03, 0x02, 0x01, 0x00},
     32, 0x113FDB5Cu, 7},
    {{0x01, 0xC0, 0x00, 0x00, 0x00, 0x00, 0x00, 0x00,
      0x00, 0x00, 0x00, 0x00, 0x00, 0x00, 0x00, 0x00,
      0x14, 0x00, 0x00, 0x00, 0x00, 0x00, 0x04, 0x00,
      0x00, 0x00, 0x00, 0x14, 0x00, 0x00, 0x00, 0x18,
      0x28, 0x00, 0x00, 0x00, 0x00, 0x00, 0x00, 0x00,
      0x02, 0x00, 0x00, 0x00, 0x00, 0x00, 0x00, 0x00},
     48, 0xD9963A56u, 7},
};

static void test_rfc_vectors(void)
{
    for (size_t i = 0; i < COUNT_OF(rfc_vectors); i++) {
        const size_t covered = rfc_vectors[i].length;
        const size_t length = 2 * (covered + WORD_SIZE);
        uint8_t frame[FOLDERPINK_FRAME_MAX];

        if (reference_crc32c(rfc_vectors[i].bytes, covered) != rfc_vectors[i].crc) {
            stop("the reference's CRC32 differs from a vector of RFC 3720");
        }
        memcpy(frame, rfc_vectors[i].bytes, covered);
        put_word(frame + covered, rfc_vectors[i].crc);
        copy_a_to_b(frame, length);
        compare(frame, length, rfc_vectors[i].answer);
    }
}

/* SubPDUs of seven words: CTRL, CID, T code and OBL, CC, RSV, S-Data, CRC32. */
static const struct {
    uint32_t subpdu[7];
    uint8_t answer;
} fixed_frames[] = {
    /* S-Refresh of the slave 1/3 to the master 1/2 */
    {{0xFF040000u, 0x01020103u, 0x00040000u, 1, 0, 42, 0x9807C77Eu}, 0},
    /* the same with RSV 1 */
    {{0xFF040000u, 0x01020103u, 0x00040000u, 1, 1, 42, 0xA016A8D2u}, 7},
    /* the same with Ack */
    {{0xFF840000u, 0x01020103u, 0x00040000u, 1, 0, 42, 0xB60D3024u}, 7},
    /* the same with the check word by the generator of Ethernet */
    {{0xFF040000u, 0x01020103u, 0x00040000u, 1, 0, 42, 0x41F786C6u}, 6},
    /* the same with the check word's lowest byte first */
    {{0xFF040000u, 0x01020103u, 0x00040000u, 1, 0, 42, 0x7EC70798u}, 6},
    /* S-Connect reply */
    {{0x00840000u, 0x01020103u, 0x03E80000u, 0, 0, 1, 0x70E6CBE0u}, 0},
    /* S-Connect reply without Application */
    {{0x00800000u, 0x01020103u, 0x03E80000u, 0, 0, 1, 0xA2457DF1u}, 7},
    /* S-Connect reply with Busy */
    {{0x00C40000u, 0x01020103u, 0x03E80000u, 0, 0, 1, 0x67E3B04Du}, 7},
    /* S-InitVerifyStnPrm reply with Busy */
    {{0x02C40000u, 0x01020103u, 0x03E80000u, 0, 0, 7, 0x3031A448u}, 0},
    /* S-RefreshReady reply with Busy and Error */
    {{0xFCE40000u, 0x01020103u, 0x03E80000u, 0, 0, 0, 0x92B49511u}, 0},
    /* S-RefreshReady request with Busy */
    {{0xFC400000u, 0x01020103u, 0x03E80000u, 0, 0, 0, 0xE76952F4u}, 7},
    /* S-RefreshGO reply with Busy */
    {{0xFEC40000u, 0x01020103u, 0x04100000u, 0, 0, 0, 0x9D733181u}, 7},
    /* S-Connect request with Error */
    {{0x00200000u, 0x01020103u, 0x03E80000u, 0, 0, 1, 0x053B0C05u}, 7},
    /* S-InitVerifyStnPrm reply with Error */
    {{0x02A40000u, 0x01020103u, 0x03E80000u, 0, 0, 7, 0xAE40594Bu}, 0},
    /* S-RefreshGO request at 1,040 with OBL 10 */
    {{0xFE000000u, 0x01020103u, 0x0410000Au, 0, 0, 0, 0x9406CE74u}, 0},
    /* S-RefreshGO reply */
    {{0xFE840000u, 0x01020103u, 0x04100000u, 0, 0, 0, 0x8A764A2Cu}, 0},
    /* S-RefreshGO reply with OBL 10 */
    {{0xFE840000u, 0x01020103u, 0x0410000Au, 0, 0, 0, 0x68AF8F3Fu}, 7},
    /* S-Disconnect with Ack */
    {{0xF9840000u, 0x01020103u, 0x03E80000u, 0, 0, 0, 0x546D4D46u}, 7},
    /* S-InvokeFunc request of one word */
    {{0x03000000u, 0x01020103u, 0x03E80000u, 0, 0, 10, 0xDEFA10F3u}, 0},
    /* the same with Busy */
    {{0x03400000u, 0x01020103u, 0x03E80000u, 0, 0, 10, 0xC9FF6B5Eu}, 7},
    /* S-InvokeFunc reply with Busy */
    {{0x03C40000u, 0x01020103u, 0x03E80000u, 0, 0, 10, 0x35562A15u}, 0},
    /* S-InvokeFunc reply without Application */
    {{0x03800000u, 0x01020103u, 0x03E80000u, 0, 0, 10, 0xF0F0E7A9u}, 7},
    /* S-InvokeFunc reply with Error */
    {{0x03A40000u, 0x01020103u, 0x03E80000u, 0, 0, 10, 0xAB27D716u}, 0},
    /* S-ReadErrorInfo request */
    {{0xFA000000u, 0x01020103u, 0x03E80000u, 0, 0, 0, 0x63F83D6Eu}, 0},
    /* S-ReadErrorInfo reply with Busy */
    {{0xFAC40000u, 0x01020103u, 0x03E80000u, 0, 0, 0, 0x88540788u}, 7},
    /* S-WriteErrorInfo reply with Error */
    {{0xFBA40000u, 0x01020103u, 0x03E80000u, 0, 0, 0, 0xAC6A3805u}, 0},
    /* S-WriteErrorInfo reply without Application */
    {{0xFB800000u, 0x01020103u, 0x03E80000u, 0, 0, 0, 0xF7BD08BAu}, 7},
    /* S-Refresh of the slave in session 7 */
    {{0xFF050007u, 0x01020103u, 0x00040000u, 1, 0, 42, 0xCEE346C5u}, 0},
    /* the same in session 0 */
    {{0xFF050000u, 0x01020103u, 0x00040000u, 1, 0, 42, 0xEDD43746u}, 0},
    /* the same with Sub CID 7, but not active */
    {{0xFF040007u, 0x01020103u, 0x00040000u, 1, 0, 42, 0xBB30B6FDu}, 7},
    /* S-Connect reply in session 7 */
    {{0x00850007u, 0x01020103u, 0x03E80000u, 0, 0, 1, 0x26024A5Bu}, 0},
    /* S-Connect request in session 7 */
    {{0x00010007u, 0x01020103u, 0x03E80000u, 0, 0, 1, 0xDAAB0B10u}, 7},
    /* the same in session 0 */
    {{0x00010000u, 0x01020103u, 0x03E80000u, 0, 0, 1, 0xF99C7A93u}, 7},
    /* S-Disconnect in session 65,535 */
    {{0xF901FFFFu, 0x01020103u, 0x03E80000u, 0, 0, 0, 0xFBDA0B32u}, 0},
    /* S-RefreshReady request in session 7 with the reserved bit */
    {{0xFC030007u, 0x01020103u, 0x03E80000u, 0, 0, 0, 0x4D2F4892u}, 7},
    /* S-RefreshMO request */
    {{0xFD000000u, 0x01020103u, 0x27150000u, 0, 0, 0, 0x7E0E747Du}, 0},
    /* the same with Offset op seq, in session 7 */
    {{0xFD110007u, 0x01020103u, 0x27150000u, 0, 0, 0, 0x6C50B691u}, 0},
    /* its reply */
    {{0xFD950007u, 0x01020103u, 0x27150000u, 0, 0, 0, 0x90F9F7DAu}, 0},
    /* the same with Error */
    {{0xFDB50007u, 0x01020103u, 0x27150000u, 0, 0, 0, 0x198D7174u}, 0},
    /* the same with Busy */
    {{0xFDD50007u, 0x01020103u, 0x27150000u, 0, 0, 0, 0x87FC8C77u}, 7},
    /* the same without Application */
    {{0xFD910007u, 0x01020103u, 0x27150000u, 0, 0, 0, 0x425A41CBu}, 7},
    /* S-RefreshMO request with MO busy */
    {{0xFD190007u, 0x01020103u, 0x27150000u, 0, 0, 0, 0xCCFBAC42u}, 7},
    /* S-RefreshMO request with OBL 3 */
    {{0xFD110007u, 0x01020103u, 0x27150003u, 0, 0, 0, 0x3D26FE3Eu}, 7},
    /* S-RefreshGO request with Offset op seq and OBL 3 */
    {{0xFE110007u, 0x01020103u, 0x274A0003u, 0, 0, 0, 0x046C31AFu}, 0},
    /* its reply */
    {{0xFE950007u, 0x01020103u, 0x274A0000u, 0, 0, 0, 0xA9B3384Bu}, 0},
    /* S-RefreshReady request with Offset op seq */
    {{0xFC110007u, 0x01020103u, 0x03E80000u, 0, 0, 0, 0xE232EBB5u}, 7},
    /* its reply with Offset op seq */
    {{0xFC950007u, 0x01020103u, 0x03E80000u, 0, 0, 0, 0x1E9BAAFEu}, 7},
    /* S-Refresh of the slave with Offset op seq */
    {{0xFF150007u, 0x01020103u, 0x00040000u, 1, 0, 42, 0x8A590592u}, 7},
    /* Cmd 0x04 */
    {{0x04000000u, 0x01020103u, 0x03E80000u, 0, 0, 0, 0x9CC3EE72u}, 7},
};

static void test_fixed_frames(void)
{
    for (size_t i = 0; i < COUNT_OF(fixed_frames); i++) {
        uint8_t frame[FOLDERPINK_FRAME_MIN];

        for (size_t word = 0; word < COUNT_OF(fixed_frames[i].subpdu); word++) {
            put_word(frame + WORD_SIZE * word, fixed_frames[i].subpdu[word]);
        }
        copy_a_to_b(frame, sizeof frame);
        compare(frame, sizeof frame, fixed_frames[i].answer);
        frame[sizeof frame - 1] ^= 1u;
        compare(frame, sizeof frame, 5);
    }
}

/* Lengths of document 01's cases, in frames that are sound in all else. */
static void test_fixed_lengths(void)
{
    static const struct {
        size_t length;
        uint8_t answer;
    } cases[] = {{56, 0}, {248, 0}, {48, 4}, {60, 4}, {256, 4}};

    for (size_t i = 0; i < COUNT_OF(cases); i++) {
        uint8_t frame[256];

        make_frame(frame, cases[i].length, 0xFF040000u, 0, 0);
        compare(frame, cases[i].length, cases[i].answer);
    }
}

/* ---- All values of one part of the frame ---- */

/*
 * Cmd and the bits 23 to 16; of the 65,536 values only the listed ones are sound, and all but one
 * of these in session 0.
 */
static void test_every_ctrl_upper_half(void)
{
    const uint64_t sound_before = counts[FOLDERPINK_DONE];
    uint8_t frame[FOLDERPINK_FRAME_MIN];

    for (uint32_t upper = 0; upper < 0x10000; upper++) {
        make_frame(frame, sizeof frame, upper << 16, 0, 0);
        compare(frame, sizeof frame, answer_by_form(frame));
    }
    if (counts[FOLDERPINK_DONE] - sound_before != 2 * COUNT_OF(legal_ctrl) - 1) {
        stop("number of sound CTRL words is not as listed");
    }
}

/* Without Sub CID active, and with it: in an S-Connect request, and in others. */
static void test_every_sub_cid(void)
{
    uint8_t frame[FOLDERPINK_FRAME_MIN];

    for (uint32_t sub_cid = 0; sub_cid < 0x10000; sub_cid++) {
        const uint32_t ctrl = legal_ctrl[random_below(COUNT_OF(legal_ctrl))];
        const uint32_t other = legal_ctrl[1 + random_below(COUNT_OF(legal_ctrl) - 1)];

        make_frame(frame, sizeof frame, ctrl | sub_cid, legal_obl(ctrl), 0);
        compare(frame, sizeof frame, sub_cid == 0 ? FOLDERPINK_DONE : FOLDERPINK_FORM);
        make_frame(frame, sizeof frame, in_session(CONNECT_REQUEST, sub_cid), 0, 0);
        compare(frame, sizeof frame, FOLDERPINK_FORM);
        make_frame(frame, sizeof frame, in_session(other, sub_cid), legal_obl(other), 0);
        compare(frame, sizeof frame, FOLDERPINK_DONE);
    }
}

static void test_every_obl(void)
{
    uint8_t frame[FOLDERPINK_FRAME_MIN];

    for (uint32_t obl = 1; obl < 0x10000; obl++) {
        const uint32_t ctrl = random_legal_ctrl();

        make_frame(frame, sizeof frame, GO_REQUEST, obl, 0);
        compare(frame, sizeof frame, FOLDERPINK_DONE);
        make_frame(frame, sizeof frame, GO_REQUEST_OF_SEQUENCE_1, obl, 0);
        compare(frame, sizeof frame, FOLDERPINK_DONE);
        make_frame(frame, sizeof frame, ctrl, obl, 0);
        compare(frame, sizeof frame, may_have_obl(ctrl) ? FOLDERPINK_DONE : FOLDERPINK_FORM);
    }
}

static void test_every_rsv_bit(void)
{
    uint8_t frame[FOLDERPINK_FRAME_MIN];

    for (size_t i = 0; i < COUNT_OF(legal_ctrl); i++) {
        for (unsigned bit = 0; bit < 32; bit++) {
            make_frame(frame, sizeof frame, legal_ctrl[i], legal_obl(legal_ctrl[i]), 1u << bit);
            compare(frame, sizeof frame, FOLDERPINK_FORM);
        }
    }
}

/* Each bit of a sound frame: in A only, in B only, in both, in both under a new check word. */
static void test_every_bit(size_t length, uint32_t ctrl)
{
    const size_t half_bits = 8 * (length / 2);
    uint8_t sound[FOLDERPINK_FRAME_MAX];
    uint8_t frame[FOLDERPINK_FRAME_MAX];

    make_frame(sound, length, ctrl, legal_obl(ctrl), 0);
    for (size_t bit = 0; bit < half_bits; bit++) {
        memcpy(frame, sound, length);
        flip_bit(frame, bit);
        compare(frame, length, FOLDERPINK_COPIES);
        flip_bit(frame, half_bits + bit);
        compare(frame, length, FOLDERPINK_CHECK_WORD);
        flip_bit(frame, bit);
        compare(frame, length, FOLDERPINK_COPIES);
        memcpy(frame, sound, length);
        flip_bit(frame, bit);
        compare_sealed(frame, length);
    }
}

static void test_every_bit_of_every_length(void)
{
    for (size_t length = FOLDERPINK_FRAME_MIN; length <= FOLDERPINK_FRAME_MAX;
         length += FRAME_STEP) {
        test_every_bit(length, random_legal_ctrl());
        test_every_bit(length, 0xFF040000u);
        test_every_bit(length, 0xFF050007u);
    }
}

/* ---- Lengths ---- */

/* A sound frame that is cut, or followed by further bytes. */
static void compare_resized(const uint8_t *frame, size_t length, size_t resized)
{
    uint8_t bytes[LONGEST_STRING];

    fill_random(bytes, resized);
    memcpy(bytes, frame, length < resized ? length : resized);
    compare(bytes, resized, resized == length ? FOLDERPINK_DONE : answer_by_length(resized));
}

static void test_every_resize(void)
{
    for (size_t length = FOLDERPINK_FRAME_MIN; length <= FOLDERPINK_FRAME_MAX;
         length += FRAME_STEP) {
        uint8_t frame[FOLDERPINK_FRAME_MAX];

        make_frame(frame, length, 0xFF000000u, 0, 0);
        for (size_t resized = 0; resized <= 300; resized++) {
            compare_resized(frame, length, resized);
        }
    }
}

static void test_every_length(void)
{
    for (size_t length = 0; length <= LONGEST_STRING; length++) {
        uint8_t bytes[LONGEST_STRING];

        memset(bytes, 0, length);
        compare(bytes, length, answer_by_length(length));
        fill_random(bytes, length);
        compare(bytes, length, answer_by_length(length));
        copy_a_to_b(bytes, length);
        compare(bytes, length, answer_by_length(length));
        if (length / 2 >= AT_RSV + 2 * WORD_SIZE) {
            make_frame(bytes, length, 0xFF040000u, 0, 0);
            compare(bytes, length,
                    is_listed_length(length) ? FOLDERPINK_DONE : FOLDERPINK_LENGTH);
        }
    }
}

/* Zero bytes that can be read only; the length's lowest 16 or 32 bits are those of a frame. */
static void test_long_string(size_t length)
{
    uint8_t *bytes =
        mmap(NULL, length, PROT_READ, MAP_PRIVATE | MAP_ANONYMOUS | MAP_NORESERVE, -1, 0);

    if (bytes == MAP_FAILED) {
        stop("mmap failed");
    }
    judge(bytes, length, folderpink_check_frame(bytes, length),
          reference_check_frame(bytes, length), FOLDERPINK_LENGTH);
    munmap(bytes, length);
}

static void test_long_strings(void)
{
    test_long_string(((size_t)1 << 16) + 72);
#if SIZE_MAX > UINT32_MAX
    test_long_string(((size_t)1 << 32) + 72);
#endif
}

/* ---- Random damage ---- */

static void damage(uint8_t *bytes, size_t length)
{
    const uint32_t times = 1 + random_below(4);

    for (uint32_t i = 0; i < times; i++) {
        bytes[random_below((uint32_t)length)] ^= (uint8_t)(1 + random_below(255));
    }
}

static void compare_bit_damage(const uint8_t *sound, size_t length)
{
    uint8_t frame[FOLDERPINK_FRAME_MAX];

    memcpy(frame, sound, length);
    flip_bit(frame, random_below(8 * (uint32_t)length));
    compare(frame, length, FOLDERPINK_COPIES);
}

static void compare_damage_in_one_copy(const uint8_t *sound, size_t length)
{
    const size_t half = length / 2;
    uint8_t frame[FOLDERPINK_FRAME_MAX];

    memcpy(frame, sound, length);
    damage(frame + (random_below(2) ? half : 0), half);
    compare(frame, length, NOT_FIXED);
}

static void compare_damage_in_both_copies(const uint8_t *sound, size_t length)
{
    const size_t half = length / 2;
    uint8_t frame[FOLDERPINK_FRAME_MAX];

    memcpy(frame, sound, length);
    flip_bit(frame, random_below(8 * (uint32_t)half));
    copy_a_to_b(frame, length);
    compare(frame, length, FOLDERPINK_CHECK_WORD);

    damage(frame, half);
    copy_a_to_b(frame, length);
    compare(frame, length, NOT_FIXED);

    compare_sealed(frame, length);
}

static void compare_other_fields(size_t length, uint32_t ctrl)
{
    const uint32_t not_zero = 1 + random_below(0xFFFF);
    uint8_t frame[FOLDERPINK_FRAME_MAX];

    make_frame(frame, length, random_word(), 0, 0);
    compare(frame, length, answer_by_form(frame));

    make_frame(frame, length, random_word() & 0xFFFF0000u, legal_obl(ctrl), 0);
    compare(frame, length, answer_by_form(frame));

    make_frame(frame, length, ctrl, 0, random_word() | 1u << random_below(32));
    compare(frame, length, FOLDERPINK_FORM);

    make_frame(frame, length, ctrl, not_zero, 0);
    compare(frame, length, may_have_obl(ctrl) ? FOLDERPINK_DONE : FOLDERPINK_FORM);

    make_frame(frame, length, without_session(ctrl) | not_zero, legal_obl(ctrl), 0);
    compare(frame, length, FOLDERPINK_FORM);
}

/* SubPDU-A of one sound frame with SubPDU-B of another. */
static void compare_mixed_copies(const uint8_t *sound, size_t length, uint32_t ctrl)
{
    const size_t half = length / 2;
    uint8_t frame[FOLDERPINK_FRAME_MAX];

    make_frame(frame, length, ctrl, legal_obl(ctrl), 0);
    memcpy(frame, sound, half);
    compare(frame, length, NOT_FIXED);
}

static void test_sound_and_damaged(size_t length, uint32_t ctrl)
{
    uint8_t sound[FOLDERPINK_FRAME_MAX];

    make_frame(sound, length, ctrl, legal_obl(ctrl), 0);
    compare(sound, length, FOLDERPINK_DONE);
    compare_bit_damage(sound, length);
    compare_damage_in_one_copy(sound, length);
    compare_damage_in_both_copies(sound, length);
    compare_other_fields(length, ctrl);
    compare_mixed_copies(sound, length, ctrl);
    compare_resized(sound, length, random_below(301));
    compare_resized(sound, length, random_below((uint32_t)length));
}

static void test_random_frames(void)
{
    for (unsigned round = 0; round < RANDOM_ROUNDS; round++) {
        for (size_t length = FOLDERPINK_FRAME_MIN; length <= FOLDERPINK_FRAME_MAX;
             length += FRAME_STEP) {
            for (size_t i = 0; i < COUNT_OF(legal_ctrl); i++) {
                test_sound_and_damaged(length, legal_ctrl[i]);
                test_sound_and_damaged(length, random_legal_ctrl());
            }
        }
    }
}

/* ---- Report ---- */

static void report(void)
{
    static const uint8_t answers[] = {FOLDERPINK_DONE, FOLDERPINK_LENGTH, FOLDERPINK_COPIES,
                                      FOLDERPINK_CHECK_WORD, FOLDERPINK_FORM};
    uint64_t total = 0;

    for (size_t i = 0; i < COUNT_OF(answers); i++) {
        const uint64_t count = counts[answers[i]];

        printf("check_frame_test: answer %u given %llu times\n", (unsigned)answers[i],
               (unsigned long long)count);
        if (count < LEAST_PER_ANSWER) {
            stop("an answer was given too seldom");
        }
        total += count;
    }
    if (total < LEAST_FRAMES) {
        stop("too few frames were compared");
    }
    printf("check_frame_test: %llu frames compared, 0 differ\n", (unsigned long long)total);
}

int main(void)
{
    set_signals();
    map_page();
    reference_init();

    test_rfc_vectors();
    test_fixed_frames();
    test_fixed_lengths();
    test_every_ctrl_upper_half();
    test_every_sub_cid();
    test_every_obl();
    test_every_rsv_bit();
    test_every_bit_of_every_length();
    test_every_resize();
    test_every_length();
    test_long_strings();
    test_random_frames();

    report();
    return EXIT_SUCCESS;
}
