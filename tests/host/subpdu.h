/* The words of a SubPDU: where they stand, what CTRL holds, and how a word is read and written. */
#ifndef SUBPDU_H
#define SUBPDU_H

#include <stdint.h>

/* Byte offsets. */
#define AT_CTRL 0
#define AT_CID 4
#define AT_TCODE_OBL 8
#define AT_CC 12
#define AT_RSV 16
#define AT_DATA 20

#define WORD_SIZE 4

/* CTRL, bits 31 to 24. */
#define S_CONNECT 0x00u
#define S_INIT_CONFIRM_NET_PRM 0x01u
#define S_INIT_VERIFY_STN_PRM 0x02u
#define S_INVOKE_FUNC 0x03u
#define S_DISCONNECT 0xF9u
#define S_READ_ERROR_INFO 0xFAu
#define S_WRITE_ERROR_INFO 0xFBu
#define S_REFRESH_READY 0xFCu
#define S_REFRESH_MO 0xFDu
#define S_REFRESH_GO 0xFEu
#define S_REFRESH 0xFFu

/* CTRL, bits 23 to 0. */
#define ACK 0x00800000u
#define BUSY 0x00400000u
#define ERROR 0x00200000u
#define OFFSET_OP_SEQ 0x00100000u
#define MO_BUSY 0x00080000u
#define APPLICATION 0x00040000u
#define RESERVED 0x00020000u
#define SUB_CID_ACTIVE 0x00010000u
#define SUB_CID 0x0000FFFFu

/* The session number: no bit set without one. */
#define SESSION (SUB_CID_ACTIVE | SUB_CID)

static inline uint32_t get_word(const uint8_t *at)
{
    return (uint32_t)at[0] << 24 | (uint32_t)at[1] << 16 | (uint32_t)at[2] << 8 | at[3];
}

static inline void put_word(uint8_t *at, uint32_t word)
{
    at[0] = (uint8_t)(word >> 24);
    at[1] = (uint8_t)(word >> 16);
    at[2] = (uint8_t)(word >> 8);
    at[3] = (uint8_t)word;
}

#endif
