/*
 * Frame check in plain C, written from documents 01 and 02 alone: the host test compares
 * folderpink_check_frame with it, the benchmark takes it as the baseline.
 */
#ifndef REFERENCE_H
#define REFERENCE_H

#include <stddef.h>
#include <stdint.h>

/* Computes the CRC table. To be called once, before the functions below. */
void reference_init(void);

/* CRC32 by the Castagnoli generator, as RFC 3720 computes it. */
uint32_t reference_crc32c(const uint8_t *bytes, size_t length);

/* The same answers as folderpink_check_frame. */
uint8_t reference_check_frame(const uint8_t *bytes, size_t length);

#endif
