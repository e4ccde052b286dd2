/* Damaged captures, for tests of a program that reads captures. */
#ifndef MUTATE_H
#define MUTATE_H

#include <stddef.h>
#include <stdint.h>

/* Copies a capture (pcap in either byte order, or pcapng; other bytes are taken too) with one to eight alterations that the seed draws: bytes, cuts,
 * lengths and times of records, link type, snap length, parts doubled, dropped or put in. Over half of the results are captures that a reader
 * can go through to the end, with altered or cut packets; the others are broken.
 * Lent: from, of length bytes, which is only read; to, of most bytes, which overlaps it nowhere. Of a capture longer than most the start is taken.
 * It returns how many bytes of `to` are the result, at most `most`; the others are as they were or were written on the way. The result depends on
 * seed, from, length and most alone. */
size_t mutate(uint64_t seed, const uint8_t *from, size_t length, uint8_t *to, size_t most);

#endif
