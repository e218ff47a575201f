/*
 * Mode S parity for callers in C and C++: the two seals (encoders of the parity field), the transponder, the sensor, and the
 * division of a recording of long replies.
 *
 * The functions are written in Rattle and proved: for every message, word and limit, the number returned and every byte of a
 * written buffer are what the definitions say. docs/C-INTERFACE.md draws the number and has a worked example for every answer.
 *
 * What no proof can see, and the caller has to promise:
 *
 *   - a pointer is valid for the length given with it: for reading, and where it is not const, for writing too;
 *   - a buffer that is written (`message` of the seals and of mode_s_correct, `remainders`) overlaps no other argument, and no
 *     other thread touches it during the call; buffers that are only read may be shared;
 *   - the length is the length: one that is too large is read past the end.
 *
 * A null pointer is allowed with the length 0, as any other pointer is: a message of length 0 is refused with 1, and a
 * confidence buffer of length 0 beside a message of 7 or 14 bytes is refused with 2. A recording of no bytes and no words is
 * divided. A null pointer with any other length is as undefined as everywhere in C.
 *
 * The functions keep nothing between calls, allocate nothing, call nothing outside the library, and return on every input. They
 * can be called from any number of threads.
 */
#ifndef MODE_S_H
#define MODE_S_H

#include <stddef.h>
#include <stdint.h>

#ifdef __cplusplus
extern "C" {
#endif

/* What was answered: mode_s_answer of a number. No answer is 0. */
enum {
    MODE_S_REFUSED = 1,   /* the call was refused: mode_s_refusal says why; no byte was written */
    MODE_S_SEALED = 2,    /* seals: the parity field was written */
    MODE_S_OWN = 3,       /* transponder: addressed to the own address */
    MODE_S_ALL_CALL = 4,  /* transponder: address FFFFFF in format 11 */
    MODE_S_NOT_OURS = 5,  /* transponder: everything else; mode_s_address is the address read */
    MODE_S_BROADCAST = 6, /* transponder: address FFFFFF in format 20 or 21 */
    MODE_S_CLEAN = 7,     /* sensor: the message carries the word; the confidence bits were not looked at */
    MODE_S_DENSE = 8,     /* sensor: mode_s_window is the lowest window with more low marks than the limit */
    MODE_S_NO_FIT = 9,    /* sensor: no change of low-confidence bits of one window makes the message carry the word, with a
                             first bit that agrees with its length */
    MODE_S_CORRECTED = 10, /* sensor: the message was corrected; it has a window, a count of bits changed and a mark */
    MODE_S_DIVIDED = 11   /* a recording: every remainder was written */
};

/* The mark of a correction: mode_s_mark of a number. */
enum {
    MODE_S_SOLE = 1,   /* no other change would have done */
    MODE_S_SEVERAL = 2 /* another change would have done too: the message may be the wrong one */
};

/*
 * Why a call was refused: mode_s_refusal of a number. The lowest that applies is given.
 *
 *   1  the message has neither 7 nor 14 bytes; a recording has not 14 bytes for each word (mode_s_remainders)
 *   2  the confidence buffer is not as long as the message (mode_s_correct)
 *   3  a word or an address is above 0xFFFFFF
 *   4  the limit is above 24 (mode_s_correct)
 *   5  the first bit contradicts the length: 0 belongs to 7 bytes, 1 to 14 (seals and mode_s_receive)
 *   6  the own address is 0x000000 or 0xFFFFFF (mode_s_receive)
 */

/* Seals a reply: writes R + word to the last three bytes. MODE_S_SEALED, or refused with 1, 3 or 5. */
uint64_t mode_s_seal_reply(uint8_t *message, size_t length, uint32_t word);

/* Seals an interrogation for an address: writes R + the upper half of address times G to the last three bytes.
   MODE_S_SEALED, or refused with 1, 3 or 5. */
uint64_t mode_s_seal_interrogation(uint8_t *message, size_t length, uint32_t address);

/* What a transponder with the address `own` makes of an interrogation: MODE_S_OWN, MODE_S_ALL_CALL, MODE_S_BROADCAST or
   MODE_S_NOT_OURS, or refused with 1, 3, 5 or 6. */
uint64_t mode_s_receive(uint32_t own, const uint8_t *message, size_t length);

/* Corrects a reply that should carry a word. A bit 1 of `confidence` marks a bit of low confidence; `limit`, 0 to 24, is the
   largest number of low marks in 24 consecutive bits with which a correction is tried. The message is written only where the
   answer is MODE_S_CORRECTED. MODE_S_CLEAN, MODE_S_DENSE, MODE_S_NO_FIT or MODE_S_CORRECTED, or refused with 1, 2, 3 or 4. */
uint64_t mode_s_correct(uint8_t *message, size_t length, const uint8_t *confidence, size_t confidence_length, uint32_t word,
                        uint32_t limit);

/* Divides a recording of long replies, 14 bytes each, and leaves the remainder of each by G in a word of its own, in the same
   order: the word that the reply carries. `length` is 14 times `count`. MODE_S_DIVIDED, or refused with 1, and then no word is
   written. The call makes its tables anew, in some two microseconds: it is for many replies at once. */
uint64_t mode_s_remainders(const uint8_t *replies, size_t length, uint32_t *remainders, size_t count);

/* The parts of a number. A part that an answer lacks is 0. */
static inline uint32_t mode_s_answer(uint64_t number) { return (uint32_t)(number & 0xFF); }
static inline uint32_t mode_s_refusal(uint64_t number) { return (uint32_t)(number >> 8 & 0xFF); }
static inline uint32_t mode_s_mark(uint64_t number) { return (uint32_t)(number >> 16 & 0xFF); }
static inline uint32_t mode_s_window(uint64_t number) { return (uint32_t)(number >> 24 & 0xFF); }
static inline uint32_t mode_s_bits(uint64_t number) { return (uint32_t)(number >> 32 & 0xFF); }
static inline uint32_t mode_s_address(uint64_t number) { return (uint32_t)(number >> 40 & 0xFFFFFF); }

/* The name of an answer, for a person: that of MODE_S_CORRECTED is "corrected". */
static inline const char *mode_s_answer_name(uint32_t answer) {
    switch (answer) {
    case MODE_S_REFUSED: return "refused";
    case MODE_S_SEALED: return "sealed";
    case MODE_S_OWN: return "own";
    case MODE_S_ALL_CALL: return "all-call";
    case MODE_S_NOT_OURS: return "not ours";
    case MODE_S_BROADCAST: return "broadcast";
    case MODE_S_CLEAN: return "clean";
    case MODE_S_DENSE: return "dense";
    case MODE_S_NO_FIT: return "no fit";
    case MODE_S_CORRECTED: return "corrected";
    case MODE_S_DIVIDED: return "divided";
    default: return "no answer";
    }
}

#ifdef __cplusplus
}
#endif

#endif
