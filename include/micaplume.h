/* Micaplume's operations on texts, for C. Cards, frames, numbers and places are those of docs/RULES.md.
 *
 * What a call is lent:
 *   text, deck, claim   a text to read, by its first byte and its length. Any bytes will do; no byte 0 is needed behind them. A deck is frames
 *                       unless the name of the call says cards; a claim is frames.
 *   out                 a buffer to write, by its first byte and its length. On success the first bytes are the result, as many as are counted, and
 *                       the bytes beyond stay as they were. On a refusal no byte changes.
 *   counts              where the two counts that are returned stand. It is not a lent buffer (RULES 1.4): every call stores both, and
 *                       stores zeros on a refusal.
 *
 * What the caller owes. No call can test it, and none does:
 *   - no pointer is NULL, also where the length is 0;
 *   - a text is valid for its whole length, out for its whole length and for writing, counts for two numbers, aligned as uint64_t is;
 *   - out and counts overlap neither each other nor a text. Two texts may be one;
 *   - during the call nobody else writes a text, or reads or writes out or counts.
 *
 * A call uses no heap, no files and nothing that outlives it, so calls may run side by side. Have 128 KiB of stack free; the most measured was 34.
 *
 * Every call returns a word: number + 256 * text + 65,536 * place.
 *   number   0 for success, 1 to 22 for the refusal of that number in RULES 7.2;
 *   text     the text at fault: 1 the deck, 2 the claim, 0 neither;
 *   place    the card, line, variable or step, or the bytes needed, as the table says. On success text and place are 0, so the word is 0.
 */
#ifndef MICAPLUME_H
#define MICAPLUME_H

#include <stddef.h>
#include <stdint.h>

#ifdef __cplusplus
extern "C" {
#endif

#define MICAPLUME_NUMBER(word) ((unsigned)((word) & 255))
#define MICAPLUME_TEXT(word) ((unsigned)((word) >> 8 & 255))
#define MICAPLUME_PLACE(word) ((uint64_t)(word) >> 16)

/* The longest text that is not refused with 1. */
#define MICAPLUME_TEXT_BYTES 64800

/* Lengths of out that are never refused with 17 (crates/station/proofs/Sizes.antt).
 * A deck has 26 bytes in its frames 01 and 05, 19 for each of at most 64 initial states, 5 for each of at most 256 equations, 2 for each of at most
 * 2,048 nodes in them, and 3 for its property and 2 for each of at most 128 nodes in it. */
#define MICAPLUME_DECK_BYTES 6877
/* A property of 128 nodes has at most 64 conjuncts, with 65 nodes in them together: 64 pieces of 6,621 bytes, and 2 for each of those nodes. */
#define MICAPLUME_PIECES_BYTES 423874

/* Reads a deck of cards, or of frames, and writes it to out as frames. counts: the bytes written, and 0. */
uint64_t micaplume_write_cards(const uint8_t *text, size_t text_length, uint8_t *out, size_t out_length, uint64_t counts[2]);
uint64_t micaplume_write_frames(const uint8_t *text, size_t text_length, uint8_t *out, size_t out_length, uint64_t counts[2]);

/* Reads a deck of cards, or of frames, splits its property and writes all reduced decks to out, one behind the other.
 * counts: the pieces, and the bytes written. */
uint64_t micaplume_reduce_cards(const uint8_t *text, size_t text_length, uint8_t *out, size_t out_length, uint64_t counts[2]);
uint64_t micaplume_reduce_frames(const uint8_t *text, size_t text_length, uint8_t *out, size_t out_length, uint64_t counts[2]);

/* The cone of a set of variables, bit i for Vi, in a deck of frames. counts: the cone as such a set, and its size. */
uint64_t micaplume_cone(const uint8_t *deck, size_t deck_length, uint64_t set, uint64_t counts[2]);

/* Checks a claimed run against a deck. 0: the claim is a run of the deck on which its property does not hold. */
uint64_t micaplume_check(const uint8_t *deck, size_t deck_length, const uint8_t *claim, size_t claim_length);

#ifdef __cplusplus
}
#endif

#endif
