/* A second opinion on decks, cones, pieces and claims, written from the
   rules (docs/RULES.md has them) and from nothing else. It uses no heap and keeps nothing between calls.

   Every operation answers number + 256 * text + 65536 * place; 0 is success.
   On a refusal the counts are zero and no byte of `out` changes; on success
   the bytes of `out` behind those written stay as they were. */
#ifndef REFERENCE_H
#define REFERENCE_H

#include <stddef.h>
#include <stdint.h>

enum {
    REF_INITIALS = 64,
    REF_EQUATIONS = 256,
    REF_EQUATION_NODES = 2048,
    REF_PROPERTY_NODES = 128
};

/* A deck as read: expressions are prefix codes as in frames. */
struct ref_deck {
    uint64_t set;
    unsigned initials;
    uint64_t initial[REF_INITIALS];
    unsigned equations;
    struct ref_equation {
        uint8_t variable;
        uint16_t start, nodes; /* its part of `code` */
    } equation[REF_EQUATIONS];
    unsigned nodes;
    uint8_t code[REF_EQUATION_NODES];
    unsigned property_nodes;
    uint8_t property[REF_PROPERTY_NODES];
};

/* Reading alone; all bytes of the deck are zero on a refusal. */
uint64_t ref_read_cards(const uint8_t *text, size_t n, struct ref_deck *deck);
uint64_t ref_read_frames(const uint8_t *text, size_t n, struct ref_deck *deck);

/* The deck as frames; counts: bytes written, 0. */
uint64_t ref_write_cards(const uint8_t *text, size_t n,
                         uint8_t *out, size_t room, uint64_t counts[2]);
uint64_t ref_write_frames(const uint8_t *text, size_t n,
                          uint8_t *out, size_t room, uint64_t counts[2]);

/* All pieces as frames; counts: pieces, bytes written. */
uint64_t ref_reduce_cards(const uint8_t *text, size_t n,
                          uint8_t *out, size_t room, uint64_t counts[2]);
uint64_t ref_reduce_frames(const uint8_t *text, size_t n,
                           uint8_t *out, size_t room, uint64_t counts[2]);

/* The cone of a set; counts: the cone, its size. */
uint64_t ref_cone(const uint8_t *deck, size_t n, uint64_t set, uint64_t counts[2]);

/* The verdict on a claimed run. */
uint64_t ref_check(const uint8_t *deck, size_t n, const uint8_t *claim, size_t m);

#endif
