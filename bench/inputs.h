/* The decks and claims that are measured. */
#ifndef INPUTS_H
#define INPUTS_H

#include <stddef.h>
#include <stdint.h>

enum { TEXT_MOST = 64800 };

struct text {
    size_t length;
    uint8_t byte[TEXT_MOST];
};

/* Each makes a deck of cards. */
void worked_deck(struct text *cards);
void limits_deck(struct text *cards);
void conjuncts_deck(struct text *cards);
void chain_deck(struct text *cards, unsigned variables);

/* Comment cards behind a deck, up to exactly so many bytes. */
void fill_with_comments(struct text *cards, size_t bytes);

/* The worked claim on the first piece (RULES 9.2), and a claim of so many states on
   the deck at all limits, half of them in the loop; as frames. */
void worked_claim(struct text *claim);
void limits_claim(struct text *claim, unsigned states);

/* A deck of cards without variables, and as frames a claim on it of so many
   states. */
void empty_deck(struct text *cards);
void empty_claim(struct text *claim, unsigned states);

#endif
