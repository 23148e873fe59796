/* A front end in C: reads a deck of cards, prints it as frames, prints its
   pieces, finds the cone of V0, and checks the claim that the deck stays in its
   first initial state for ever.

       frontend DECK */
#include "micaplume.h"

#include <inttypes.h>
#include <stdio.h>
#include <string.h>

static uint8_t cards[MICAPLUME_TEXT_BYTES + 1];
static uint8_t frames[MICAPLUME_DECK_BYTES];
static uint8_t pieces[MICAPLUME_PIECES_BYTES];

/* The word of a reply as number, text and place. */
static void print_word(const char *what, uint64_t word)
{
    printf("%s: %u %u %" PRIu64 "\n", what, MICAPLUME_NUMBER(word), MICAPLUME_TEXT(word),
           MICAPLUME_PLACE(word));
}

/* The run that stays in the state of a frame 02, as a claim with p = 0 and c = 1. */
static size_t stay_in(const uint8_t *initial, char claim[64])
{
    return (size_t)sprintf(claim, "1100000001\n12%.16s\n150002\n", (const char *)initial + 2);
}

static void use_deck(size_t length)
{
    uint64_t counts[2];
    uint64_t word = micaplume_write_cards(cards, length, frames, sizeof frames, counts);
    print_word("deck", word);
    if (word != 0)
        return;
    size_t bytes = (size_t)counts[0];
    fwrite(frames, 1, bytes, stdout);

    print_word("pieces", micaplume_reduce_cards(cards, length, pieces, sizeof pieces, counts));
    printf("%" PRIu64 " pieces, %" PRIu64 " bytes\n", counts[0], counts[1]);
    fwrite(pieces, 1, (size_t)counts[1], stdout);

    print_word("cone of V0", micaplume_cone(frames, bytes, 1, counts));
    printf("%016" PRIX64 ", %" PRIu64 " variables\n", counts[0], counts[1]);

    char claim[64];
    const uint8_t *second_line = (const uint8_t *)memchr(frames, '\n', bytes) + 1;
    size_t claim_length = stay_in(second_line, claim);
    print_word("claim", micaplume_check(frames, bytes, (const uint8_t *)claim, claim_length));
}

int main(int argc, char **argv)
{
    FILE *file = argc == 2 ? fopen(argv[1], "rb") : NULL;
    if (file == NULL) {
        fprintf(stderr, "usage: frontend DECK\n");
        return 2;
    }
    use_deck(fread(cards, 1, sizeof cards, file));
    fclose(file);
    return 0;
}
