/* The reference against the lines of docs/RULES.md, 9, then against each point
   of the rules that is easily misread. Prints the lines that fail. */
#include "reference.h"

#include <stdbool.h>
#include <stdio.h>
#include <string.h>

static unsigned checks, failures;

static void expect(bool ok, int line)
{
    checks++;
    if (!ok) {
        failures++;
        printf("selftest.c:%d fails\n", line);
    }
}

#define EXPECT(condition) expect(condition, __LINE__)

/* ---- A text under construction ---- */

static char text[70000];
static size_t length;

static void begin(void)
{
    length = 0;
}

static void add(const char *part)
{
    memcpy(text + length, part, strlen(part));
    length += strlen(part);
}

static void add_times(const char *part, int times)
{
    while (times--)
        add(part);
}

/* A statement, on as many cards as it needs. */
static void card_of(const char *words, const char *part, int times, const char *rest)
{
    char field[2000];
    strcpy(field, words);
    while (times--)
        strcat(field, part);
    strcat(field, rest);
    for (size_t at = 0; at == 0 || at < strlen(field); at += 66) {
        char one[80];
        sprintf(one, "%s%.66s\n", at ? "     1" : "      ", field + at);
        add(one);
    }
}

static void card(const char *words)
{
    card_of(words, "", 0, "");
}

/* ---- Replies ---- */

static uint8_t out[65536];
static uint64_t counts[2];

static bool is(uint64_t answer, unsigned number, unsigned at, uint64_t place)
{
    return answer == number + 256 * at + 65536 * place;
}

static uint64_t cards_reply(void)
{
    memset(out, 0xA5, sizeof out);
    return ref_write_cards((const uint8_t *)text, length, out, sizeof out, counts);
}

static uint64_t frames_reply(void)
{
    memset(out, 0xA5, sizeof out);
    return ref_write_frames((const uint8_t *)text, length, out, sizeof out, counts);
}

static bool cards_give(unsigned number, uint64_t place)
{
    return is(cards_reply(), number, number ? 1 : 0, place);
}

static bool frames_give(unsigned number, uint64_t place)
{
    return is(frames_reply(), number, number ? 1 : 0, place);
}

static bool deck_gives(const char *deck, unsigned number, uint64_t place)
{
    begin();
    add(deck);
    return frames_give(number, place);
}

/* One statement after VARS 1 and INIT 0, so on card 3. */
static bool third_gives(const char *words, const char *part, int times, const char *rest,
                        unsigned number)
{
    begin();
    card("VARS 1");
    card("INIT 0");
    card_of(words, part, times, rest);
    if (number == 0) {
        card("PROP 0");
        card("END");
    }
    return cards_give(number, number ? 3 : 0);
}

/* These cards in place of VARS 0, and the others of a deck without variables. */
static bool vars_give(const char *cards, unsigned number, uint64_t place)
{
    begin();
    add(cards);
    card("INIT");
    card("PROP 0");
    card("END");
    return cards_give(number, place);
}

/* A deck without variables that ends with these cards, from card 4 on. */
static bool end_gives(const char *cards, unsigned number, uint64_t place)
{
    begin();
    card("VARS 0");
    card("INIT");
    card("PROP 0");
    add(cards);
    return cards_give(number, place);
}

static uint64_t check(const char *deck, const char *claim)
{
    return ref_check((const uint8_t *)deck, strlen(deck), (const uint8_t *)claim, strlen(claim));
}

static uint64_t cone(const char *deck, uint64_t set)
{
    return ref_cone((const uint8_t *)deck, strlen(deck), set, counts);
}

static const char worked[] =
    "      VARS 4\n"
    "      INIT 0000\n"
    "      INIT 0011\n"
    "      V0=~V0\n"
    "      V1=(V0&V1)\n"
    "      V1=V0\n"
    "      V2=V3\n"
    "      V3=~V2\n"
    "      PROP (G~V1 & F V2)\n"
    "      END\n";

static const char piece_one[] =
    "010000000000000003\n"
    "020000000000000000\n"
    "03004200\n"
    "0301430001\n"
    "030100\n"
    "04474201\n"
    "050006\n";

static const char piece_two[] =
    "01000000000000000C\n"
    "020000000000000000\n"
    "02000000000000000C\n"
    "030203\n"
    "03034202\n"
    "044602\n"
    "050006\n";

static const char whole[] =
    "01000000000000000F\n"
    "020000000000000000\n"
    "02000000000000000C\n"
    "03004200\n"
    "0301430001\n"
    "030100\n"
    "030203\n"
    "03034202\n"
    "04434742014602\n"
    "050009\n";

static void worked_deck(void)
{
    char both[sizeof piece_one + sizeof piece_two];
    size_t bytes = strlen(piece_one) + strlen(piece_two);
    strcpy(both, piece_one);
    strcat(both, piece_two);

    memset(out, 0xA5, sizeof out);
    EXPECT(ref_reduce_cards((const uint8_t *)worked, strlen(worked), out, bytes, counts) == 0);
    EXPECT(counts[0] == 2 && counts[1] == bytes);
    EXPECT(memcmp(out, both, bytes) == 0 && out[bytes] == 0xA5);

    memset(out, 0xA5, sizeof out);
    EXPECT(is(ref_reduce_cards((const uint8_t *)worked, strlen(worked), out, bytes - 1, counts),
              17, 0, bytes));
    EXPECT(counts[0] == 0 && counts[1] == 0 && out[0] == 0xA5);

    begin();
    add(worked);
    EXPECT(cards_give(0, 0) && counts[0] == strlen(whole) && counts[1] == 0);
    EXPECT(memcmp(out, whole, strlen(whole)) == 0 && out[strlen(whole)] == 0xA5);
    begin();
    add(whole);
    EXPECT(frames_give(0, 0) && counts[0] == strlen(whole));
    EXPECT(memcmp(out, whole, strlen(whole)) == 0 && out[strlen(whole)] == 0xA5);

    memset(out, 0xA5, sizeof out);
    EXPECT(ref_reduce_frames((const uint8_t *)whole, strlen(whole), out, sizeof out, counts) == 0);
    EXPECT(counts[0] == 2 && counts[1] == bytes && memcmp(out, both, bytes) == 0);

    EXPECT(is(ref_write_frames((const uint8_t *)whole, strlen(whole), out, 0, counts),
              17, 0, strlen(whole)));
}

#define S0 "120000000000000000\n"
#define S1 "120000000000000001\n"
#define S2 "120000000000000002\n"
#define S4 "120000000000000004\n"
#define S8 "120000000000000008\n"
#define SC "12000000000000000C\n"

static const char bare_claim[] = "1100000001\n" S0 "150002\n";

static const char *bare_deck(const char *property)
{
    static char deck[200];
    strcpy(deck, "010000000000000000\n020000000000000000\n04");
    strcat(deck, property);
    strcat(deck, "\n050003\n");
    return deck;
}

static void proved_lines(void)
{
    EXPECT(check(piece_one, "1100010002\n" S0 S1 S2 "150004\n") == 0);
    EXPECT(is(check(piece_one, "1100000002\n" S0 S1 "150003\n"), 22, 2, 0));
    EXPECT(is(check(piece_one, "1100000001\n" S0 "150002\n"), 21, 2, 0));
    EXPECT(is(check(piece_one, "1100000001\n" S1 "150002\n"), 20, 2, 0));
    EXPECT(is(check(piece_two, "1100000004\n" S0 S8 SC S4 "150005\n"), 22, 2, 0));

    EXPECT(cone(whole, 2) == 0 && counts[0] == 3 && counts[1] == 2);
    EXPECT(cone(whole, 8) == 0 && counts[0] == 12 && counts[1] == 2);
    EXPECT(cone(whole, 0) == 0 && counts[0] == 0 && counts[1] == 0);

    begin();
    card("VARS 0");
    card("INIT");
    card("PROP 0");
    card("END");
    EXPECT(cards_give(0, 0));
    EXPECT(strlen(bare_deck("40")) == counts[0]);
    EXPECT(memcmp(out, bare_deck("40"), counts[0]) == 0);
    EXPECT(check(bare_deck("40"), bare_claim) == 0);
    EXPECT(check(bare_deck("494040"), bare_claim) == 0);
    EXPECT(is(check(bare_deck("494140"), bare_claim), 22, 2, 0));
    EXPECT(check(bare_deck("484140"), bare_claim) == 0);
}

static void run_lines(void)
{
    begin();
    card("VARS 0");
    card("INIT");
    card("PROP\t0");
    EXPECT(cards_give(2, 3));

    for (int continuations = 19; continuations <= 20; continuations++) {
        begin();
        card("VARS 0");
        card("INIT");
        card("PROP 0");
        add_times("     1\n", continuations);
        card("END");
        EXPECT(continuations == 19 ? cards_give(0, 0) : cards_give(7, 23));
    }

    static const char *const numbers[] = { "2       ", "2", "00000010", "0000001", "0000001 " };
    static const unsigned replies[] = { 5, 5, 0, 5, 5 };
    for (int i = 0; i < 5; i++) {
        begin();
        add("      VARS 0");
        add_times(" ", 60);
        add(numbers[i]);
        add("\n");
        card("INIT");
        card("PROP 0");
        card("END");
        EXPECT(cards_give(replies[i], replies[i] ? 1 : 0));
    }

    static const char *const variables[] = { "PROP V63", "PROP V64", "PROP V100" };
    static const unsigned variable_replies[] = { 15, 9, 8 };
    for (int i = 0; i < 3; i++) {
        begin();
        card("VARS 64");
        card_of("INIT ", "0", 64, "");
        card(variables[i]);
        card("END");
        EXPECT(cards_give(variable_replies[i], i ? 4 : 0));
    }

    for (int columns = 80; columns <= 81; columns++) {
        begin();
        add("      VARS 0");
        add_times(" ", columns - 12);
        add("\n");
        card("INIT");
        card("PROP 0");
        card("END");
        EXPECT(columns == 80 ? cards_give(0, 0) : cards_give(3, 1));
    }

    EXPECT(third_gives("V0=", "~", 31, "V0", 0));
    EXPECT(third_gives("V0=", "~", 32, "V0", 11));
}

static void points_of_cards(void)
{
    /* A lone 0 in column 6 opens a statement. */
    begin();
    add("     0\n");
    EXPECT(cards_give(8, 1));
    begin();
    card("VARS 0");
    card("INIT");
    card("PROP 0");
    card("END");
    add("     0\n");
    EXPECT(cards_give(8, 5));
    begin();
    add("     0\n     1VARS 0\n     0INIT\n");
    card("PROP 0");
    card("END");
    EXPECT(cards_give(0, 0));
    /* A continuation with a blank field continues; a blank card closes. */
    begin();
    add("      VARS\n     1\n     2 0\n");
    card("INIT");
    card("PROP 0");
    card("END");
    EXPECT(cards_give(0, 0));
    begin();
    add("      VARS\n\n     2 0\n");
    EXPECT(cards_give(6, 3));
    /* 2 and 3 look at the whole card, comments too; 4 and 5 don't look at comments. */
    begin();
    add_times(" ", 90);
    add("\t\n");
    EXPECT(cards_give(2, 1));
    begin();
    add("C");
    add_times(" ", 80);
    EXPECT(cards_give(3, 1));
    begin();
    add("C\177");
    EXPECT(cards_give(2, 1));
    begin();
    add("CXXXX");
    add_times("x", 75);
    EXPECT(cards_give(8, 0));
    /* A short card is filled before its last columns are judged. */
    begin();
    add_times(" ", 72);
    add("123");
    EXPECT(cards_give(5, 1));
    begin();
    add_times(" ", 72);
    add("12345678");
    EXPECT(cards_give(8, 0));
    /* Nothing follows a final byte 10; an empty text lacks its first statement. */
    begin();
    EXPECT(cards_give(8, 0));
    begin();
    add("C\n\n*\n");
    EXPECT(cards_give(8, 0));
    begin();
    add("      VARS 0\n      INIT\n      PROP 0\n      END");
    EXPECT(cards_give(0, 0));
    /* 8 names the statement that stands where another is due, or 0 at the end. */
    begin();
    card("VARS 0");
    card("INIT");
    card("END");
    EXPECT(cards_give(8, 3));
    begin();
    card("VARS 0");
    card("INIT");
    card("PROP 0");
    EXPECT(cards_give(8, 0));
    /* Numbers, with blanks gone, and the digits of INIT. */
    static const char *const vars[] = { "VARS 65", "VARS 04", "VARS 100", "VARS", "VARS 4X", "vars 4" };
    for (int i = 0; i < 6; i++) {
        begin();
        card(vars[i]);
        EXPECT(cards_give(8, 1));
    }
    begin();
    card("V A R S 4 4");
    card_of("INIT ", "01", 22, "");
    EXPECT(cards_give(8, 0));
    EXPECT(third_gives("V0=V01", "", 0, "", 8));
    EXPECT(third_gives("V00=V0", "", 0, "", 8));
    EXPECT(third_gives("INIT 01", "", 0, "", 8));
    EXPECT(third_gives("INIT", "", 0, "", 8));
    EXPECT(third_gives("INIT 2", "", 0, "", 8));
    /* The inside of a form that is not due is not read. */
    begin();
    card("VARS 1");
    card_of("PROP ", "~", 40, "0");
    EXPECT(cards_give(8, 2));
    begin();
    card("VARS 1");
    card("INIT 0");
    card("V0=V0");
    card("INIT 1");
    EXPECT(cards_give(8, 4));
    /* 8 and 11: the one met first from the left. */
    EXPECT(third_gives("V0=", "~", 32, "0)", 11));
    EXPECT(third_gives("V0=", "~", 32, ")", 8));
    EXPECT(third_gives("V0=", "~", 32, "", 8));
    EXPECT(third_gives("V0=", "~", 32, "V", 11));
    EXPECT(third_gives("V0=", "~", 32, "&", 8));
    EXPECT(third_gives("V0=", "~", 32, "U", 8));
    EXPECT(third_gives("V0=(V1)+", "~", 32, "0", 8));
    EXPECT(third_gives("PROP ", "(0&", 32, "0", 11));
    EXPECT(third_gives("V0=(V0)", "", 0, "", 8));
    /* 8 in equations is decided by the full grammar. */
    EXPECT(third_gives("V0=X)", "", 0, "", 8));
    EXPECT(third_gives("V0=X0", "", 0, "", 10));
    EXPECT(third_gives("V0=(0U1)", "", 0, "", 10));
    EXPECT(third_gives("V0=(0W1)", "", 0, "", 10));
    EXPECT(third_gives("V0=", "X", 32, "0", 11));
    /* 9, 10, 12, 13, 14 of one statement, in this order. */
    EXPECT(third_gives("V1=X0", "", 0, "", 9));
    EXPECT(third_gives("V0=(X0&V99)", "", 0, "", 9));
    for (int over = 0; over <= 1; over++) {
        begin();
        card("VARS 1");
        add_times("      INIT 0\n", 64 + over);
        add_times("      V0=V0\n", 256);
        card("PROP 0");
        card("END");
        EXPECT(over ? cards_give(12, 66) : cards_give(0, 0));
    }
    for (int over = 0; over <= 1; over++) {
        begin();
        card("VARS 1");
        card("INIT 0");
        add_times("      V0=~~~~~~~V0\n", 256);
        if (over)
            card("V0=V0");
        card("PROP 0");
        card("END");
        EXPECT(over ? cards_give(13, 259) : cards_give(0, 0));
    }
    begin();
    card("VARS 1");
    card("INIT 0");
    add_times("      V0=~~~~~~~V0\n", 255);
    card("V0=~~~~~~~~V0");
    EXPECT(cards_give(14, 258));
    for (int over = 0; over <= 1; over++) {
        /* 4 operators and 31 + 30 + 29 + 28 + 6 nodes, or one more */
        static const int nots[] = { 30, 29, 28, 27 };
        char property[300] = "PROP ";
        for (int part = 0; part < 4; part++) {
            strcat(property, "(");
            for (int i = 0; i < nots[part]; i++)
                strcat(property, "~");
            strcat(property, "0&");
        }
        begin();
        card("VARS 0");
        card("INIT");
        card_of(property, "~", 5 + over, "1))))");
        card("END");
        EXPECT(over ? cards_give(14, 3) : cards_give(0, 0));
    }
    /* Comments and blank cards may follow END; a lower-case c is no comment. */
    begin();
    card("VARS 0");
    card("INIT");
    card("PROP 0");
    card("END");
    add("C\n\n*END\n");
    EXPECT(cards_give(0, 0));
    begin();
    add("c     VARS 0\n");
    EXPECT(cards_give(4, 1));
}

#define BLANK_72 "                                                                        "
#define NUMBERED_BLANK BLANK_72 "00000020\n"

/* VARS 0 with so many continuations, the digit on the last card. So many comments
   stand before each continuation and after the last. */
static bool continued_give(int continuations, int comments, unsigned number, uint64_t place)
{
    char cards[20000] = "      VARS";
    for (int i = 1; i <= continuations; i++) {
        strcat(cards, "\n");
        for (int k = 0; k < comments; k++)
            strcat(cards, k % 2 ? "*    1 9\n" : "C\n");
        strcat(cards, "     1");
    }
    strcat(cards, " 0\n");
    for (int k = 0; k < comments; k++)
        strcat(cards, "C\n");
    return vars_give(cards, number, place);
}

/* (..((V0&V0)&(V0&V0))..) of so many leaves. */
static char *put_even(char *at, int leaves)
{
    if (leaves == 1)
        return at + sprintf(at, "V0");
    *at++ = '(';
    at = put_even(at, leaves / 2);
    *at++ = '&';
    at = put_even(at, leaves - leaves / 2);
    *at++ = ')';
    *at = 0;
    return at;
}

/* The text with these comments after each of its cards. */
static void comment_each_card(const char *comments)
{
    static char plain[sizeof text];
    size_t end = length;
    memcpy(plain, text, length);
    begin();
    for (size_t i = 0; i < end; i++) {
        text[length++] = plain[i];
        if (plain[i] == '\n')
            add(comments);
    }
}

/* The cards write the same frames with these comments after each of them. */
static bool same_with(const char *comments)
{
    static uint8_t without[sizeof out];
    if (!cards_give(0, 0))
        return false;
    uint64_t bytes = counts[0];
    memcpy(without, out, sizeof out);
    comment_each_card(comments);
    return cards_give(0, 0) && counts[0] == bytes && memcmp(out, without, sizeof out) == 0;
}

static void comments_between_cards(void)
{
    /* A comment closes nothing: before the first continuation, between two, before
       the last, after the last, or several in a row. */
    EXPECT(vars_give("      VARS\nC\n     1 0\n", 0, 0));
    EXPECT(vars_give("      VA\n*\n     1RS\n     2 0\n", 0, 0));
    EXPECT(vars_give("      VA\n     1R\nC RELAY 7\n     2S\n     3 0\n", 0, 0));
    EXPECT(vars_give("      VA\n     1RS\n* RELAY 7\n     2 0\n", 0, 0));
    EXPECT(vars_give("      VARS\n     1 0\nC\n", 0, 0));
    EXPECT(vars_give("      VARS\nC\n*\n*\nC\n     1 0\n", 0, 0));
    EXPECT(vars_give("C\n      VARS\nC\n     1\n*\n     2 0\nC\n*\n", 0, 0));
    EXPECT(vars_give("     0\nC\n     1VARS 0\n", 0, 0));
    /* Nothing on a comment is read, whatever it looks like. */
    EXPECT(vars_give("      VARS\nC    1 9\n*    0 9\nC     END\n     1 0\n", 0, 0));
    EXPECT(vars_give("      VARS\nC\n     1 65\n", 8, 1));
    EXPECT(vars_give("     0\nC\n     1VARS 65\n", 8, 1));
    EXPECT(vars_give("      VARS 0\nC\n     1 0\n", 8, 1));
    EXPECT(vars_give("      VARS 0\nC\n     1\nC\n      VARS 0\n", 8, 5));
    /* Where none is open, a comment opens none. */
    EXPECT(vars_give("C\n     1VARS 0\n", 6, 2));
    EXPECT(vars_give("C    0\n     1VARS 0\n", 6, 2));
    /* A blank card closes, also with a card number and with comments beside it. */
    EXPECT(vars_give("      VARS\n\n     1 0\n", 6, 3));
    EXPECT(vars_give("      VARS\n" NUMBERED_BLANK "     1 0\n", 6, 3));
    EXPECT(vars_give("      VARS\nC\n\n     1 0\n", 6, 4));
    EXPECT(vars_give("      VARS\n\nC\n     1 0\n", 6, 4));
    EXPECT(vars_give("      VARS\nC\n\n*\n     1 0\n", 6, 5));
    EXPECT(vars_give("      VARS\nC\n" NUMBERED_BLANK "*\n     1 0\n", 6, 5));
    EXPECT(vars_give("      VARS\nC\n     1 0\n\nC\n     2\n", 6, 6));
    EXPECT(vars_give("      VARS 0\nC\n" NUMBERED_BLANK "*\n", 0, 0));
    /* Comments are judged for 2 and 3, there as elsewhere, and not for 4 and 5. */
    EXPECT(vars_give("      VARS\nC\t\n     1 0\n", 2, 2));
    EXPECT(vars_give("      VARS\nC" NUMBERED_BLANK "     1 0\n", 3, 2));
    EXPECT(vars_give("      VARS\nc\n     1 0\n", 4, 2));
    EXPECT(vars_give("      VARS\nCX" BLANK_72 "2\n     1 0\n", 0, 0));
    /* Only continuations count towards 19: comments do not. */
    for (int comments = 0; comments <= 3; comments++) {
        EXPECT(continued_give(18, comments, 0, 0));
        EXPECT(continued_give(19, comments, 0, 0));
        EXPECT(continued_give(20, comments, 7, (uint64_t)(21 + 20 * comments)));
    }
    EXPECT(continued_give(1, 40, 0, 0));
    EXPECT(continued_give(2, 40, 0, 0));
    EXPECT(continued_give(19, 40, 0, 0));
    EXPECT(continued_give(20, 40, 7, 821));
    /* Nor do they count towards 1,320 characters, and this equation has as many. */
    char equation[1400] = "V0=";
    put_even(equation + 3, 264);
    EXPECT(strlen(equation) == 1320);
    begin();
    card("VARS 1");
    card("INIT 0");
    card(equation);
    card("PROP V0");
    card("END");
    EXPECT(same_with("C    1(V0&V0)(V0&V0)(V0&V0)(V0&V0)(V0&V0)(V0&V0)(V0&V0)(V0&V0)\n"));
    /* A comment between PROP and its continuation changes nothing that is written. */
    begin();
    add(worked);
    length -= strlen("      PROP (G~V1 & F V2)\n      END\n");
    add("      PROP (G~V1 &\nC THE SECOND CONJUNCT\n     1 F V2)\n      END\n");
    EXPECT(cards_give(0, 0) && counts[0] == strlen(whole));
    EXPECT(memcmp(out, whole, strlen(whole)) == 0 && out[strlen(whole)] == 0xA5);
    begin();
    add("     0VA\n     1RS 4\n      INIT 0\n     9000\n      INIT 0011\n      V0=\n     1~V0\n"
        "      V1=(V0&\n     2V1)\n      V1=V0\n     +\n      V2=V3\n      V3=~V2\n"
        "      P\n     1ROP (G~\n     2V1 & F V2\n     3)\n      E\n     1N\n     2D\n");
    EXPECT(same_with("*     ~\nC\n") && counts[0] == strlen(whole));
    EXPECT(memcmp(out, whole, strlen(whole)) == 0);
    /* END is continued like every statement; after it comments are free. */
    EXPECT(end_gives("      EN\nC\n     1D\n", 0, 0));
    EXPECT(end_gives("      END\nC\n*\n     1\n*\n", 0, 0));
    EXPECT(end_gives("      END\nC\n     1END\n", 8, 4));
    EXPECT(end_gives("      END\nC\n\n     1\n", 6, 7));
    EXPECT(end_gives("      END\nC\n      END\n", 8, 6));
    EXPECT(end_gives("      END\nC     END\n*     END", 0, 0));
}

#define SET "010000000000000001\n"
#define I0 "020000000000000000\n"
#define I1 "020000000000000001\n"

static void points_of_frames(void)
{
    /* Behind a code at level 33 nothing is seen. */
    begin();
    add(SET I0 "0300");
    add_times("42", 32);
    add("00ff\n");
    EXPECT(frames_give(11, 3));
    begin();
    add(SET I0 "0300");
    add_times("42", 32);
    add("4A\n");
    EXPECT(frames_give(16, 3));
    begin();
    add(SET I0 "0300434200");
    add_times("42", 31);
    add("\n");
    EXPECT(frames_give(16, 3));
    begin();
    add(SET I0 "0300000");
    add_times("42", 40);
    add("\n");
    EXPECT(frames_give(16, 3));
    begin();
    add(SET I0 "0300");
    add_times("42", 31);
    add("00\n0400\n050004\n");
    EXPECT(frames_give(0, 0));
    /* A line left open is not examined: the text ends early. */
    EXPECT(deck_gives("", 16, 0));
    EXPECT(deck_gives("\n", 16, 1));
    EXPECT(deck_gives("x", 16, 0));
    EXPECT(deck_gives(SET I0 "030000\n0400\n050004", 16, 0));
    EXPECT(deck_gives(SET I0 "030000\n0400\n050004\n", 0, 0));
    EXPECT(deck_gives(SET I0 "030000\n0400\n050004\n0", 16, 0));
    EXPECT(deck_gives(SET I0 "030000\n0400\n050004\n\n", 16, 6));
    EXPECT(deck_gives(SET I0 "0400\n050003\n", 15, 0));
    EXPECT(deck_gives(SET I0 "0400\n050003\n0", 16, 0));
    EXPECT(is(check(bare_deck("40"), "1100000001\n" S0 "150002\n\n"), 16, 2, 4));
    EXPECT(is(check(bare_deck("40"), "1100000001\n" S0 "150002\n0"), 16, 2, 0));
    EXPECT(is(check(bare_deck("40"), "1100000001\n" S0 "150002"), 16, 2, 0));
    EXPECT(is(check(bare_deck("40"), "1100000001\n" S0), 16, 2, 0));
    EXPECT(is(check(bare_deck("40"), ""), 16, 2, 0));
    /* Wrong kind, length, digits or count. */
    EXPECT(deck_gives(I0, 16, 1));
    EXPECT(deck_gives(SET "0400\n", 16, 2));
    EXPECT(deck_gives(SET I0 "0500\n", 16, 3));
    EXPECT(deck_gives("01000000000000001\n", 16, 1));
    EXPECT(deck_gives("01000000000000000a\n", 16, 1));
    EXPECT(deck_gives("0100000000000000000\n", 16, 1));
    EXPECT(deck_gives("010000000000000001\r\n", 16, 1));
    EXPECT(deck_gives(" 010000000000000001\n", 16, 1));
    EXPECT(deck_gives(SET I0 "030000\n0400\n050005\n", 16, 5));
    EXPECT(is(check(bare_deck("40"), "1100000001\n" S0 "150003\n"), 16, 2, 3));
    EXPECT(is(check(bare_deck("40"), "1100000001\n" S0 S0 "150003\n"), 16, 2, 3));
    /* The number of a 03: 40 on is no number, falling is met before 11. */
    EXPECT(deck_gives(SET I0 "034000\n", 16, 3));
    EXPECT(deck_gives(SET I0 "033F00\n", 9, 3));
    EXPECT(deck_gives(SET I0 "033F004\n", 16, 3));
    EXPECT(deck_gives(SET I0 "030000\n030000\n0400\n050005\n", 0, 0));
    begin();
    add("010000000000000003\n" I0 "030100\n0300");
    add_times("42", 32);
    add("00\n");
    EXPECT(frames_give(16, 4));
    /* An equal 65th initial state is no 12. */
    for (int equal = 0; equal <= 1; equal++) {
        begin();
        add("01FFFFFFFFFFFFFFFF\n");
        for (int i = 0; i < 64 + 1; i++) {
            char line[32];
            sprintf(line, "0200000000000000%02X\n", (unsigned)(equal && i == 64 ? 5 : i));
            add(line);
        }
        EXPECT(frames_give(equal ? 16 : 12, 66));
    }
    /* Line by line. */
    EXPECT(deck_gives(SET "020000000000000002\n" "xx\n", 9, 2));
    /* The lengths of a claim are judged before its states. */
    EXPECT(is(check(bare_deck("40"), "1100000000\n"), 16, 2, 1));
    EXPECT(is(check(bare_deck("40"), "1100000401\n"), 16, 2, 1));
    EXPECT(is(check(bare_deck("40"), "11FFFFFFFF\n"), 16, 2, 1));
    EXPECT(is(check(bare_deck("40"), "1100000400\n"), 16, 2, 0));
    /* A claim's state outside the deck's set. */
    EXPECT(is(check(bare_deck("40"), "1100000002\n" S0 S1 "xx\n"), 9, 2, 3));
    /* The deck before the claim and the cone's set. */
    begin();
    add_times("0", 64801);
    EXPECT(cards_give(1, 0) && frames_give(1, 0));
    EXPECT(is(ref_check((const uint8_t *)bare_deck("40"), strlen(bare_deck("40")),
                        (const uint8_t *)text, length), 1, 2, 0));
    EXPECT(is(ref_check((const uint8_t *)SET I0 "0400\n050003\n", 19 + 19 + 5 + 7,
                        (const uint8_t *)text, length), 15, 1, 0));
    length = 64800;
    EXPECT(frames_give(16, 0) && cards_give(3, 1));
    EXPECT(is(cone(SET I0 "0400\n050003\n", 2), 15, 1, 0));
    EXPECT(is(cone(SET I0 "030000\n0400\n050004\n", 6), 9, 0, 1));
    EXPECT(counts[0] == 0 && counts[1] == 0);
}

/* Truth on the run p = 1, c = 2 of states 0, 1, 0: V0 is false, then true at
   every odd place. */
static bool holds(const char *property)
{
    char deck[300];
    strcpy(deck, SET I0 I1 "030040\n030041\n04");
    strcat(deck, property);
    strcat(deck, "\n050006\n");
    return check(deck, "1100010002\n" S0 S1 S0 "150004\n") != 0;
}

static void truth(void)
{
    EXPECT(!holds("00") && holds("4500") && !holds("454500") && holds("45454500"));
    EXPECT(holds("4600") && !holds("4700") && holds("474600") && !holds("464700"));
    EXPECT(holds("484200" "00") && !holds("48" "4200" "40") && holds("48" "41" "00"));
    EXPECT(!holds("48" "41" "40") && holds("49" "41" "40") && !holds("49" "00" "40"));
    EXPECT(holds("47" "44" "00" "4500") && !holds("47" "43" "00" "4500"));
    EXPECT(holds("47" "44" "00" "48" "4200" "00"));
    EXPECT(holds("45" "47" "44" "43" "00" "45" "4200" "43" "4200" "45" "00"));
}

static void reading(void)
{
    struct ref_deck deck, zero;
    memset(&zero, 0, sizeof zero);
    memset(&deck, 0xA5, sizeof deck);
    EXPECT(is(ref_read_frames((const uint8_t *)SET I0 "0400\n050003\n", 50, &deck), 15, 1, 0));
    EXPECT(memcmp(&deck, &zero, sizeof deck) == 0);
    EXPECT(ref_read_cards((const uint8_t *)worked, strlen(worked), &deck) == 0);
    EXPECT(deck.set == 15 && deck.initials == 2 && deck.equations == 5 && deck.nodes == 9);
    EXPECT(deck.property_nodes == 6);

    /* By rising variable, each one's equations as typed. */
    begin();
    card("VARS 2");
    card("INIT 01");
    card("INIT 01");
    card("V1=0");
    card("V0=1");
    card("V1=V0");
    card("V0=1");
    card("PROP ((V0&V1)&(1+(0&1)))");
    card("END");
    static const char ordered[] = "010000000000000003\n" "020000000000000002\n"
        "030041\n030041\n030140\n030100\n" "0443430001444143" "4041\n050007\n";
    EXPECT(cards_give(0, 0) && counts[0] == strlen(ordered));
    EXPECT(memcmp(out, ordered, strlen(ordered)) == 0);
    static const char pieces[] =
        "010000000000000001\n020000000000000000\n030041\n030041\n0400\n050005\n"
        "010000000000000003\n020000000000000002\n030041\n030041\n030140\n030100\n0401\n050007\n"
        "010000000000000000\n020000000000000000\n04444143" "4041\n050003\n";
    EXPECT(ref_reduce_cards((const uint8_t *)text, length, out, sizeof out, counts) == 0);
    EXPECT(counts[0] == 3 && counts[1] == strlen(pieces));
    EXPECT(memcmp(out, pieces, strlen(pieces)) == 0);
}

int main(void)
{
    worked_deck();
    proved_lines();
    run_lines();
    points_of_cards();
    comments_between_cards();
    points_of_frames();
    truth();
    reading();
    printf("%u checks, %u failures\n", checks, failures);
    return failures != 0;
}
