/* Makes a bundle of cases and the reference's replies to them:

       generate SEED CASES BUNDLE EXPECTED

   The same seed and number of cases give the same bytes on any machine: no
   expression draws twice in an order that C leaves open. The formats are those
   of README.md. A table of the replies goes to standard output. No case
   carries its own expectation: the reference alone replies. */
#include "../reference/reference.h"

#include <stdbool.h>
#include <stdio.h>
#include <stdlib.h>
#include <string.h>

/* ---- Chance ---- */

static uint64_t seed_state;

static uint64_t draw(void)
{
    uint64_t z = seed_state += 0x9E3779B97F4A7C15u;
    z = (z ^ z >> 30) * 0xBF58476D1CE4E5B9u;
    z = (z ^ z >> 27) * 0x94D049BB133111EBu;
    return z ^ z >> 31;
}

static int below(int n)
{
    return (int)(draw() % (uint64_t)n);
}

static bool chance(int percent)
{
    return below(100) < percent;
}

static char any_of(const char *characters)
{
    return characters[below((int)strlen(characters))];
}

/* ---- Sheets: lists of lines ---- */

enum { LINE_BYTES = 4600, LINES = 1500, TEXT_ROOM = 65535 };

struct line {
    int length;
    uint8_t byte[LINE_BYTES];
};

struct sheet {
    int lines;
    struct line line[LINES];
};

static void set_line(struct line *line, const char *text)
{
    line->length = (int)strlen(text);
    memcpy(line->byte, text, strlen(text));
}

static void copy_line(struct line *to, const struct line *from)
{
    to->length = from->length;
    memcpy(to->byte, from->byte, (size_t)from->length);
}

/* Makes room for a line at the index; the line there is not yet set. */
static struct line *insert_line(struct sheet *sheet, int at)
{
    if (sheet->lines == LINES) {
        fprintf(stderr, "generate: a sheet is full\n");
        exit(2);
    }
    for (int i = sheet->lines++; i > at; i--)
        copy_line(&sheet->line[i], &sheet->line[i - 1]);
    return &sheet->line[at];
}

static void add_line(struct sheet *sheet, const char *text)
{
    set_line(insert_line(sheet, sheet->lines), text);
}

static void delete_line(struct sheet *sheet, int at)
{
    sheet->lines--;
    for (int i = at; i < sheet->lines; i++)
        copy_line(&sheet->line[i], &sheet->line[i + 1]);
}

static void repeat_line(struct sheet *sheet, int from, int to)
{
    static struct line held;
    copy_line(&held, &sheet->line[from]);
    copy_line(insert_line(sheet, to), &held);
}

static void swap_lines(struct sheet *sheet, int a, int b)
{
    static struct line held;
    copy_line(&held, &sheet->line[a]);
    copy_line(&sheet->line[a], &sheet->line[b]);
    copy_line(&sheet->line[b], &held);
}

static bool begins(const struct line *line, const char *word)
{
    int length = (int)strlen(word);
    return line->length >= length && memcmp(line->byte, word, (size_t)length) == 0;
}

static void insert_byte(struct line *line, int at, uint8_t byte)
{
    if (line->length == LINE_BYTES)
        return;
    memmove(line->byte + at + 1, line->byte + at, (size_t)(line->length - at));
    line->byte[at] = byte;
    line->length++;
}

static void delete_byte(struct line *line, int at)
{
    line->length--;
    memmove(line->byte + at, line->byte + at + 1, (size_t)(line->length - at));
}

static void insert_one_of(struct line *line, const char *characters)
{
    int at = below(line->length + 1);
    insert_byte(line, at, (uint8_t)any_of(characters));
}

static void change_to_one_of(struct line *line, const char *characters)
{
    if (line->length == 0)
        return;
    int at = below(line->length);
    line->byte[at] = (uint8_t)any_of(characters);
}

static void delete_any(struct line *line)
{
    if (line->length)
        delete_byte(line, below(line->length));
}

static void pad_line(struct line *line, int length)
{
    while (line->length < length)
        line->byte[line->length++] = ' ';
}

/* ---- Texts ---- */

struct text {
    int length;
    uint8_t byte[TEXT_ROOM];
};

static void add_byte(struct text *text, uint8_t byte)
{
    if (text->length < TEXT_ROOM)
        text->byte[text->length++] = byte;
}

static void join(struct text *text, const struct sheet *sheet)
{
    text->length = 0;
    for (int i = 0; i < sheet->lines; i++) {
        for (int k = 0; k < sheet->line[i].length; k++)
            add_byte(text, sheet->line[i].byte[k]);
        add_byte(text, 10);
    }
}

static void split_text(struct sheet *sheet, const char *text)
{
    sheet->lines = 0;
    while (*text) {
        const char *end = strchr(text, '\n');
        struct line *line = insert_line(sheet, sheet->lines);
        line->length = (int)(end - text);
        memcpy(line->byte, text, (size_t)line->length);
        text = end + 1;
    }
}

/* ---- The bundle ---- */

enum { BUFFER = 65536, BEHIND = 16, ROOM_MOST = BUFFER - BEHIND, FILL = 0xA5 };

static FILE *bundle, *expected;
static long cases;
static const char operations[] = "dDwWrRck";
static long tally[sizeof operations][23];

struct segment {
    int start, period, times;
};

/* How often the bytes at `start` repeat with this period. */
static int repeats(const struct text *text, int start, int period)
{
    int times = 1;
    while (start + (times + 1) * period <= text->length
           && memcmp(text->byte + start, text->byte + start + times * period, (size_t)period) == 0)
        times++;
    return times;
}

static void put_segments(const struct segment *segment, int count, const struct text *text)
{
    fprintf(bundle, "%02X", (unsigned)count);
    for (int i = 0; i < count; i++) {
        fprintf(bundle, "%04X%04X", (unsigned)segment[i].times, (unsigned)segment[i].period);
        fwrite(text->byte + segment[i].start, 1, (size_t)segment[i].period, bundle);
    }
}

/* A text as segments; a stretch that repeats is written once. */
static void put_text(const struct text *text)
{
    enum { MOST = 255, PERIODS = 82, WORTH = 24 };
    struct segment segment[MOST];
    int count = 0, plain = 0, at = 0;

    while (at < text->length) {
        struct segment found = { at, 0, 1 };
        if (count < MOST - 2) {
            int best = WORTH;
            for (int period = 1; period <= PERIODS; period++) {
                int times = repeats(text, at, period);
                if (period * (times - 1) > best) {
                    best = period * (times - 1);
                    found.period = period;
                    found.times = times;
                }
            }
        }
        if (found.period == 0) {
            at++;
            continue;
        }
        if (plain < at)
            segment[count++] = (struct segment){ plain, at - plain, 1 };
        segment[count++] = found;
        at += found.period * found.times;
        plain = at;
    }
    if (plain < text->length)
        segment[count++] = (struct segment){ plain, text->length - plain, 1 };
    put_segments(segment, count, text);
}

static uint8_t buffer[BUFFER];

static uint64_t digest(int bytes)
{
    uint64_t hash = 0xCBF29CE484222325u;
    for (int i = 0; i < bytes; i++)
        hash = (hash ^ buffer[i]) * 0x100000001B3u;
    return hash;
}

static uint64_t reply(char operation, const struct text *one, const struct text *two,
                      uint64_t set, int room, uint64_t counts[2])
{
    static struct ref_deck deck;
    size_t n = (size_t)one->length, m = (size_t)two->length, lent = (size_t)room;
    uint64_t result;

    memset(buffer, FILL, sizeof buffer);
    counts[0] = counts[1] = 0;
    switch (operation) {
    case 'w': return ref_write_cards(one->byte, n, buffer, lent, counts);
    case 'W': return ref_write_frames(one->byte, n, buffer, lent, counts);
    case 'r': return ref_reduce_cards(one->byte, n, buffer, lent, counts);
    case 'R': return ref_reduce_frames(one->byte, n, buffer, lent, counts);
    case 'c': return ref_cone(one->byte, n, set, counts);
    case 'k': return ref_check(one->byte, n, two->byte, m);
    default:
        result = operation == 'd' ? ref_read_cards(one->byte, n, &deck)
                                  : ref_read_frames(one->byte, n, &deck);
        counts[0] = deck.set;
        counts[1] = deck.initials + 65536 * (uint64_t)deck.equations;
        return result;
    }
}

static const struct text nothing;

/* The operations whose cases are written. */
static const char *written = operations;

static void emit(char operation, const struct text *one, const struct text *two,
                 uint64_t set, int room)
{
    if (!strchr(written, operation))
        return;
    uint64_t counts[2];
    uint64_t result = reply(operation, one, two, set, room, counts);
    unsigned number = (unsigned)(result & 255), text = (unsigned)(result >> 8 & 255);

    fprintf(bundle, "%c%08lX%08lX%08X", operation, (unsigned long)(set >> 32),
            (unsigned long)(set & 0xFFFFFFFFu), (unsigned)room);
    put_text(one);
    put_text(two);
    fputc(10, bundle);
    fprintf(expected, "%c %u %u %lu %08lX%08lX %08lX%08lX ", operation, number, text,
            (unsigned long)(result >> 16),
            (unsigned long)(counts[0] >> 32), (unsigned long)(counts[0] & 0xFFFFFFFFu),
            (unsigned long)(counts[1] >> 32), (unsigned long)(counts[1] & 0xFFFFFFFFu));
    uint64_t hash = digest(room + BEHIND);
    fprintf(expected, "%08lX%08lX\n", (unsigned long)(hash >> 32),
            (unsigned long)(hash & 0xFFFFFFFFu));
    tally[strchr(operations, operation) - operations][number]++;
    cases++;
}

/* The bytes that an operation writes or would write; 0 if it is refused before. */
static int bytes_needed(char operation, const struct text *one)
{
    uint64_t counts[2];
    uint64_t result = reply(operation, one, &nothing, 0, 0, counts);
    uint64_t bytes = (result & 255) == 17 ? result >> 16 : 0;
    return bytes < ROOM_MOST ? (int)bytes : ROOM_MOST;
}

static bool has_buffer(char operation)
{
    return strchr("wWrR", operation) != NULL;
}

/* One case, mostly with room enough, at times exact, too small or none. */
static void emit_deck(char operation, const struct text *one)
{
    int room = 0;
    if (has_buffer(operation)) {
        int bytes = bytes_needed(operation, one);
        if (bytes == 0)
            room = below(64);
        else
            switch (below(6)) {
            case 0: room = bytes - 1; break;
            case 1: room = chance(50) ? 0 : below(bytes); break;
            case 2: case 3: room = bytes; break;
            default: room = bytes + below(50) < ROOM_MOST ? bytes + below(50) : ROOM_MOST; break;
            }
        if (room > ROOM_MOST)
            room = ROOM_MOST;
    }
    emit(operation, one, &nothing, operation == 'c' ? draw() : 0, room);
}

/* All rooms that matter: none, one byte too small, exact, larger. */
static void emit_rooms(char operation, const struct text *one)
{
    int bytes = bytes_needed(operation, one);
    emit(operation, one, &nothing, 0, 0);
    if (bytes > 0 && bytes < ROOM_MOST - 40) {
        emit(operation, one, &nothing, 0, bytes - 1);
        emit(operation, one, &nothing, 0, bytes);
        emit(operation, one, &nothing, 0, bytes + 40);
    }
}

/* ---- Models: a deck before it is spelt as cards or as frames ---- */

enum { ZERO = 0x40, ONE, NOT, AND, OR, NEXT, SOMETIME, ALWAYS, UNTIL, WEAK };
enum { INITIALS = 66, EQUATIONS = 260, NODES = 4000 };

struct formula {
    int nodes;
    uint8_t code[NODES];
};

struct model {
    uint64_t set;
    int initials;
    uint64_t initial[INITIALS];
    int equations;
    int variable[EQUATIONS];
    int start[EQUATIONS + 1]; /* the code of equation i ends where that of i + 1 starts */
    struct formula codes;
    struct formula property;
};

static int arity(uint8_t code)
{
    if (code < NOT)
        return 0;
    return code == AND || code == OR || code == UNTIL || code == WEAK ? 2 : 1;
}

static int members(uint64_t set)
{
    int size = 0;
    for (; set; set &= set - 1)
        size++;
    return size;
}

static int member(uint64_t set, int index)
{
    while (index--)
        set &= set - 1;
    int variable = 0;
    while (!(set >> variable & 1))
        variable++;
    return variable;
}

static uint64_t first_variables(int n)
{
    return n == 64 ? ~(uint64_t)0 : ((uint64_t)1 << n) - 1;
}

static void put_code(struct formula *f, int code)
{
    f->code[f->nodes++] = (uint8_t)code;
}

/* A formula of so many nodes. Where few levels are left it is balanced. */
static void grow(struct formula *f, int nodes, int levels, bool temporal, uint64_t set)
{
    static const uint8_t ones[] = { NOT, NEXT, SOMETIME, ALWAYS };
    static const uint8_t twos[] = { AND, OR, UNTIL, WEAK };
    bool narrow = levels <= 14;

    if (nodes == 1) {
        if (set == 0 || chance(12))
            put_code(f, ZERO + below(2));
        else
            put_code(f, member(set, below(members(set))));
    } else if (nodes == 2 || (!narrow && chance(35))) {
        put_code(f, ones[temporal ? below(4) : 0]);
        grow(f, nodes - 1, levels - 1, temporal, set);
    } else {
        int left = narrow ? (nodes - 1) / 2 : 1 + below(nodes - 2);
        put_code(f, twos[below(temporal ? 4 : 2)]);
        grow(f, left, levels - 1, temporal, set);
        grow(f, nodes - 1 - left, levels - 1, temporal, set);
    }
}

/* One-operand operators down to the level, then a leaf. */
static void grow_deep(struct formula *f, int level, bool temporal, uint64_t set)
{
    while (--level)
        put_code(f, temporal ? any_of("\x42\x45\x46\x47") : NOT);
    grow(f, 1, 1, temporal, set);
}

/* Conjuncts under a balanced tree of `&`, of some nodes each. */
static void grow_conjuncts(struct formula *f, int conjuncts, int nodes, int levels, uint64_t set)
{
    if (conjuncts == 1) {
        grow(f, nodes, levels, true, set);
        return;
    }
    put_code(f, AND);
    grow_conjuncts(f, conjuncts / 2, nodes, levels - 1, set);
    grow_conjuncts(f, conjuncts - conjuncts / 2, nodes, levels - 1, set);
}

static bool has_initial(const struct model *m, uint64_t state)
{
    for (int i = 0; i < m->initials; i++)
        if (m->initial[i] == state)
            return true;
    return false;
}

/* Up to so many different initial states. */
static void fill_initials(struct model *m, int count)
{
    m->initials = 0;
    for (int tries = 0; tries < 4 * count && m->initials < count; tries++) {
        uint64_t state = draw() & m->set;
        if (chance(30))
            state &= draw() & draw();
        if (!has_initial(m, state))
            m->initial[m->initials++] = state;
    }
}

static void begin_equation(struct model *m, int variable)
{
    m->variable[m->equations++] = variable;
}

static void end_equation(struct model *m)
{
    m->start[m->equations] = m->codes.nodes;
}

static void clear_equations(struct model *m)
{
    m->equations = 0;
    m->codes.nodes = 0;
    m->start[0] = 0;
}

/* A small deck; `dense` if it is to be spelt as cards too. */
static void small_model(struct model *m, bool dense)
{
    int n = chance(70) ? below(6) : below(chance(80) ? 13 : 65);
    m->set = dense || chance(60) ? first_variables(n) : draw() & draw() & draw();
    fill_initials(m, 1 + below(chance(80) ? 4 : 12));
    clear_equations(m);
    for (int i = 0; i < members(m->set); i++) {
        int variable = member(m->set, i);
        uint64_t near = m->set;
        if (chance(60)) /* narrow cones: look at neighbours only */
            near &= (uint64_t)7 << (variable > 1 ? variable - 1 : 0);
        for (int equations = 1 + below(chance(70) ? 2 : 4); equations; equations--) {
            if (m->equations == 250 || m->codes.nodes > 1900)
                equations = 1;
            begin_equation(m, variable);
            grow(&m->codes, m->codes.nodes > 1900 ? 1 : 1 + below(6), 32, false, near);
            end_equation(m);
        }
    }
    m->property.nodes = 0;
    if (chance(50)) {
        grow(&m->property, 1 + below(14), 32, true, m->set);
    } else {
        int conjuncts = 1 + below(6);
        grow_conjuncts(&m->property, conjuncts, 1 + below(6), 32, m->set);
    }
}

struct sizes {
    int variables, initials, equations, nodes, property, level;
};

/* A deck of exactly these sizes; the first equation goes down to the level. */
static void sized_model(struct model *m, struct sizes s)
{
    m->set = first_variables(s.variables);
    fill_initials(m, s.initials);
    clear_equations(m);
    for (int i = 0; i < s.equations; i++) {
        int variable = i * s.variables / s.equations;
        begin_equation(m, variable);
        if (i == 0 && s.level > 1)
            grow_deep(&m->codes, s.level, false, m->set);
        else
            grow(&m->codes, (s.nodes - m->codes.nodes) / (s.equations - i), 32, false, m->set);
        end_equation(m);
    }
    m->property.nodes = 0;
    if (chance(50))
        grow(&m->property, s.property, 32, true, m->set);
    else { /* the most conjuncts of one or two nodes */
        int conjuncts = (s.property + 1) / 2;
        grow_conjuncts(&m->property, conjuncts, 1, 32, m->set);
        if (m->property.nodes < s.property) {
            m->property.nodes = 0;
            put_code(&m->property, ALWAYS);
            grow_conjuncts(&m->property, conjuncts, 1, 31, m->set);
        }
    }
}

/* ---- Spelling ---- */

static const uint8_t *spell(const uint8_t *code, char **at)
{
    static const char sign[] = "01~&+XFGUW";
    uint8_t c = *code++;
    if (c < ZERO) {
        *at += sprintf(*at, "V%d", c);
    } else if (arity(c) == 0) {
        *(*at)++ = sign[c - ZERO];
    } else if (arity(c) == 1) {
        *(*at)++ = sign[c - ZERO];
        code = spell(code, at);
    } else {
        *(*at)++ = '(';
        code = spell(code, at);
        *(*at)++ = sign[c - ZERO];
        code = spell(code, at);
        *(*at)++ = ')';
    }
    return code;
}

static char word[LINE_BYTES];

/* Statements without blanks; equations are mixed, some states stand twice. */
static void to_statements(const struct model *m, struct sheet *sheet)
{
    int n = members(m->set);
    sheet->lines = 0;
    sprintf(word, "VARS%d", n);
    add_line(sheet, word);
    for (int i = 0; i < m->initials; i++) {
        char *at = word + sprintf(word, "INIT");
        for (int v = 0; v < n; v++)
            *at++ = m->initial[i] >> v & 1 ? '1' : '0';
        *at = 0;
        add_line(sheet, word);
        if (m->initials < 32 && chance(10))
            add_line(sheet, word);
    }
    int first = sheet->lines;
    for (int i = 0; i < m->equations; i++) {
        char *at = word + sprintf(word, "V%d=", m->variable[i]);
        spell(m->codes.code + m->start[i], &at);
        *at = 0;
        add_line(sheet, word);
    }
    if (chance(60))
        for (int i = 1; i < m->equations; i++)
            swap_lines(sheet, first + i, first + below(i + 1));
    char *at = word + sprintf(word, "PROP");
    spell(m->property.code, &at);
    *at = 0;
    add_line(sheet, word);
    add_line(sheet, "END");
}

static char *put_hex(char *at, const uint8_t *code, int nodes)
{
    while (nodes--)
        at += sprintf(at, "%02X", *code++);
    return at;
}

static void add_state(struct sheet *sheet, unsigned kind, uint64_t state)
{
    sprintf(word, "%02X%08lX%08lX", kind, (unsigned long)(state >> 32),
            (unsigned long)(state & 0xFFFFFFFFu));
    add_line(sheet, word);
}

static void to_frames(const struct model *m, struct sheet *sheet)
{
    sheet->lines = 0;
    add_state(sheet, 0x01, m->set);
    for (int i = 0; i < m->initials; i++)
        add_state(sheet, 0x02, m->initial[i]);
    for (int i = 0; i < m->equations; i++) {
        char *at = word + sprintf(word, "03%02X", (unsigned)m->variable[i]);
        put_hex(at, m->codes.code + m->start[i], m->start[i + 1] - m->start[i]);
        add_line(sheet, word);
    }
    put_hex(word + sprintf(word, "04"), m->property.code, m->property.nodes);
    add_line(sheet, word);
    sprintf(word, "05%04X", (unsigned)sheet->lines);
    add_line(sheet, word);
}

/* ---- Layout: statements onto cards ---- */

/* A comment of free text, or the card before it made a comment. */
static void add_comment(struct sheet *cards)
{
    struct line *line = insert_line(cards, cards->lines);
    line->length = 0;
    if (cards->lines > 1 && chance(40))
        copy_line(line, line - 1);
    else
        for (int more = below(chance(50) ? 12 : 81); more; more--)
            line->byte[line->length++] = (uint8_t)(32 + below(95));
    pad_line(line, 1);
    line->byte[0] = (uint8_t)any_of("C*");
}

static void add_blank(struct sheet *cards)
{
    struct line *line = insert_line(cards, cards->lines);
    line->length = 0;
    pad_line(line, below(73));
    if (chance(20)) {
        pad_line(line, 72);
        for (int i = 0; i < 8; i++)
            line->byte[line->length++] = (uint8_t)('0' + below(10));
    }
}

static void add_aside(struct sheet *cards)
{
    if (chance(60))
        add_comment(cards);
    else
        add_blank(cards);
}

/* One comment or several in a row. */
static void add_comments(struct sheet *cards)
{
    for (int more = chance(60) ? 1 : 2 + below(3); more; more--)
        add_comment(cards);
}

static void close_card(struct line *line)
{
    if (chance(10)) {
        pad_line(line, 72);
        for (int i = 0; i < 8; i++)
            line->byte[line->length++] = (uint8_t)('0' + below(10));
    } else if (chance(5)) {
        pad_line(line, line->length + below(81 - line->length));
    }
}

/* Where each statement's first card is. */
static int first_card[LINES];

/* Statements onto cards, 66 characters to a card if plain. Else there may be
   blanks, card numbers, asides, and comments inside a statement: before none of
   its continuations, before some or before all. */
static void lay_out(const struct sheet *statements, struct sheet *cards, bool plain)
{
    static const int percent[] = { 0, 30, 100 };
    cards->lines = 0;
    for (int s = 0; s < statements->lines; s++) {
        const struct line *statement = &statements->line[s];
        bool loose = !plain && statement->length < 300;
        int at = 0, used = 0;
        if (!plain && chance(10))
            add_aside(cards);
        int commented = plain ? 0 : percent[below(3)];
        first_card[s] = cards->lines;
        do {
            if (used && chance(commented))
                add_comments(cards);
            struct line *card = insert_line(cards, cards->lines);
            int last = loose && used < 8 && chance(30) ? 7 + below(66) : 72;
            card->length = 0;
            pad_line(card, 5);
            card->byte[card->length++] = (uint8_t)(used ? (plain ? '1' : 33 + below(15))
                                                        : (plain || chance(80) ? ' ' : '0'));
            while (card->length < last && at < statement->length)
                card->byte[card->length++] = loose && chance(8) ? ' ' : statement->byte[at++];
            if (!plain)
                close_card(card);
            used++;
        } while (at < statement->length);
    }
    if (!plain && chance(20))
        add_aside(cards);
}

/* ---- Faults of statements. Some leave the deck right: the reference says. ---- */

static int find_statement(const struct sheet *sheet, const char *start)
{
    for (int i = 0; i < sheet->lines; i++)
        if (begins(&sheet->line[i], start))
            return i;
    return 0;
}

/* An equation if the target is one, else another, else the target. */
static struct line *pick_equation(struct sheet *sheet, int target)
{
    for (int i = 0; i < sheet->lines; i++) {
        struct line *line = &sheet->line[(target + i) % sheet->lines];
        if (begins(line, "V") && !begins(line, "VA"))
            return line;
    }
    return &sheet->line[target];
}

/* Puts the words at the first expression character behind = or PROP. */
static void set_expression(struct line *line, const char *words)
{
    int keep = begins(line, "PROP") ? 4 : 0;
    for (int i = 0; keep == 0 && i < line->length; i++)
        if (line->byte[i] == '=')
            keep = i + 1;
    line->length = keep;
    for (; *words && line->length < LINE_BYTES; words++)
        line->byte[line->length++] = (uint8_t)*words;
}

static const char *deep_words(void)
{
    static char words[300];
    char *at = words;
    int level = 1, last = 30 + below(5);
    bool left = chance(30);
    if (chance(15))
        at += sprintf(at, "(V0%c", any_of("&+UW)"));
    while (level++ < last)
        at += sprintf(at, "%s", left ? "(" : chance(80) ? "~" : "(0&");
    *at++ = any_of("01V~XFG()&+UW=29Z");
    if (chance(70))
        *at++ = any_of("01V)&");
    *at = 0;
    return words;
}

enum {
    BAD_CHARACTER, LOST_CHARACTER, LOST_STATEMENT, TWICE, SWAPPED, CUT_SHORT, OUTSIDE, OUTSIDE_LEFT,
    TEMPORAL, DEEP, MANY_INITIALS, MANY_EQUATIONS, MANY_NODES, LARGE_PROPERTY, NO_EQUATION, NO_END,
    AFTER_END, BAD_INIT, BAD_VARS, BAD_NUMBER, EMPTY_STATEMENT, STATEMENT_FAULTS
};

static void damage_statement(struct sheet *sheet, int fault, int target)
{
    static const char *const vars[] =
        { "VARS65", "VARS04", "VARS", "VARS100", "VARSX", "VAR4", "VARS00", "VARS99", "VARS64", "VARS0" };
    static const char *const after[] =
        { "END", "PROP0", "VARS1", "V0=0", "INIT", "", "X", "END1" };
    static const char *const numbers[] =
        { "V01", "V100", "V", "V00", "V640", "(V0&V)", "V0V", "(V1)", "V9", "V10", "V63", "V64" };
    struct line *line = &sheet->line[target];
    int number;
    char sign;

    switch (fault) {
    case BAD_CHARACTER:
        insert_one_of(line, "01V~XFG()&+UW=9Zv.");
        break;
    case LOST_CHARACTER:
        delete_any(line);
        break;
    case LOST_STATEMENT:
        if (sheet->lines > 1)
            delete_line(sheet, target);
        break;
    case TWICE:
        repeat_line(sheet, target, below(sheet->lines + 1));
        break;
    case SWAPPED:
        swap_lines(sheet, target, below(sheet->lines));
        break;
    case CUT_SHORT:
        line->length = below(line->length + 1);
        break;
    case OUTSIDE:
        number = below(100);
        sprintf(word, "(V0%cV%d)", any_of("&+UW"), number);
        set_expression(pick_equation(sheet, target), word);
        break;
    case OUTSIDE_LEFT:
        line = insert_line(sheet, find_statement(sheet, "PROP"));
        number = below(100);
        sprintf(word, "V%d=%s0", number, chance(50) ? "X" : "");
        set_line(line, word);
        break;
    case TEMPORAL:
        number = below(70);
        sign = any_of("~XFG");
        sprintf(word, "(%c0%cV%d)", sign, any_of("&+UW"), number);
        set_expression(pick_equation(sheet, target), word);
        break;
    case DEEP:
        set_expression(begins(line, "PROP") ? line : pick_equation(sheet, target), deep_words());
        break;
    case MANY_INITIALS:
        for (int more = 62 + below(4), at = find_statement(sheet, "INIT"); more; more--)
            repeat_line(sheet, at, at);
        break;
    case MANY_EQUATIONS:
        for (int more = 253 + below(6), at = find_statement(sheet, "PROP"); more; more--)
            set_line(insert_line(sheet, at), chance(99) ? "V0=0" : "V0=X0");
        break;
    case MANY_NODES:
        for (int more = 66 + below(3), at = find_statement(sheet, "PROP"); more; more--)
            set_line(insert_line(sheet, at), "V0=~~~~~~~~~~~~~~~~~~~~~~~~~~~~~~0");
        break;
    case LARGE_PROPERTY: {
        static struct formula f;
        f.nodes = 0;
        grow(&f, 126 + below(6), 32, true, 1);
        char *at = word;
        spell(f.code, &at);
        *at = 0;
        set_expression(&sheet->line[find_statement(sheet, "PROP")], word);
        break;
    }
    case NO_EQUATION:
        sprintf(word, "V%d=", below(4));
        for (int i = sheet->lines; i-- > 0 && sheet->lines > 1;)
            if (begins(&sheet->line[i], word))
                delete_line(sheet, i);
        break;
    case NO_END:
        sheet->lines -= below(sheet->lines < 4 ? sheet->lines : 4);
        break;
    case AFTER_END:
        add_line(sheet, after[below(8)]);
        break;
    case BAD_INIT:
        line = &sheet->line[find_statement(sheet, "INIT")];
        if (chance(50))
            insert_byte(line, line->length, (uint8_t)any_of("012"));
        else
            line->byte[line->length - 1] = (uint8_t)any_of("012X");
        break;
    case BAD_VARS:
        set_line(&sheet->line[0], vars[below(10)]);
        break;
    case BAD_NUMBER:
        line = chance(50) ? pick_equation(sheet, target)
                          : &sheet->line[find_statement(sheet, "PROP")];
        set_expression(line, numbers[below(12)]);
        break;
    default:
        set_line(line, "");
        break;
    }
}

/* ---- Faults of cards ---- */

enum {
    BAD_BYTE = STATEMENT_FAULTS, LONG_CARD, BAD_LABEL, BAD_COLUMNS, NOT_OPEN, CONTINUED, COMMENTED,
    FREE_COMMENT, BLANK_WITH_COLUMNS, LOST_MARK, LONG_TEXT, CARD_FAULTS
};

static void damage_card(struct sheet *cards, int fault, int target)
{
    static const char *const columns[] =
        { "2", "1234567", "1234567X", " 1234567", "1234 678", "       1", "        ", "00000010", "X" };
    static const uint8_t bytes[] = { 9, 127, 0, 13, 31, 128, 255, 11 };
    struct line *line = &cards->line[target];
    int at;

    switch (fault) {
    case BAD_BYTE:
        if (chance(20))
            pad_line(line, 80 + below(3));
        at = below(line->length + 1);
        insert_byte(line, at, bytes[below(8)]);
        break;
    case LONG_CARD:
        pad_line(line, 80 + below(3));
        if (chance(30))
            line->byte[line->length - 1] = (uint8_t)any_of("0X ");
        break;
    case BAD_LABEL:
        pad_line(line, 5);
        at = below(5);
        line->byte[at] = (uint8_t)any_of("0cX1C*.");
        break;
    case BAD_COLUMNS:
        if (line->length > 72)
            line->length = 72;
        pad_line(line, 72);
        for (const char *c = columns[below(9)]; *c; c++)
            line->byte[line->length++] = (uint8_t)*c;
        break;
    case NOT_OPEN: /* a continuation after a blank card, comments beside that or none */
        set_line(insert_line(cards, target), chance(50) ? "     1" : "     X V0");
        if (chance(50))
            set_line(insert_line(cards, target), "C");
        set_line(insert_line(cards, target), chance(50) ? "" : "       ");
        if (chance(50))
            set_line(insert_line(cards, target), "*    1");
        break;
    case CONTINUED: /* about as many continuations as there may be, comments among them or none */
        at = chance(50) ? 40 : 0;
        for (int more = 18 + below(4); more; more--) {
            set_line(insert_line(cards, target + 1), more % 5 ? "     1" : "     9      ");
            if (chance(at))
                set_line(insert_line(cards, target + 1), more % 2 ? "C" : "*    1V0");
        }
        break;
    case COMMENTED: /* comments after the card; then a continuation, or what stood there */
        if (chance(60))
            set_line(insert_line(cards, target + 1), chance(60) ? "     1" : "     X V0");
        for (int more = 1 + below(4); more; more--)
            set_line(insert_line(cards, target + 1), chance(50) ? "C" : "*    X~");
        break;
    case FREE_COMMENT:
        set_line(insert_line(cards, target), "C12345 free text");
        pad_line(&cards->line[target], 76);
        insert_byte(&cards->line[target], 76, '1');
        break;
    case BLANK_WITH_COLUMNS:
        line = insert_line(cards, target);
        line->length = 0;
        pad_line(line, 72);
        for (const char *c = columns[below(9)]; *c; c++)
            line->byte[line->length++] = (uint8_t)*c;
        break;
    default:
        pad_line(line, 6);
        line->byte[5] = (uint8_t)any_of(" 01X");
        break;
    }
}

/* Comment cards up to about the most bytes that a text may have. */
static void fill_with_comments(struct text *text)
{
    int length = 64798 + below(5);
    while (text->length + 80 < length) {
        add_byte(text, 'C');
        for (int i = 0; i < 70; i++)
            add_byte(text, ' ');
        add_byte(text, 10);
    }
    if (text->length < length)
        add_byte(text, 'C');
    while (text->length < length)
        add_byte(text, ' ');
}

/* ---- Faults of frames, of a deck or of a claim ---- */

enum {
    WRONG_KIND, LOWER_CASE, ODD_DIGITS, STRAY_BYTE, WRONG_COUNT, SWAPPED_FRAMES, TWICE_FRAME, EARLY_END,
    LINE_BEHIND, LOST_FRAME, OUTSIDE_CODE, OUTSIDE_BIT, WIDE_NUMBER, TEMPORAL_CODE, DEEP_CODE, MANY_02,
    MANY_03, MANY_CODES, LARGE_04, NO_03, SMALLER_SET, BEHIND_EXPRESSION, NO_CODE, EMPTY_LINE,
    OPEN_LINE, LONG_FRAMES, FRAME_FAULTS
};

static void recount(struct sheet *frames)
{
    if (frames->lines == 0)
        return;
    struct line *last = &frames->line[frames->lines - 1];
    const char *kind = begins(last, "05") ? "05" : begins(last, "15") ? "15" : NULL;
    if (kind) {
        sprintf(word, "%s%04X", kind, (unsigned)(frames->lines - 1));
        set_line(last, word);
    }
}

/* A line of this kind at or behind the target, around the end; else the target. */
static int pick_frame(const struct sheet *frames, int target, const char *kind)
{
    for (int i = 0; i < frames->lines; i++) {
        int at = (target + i) % frames->lines;
        if (begins(&frames->line[at], kind))
            return at;
    }
    return target;
}

/* Puts a pair at an even place of the line, behind its kind and number. */
static void set_pair(struct line *line, unsigned value)
{
    char pair[3];
    int pairs = line->length / 2;
    int from = begins(line, "03") ? 2 : 1;
    if (pairs <= from)
        return;
    sprintf(pair, "%02X", value & 255);
    memcpy(line->byte + 2 * (from + below(pairs - from)), pair, 2);
}

static void damage_frames(struct sheet *frames, int fault, int target)
{
    struct line *line = &frames->line[target];
    int at;

    switch (fault) {
    case WRONG_KIND:
        if (line->length > 1)
            line->byte[1] = (uint8_t)any_of("0123456F");
        break;
    case LOWER_CASE:
        change_to_one_of(line, "abcdef");
        break;
    case ODD_DIGITS:
        if (chance(50))
            delete_any(line);
        else
            insert_one_of(line, "0124F");
        break;
    case STRAY_BYTE:
        at = chance(50) ? line->length : below(line->length + 1);
        insert_byte(line, at, (uint8_t)any_of(" \r\tG:@`\x7F\xFF"));
        break;
    case WRONG_COUNT:
        line = &frames->line[frames->lines - 1];
        if (line->length)
            line->byte[line->length - 1] = (uint8_t)any_of("0123456789ABCDEF");
        break;
    case SWAPPED_FRAMES:
        swap_lines(frames, target, below(frames->lines));
        break;
    case TWICE_FRAME:
        repeat_line(frames, target, below(frames->lines + 1));
        recount(frames);
        break;
    case EARLY_END:
        frames->lines = target;
        break;
    case LINE_BEHIND:
        add_line(frames, chance(50) ? "" : "050000");
        break;
    case LOST_FRAME:
        delete_line(frames, target);
        recount(frames);
        break;
    case OUTSIDE_CODE:
        at = pick_frame(frames, target, chance(80) ? "03" : "04");
        set_pair(&frames->line[at], (unsigned)below(64));
        break;
    case OUTSIDE_BIT:
        at = pick_frame(frames, target, begins(&frames->line[0], "11") ? "12" : "02");
        set_pair(&frames->line[at], 1u << below(8));
        break;
    case WIDE_NUMBER:
        at = pick_frame(frames, target, "03");
        sprintf(word, "%02X", (unsigned)(chance(50) ? 64 : below(256)));
        if (frames->line[at].length > 4)
            memcpy(frames->line[at].byte + 2, word, 2);
        break;
    case TEMPORAL_CODE:
        at = pick_frame(frames, target, "03");
        line = &frames->line[at];
        if (line->length > 4 && chance(70)) {
            memmove(line->byte + 6, line->byte + 4, (size_t)(line->length - 4));
            line->length += 2;
            sprintf(word, "%02X", (unsigned)(NEXT + below(3)));
            memcpy(line->byte + 4, word, 2);
        } else {
            set_pair(line, (unsigned)(NEXT + below(5)));
        }
        break;
    case DEEP_CODE: {
        at = pick_frame(frames, target, chance(70) ? "03" : "04");
        line = &frames->line[at];
        int keep = begins(line, "03") ? 4 : 2;
        if (line->length < keep)
            break;
        line->length = keep;
        sprintf(word, "%s", chance(80) ? "" : "43004300");
        for (int deep = 29 + below(5); deep; deep--)
            strcat(word, chance(90) ? "42" : "4400");
        int last = chance(70) ? below(74) : below(256);
        sprintf(word + strlen(word), "%02X%s", (unsigned)last,
                chance(50) ? "" : chance(50) ? "00" : "4x");
        for (const char *c = word; *c; c++)
            line->byte[line->length++] = (uint8_t)*c;
        break;
    }
    case MANY_02:
        for (int more = 61 + below(5), i = 0; i < more; i++) {
            sprintf(word, "02%016X", chance(98) ? (unsigned)i : 3u);
            set_line(insert_line(frames, pick_frame(frames, 0, "02") + 1), word);
        }
        recount(frames);
        break;
    case MANY_03:
        at = pick_frame(frames, target, "03");
        for (int more = 253 + below(6); more; more--)
            repeat_line(frames, at, at);
        recount(frames);
        break;
    case MANY_CODES:
        at = pick_frame(frames, target, "03");
        line = &frames->line[at];
        if (line->length < 4)
            break;
        if (chance(30)) { /* all in one frame */
            static struct formula f;
            f.nodes = 0;
            grow(&f, 2040 + below(12), 32, false, 1);
            line->length = 4;
            put_hex(word, f.code, f.nodes);
            for (const char *c = word; *c; c++)
                line->byte[line->length++] = (uint8_t)*c;
            break;
        }
        line->length = 4;
        for (int deep = 0; deep < 30; deep++, line->length += 2)
            memcpy(line->byte + line->length, "42", 2);
        memcpy(line->byte + line->length, "40", 2);
        line->length += 2;
        for (int more = 66; more; more--)
            repeat_line(frames, at, at);
        recount(frames);
        break;
    case LARGE_04: {
        static struct formula f;
        f.nodes = 0;
        grow(&f, 126 + below(6), 32, true, 1);
        put_hex(word + sprintf(word, "04"), f.code, f.nodes);
        set_line(&frames->line[pick_frame(frames, target, "04")], word);
        break;
    }
    case NO_03:
        sprintf(word, "03%02X", (unsigned)below(4));
        for (int i = frames->lines; i-- > 0 && frames->lines > 1;)
            if (begins(&frames->line[i], word))
                delete_line(frames, i);
        recount(frames);
        break;
    case SMALLER_SET:
        set_pair(&frames->line[0], (unsigned)below(256));
        break;
    case BEHIND_EXPRESSION:
        sprintf(word, "%s", chance(50) ? "00" : chance(50) ? "0" : "ZZ");
        for (const char *c = word; *c; c++)
            insert_byte(line, line->length, (uint8_t)*c);
        break;
    case NO_CODE:
        at = pick_frame(frames, target, chance(70) ? "03" : "04");
        set_pair(&frames->line[at], (unsigned)(0x4A + below(0xB6)));
        break;
    case EMPTY_LINE:
        set_line(insert_line(frames, target), "");
        break;
    default:
        break; /* faults of the whole text */
    }
}

/* ---- Claims ---- */

static bool value_of(const uint8_t **code, uint64_t state)
{
    uint8_t c = *(*code)++;
    if (c < ZERO)
        return state >> c & 1;
    if (c < NOT)
        return c == ONE;
    bool first = value_of(code, state);
    if (c == NOT)
        return !first;
    bool second = value_of(code, state);
    return c == AND ? first && second : first || second;
}

/* A step by one equation of each variable, chosen anew. */
static uint64_t step(const struct model *m, uint64_t state)
{
    uint64_t next = 0;
    for (int i = 0; i < m->equations;) {
        int group = i;
        while (group < m->equations && m->variable[group] == m->variable[i])
            group++;
        const uint8_t *code = m->codes.code + m->start[i + below(group - i)];
        if (value_of(&code, state))
            next |= (uint64_t)1 << m->variable[i];
        i = group;
    }
    return next;
}

struct run {
    int prefix, states;
    uint64_t state[1100];
};

/* A real run of at most so many states: until a state comes again. If none
   does, the last step is not allowed as a rule. */
static void simulate(const struct model *m, struct run *run, int most)
{
    run->states = 0;
    uint64_t state = m->initial[below(m->initials)];
    while (run->states < most) {
        for (int i = 0; i < run->states; i++)
            if (run->state[i] == state && chance(60)) {
                run->prefix = i;
                return;
            }
        run->state[run->states++] = state;
        state = step(m, state);
    }
    run->prefix = below(most);
    for (int i = 0; i < most; i++)
        if (run->state[i] == state)
            run->prefix = i;
}

static void to_claim(const struct run *run, struct sheet *claim)
{
    claim->lines = 0;
    sprintf(word, "11%04X%04X", (unsigned)run->prefix, (unsigned)(run->states - run->prefix));
    add_line(claim, word);
    for (int i = 0; i < run->states; i++)
        add_state(claim, 0x12, run->state[i]);
    sprintf(word, "15%04X", (unsigned)(run->states + 1));
    add_line(claim, word);
}

static void damage_run(const struct model *m, struct run *run)
{
    int at = below(run->states);
    switch (below(6)) {
    case 0: /* another state */
        run->state[at] ^= (uint64_t)1 << below(64) & m->set;
        break;
    case 1: /* closes elsewhere */
        run->prefix = below(run->states);
        break;
    case 2: /* another start */
        run->state[0] = draw() & m->set;
        break;
    case 3: /* a state less */
        for (int i = at; i + 1 < run->states; i++)
            run->state[i] = run->state[i + 1];
        if (run->states > 1)
            run->states--;
        if (run->prefix >= run->states)
            run->prefix = run->states - 1;
        break;
    case 4: /* two states in the other order */
        if (at + 1 < run->states) {
            uint64_t held = run->state[at];
            run->state[at] = run->state[at + 1];
            run->state[at + 1] = held;
        }
        break;
    default: /* any variable in any state */
        run->state[at] = draw() & m->set;
        break;
    }
}

enum { BAD_LOOP = FRAME_FAULTS, LONG_LOOP, OTHER_LENGTHS, CLAIM_FAULTS };

static void damage_claim(struct sheet *claim, int fault, int target)
{
    static const char *const loops[] =
        { "1100000000", "1100050000", "11FFFF0000", "11040000000", "1104000000" };
    static const char *const longs[] =
        { "1100000401", "1103FF0002", "1104000001", "11FFFFFFFF", "11FFFF0001", "1100000400", "1103FF0001" };
    static const char *const lengths[] =
        { "1100000001", "1100000002", "1100010001", "1100000003", "110001000", "11000100011", "11" };
    switch (fault) {
    case BAD_LOOP: set_line(&claim->line[0], loops[below(5)]); break;
    case LONG_LOOP: set_line(&claim->line[0], longs[below(7)]); break;
    case OTHER_LENGTHS: set_line(&claim->line[0], lengths[below(7)]); break;
    default: damage_frames(claim, fault, target); break;
    }
}

/* Faults of a whole text of frames. */
static void damage_text(struct text *text, int fault)
{
    if (fault == OPEN_LINE && text->length) {
        if (chance(50))
            text->length -= 1 + below(text->length < 12 ? text->length : 12);
        else
            add_byte(text, '0');
    }
    if (fault == LONG_FRAMES) {
        int length = 64799 + below(4);
        uint8_t filler = chance(50) ? 10 : '0';
        while (text->length < length)
            add_byte(text, filler);
    }
}

/* ---- Suites ---- */

static struct model model;
static struct sheet statements, cards, frames, claim;
static struct text one, two;
static struct run run;

static char card_operation(void)
{
    return any_of("wwwrrrd");
}

static char frame_operation(void)
{
    return any_of("WWWRRRcD");
}

/* Every operation that takes this deck, with all rooms. */
static void emit_whole(const struct model *m)
{
    to_statements(m, &statements);
    lay_out(&statements, &cards, chance(50));
    join(&one, &cards);
    emit('d', &one, &nothing, 0, 0);
    emit_rooms('w', &one);
    emit_rooms('r', &one);
    to_frames(m, &frames);
    join(&one, &frames);
    emit('D', &one, &nothing, 0, 0);
    emit_rooms('W', &one);
    emit_rooms('R', &one);
    emit('c', &one, &nothing, 0, 0);
    emit('c', &one, &nothing, m->set & draw() & draw(), 0);
}

static void set_text(struct text *text, const char *words)
{
    text->length = (int)strlen(words);
    memcpy(text->byte, words, strlen(words));
}

static void check_lines(const char *deck, const char *words)
{
    set_text(&one, deck);
    set_text(&two, words);
    emit('k', &one, &two, 0, 0);
}

#define STATE(s) "12000000000000000" s "\n"

/* The worked deck and its lines (docs/RULES.md, 9). */
static void worked_deck(void)
{
    static const char deck[] =
        "      VARS 4\n      INIT 0000\n      INIT 0011\n      V0=~V0\n      V1=(V0&V1)\n"
        "      V1=V0\n      V2=V3\n      V3=~V2\n      PROP (G~V1 & F V2)\n      END\n";
    static const char piece_one[] =
        "010000000000000003\n020000000000000000\n03004200\n0301430001\n030100\n04474201\n050006\n";
    static const char piece_two[] =
        "01000000000000000C\n020000000000000000\n02000000000000000C\n030203\n03034202\n044602\n050006\n";
    static const char whole[] =
        "01000000000000000F\n020000000000000000\n02000000000000000C\n03004200\n0301430001\n030100\n"
        "030203\n03034202\n04434742014602\n050009\n";
    static const char *const bare[] = { "40", "494040", "494140", "484140" };

    set_text(&one, deck);
    emit('d', &one, &nothing, 0, 0);
    emit_rooms('w', &one);
    emit_rooms('r', &one);
    check_lines(piece_one, "1100010002\n" STATE("0") STATE("1") STATE("2") "150004\n");
    check_lines(piece_one, "1100000002\n" STATE("0") STATE("1") "150003\n");
    check_lines(piece_one, "1100000001\n" STATE("0") "150002\n");
    check_lines(piece_one, "1100000001\n" STATE("1") "150002\n");
    check_lines(piece_two,
                "1100000004\n" STATE("0") STATE("8") STATE("C") STATE("4") "150005\n");
    check_lines(whole, "1100000004\n" STATE("0") STATE("9") STATE("E") STATE("5") "150005\n");
    check_lines(whole, "1100000004\n" STATE("0") STATE("9") STATE("C") STATE("5") "150005\n");
    check_lines(whole, "1100000002\n" STATE("0") STATE("1") "150003\n");
    for (int i = 0; i < 4; i++) {
        char words[120];
        sprintf(words, "010000000000000000\n020000000000000000\n04%s\n050003\n", bare[i]);
        check_lines(words, "1100000001\n" STATE("0") "150002\n");
    }
    split_text(&cards, deck);
    insert_byte(&cards.line[2], 8, 9);
    join(&one, &cards);
    emit_deck('r', &one);
}

/* A deck of cards through all operations that take one. */
static void emit_cards(const char *words)
{
    set_text(&one, words);
    emit('d', &one, &nothing, 0, 0);
    emit_deck('w', &one);
    emit_deck('r', &one);
}

/* One variable, these cards for its equation, and this property. */
static void emit_small(const char *equation, const char *property)
{
    static char deck[9000];
    sprintf(deck, "      VARS 1\n      INIT 0\n%s      PROP %s\n      END\n", equation, property);
    emit_cards(deck);
}

/* The lines of RULES 9.5 about cards, and the decks of the incident: V12 across
   column 72, a tab before it, and V12 on a card that continues. */
static void named_lines(void)
{
    static const char *const beyond[] = { "2", "00000010", "0000001", "" };
    static const char *const last[] = { "63", "64", "100" };
    static const char *const slid[] = { "        V12)))))", "\tV12)))))", "\n     1V12)))))" };
    char words[4000];
    for (int more = 19; more <= 20; more++) {
        int at = sprintf(words, "      V0=\n");
        for (int i = 1; i < more; i++)
            at += sprintf(words + at, "     +\n");
        sprintf(words + at, "     +0\n");
        emit_small(words, "0");
    }
    for (int i = 0; i < 4; i++) {
        sprintf(words, "%-72s%s\n", "      V0=0", beyond[i]);
        emit_small(words, "0");
    }
    for (int columns = 80; columns <= 81; columns++) {
        sprintf(words, "%-*s\n", columns, "      V0=0");
        emit_small(words, "0");
    }
    for (int level = 32; level <= 33; level++) {
        memset(words, '~', 33);
        strcpy(words + level - 1, "0");
        emit_small("      V0=0\n", words);
    }
    for (int i = 0; i < 3; i++) {
        int at = sprintf(words, "      VARS 64\n      INIT%062d\n     100\n", 0);
        for (int v = 0; v < 63; v++)
            at += sprintf(words + at, "      V%d=0\n", v);
        sprintf(words + at, "      V63=V%s\n      PROP 0\n      END\n", last[i]);
        emit_cards(words);
    }
    for (int i = 0; i < 3; i++) {
        int at = sprintf(words,
                         "C GATE 7: THE LOCKOUT V0 BEHIND TWELVE RELAYS\n"
                         "      VARS 13\n      INIT 0000000000000\n"
                         "      V0=(((V1&V2)+(V3&V4))&((V5+V6)&((V7+V8)&((V9+V10)&(V11&~%s\n      V1=V12\n",
                         slid[i]);
        for (int v = 2; v < 12; v++)
            at += sprintf(words + at, "      V%d=V%d\n", v, v - 1);
        sprintf(words + at, "      V12=0\n      V12=1\n      PROP G~V0\n      END\n");
        emit_cards(words);
    }
}

/* Statements in place of the one due, each form of 8 among them, and the
   neighbours of 8: 9, 10 and 11. */
static void forms(void)
{
    static const char *const third[] = {
        "V0=0", "V0=1", "V0=V0", "V0=V1", "V1=0", "V0=V63", "V0=V64", "V64=0", "V99=V99", "V100=0",
        "V0=V100", "V0=V01", "V00=0", "V01=0", "V=0", "V0", "V0=", "V0==0", "V0=0=", "V0=00", "V0=01",
        "V0=2", "V0=V", "V0=~", "V0=~~0", "V0=0~", "V0=(", "V0=()", "V0=(0", "V0=(0)", "V0=(V0)",
        "V0=(0&", "V0=(0&1", "V0=(0&1)", "V0=(0&1))", "V0=((0&1)", "V0=(0+1)", "V0=(0-1)", "V0=(0U1)",
        "V0=(0W1)", "V0=(0X1)", "V0=X", "V0=X)", "V0=X0", "V0=F0", "V0=G0", "V0=XV9", "V9=X0", "V0=U",
        "V0=0U1", "V0=0&1", "V0=(0&1&0)", "V0=((0&1)&0)", "V0=(0&(1&0))", "V0=~(0&1)", "V0=(~0&~1)",
        "V0=v0", "v0=V0", "INIT0", "INIT1", "INIT", "INIT2", "INIT00", "INITV0", "INIT=0", "INI", "VARS1",
        "VARS", "PROP", "PROP0", "PROP1", "PROPV0", "PROPV1", "PROPV64", "PROPV100", "PROPX0", "PROPXFG0",
        "PROP(0U1)", "PROP(0W1)", "PROP(0UW1)", "PROP(0&)", "PROP=0", "PROP0)", "PRO0", "END", "END0",
        "ENDEND", "EN", "0", "~", "X", "=", "(0&1)", "Z", "C", "*",
        "V0=(V1)+~~~~~~~~~~~~~~~~~~~~~~~~~~~~~~~~0"
    };
    static const char *const start[] = { "VARS1", "INIT0", "V0=0", "PROP0", "END" };
    for (size_t i = 0; i < sizeof third / sizeof third[0]; i++)
        for (int place = 0; place <= 5; place++) {
            statements.lines = 0;
            for (int k = 0; k < 5; k++) {
                if (k == place)
                    add_line(&statements, third[i]);
                if (k != place || chance(50))
                    add_line(&statements, start[k]);
            }
            if (place == 5)
                add_line(&statements, third[i]);
            if (place != 2 && chance(60))
                continue;
            lay_out(&statements, &cards, chance(50));
            join(&one, &cards);
            emit_deck(card_operation(), &one);
        }
}

/* Level 32 and 33 met or not met, with every character behind. */
static void levels(void)
{
    static const char behind[] = "01V~XFG()&+UW=2Z";
    for (int nots = 30; nots <= 32; nots++)
        for (int c = 0; c <= (int)strlen(behind); c++)
            for (int left = 0; left <= 1; left++) {
                static const char *const head[] = { "VARS1", "INIT0" };
                char words[200];
                char *at = words + sprintf(words, "%s", chance(70) ? "V0=" : "PROP");
                for (int i = 0; i < nots; i++)
                    *at++ = left ? '(' : '~';
                if (behind[c])
                    *at++ = behind[c];
                sprintf(at, "%s", chance(50) ? "" : chance(50) ? "0" : ")");
                statements.lines = 0;
                add_line(&statements, head[0]);
                add_line(&statements, head[1]);
                add_line(&statements, words);
                lay_out(&statements, &cards, true);
                join(&one, &cards);
                emit_deck('w', &one);
            }
}

/* A deck at all limits, and one over each. */
static void limits(void)
{
    static const struct sizes sizes[] = {
        { 64, 64, 256, 2048, 128, 32 }, { 64, 64, 256, 2048, 127, 32 }, { 64, 65, 256, 2048, 128, 32 },
        { 64, 64, 257, 2048, 128, 32 }, { 64, 64, 256, 2049, 128, 32 }, { 64, 64, 256, 2048, 129, 32 },
        { 64, 64, 256, 2048, 128, 33 }, { 64, 65, 257, 2049, 129, 33 }, { 64, 64, 257, 2049, 129, 32 },
        { 63, 1, 63, 2048, 1, 1 }, { 64, 1, 64, 64, 127, 1 }, { 1, 1, 256, 256, 128, 1 },
        { 6, 64, 8, 2048, 128, 32 }, { 0, 1, 0, 0, 128, 1 }, { 64, 64, 64, 1000, 1, 1 }
    };
    for (int round = 0; round < 2; round++)
        for (size_t i = 0; i < sizeof sizes / sizeof sizes[0]; i++) {
            sized_model(&model, sizes[i]);
            if (round == 0 || i >= 9)
                emit_whole(&model);
            else {
                to_frames(&model, &frames);
                join(&one, &frames);
                emit_deck(any_of("WRc"), &one);
            }
        }
    for (int n = 0; n <= 64; n += 1 + below(5)) {
        sized_model(&model, (struct sizes){ n, 3, n, 2 * n, 9, 1 });
        to_statements(&model, &statements);
        lay_out(&statements, &cards, false);
        join(&one, &cards);
        emit_deck(any_of("wr"), &one);
    }
    /* A small deck in a text of about the most bytes. */
    for (int i = 0; i < 24; i++) {
        small_model(&model, true);
        to_statements(&model, &statements);
        lay_out(&statements, &cards, false);
        join(&one, &cards);
        fill_with_comments(&one);
        emit_deck(card_operation(), &one);
        to_frames(&model, &frames);
        join(&one, &frames);
        damage_text(&one, LONG_FRAMES);
        emit_deck(frame_operation(), &one);
    }
}

/* (..((V0&V0)&(V0&V0))..) of so many leaves. */
static char *put_even(char *at, int leaves)
{
    if (leaves == 1)
        return at + sprintf(at, "V0");
    *at++ = '(';
    at = put_even(at, leaves / 2);
    *at++ = '&';
    at = put_even(at, leaves - leaves / 2);
    *at++ = ')';
    *at = 0;
    return at;
}

/* An equation of 1,320 characters, which fill twenty cards, or of one more. */
static void full_statements(void)
{
    for (int over = 0; over <= 1; over++)
        for (int i = 0; i < 8; i++) {
            static const char *const start[] = { "V0=", "V0=~" };
            statements.lines = 0;
            add_line(&statements, "VARS1");
            add_line(&statements, "INIT0");
            put_even(word + sprintf(word, "%s", start[over]), 264);
            add_line(&statements, word);
            add_line(&statements, "PROPV0");
            add_line(&statements, "END");
            lay_out(&statements, &cards, i == 0);
            join(&one, &cards);
            emit_deck(card_operation(), &one);
        }
}

/* A counter of so many bits: each variable turns when all below are ones. */
static void counter_model(struct model *m, int bits)
{
    m->set = first_variables(bits);
    m->initials = 1;
    m->initial[0] = 0;
    clear_equations(m);
    for (int v = 0; v < bits; v++) {
        begin_equation(m, v);
        if (v == 0) {
            put_code(&m->codes, NOT);
            put_code(&m->codes, 0);
        } else {
            for (int side = 0; side < 2; side++) { /* (v & ~all) + (~v & all) */
                if (side == 0)
                    put_code(&m->codes, OR);
                put_code(&m->codes, AND);
                if (side == 1)
                    put_code(&m->codes, NOT);
                put_code(&m->codes, v);
                if (side == 0)
                    put_code(&m->codes, NOT);
                for (int below_v = 0; below_v < v; below_v++) {
                    if (below_v + 1 < v)
                        put_code(&m->codes, AND);
                    put_code(&m->codes, below_v);
                }
            }
        }
        end_equation(m);
    }
}

/* Each variable takes any value in each step. */
static void free_model(struct model *m, int variables)
{
    m->set = first_variables(variables);
    fill_initials(m, 4);
    clear_equations(m);
    for (int v = 0; v < variables; v++)
        for (int value = 0; value < 2; value++) {
            begin_equation(m, v);
            put_code(&m->codes, ZERO + value);
            end_equation(m);
        }
}

static void emit_claim(void)
{
    to_frames(&model, &frames);
    join(&one, &frames);
    to_claim(&run, &claim);
    join(&two, &claim);
    emit('k', &one, &two, 0, 0);
}

/* Claims of the most states, and loops of one state. */
static void long_claims(void)
{
    for (int i = 0; i < 14; i++) {
        counter_model(&model, 10);
        model.property.nodes = 0;
        grow(&model.property, 1 + below(20), 32, true, model.set);
        simulate(&model, &run, 1024);
        run.prefix = 0;
        run.states = 1024;
        for (int k = 0; k < 1024; k++)
            run.state[k] = (uint64_t)k;
        if (i % 4 == 1)
            run.prefix = below(1024);
        if (i % 4 == 2)
            run.state[below(1024)] ^= 1;
        emit_claim();
    }
    for (int i = 0; i < 14; i++) {
        free_model(&model, i < 10 ? 1 + below(4) : 64);
        model.property.nodes = 0;
        grow(&model.property, i < 10 ? 8 + below(40) : 128, 32, true, model.set);
        run.states = i % 2 ? 1024 : 200 + below(824);
        run.prefix = i % 3 == 0 ? run.states - 1 : i % 3 == 1 ? 0 : below(run.states);
        uint64_t rare = draw() & draw() & draw();
        for (int k = 0; k < run.states; k++)
            run.state[k] = chance(4) ? draw() & model.set : rare & model.set;
        run.state[0] = model.initial[0];
        emit_claim();
    }
    for (int i = 0; i < 150; i++) {
        free_model(&model, 1 + below(3));
        model.property.nodes = 0;
        grow(&model.property, 1 + below(30), 32, true, model.set);
        run.states = 1 + below(9);
        run.prefix = i % 3 == 0 ? run.states - 1 : i % 3 == 1 ? 0 : below(run.states);
        for (int k = 0; k < run.states; k++)
            run.state[k] = draw() & model.set;
        if (chance(97))
            run.state[0] = model.initial[0];
        emit_claim();
    }
}

/* Damages statements, cards and text by two faults, the second where the
   first is or elsewhere. */
static void two_faults_of_cards(int first, int second)
{
    int fault[2] = { first, second };
    bool same = chance(50);
    int target;

    small_model(&model, true);
    to_statements(&model, &statements);
    target = below(statements.lines);
    for (int i = 0; i < 2; i++)
        if (fault[i] < STATEMENT_FAULTS) {
            if (target >= statements.lines || (i && !same))
                target = below(statements.lines);
            damage_statement(&statements, fault[i], target);
        }
    lay_out(&statements, &cards, chance(50));
    int card = target < statements.lines ? first_card[target] : 0;
    for (int i = 0; i < 2; i++)
        if (fault[i] >= STATEMENT_FAULTS && fault[i] != LONG_TEXT) {
            if (card >= cards.lines || !same)
                card = below(cards.lines);
            damage_card(&cards, fault[i], card);
        }
    join(&one, &cards);
    if (first == LONG_TEXT || second == LONG_TEXT)
        fill_with_comments(&one);
    else if (chance(15) && one.length)
        one.length--;
    emit_deck(card_operation(), &one);
}

static void two_faults_of_frames(int first, int second)
{
    int fault[2] = { first, second };
    bool same = chance(50);
    small_model(&model, false);
    to_frames(&model, &frames);
    int target = below(frames.lines);
    for (int i = 0; i < 2; i++) {
        if (frames.lines == 0)
            break;
        if (target >= frames.lines || (i && !same))
            target = below(frames.lines);
        damage_frames(&frames, fault[i], target);
    }
    join(&one, &frames);
    damage_text(&one, first);
    damage_text(&one, second);
    emit_deck(frame_operation(), &one);
}

static void two_faults_of_claims(int first, int second)
{
    int fault[2] = { first, second };
    small_model(&model, false);
    simulate(&model, &run, 1 + below(8));
    if (chance(30))
        damage_run(&model, &run);
    to_frames(&model, &frames);
    join(&one, &frames);
    to_claim(&run, &claim);
    for (int i = 0; i < 2; i++)
        if (claim.lines)
            damage_claim(&claim, fault[i], below(claim.lines));
    join(&two, &claim);
    damage_text(&two, first);
    damage_text(&two, second);
    emit('k', &one, &two, 0, 0);
}

/* A faulty deck goes before a faulty claim. */
static void deck_and_claim_faults(void)
{
    static const int of_claim[] = { BAD_LOOP, LONG_FRAMES, OUTSIDE_BIT, LOWER_CASE };
    for (int a = 0; a < FRAME_FAULTS; a++)
        for (int b = 0; b < 4; b++) {
            small_model(&model, false);
            simulate(&model, &run, 1 + below(8));
            to_frames(&model, &frames);
            damage_frames(&frames, a, below(frames.lines));
            join(&one, &frames);
            damage_text(&one, a);
            to_claim(&run, &claim);
            damage_claim(&claim, of_claim[b], below(claim.lines));
            join(&two, &claim);
            damage_text(&two, of_claim[b]);
            emit('k', &one, &two, 0, 0);
        }
}

/* ---- Every set of faults that one card, equation or frame can have ---- */

static bool asked(int set, int bit)
{
    return set >> bit & 1;
}

/* A card with a byte outside, too long, with a label or with wrong last
   columns, as the bits of the set say; it opens or continues a statement. */
static void add_faulty_card(int set, char mark)
{
    struct line *line = insert_line(&cards, cards.lines);
    line->length = 0;
    pad_line(line, 72);
    line->byte[5] = (uint8_t)mark;
    if (asked(set, 0))
        line->byte[20] = 9;
    if (asked(set, 2))
        line->byte[3] = '7';
    if (asked(set, 3))
        line->byte[line->length++] = '2';
    if (asked(set, 1))
        pad_line(line, 81);
}

static void orders_of_one_card(void)
{
    for (int set = 0; set < 16; set++)
        for (int other = 0; other < 10; other++) {
            cards.lines = 0;
            if (other != 9) /* else none is open yet, and 6 is on the card too */
                add_line(&cards, other == 5 ? "      VARS 65" : "      VARS 0");
            if (other == 1) { /* 6 on the card too */
                add_line(&cards, "C");
                add_line(&cards, "");
            }
            if (other == 1 || other == 6 || other == 9) /* closes nothing, and opens nothing */
                add_line(&cards, "*");
            for (int more = other == 2 || other == 7 ? 19 : 0; more; more--) { /* 7 on the card too */
                add_line(&cards, "     1");
                if (other == 7)
                    add_line(&cards, "C    1");
            }
            if (other == 3) { /* 6 on the card before */
                add_line(&cards, "");
                add_line(&cards, "     1");
            }
            if (other == 4) /* a lower fault on the next card */
                add_faulty_card(set, '2');
            add_faulty_card(other == 4 ? 1 : set, '2');
            if (other == 8) { /* the card is a comment inside a statement */
                cards.line[cards.lines - 1].byte[0] = 'C';
                add_line(&cards, "     1");
            }
            add_line(&cards, "      INIT");
            add_line(&cards, "      PROP 0");
            add_line(&cards, "      END");
            join(&one, &cards);
            emit_deck(card_operation(), &one);
        }
}

/* A statement with so many continuations, the last of which has a character of it
   at least. Bits: 0 for comments before the first continuation, 1 before the last,
   2 before those between, 3 after the last; 4 for a blank card before one of the
   continuations, beside its comments. */
static void add_commented(const char *words, int continuations, int set)
{
    int closed = asked(set, 4) ? 1 + below(continuations) : 0;
    int left = (int)strlen(words);
    for (int i = 0; i <= continuations; i++) {
        bool comments = i > 0 && asked(set, i == 1 ? 0 : i == continuations ? 1 : 2);
        if (comments)
            add_comments(&cards);
        if (i > 0 && i == closed) {
            add_blank(&cards);
            if (comments && chance(50))
                add_comments(&cards);
        }
        int taken = i == continuations ? left : i == 0 && chance(30) ? 0 : below(left);
        char mark = i ? any_of("123456789+X*C") : taken ? ' ' : '0';
        sprintf(word, "     %c%.*s", mark, taken, words);
        add_line(&cards, word);
        words += taken;
        left -= taken;
    }
    if (asked(set, 3))
        add_comments(&cards);
}

/* Comments inside one statement of a deck, at every set of places, where it has
   few continuations and where it has about as many as it may. The statement is
   right, or a character too long. */
static void comments_inside(void)
{
    static const char *const statement[] = { "VARS1", "INIT0", "V0=(V0&~V0)", "PROP(GV0&FV0)", "END" };
    static const int continuations[] = { 3, 18, 19, 20 };
    for (int i = 0; i < 4; i++)
        for (int set = 0; set < 32; set++) {
            int chosen = below(5);
            cards.lines = 0;
            for (int s = 0; s < 5; s++) {
                char words[20];
                sprintf(words, "%s%s", statement[s], s == chosen && chance(30) ? ")" : "");
                add_commented(words, s == chosen ? continuations[i] : 0, s == chosen ? set : 0);
            }
            join(&one, &cards);
            emit_deck(card_operation(), &one);
        }
}

/* Bits: 0 for 8 or 16 at the right end, 1 for level 33, 2 for a variable
   outside, 3 for X, 4 for one equation too many, 5 for a node too many, 6 for
   8 or 16 at the left end. */
enum { SETS_OF_EQUATION = 128 };

static void orders_of_one_equation(void)
{
    static const char nots[] = "~~~~~~~~~~~~~~~~~~~~~~~~~~~~~~~~";
    for (int set = 0; set < SETS_OF_EQUATION; set++) {
        bool many = asked(set, 4), full = asked(set, 5);
        statements.lines = 0;
        add_line(&statements, "VARS1");
        add_line(&statements, "INIT1");
        for (int i = 0; i < (many ? 256 : full ? 128 : 1); i++)
            add_line(&statements, !full ? "V0=0" : many ? "V0=~~~~~~~0" : "V0=~~~~~~~~~~~~~~~0");
        sprintf(word, "V%d=%s(%s0&%s0)%s", asked(set, 2) ? 1 : 0, asked(set, 6) ? ")" : "",
                asked(set, 3) ? "X" : "", asked(set, 1) ? nots : "", asked(set, 0) ? ")" : "");
        add_line(&statements, word);
        add_line(&statements, set % 3 ? "PROP0" : "PROPV5");
        add_line(&statements, "END");
        lay_out(&statements, &cards, true);
        join(&one, &cards);
        emit_deck(card_operation(), &one);
    }
}

static void orders_of_one_frame(void)
{
    static const char nots[] = "4242424242424242424242424242424242424242424242424242424242424242";
    for (int set = 0; set < SETS_OF_EQUATION; set++) {
        bool many = asked(set, 4), full = asked(set, 5);
        frames.lines = 0;
        add_line(&frames, "010000000000000002");
        add_line(&frames, "020000000000000002");
        for (int i = 0; i < (many ? 256 : full ? 128 : 1); i++)
            add_line(&frames, !full ? "030140" : many ? "03014242424242424240"
                                                      : "030142424242424242424242424242424240");
        sprintf(word, "03%s%s43%s40%s40%s", asked(set, 6) && set % 2 ? "00" : "01",
                asked(set, 6) && set % 2 == 0 ? "4A" : "", asked(set, 3) ? "45" : "",
                asked(set, 1) ? nots : "", asked(set, 0) ? "0" : "");
        if (asked(set, 2))
            memcpy(word + 2, "02", 2);
        add_line(&frames, word);
        add_line(&frames, set % 3 ? "0440" : "0405");
        add_line(&frames, "05");
        recount(&frames);
        join(&one, &frames);
        emit_deck(frame_operation(), &one);
    }
}

/* The 64th to 66th initial state, equal to an earlier one, with a bit outside
   or with a wrong digit. */
static void orders_of_one_state(void)
{
    for (int states = 64; states <= 66; states++)
        for (int set = 0; set < 8; set++) {
            statements.lines = 0;
            frames.lines = 0;
            add_line(&statements, "VARS7");
            add_line(&frames, "01000000000000007F");
            for (int i = 1; i <= states; i++) {
                int state = i == states && asked(set, 0) ? 3 : i;
                sprintf(word, "02%s%015X", i == states && asked(set, 1) ? "8" : "0",
                        (unsigned)state);
                if (i == states && asked(set, 2))
                    strcat(word, "0");
                add_line(&frames, word);
                strcpy(word, "INIT");
                for (int v = 0; v < 7; v++)
                    strcat(word, state >> v & 1 ? "1" : "0");
                if (i == states && asked(set, 2))
                    strcat(word, "0");
                add_line(&statements, word);
            }
            for (int v = 0; v < 7; v++) {
                sprintf(word, "V%d=%s", v, asked(set, 1) && v == 0 ? "V7" : "0");
                add_line(&statements, word);
                sprintf(word, "030%d40", v);
                add_line(&frames, word);
            }
            add_line(&statements, "PROP0");
            add_line(&statements, "END");
            lay_out(&statements, &cards, true);
            join(&one, &cards);
            emit_deck(card_operation(), &one);
            add_line(&frames, "0440");
            add_line(&frames, "05");
            recount(&frames);
            join(&one, &frames);
            emit_deck(frame_operation(), &one);
        }
}

/* The end of a text: statements or frames missing, variables without an
   equation, a last line left open, something behind the end. */
static void orders_of_the_end(void)
{
    for (int set = 0; set < 16; set++)
        for (int kept = 0; kept <= 6; kept++) {
            static const char *const card[] = { "VARS3", "INIT000", "V1=0", "V2=0", "PROP0", "END" };
            static const char *const frame[] = { "010000000000000007", "020000000000000000", "030140",
                                                 "030240", "0440", "050000" };
            statements.lines = 0;
            frames.lines = 0;
            for (int i = 0; i < kept; i++) {
                if (i == 2 && asked(set, 0)) {
                    add_line(&statements, "V0=1");
                    add_line(&frames, "030041");
                }
                add_line(&statements, card[i]);
                add_line(&frames, frame[i]);
            }
            recount(&frames);
            if (asked(set, 1)) {
                add_line(&statements, "V0=X");
                add_line(&frames, "0300454");
            }
            lay_out(&statements, &cards, true);
            join(&one, &cards);
            if (asked(set, 2) && one.length)
                one.length--;
            if (asked(set, 3))
                add_byte(&one, 'C');
            emit_deck(card_operation(), &one);
            join(&one, &frames);
            if (asked(set, 2) && one.length)
                one.length--;
            if (asked(set, 3))
                add_byte(&one, '0');
            emit_deck(frame_operation(), &one);
        }
}

/* A claim that is at fault in several ways: start, step, and a property that
   holds; the deck may lack an equation or be asked for a wide state. */
static void orders_of_a_claim(void)
{
    for (int set = 0; set < 64; set++) {
        char deck[200], words[200];
        sprintf(deck, "010000000000000003\n020000000000000000\n0300%s\n%s04%s\n05000%d\n",
                asked(set, 3) ? "4740" : "40", asked(set, 4) ? "" : "030101\n",
                asked(set, 2) ? "41" : "40", asked(set, 4) ? 4 : 5);
        sprintf(words, "1100010001\n12000000000000000%d\n12000000000000000%d\n150003\n",
                asked(set, 0) ? 2 : 0, asked(set, 5) ? 4 : asked(set, 1) ? 1 : asked(set, 0) ? 2 : 0);
        check_lines(deck, words);
    }
}

static void pairs_of_faults(void)
{
    for (int a = 0; a < CARD_FAULTS; a++)
        for (int b = a; b < CARD_FAULTS; b++) {
            two_faults_of_cards(a, b);
            two_faults_of_cards(b, a);
        }
    for (int a = 0; a < FRAME_FAULTS; a++)
        for (int b = a; b < FRAME_FAULTS; b++) {
            two_faults_of_frames(a, b);
            two_faults_of_frames(b, a);
        }
    for (int a = 0; a < CLAIM_FAULTS; a++)
        for (int b = a; b < CLAIM_FAULTS; b++)
            two_faults_of_claims(a, b);
}

/* One change of a byte or a line, whatever it hits. */
static void mutate(struct sheet *sheet, const char *likely)
{
    if (sheet->lines == 0)
        return;
    int at = below(sheet->lines);
    struct line *line = &sheet->line[at];
    switch (below(7)) {
    case 0:
        if (line->length) {
            int bit = 1 << below(8);
            line->byte[below(line->length)] ^= (uint8_t)bit;
        }
        break;
    case 1:
        delete_any(line);
        break;
    case 2:
        insert_one_of(line, likely);
        break;
    case 3:
        change_to_one_of(line, likely);
        break;
    case 4:
        repeat_line(sheet, at, below(sheet->lines + 1));
        break;
    case 5:
        delete_line(sheet, at);
        break;
    default:
        swap_lines(sheet, at, below(sheet->lines));
        break;
    }
}

static void mutated_cards(void)
{
    small_model(&model, true);
    to_statements(&model, &statements);
    lay_out(&statements, &cards, chance(30));
    for (int changes = below(3); changes; changes--)
        mutate(&cards, " 01V~XFGUW()&+=9PC");
    join(&one, &cards);
    emit_deck(card_operation(), &one);
}

static void mutated_frames(void)
{
    small_model(&model, false);
    to_frames(&model, &frames);
    for (int changes = below(3); changes; changes--) {
        mutate(&frames, "0123456789ABCDEF");
        if (chance(70))
            recount(&frames);
    }
    join(&one, &frames);
    emit_deck(frame_operation(), &one);
}

static void mutated_claim(void)
{
    small_model(&model, false);
    simulate(&model, &run, 1 + below(12));
    to_frames(&model, &frames);
    to_claim(&run, &claim);
    if (chance(15))
        mutate(&frames, "0123456789ABCDEF");
    mutate(&claim, "0123456789ABCDEF");
    join(&one, &frames);
    join(&two, &claim);
    emit('k', &one, &two, 0, 0);
}

static void random_run(void)
{
    small_model(&model, false);
    simulate(&model, &run, chance(90) ? 40 : 200);
    if (chance(25))
        damage_run(&model, &run);
    emit_claim();
}

static void random_cone(void)
{
    small_model(&model, false);
    to_frames(&model, &frames);
    join(&one, &frames);
    uint64_t set = draw() & draw() & model.set;
    if (chance(20))
        set = (uint64_t)1 << below(64);
    else if (chance(10))
        set |= draw() & draw() & draw();
    emit('c', &one, &nothing, set, 0);
}

static void put_table(void)
{
    printf("%6s", "number");
    for (const char *o = operations; *o; o++)
        printf("%7c", *o);
    printf("%8s\n", "all");
    for (int number = 0; number <= 22; number++) {
        long all = 0;
        for (const char *o = operations; *o; o++)
            all += tally[o - operations][number];
        if (number == 18 || number == 19)
            continue;
        printf("%6d", number);
        for (const char *o = operations; *o; o++)
            printf("%7ld", tally[o - operations][number]);
        printf("%8ld\n", all);
    }
    printf("%ld cases\n", cases);
}

int main(int count, char **words)
{
    if (count != 5 && count != 6) {
        fprintf(stderr, "usage: generate SEED CASES BUNDLE EXPECTED [OPERATIONS]\n");
        return 2;
    }
    if (count == 6)
        written = words[5];
    seed_state = strtoull(words[1], NULL, 10);
    long wanted = strtol(words[2], NULL, 10);
    bundle = fopen(words[3], "wb");
    expected = fopen(words[4], "wb");
    if (!bundle || !expected) {
        fprintf(stderr, "generate: %s or %s can't be written\n", words[3], words[4]);
        return 2;
    }
    worked_deck();
    named_lines();
    forms();
    levels();
    limits();
    full_statements();
    long_claims();
    orders_of_one_card();
    comments_inside();
    orders_of_one_equation();
    orders_of_one_frame();
    orders_of_one_state();
    orders_of_the_end();
    orders_of_a_claim();
    pairs_of_faults();
    deck_and_claim_faults();
    while (cases < wanted)
        switch (below(6)) {
        case 0: mutated_cards(); break;
        case 1: mutated_frames(); break;
        case 2: mutated_claim(); break;
        case 3: case 4: random_run(); break;
        default: random_cone(); break;
        }
    fputs(".\n", bundle);
    bool failed = ferror(bundle) || ferror(expected);
    if (fclose(bundle) || fclose(expected) || failed) {
        fprintf(stderr, "generate: writing failed\n");
        return 2;
    }
    put_table();
    return 0;
}
