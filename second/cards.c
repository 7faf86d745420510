/* cards.c: a second program for the card set, `cards deal` and `cards open`.
 *
 * It does what the two programs of docs/FORMAT.md do, for both fields of
 * docs/SCHEME.md, and was written from a draft of these two pages and the worked
 * examples: the proved code was not looked at. Its answers can be held against
 * those of the proved programs (checks/compare), and its speed too
 * (checks/bench).
 *
 * Build: cc -std=c11 -O2 -Wall -Wextra -o cards second/cards.c
 * Use:   cards deal < text      cards open < text
 *
 * It reads at most 4,097 bytes of standard input. At the first refusal it
 * writes the one line 0F and stops with status 1, so every check is made
 * before anything is written.
 */

#include <stdio.h>
#include <stdlib.h>
#include <string.h>

enum {
    TEXT_MOST = 4096,            /* bytes of a text */
    CARDS_MOST = 8,              /* n, and so t */
    KEY_MOST = 64,               /* L */
    DATA_MOST = KEY_MOST + CARDS_MOST, /* t x b is below L + t */
    UNKNOWNS_MOST = CARDS_MOST * (CARDS_MOST - 1), /* numbers of all dummy words in a lane */
    FIELDS_MOST = 8,             /* fields of a line, its kind counted */
    NO_LINE = 0xFFFF             /* line number of a refusal that is not about a line */
};

typedef unsigned char byte;

/* The rows of a plan: row c has t numbers, and those below t are unit rows. */
struct plan {
    unsigned t, n;
    byte row[CARDS_MOST][CARDS_MOST];
};

/* What a card line says, but for its field mark. */
struct card {
    unsigned long mark;
    unsigned t, n, number, length;
    byte data[DATA_MOST];
};

/* ---- Refusals ---------------------------------------------------------- */

/* Writes the line 0F and ends the program with status 1. */
static _Noreturn void refuse(unsigned number, unsigned carries, unsigned line)
{
    printf("0F %02X %04X %04X\n", number, carries, line);
    exit(1);
}

/* ---- The field --------------------------------------------------------- */

static unsigned field_mark;      /* 1 or 2 */
static unsigned field_size;      /* q */
static byte power[2 * 255];      /* powers of a generator, gone through twice */
static byte logarithm[256];      /* of every number but 0 */

/* True if there is a field of this mark. */
static int field_known(unsigned mark)
{
    return mark == 1 || mark == 2;
}

/* Chooses the field and fills its tables of powers. The generator is 03
 * (x + 1) in field 01 and 5 in field 02. */
static void choose_field(unsigned mark)
{
    field_mark = mark;
    field_size = mark == 1 ? 256 : 97;

    unsigned order = field_size - 1, x = 1;
    for (unsigned k = 0; k < order; k++) {
        power[k] = power[k + order] = (byte)x;
        logarithm[x] = (byte)k;
        if (mark == 1) {
            x ^= x << 1;
            if (x & 0x100)
                x ^= 0x11B;
        } else {
            x = x * 5 % 97;
        }
    }
}

/* The number that gives 0 with a in a sum. */
static byte opposite(byte a)
{
    return field_mark == 1 || a == 0 ? a : (byte)(97 - a);
}

/* The reciprocal of a, which is not 0. */
static byte reciprocal(byte a)
{
    return power[field_size - 1 - logarithm[a]];
}

/* Adds factor times source to target, number by number. */
static void add_times(byte *target, const byte *source, byte factor, unsigned count)
{
    if (factor == 0)
        return;
    if (field_mark == 1) {
        const byte *from = power + logarithm[factor];
        for (unsigned k = 0; k < count; k++)
            if (source[k] != 0)
                target[k] ^= from[logarithm[source[k]]];
    } else {
        for (unsigned k = 0; k < count; k++)
            target[k] = (byte)((target[k] + (unsigned)factor * source[k]) % 97);
    }
}

/* Multiplies each number by factor, which is not 0. */
static void scale(byte *numbers, byte factor, unsigned count)
{
    for (unsigned k = 0; k < count; k++)
        if (numbers[k] != 0)
            numbers[k] = power[logarithm[factor] + logarithm[numbers[k]]];
}

/* The index of the first byte that is no code of the field, or count. */
static unsigned first_no_code(const byte *numbers, unsigned count)
{
    unsigned k = 0;
    while (k < count && numbers[k] < field_size)
        k++;
    return k;
}

/* ---- Row reduction ----------------------------------------------------- */

static byte matrix[UNKNOWNS_MOST][UNKNOWNS_MOST];

/* Reduces the first `size` rows of `matrix`, whose first `size` columns are a
 * square system and whose further columns up to `width` are right sides. The
 * answer is 0 if the system has a null vector but zero. Otherwise, if there are
 * right sides, each of them has become its solution. */
static int reduce(unsigned size, unsigned width)
{
    for (unsigned c = 0; c < size; c++) {
        unsigned r = c;
        while (r < size && matrix[r][c] == 0)
            r++;
        if (r == size)
            return 0;
        if (r != c) {
            byte kept[UNKNOWNS_MOST];
            memcpy(kept + c, matrix[c] + c, width - c);
            memcpy(matrix[c] + c, matrix[r] + c, width - c);
            memcpy(matrix[r] + c, kept + c, width - c);
        }
        scale(matrix[c] + c, reciprocal(matrix[c][c]), width - c);
        /* Without right sides it is enough to clear the column below. */
        for (r = width > size ? 0 : c + 1; r < size; r++)
            if (r != c)
                add_times(matrix[r] + c, matrix[c] + c, opposite(matrix[r][c]), width - c);
    }
    return 1;
}

/* ---- Reading lines ----------------------------------------------------- */

static byte text[TEXT_MOST + 1];
static unsigned text_length;
static unsigned text_place;      /* where the next line begins */
static unsigned lines_read;

/* The line just read: its number and its fields, the kind being field 0. */
static unsigned line_number;
static const byte *field[FIELDS_MOST];
static unsigned digits[FIELDS_MOST];

/* Digits of the fields of each kind of line, the kind's own two first. 0 stands
 * for the data, which comes last and has any even number of digits but none. */
static const struct { unsigned count, width[FIELDS_MOST]; } shapes[] = {
    [1] = { 4, { 2, 2, 2, 2 } },
    [2] = { 2, { 2, 0 } },
    [3] = { 8, { 2, 2, 8, 2, 2, 2, 2, 0 } },
    [4] = { 3, { 2, 8, 0 } },
    [5] = { 2, { 2, 0 } },
};

/* Reads the text, or refuses it with 46 if it is too long. */
static void read_text(void)
{
    setvbuf(stdin, NULL, _IONBF, 0); /* so that no more is read than is asked for */
    text_length = (unsigned)fread(text, 1, sizeof text, stdin);
    if (text_length > TEXT_MOST)
        refuse(0x46, 0, NO_LINE);
}

/* The value of a capital hexadecimal digit, or -1. */
static int digit_value(byte c)
{
    if (c >= '0' && c <= '9')
        return c - '0';
    if (c >= 'A' && c <= 'F')
        return c - 'A' + 10;
    return -1;
}

/* Refuses the line just read. */
static _Noreturn void refuse_line(unsigned number, unsigned carries)
{
    refuse(number, carries, line_number);
}

/* The value of field k, of at most eight digits. */
static unsigned long value(unsigned k)
{
    unsigned long v = 0;
    for (unsigned d = 0; d < digits[k]; d++)
        v = v << 4 | (unsigned)digit_value(field[k][d]);
    return v;
}

/* Puts the numbers of field k into a place that has room for them. */
static void numbers_of(unsigned k, byte *place)
{
    for (unsigned d = 0; d < digits[k]; d += 2)
        *place++ = (byte)(digit_value(field[k][d]) << 4 | digit_value(field[k][d + 1]));
}

/* Reads the next line, which must be of the kind wanted, and finds its fields.
 * Refuses it with 40 to 43. */
static void read_line(unsigned kind)
{
    const byte *line = text + text_place, *end;

    line_number = lines_read;
    end = memchr(line, '\n', text_length - text_place);
    if (end == NULL || end == line)
        refuse_line(0x40, 0);
    for (const byte *c = line; c < end; c++)
        if (digit_value(*c) < 0 && *c != ' ')
            refuse_line(0x41, (unsigned)(c - line));

    /* The fields; of too many only the number is kept. */
    unsigned count = 0;
    for (const byte *c = line;; c++) {
        const byte *begin = c;
        while (c < end && *c != ' ')
            c++;
        if (count < FIELDS_MOST) {
            field[count] = begin;
            digits[count] = (unsigned)(c - begin);
        }
        count++;
        if (c == end)
            break;
    }

    if (digits[0] != 2 || value(0) != kind)
        refuse_line(0x42, 0);

    /* Two spaces together, or one at the end, make an empty field. */
    if (count != shapes[kind].count)
        refuse_line(0x43, 0);
    for (unsigned k = 0; k < count; k++) {
        unsigned wanted = shapes[kind].width[k];
        if (wanted != 0 ? digits[k] != wanted : digits[k] == 0 || digits[k] % 2 != 0)
            refuse_line(0x43, 0);
    }

    text_place = (unsigned)(end + 1 - text);
    lines_read++;
}

/* Refuses text after the last line wanted. */
static void want_end(void)
{
    if (text_place < text_length)
        refuse(0x46, 0, NO_LINE);
}

/* True if t and n are those of a plan. */
static int sizes_fit(unsigned t, unsigned n)
{
    return 2 <= t && t <= n && n <= CARDS_MOST;
}

/* L / t rounded up. */
static unsigned lanes(unsigned length, unsigned t)
{
    return (length + t - 1) / t;
}

/* Reads a line 02 or 05, which has nothing but `count` numbers. */
static void read_numbers(unsigned kind, byte *place, unsigned count)
{
    read_line(kind);
    if (digits[1] != 2 * count)
        refuse_line(0x45, 0);
    numbers_of(1, place);
}

/* Reads the lines 01 and 02 and chooses the field of the plan's mark. */
static void read_plan(struct plan *plan)
{
    read_line(1);
    unsigned mark = (unsigned)value(1);
    plan->t = (unsigned)value(2);
    plan->n = (unsigned)value(3);
    if (!field_known(mark) || !sizes_fit(plan->t, plan->n))
        refuse_line(0x44, 0);
    choose_field(mark);

    memset(plan->row, 0, sizeof plan->row);
    for (unsigned c = 0; c < plan->t; c++)
        plan->row[c][c] = 1;
    for (unsigned c = plan->t; c < plan->n; c++)
        read_numbers(2, plan->row[c], plan->t);
}

/* Reads a line 03. Its data must be of the length that its own t and L ask for. */
static void read_card(struct card *card)
{
    read_line(3);
    card->mark = value(2);
    card->t = (unsigned)value(3);
    card->n = (unsigned)value(4);
    card->number = (unsigned)value(5);
    card->length = (unsigned)value(6);
    if (value(1) != field_mark || !sizes_fit(card->t, card->n) || card->number >= card->n
        || card->length < 1 || card->length > KEY_MOST)
        refuse_line(0x44, 0);
    if (digits[7] != 2 * card->t * lanes(card->length, card->t))
        refuse_line(0x45, 0);
    numbers_of(7, card->data);
}

/* ---- Checking a plan --------------------------------------------------- */

/* A group as a refusal carries it: bit j for card j. */
static unsigned group_bits(const unsigned *group, unsigned size)
{
    unsigned bits = 0;
    for (unsigned k = 0; k < size; k++)
        bits |= 1u << group[k];
    return bits;
}

/* Makes the first group of a size in dictionary order. */
static void first_group(unsigned *group, unsigned size)
{
    for (unsigned k = 0; k < size; k++)
        group[k] = k;
}

/* Goes on to the next group of that size in dictionary order; 0 after the last. */
static int next_group(unsigned *group, unsigned size, unsigned n)
{
    unsigned k = size;
    while (k > 0 && group[k - 1] == n - size + k - 1)
        k--;
    if (k == 0)
        return 0;
    group[k - 1]++;
    for (; k < size; k++)
        group[k] = group[k - 1] + 1;
    return 1;
}

/* True if the group of t opens: for each i, the rows (j + i) mod n of its cards
 * have no common null vector but zero. What was found out about a set of rows is
 * kept in `found`, by its bits: 0 not yet, 1 no such vector, 2 there is one. */
static int opens(const struct plan *plan, const unsigned *group, byte *found)
{
    unsigned t = plan->t, n = plan->n;
    for (unsigned i = 0; i < t; i++) {
        unsigned rows = 0;
        for (unsigned k = 0; k < t; k++)
            rows |= 1u << (group[k] + i) % n;
        if (found[rows] == 0) {
            for (unsigned k = 0; k < t; k++)
                memcpy(matrix[k], plan->row[(group[k] + i) % n], t);
            found[rows] = reduce(t, t) ? 1 : 2;
        }
        if (found[rows] == 2)
            return 0;
    }
    return 1;
}

/* True if the group of t - 1 hides: the square system of its cards for the dummy
 * words of one lane has no null vector but zero. Column (i - 1) x t + p is number
 * p of dummy word i. */
static int hides(const struct plan *plan, const unsigned *group)
{
    unsigned t = plan->t, n = plan->n, size = (t - 1) * t, r = 0;

    for (unsigned k = 0; k < size; k++)
        memset(matrix[k], 0, size);
    /* Row i of the lane, from 1 on, is the cast of dummy word i. */
    for (unsigned i = 1; i < t; i++)
        for (unsigned k = 0; k < t - 1; k++)
            memcpy(matrix[r++] + (i - 1) * t, plan->row[(group[k] + i) % n], t);
    /* Row 0 is the cast of the key's word plus all dummy words. */
    for (unsigned k = 0; k < t - 1; k++, r++)
        for (unsigned i = 1; i < t; i++)
            memcpy(matrix[r] + (i - 1) * t, plan->row[group[k]], t);
    return reduce(size, size);
}

/* Refuses with 12 or 15 a plan that is not admitted. */
static void admit(const struct plan *plan)
{
    unsigned t = plan->t, group[CARDS_MOST];
    byte found[1 << CARDS_MOST] = { 0 };

    for (unsigned c = t; c < plan->n; c++) {
        unsigned p = first_no_code(plan->row[c], t);
        if (p < t)
            refuse(0x12, (c - t) * t + p, NO_LINE);
    }
    first_group(group, t);
    do {
        if (!opens(plan, group, found))
            refuse(0x15, group_bits(group, t), NO_LINE);
    } while (next_group(group, t, plan->n));
}

/* Refuses with 16 an admitted plan that is not vetted. */
static void vet(const struct plan *plan)
{
    unsigned size = plan->t - 1, group[CARDS_MOST];

    first_group(group, size);
    do {
        if (!hides(plan, group))
            refuse(0x16, group_bits(group, size), NO_LINE);
    } while (next_group(group, size, plan->n));
}

/* ---- The two programs -------------------------------------------------- */

/* Writes numbers, two digits each, and closes the line. */
static void write_numbers(const byte *numbers, unsigned count)
{
    static const char digit[] = "0123456789ABCDEF";
    char line[2 * DATA_MOST + 1];

    for (unsigned k = 0; k < count; k++) {
        line[2 * k] = digit[numbers[k] >> 4];
        line[2 * k + 1] = digit[numbers[k] & 15];
    }
    line[2 * count] = '\n';
    fwrite(line, 1, 2 * count + 1, stdout);
}

/* Puts the data of card j into `data`: number i x b + e is number (j + i) mod n
 * of the cast of word i of lane e. */
static void cast_card(const struct plan *plan, byte words[][DATA_MOST], unsigned b,
                      unsigned j, byte *data)
{
    memset(data, 0, plan->t * b);
    for (unsigned i = 0; i < plan->t; i++) {
        const byte *row = plan->row[(j + i) % plan->n];
        for (unsigned p = 0; p < plan->t; p++)
            add_times(data + i * b, words[i] + p * b, row[p], b);
    }
}

/* Deals: reads a plan, a key and dummy keys, and writes all cards. */
static void deal(void)
{
    struct plan plan;
    byte words[CARDS_MOST][DATA_MOST] = { { 0 } }; /* the store, block by block */

    read_text();
    read_plan(&plan);
    admit(&plan);
    vet(&plan);

    read_line(4);
    if (digits[2] > 2 * KEY_MOST)
        refuse_line(0x44, 0);
    unsigned long mark = value(1);
    unsigned length = digits[2] / 2;
    unsigned b = lanes(length, plan.t), size = plan.t * b;
    numbers_of(2, words[0]);
    for (unsigned i = 1; i < plan.t; i++)
        read_numbers(5, words[i], size);
    want_end();

    for (unsigned i = 0; i < plan.t; i++) {
        unsigned k = first_no_code(words[i], size);
        if (k < size)
            refuse(0x19, i * size + k, NO_LINE);
    }

    /* The first words: the key's plus those of all dummy keys. */
    for (unsigned i = 1; i < plan.t; i++)
        add_times(words[0], words[i], 1, size);

    for (unsigned j = 0; j < plan.n; j++) {
        byte data[DATA_MOST];
        cast_card(&plan, words, b, j, data);
        printf("03 %02X %08lX %02X %02X %02X %02X ", field_mark, mark, plan.t, plan.n, j, length);
        write_numbers(data, size);
    }
}

/* Finds the padded key from t cards of the plan's t and n. */
static void solve(const struct plan *plan, const struct card *cards, unsigned b, byte *key)
{
    unsigned t = plan->t;

    memset(key, 0, t * b);
    for (unsigned i = 0; i < t; i++) {
        for (unsigned k = 0; k < t; k++) {
            memcpy(matrix[k], plan->row[(cards[k].number + i) % plan->n], t);
            memcpy(matrix[k] + t, cards[k].data + i * b, b);
        }
        if (!reduce(t, t + b)) { /* never of an admitted plan */
            unsigned group[CARDS_MOST];
            for (unsigned k = 0; k < t; k++)
                group[k] = cards[k].number;
            refuse(0x15, group_bits(group, t), NO_LINE);
        }
        /* Piece p of word i now stands in row p. The key is word 0 minus the others. */
        for (unsigned p = 0; p < t; p++)
            add_times(key + p * b, matrix[p] + t, i == 0 ? 1 : opposite(1), b);
    }
}

/* Opens: reads a plan and t cards, and writes the key. */
static void open_key(void)
{
    struct plan plan;
    struct card cards[CARDS_MOST];
    byte key[DATA_MOST];

    read_text();
    read_plan(&plan);
    admit(&plan);

    const struct card *first = &cards[0];
    for (unsigned k = 0; k < plan.t; k++) {
        struct card *card = &cards[k];
        read_card(card);
        if (k == plan.t - 1)
            want_end();
        unsigned size = card->t * lanes(card->length, card->t);
        unsigned bad = first_no_code(card->data, size);
        if (bad < size)
            refuse_line(0x35, 256 * card->number + bad);
        if (card->mark != first->mark || card->t != first->t || card->n != first->n
            || card->length != first->length)
            refuse_line(0x50, 0);
        for (unsigned earlier = 0; earlier < k; earlier++)
            if (cards[earlier].number == card->number)
                refuse_line(0x51, card->number);
    }
    if (first->t != plan.t || first->n != plan.n)
        refuse(0x52, 0, NO_LINE);

    unsigned b = lanes(first->length, plan.t);
    solve(&plan, cards, b, key);
    for (unsigned k = first->length; k < plan.t * b; k++)
        if (key[k] != 0)
            refuse(0x38, k, NO_LINE);

    printf("04 %08lX ", first->mark);
    write_numbers(key, first->length);
}

/* Runs the program that the command line names. */
int main(int count, char **words)
{
    if (count == 2 && strcmp(words[1], "deal") == 0) {
        deal();
    } else if (count == 2 && strcmp(words[1], "open") == 0) {
        open_key();
    } else {
        fprintf(stderr, "use: cards deal | cards open\n");
        return 2;
    }
    return fflush(stdout) == 0 ? 0 : 1;
}
