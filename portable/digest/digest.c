/*
 * The digest: every call of spargolutta.h on the same inputs, whatever library and machine it is built for. Two
 * libraries answer alike where the texts are equal: a line a call, with how often it was asked and a hash of all its
 * answers and of every byte that it was lent to write to; then how often each number was the answer.
 *
 *     digest SEED ROUNDS
 *
 * digest_text is all of it; it uses no C library, so that it runs in WebAssembly too.
 */
#include "inputs.h"

#define NUMBERS 64
#define LENT_MOST (2 * SPG_SHEET_MOST)
#define DRAWINGS 6

static uint64_t numbers[NUMBERS];
static uint8_t lent[LENT_MOST];
static char text[65536];

static void mix(struct row *row, uint64_t value)
{
    row->hash = (row->hash ^ value) * UINT64_C(1099511628211);
    row->hash ^= row->hash >> 29;
}

static int ends_in_number(const char *name)
{
    static const char end[] = "_number";
    size_t length = 0;
    while (name[length] != '\0')
        length++;
    for (size_t i = 1; i < sizeof end; i++)
        if (length < i || name[length - i] != end[sizeof end - 1 - i])
            return 0;
    return 1;
}

void note(struct row *row, uint64_t answer)
{
    mix(row, answer);
    row->calls++;
    if (ends_in_number(row->name))
        numbers[answer < NUMBERS ? answer : NUMBERS - 1]++;
}

/* A buffer to write to: the bytes up to 16 past its end are filled. */
uint8_t *lend(size_t room)
{
    for (size_t i = 0; i < room + 16; i++)
        lent[i] = (uint8_t)(0xA5 ^ i);
    return lent;
}

void note_lent(struct row *row, size_t room)
{
    for (size_t i = 0; i < room + 16; i++)
        row->hash = (row->hash ^ lent[i]) * UINT64_C(1099511628211);
    mix(row, room);
}

static char *put(char *to, const char *words)
{
    while (*words != '\0')
        *to++ = *words++;
    return to;
}

static char *put_number(char *to, uint64_t value, uint32_t base)
{
    char digits[20];
    size_t count = 0;
    for (; value != 0 || count == 0; value /= base)
        digits[count++] = "0123456789abcdef"[value % base];
    while (count > 0)
        *to++ = digits[--count];
    return to;
}

static void ask_round(struct inputs *in)
{
    make_inputs(in);
    for (int drawing = 0; drawing < DRAWINGS; drawing++) {
        make_numbers(in);
        for (size_t i = 0; i < rows_count; i++)
            if (drawing == 0 || rows[i].by_numbers)
                rows[i].call(&rows[i], in);
    }
}

static const char *print(void)
{
    char *to = text;
    for (size_t i = 0; i < rows_count; i++) {
        to = put(put_number(put(put(to, rows[i].name), " "), rows[i].calls, 10), " ");
        to = put(put_number(to, rows[i].hash, 16), "\n");
    }
    to = put(to, "numbers");
    for (uint64_t i = 0; i < NUMBERS; i++)
        if (numbers[i] != 0)
            to = put_number(put(put_number(put(to, " "), i, 10), ":"), numbers[i], 10);
    *put(to, "\n") = '\0';
    return text;
}

const char *digest_text(uint32_t seed, uint32_t rounds)
{
    static struct inputs in;
    start_random(seed);
    for (uint32_t i = 0; i < rounds; i++)
        ask_round(&in);
    return print();
}
