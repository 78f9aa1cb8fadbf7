/*
 * The C form tested from C: rm_write and rm_read as rm.h gives them, accepted and refused. Every buffer stands between
 * guard bytes, and after each call every byte of both is compared.
 */
#include "rm.h"

#include <stdio.h>
#include <stdlib.h>
#include <string.h>

enum { GUARD = 64, ROOM = 600, FILL = 0xA5 };

/* A buffer with its guards; is_null has it lent as NULL. */
struct guarded {
    uint8_t bytes[GUARD + ROOM + GUARD];
    size_t length;
    int is_null;
};

static unsigned checks;
static unsigned failures;

static void require(int holds, const char *name, const char *what)
{
    checks++;
    if (!holds) {
        failures++;
        printf("FAILED %s: %s\n", name, what);
    }
}

static void guard(struct guarded *g, size_t length)
{
    for (size_t i = 0; i < sizeof g->bytes; i++)
        g->bytes[i] = (uint8_t)(i * 29u ^ 0x5Au);
    if (length > ROOM) {
        printf("no room for a buffer of %zu\n", length);
        exit(1);
    }
    g->length = length;
    g->is_null = 0;
}

static uint8_t *lent(struct guarded *g)
{
    return g->is_null ? NULL : g->bytes + GUARD;
}

/* The byte for a letter of a case: a digit stands for itself, '.' for FILL, 'p' for 128 and 'x' for 255. */
static uint8_t symbol(char letter)
{
    switch (letter) {
    case '.': return FILL;
    case 'p': return 128;
    case 'x': return 255;
    default: return (uint8_t)(letter - '0');
    }
}

/* A buffer with the content that the text gives; NULL is the empty buffer at NULL. */
static void fill(struct guarded *g, const char *text)
{
    guard(g, text ? strlen(text) : 0);
    g->is_null = text == NULL;
    for (size_t i = 0; i < g->length; i++)
        g->bytes[GUARD + i] = symbol(text[i]);
}

static int same(const struct guarded *a, const struct guarded *b)
{
    return a->length == b->length && memcmp(a->bytes, b->bytes, sizeof a->bytes) == 0;
}

enum call { WRITE, READ };

/*
 * A call with the content of both buffers before it, its answer, and the content after it of the buffer that it fills
 * (the word for WRITE, the message for READ); NULL there says that the call is refused and both stay.
 */
struct test {
    const char *name;
    enum call call;
    uint32_t q, m;
    const char *message, *word;
    uint32_t answer;
    const char *after;
};

#define DOTS_4 "...."
#define DOTS_8 DOTS_4 DOTS_4
#define DOTS_15 DOTS_8 DOTS_4 "..."
#define DOTS_16 DOTS_8 DOTS_8
#define DOTS_256 DOTS_16 DOTS_16 DOTS_16 DOTS_16 DOTS_16 DOTS_16 DOTS_16 DOTS_16 \
                 DOTS_16 DOTS_16 DOTS_16 DOTS_16 DOTS_16 DOTS_16 DOTS_16 DOTS_16
#define ZEROS_16 "0000000000000000"
#define ZEROS_256 ZEROS_16 ZEROS_16 ZEROS_16 ZEROS_16 ZEROS_16 ZEROS_16 ZEROS_16 ZEROS_16 \
                  ZEROS_16 ZEROS_16 ZEROS_16 ZEROS_16 ZEROS_16 ZEROS_16 ZEROS_16 ZEROS_16

static const struct test WRITES[] = {
    {"write example 1", WRITE, 4, 4, "11302", DOTS_16, 100, "1201120130233023"},
    {"write q 8", WRITE, 8, 3, "7501", DOTS_8, 100, "74740505"},
    {"write q 2", WRITE, 2, 2, "011", DOTS_4, 100, "0110"},
    {"write m 2", WRITE, 4, 2, "000", DOTS_4, 100, "0000"},
    {"write the highest symbols", WRITE, 8, 2, "777", DOTS_4, 100, "7665"},
    /* 1: q */
    {"write q 3, m 9", WRITE, 3, 9, "11302", DOTS_16, 1, NULL},
    {"write q 0", WRITE, 0, 4, "00000", DOTS_16, 1, NULL},
    {"write q 1", WRITE, 1, 4, "00000", DOTS_16, 1, NULL},
    {"write q 3", WRITE, 3, 4, "11202", DOTS_16, 1, NULL},
    {"write q 16", WRITE, 16, 4, "11302", DOTS_16, 1, NULL},
    {"write q 260", WRITE, 260, 4, "11302", DOTS_16, 1, NULL},
    {"write q 2^31", WRITE, 0x80000000u, 4, "11302", DOTS_16, 1, NULL},
    {"write q 2^32 - 1", WRITE, 0xFFFFFFFFu, 4, "11302", DOTS_16, 1, NULL},
    {"write faults 1 2 5 6 7", WRITE, 3, 9, "xx", ".", 1, NULL},
    {"write faults 1 5", WRITE, 3, 4, "1130", DOTS_16, 1, NULL},
    {"write faults 1 6", WRITE, 5, 4, "x1302", DOTS_16, 1, NULL},
    {"write faults 1 7", WRITE, 6, 4, "11302", DOTS_15, 1, NULL},
    /* 2: m */
    {"write m 0", WRITE, 4, 0, "1", ".", 2, NULL},
    {"write m 1", WRITE, 4, 1, "11", "..", 2, NULL},
    {"write m 9", WRITE, 4, 9, "1111111111", DOTS_16, 2, NULL},
    {"write m 36", WRITE, 4, 36, "11302", DOTS_16, 2, NULL},
    {"write m 68", WRITE, 4, 68, "11302", DOTS_16, 2, NULL},
    {"write m 260", WRITE, 4, 260, "11302", DOTS_16, 2, NULL},
    {"write m 2^32 - 1", WRITE, 4, 0xFFFFFFFFu, "", DOTS_16, 2, NULL},
    {"write faults 2 5 6 7", WRITE, 4, 1, "xxx", ".", 2, NULL},
    {"write faults 2 7", WRITE, 4, 1, "11", DOTS_4, 2, NULL},
    /* 5: the length of the message */
    {"write no message", WRITE, 4, 4, "", DOTS_16, 5, NULL},
    {"write message at NULL", WRITE, 4, 4, NULL, DOTS_16, 5, NULL},
    {"write both at NULL", WRITE, 4, 4, NULL, NULL, 5, NULL},
    {"write message one short", WRITE, 4, 4, "1130", DOTS_16, 5, NULL},
    {"write message one long", WRITE, 4, 4, "113020", DOTS_16, 5, NULL},
    {"write message 256 too long", WRITE, 4, 4, "11302" ZEROS_256, DOTS_16, 5, NULL},
    {"write faults 5 6 7", WRITE, 4, 4, "x130", DOTS_15, 5, NULL},
    {"write faults 5 7", WRITE, 4, 4, "113020", DOTS_15, 5, NULL},
    {"write faults 5 6", WRITE, 4, 4, "113024", DOTS_16, 5, NULL},
    /* 6: the symbols of the message */
    {"write symbol 4 first", WRITE, 4, 4, "41302", DOTS_16, 6, NULL},
    {"write symbol 4 last", WRITE, 4, 4, "11304", DOTS_16, 6, NULL},
    {"write symbol 2 of q 2", WRITE, 2, 2, "021", DOTS_4, 6, NULL},
    {"write symbol 8 of q 8", WRITE, 8, 3, "7581", DOTS_8, 6, NULL},
    {"write symbol 128", WRITE, 8, 3, "75p1", DOTS_8, 6, NULL},
    {"write symbol 255", WRITE, 4, 4, "1130x", DOTS_16, 6, NULL},
    {"write faults 6 7", WRITE, 4, 4, "11304", DOTS_15, 6, NULL},
    {"write faults 6 7, word at NULL", WRITE, 4, 4, "x1302", NULL, 6, NULL},
    /* 7: the length of the word */
    {"write no word", WRITE, 4, 4, "11302", "", 7, NULL},
    {"write word at NULL", WRITE, 4, 4, "11302", NULL, 7, NULL},
    {"write word one short", WRITE, 4, 4, "11302", DOTS_15, 7, NULL},
    {"write word one long", WRITE, 4, 4, "11302", DOTS_16 ".", 7, NULL},
    {"write word of half", WRITE, 4, 4, "11302", DOTS_8, 7, NULL},
    {"write word 256 too long", WRITE, 4, 4, "11302", DOTS_16 DOTS_256, 7, NULL},
};

static const struct test READS[] = {
    {"read example 1", READ, 4, 4, ".....", "1201120130233023", 100, "11302"},
    {"read example 3", READ, 4, 4, ".....", "1211120130233021", 102, "11302"},
    {"read q 8", READ, 8, 3, "....", "74740505", 100, "7501"},
    {"read q 8, one wrong", READ, 8, 3, "....", "74700505", 101, "7501"},
    {"read q 2", READ, 2, 2, "...", "0110", 100, "011"},
    {"read three wrong", READ, 4, 4, ".....", "1110000000000000", 103, "00000"},
    /* 1: q */
    {"read q 0", READ, 0, 4, ".....", "1201120130233023", 1, NULL},
    {"read q 3", READ, 3, 4, ".....", "1201120120222022", 1, NULL},
    {"read q 16", READ, 16, 4, ".....", "1201120130233023", 1, NULL},
    {"read q 260", READ, 260, 4, ".....", "1201120130233023", 1, NULL},
    {"read q 2^31", READ, 0x80000000u, 4, ".....", "1201120130233023", 1, NULL},
    {"read q 2^32 - 1", READ, 0xFFFFFFFFu, 4, ".....", "1201120130233023", 1, NULL},
    {"read faults 1 2 5 7 8", READ, 3, 9, "..", "xxx", 1, NULL},
    {"read faults 1 5", READ, 3, 4, "....", "1201120130233023", 1, NULL},
    {"read faults 1 7", READ, 5, 4, ".....", "120112013023302", 1, NULL},
    {"read faults 1 8", READ, 7, 4, ".....", "x201120130233023", 1, NULL},
    {"read faults 1 9", READ, 9, 4, ".....", "0001000100010001", 1, NULL},
    /* 2: m */
    {"read m 0", READ, 4, 0, ".", "1", 2, NULL},
    {"read m 1", READ, 4, 1, "..", "12", 2, NULL},
    {"read m 9", READ, 4, 9, "..........", "1201120130233023", 2, NULL},
    {"read m 36", READ, 4, 36, ".....", "1201120130233023", 2, NULL},
    {"read m 68", READ, 4, 68, ".....", "1201120130233023", 2, NULL},
    {"read m 260", READ, 4, 260, ".....", "1201120130233023", 2, NULL},
    {"read m 2^32 - 1", READ, 4, 0xFFFFFFFFu, "", "1201120130233023", 2, NULL},
    {"read faults 2 5 7 8", READ, 4, 1, "...", "xxx", 2, NULL},
    {"read faults 2 8", READ, 4, 1, "..", "x1", 2, NULL},
    /* 5: the length of the message */
    {"read no message", READ, 4, 4, "", "1201120130233023", 5, NULL},
    {"read message at NULL", READ, 4, 4, NULL, "1201120130233023", 5, NULL},
    {"read both at NULL", READ, 4, 4, NULL, NULL, 5, NULL},
    {"read message one short", READ, 4, 4, "....", "1201120130233023", 5, NULL},
    {"read message one long", READ, 4, 4, "......", "1201120130233023", 5, NULL},
    {"read message 256 too long", READ, 4, 4, "....." DOTS_256, "1201120130233023", 5, NULL},
    {"read faults 5 7 8", READ, 4, 4, "....", "x20112013023302", 5, NULL},
    {"read faults 5 8", READ, 4, 4, "......", "x201120130233023", 5, NULL},
    {"read faults 5 9", READ, 4, 4, "....", "0001000100010001", 5, NULL},
    /* 7: the length of the word */
    {"read no word", READ, 4, 4, ".....", "", 7, NULL},
    {"read word at NULL", READ, 4, 4, ".....", NULL, 7, NULL},
    {"read word one short", READ, 4, 4, ".....", "120112013023302", 7, NULL},
    {"read word one long", READ, 4, 4, ".....", "12011201302330230", 7, NULL},
    {"read word of half", READ, 4, 4, ".....", "12011201", 7, NULL},
    {"read word 256 too long", READ, 4, 4, ".....", "1201120130233023" ZEROS_256, 7, NULL},
    {"read faults 7 8", READ, 4, 4, ".....", "420112013023302", 7, NULL},
    /* 8: the symbols of the word */
    {"read symbol 4 first", READ, 4, 4, ".....", "4201120130233023", 8, NULL},
    {"read symbol 4 last", READ, 4, 4, ".....", "1201120130233024", 8, NULL},
    {"read symbol 2 of q 2", READ, 2, 2, "...", "0120", 8, NULL},
    {"read symbol 8 of q 8", READ, 8, 3, "....", "74840505", 8, NULL},
    {"read symbol 128", READ, 8, 3, "....", "7474050p", 8, NULL},
    {"read symbol 255", READ, 4, 4, ".....", "12011201x0233023", 8, NULL},
    {"read faults 8 9", READ, 4, 4, ".....", "0001000100010004", 8, NULL},
    /* 9: no message is near */
    {"read doubtful q 2", READ, 2, 2, "...", "0001", 9, NULL},
    {"read a quarter wrong", READ, 4, 4, ".....", "1111000000000000", 9, NULL},
    {"read doubtful q 4", READ, 4, 4, ".....", "0001000100010001", 9, NULL},
};

/* One call: the answer, and every byte of both buffers and their guards. */
static void check(const char *name, enum call call, uint32_t q, uint32_t m, const struct guarded before[2],
                  const struct guarded after[2], uint32_t answer)
{
    struct guarded message = before[0], word = before[1];
    uint32_t got;
    if (call == WRITE)
        got = rm_write(q, m, lent(&message), message.length, lent(&word), word.length);
    else
        got = rm_read(q, m, lent(&message), message.length, lent(&word), word.length);
    if (got != answer)
        printf("%s: answer %lu, expected %lu\n", name, (unsigned long)got, (unsigned long)answer);
    require(got == answer, name, "the answer");
    require(same(&message, &after[0]), name, "the message buffer or its guards");
    require(same(&word, &after[1]), name, "the word buffer or its guards");
}

static void run_tests(const struct test *tests, size_t count)
{
    for (size_t i = 0; i < count; i++) {
        const struct test *t = &tests[i];
        struct guarded before[2], after[2];
        fill(&before[0], t->message);
        fill(&before[1], t->word);
        fill(&after[0], t->after && t->call == READ ? t->after : t->message);
        fill(&after[1], t->after && t->call == WRITE ? t->after : t->word);
        check(t->name, t->call, t->q, t->m, before, after, t->answer);
    }
}

/* Each refusal number of a call's questions must stand in its table. */
static void require_numbers(const char *name, const struct test *tests, size_t count, const char *numbers)
{
    for (; *numbers; numbers++) {
        int seen = 0;
        for (size_t i = 0; i < count; i++)
            seen |= tests[i].answer == (uint32_t)(*numbers - '0') && tests[i].after == NULL;
        require(seen, name, "a refusal number is not in the table");
    }
}

/* The codeword of a message, by the formula. */
static void codeword(uint32_t q, uint32_t m, const uint8_t *message, uint8_t *word)
{
    for (size_t i = 0; i < (size_t)1 << m; i++) {
        unsigned total = message[0];
        for (uint32_t k = 0; k < m; k++)
            total += (i >> k & 1) ? message[k + 1] : 0u;
        word[i] = (uint8_t)(total % q);
    }
}

/* A message of the code (q, m), written, and read with 0 to n/4 of its symbols altered: below n/4 it is read. */
static void run_code(uint32_t q, uint32_t m)
{
    char name[40];
    size_t n = (size_t)1 << m;
    struct guarded message, blank, word, empty;
    snprintf(name, sizeof name, "code q %u, m %u", (unsigned)q, (unsigned)m);
    guard(&message, m + 1);
    guard(&blank, m + 1);
    guard(&word, n);
    guard(&empty, n);
    for (uint32_t k = 0; k <= m; k++)
        message.bytes[GUARD + k] = (uint8_t)((3 * k + m + 1) % q);
    codeword(q, m, message.bytes + GUARD, word.bytes + GUARD);
    check(name, WRITE, q, m, (struct guarded[2]){message, empty}, (struct guarded[2]){message, word}, RM_DONE);
    for (size_t altered = 0; altered <= n / 4; altered++) {
        const struct guarded *after = altered < n / 4 ? &message : &blank;
        uint32_t answer = altered < n / 4 ? RM_DONE + (uint32_t)altered : RM_DOUBTFUL;
        check(name, READ, q, m, (struct guarded[2]){blank, word}, (struct guarded[2]){*after, word}, answer);
        uint8_t *next = &word.bytes[GUARD + (5 * altered + 1) % n];
        *next = (uint8_t)((*next + 1) % q);
    }
}

int main(void)
{
    size_t writes = sizeof WRITES / sizeof *WRITES, reads = sizeof READS / sizeof *READS;
    run_tests(WRITES, writes);
    run_tests(READS, reads);
    require_numbers("writes", WRITES, writes, "12567");
    require_numbers("reads", READS, reads, "125789");
    for (uint32_t q = 2; q <= 8; q *= 2)
        for (uint32_t m = 2; m <= 8; m++)
            run_code(q, m);
    if (failures) {
        printf("c form: failed, %u of %u checks\n", failures, checks);
        return 1;
    }
    printf("c form: ok, %u checks\n", checks);
    return 0;
}
