/* Calls each function of kernelhop.h on worked values, on what it refuses, and at length 0, with as much stack as the header asks for. Prints one line,
   and ends non-zero where a check fails. */
#include "kernelhop.h"

#include <pthread.h>
#include <stdio.h>
#include <stdlib.h>
#include <string.h>

static int checks;
static int failures;

static void check(int holds, int line, const char *text) {
    checks++;
    if (!holds) {
        failures++;
        fprintf(stderr, "test.c:%d: not so: %s\n", line, text);
    }
}

#define CHECK(holds) check((holds), __LINE__, #holds)

static int is(struct kernelhop_outcome outcome, int number, size_t value) {
    return outcome.number == number && outcome.value == value;
}

static struct kernelhop_reduction reduce(const char *word, char *out, size_t out_len) {
    return kernelhop_reduce((const uint8_t *)word, strlen(word), (uint8_t *)out, out_len);
}

/* A reduction that answers: the length of the normal form, and the pairs and triples that went. */
static int accounts(struct kernelhop_reduction reduction, size_t length, int pairs, int triples) {
    return reduction.number == 0 && reduction.value == length && reduction.pairs == pairs && reduction.triples == triples;
}

/* A reduction that refuses counts nothing. */
static int refuses(struct kernelhop_reduction reduction, int number, size_t place) {
    return reduction.number == number && reduction.value == place && reduction.pairs == 0 && reduction.triples == 0;
}

static struct kernelhop_outcome invert(const char *word, char *out, size_t out_len) {
    return kernelhop_invert((const uint8_t *)word, strlen(word), (uint8_t *)out, out_len);
}

static struct kernelhop_outcome is_normal(const char *word) {
    return kernelhop_is_normal((const uint8_t *)word, strlen(word));
}

static struct kernelhop_outcome word_to_matrix(const char *word, int64_t out[4]) {
    return kernelhop_word_to_matrix((const uint8_t *)word, strlen(word), out);
}

static void version(void) {
    CHECK(kernelhop_version() >= 10700);
}

static void words(void) {
    char out[16] = "xxxxxxxxxxxxxxx";
    CHECK(accounts(reduce("RR", out, 2), 0, 1, 0) && out[0] == 'x');
    CHECK(accounts(reduce("SSSS", out, 16), 1, 0, 1) && memcmp(out, "Sx", 2) == 0);
    CHECK(is(invert("SR", out, 16), 0, 3) && memcmp(out, "RSSx", 4) == 0);
    /* A refusal counts nothing, though a pair stands in the word. */
    CHECK(refuses(reduce("RRSSSTS", out, 16), 10, 5));
    CHECK(refuses(reduce("RRS", out, 2), 14, 0));
    CHECK(is(invert("SR", out, 3), 14, 0));
    CHECK(memcmp(out, "RSSxxxxxxxxxxxx", 15) == 0);
    CHECK(accounts(kernelhop_reduce(NULL, 0, NULL, 0), 0, 0, 0));
    CHECK(is(kernelhop_invert(NULL, 0, NULL, 0), 0, 0));
}

static void letters_that_went(void) {
    char out[16] = "xxxxxxxxxxxxxxx";
    /* A normal word is kept whole. */
    CHECK(accounts(reduce("SSRSRSS", out, 16), 7, 0, 0) && memcmp(out, "SSRSRSSx", 8) == 0);
    CHECK(accounts(reduce("SSS", out, 16), 0, 0, 1));
    CHECK(accounts(reduce("RRRRR", out, 16), 1, 2, 0) && out[0] == 'R');
    CHECK(accounts(reduce("SSSSSSSS", out, 16), 2, 0, 2) && memcmp(out, "SS", 2) == 0);
    /* A pair that meets only when a triple has gone, and triples whose letters meet only when pairs have. */
    CHECK(accounts(reduce("RSSSR", out, 16), 0, 1, 1));
    CHECK(accounts(reduce("SRRSRRS", out, 16), 0, 2, 1));
    CHECK(accounts(reduce("SSRSSSRS", out, 16), 0, 1, 2));
    CHECK(accounts(reduce("RSRRSRRSSR", out, 16), 3, 2, 1) && memcmp(out, "RSR", 3) == 0);

    /* As many as there can be of each. */
    static uint8_t many[4097];
    static uint8_t room[4097];
    memset(many, 'R', sizeof many);
    CHECK(accounts(kernelhop_reduce(many, 4096, room, 4096), 0, 2048, 0));
    CHECK(refuses(kernelhop_reduce(many, 4097, room, 4097), 8, 0));
    memset(many, 'S', sizeof many);
    CHECK(accounts(kernelhop_reduce(many, 4096, room, 4096), 1, 0, 1365) && room[0] == 'S');
    CHECK(refuses(kernelhop_reduce(many, 4097, room, 4097), 8, 0));
}

static size_t rs_in(const uint8_t *letters, size_t len) {
    size_t rs = 0;
    for (size_t i = 0; i < len; i++) {
        rs += letters[i] == 'R';
    }
    return rs;
}

/* The two equations, which leave no other counts, on random words up to the largest length, the same ones in every run. */
static void equations(void) {
    static uint8_t letters[4096];
    static uint8_t out[4096];
    uint32_t bits = 1;
    for (size_t len = 0; len <= sizeof letters; len += len < 64 ? 1 : 64) {
        for (size_t i = 0; i < len; i++) {
            bits = bits * 1664525 + 1013904223;
            letters[i] = bits >> 31 ? 'R' : 'S';
        }
        struct kernelhop_reduction reduction = kernelhop_reduce(letters, len, out, sizeof out);
        CHECK(reduction.number == 0 && is(kernelhop_is_normal(out, reduction.value), 0, 1));
        CHECK(len == reduction.value + 2 * (size_t)reduction.pairs + 3 * (size_t)reduction.triples);
        CHECK(rs_in(letters, len) - rs_in(out, reduction.value) == 2 * (size_t)reduction.pairs);
    }
}

static void normality(void) {
    CHECK(is(is_normal(""), 0, 1));
    CHECK(is(is_normal("SSRSRSS"), 0, 1));
    CHECK(is(is_normal("SRRS"), 0, 0));
    CHECK(is(is_normal("RSSS"), 0, 0));
    CHECK(is(is_normal("RRx"), 10, 2));
    CHECK(is(kernelhop_is_normal(NULL, 0), 0, 1));

    /* As deep as the test of normality goes. */
    static uint8_t many[4097];
    for (size_t i = 0; i < sizeof many; i++) {
        many[i] = i % 2 == 0 ? 'R' : 'S';
    }
    CHECK(is(kernelhop_is_normal(many, 4096), 0, 1));
    CHECK(is(kernelhop_is_normal(many + 1, 4096), 0, 1));
    CHECK(is(kernelhop_is_normal(many, 4097), 8, 0));
    many[4095] = 'R';
    CHECK(is(kernelhop_is_normal(many, 4096), 0, 0));
}

static void matrices(void) {
    int64_t m[4] = {7, 7, 7, 7};
    CHECK(is(word_to_matrix("TR", m), 10, 0));
    CHECK(m[0] == 7 && m[1] == 7 && m[2] == 7 && m[3] == 7);
    CHECK(is(word_to_matrix("S", m), 0, 0));
    CHECK(m[0] == 1 && m[1] == -1 && m[2] == 1 && m[3] == 0);
    CHECK(is(word_to_matrix("SR", m), 0, 0));
    CHECK(m[0] == 1 && m[1] == 1 && m[2] == 0 && m[3] == 1);
    CHECK(is(kernelhop_word_to_matrix(NULL, 0, m), 0, 0));
    CHECK(m[0] == 1 && m[1] == 0 && m[2] == 0 && m[3] == 1);

    uint8_t out[KERNELHOP_FORM];
    CHECK(is(kernelhop_matrix_to_word(1, 0, 1, 1, out, sizeof out), 0, 3) && memcmp(out, "SSR", 3) == 0);
    CHECK(is(kernelhop_matrix_to_word(1, 40, 0, 1, out, sizeof out), 0, 80));
    CHECK(is(kernelhop_matrix_to_word(1, 41, 0, 1, out, sizeof out), 12, 0));
    CHECK(is(kernelhop_matrix_to_word(1, -26, 0, 1, out, sizeof out), 0, 78));
    CHECK(is(kernelhop_matrix_to_word(1, -27, 0, 1, out, sizeof out), 12, 0));
    CHECK(is(kernelhop_matrix_to_word(1, INT64_MIN, 0, 1, out, sizeof out), 5, 1));
    CHECK(is(kernelhop_matrix_to_word(1, 0, 0, -1, out, sizeof out), 6, 0));
    CHECK(is(kernelhop_matrix_to_word(1, 0, 0, 1, out, sizeof out - 1), 14, 0));
    CHECK(is(kernelhop_matrix_to_word(1, 0, 0, 1, NULL, 0), 14, 0));
}

static size_t normal_length(const char *word) {
    char out[64];
    return reduce(word, out, sizeof out).value;
}

static int all_are(const uint16_t *table, size_t from, size_t to, uint16_t value) {
    for (size_t i = from; i < to; i++) {
        if (table[i] != value) {
            return 0;
        }
    }
    return 1;
}

/* Generators RSRS, S and SRSS: R is a product of all three, and of no two. The tables have an entry more than is needed, which remains. */
static void verdicts(void) {
    const char *list = "RSRSSSRSS";
    const uint16_t ends[] = {4, 5, 9};
    size_t m = normal_length("RSRS") + normal_length("S") + normal_length("SRSS");
    size_t q = m + 2 * normal_length("R") + 1;
    size_t len = q * q + 1;
    uint16_t *first = malloc(len * sizeof *first);
    uint16_t *second = malloc(len * sizeof *second);
    if (first == NULL || second == NULL) {
        fprintf(stderr, "no memory\n");
        exit(2);
    }
    for (size_t i = 0; i < len; i++) {
        first[i] = second[i] = 65535;
    }
    uint8_t witness[4] = {9, 9, 9, 9};
    const uint8_t *bytes = (const uint8_t *)list;
    const uint8_t *target = (const uint8_t *)"R";

    CHECK(is(kernelhop_judge(bytes, 9, ends, 3, target, 1, 3, first, q * q - 1, second, q * q, witness, 4), 15, 0));
    CHECK(is(kernelhop_judge(bytes, 9, ends, 3, target, 1, 3, first, q * q, second, q * q - 1, witness, 4), 15, 0));
    CHECK(is(kernelhop_judge(bytes, 9, ends, 3, target, 1, 3, first, q * q, second, q * q, witness, 2), 14, 0));
    CHECK(is(kernelhop_judge(bytes, 8, ends, 3, target, 1, 3, first, q * q, second, q * q, witness, 4), 9, 3));
    CHECK(all_are(first, 0, len, 65535) && all_are(second, 0, len, 65535) && witness[0] == 9);

    CHECK(is(kernelhop_judge(bytes, 9, ends, 3, target, 1, 2, first, len, second, len, witness, 4), KERNELHOP_NONE, 2));
    CHECK(witness[0] == 9);
    CHECK(is(kernelhop_judge(bytes, 9, ends, 3, target, 1, 3, first, len, second, len, witness, 4), 0, 3));
    CHECK(witness[0] == 0 && witness[1] == 1 && witness[2] == 2 && witness[3] == 9);
    CHECK(all_are(first, 0, q * q, 0) && first[q * q] == 65535);
    CHECK(all_are(second, 0, q * q, 0) && second[q * q] == 65535);

    /* An empty list and an empty target: q is 1. */
    CHECK(is(kernelhop_judge(NULL, 0, NULL, 0, NULL, 0, 0, first, 1, second, 1, NULL, 0), KERNELHOP_NONE, 0));
    CHECK(is(kernelhop_judge(NULL, 0, NULL, 0, NULL, 0, 0, NULL, 0, NULL, 0, NULL, 0), 15, 0));
    free(first);
    free(second);
}

/* Tables that are large enough for every list, and for every list with its inverses. */
enum { LARGEST = KERNELHOP_SIDE * KERNELHOP_SIDE, SIGNED_LARGEST = KERNELHOP_SIGNED_SIDE * KERNELHOP_SIGNED_SIDE };
static uint16_t largest_first[SIGNED_LARGEST];
static uint16_t largest_second[SIGNED_LARGEST];

/* The words in a row, with their ends. */
static size_t join(const char *const *words, size_t count, uint8_t *bytes, uint16_t *ends) {
    size_t len = 0;
    for (size_t i = 0; i < count; i++) {
        memcpy(bytes + len, words[i], strlen(words[i]));
        len += strlen(words[i]);
        ends[i] = (uint16_t)len;
    }
    return len;
}

/* What a verdict writes: all 9 before a call. */
static uint8_t plain_witness[KERNELHOP_BOUND];

/* The verdict on a list of words, with the largest tables. */
static struct kernelhop_outcome judge(const char *const *words, size_t count, const char *target, uint16_t n) {
    uint8_t bytes[64];
    uint16_t ends[8];
    size_t bytes_len = join(words, count, bytes, ends);
    memset(plain_witness, 9, sizeof plain_witness);
    return kernelhop_judge(bytes, bytes_len, ends, count, (const uint8_t *)target, strlen(target), n, largest_first, LARGEST, largest_second, LARGEST,
                           plain_witness, sizeof plain_witness);
}

/* Is the target a member by just these factors, with n 1,000? */
static int member_by(const char *const *words, size_t count, const char *target, const uint8_t *factors, size_t factors_len) {
    return is(judge(words, count, target, KERNELHOP_BOUND), 0, factors_len) && memcmp(plain_witness, factors, factors_len) == 0 &&
           plain_witness[factors_len] == 9;
}

/* Is it none, with nothing written? */
static int none_for(const char *const *words, size_t count, const char *target, uint16_t n) {
    return is(judge(words, count, target, n), KERNELHOP_NONE, n) && plain_witness[0] == 9;
}

/* Of several least series the first when numbers are compared from left to right. */
static void first_of_the_least(void) {
    CHECK(member_by((const char *[]){"RS", "S"}, 2, "R", (const uint8_t[]){0, 1, 1}, 3));
    CHECK(member_by((const char *[]){"RSRS", "S", "SRSS"}, 3, "R", (const uint8_t[]){0, 1, 2}, 3));
    /* Equal generators, as written and by the rules. */
    CHECK(member_by((const char *[]){"S", "R", "R"}, 3, "R", (const uint8_t[]){1}, 1));
    CHECK(member_by((const char *[]){"RS", "SRRR", "SR"}, 3, "SRSR", (const uint8_t[]){1, 1}, 2));
    /* Empty generators. */
    CHECK(member_by((const char *[]){"", "S", "RR", "S", ""}, 5, "SS", (const uint8_t[]){1, 1}, 2));
    /* 0 2 and 3 0; 0 2 2, 1 0 2 and 1 1 0; 0 0 1 0, 0 1 0 1 and 1 0 1 1. */
    CHECK(member_by((const char *[]){"S", "SS", "RS", "SR"}, 4, "SRS", (const uint8_t[]){0, 2}, 2));
    CHECK(member_by((const char *[]){"SS", "RS", "SR"}, 3, "RSR", (const uint8_t[]){0, 2, 2}, 3));
    CHECK(member_by((const char *[]){"RS", "SR"}, 2, "RSR", (const uint8_t[]){0, 0, 1, 0}, 4));
}

/* Products of one factor or more that equal the identity: an empty target asks for the first of the least. */
static void relations(void) {
    CHECK(member_by((const char *[]){"SSS"}, 1, "", (const uint8_t[]){0}, 1));
    CHECK(member_by((const char *[]){"R"}, 1, "", (const uint8_t[]){0, 0}, 2));
    CHECK(member_by((const char *[]){"S"}, 1, "", (const uint8_t[]){0, 0, 0}, 3));
    CHECK(member_by((const char *[]){"S", "SS"}, 2, "", (const uint8_t[]){0, 1}, 2));
    CHECK(member_by((const char *[]){"S", "SS"}, 2, "RSSSR", (const uint8_t[]){0, 1}, 2));
    /* 2 2 and 3 3, since SRSS is its own inverse as R is; 0 1 2 3 has more factors. */
    CHECK(member_by((const char *[]){"RSRS", "S", "SRSS", "R"}, 4, "", (const uint8_t[]){2, 2}, 2));
    /* T and the inverse of U: the first of eight. */
    CHECK(member_by((const char *[]){"SR", "RS"}, 2, "", (const uint8_t[]){0, 0, 1, 0, 0, 1}, 6));
    CHECK(none_for((const char *[]){"SR", "RS"}, 2, "", 5));
    /* An empty generator, and one that vanishes: of several the first. */
    CHECK(member_by((const char *[]){""}, 1, "", (const uint8_t[]){0}, 1));
    CHECK(member_by((const char *[]){"R", "RSSSR", ""}, 3, "", (const uint8_t[]){1}, 1));
    /* With n 0 there is no product, nor is there one of a list that has no generators; and no power of T is the identity. */
    CHECK(none_for((const char *[]){"SSS"}, 1, "", 0));
    CHECK(none_for((const char *[]){""}, 1, "", 0));
    CHECK(none_for((const char *[]){"R"}, 1, "", 1));
    CHECK(none_for(NULL, 0, "", KERNELHOP_BOUND));
    CHECK(none_for((const char *[]){"SR"}, 1, "", KERNELHOP_BOUND));
}

/* Four generators and a target of 80 letters in normal form: no call needs larger tables. */
static void largest_tables(void) {
    static uint8_t witness[KERNELHOP_BOUND];
    uint16_t *first = largest_first;
    uint16_t *second = largest_second;
    const size_t len = LARGEST;
    const uint16_t ends[] = {80, 160, 240, 320};
    uint8_t bytes[320];
    for (size_t i = 0; i < sizeof bytes; i++) {
        bytes[i] = i % 2 == 0 ? 'S' : 'R';
    }
    const uint8_t *target = bytes;
    CHECK(is(kernelhop_judge(bytes, 320, ends, 4, target, 80, KERNELHOP_BOUND, first, len - 1, second, len, witness, KERNELHOP_BOUND), 15, 0));
    CHECK(is(kernelhop_judge(bytes, 320, ends, 4, target, 80, KERNELHOP_BOUND, first, len, second, len, witness, KERNELHOP_BOUND), 0, 1));
    CHECK(is(kernelhop_judge(bytes, 320, ends, 4, target, 80, KERNELHOP_BOUND + 1, first, len, second, len, witness, KERNELHOP_BOUND), 13, 0));
    CHECK(is(kernelhop_reachable(bytes, 320, ends, 4, target, 80, first, len, second, len - 1), 15, 0));
    CHECK(is(kernelhop_reachable(bytes, 320, ends, 4, target, 80, first, len, second, len), 0, 1));
}

/* The verdict without a bound on a list of words, with the largest tables. */
static struct kernelhop_outcome reachable(const char *const *words, size_t count, const char *target) {
    static uint8_t bytes[8192];
    uint16_t ends[65];
    size_t bytes_len = join(words, count, bytes, ends);
    return kernelhop_reachable(bytes, bytes_len, ends, count, (const uint8_t *)target, strlen(target), largest_first, LARGEST, largest_second, LARGEST);
}

static void without_a_bound(void) {
    CHECK(is(reachable((const char *[]){"RS", "S"}, 2, "R"), 0, 1));
    CHECK(is(reachable((const char *[]){"RSRS", "S", "SRSS"}, 3, "R"), 0, 1));
    CHECK(is(reachable((const char *[]){"SR", "RSS"}, 2, "RSSRSS"), 0, 1));
    CHECK(is(reachable((const char *[]){"SR"}, 1, "R"), KERNELHOP_NONE, 0));
    CHECK(is(reachable((const char *[]){"SR"}, 1, "RSS"), KERNELHOP_NONE, 0));
    CHECK(is(reachable((const char *[]){"", "SSS"}, 2, "S"), KERNELHOP_NONE, 0));
    /* Relations. No power of T is one, and there is none of a list that has no generators. */
    CHECK(is(reachable((const char *[]){"SSS"}, 1, ""), 0, 1));
    CHECK(is(reachable((const char *[]){"R"}, 1, ""), 0, 1));
    CHECK(is(reachable((const char *[]){"S", "SS"}, 2, "RSSSR"), 0, 1));
    CHECK(is(reachable((const char *[]){"RSRS", "S", "SRSS", "R"}, 4, ""), 0, 1));
    CHECK(is(reachable((const char *[]){"SR", ""}, 2, ""), 0, 1));
    CHECK(is(reachable((const char *[]){"SR"}, 1, "RSSSR"), KERNELHOP_NONE, 0));
    uint16_t one[1] = {65535};
    uint16_t other[1] = {65535};
    CHECK(is(kernelhop_reachable(NULL, 0, NULL, 0, NULL, 0, one, 1, other, 1), KERNELHOP_NONE, 0) && one[0] == 0 && other[0] == 0);
    CHECK(is(kernelhop_reachable(NULL, 0, NULL, 0, (const uint8_t *)"R", 1, largest_first, LARGEST, largest_second, LARGEST), KERNELHOP_NONE, 0));
    CHECK(is(kernelhop_reachable(NULL, 0, NULL, 0, NULL, 0, NULL, 0, NULL, 0), 15, 0));
}

static char *repeat(char *out, const char *word, size_t times) {
    for (size_t i = 0; i < times; i++) {
        memcpy(out, word, strlen(word));
        out += strlen(word);
    }
    *out = 0;
    return out;
}

/* T to the 37th and the -26th, and T to the -1st before U to the 25th and the -34th, where T is SR and U is SSR: 1,217 factors make U, and no fewer. */
static void beyond_every_bound(void) {
    static uint8_t witness[KERNELHOP_BOUND];
    char words[4][128];
    repeat(words[0], "SR", 37);
    repeat(words[1], "RSS", 26);
    repeat(repeat(words[2], "RSS", 1), "SSR", 25);
    repeat(repeat(words[3], "RSS", 1), "RS", 34);
    const char *const list[] = {words[0], words[1], words[2], words[3]};
    uint8_t bytes[512];
    uint16_t ends[4];
    size_t len = join(list, 4, bytes, ends);
    const uint8_t *target = (const uint8_t *)"SSR";
    CHECK(is(kernelhop_judge(bytes, len, ends, 4, target, 3, KERNELHOP_BOUND, largest_first, LARGEST, largest_second, LARGEST, witness, sizeof witness),
             KERNELHOP_NONE, KERNELHOP_BOUND));
    CHECK(is(reachable(list, 4, "SSR"), 0, 1));
}

/* Each question of the verdict without a bound, with its place. */
static void refused_without_a_bound(void) {
    const char *many[65];
    for (size_t i = 0; i < 65; i++) {
        many[i] = "R";
    }
    static char letters[4098];
    repeat(letters, "R", 4097);
    char longest[81];
    char too_long[83];
    repeat(longest, "SR", 40);
    repeat(too_long, "SR", 41);
    memset(largest_first, 255, sizeof largest_first);
    memset(largest_second, 255, sizeof largest_second);

    CHECK(is(reachable(many, 65, "x"), 7, 0));
    CHECK(is(reachable((const char *[]){letters}, 1, "x"), 8, 0));
    CHECK(is(reachable((const char *[]){"x"}, 1, letters), 8, 0));
    const uint8_t *bytes = (const uint8_t *)"RSx";
    CHECK(is(kernelhop_reachable(bytes, 3, (const uint16_t[]){2, 1, 3}, 3, bytes, 1, largest_first, LARGEST, largest_second, LARGEST), 9, 1));
    CHECK(is(kernelhop_reachable(bytes, 3, (const uint16_t[]){1, 2}, 2, bytes, 1, largest_first, LARGEST, largest_second, LARGEST), 9, 2));
    CHECK(is(kernelhop_reachable(bytes, 3, NULL, 0, bytes, 1, largest_first, LARGEST, largest_second, LARGEST), 9, 0));
    CHECK(is(reachable((const char *[]){too_long, "Sx"}, 2, "x"), 10, 83));
    CHECK(is(reachable((const char *[]){too_long, "S"}, 2, "Rx"), 10, 84));
    CHECK(is(reachable((const char *[]){"R", too_long}, 2, too_long), 11, 1));
    CHECK(is(reachable((const char *[]){longest, longest, longest, longest, "S"}, 5, too_long), 11, 4));
    CHECK(is(reachable((const char *[]){"SR"}, 1, too_long), 12, 0));
    CHECK(all_are(largest_first, 0, LARGEST, 65535) && all_are(largest_second, 0, LARGEST, 65535));
    CHECK(is(reachable((const char *[]){"SR"}, 1, longest), 0, 1));
}

/* List SR: with target SRSRSR, a yes, q is 15; with target RSSRSS, a no, it is 15 too. The tables have an entry more, which remains. */
static void tables_without_a_bound(void) {
    const char *targets[] = {"SRSRSR", "RSSRSS"};
    const uint8_t *bytes = (const uint8_t *)"SR";
    const uint16_t ends[] = {2};
    for (size_t i = 0; i < 2; i++) {
        const uint8_t *target = (const uint8_t *)targets[i];
        uint16_t first[226];
        uint16_t second[226];
        memset(first, 255, sizeof first);
        memset(second, 255, sizeof second);
        CHECK(is(kernelhop_reachable(bytes, 2, ends, 1, target, 6, first, 224, second, 225), 15, 0));
        CHECK(is(kernelhop_reachable(bytes, 2, ends, 1, target, 6, first, 225, second, 224), 15, 0));
        CHECK(all_are(first, 0, 226, 65535) && all_are(second, 0, 226, 65535));
        CHECK(is(kernelhop_reachable(bytes, 2, ends, 1, target, 6, first, 226, second, 226), i == 0 ? 0 : KERNELHOP_NONE, i == 0));
        CHECK(all_are(first, 0, 225, 0) && first[225] == 65535);
        CHECK(all_are(second, 0, 225, 0) && second[225] == 65535);
    }
}

/* A list as it is lent, and what a verdict on it as a subgroup writes: the witness and the inverse slice, all 9 and all 'x' before a call. */
static uint8_t given[8192];
static uint16_t given_ends[65];
static size_t given_len;
static size_t given_count;
static uint8_t signed_witness[KERNELHOP_BOUND];
static uint8_t inverses[KERNELHOP_INVERSES + 1];

static void give(const char *const *words, size_t count) {
    given_len = join(words, count, given, given_ends);
    given_count = count;
    memset(signed_witness, 9, sizeof signed_witness);
    memset(inverses, 'x', sizeof inverses);
}

static struct kernelhop_outcome in_subgroup(const char *target, uint16_t n) {
    return kernelhop_judge_subgroup(given, given_len, given_ends, given_count, (const uint8_t *)target, strlen(target), n, largest_first,
                                    SIGNED_LARGEST, largest_second, SIGNED_LARGEST, signed_witness, sizeof signed_witness, inverses, sizeof inverses);
}

/* The front of the inverse slice is these letters, and the rest is as it was. */
static int inverses_are(const char *letters) {
    size_t len = strlen(letters);
    for (size_t i = len; i < sizeof inverses; i++) {
        if (inverses[i] != 'x') {
            return 0;
        }
    }
    return memcmp(inverses, letters, len) == 0;
}

static int bytes_are(const uint8_t *bytes, size_t from, size_t to, uint8_t value) {
    for (size_t i = from; i < to; i++) {
        if (bytes[i] != value) {
            return 0;
        }
    }
    return 1;
}

/* Is the target a member of the subgroup by just these factors, with n 1,000, and are the inverses these? */
static int member_of_subgroup(const char *target, const uint8_t *factors, size_t factors_len, const char *letters) {
    return is(in_subgroup(target, KERNELHOP_BOUND), 0, factors_len) && memcmp(signed_witness, factors, factors_len) == 0 &&
           bytes_are(signed_witness, factors_len, sizeof signed_witness, 9) && inverses_are(letters);
}

static int part_is(uint8_t number, int inverse, size_t start, size_t end) {
    struct kernelhop_part part = kernelhop_letters_of(given, given_len, given_ends, given_count, inverses, sizeof inverses, number);
    return part.inverse == inverse && part.start == start && part.end == end;
}

enum { INVERSE = KERNELHOP_INVERSE };

static void subgroups(void) {
    give((const char *[]){"SR"}, 1);
    CHECK(member_of_subgroup("SRSRSR", (const uint8_t[]){0, 0, 0}, 3, "RSS"));
    give((const char *[]){"SR"}, 1);
    CHECK(member_of_subgroup("RSSRSS", (const uint8_t[]){INVERSE, INVERSE}, 2, "RSS"));
    give((const char *[]){"SR"}, 1);
    CHECK(is(in_subgroup("R", KERNELHOP_BOUND), KERNELHOP_NONE, KERNELHOP_BOUND));
    CHECK(bytes_are(signed_witness, 0, sizeof signed_witness, 9) && inverses_are("RSS"));
    /* T times U to the -1st is SRRS. */
    give((const char *[]){"SR", "SSR"}, 2);
    CHECK(member_of_subgroup("SS", (const uint8_t[]){0, INVERSE + 1}, 2, "RSSRS"));
    /* R is its own inverse; of the two numbers the lower is written. */
    give((const char *[]){"R"}, 1);
    CHECK(member_of_subgroup("R", (const uint8_t[]){0}, 1, "R"));
    /* A generator stands before every inverse, also one of a lower number. */
    give((const char *[]){"S", "SS"}, 2);
    CHECK(member_of_subgroup("SS", (const uint8_t[]){1}, 1, "SSS"));
    give((const char *[]){"S"}, 1);
    CHECK(member_of_subgroup("SS", (const uint8_t[]){INVERSE}, 1, "SS"));
    /* Equal generators, as written and by the rules, and empty ones. */
    give((const char *[]){"RS", "SR", "SRRR"}, 3);
    CHECK(member_of_subgroup("RSSRSS", (const uint8_t[]){INVERSE + 1, INVERSE + 1}, 2, "SSRRSSRSS"));
    give((const char *[]){"", "S", "RR", "S", ""}, 5);
    CHECK(member_of_subgroup("SS", (const uint8_t[]){INVERSE + 1}, 1, "SSSS"));
    /* A list without generators, and a bound of 0. */
    give(NULL, 0);
    CHECK(is(in_subgroup("R", KERNELHOP_BOUND), KERNELHOP_NONE, KERNELHOP_BOUND) && inverses_are(""));
    give((const char *[]){"SR", "S"}, 2);
    CHECK(is(in_subgroup("SR", 0), KERNELHOP_NONE, 0) && inverses_are("RSSSS") && signed_witness[0] == 9);
}

/* A generator and its inverse are a relation of every list that has one. */
static void relations_of_subgroups(void) {
    give((const char *[]){"SR"}, 1);
    CHECK(member_of_subgroup("", (const uint8_t[]){0, INVERSE}, 2, "RSS"));
    give((const char *[]){"RSRS", "S", "SRSS", "R"}, 4);
    CHECK(member_of_subgroup("RSSSR", (const uint8_t[]){0, INVERSE}, 2, "SSRSSRSSSRSSR"));
    /* The inverse stands in the list. */
    give((const char *[]){"R"}, 1);
    CHECK(member_of_subgroup("", (const uint8_t[]){0, 0}, 2, "R"));
    give((const char *[]){"S", "SS"}, 2);
    CHECK(member_of_subgroup("", (const uint8_t[]){0, 1}, 2, "SSS"));
    /* A generator that vanishes, and an empty one. */
    give((const char *[]){"SSS"}, 1);
    CHECK(member_of_subgroup("", (const uint8_t[]){0}, 1, ""));
    give((const char *[]){"R", ""}, 2);
    CHECK(member_of_subgroup("", (const uint8_t[]){1}, 1, "R"));
    /* With n 0 there is no product, nor is there one of a list that has no generators. */
    give((const char *[]){"SSS"}, 1);
    CHECK(is(in_subgroup("", 0), KERNELHOP_NONE, 0) && signed_witness[0] == 9);
    give((const char *[]){"SR"}, 1);
    CHECK(is(in_subgroup("", 1), KERNELHOP_NONE, 1) && signed_witness[0] == 9);
    give(NULL, 0);
    CHECK(is(in_subgroup("RSSSR", KERNELHOP_BOUND), KERNELHOP_NONE, KERNELHOP_BOUND) && signed_witness[0] == 9 && inverses_are(""));
}

/* Generators S, SR, T to the 40th, nothing, and SRR: what is given is shown as it is given, and an inverse in its normal form. */
static void letters_of_factors(void) {
    char longest[81];
    repeat(longest, "SR", 40);
    char inverse_letters[128] = "SSRSS";
    repeat(repeat(inverse_letters + 5, "RSS", 40), "SS", 1);
    give((const char *[]){"S", "SR", longest, "", "SRR"}, 5);
    CHECK(is(in_subgroup("RSS", 1), 0, 1) && signed_witness[0] == INVERSE + 1 && inverses_are(inverse_letters));
    CHECK(part_is(0, 0, 0, 1));
    CHECK(part_is(1, 0, 1, 3));
    CHECK(part_is(2, 0, 3, 83));
    CHECK(part_is(3, 0, 83, 83));
    CHECK(part_is(4, 0, 83, 86));
    CHECK(part_is(INVERSE, 1, 0, 2));
    CHECK(part_is(INVERSE + 1, 1, 2, 5));
    CHECK(part_is(INVERSE + 2, 1, 5, 125));
    CHECK(part_is(INVERSE + 3, 1, 125, 125));
    CHECK(part_is(INVERSE + 4, 1, 125, 127));
    /* Numbers that are no factor's. */
    CHECK(part_is(5, 0, 0, 0) && part_is(63, 0, 0, 0) && part_is(64, 0, 0, 0) && part_is(127, 0, 0, 0));
    CHECK(part_is(INVERSE + 5, 0, 0, 0) && part_is(INVERSE + 64, 0, 0, 0) && part_is(255, 0, 0, 0));
    /* The part follows from the list alone. */
    memset(inverses, 'x', sizeof inverses);
    CHECK(part_is(INVERSE + 2, 1, 5, 125) && inverses_are(""));
    give(NULL, 0);
    CHECK(part_is(0, 0, 0, 0) && part_is(INVERSE, 0, 0, 0));
}

/* No question's number is told: the part is empty. */
static int no_part(const char *letters, size_t len, const uint16_t *ends, size_t count, size_t room) {
    const uint8_t numbers[] = {0, 1, INVERSE, INVERSE + 1};
    for (size_t i = 0; i < sizeof numbers; i++) {
        struct kernelhop_part part = kernelhop_letters_of((const uint8_t *)letters, len, ends, count, inverses, room, numbers[i]);
        if (part.inverse != 0 || part.start != 0 || part.end != 0) {
            return 0;
        }
    }
    return 1;
}

static void letters_of_refused_lists(void) {
    static char letters[4098];
    repeat(letters, "R", 4097);
    char too_long[83];
    repeat(too_long, "SR", 41);
    uint16_t many[65];
    for (size_t i = 0; i < 65; i++) {
        many[i] = 2;
    }
    const uint16_t two[] = {1, 2};
    give((const char *[]){"S", "R"}, 2);
    CHECK(part_is(1, 0, 1, 2) && part_is(INVERSE + 1, 1, 2, 3));
    CHECK(no_part("SR", 2, many, 65, KERNELHOP_INVERSES));
    CHECK(no_part(letters, 4097, (const uint16_t[]){4096, 4097}, 2, KERNELHOP_INVERSES));
    CHECK(no_part("SR", 2, (const uint16_t[]){2, 1}, 2, KERNELHOP_INVERSES));
    CHECK(no_part("SR", 1, two, 2, KERNELHOP_INVERSES));
    CHECK(no_part("Sx", 2, two, 2, KERNELHOP_INVERSES));
    CHECK(no_part(too_long, 82, (const uint16_t[]){0, 82}, 2, KERNELHOP_INVERSES));
    CHECK(no_part("SR", 2, two, 2, KERNELHOP_INVERSES - 1));
    CHECK(no_part("SR", 2, two, 2, 0));
    struct kernelhop_part part = kernelhop_letters_of((const uint8_t *)"SR", 2, two, 2, NULL, 0, 1);
    CHECK(part.inverse == 0 && part.start == 0 && part.end == 0);
    part = kernelhop_letters_of(NULL, 0, NULL, 0, NULL, 0, 0);
    CHECK(part.inverse == 0 && part.start == 0 && part.end == 0);
}

/* 64 generators SRSRS, which have 320 letters and their inverses 512, and a target of 80: no call needs larger tables. */
static void largest_signed_tables(void) {
    const char *words[64];
    static char letters[513];
    for (size_t i = 0; i < 64; i++) {
        words[i] = "SRSRS";
    }
    repeat(letters, "SSRSSRSS", 64);
    char target[81];
    repeat(target, "SR", 40);
    give(words, 64);
    const uint8_t *wanted = (const uint8_t *)target;
    memset(largest_first, 255, sizeof largest_first);
    memset(largest_second, 255, sizeof largest_second);
    CHECK(is(kernelhop_judge_subgroup(given, 320, given_ends, 64, wanted, 80, KERNELHOP_BOUND, largest_first, SIGNED_LARGEST - 1, largest_second,
                                      SIGNED_LARGEST, signed_witness, sizeof signed_witness, inverses, sizeof inverses),
             15, 0));
    CHECK(is(kernelhop_judge_subgroup(given, 320, given_ends, 64, wanted, 80, KERNELHOP_BOUND, largest_first, SIGNED_LARGEST, largest_second,
                                      SIGNED_LARGEST - 1, signed_witness, sizeof signed_witness, inverses, sizeof inverses),
             15, 0));
    CHECK(all_are(largest_first, 0, SIGNED_LARGEST, 65535) && all_are(largest_second, 0, SIGNED_LARGEST, 65535) && inverses_are(""));
    CHECK(is(in_subgroup(target, KERNELHOP_BOUND), KERNELHOP_NONE, KERNELHOP_BOUND));
    CHECK(all_are(largest_first, 0, SIGNED_LARGEST, 0) && all_are(largest_second, 0, SIGNED_LARGEST, 0) && inverses_are(letters));
    CHECK(member_of_subgroup("SSRSSRSS", (const uint8_t[]){INVERSE}, 1, letters));
    CHECK(part_is(63, 0, 315, 320) && part_is(INVERSE + 63, 1, 504, 512));
    CHECK(part_is(64, 0, 0, 0) && part_is(127, 0, 0, 0) && part_is(INVERSE + 64, 0, 0, 0) && part_is(255, 0, 0, 0));
}

/* Each question of the verdict on a subgroup, with its place. Those about the list look at the given generators only. */
static void refused_subgroups(void) {
    const char *many[65];
    for (size_t i = 0; i < 65; i++) {
        many[i] = "R";
    }
    static char letters[4098];
    repeat(letters, "R", 4097);
    char longest[81];
    char too_long[83];
    repeat(longest, "SR", 40);
    repeat(too_long, "SR", 41);
    memset(largest_first, 255, sizeof largest_first);
    memset(largest_second, 255, sizeof largest_second);

    give(many, 65);
    CHECK(is(in_subgroup("x", 1001), 7, 0));
    give((const char *[]){letters}, 1);
    CHECK(is(in_subgroup("x", 1001), 8, 0));
    give((const char *[]){"x"}, 1);
    CHECK(is(in_subgroup(letters, 1001), 8, 0));
    given_ends[0] = 2;
    CHECK(is(in_subgroup("x", 1001), 9, 1));
    give((const char *[]){too_long, "Sx"}, 2);
    CHECK(is(in_subgroup("x", 1001), 10, 83));
    given[83] = 'S';
    CHECK(is(in_subgroup("Rx", 1001), 10, 85));
    give((const char *[]){"R", too_long}, 2);
    CHECK(is(in_subgroup(too_long, 1001), 11, 1));
    give((const char *[]){longest, longest, longest, longest, "S"}, 5);
    CHECK(is(in_subgroup(too_long, 1001), 11, 4));
    give((const char *[]){"SR"}, 1);
    CHECK(is(in_subgroup(too_long, 1001), 12, 0));
    CHECK(is(in_subgroup(longest, 1001), 13, 0));
    CHECK(all_are(largest_first, 0, SIGNED_LARGEST, 65535) && all_are(largest_second, 0, SIGNED_LARGEST, 65535));
    CHECK(bytes_are(signed_witness, 0, sizeof signed_witness, 9) && inverses_are(""));

    /* Four inverses of 120 letters each are no question's matter. */
    give((const char *[]){longest, longest, longest, longest}, 4);
    CHECK(is(in_subgroup(longest, 1000), 0, 1) && signed_witness[0] == 0 && inverses[479] == 'S' && inverses[480] == 'x');
}

/* List SR: its inverse is RSS, so with target SRSR q is 2 + 3 + 8 + 1 = 14. Each slice has an entry more than it must, which remains. */
static void lent_for_a_subgroup(void) {
    const uint8_t *bytes = (const uint8_t *)"SR";
    const uint8_t *target = (const uint8_t *)"SRSR";
    const uint16_t ends[] = {2};
    uint16_t first[197];
    uint16_t second[197];
    memset(first, 255, sizeof first);
    memset(second, 255, sizeof second);
    memset(signed_witness, 9, sizeof signed_witness);
    memset(inverses, 'x', sizeof inverses);
    const size_t room = KERNELHOP_INVERSES;
    CHECK(is(kernelhop_judge_subgroup(bytes, 2, ends, 1, target, 4, 3, first, 0, second, 0, signed_witness, 2, inverses, room), 14, 0));
    CHECK(is(kernelhop_judge_subgroup(bytes, 2, ends, 1, target, 4, 3, first, 0, second, 0, signed_witness, 3, inverses, room - 1), 14, 0));
    CHECK(is(kernelhop_judge_subgroup(bytes, 2, ends, 1, target, 4, 0, first, 0, second, 0, NULL, 0, NULL, 0), 14, 0));
    CHECK(is(kernelhop_judge_subgroup(bytes, 2, ends, 1, target, 4, 3, first, 195, second, 196, signed_witness, 3, inverses, room), 15, 0));
    CHECK(is(kernelhop_judge_subgroup(bytes, 2, ends, 1, target, 4, 3, first, 196, second, 195, signed_witness, 3, inverses, room), 15, 0));
    CHECK(all_are(first, 0, 197, 65535) && all_are(second, 0, 197, 65535) && signed_witness[0] == 9 && inverses_are(""));
    CHECK(is(kernelhop_judge_subgroup(bytes, 2, ends, 1, target, 4, 3, first, 196, second, 197, signed_witness, 3, inverses, room), 0, 2));
    CHECK(all_are(first, 0, 196, 0) && first[196] == 65535);
    CHECK(all_are(second, 0, 196, 0) && second[196] == 65535);
    CHECK(signed_witness[0] == 0 && signed_witness[1] == 0 && signed_witness[2] == 9 && inverses_are("RSS"));
    /* None, of n 1. */
    memset(first, 255, sizeof first);
    memset(inverses, 'x', sizeof inverses);
    CHECK(is(kernelhop_judge_subgroup(bytes, 2, ends, 1, target, 4, 1, first, 197, second, 196, signed_witness, 1, inverses, room), KERNELHOP_NONE, 1));
    CHECK(all_are(first, 0, 196, 0) && first[196] == 65535 && inverses_are("RSS"));
    /* An empty list and an empty target: q is 1. */
    CHECK(is(kernelhop_judge_subgroup(NULL, 0, NULL, 0, NULL, 0, 0, first, 1, second, 1, NULL, 0, inverses, room), KERNELHOP_NONE, 0));
    CHECK(is(kernelhop_judge_subgroup(NULL, 0, NULL, 0, NULL, 0, 0, NULL, 0, NULL, 0, NULL, 0, inverses, room), 15, 0));
    CHECK(is(kernelhop_judge_subgroup(NULL, 0, NULL, 0, NULL, 0, 0, first, 1, second, 1, NULL, 0, NULL, 0), 14, 0));
}

static struct kernelhop_outcome quick_no(const char *target) {
    return kernelhop_quick_no(given, given_len, given_ends, given_count, (const uint8_t *)target, strlen(target));
}

static int left_open(const char *const *words, size_t count, const char *target) {
    give(words, count);
    return is(quick_no(target), KERNELHOP_OPEN, 0);
}

/* Does none of the three verdicts find a product, the bounded ones for no n from 0 up? */
static int none_by_all(const char *const *words, size_t count, const char *target) {
    const uint16_t bounds[] = {0, 1, 2, 7, KERNELHOP_BOUND};
    give(words, count);
    for (size_t i = 0; i < sizeof bounds / sizeof *bounds; i++) {
        if (!none_for(words, count, target, bounds[i]) || !is(in_subgroup(target, bounds[i]), KERNELHOP_NONE, bounds[i])) {
            return 0;
        }
    }
    return is(reachable(words, count, target), KERNELHOP_NONE, 0);
}

/* Is the quick no given, and is it right? */
static int no_at_once(const char *const *words, size_t count, const char *target) {
    give(words, count);
    return is(quick_no(target), KERNELHOP_NONE, 0) && none_by_all(words, count, target);
}

static void quick_answers(void) {
    char power_of_u[22];
    repeat(power_of_u, "SSR", 7);
    const char *const t[] = {"SR"};
    CHECK(no_at_once(t, 1, "R"));
    CHECK(no_at_once(t, 1, "SSR"));
    CHECK(left_open(t, 1, "SRSR"));
    /* Modulo 7 the inverse of T is its 6th power, and U to the 7th is the unit, as T to the 7th is: both are open, though no product makes them. */
    CHECK(left_open(t, 1, "RSS") && none_for(t, 1, "RSS", KERNELHOP_BOUND) && is(reachable(t, 1, "RSS"), KERNELHOP_NONE, 0));
    CHECK(left_open(t, 1, power_of_u) && none_by_all(t, 1, power_of_u));
    CHECK(left_open(t, 1, "") && none_for(t, 1, "", KERNELHOP_BOUND));
    /* Modulo 7, up to sign, T is the 4th power of its square: multiplied out, the letters of SRSR make T to the 2nd, and those of SR make -T. */
    CHECK(left_open((const char *[]){"SRSR"}, 1, "SR") && none_by_all((const char *[]){"SRSR"}, 1, "SR"));
    /* A list without generators has no product, so not even the unit is one. */
    CHECK(no_at_once(NULL, 0, ""));
    CHECK(no_at_once(NULL, 0, "RSSSR"));
    CHECK(no_at_once(NULL, 0, "R"));
    /* Generators that vanish, and an empty one. */
    CHECK(left_open((const char *[]){"SSS"}, 1, "") && left_open((const char *[]){""}, 1, "RSSSR"));
    CHECK(no_at_once((const char *[]){"SSS"}, 1, "R") && no_at_once((const char *[]){"", "RR"}, 2, "S"));
    /* Products of one factor, of two, and of three. */
    CHECK(left_open((const char *[]){"S"}, 1, "S") && left_open((const char *[]){"S"}, 1, "SS") && left_open((const char *[]){"S"}, 1, ""));
    CHECK(no_at_once((const char *[]){"S"}, 1, "R") && no_at_once((const char *[]){"S"}, 1, "SR") && no_at_once((const char *[]){"R"}, 1, "SS"));
}

/* R and S make everything, so that none of the 168 images gets the no: here on random words, the same ones in every run. */
static void open_to_every_target(void) {
    const char *const list[] = {"R", "S"};
    static char letters[4097];
    uint32_t bits = 1;
    CHECK(left_open(list, 2, ""));
    for (size_t len = 1; len <= 80; len++) {
        for (size_t i = 0; i < len; i++) {
            bits = bits * 1664525 + 1013904223;
            letters[i] = bits >> 31 ? 'R' : 'S';
        }
        letters[len] = 0;
        CHECK(left_open(list, 2, letters));
    }
    repeat(letters, "SR", 40);
    CHECK(left_open(list, 2, letters));
    repeat(letters, "S", 4096);
    CHECK(left_open(list, 2, letters));
}

/* The matrices (a b; c d) of which 7 divides c are a subgroup, and these words generate it. Modulo 7 their products are the matrices with c = 0. So the
   quick no is given exactly where 7 does not divide c; and where it does, the target is a member of the subgroup. */
static void a_subgroup_that_is_seen_modulo_7(void) {
    const char *const list[] = {"SR", "RSRSRSRSSRSSR", "RSRSSRSRSRSSR"};
    char powers[3][81];
    repeat(powers[0], "SSR", 7);
    repeat(powers[1], "RS", 21);
    repeat(powers[2], "SR", 40);
    const char *const inside[] = {"", "SR", "RSS", list[1], list[2], "RSRSRSSRSSRSSR", "SRRSRSRSRSSRSSR", powers[0], powers[1], powers[2]};
    for (size_t i = 0; i < sizeof inside / sizeof *inside; i++) {
        CHECK(left_open(list, 3, inside[i]));
        CHECK(in_subgroup(inside[i], KERNELHOP_BOUND).number == 0);
    }
    repeat(powers[0], "SSR", 6);
    repeat(powers[1], "RS", 20);
    repeat(powers[2], "SSR", 26);
    const char *const outside[] = {"R", "S", "SS", "SSR", "RSR", "SRS", "RSRSRSRSSRSS", "RSRSSRSRSRSSRS", powers[0], powers[1], powers[2]};
    for (size_t i = 0; i < sizeof outside / sizeof *outside; i++) {
        CHECK(no_at_once(list, 3, outside[i]));
    }
    /* Every word of up to 8 letters, by its own matrix. */
    for (unsigned word = 0; word < 511; word++) {
        char letters[9] = "";
        int64_t m[4];
        for (unsigned bits = word + 1, i = 0; bits > 1; bits /= 2, i++) {
            letters[i] = bits % 2 ? 'R' : 'S';
        }
        CHECK(is(word_to_matrix(letters, m), 0, 0));
        give(list, 3);
        CHECK(is(quick_no(letters), m[2] % 7 == 0 ? KERNELHOP_OPEN : KERNELHOP_NONE, 0));
    }
}

/* Each question of the quick answer, with its place; and what just passes. */
static void refused_quick_answers(void) {
    const char *many[65];
    for (size_t i = 0; i < 65; i++) {
        many[i] = "x";
    }
    static char letters[4098];
    repeat(letters, "R", 4097);
    char longest[81];
    char too_long[83];
    repeat(longest, "SR", 40);
    repeat(too_long, "SR", 41);

    give(many, 65);
    CHECK(is(quick_no(letters), 7, 0));
    give((const char *[]){letters}, 1);
    given_ends[0] = 1;
    CHECK(is(quick_no("x"), 8, 0));
    give((const char *[]){"x"}, 1);
    given_ends[0] = 2;
    CHECK(is(quick_no(letters), 8, 0));
    CHECK(is(quick_no("x"), 9, 1));
    const uint8_t *bytes = (const uint8_t *)"RSx";
    CHECK(is(kernelhop_quick_no(bytes, 3, (const uint16_t[]){2, 1, 3}, 3, bytes, 1), 9, 1));
    CHECK(is(kernelhop_quick_no(bytes, 3, (const uint16_t[]){1, 2}, 2, bytes, 1), 9, 2));
    CHECK(is(kernelhop_quick_no(bytes, 3, NULL, 0, bytes, 1), 9, 0));
    CHECK(is(kernelhop_quick_no(NULL, 0, (const uint16_t[]){1}, 1, NULL, 0), 9, 1));
    give((const char *[]){too_long, "Sx"}, 2);
    CHECK(is(quick_no("x"), 10, 83));
    give((const char *[]){too_long, "S"}, 2);
    CHECK(is(quick_no("Rx"), 10, 84));
    CHECK(is(quick_no(too_long), 11, 0));
    give((const char *[]){"R", too_long}, 2);
    CHECK(is(quick_no(too_long), 11, 1));
    give((const char *[]){longest, longest, longest, longest, "", "S"}, 6);
    CHECK(is(quick_no(too_long), 11, 5));
    give((const char *[]){"SR"}, 1);
    CHECK(is(quick_no(too_long), 12, 0));
    give(NULL, 0);
    CHECK(is(quick_no(too_long), 12, 0));
    /* One letter more than may be. */
    too_long[81] = 0;
    CHECK(is(quick_no(too_long), 12, 0));
    give((const char *[]){"", too_long}, 2);
    CHECK(is(quick_no("R"), 11, 1));

    for (size_t i = 0; i < 64; i++) {
        many[i] = "SRSRS";
    }
    CHECK(left_open(many, 64, "SRSRS"));
    letters[4096] = 0;
    CHECK(left_open((const char *[]){letters}, 1, letters));
    give((const char *[]){letters}, 1);
    CHECK(is(quick_no("R"), KERNELHOP_NONE, 0));
    CHECK(left_open((const char *[]){longest, longest, longest, longest}, 4, longest));
}

/* Nothing that is read has to be there at length 0, and slices that are only read may overlap. */
static void quick_answers_at_length_0(void) {
    const uint8_t *bytes = (const uint8_t *)"SR";
    const uint16_t nothing[] = {0};
    const uint16_t ends[] = {2};
    CHECK(is(kernelhop_quick_no(NULL, 0, NULL, 0, NULL, 0), KERNELHOP_NONE, 0));
    CHECK(is(kernelhop_quick_no(NULL, 0, NULL, 0, bytes + 1, 1), KERNELHOP_NONE, 0));
    CHECK(is(kernelhop_quick_no(NULL, 0, nothing, 1, NULL, 0), KERNELHOP_OPEN, 0));
    CHECK(is(kernelhop_quick_no(NULL, 0, nothing, 1, bytes, 1), KERNELHOP_NONE, 0));
    CHECK(is(kernelhop_quick_no(bytes, 2, ends, 1, NULL, 0), KERNELHOP_OPEN, 0));
    CHECK(is(kernelhop_quick_no(bytes, 2, ends, 1, bytes, 2), KERNELHOP_OPEN, 0));
    CHECK(is(kernelhop_quick_no(bytes, 2, ends, 1, bytes, 1), KERNELHOP_NONE, 0));
}

static void cards(void) {
    const uint8_t card[] = {0x0B, 3, 0, 6, 0, 'S', 'R', 'S', 'R', 'S', 'R', 1, 2, 0, 'S', 'R'};
    uint16_t first[225] = {0};
    uint16_t second[225] = {0};
    uint8_t witness[3] = {9, 9, 9};
    CHECK(is(kernelhop_answer_card(card, sizeof card, first, 224, second, 225, witness, 3), 15, 0));
    CHECK(is(kernelhop_answer_card(card, sizeof card - 1, first, 225, second, 225, witness, 3), 3, 15));
    CHECK(is(kernelhop_answer_card(NULL, 0, NULL, 0, NULL, 0, NULL, 0), 2, 0));
    CHECK(witness[0] == 9);
    CHECK(is(kernelhop_answer_card(card, sizeof card, first, 225, second, 225, witness, 3), 0, 3));
    CHECK(witness[0] == 0 && witness[1] == 0 && witness[2] == 0);

    /* Without a target it is empty: n 3 and the generator SSS, n 0 and no list. */
    const uint8_t relation[] = {0x09, 3, 0, 1, 3, 0, 'S', 'S', 'S'};
    const uint8_t nothing[] = {0x01, 0, 0};
    memset(witness, 9, sizeof witness);
    CHECK(is(kernelhop_answer_card(nothing, sizeof nothing, first, 225, second, 225, witness, 3), KERNELHOP_NONE, 0) && witness[0] == 9);
    CHECK(is(kernelhop_answer_card(relation, sizeof relation, first, 225, second, 225, witness, 3), 0, 1) && witness[0] == 0 && witness[1] == 9);
}

static void *all(void *nothing) {
    version();
    words();
    letters_that_went();
    equations();
    normality();
    matrices();
    verdicts();
    first_of_the_least();
    relations();
    largest_tables();
    without_a_bound();
    beyond_every_bound();
    refused_without_a_bound();
    tables_without_a_bound();
    subgroups();
    relations_of_subgroups();
    letters_of_factors();
    letters_of_refused_lists();
    largest_signed_tables();
    refused_subgroups();
    lent_for_a_subgroup();
    quick_answers();
    open_to_every_target();
    a_subgroup_that_is_seen_modulo_7();
    refused_quick_answers();
    quick_answers_at_length_0();
    cards();
    return nothing;
}

int main(void) {
    pthread_attr_t small;
    pthread_t thread;
    if (pthread_attr_init(&small) != 0 || pthread_attr_setstacksize(&small, KERNELHOP_STACK) != 0 ||
        pthread_create(&thread, &small, all, NULL) != 0 || pthread_join(thread, NULL) != 0) {
        fprintf(stderr, "no thread with a stack of %d bytes\n", KERNELHOP_STACK);
        return 2;
    }
    unsigned release = kernelhop_version();
    printf("release %u.%u.%u, %d checks, %d failed\n", release / 10000, release / 100 % 100, release % 100, checks, failures);
    return failures != 0;
}
