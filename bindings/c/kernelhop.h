/* Bounded products in the modular group, for C and C++. Link target/staticlib/libkernelhop.a, which bindings/library makes; kernelhop_version says
   which release it is.

   Words are in the letters R (byte 82) and S (byte 83), where RR and SSS vanish and no other rule holds. A lent slice is a pointer and its length,
   counted in entries and not in bytes. Every call takes any content and any length: it answers, or it refuses by the first of its questions that is
   answered no, and then nothing that was lent is changed. The answers are proved; the crate's contracts (crates/kernelhop/src/lib.rt) say the same.

   What no callee can check, and the proofs take for granted:
   - A pointer is valid, and aligned for its type, for as many entries as its length says. At length 0 it is not followed, and may be null.
   - Each of those entries has been written, also where only the call is going to write.
   - A slice that is written (`uint8_t *`, `uint16_t *`, `out` of the matrix) overlaps no other one of the call. Slices that are only read may overlap.
   - No other thread writes what is lent before the call returns. The library keeps nothing between calls, so calls may run at the same time.
   - The stack has KERNELHOP_STACK bytes left. No proof bounds a stack; on x86-64 kernelhop_is_normal takes 66,000 bytes for a normal word of 4,096
     letters, which it goes through by calls inside calls, and the other calls take less than 32,768. */
#ifndef KERNELHOP_H
#define KERNELHOP_H

#include <stddef.h>
#include <stdint.h>

#ifdef __cplusplus
extern "C" {
#endif

/* number 0: an answer, and value says which (below, at each call).
   number KERNELHOP_NONE: only from five calls. From kernelhop_judge, kernelhop_judge_subgroup and kernelhop_answer_card: no product of at most n factors
   is the target; value is n. From kernelhop_reachable and kernelhop_quick_no: no product is the target, of however many factors; value is 0.
   number KERNELHOP_OPEN: only from kernelhop_quick_no, which leaves open whether a product is the target; value is 0. It is not 0, so that nobody who
   tests for 0 takes it for a yes.
   number 1 to 16: refused by that question; value is the place that it names, or 0. */
struct kernelhop_outcome {
    uint8_t number;
    size_t value;
};

enum {
    KERNELHOP_NONE = 255,
    KERNELHOP_OPEN = 254,
    KERNELHOP_FORM = 80, /* room for the normal form of a matrix */
    KERNELHOP_SIDE = 481, /* the largest q of a verdict that questions 11 and 12 let pass */
    KERNELHOP_SIGNED_SIDE = 993, /* the same of kernelhop_judge_subgroup, whose q counts the inverses as well */
    KERNELHOP_BOUND = 1000, /* the largest n that question 13 lets pass */
    KERNELHOP_INVERSE = 128, /* the number of an inverse factor is this and the generator's */
    KERNELHOP_INVERSES = 640, /* room for the normal forms of a list's inverses, by question 14; no list has more than 512 letters of them */
    KERNELHOP_STACK = 131072
};

/* The release that is linked: 10,000 times its major number, 100 times its minor one, and its patch number. So release 1.7.0 is 10700, and a later
   release has a larger number. */
uint32_t kernelhop_version(void);

/* number 0: an answer. value is the length of the normal form, pairs says how many RR went, and triples how many SSS.
   number 8, 10 or 14: refused by that question; value is the place that it names, or 0, and pairs and triples are 0. */
struct kernelhop_reduction {
    uint8_t number;
    uint16_t pairs;
    uint16_t triples;
    size_t value;
};

/* Writes the normal form of the word to the front of `out`, and says how much was cancelled on the way. The bytes behind the normal form remain.
   word_len is value + 2 * pairs + 3 * triples, and the R's of the word, less those of its normal form, are 2 * pairs. So both counts are fixed by the
   two words, in whatever order the pairs and the triples are erased.
   Asks: 8, at most 4,096 letters; 10, every letter R or S (place: the first that is not); 14, out_len at least word_len. */
struct kernelhop_reduction kernelhop_reduce(const uint8_t *word, size_t word_len, uint8_t *out, size_t out_len);

/* Writes the normal form of the word's inverse to the front of `out`; value is its length. The bytes behind it remain.
   Asks: 8 and 10 as reduction does; 14, out_len at least twice word_len. */
struct kernelhop_outcome kernelhop_invert(const uint8_t *word, size_t word_len, uint8_t *out, size_t out_len);

/* Is the word in normal form, without RR and SSS in it? value is 1 if it is, and 0 if it is not.
   Asks: 8 and 10 as reduction does. */
struct kernelhop_outcome kernelhop_is_normal(const uint8_t *word, size_t word_len);

/* Writes the word's matrix (a b; c d) to `out`, in this order; value is 0. R is (0 -1; 1 0) and S is (1 -1; 1 0); of the two signs it is the one
   whose first non-zero entry among a, b is positive. `out` is never null.
   Asks: 8 and 10 as reduction does; 12, a normal form of at most 80 letters; 16, each entry from -2147483647 to 2147483647. */
struct kernelhop_outcome kernelhop_word_to_matrix(const uint8_t *word, size_t word_len, int64_t out[4]);

/* Writes the normal form of the matrix (a b; c d), taken up to sign, to the front of `out`; value is its length. The bytes behind it remain.
   Asks: 5, each entry from -2147483647 to 2147483647 (place: the first that is not, 0 to 3); 6, determinant 1; 12, a normal form of at most 80
   letters; 14, out_len at least KERNELHOP_FORM. */
struct kernelhop_outcome kernelhop_matrix_to_word(int64_t a, int64_t b, int64_t c, int64_t d, uint8_t *out, size_t out_len);

/* Is the target a product of at most n generators? `bytes` has the generators' letters, one behind the other, and generator i, from 0, runs from
   ends[i - 1] (0 for the first) up to ends[i]. A generator may be empty.
   A product has one factor or more. So a target that is empty, or vanishes by the two rules, asks for a relation: a product that equals the identity. And
   with n 0 the answer is none.
   A member: value is k, the least number of factors, and the first k bytes of `witness` are generator numbers whose words, written one behind the
   other, equal the target by the two rules: of the series of that count the first when their numbers are compared from left to right. The rest of
   `witness` remains; for none all of it.
   With m the sum of the lengths of the generators' normal forms, t the length of the target's, and q = m + 2 * t + 1: after a member or none the
   first q * q entries of both tables are 0 and the others remain, whatever stood there. kernelhop_reduce tells the lengths; tables of KERNELHOP_SIDE *
   KERNELHOP_SIDE entries and KERNELHOP_BOUND bytes of witness are enough for every list, and need not be cleared between two calls.
   Asks: 7, at most 64 generators; 8, at most 4,096 letters in the list and in the target; 9, ends that never fall, the last of them bytes_len
   (place: the first that falls, else ends_len); 10, every letter R or S (place: the first that is not; the target's count on from the list's); 11,
   each generator's normal form at most 80 letters, and the sum up to it at most 320 (place: the first generator where it fails); 12, the target's
   at most 80; 13, n at most 1,000; 14, witness_len at least n; 15, first_len and second_len at least q * q. */
struct kernelhop_outcome kernelhop_judge(const uint8_t *bytes, size_t bytes_len, const uint16_t *ends, size_t ends_len, const uint8_t *target,
                                         size_t target_len, uint16_t n, uint16_t *first, size_t first_len, uint16_t *second, size_t second_len,
                                         uint8_t *witness, size_t witness_len);

/* Is the target a product of generators, of however many? The list is as for kernelhop_judge. Yes: value is 1. No: KERNELHOP_NONE, and value is 0; then
   kernelhop_judge says none for every n. Factors are neither written nor counted, so what takes more of them than any n allows is a yes too. A product
   has one factor or more, so the empty target is a yes exactly where the list has a relation.
   After a yes or a no the first q * q entries of both tables are 0 and the others remain, with the q of kernelhop_judge, and whatever stood there.
   Asks: 7 to 12 as kernelhop_judge does; 15, first_len and second_len at least q * q. */
struct kernelhop_outcome kernelhop_reachable(const uint8_t *bytes, size_t bytes_len, const uint16_t *ends, size_t ends_len, const uint8_t *target,
                                             size_t target_len, uint16_t *first, size_t first_len, uint16_t *second, size_t second_len);

/* Is the target a product of at most n factors, each of them a generator or the inverse of one? So a list is taken as the subgroup that it generates,
   and no inverse has to be typed. The list is as for kernelhop_judge. Factor i is generator i, and factor KERNELHOP_INVERSE + i its inverse; each counts
   as one factor. A product has one factor or more, here too: a list with a generator has a relation of at most two, the generator and its inverse.
   A member: value is k, the least number of factors, and the first k bytes of `witness` are the numbers of such factors, whose words, written one behind
   the other, equal the target by the two rules: of the series of that count the first when their numbers are compared from left to right, so that every
   generator stands before every inverse. The rest of `witness` remains; for none all of it.
   After a member or none the front of `inverses` is the normal forms of the generators' inverses, one behind the other, and its rest remains;
   kernelhop_letters_of says where each of them stands. The tables are as after kernelhop_judge, but m is the sum of the lengths of the generators' normal
   forms and of those of their inverses, which may be longer, as SS is for S: KERNELHOP_SIGNED_SIDE * KERNELHOP_SIGNED_SIDE entries are enough for every
   list.
   Asks: 7 to 13 as kernelhop_judge does, of the generators as they are given, without their inverses; 14, witness_len at least n and inverses_len at least
   KERNELHOP_INVERSES; 15, first_len and second_len at least q * q. */
struct kernelhop_outcome kernelhop_judge_subgroup(const uint8_t *bytes, size_t bytes_len, const uint16_t *ends, size_t ends_len, const uint8_t *target,
                                                  size_t target_len, uint16_t n, uint16_t *first, size_t first_len, uint16_t *second,
                                                  size_t second_len, uint8_t *witness, size_t witness_len, uint8_t *inverses, size_t inverses_len);

/* The letters from `start` up to `end`: of the given slice where `inverse` is 0, and of the inverse slice where it is 1. */
struct kernelhop_part {
    uint8_t inverse;
    uint16_t start;
    uint16_t end;
};

/* Where the letters of a factor stand, by its number as kernelhop_judge_subgroup writes it: those of generator i, as they are given, in `bytes`, and those
   of its inverse, in normal form, in `inverses`, as long as this holds what that call wrote for the list. Which part it is follows from the list alone,
   whatever `inverses` holds.
   Asks: 7 to 11 as kernelhop_judge does, of the list; 14, inverses_len at least KERNELHOP_INVERSES, for every number. No question's number is told: where
   one is answered no, or the number is that of no factor of the list, the part is the empty one at the start of `bytes`, and all its fields are 0. */
struct kernelhop_part kernelhop_letters_of(const uint8_t *bytes, size_t bytes_len, const uint16_t *ends, size_t ends_len, const uint8_t *inverses,
                                           size_t inverses_len, uint8_t number);

/* Do the matrices modulo 7 show at once that the target is no product of generators? The list is as for kernelhop_judge. Modulo 7, and up to sign, there
   are 168 matrices, and the image of a word is the one that its matrix becomes.
   The quick no: KERNELHOP_NONE, and value is 0; exactly when the target's image is not a product of one or more of the generators' images, so that an empty
   list always gets it. Then kernelhop_judge and kernelhop_judge_subgroup say none for every n, and kernelhop_reachable says no, wherever they do not refuse.
   Otherwise the answer is open: KERNELHOP_OPEN, and value is 0. The target may be a product then, or none, and one of those three calls has to be asked.
   No tables are needed, and nothing is written.
   Asks: 7 to 12 as kernelhop_judge does. */
struct kernelhop_outcome kernelhop_quick_no(const uint8_t *bytes, size_t bytes_len, const uint16_t *ends, size_t ends_len, const uint8_t *target,
                                            size_t target_len);

/* What kernelhop_judge says of the list, the target and n that a query card says; the program `verdict` prints its answer as a line. 16-bit numbers and
   matrix entries have the low byte first. A matrix as the target is its normal form.
   Asks: 1, at most 8,326 bytes; 2, a first byte with bits 4 to 7 clear and not both bits 1 and 2; 3, every field whole (place: the card's length);
   4, no byte behind the last field (place: the first); for a matrix 5 and 6 as above; then 7 to 15 as kernelhop_judge does. */
struct kernelhop_outcome kernelhop_answer_card(const uint8_t *card, size_t card_len, uint16_t *first, size_t first_len, uint16_t *second,
                                               size_t second_len, uint8_t *witness, size_t witness_len);

#ifdef __cplusplus
}
#endif

#endif
