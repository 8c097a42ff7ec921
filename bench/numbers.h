/* The generator and the checksum of crates/frac_bench, in C. */
#include <gmp.h>
#include <stdint.h>
#include <stdio.h>
#include <stdlib.h>
#include <string.h>

#define VECTORS 16
#define SMALL_BOTTOM "1784742960"
#define WORD_TOP "4611686018427387847"
#define WORD_BOTTOM "3832706320698375120"
#define WIDE_TOP "1329227995784915872903807060280344457"
#define WIDE_BOTTOM "1329227995784915872903807060280343821"

typedef enum { WHOLE, SMALL, WORD, WIDE, DENSE, BAND } kind;

static uint64_t state = 1;

static inline uint32_t next_number(void)
{
    state = state * 6364136223846793005u + 1442695040888963407u;
    return state >> 33;
}

static inline kind kind_of(const char *name)
{
    static const char *names[] = {"whole", "small", "word", "wide", "dense", "band"};
    for (int k = 0; k < 6; k++)
        if (strcmp(name, names[k]) == 0)
            return (kind)k;
    fprintf(stderr, "no such numbers\n");
    exit(2);
}

/* A number of 31, 62 or 120 bits, with a sign. */
static inline void some_signed(mpz_t size, kind k)
{
    if (k == WORD) {
        uint32_t low = next_number();
        mpz_set_ui(size, ((uint64_t)next_number() << 31) + low);
    } else if (k == WIDE) {
        mpz_set_ui(size, next_number() % (1 << 27));
        for (int i = 0; i < 3; i++) {
            mpz_mul_2exp(size, size, 31);
            mpz_add_ui(size, size, next_number());
        }
    } else {
        mpz_set_ui(size, next_number());
    }
    if (next_number() % 2 != 0)
        mpz_neg(size, size);
}

static inline void some_right(mpq_t q, kind k)
{
    mpz_set_ui(mpq_denref(q), 1);
    if (k == WHOLE) {
        some_signed(mpq_numref(q), k);
        mpz_tdiv_r_ui(mpq_numref(q), mpq_numref(q), 100);
    } else if (k == SMALL) {
        uint32_t part = 1 + next_number() % 8;
        some_signed(mpq_numref(q), k);
        mpz_set_str(mpq_denref(q), SMALL_BOTTOM, 10);
        mpz_tdiv_q_ui(mpq_denref(q), mpq_denref(q), part);
    } else if (k == WORD) {
        uint32_t part = 1 + next_number() % 8;
        mpz_set_str(mpq_numref(q), WORD_TOP, 10);
        mpz_set_str(mpq_denref(q), WORD_BOTTOM, 10);
        mpz_tdiv_q_ui(mpq_denref(q), mpq_denref(q), part);
    } else if (k == WIDE) {
        mpz_set_str(mpq_numref(q), WIDE_TOP, 10);
        mpz_set_str(mpq_denref(q), WIDE_BOTTOM, 10);
    } else {
        mpz_set_ui(mpq_numref(q), next_number() % 10);
    }
    mpq_canonicalize(q);
}

static inline void some_left(mpq_t q, kind k)
{
    if (k != WORD && k != WIDE) {
        some_right(q, k);
        return;
    }
    some_signed(mpq_numref(q), k);
    mpz_set_str(mpq_denref(q), k == WORD ? WORD_TOP : WIDE_TOP, 10);
    mpq_canonicalize(q);
}

/* The entry at row i and column j of a matrix. */
static inline void some_entry(mpq_t q, kind k, long i, long j)
{
    some_right(q, k);
    if (k == BAND && (j > i + 1 || i > j + 1))
        mpq_set_ui(q, 0, 1);
}

static inline uint64_t with_result(uint64_t sum, const mpq_t q)
{
    uint64_t sign = mpq_sgn(q) < 0;
    return (sum ^ mpz_get_ui(mpq_numref(q))) * 6364136223846793005u + mpz_get_ui(mpq_denref(q)) + sign;
}
