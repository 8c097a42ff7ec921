/* Products of vectors and systems of equations over FLINT's fmpq. */
#include "numbers.h"
#include <flint/fmpq.h>

static uint64_t with_fmpq(uint64_t sum, const fmpq_t q)
{
    mpq_t number;
    mpq_init(number);
    fmpq_get_mpq(number, q);
    sum = with_result(sum, number);
    mpq_clear(number);
    return sum;
}

static fmpq *filled(long n, kind k, int is_left)
{
    fmpq *v = malloc(n * sizeof *v);
    mpq_t number;
    mpq_init(number);
    for (long i = 0; i < n; i++) {
        fmpq_init(v + i);
        if (is_left)
            some_left(number, k);
        else
            some_right(number, k);
        fmpq_set_mpq(v + i, number);
    }
    mpq_clear(number);
    return v;
}

static uint64_t dots(kind k, long size, uint64_t count)
{
    fmpq *left[VECTORS], *right[VECTORS];
    fmpq_t total, product;
    fmpq_init(total);
    fmpq_init(product);
    for (int i = 0; i < VECTORS; i++)
        left[i] = filled(size, k, 1);
    for (int i = 0; i < VECTORS; i++)
        right[i] = filled(size, k, 0);
    uint64_t sum = 0;
    for (uint64_t turn = 0; turn < count; turn++) {
        fmpq *a = left[turn % VECTORS], *b = right[turn / VECTORS % VECTORS];
        fmpq_zero(total);
        for (long i = 0; i < size; i++) {
            if (fmpq_is_zero(a + i) || fmpq_is_zero(b + i))
                continue;
            fmpq_mul(product, a + i, b + i);
            fmpq_add(total, total, product);
        }
        sum = with_fmpq(sum, total);
    }
    return sum;
}

/* Eliminates the columns of the matrix in [matrix | right sides | unit matrix], and says which row has the pivot of each. */
static void eliminate(fmpq *m, long n, long *row_of, fmpq_t factor, fmpq_t product)
{
    long w = 2 * n + 1;
    char *used = calloc(n, 1);
    for (long j = 0; j < n; j++) {
        long p = 0;
        while (p < n && (used[p] || fmpq_is_zero(m + p * w + j)))
            p++;
        row_of[j] = p;
        if (p == n)
            continue;
        fmpq_set(factor, m + p * w + j);
        for (long l = 0; l < w; l++)
            if (!fmpq_is_zero(m + p * w + l))
                fmpq_div(m + p * w + l, m + p * w + l, factor);
        for (long i = 0; i < n; i++) {
            if (i == p || fmpq_is_zero(m + i * w + j))
                continue;
            fmpq_set(factor, m + i * w + j);
            for (long l = 0; l < w; l++) {
                if (fmpq_is_zero(m + p * w + l))
                    continue;
                fmpq_mul(product, factor, m + p * w + l);
                fmpq_sub(m + i * w + l, m + i * w + l, product);
            }
        }
        used[p] = 1;
    }
    free(used);
}

static uint64_t eliminations(kind k, long n, uint64_t count)
{
    fmpq_t factor, product;
    mpq_t number;
    fmpq_init(factor);
    fmpq_init(product);
    mpq_init(number);
    long w = 2 * n + 1;
    long *row_of = malloc(n * sizeof *row_of);
    fmpq *given = malloc(n * w * sizeof *given), *m = malloc(n * w * sizeof *m);
    for (long i = 0; i < n * w; i++) {
        fmpq_init(given + i);
        fmpq_init(m + i);
    }
    for (long i = 0; i < n; i++) {
        for (long j = 0; j < n; j++) {
            some_entry(number, k, i, j);
            fmpq_set_mpq(given + i * w + j, number);
        }
        some_right(number, k);
        fmpq_set_mpq(given + i * w + n, number);
        fmpq_one(given + i * w + n + 1 + i);
    }
    uint64_t sum = 0;
    for (uint64_t turn = 0; turn < count; turn++) {
        for (long i = 0; i < n * w; i++)
            fmpq_set(m + i, given + i);
        eliminate(m, n, row_of, factor, product);
        fmpq_zero(product);
        for (long j = 0; j < n; j++)
            sum = with_fmpq(sum, row_of[j] < n ? m + row_of[j] * w + n : product);
    }
    return sum;
}

int main(int argc, char **argv)
{
    if (argc != 5)
        return 2;
    kind k = kind_of(argv[2]);
    long size = atol(argv[3]);
    uint64_t count = strtoull(argv[4], NULL, 10);
    uint64_t sum = strcmp(argv[1], "dot") == 0 ? dots(k, size, count) : eliminations(k, size, count);
    printf("%lu\n", sum);
    return 0;
}
