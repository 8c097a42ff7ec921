/* Products of vectors and systems of equations over GMP's mpq. */
#include "numbers.h"

static mpq_t *filled(long n, kind k, int is_left)
{
    mpq_t *v = malloc(n * sizeof *v);
    for (long i = 0; i < n; i++) {
        mpq_init(v[i]);
        if (is_left)
            some_left(v[i], k);
        else
            some_right(v[i], k);
    }
    return v;
}

static uint64_t dots(kind k, long size, uint64_t count)
{
    mpq_t *left[VECTORS], *right[VECTORS], total, product;
    mpq_inits(total, product, NULL);
    for (int i = 0; i < VECTORS; i++)
        left[i] = filled(size, k, 1);
    for (int i = 0; i < VECTORS; i++)
        right[i] = filled(size, k, 0);
    uint64_t sum = 0;
    for (uint64_t turn = 0; turn < count; turn++) {
        mpq_t *a = left[turn % VECTORS], *b = right[turn / VECTORS % VECTORS];
        mpq_set_ui(total, 0, 1);
        for (long i = 0; i < size; i++) {
            if (mpq_sgn(a[i]) == 0 || mpq_sgn(b[i]) == 0)
                continue;
            mpq_mul(product, a[i], b[i]);
            mpq_add(total, total, product);
        }
        sum = with_result(sum, total);
    }
    return sum;
}

/* Eliminates the columns of the matrix in [matrix | right sides | unit matrix], and says which row has the pivot of each. */
static void eliminate(mpq_t *m, long n, long *row_of, mpq_t factor, mpq_t product)
{
    long w = 2 * n + 1;
    char *used = calloc(n, 1);
    for (long j = 0; j < n; j++) {
        long p = 0;
        while (p < n && (used[p] || mpq_sgn(m[p * w + j]) == 0))
            p++;
        row_of[j] = p;
        if (p == n)
            continue;
        mpq_set(factor, m[p * w + j]);
        for (long l = 0; l < w; l++)
            if (mpq_sgn(m[p * w + l]) != 0)
                mpq_div(m[p * w + l], m[p * w + l], factor);
        for (long i = 0; i < n; i++) {
            if (i == p || mpq_sgn(m[i * w + j]) == 0)
                continue;
            mpq_set(factor, m[i * w + j]);
            for (long l = 0; l < w; l++) {
                if (mpq_sgn(m[p * w + l]) == 0)
                    continue;
                mpq_mul(product, factor, m[p * w + l]);
                mpq_sub(m[i * w + l], m[i * w + l], product);
            }
        }
        used[p] = 1;
    }
    free(used);
}

static uint64_t eliminations(kind k, long n, uint64_t count)
{
    mpq_t factor, product;
    mpq_inits(factor, product, NULL);
    long w = 2 * n + 1;
    long *row_of = malloc(n * sizeof *row_of);
    mpq_t *given = malloc(n * w * sizeof *given), *m = malloc(n * w * sizeof *m);
    for (long i = 0; i < n * w; i++)
        mpq_inits(given[i], m[i], NULL);
    for (long i = 0; i < n; i++) {
        for (long j = 0; j < n; j++)
            some_entry(given[i * w + j], k, i, j);
        some_right(given[i * w + n], k);
        mpq_set_ui(given[i * w + n + 1 + i], 1, 1);
    }
    uint64_t sum = 0;
    for (uint64_t turn = 0; turn < count; turn++) {
        for (long i = 0; i < n * w; i++)
            mpq_set(m[i], given[i]);
        eliminate(m, n, row_of, factor, product);
        mpq_set_ui(product, 0, 1);
        for (long j = 0; j < n; j++)
            sum = with_result(sum, row_of[j] < n ? m[row_of[j] * w + n] : product);
    }
    return sum;
}

int main(int argc, char **argv)
{
    if (argc != 5)
        return 2;
    kind k = kind_of(argv[2]);
    long size = atol(argv[3]);
    uint64_t count = strtoull(argv[4], NULL, 10);
    uint64_t sum = strcmp(argv[1], "dot") == 0 ? dots(k, size, count) : eliminations(k, size, count);
    printf("%lu\n", sum);
    return 0;
}
