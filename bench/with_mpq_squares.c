/* The squares of a symmetric matrix over GMP's mpq: reads the number of rows and the whole entries row by row, and prints the rank.
   The upper half is kept, and zero entries are skipped. */
#include <gmp.h>
#include <stdio.h>
#include <stdlib.h>

int main(void)
{
    int n;
    if (scanf("%d", &n) != 1)
        return 1;
    mpq_t *r = malloc(sizeof(mpq_t) * n * n), product;
    mpq_init(product);
    for (int i = 0; i < n * n; i++) {
        long value;
        if (scanf("%ld", &value) != 1)
            return 1;
        mpq_init(r[i]);
        mpq_set_si(r[i], value, 1);
    }
    int rank = 0;
    mpq_t *v = malloc(sizeof(mpq_t) * n);
    for (int k = 0; k < n; k++)
        mpq_init(v[k]);
    for (int j = 0; j < n; j++) {
        int sign = mpq_sgn(r[j * n + j]);
        if (sign < 0)
            return 1;
        if (sign == 0)
            continue;
        for (int k = j + 1; k < n; k++)
            if (mpq_sgn(r[j * n + k]))
                mpq_div(v[k], r[j * n + k], r[j * n + j]);
            else
                mpq_set_si(v[k], 0, 1);
        for (int k = j + 1; k < n; k++) {
            if (!mpq_sgn(r[j * n + k]))
                continue;
            for (int l = k; l < n; l++) {
                if (!mpq_sgn(v[l]))
                    continue;
                mpq_mul(product, r[j * n + k], v[l]);
                mpq_sub(r[k * n + l], r[k * n + l], product);
            }
        }
        rank++;
    }
    printf("%d\n", rank);
    return 0;
}
