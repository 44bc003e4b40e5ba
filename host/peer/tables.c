/* The peer of the benchmark: a plain C loop with 64 KiB of products. Each row of weights has a loop of its own; a weight of 1 needs
 * no table. */
#include <stddef.h>
#include <stdint.h>

/* to[j] becomes the sum over i of weights[j * sources + i] * from[i], for each row j; the buffers don't overlap. */
void tables_apply(const uint8_t products[256][256], size_t len, size_t sources, size_t rows, const uint8_t *weights,
                  const uint8_t *const *from, uint8_t *const *to)
{
    for (size_t j = 0; j < rows; j++) {
        uint8_t *restrict q = to[j];
        for (size_t x = 0; x < len; x++)
            q[x] = 0;
        for (size_t i = 0; i < sources; i++) {
            const uint8_t *restrict d = from[i];
            const uint8_t *restrict row = products[weights[j * sources + i]];
            if (weights[j * sources + i] == 1)
                for (size_t x = 0; x < len; x++)
                    q[x] ^= d[x];
            else
                for (size_t x = 0; x < len; x++)
                    q[x] ^= row[d[x]];
        }
    }
}
