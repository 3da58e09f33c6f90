/* Palettes, and the cells drawn from them. */
#include "generate.h"

struct palette make_palette(struct random *random)
{
    static const uint32_t edge_constants[] = {0, 1, 7, 201, CONSTANTS - 2, CONSTANTS - 1};
    static const uint32_t edge_nulls[] = {1, 2, 3, 100, NULLS - 1, NULLS};
    struct palette palette = {.wide = one_in(random, 8)};
    bool relation_numbers = one_in(random, 4);
    palette.constant_count = below(random, 7);
    palette.null_count = below(random, 5);
    if (palette.constant_count + palette.null_count == 0)
        palette.constant_count = 1;
    for (size_t i = 0; i < 6; i++) {
        palette.constants[i] = one_in(random, 2) ? edge_constants[below(random, 6)] : below(random, CONSTANTS);
        if (relation_numbers)
            palette.constants[i] = below(random, MOST_RELATIONS);
        palette.nulls[i] = one_in(random, 2) ? edge_nulls[below(random, 6)] : 1 + below(random, NULLS);
    }
    return palette;
}

uint32_t any_constant(struct random *random, const struct palette *palette)
{
    if (palette->wide || palette->constant_count == 0)
        return below(random, CONSTANTS);
    return palette->constants[below(random, palette->constant_count)];
}

uint32_t any_null(struct random *random, const struct palette *palette)
{
    if (palette->wide || palette->null_count == 0)
        return 1 + below(random, NULLS);
    return palette->nulls[below(random, palette->null_count)];
}

uint32_t any_cell(struct random *random, const struct palette *palette)
{
    size_t choice = below(random, palette->constant_count + palette->null_count);
    return choice < palette->constant_count ? any_constant(random, palette) : CONSTANTS + any_null(random, palette);
}

uint32_t odd_number(struct random *random, uint32_t old)
{
    static const uint32_t odd[] = {0,       1,       2,        3,          4,          5,         6,
                                   7,       8,       9,        15,         16,         99,        100,
                                   101,     200,     201,      255,        4096,       4097,      999999,
                                   1000000, 1000001, 1000200,  1000201,    2000000,    2000001,   2000006,
                                   2000015, 2000016, 16777215, 0x7fffffff, 0x80000000, 0xffffffff};
    size_t count = sizeof odd / sizeof *odd;
    size_t choice = below(random, count + 12);
    if (choice < count)
        return odd[choice];
    if (choice < count + 5)
        return old + 1;
    if (choice < count + 10)
        return old - 1;
    return (uint32_t)random_bits(random);
}
