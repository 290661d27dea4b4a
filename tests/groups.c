#include "groups.h"

unsigned wit_at(const struct lent *cells, size_t wit)
{
    return cells->all[MARGIN + wit / 8] >> (7 - wit % 8) & 1;
}

void turn_wit(struct lent *cells, size_t wit)
{
    cells->all[MARGIN + wit / 8] |= 0x80 >> wit % 8;
}

unsigned group_at(const struct lent *cells, size_t m, size_t j)
{
    unsigned group = 0;
    for (size_t i = 0; i < m; i++)
        group = 2 * group + wit_at(cells, m * j + i);
    return group;
}

void set_group(struct lent *cells, size_t m, size_t j, unsigned group)
{
    for (size_t i = 0; i < m; i++)
        if (group >> (m - 1 - i) & 1)
            turn_wit(cells, m * j + i);
}
