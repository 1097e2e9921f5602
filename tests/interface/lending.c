/* Sites in which objects are lent, by hand or drawn; and how an object moves there, by the header's words. */
#include "tests.h"

#include <string.h>

void put_object(struct guarded *site, uint8_t object, uint8_t area)
{
    SET(site->state, AREA_AT(area), OWNER_AT(0, area), OBJECT_AT(object), DEFINITION_AT(object, area));
}

void lend_along(struct guarded *site, uint8_t object, enum way way, const uint8_t *areas, size_t count)
{
    size_t i;

    for (i = 0; i + 1 < count; i++) {
        const uint8_t from = areas[i], to = areas[i + 1];

        SET(site->state, AREA_AT(to), OWNER_AT(0, to));
        if (way == INWARD || (way == BY_TURNS && i % 2 == 1))
            SET(site->state, STRUCTURE_AT(to, from), IMPORT_AT(object, to));
        else
            SET(site->state, STRUCTURE_AT(from, to), EXPORT_AT(object, from));
    }
}

/*
 * Layers of areas, drawn for the object: it goes from the area that defines it to areas of the first layer,
 * and from areas of each to areas of the next, over about half of the ways that there could be. Areas of the
 * ninth layer are at 9 steps, if another object's layers make no way shorter.
 */
static void draw_layers(struct guarded *site, uint8_t object)
{
    const uint8_t definer = (uint8_t)draw(PANELRIGHTS_AREAS);
    unsigned layer[PANELRIGHTS_AREAS] = {0}, reached[PANELRIGHTS_AREAS] = {0}, depth;
    uint8_t from, to;

    put_object(site, object, definer);
    reached[definer] = 1;
    for (to = 0; to < PANELRIGHTS_AREAS; to++)
        layer[to] = to == definer ? 0 : 1 + draw(9);
    for (depth = 1; depth <= 9; depth++)
        for (from = 0; from < PANELRIGHTS_AREAS; from++)
            for (to = 0; to < PANELRIGHTS_AREAS; to++)
                if (reached[from] && layer[from] == depth - 1 && layer[to] == depth && draw(2) == 0) {
                    const uint8_t areas[2] = {from, to};

                    lend_along(site, object, depth < 9 && draw(2) == 0 ? INWARD : OUTWARD, areas, 2);
                    reached[to] = 1;
                }
}

void draw_site(struct guarded *site, int for_others)
{
    uint8_t area;

    found(site);
    for (area = 0; area < PANELRIGHTS_AREAS; area++)
        SET(site->state, AREA_AT(area), OWNER_AT(0, area));
    SET(site->state, USER_AT(1), OWNER_AT(1, draw(PANELRIGHTS_AREAS)));
    draw_layers(site, 9);
    if (for_others) {
        draw_layers(site, 0);
        draw_layers(site, 63);
    }
}

int moves(const uint8_t *state, uint32_t object, unsigned from, unsigned to)
{
    return (PANELRIGHTS_EXPORTED_BY(state, object, from) && PANELRIGHTS_LIES_IN(state, from, to)) ||
           (PANELRIGHTS_IMPORTED_BY(state, object, to) && PANELRIGHTS_LIES_IN(state, to, from));
}

void find_leading(const uint8_t *state, uint32_t area, uint32_t object,
                  uint32_t leading[PANELRIGHTS_MOST_STEPS + 1])
{
    unsigned steps, from, to;

    memset(leading, 0, (PANELRIGHTS_MOST_STEPS + 1) * sizeof *leading);
    leading[0] = (uint32_t)1 << area;
    for (steps = 1; steps <= PANELRIGHTS_MOST_STEPS; steps++)
        for (from = 0; from < PANELRIGHTS_AREAS; from++)
            for (to = 0; to < PANELRIGHTS_AREAS; to++)
                if (leading[steps - 1] >> to & 1 && moves(state, object, from, to))
                    leading[steps] |= (uint32_t)1 << from;
}
