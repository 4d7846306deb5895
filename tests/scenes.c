/* Scenes with everything at once: scattered tiles, nametables, sprites and palette, random scroll, control and mask. The wanted picture is painted
   layer by layer, the last of the eight sprites first. */
#include "picture.h"

static Machine m, wanted;
static unsigned number_drawn = 1, on_four_pages;

/* the next of a row of numbers that follow no rule of the unit */
static unsigned any(unsigned below)
{
    number_drawn = (number_drawn * 75 + 74) % 65537;
    return number_drawn / 3 % below;
}

/* sprites in clusters, so that lines with none, some, eight and more occur */
static void set_sprites(void)
{
    unsigned middle = any(240), spread = 1 + any(120);
    for (int i = 0; i < 64; i++)
        set_sprite(&m, i, (middle + any(spread)) % 256, any(256), any(256), any(4) ? any(256) : any(2) ? any(12) : 244 + any(12));
}

static int shown(unsigned mask, unsigned layer, unsigned left, unsigned p) { return mask & layer && (p >= 8 || mask & left); }

/* what the line must be, and the status bits it must set */
static unsigned paint_line(unsigned line, unsigned column, unsigned row)
{
    unsigned mask = m.unit[PPU_AT_MASK], height = sprite_height(&m), status = 0, chosen[8], count = 0;
    const uint8_t *front[256] = { 0 };
    uint8_t colour_of[256] = { 0 };
    for (unsigned i = 0; i < 64; i++)
        if (line > 0 && count < 8 && m.oam[4 * i] + 1u <= line && line <= m.oam[4 * i] + height)
            chosen[count++] = i;
    for (unsigned p = 0; p < 256; p++)
        wanted.line[p] = (uint8_t)(shown(mask, 8, 2, p) ? background_at(&m, column + p, row) : 0);
    while (count-- > 0) {
        const uint8_t *sprite = m.oam + 4 * chosen[count];
        for (unsigned p = sprite[3]; p < 256 && p < sprite[3] + 8u; p++) {
            unsigned colour = sprite_colour(&m, sprite, line - 1 - sprite[0], p - sprite[3]);
            if (!colour || !shown(mask, 16, 4, p))
                continue;
            front[p] = sprite;
            colour_of[p] = (uint8_t)colour;
            if (chosen[count] == 0 && wanted.line[p] && p < 255)
                status |= 0x40;
        }
    }
    for (unsigned p = 0; p < 256; p++)
        if (front[p] && !(front[p][2] & 0x20 && wanted.line[p]))
            wanted.line[p] = (uint8_t)sprite_number(front[p], colour_of[p]);
    return search_by_steps(&m, line).set ? status | 0x20 : status;
}

/* one line of a scene, whole: picture, colours, record and memory */
static void scene_line(void)
{
    static const unsigned masks[] = { 0x1E, 0x1E, 0x18, 0x1A, 0x1C, 0x16, 0x0A, 0xF9 };
    unsigned line = any(240), column = any(512), row = any(480), board = any(5) + 8 * any(2);
    set_unit(&m, board, any(256), masks[any(8)]);
    on_four_pages += board % 8 == PPU_FOUR_PAGES;
    set_line(&m, line, column, row);
    m.unit[PPU_AT_OAMADDR] = (uint8_t)any(256);
    memcpy(wanted.unit, m.unit, 16);
    wanted.unit[PPU_AT_STATUS] = (uint8_t)paint_line(line, column, row);
    colour_line(&wanted, &m);
    set_word(wanted.unit, PPU_AT_V, v_at(column, row + 1));
    wanted.unit[PPU_AT_OAMADDR] = 0;
    set_word(wanted.unit, PPU_AT_NEXT_LINE, line + 1);
    EXPECT(one_line(&m), answer(0, 0, 1));
    EXPECT_SAME(&m, &wanted);
}

/* the 240 lines of one picture, with sprites and scroll, one line at a time */
static void scene_picture(unsigned board, unsigned control, unsigned mask)
{
    unsigned column = any(512), row = any(480), status = 0;
    set_unit(&m, board, control, mask);
    set_line(&m, 0, column, row);
    copy(&wanted, &m);
    for (unsigned line = 0; line < 240; line++) {
        at = line;
        status |= paint_line(line, column, row + line);
        colour_line(&wanted, &m);
        EXPECT(one_line(&m), answer(0, 0, 1));
        EXPECT_BYTES(m.line, wanted.line, 256);
        EXPECT_BYTES(m.colours, wanted.colours, 512);
        EXPECT(m.unit[PPU_AT_STATUS], status);
    }
}

int main(void)
{
    m = machine();
    wanted = machine();
    for (unsigned scene = 0; scene < 40; scene++) {
        scatter(&m, scene);
        scatter_tiles(1000 + scene);
        if (scene % 2)
            for (int tile = 0; tile < 256; tile += 3)
                solid((int)scene / 2 % 2, tile, 0);
        store_tiles(&m);
        for (int k = 0; k < 25; k++) {
            at = (long)(100 * scene) + k;
            set_sprites();
            copy(&wanted, &m);
            scene_line();
        }
    }
    EXPECT(on_four_pages > 100, 1);
    part("1000 lines of scattered scenes, on every board: picture, colours, flags, record and memory");
    for (unsigned i = 0; i < 10; i++) {
        set_sprites();
        scene_picture(i % 5 + i / 5 * 8, i % 2 ? 0x38 : 0x10, i % 3 ? 0x1E : 0x18);
    }
    part("a whole picture with sprites on each board: every line, its colours and its flags");
    release(&m);
    release(&wanted);
    return verdict("tests/scenes");
}
