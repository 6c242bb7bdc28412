/* What an instrument's firmware does with the library: it makes a layout, lights the lamps, keeps a book of names, and
 * shows the name of each key that is pressed, the nearest D, how far a retuning moves notes, the order in which caps are
 * filed, the board's moves, which keys a synthesizer's mapping has, a sheet for the engraver, and the patterns of a fractional
 * generator. Nothing is allocated, and every refusal is shown by its number. */
#include <float.h>
#include <inttypes.h>
#include <stdio.h>

#include "vetchnoon.h"

enum { CHAIN = 1, OCTAVE = 24, TRITAVE = 38, START = 3 }; /* Meantone[7] in quarter tones, with D on key 0 */
enum { FROM_C = 1, FROM_NOTHING = 7 };                    /* the letters are F C G D A E B */

static uint16_t lamps[2 * OCTAVE]; /* one octave of codes, or two where both steps of the scale are equal */
static uint16_t lamp_count;
static uint8_t book[512];

/* Meantone[7] in twelve keys, as a firmware before version 7 stored it: a byte for each code. */
static uint8_t stored_lamps[] = {0, 255, 1, 1, 255, 1, 255, 1, 255, 1, 1, 255};

static int refused(const char *what, int64_t answer)
{
    if (answer < 0)
        printf("%s: refused %" PRId64 "\n", what, -answer);
    return answer < 0;
}

/* Shows the layouts of an octave of so many steps: a school types this number alone. */
static void show_division(uint16_t steps)
{
    uint16_t found[5 * 3]; /* chain, tritave, 1 for the second choice, of at most five layouts */
    uint8_t chain[12], scale[12];
    int64_t count = vn_find_by_edo(steps, found, 5 * 3), i;

    if (refused("layouts", count))
        return;
    for (i = 0; i < count; i += 3) {
        int chain_len = (int)vn_chain_name(found[i], chain, sizeof chain);
        uint16_t start = (uint16_t)vn_start(found[i]);
        int scale_len = (int)vn_scale_name(found[i], steps, found[i + 1], start, scale, sizeof scale);

        printf("%d steps, %d to the tritave%s: %.*s, %.*s\n", steps, found[i + 1], found[i + 2] ? ", second choice" : "",
               chain_len, (const char *)chain, scale_len, (const char *)scale);
    }
}

/* Keeps how many codes were written to the strip, unless it was refused. */
static int keep_count(int64_t count)
{
    if (refused("lamps", count))
        return 0;
    lamp_count = (uint16_t)count;
    return 1;
}

/* Keeps the strip of a layout, whose octave has at most OCTAVE keys. */
static int keep_lamps(uint16_t chain, uint16_t octave, uint16_t tritave, uint16_t start)
{
    return keep_count(vn_lamp_strip(chain, octave, tritave, start, lamps, 2 * OCTAVE));
}

/* Keeps the strip that was stored. */
static int keep_stored_lamps(void)
{
    return keep_count(vn_widen_strip(stored_lamps, sizeof stored_lamps, lamps, 2 * OCTAVE));
}

/* The code that lights a key of any octave: the strip repeats after all of its codes, upwards and downwards. */
static int lamp(int32_t key)
{
    return lamps[vn_rem(key, lamp_count)];
}

/* A key of any octave, below 0 where the player shifted the board down; a book holds one octave, from 0 on. */
static void press(size_t book_len, int32_t key)
{
    uint32_t name[2]; /* offset and length */
    int32_t in_octave = (int32_t)vn_rem(key, OCTAVE);

    if (refused("name", vn_book_find(book, book_len, in_octave, name, 2)))
        return;
    printf("key %" PRId32 ": %.*s, lamp %d\n", key, (int)name[1], (const char *)book + name[0], lamp(key));
}

/* The same without a book or a strip: each call takes any key, and any letter on key 0. */
static void show(uint16_t start, int32_t key)
{
    uint8_t name[16];
    int64_t bytes = vn_note_name(CHAIN, OCTAVE, TRITAVE, start, key, name, sizeof name);

    if (refused("name", bytes))
        return;
    printf("key %" PRId32 ": %.*s, lamp %" PRId64 "\n", key, (int)bytes, (const char *)name,
           vn_lamp(CHAIN, OCTAVE, TRITAVE, start, key));
}

/* Shows a lost pupil the nearest D, and the keys of the octave that a hand reaches beside it. */
static void show_nearest_d(int32_t key)
{
    enum { D = 3, HAND = 2 };    /* of F C G D A E B; two keys to both sides */
    uint16_t keys[2 * HAND + 1]; /* there are never more */
    int64_t count, i;
    int64_t nearest = vn_nearest_natural(CHAIN, OCTAVE, TRITAVE, START, key, D);

    if (refused("nearest D", nearest))
        return;
    count = vn_keys_in_reach(CHAIN, OCTAVE, TRITAVE, START, (int32_t)nearest, HAND, keys, 2 * HAND + 1);
    if (refused("keys in reach", count))
        return;
    printf("D nearest to key %" PRId32 ": key %" PRId64 ", in reach", key, nearest);
    for (i = 0; i < count; i++)
        printf(" %d", keys[i]);
    printf("\n");
}

/* Shows, before a lesson, how far another tritave moves G, D and A and their sharps, and any note with up to eight signs. */
static void show_retuning(uint16_t from, uint16_t to)
{
    enum { G = 2, A = 4, EACH = 17, NO_SIGN = 8 }; /* a letter's moves, from eight flats to eight sharps */
    static uint16_t table[7 * EACH];
    int64_t largest = vn_largest_move(CHAIN, OCTAVE, START, from, to);
    int letter;

    if (refused("retuning", vn_move_table(CHAIN, OCTAVE, START, from, to, table, 7 * EACH)))
        return;
    printf("from %d to %d steps a tritave, G D A move by", from, to);
    for (letter = G; letter <= A; letter++)
        printf(" %d", table[letter * EACH + NO_SIGN]);
    printf(", with a sharp by");
    for (letter = G; letter <= A; letter++)
        printf(" %d", table[letter * EACH + NO_SIGN + 1]);
    printf(", none by more than %" PRId64 "\n", largest);
}

/* Shows which keys' caps lie side by side where they are filed along the chain, and that they come back to their keys. */
static void show_filed_caps(void)
{
    uint16_t caps[OCTAVE], filed[OCTAVE], back[OCTAVE];
    int key, moved = 0;

    for (key = 0; key < OCTAVE; key++)
        caps[key] = (uint16_t)key;
    if (refused("caps", vn_to_chain_order(CHAIN, OCTAVE, TRITAVE, START, caps, OCTAVE, filed, OCTAVE)))
        return;
    if (refused("caps", vn_to_key_order(CHAIN, OCTAVE, TRITAVE, START, filed, OCTAVE, back, OCTAVE)))
        return;
    printf("caps along the chain:");
    for (key = 0; key < OCTAVE; key++) {
        printf(" %d", filed[key]);
        moved += back[key] != caps[key];
    }
    printf("\n%d of them come back to another key\n", moved);
}

/* Shows the moves to the neighbours on the board. */
static void show_moves(void)
{
    int32_t moves[4]; /* octaves and generators, primary first */

    if (refused("moves", vn_moves(CHAIN, OCTAVE, TRITAVE, START, moves, 4)))
        return;
    printf("moves: %" PRId32 " octaves and %" PRId32 " generators, %" PRId32 " octaves and %" PRId32 " generators\n", moves[0],
           moves[1], moves[2], moves[3]);
}

/* Shows a sheet of keys for the engraver, filled in one call: both spellings of each, and its lamp. */
static void show_sheet(uint16_t start)
{
    static const char letters[] = "FCGDAEB";
    struct vn_record sheet[4] = {{3, 0, 0, 0, 0, 0, 0}, {-1, 0, 0, 0, 0, 0, 0}, {3, 0, 0, 0, 0, 0, 0}, {24, 0, 0, 0, 0, 0, 0}};
    int i;

    if (refused("sheet", vn_sheet(CHAIN, OCTAVE, TRITAVE, start, sheet, 4)))
        return;
    for (i = 0; i < 4; i++)
        printf("sheet: key %" PRId32 ", %c with %d sharps, %c with %d flats, %d stars, lamp %d\n", sheet[i].key,
               letters[sheet[i].sharp_index], sheet[i].sharp_count, letters[sheet[i].flat_index], sheet[i].flat_count,
               sheet[i].stars, sheet[i].lamp);
}

/* Shows for a theory class how the patterns of a generator, a part of the octave, go on: the counts of the first eight. */
static void show_patterns(double generator)
{
    static struct vn_fractional patterns[65535];
    int64_t count = vn_fractional_children(generator, patterns, 65535), i;

    if (refused("patterns", count))
        return;
    printf("generator %.6f, %" PRId64 " patterns:", generator, count);
    for (i = 0; i < count && i < 8; i++)
        printf(" %d+%d", patterns[i].primary_count, patterns[i].secondary_count);
    printf("\n");
}

/* Lights the keys from one to another, both included. */
static void light(int32_t from, int32_t to)
{
    int32_t key;

    printf("%d codes, keys %" PRId32 " to %" PRId32 ":", lamp_count, from, to);
    for (key = from; key <= to; key++)
        printf(" %d", lamp(key));
    printf("\n");
}

/* Shows which keys a .kbm file maps, of those that go to and come from a synthesizer. */
static void show_mapped(const uint8_t *file, size_t length)
{
    uint16_t keys[OCTAVE];
    int64_t count = vn_kbm_read(CHAIN, OCTAVE, TRITAVE, START, file, length, keys, OCTAVE), i;

    if (refused("mapping", count))
        return;
    printf("mapped keys:");
    for (i = 0; i < count; i++)
        printf(" %d", keys[i]);
    printf("\n");
}

/* Hands the mapping of the natural keys to a synthesizer; a player then leaves key 0 out, names it wrongly, and cuts the file. */
static void show_mapping(void)
{
    static uint8_t file[6 * OCTAVE + 35];
    int64_t length = vn_kbm(CHAIN, OCTAVE, TRITAVE, START, file, sizeof file);
    size_t end;

    if (refused("mapping", length))
        return;
    end = (size_t)length;
    printf("mapping of %d bytes, ", (int)length);
    show_mapped(file, end);
    file[29] = 'x'; /* key 0 */
    show_mapped(file, end);
    file[29] = '1';
    show_mapped(file, end);
    show_mapped(file, end - 1);
}

int main(void)
{
    uint16_t layout[8]; /* generator, cycles, reduced period, inverse, counts, steps */
    int64_t length;
    double largest = DBL_MAX;

    show_division(OCTAVE); /* Meantone[7] and Meantone[5]; the first is taken below */
    show_division(16);
    show_division(401);

    if (refused("layout", vn_layout(CHAIN, OCTAVE, TRITAVE, START, layout, 8)))
        return 1;
    printf("%d keys, %d cycles, steps %d and %d\n", OCTAVE, layout[1], layout[6], layout[7]);

    if (!keep_lamps(CHAIN, OCTAVE, TRITAVE, START))
        return 1;

    length = vn_book(CHAIN, OCTAVE, TRITAVE, START, book, sizeof book);
    if (refused("book", length))
        return 1;
    printf("book of %" PRId64 " bytes\n", length);

    press((size_t)length, 0);
    press((size_t)length, 1);
    press((size_t)length, 2);
    press((size_t)length, 24 + 3); /* an octave higher */
    press((size_t)length, -1);     /* the board shifted down */
    show(START, -1);
    show(FROM_C, 0); /* a player of another school */
    show(FROM_C, 2);
    show(FROM_NOTHING, 0);

    show_nearest_d(12); /* D* */
    show_nearest_d(-2); /* D */
    show_retuning(TRITAVE, 37);
    show_retuning(TRITAVE, 30);
    show_filed_caps();
    show_moves();
    show_mapping();
    show_sheet(START);
    show_sheet(FROM_NOTHING);
    show_patterns(0.5849625007211562); /* the fifth */
    show_patterns(0.625);
    show_patterns(largest * 2); /* infinite */

    /* Porcupine[8] in 8 equal steps: the colours of one octave are not those of the next, so the strip has two;
     * keys -8, 0, 8 and 16 are home. */
    if (!keep_lamps(3, 8, 13, 3))
        return 1;
    light(-8, 16);

    if (!keep_stored_lamps())
        return 1;
    light(-1, 12);
    stored_lamps[1] = 202; /* no code of one byte: the strip stays as it was */
    keep_stored_lamps();

    book[4]++; /* a damaged book is seen at the next key */
    press((size_t)length, 4);

    refused("book in 100 bytes", vn_book(CHAIN, OCTAVE, TRITAVE, START, book, 100));
    refused("Mavila[9] in 12 keys", vn_layout(0, 12, 19, 4, layout, 8));
    return 0;
}
