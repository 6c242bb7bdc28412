/* Measures the stack that each call needs, on an input that goes deep: the call is made on a stack of its own, which was
 * painted before, and the paint that is left tells. Prints a line for each call; status 1, and its name, where one needs more
 * than vetchnoon.h says. */
#define _XOPEN_SOURCE 700
#include <stdio.h>
#include <string.h>
#include <ucontext.h>

#include "vetchnoon.h"

enum { STACK = 65536, PAINT = 0xA5, ALLOWED = 1280 };

static uint8_t stack[STACK];
static uint16_t numbers[2 * 65536];
static int32_t moves[4 * 65536];
static uint16_t entries[65536];
static struct vn_record records[65536];
static struct vn_fractional patterns[65536];
static const struct vn_fractional pattern = {5, 2, 0.1875, 0.03125};
static uint8_t text[1 << 22];
static const uint8_t stored[4096];
static const uint16_t wide[4096];
static const uint8_t mapping[] = "12\n0\n127\n60\n69\n440.000000\n12\n0\nx\n2\n3\nx\n5\nx\n7\nx\n9\n10\nx\n";
static const uint8_t name[] = "C++++++++";
static const uint8_t both[] = "(D#/Eb)*";
static int64_t key[9];
static uint32_t found[2];

/* Two neighbours of Fibonacci's sequence make the listings call themselves most often; nothing else that is left calls itself
 * more than once a digit. */
#define CALLS(CALL) \
    CALL(vn_version()) \
    CALL(vn_gcd(46368, 28657)) \
    CALL(vn_rem(-65537, 12)) \
    CALL(vn_pergen(46368, 28657, numbers, 3)) \
    CALL(vn_generation(46368, 28657, INT32_MIN, numbers, 3)) \
    CALL(vn_accidentals(46368, 28657, 7, 3, INT32_MIN, numbers, 4)) \
    CALL(vn_mos_child(1, 0, 46368, 28657, numbers, 4)) \
    CALL(vn_mos_parent(46368, 28657, 1, 0, numbers, 4)) \
    CALL(vn_mos_genesis(1, 65535, 4, 0, numbers, 4)) \
    CALL(vn_mos_coprime(1, 1, 4096, 0, numbers, 4)) \
    CALL(vn_mos_find(65535, 1, 65535, numbers, 4)) \
    CALL(vn_walk_moves(46368, 28657, moves, sizeof moves / 4)) \
    CALL(vn_walk_moves(65535, 1, moves, sizeof moves / 4)) \
    CALL(vn_mos_children(1, 0, 46368, 28657, numbers, sizeof numbers / 2)) \
    CALL(vn_mos_parents(46368, 28657, 1, 0, numbers, sizeof numbers / 2)) \
    CALL(vn_mos_layers(5, 2, 9000, 7000, numbers, sizeof numbers / 2)) \
    CALL(vn_mos_key(5, 2, 2, 1, -32768, 32767, key, 1)) \
    CALL(vn_fractional_child(pattern, patterns, 1)) \
    CALL(vn_fractional_children_len(1e-300)) \
    CALL(vn_fractional_children_len(-1234567.891)) \
    CALL(vn_fractional_children(0.5849625007211562, patterns, sizeof patterns / 24)) \
    CALL(vn_fractional_children(-1234567.891, patterns, sizeof patterns / 24)) \
    CALL(vn_fractional_children(1e-300, patterns, sizeof patterns / 24)) \
    CALL(vn_fractional_children(1e+300, patterns, sizeof patterns / 24)) \
    CALL(vn_chain_letters(0, numbers, 9)) \
    CALL(vn_chain_name(3, text, 12)) \
    CALL(vn_start(5)) \
    CALL(vn_tritaves(400, numbers, 2)) \
    CALL(vn_find_by_edo(13, numbers, 18)) \
    CALL(vn_find_by_edo(400, numbers, 18)) \
    CALL(vn_edo_report(text, sizeof text)) \
    CALL(vn_layout(2, 65534, 65535, 4, numbers, 8)) \
    CALL(vn_scale_name(1, 2400, 3800, 6, text, 12)) \
    CALL(vn_note_name_len(2, 65534, 65535, 4, -32767)) \
    CALL(vn_note_name(2, 65534, 65535, 4, -32767, text, sizeof text)) \
    CALL(vn_layout_accidentals(2, 65534, 65535, 4, -32767, numbers, 4)) \
    CALL(vn_sounded_key(2, 65534, 65535, 4, 4, INT32_MIN, 0)) \
    CALL(vn_read_spelling(2, 65534, 65535, 4, name, sizeof name - 1, key, 3)) \
    CALL(vn_find_key(2, 65534, 65535, 4, name, sizeof name - 1)) \
    CALL(vn_find_key(1, 24, 38, 3, both, sizeof both - 1)) \
    CALL(vn_explain(2, 65534, 65535, 4, name, sizeof name - 1, name, 2, key, 9)) \
    CALL(vn_explain_text_len(2, 65534, 65535, 4, name, sizeof name - 1, name, 2)) \
    CALL(vn_explain_text(2, 65534, 65535, 4, name, sizeof name - 1, name, 2, text, sizeof text)) \
    CALL(vn_nearest_natural(2, 65534, 65535, 4, INT32_MIN, 4)) \
    CALL(vn_nearest_natural(1, 41699, 65527, 6, -1, 6)) \
    CALL(vn_keys_in_reach(2, 65534, 65535, 4, -1, 32766, numbers, sizeof numbers / 2)) \
    CALL(vn_keys_in_reach(1, 41699, 65527, 6, 20849, 9, numbers, sizeof numbers / 2)) \
    CALL(vn_moved(2, 65534, 4, 65535, 65535, 4, INT32_MIN, 0)) \
    CALL(vn_moved(1, 41699, 6, 65527, 65527, 6, INT32_MAX, 0)) \
    CALL(vn_move_table(2, 65534, 4, 65535, 65535, numbers, sizeof numbers / 2)) \
    CALL(vn_move_table(1, 41699, 6, 65527, 65527, numbers, sizeof numbers / 2)) \
    CALL(vn_largest_move(2, 65534, 4, 65535, 65535)) \
    CALL(vn_largest_move(1, 41699, 6, 65527, 65527)) \
    CALL(vn_to_chain_order(1, 41699, 65527, 6, entries, sizeof entries / 2, numbers, sizeof numbers / 2)) \
    CALL(vn_to_chain_order(2, 65534, 65535, 4, entries, sizeof entries / 2, numbers, sizeof numbers / 2)) \
    CALL(vn_to_key_order(1, 41699, 65527, 6, entries, sizeof entries / 2, numbers, sizeof numbers / 2)) \
    CALL(vn_to_key_order(2, 65534, 65535, 4, entries, sizeof entries / 2, numbers, sizeof numbers / 2)) \
    CALL(vn_moves(1, 41699, 65527, 6, moves, 4)) \
    CALL(vn_moves(2, 65534, 65535, 4, moves, 4)) \
    CALL(vn_layer_count(2, 65534, 65535, 4)) \
    CALL(vn_layout_layers(2, 65534, 65535, 4, numbers, sizeof numbers / 2)) \
    CALL(vn_layer(2, 65534, 65535, 4, -1)) \
    CALL(vn_layer_kind(65535, 32768, numbers, 2)) \
    CALL(vn_lamp_strip(1, 311, 493, 6, numbers, sizeof numbers / 2)) \
    CALL(vn_lamp_strip(1, 41699, 65527, 6, numbers, sizeof numbers / 2)) \
    CALL(vn_lamp_strip(2, 65534, 65535, 4, numbers, sizeof numbers / 2)) \
    CALL(vn_lamp(1, 311, 493, 6, -1)) \
    CALL(vn_lamp(1, 41699, 65527, 6, -1)) \
    CALL(vn_lamp(2, 65534, 65535, 4, -1)) \
    CALL(vn_widen_strip(stored, sizeof stored, numbers, sizeof numbers / 2)) \
    CALL(vn_narrow_strip(wide, sizeof wide / 2, text, sizeof text)) \
    CALL(vn_kbm_len(1, 41699, 65527, 6)) \
    CALL(vn_kbm_len(2, 65534, 65535, 4)) \
    CALL(vn_kbm(1, 41699, 65527, 6, text, sizeof text)) \
    CALL(vn_kbm(2, 65534, 65535, 4, text, sizeof text)) \
    CALL(vn_kbm_read(2, 65534, 65535, 4, text, sizeof text, numbers, sizeof numbers / 2)) \
    CALL(vn_kbm_read(1, 12, 19, 3, mapping, sizeof mapping - 1, numbers, 7)) \
    CALL(vn_sheet(1, 41699, 65527, 6, records, sizeof records / 16)) \
    CALL(vn_sheet(2, 65534, 65535, 4, records, sizeof records / 16)) \
    CALL(vn_book_len(1, 2400, 3800, 6)) \
    CALL(vn_book(1, 2400, 3800, 6, text, sizeof text)) \
    CALL(vn_book_find(text, 266404, 2399, found, 2)) \
    CALL(vn_key_table((const uint8_t *)"1 311 493\n", 10, text, sizeof text)) \
    CALL(vn_key_table((const uint8_t *)"2 4095 4914\n", 12, text, sizeof text))

#define AS_TEXT(...) #__VA_ARGS__,
#define AS_CALL(...) \
    if (place++ == wanted) \
        answer = __VA_ARGS__;

static const char *const texts[] = {CALLS(AS_TEXT)};
enum { COUNT = sizeof texts / sizeof texts[0] };

static size_t wanted;
static int64_t answer;

/* The call that is wanted; none where there is no such place. */
static void call(void)
{
    size_t place = 0;
    CALLS(AS_CALL)
}

/* How many bytes of the painted stack are used by it. */
static size_t used(size_t which)
{
    ucontext_t here, there;
    size_t left = 0;

    wanted = which;
    memset(stack, PAINT, STACK);
    getcontext(&there);
    there.uc_stack.ss_sp = stack;
    there.uc_stack.ss_size = STACK;
    there.uc_link = &here;
    makecontext(&there, call, 0);
    swapcontext(&here, &there);
    while (stack[left] == PAINT)
        left++;
    return STACK - left;
}

int main(void)
{
    size_t nothing, bytes, which;
    int wrong = 0;

    used(COUNT); /* once before, so that the linker's work at a first use is not counted */
    for (which = 0; which < sizeof records / sizeof *records; which++)
        records[which].key = (int32_t)which - 32768;
    for (wanted = 0; wanted < COUNT; wanted++)
        call();

    nothing = used(COUNT);
    for (which = 0; which < COUNT; which++) {
        bytes = used(which) - nothing;
        printf("%4zu bytes%s: %s\n", bytes, bytes > ALLOWED ? ", too many" : "", texts[which]);
        wrong |= bytes > ALLOWED;
    }
    return wrong;
}
