/* Vetchnoon: keyboard layouts of generator chains, as a C library.
 *
 * Link libvetchnoon.a. Nothing is allocated, kept between calls or shared: every call may be made from any thread.
 *
 * What the library runs on
 *   x86-64 Linux on a processor of level x86-64-v2 (with SSE4.2), which the library does not ask; C calling convention, size_t of
 *   64 bits. It needs memset, memcpy and memmove, which a C library has, and nothing else; it makes no system calls.
 *   Stack: at most 1.25 KiB for any call, measured (1,160 bytes for vn_explain_text, 1,096 for vn_explain_text_len, 1,088 for
 *   vn_edo_report, 944 for vn_find_by_edo, 912 for vn_tritaves, 552 for vn_explain, at most 520 for any other, with glibc's
 *   memset, memcpy and memmove); examples/check measures it again.
 *
 * What a call returns
 *   0 or more: the answer, or how many elements were written to the front of the slice that was lent.
 *   below 0:   minus the number of the first question that was answered with no. No slice was written to.
 * Each call asks the questions that stand at it, in that order:
 *   VN_CHAIN         1  Is the chain code 0 to 5?
 *   VN_PERIOD        2  Is the octave, the period or the denominator at least 1?
 *   VN_GENERATOR     3  Does the chain's generator come out whole and not negative, every subtraction included, and for
 *                       code 3 is 2 x octave at most 65,535?
 *   VN_PATTERN       4  Does the walk of step patterns meet one with as many steps as the chain has letters?
 *   VN_SYMBOLS       5  Is a free format's symbol count at least 1?
 *   VN_ORIGIN        6  Is its origin below that count?
 *   VN_SIZE          7  Are both products of a step pattern that the caller gives, each of a count and its step, and their sum,
 *                       the size, at most 65,535? (A layout's own pattern is never asked this.)
 *   VN_COPRIME_SIZE  8  Is that sum after coprime at most 65,535?
 *   VN_LAMP_LAYER    9  Reserved: no call asks it since 7.0.0. It asked whether every sharp and flat layer number of the lamp
 *                       strip is below 100, and codes of 16 bits have room for all.
 *   VN_ROOM         10  Does the output slice hold the whole output? (Of a list that is put in another order: do both lists
 *                       have an entry for each key of the octave?)
 *   VN_BOOK_PAIRS   11  Does a book hold its count, at least 1, and that many pairs?
 *   VN_BOOK_COVER   12  Do the pairs cover the text?
 *   VN_BOOK_KEY     13  Is the key at least 0 and below the book's count?
 *   VN_LINE         14  Is the key table's line well formed? (The table prints this number; no call returns it.)
 *   VN_DIVISION     15  Is the number of steps that the octave is divided into 1 to 400?
 *   VN_LETTER       16  Is the letter's place below the chain's number of letters?
 *   VN_CODE         17  Does every code of the strip have a partner among the other width's codes?
 *   VN_START        18  Is the layout's start below the chain's number of letters?
 *   VN_KBM_LINES    19  Has a keyboard mapping its lines, none missing and none left over, each of a form that may stand there?
 *   VN_KBM_NUMBERS  20  Are its numbers those of the layout?
 *   VN_STARS        21  Are the stars below the number of cycles? (Of a retuning: below that of both layouts?)
 *   VN_FRACTIONAL_GENERATOR 22  Is the fractional generator a number, and not infinite?
 *   VN_NOTE_NAME    23  Is the text a spelling's, or that of two spellings as a name holds them?
 *   VN_TWO_KEYS     24  Do the two spellings of the text sound one key?
 * A refusal is compared as in vn_layout(chain, octave, tritave, start, out, len) == -VN_PATTERN.
 *
 * What a key is
 *   A signed number of 32 bits, and each of them is a key. It is first brought round the octave (in a pergen the period, for
 *   a layer all entries of vn_layout_layers, for a lamp all codes of vn_lamp_strip) with the remainder that is never negative:
 *   in 12 steps key -1 is named as key 11 is. A book alone has the keys from 0 to its count - 1 and no others (question 13).
 *
 * What the words mean
 *   A period and a generator:
 *     cycles          the greatest common divisor of both: so many chains of generators reach all keys
 *     reduced period  the period divided by it: so many keys each chain has
 *     inverse         so many generators, brought round the period, make as many keys as there are cycles
 *     cycle           of a key: which chain it is in, from 0; absent where there is one chain
 *     degree          of a key: how many generators, from 0, lead to it from its chain's first key, the one below the cycles
 *   A step pattern, of a primary and a secondary count and a primary and a secondary step:
 *     size            primary count x primary step + secondary count x secondary step
 *     reduced size    the size divided by the greatest common divisor of the steps, which is 1 where both are 0
 *     sharpness       the primary step minus the secondary one: by how many keys a sharp raises a note; below 0 it lowers it
 *     child           the next finer pattern: the sum of the counts becomes the count of the shorter step, and the difference of
 *                     the steps the longer step; none where a step is 0 or both are equal
 *     parent          the next coarser one: the difference of the counts becomes the larger count, and the sum of the steps the
 *                     step of the smaller count; none where a count is 0 or both are equal
 *     genesis         of a period and a generator: counts 1 and 1, the generator's remainder by the period, and the rest of it
 *     coprime         the pattern with another secondary step, close to the primary one and on the same side of it, such that
 *                     no number above 1 divides both; the same pattern where none does already
 *   A spelling is a letter with signs, which are sharps or flats, and with stars, which tell the cycle.
 *
 * How long an output is
 *   At each call stands how many elements it writes, or at most; vn_note_name_len, vn_explain_text_len, vn_kbm_len,
 *   vn_fractional_children_len and vn_book_len tell it for names, explanations, mappings, fractional walks and books. Where a
 *   slice is too short, the call is refused with 10, and may be made again with a longer one.
 *
 * How long a call takes
 *   Each call that is given a layout makes it anew; that takes hardly longer in a large octave than in a small one, and so do the
 *   calls that give one number, but for vn_kbm_len and vn_fractional_children_len, which take about as long as what they
 *   measure, and those that read a text. A call that writes takes a time that grows with what it writes. Walks go from pattern
 *   to pattern, vn_mos_find up to the one that it finds and vn_mos_genesis to the end; at vn_mos_children and vn_mos_parents
 *   stands how many there are at most.
 *
 * What a start is
 *   The index of key 0's letter among the chain's letters, from 0; each letter may stand on key 0. The chain's own start, which
 *   vn_start gives, is D's: vn_note_name(1, 12, 19, 3, 0, out, len) writes D, and with start 1 it writes C. Spellings are to be
 *   compared only within layouts of one start.
 *
 * What a caller owes
 *   A slice is a pointer to its first element and the number of its elements. All of them are readable, and those of an
 *   output slice writable. The pointer is aligned and not null, even where the number is 0. An output slice overlaps no
 *   other slice of the call. Elements past the output keep their contents.
 */
#ifndef VETCHNOON_H
#define VETCHNOON_H

#include <stddef.h>
#include <stdint.h>

#ifdef __cplusplus
extern "C" {
#endif

#define VN_CHAIN 1
#define VN_PERIOD 2
#define VN_GENERATOR 3
#define VN_PATTERN 4
#define VN_SYMBOLS 5
#define VN_ORIGIN 6
#define VN_SIZE 7
#define VN_COPRIME_SIZE 8
#define VN_LAMP_LAYER 9
#define VN_ROOM 10
#define VN_BOOK_PAIRS 11
#define VN_BOOK_COVER 12
#define VN_BOOK_KEY 13
#define VN_LINE 14
#define VN_DIVISION 15
#define VN_LETTER 16
#define VN_CODE 17
#define VN_START 18
#define VN_KBM_LINES 19
#define VN_KBM_NUMBERS 20
#define VN_STARS 21
#define VN_FRACTIONAL_GENERATOR 22
#define VN_NOTE_NAME 23
#define VN_TWO_KEYS 24

/* The kinds of layers, which vn_layer_kind tells. */
#define VN_NATURAL 0
#define VN_SHARP 1
#define VN_ENHARMONIC 2
#define VN_FLAT 3

/* What two spellings are to each other, which vn_explain tells: one key, whose stars agree and whose places are a multiple of the
 * reduced period apart; two keys of one chain, whose stars agree; or two of different chains. */
#define VN_ONE_KEY 0
#define VN_TWO_ON_ONE_CHAIN 1
#define VN_TWO_ON_DIFFERENT_CHAINS 2

/* The version of this header. The first number changes where a call, a number above or an answer is changed or taken away,
 * the second where some are added, the third where neither is so. docs/CHANGELOG.md tells what each version brought. vn_version
 * tells the library's own. */
#define VN_VERSION_MAJOR 7
#define VN_VERSION_MINOR 8
#define VN_VERSION_PATCH 0
#define VN_VERSION (VN_VERSION_MAJOR * 65536 + VN_VERSION_MINOR * 256 + VN_VERSION_PATCH)

/* The library was built for a size_t of 64 bits; with any other this line does not compile. */
typedef char vn_size_t_has_64_bits[sizeof(size_t) == 8 ? 1 : -1];

/* ---- numbers */

/* The version of the library that is linked, as VN_VERSION has the header's. Where the two are not the same, the header is not this
 * library's: an older one answers another number, and before 7.8.0 there is no such function. Never refused. */
int64_t vn_version(void);

/* The greatest common divisor; 0 and 0 give 1. Never refused. */
int64_t vn_gcd(uint16_t x, uint16_t y);

/* The remainder of numer on division by denom, never negative: of -4 by 12 it is 8. Asks 2. */
int64_t vn_rem(int32_t numer, uint16_t denom);

/* ---- pergens: a period and a generator, which may exceed the period */

/* Writes 3 numbers: cycles, reduced period, inverse. Asks 2, 10. */
int64_t vn_pergen(uint16_t period, uint16_t generator, uint16_t *out, size_t len);

/* Writes 3 numbers of a key: its degree, 1 if a cycle is present and else 0, the cycle (0 where it is absent).
 * Asks 2, 10. */
int64_t vn_generation(uint16_t period, uint16_t generator, int32_t key, uint16_t *out, size_t len);

/* Writes 4 numbers of a key in a free format: sharp index, sharp count, flat index, flat count. Asks 2, 5, 6, 10. */
int64_t vn_accidentals(uint16_t period, uint16_t generator, uint16_t symbols, uint16_t origin, int32_t key,
                       uint16_t *out, size_t len);

/* ---- step patterns: primary and secondary count, primary and secondary step */

/* Writes the 4 numbers of the child; 0 elements where there is none. Asks 7, 10. */
int64_t vn_mos_child(uint16_t primary_count, uint16_t secondary_count, uint16_t primary_step, uint16_t secondary_step,
                     uint16_t *out, size_t len);

/* Writes the 4 numbers of the parent; 0 elements where there is none. Asks 7, 10. */
int64_t vn_mos_parent(uint16_t primary_count, uint16_t secondary_count, uint16_t primary_step, uint16_t secondary_step,
                      uint16_t *out, size_t len);

/* Writes the 4 numbers of the pattern that the walk of parents ends with: of a layout's pattern the genesis. Asks 7, 10. */
int64_t vn_mos_genesis(uint16_t primary_count, uint16_t secondary_count, uint16_t primary_step, uint16_t secondary_step,
                       uint16_t *out, size_t len);

/* Writes the 4 numbers of the pattern after coprime. Asks 7, 8, 10. */
int64_t vn_mos_coprime(uint16_t primary_count, uint16_t secondary_count, uint16_t primary_step, uint16_t secondary_step,
                       uint16_t *out, size_t len);

/* Writes the 4 numbers of the first pattern with so many steps on the walk of children from the genesis of period and
 * generator; 0 elements where there is none. Asks 2, 10. */
int64_t vn_mos_find(uint16_t period, uint16_t generator, uint16_t steps, uint16_t *out, size_t len);

/* Writes the moves of every pattern on that walk, the genesis first, 4 numbers a pattern: octaves and generators of the primary
 * move, then of the secondary one. Octaves times the period plus generators times the generator are the pattern's step. The
 * patterns are those that vn_mos_children writes for the genesis, in its order; there are at most as many as the period, so room
 * for 4 x period numbers is always enough. Each number lies between -65,535 and 65,536. Asks 2, 10. */
int64_t vn_walk_moves(uint16_t period, uint16_t generator, int32_t *out, size_t len);

/* Writes the whole walk of children, the given pattern first, 4 numbers a pattern. There are at most
 * primary_step + secondary_step + 1 patterns, so room for four times as many numbers is always enough. Asks 7, 10. */
int64_t vn_mos_children(uint16_t primary_count, uint16_t secondary_count, uint16_t primary_step, uint16_t secondary_step,
                        uint16_t *out, size_t len);

/* Writes the whole walk of parents, the given pattern first, 4 numbers a pattern. There are at most
 * primary_count + secondary_count + 1 patterns, so room for four times as many numbers is always enough. Asks 7, 10. */
int64_t vn_mos_parents(uint16_t primary_count, uint16_t secondary_count, uint16_t primary_step, uint16_t secondary_step,
                       uint16_t *out, size_t len);

/* Writes each layer's number, from 0, as often as the layer's size: as many numbers as the reduced size, so the size is always
 * enough. Asks 7, 10. */
int64_t vn_mos_layers(uint16_t primary_count, uint16_t secondary_count, uint16_t primary_step, uint16_t secondary_step,
                      uint16_t *out, size_t len);

/* Writes 1 number, the key p primary and s secondary steps from the origin. Asks 7, 10. */
int64_t vn_mos_key(uint16_t primary_count, uint16_t secondary_count, uint16_t primary_step, uint16_t secondary_step,
                   int16_t p, int16_t s, int64_t *out, size_t len);

/* ---- step patterns from a fractional generator, a part of the octave such as 0.585 for a fifth: no step counts are needed. Steps
 * are doubles of IEEE 754, and each sum and subtraction rounds once, to the nearest. */

/* A pattern. */
struct vn_fractional {
    uint16_t primary_count;   /* how many primary steps it has */
    uint16_t secondary_count; /* how many secondary steps */
    double primary_step;      /* how large they are, as parts of the octave */
    double secondary_step;
};

/* The library has a pattern in 24 bytes, and a double in 8; with any other numbers these lines do not compile. */
typedef char vn_fractional_has_24_bytes[sizeof(struct vn_fractional) == 24 ? 1 : -1];
typedef char vn_double_has_8_bytes[sizeof(double) == 8 ? 1 : -1];

/* Writes the child of a pattern, which is handed over by value; 0 elements where there is none: where a step is 0, both are equal,
 * one is not a number, or the counts' sum passes 65,535. The sum becomes the count of the shorter step, and the difference the
 * longer step. Any struct is answered, also with steps that are infinite or below 0. Asks 10. */
int64_t vn_fractional_child(struct vn_fractional pattern, struct vn_fractional *out, size_t len);

/* How many patterns the walk of children from a generator has, which vn_fractional_children writes: at most 65,535. Asks 22. */
int64_t vn_fractional_children_len(double generator);

/* Writes the whole walk of children from a generator, the genesis first: counts 1 and 1; the primary step is the generator's
 * remainder by 1, with 1 added where that is below 0, and the secondary one 1 minus it. A generator of k / 65,536, k from 0 to
 * 65,535, has the walk of period 65,536 and generator k, each step divided by 65,536. There are as many patterns as
 * vn_fractional_children_len says. Asks 22, 10. */
int64_t vn_fractional_children(double generator, struct vn_fractional *out, size_t len);

/* ---- chains of letters, by their code from 0 to 5 */

/* Writes a chain's letters in order, as code points: at most 9 numbers. An index of a letter counts along them, from 0.
 * Asks 1, 10. */
int64_t vn_chain_letters(uint16_t chain, uint16_t *out, size_t len);

/* Writes a chain's name, such as Meantone[7], in ASCII, at most 12 bytes, without a 0 at the end. Asks 1, 10. */
int64_t vn_chain_name(uint16_t chain, uint8_t *out, size_t len);

/* The chain's own start: the index of key 0's letter among its letters. Asks 1. */
int64_t vn_start(uint16_t chain);

/* ---- layouts from the number of steps alone: an octave of n equal steps, n from 1 to 400. */

/* Writes 1 or 2 numbers: the tritave of n steps, which is the whole number nearest to the ratio 3 in steps; and, where it is more
 * than a third of a step away from it, the second choice, which is the whole number on the other side. Both are exact: 12 has
 * 19, and 13 has 21 and 20. Asks 15, 10. */
int64_t vn_tritaves(uint16_t n, uint16_t *out, size_t len);

/* Writes the layouts of n steps, at most one for each chain, by the chain's code, rising; 3 numbers a layout: the chain, the
 * tritave, and 1 where that is the second choice, else 0. A chain has the layout of the tritave, or, where there is none, that of
 * the second choice. There are at most 15 numbers, since no n has a layout for all six chains; 1 to 4 and 6 steps have no layout,
 * and 0 numbers. Each layout is asked about by its chain, n, its tritave and a start, such as vn_start gives. Asks 15, 10. */
int64_t vn_find_by_edo(uint16_t n, uint16_t *out, size_t len);

/* Writes a report over all n from 1 to 400 in ASCII, without a 0 at the end: a line for each chain, rising, of the chain's code and
 * of how many of its layouts, as vn_find_by_edo lists them, have sharpness above 0, below 0 and at 0, with one space between
 * and a line feed at the end of each line. It has 57 bytes. Asks 10. */
int64_t vn_edo_report(uint8_t *out, size_t len);

/* ---- layouts: a chain code from 0 to 5, the step counts of octave and tritave, and a start. Each call asks 1, 2, 3, 4, 18
 * first, in that order. */

/* Writes 8 numbers: generator, cycles, reduced period, inverse, and the pattern's counts and steps, primary first.
 * Asks 1, 2, 3, 4, 18, 10. */
int64_t vn_layout(uint16_t chain, uint16_t octave, uint16_t tritave, uint16_t start, uint16_t *out, size_t len);

/* Writes the scale's name in ASCII, at most 12 bytes, without a 0 at the end. Asks 1, 2, 3, 4, 18, 10. */
int64_t vn_scale_name(uint16_t chain, uint16_t octave, uint16_t tritave, uint16_t start, uint8_t *out, size_t len);

/* How many bytes a key's name has: at most 39,325. Asks 1, 2, 3, 4, 18. */
int64_t vn_note_name_len(uint16_t chain, uint16_t octave, uint16_t tritave, uint16_t start, int32_t key);

/* Writes a key's name in UTF-8, without a 0 at the end: as many bytes as vn_note_name_len says. Asks 1, 2, 3, 4, 18, 10. */
int64_t vn_note_name(uint16_t chain, uint16_t octave, uint16_t tritave, uint16_t start, int32_t key, uint8_t *out,
                     size_t len);

/* Writes 4 numbers of a key: sharp index, sharp count, flat index, flat count; an index is counted along the chain's
 * letters, from 0. Asks 1, 2, 3, 4, 18, 10. */
int64_t vn_layout_accidentals(uint16_t chain, uint16_t octave, uint16_t tritave, uint16_t start, int32_t key, uint16_t *out,
                              size_t len);

/* The key of the octave that a spelling sounds: a letter, by its index along the chain from 0; signs, as many sharps as
 * the number is above 0, or flats as it is below; and stars. Asks 1, 2, 3, 4, 18, 16, 21. */
int64_t vn_sounded_key(uint16_t chain, uint16_t octave, uint16_t tritave, uint16_t start, uint16_t letter, int32_t signs,
                       uint16_t stars);

/* ---- typed names: what somebody typed is read, whatever bytes it has, in a time that grows with their number. The text of a
 * spelling is a letter of the chain; then sharps or flats in the layout's own signs, any number (fewer than 2^32) and of one
 * kind, # and b where the primary step is at least the secondary one, else - for a sharp and + for a flat; then stars. It may be
 * a spelling that stands in no name. */

/* Writes 3 numbers of the spelling that a text is: the letter's index along the chain, from 0; signs, as many sharps as the
 * number is above 0, or flats as it is below; and stars. In 24 steps with code 1 and tritave 38, of Ebb* they are 5, -2 and 1.
 * Asks 1, 2, 3, 4, 18, 23, 21, 10. */
int64_t vn_read_spelling(uint16_t chain, uint16_t octave, uint16_t tritave, uint16_t start, const uint8_t *text,
                         size_t text_len, int64_t *out, size_t len);

/* The key of 0 to octave - 1 that a text names: a spelling's, or a name's as vn_note_name writes it. A text with a / is two
 * spellings of one key, any two and in either order; where the layout has more than one cycle, they stand in parentheses, with
 * the stars of both behind. Any other text is one spelling, without parentheses. Asks 1, 2, 3, 4, 18, 23, 21, 24. */
int64_t vn_find_key(uint16_t chain, uint16_t octave, uint16_t tritave, uint16_t start, const uint8_t *text,
                    size_t text_len);

/* ---- explanations: why two typed spellings are one key, or two. Each spelling has a place on the chain, counted from the letter of
 * key 0, upwards towards the sharps; the chain comes round after as many places as the reduced period. Each call asks 23 of the
 * first text, then of the second, then 21 of the first and of the second. */

/* Writes 9 numbers: both places, both numbers of stars, both keys, of 0 to octave - 1, how far apart the places are, the reduced
 * period, and VN_ONE_KEY, VN_TWO_ON_ONE_CHAIN or VN_TWO_ON_DIFFERENT_CHAINS. In 12 steps with code 1 and tritave 19, of F# and
 * Gb they are 4, -8, 0, 0, 4, 4, 12, 12 and 0. Asks 1, 2, 3, 4, 18, 23, 21, 10. */
int64_t vn_explain(uint16_t chain, uint16_t octave, uint16_t tritave, uint16_t start, const uint8_t *first,
                   size_t first_len, const uint8_t *second, size_t second_len, int64_t *out, size_t len);

/* How many bytes the sentences have that vn_explain_text writes: at most 600 more than both texts together.
 * Asks 1, 2, 3, 4, 18, 23, 21. */
int64_t vn_explain_text_len(uint16_t chain, uint16_t octave, uint16_t tritave, uint16_t start, const uint8_t *first,
                            size_t first_len, const uint8_t *second, size_t second_len);

/* Writes the same in three sentences for a pupil, each ended by a line feed, in UTF-8, without a 0 at the end: as many bytes as
 * vn_explain_text_len says. Asks 1, 2, 3, 4, 18, 23, 21, 10. */
int64_t vn_explain_text(uint16_t chain, uint16_t octave, uint16_t tritave, uint16_t start, const uint8_t *first,
                        size_t first_len, const uint8_t *second, size_t second_len, uint8_t *out, size_t len);

/* ---- distances between a layout's keys. They go round the octave, the shorter way: in 12 steps keys 0 and 11 are 1 apart. */

/* The key of 0 to octave - 1 nearest to a key, of those that a letter names by itself, with any stars: a letter by its index
 * along the chain, from 0. Of two keys equally near, it is the lower one. Asks 1, 2, 3, 4, 18, 16. */
int64_t vn_nearest_natural(uint16_t chain, uint16_t octave, uint16_t tritave, uint16_t start, int32_t key, uint16_t letter);

/* Writes all keys of 0 to octave - 1 within a distance of a key, each once, rising: 2 x distance + 1 of them, or the whole
 * octave where that is more than it has. Asks 1, 2, 3, 4, 18, 10. */
int64_t vn_keys_in_reach(uint16_t chain, uint16_t octave, uint16_t tritave, uint16_t start, int32_t key, uint16_t distance,
                         uint16_t *out, size_t len);

/* ---- retunings: two layouts of one chain, octave and start, with one tritave before and another after. A key moves round the
 * octave, the shorter way. The first layout's questions go before the second's, of which only 3 and 4 can have the answer no.
 * What both layouts share comes first: here the start goes before the tritaves, in all other calls behind the tritave. */

/* How many steps the key moves that a spelling sounds: a letter, by its index along the chain from 0; signs, as many sharps as
 * the number is above 0, or flats as it is below; and stars.
 * Order of arguments: chain, octave, start, then the tritaves; the start comes before them, since both layouts share it.
 * Asks 1, 2, 3, 4, 18, of the second layout 3, 4, then 16, 21. */
int64_t vn_moved(uint16_t chain, uint16_t octave, uint16_t start, uint16_t from_tritave, uint16_t to_tritave, uint16_t letter,
                 int32_t signs, uint16_t stars);

/* Writes the moves of all letters with up to eight signs, without stars, on which no move depends: letter by letter along the
 * chain, 17 numbers each, from eight flats to eight sharps: 17 times as many numbers as the chain has letters, at most 153.
 * Order of arguments: chain, octave, start, then the tritaves; the start comes before them, since both layouts share it.
 * Asks 1, 2, 3, 4, 18, of the second layout 3, 4, then 10. */
int64_t vn_move_table(uint16_t chain, uint16_t octave, uint16_t start, uint16_t from_tritave, uint16_t to_tritave,
                      uint16_t *out, size_t len);

/* The largest number that vn_move_table writes.
 * Order of arguments: chain, octave, start, then the tritaves; the start comes before them, since both layouts share it.
 * Asks 1, 2, 3, 4, 18, of the second layout 3, 4. */
int64_t vn_largest_move(uint16_t chain, uint16_t octave, uint16_t start, uint16_t from_tritave, uint16_t to_tritave);

/* ---- chain order of a layout's keys, and moves on its board */

/* Writes a list's entries, the first one for each key of the octave, in the order of the chain: the entry of key i goes to
 * cycle x reduced period + degree, as vn_generation gives them (an absent cycle is 0). Entries are any numbers; what the list
 * has past the octave is not read. Both lists have at least as many entries as the octave has keys, else 10 has the answer no,
 * and so many are written. Asks 1, 2, 3, 4, 18, 10. */
int64_t vn_to_chain_order(uint16_t chain, uint16_t octave, uint16_t tritave, uint16_t start, const uint16_t *keys,
                          size_t keys_len, uint16_t *out, size_t len);

/* Writes a list that is in the order of the chain in the order of keys again: key i gets the entry at
 * cycle x reduced period + degree. Each of the two calls undoes the other. Both lists have at least as many entries as the
 * octave has keys, else 10 has the answer no, and so many are written. Asks 1, 2, 3, 4, 18, 10. */
int64_t vn_to_key_order(uint16_t chain, uint16_t octave, uint16_t tritave, uint16_t start, const uint16_t *keys,
                        size_t keys_len, uint16_t *out, size_t len);

/* Writes 4 numbers, the moves of the layout's pattern: octaves and generators of the primary move, then of the secondary one.
 * Octaves times the octave plus generators times the generator are the pattern's step; in 12 steps with code 1 and tritave 19,
 * -1 and 2 are the step 2, and 3 and -5 the step 1. Asks 1, 2, 3, 4, 18, 10. */
int64_t vn_moves(uint16_t chain, uint16_t octave, uint16_t tritave, uint16_t start, int32_t *out, size_t len);

/* ---- layers and lamps of a layout's keys. Keys of one layer number are lit alike, but for home: key 0 and every key whole
 * octaves from it. Of T numbers, as vn_layer_count says, 0 is the natural layer; j below T / 2 is sharp layer j - 1; j = T / 2,
 * which only an even T has, is the enharmonic layer j - 1; any other j is flat layer T - j - 1. So sharp and flat layers count
 * from 0, away from the natural one. */

/* How many layer numbers there are: T. Asks 1, 2, 3, 4, 18. */
int64_t vn_layer_count(uint16_t chain, uint16_t octave, uint16_t tritave, uint16_t start);

/* Writes the layer number of each key of the octave, of two octaves at sharpness 0. Room for 2 x octave numbers is always enough.
 * Asks 1, 2, 3, 4, 18, 10. */
int64_t vn_layout_layers(uint16_t chain, uint16_t octave, uint16_t tritave, uint16_t start, uint16_t *out, size_t len);

/* The layer number of one key, of any octave: what vn_layout_layers writes repeats, upwards and downwards, after all of its
 * entries. Asks 1, 2, 3, 4, 18. */
int64_t vn_layer(uint16_t chain, uint16_t octave, uint16_t tritave, uint16_t start, int32_t key);

/* Writes 2 numbers, what a layer number means of T = total: its kind, VN_NATURAL, VN_SHARP, VN_ENHARMONIC or VN_FLAT, and
 * which layer of that kind it is, from 0. A number from T on, which no key has, counts as flat 0, but 0 is natural whatever
 * T is. Asks 10. */
int64_t vn_layer_kind(uint16_t total, uint16_t number, uint16_t *out, size_t len);

/* Writes the lamp code of each key of the octave, of two octaves at sharpness 0, where both steps are equal: there the colours
 * may alternate from octave to octave. Key 0 is home and has 0, and so has the key an octave up where there are two octaves,
 * whatever its layer; else natural 1, sharp k 2 + 2 x k, flat k 3 + 2 x k, enharmonic 65,535. Room for 2 x octave codes is
 * always enough. Asks 1, 2, 3, 4, 18, 10. */
int64_t vn_lamp_strip(uint16_t chain, uint16_t octave, uint16_t tritave, uint16_t start, uint16_t *out, size_t len);

/* The lamp code of one key, of any octave: what vn_lamp_strip writes repeats, upwards and downwards, after all of its codes.
 * Every key whole octaves from key 0 is home and has 0, and no other key has it. Asks 1, 2, 3, 4, 18. */
int64_t vn_lamp(uint16_t chain, uint16_t octave, uint16_t tritave, uint16_t start, int32_t key);

/* Writes the codes of a strip that was stored with one byte for each, as many of them, as vn_lamp_strip has them: home 0 and
 * natural 1 stay, sharp k, which was 2 + k, is 2 + 2 x k, flat k, which was 102 + k, is 3 + 2 x k, enharmonic goes from 255 to
 * 65,535. Any bytes are answered: 17 has the answer no where a code is from 202 to 254. Asks 17, 10. */
int64_t vn_widen_strip(const uint8_t *strip, size_t strip_len, uint16_t *out, size_t len);

/* Writes the strip that vn_widen_strip makes these codes of, a byte for each code, as many of them. 17 has the answer no where
 * there is none: where a code is from 202 to 65,534. Asks 17, 10. */
int64_t vn_narrow_strip(const uint16_t *strip, size_t strip_len, uint8_t *out, size_t len);

/* ---- Scala keyboard mappings (.kbm files) of a layout, for other synthesizers. Seven lines come first: size, first and last
 * note, middle note, reference note, frequency and octave degree. Then an entry for each key of the octave, rising: its number
 * where it is mapped, else x. Each line ends with a line feed. In vn_kbm, size and octave degree are the octave; the notes are 0,
 * 127, 60 and 69; the frequency is 440.000000; and the keys of the natural layer are mapped, of two octaves those of the first. */

/* How many bytes the mapping of a layout has: at most 6 x octave + 35. Asks 1, 2, 3, 4, 18. */
int64_t vn_kbm_len(uint16_t chain, uint16_t octave, uint16_t tritave, uint16_t start);

/* Writes the mapping of a layout in ASCII, without a 0 at the end: as many bytes as vn_kbm_len says. Asks 1, 2, 3, 4, 18, 10. */
int64_t vn_kbm(uint16_t chain, uint16_t octave, uint16_t tritave, uint16_t start, uint8_t *out, size_t len);

/* Writes the keys that a mapping for a layout maps, rising: any choice of keys, at most as many as the octave has. Of what vn_kbm
 * writes they are the natural keys. Any bytes are answered, in a time that grows with their number. Lines that begin with ! are
 * skipped. 19 has the answer no where the others are not seven and one for each key of the octave, whatever the size line says;
 * where the last byte is no line feed; or where a line is not a number of 1 to 5 digits, the frequency 440.000000 in its place,
 * or, among the entries, x. 20 has it where a number is not the one that vn_kbm writes there, or would for a mapped key. Asks
 * 1, 2, 3, 4, 18, 19, 20, 10. */
int64_t vn_kbm_read(uint16_t chain, uint16_t octave, uint16_t tritave, uint16_t start, const uint8_t *text, size_t text_len,
                    uint16_t *out, size_t len);

/* ---- sheets: a list of records, each of which is filled from its own key */

/* One key of a sheet. The caller sets the key, and the call writes what stands behind it. */
struct vn_record {
    int32_t key;          /* any key; it stays as it is */
    uint16_t sharp_index; /* the letter of the sharp spelling, counted along the chain's letters from 0 */
    uint16_t sharp_count; /* how many sharps it has */
    uint16_t flat_index;  /* the letter of the flat spelling */
    uint16_t flat_count;  /* how many flats it has */
    uint16_t stars;       /* how many stars both spellings have: the cycle's number, 0 where there is one cycle */
    uint16_t lamp;        /* the lamp code */
};

/* The library has a record in 16 bytes; with any other number this line does not compile. */
typedef char vn_record_has_16_bytes[sizeof(struct vn_record) == 16 ? 1 : -1];

/* Fills each record from its key, in list order, with what single calls give for that key: the 4 numbers of
 * vn_layout_accidentals, the cycle of vn_generation for the octave and the layout's generator, and the code of vn_lamp. What a
 * record held behind its key does not matter, and a key may stand in several records. Returns the number of records, which may
 * be 0; where the layout is refused, no record is touched. Asks 1, 2, 3, 4, 18. */
int64_t vn_sheet(uint16_t chain, uint16_t octave, uint16_t tritave, uint16_t start, struct vn_record *records, size_t len);

/* ---- books of key names, and key tables */

/* How many bytes the book of a layout's key names has. The longest of all has 307,321,697, with chain 5, octave 65,534 and tritave
 * 56,172; with chain 1, twelve keys have 132 (tritave 19) and 31 have 333 (tritave 49). Asks 1, 2, 3, 4, 18. */
int64_t vn_book_len(uint16_t chain, uint16_t octave, uint16_t tritave, uint16_t start);

/* Writes the book: a count, an offset and a length for each key of the octave (4 bytes each, least first), then the
 * names; as many bytes as vn_book_len says. Asks 1, 2, 3, 4, 18, 10. */
int64_t vn_book(uint16_t chain, uint16_t octave, uint16_t tritave, uint16_t start, uint8_t *out, size_t len);

/* Writes 2 numbers: at which offset of the book, and in how many bytes, a key's name stands. Any bytes are answered, and the
 * whole book is checked at each call: the time grows with its number of keys. A caller who leaves the book unchanged may
 * keep both numbers. Asks 10, 11, 12, 13. */
int64_t vn_book_find(const uint8_t *book, size_t book_len, int32_t key, uint32_t *out, size_t len);

/* Writes what the key table program prints for a line of input, such as "1 12 19\n": a line for each key of one octave of
 * that layout with the chain's own start, or "refused", a space, the number and a line feed. The octave is at most 4,096. A
 * table has at most octave x (octave / 5 + 21) bytes, the quotient whole; 3,440,640 bytes are always enough. Asks 10 alone. */
int64_t vn_key_table(const uint8_t *line, size_t line_len, uint8_t *out, size_t len);

#ifdef __cplusplus
}
#endif

#endif
