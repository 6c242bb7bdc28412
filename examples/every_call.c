/* Calls each function of vetchnoon.h with arguments that tell order, width and sign apart, and compares its answer with
 * the one that document 01 gives. Prints nothing; status 1, and the line, where an answer differs. */
#include <stdio.h>
#include <string.h>
#include "vetchnoon.h"

static int wrong;

static void is(int line, int64_t answer, int64_t wanted)
{
    if (answer != wanted) {
        printf("every_call.c:%d: %lld, not %lld\n", line, (long long)answer, (long long)wanted);
        wrong = 1;
    }
}

static void holds(int line, const void *slice, const void *wanted, size_t bytes)
{
    if (memcmp(slice, wanted, bytes) != 0) {
        printf("every_call.c:%d: other contents\n", line);
        wrong = 1;
    }
}

#define IS(answer, wanted) is(__LINE__, answer, wanted)
#define TEXT(wanted) holds(__LINE__, text, wanted, strlen(wanted))
#define NUMBERS(...) \
    do { \
        const uint16_t wanted[] = {__VA_ARGS__}; \
        holds(__LINE__, numbers, wanted, sizeof wanted); \
    } while (0)

#define MOVES(...) \
    do { \
        const int32_t wanted[] = {__VA_ARGS__}; \
        holds(__LINE__, moves, wanted, sizeof wanted); \
    } while (0)

/* The records of a sheet: key, sharp index and count, flat index and count, stars, lamp. */
#define RECORDS(...) \
    do { \
        const struct vn_record wanted[] = {__VA_ARGS__}; \
        holds(__LINE__, records, wanted, sizeof wanted); \
    } while (0)

static struct vn_record records[8];
static struct vn_fractional patterns[65536];
static uint16_t numbers[64];
static int32_t moves[4 * 65535];
static uint16_t strip[2400];
static uint8_t text[512];

static void call_numbers(void)
{
    IS(vn_version(), VN_VERSION);
    IS(vn_gcd(65535, 51), 51);
    IS(vn_rem(-65537, 12), 7);
}

static void call_pergens(void)
{
    IS(vn_pergen(12, 9, numbers, 3), 3);
    NUMBERS(3, 4, 3);
    IS(vn_generation(12, 9, 4, numbers, 3), 3);
    NUMBERS(3, 1, 1);
    IS(vn_generation(12, 9, -4, numbers, 3), 3);
    NUMBERS(2, 1, 2);
    IS(vn_generation(12, 9, 65537, numbers, 3), 3);
    NUMBERS(3, 1, 2);
    IS(vn_generation(12, 9, INT32_MIN, numbers, 3), 3);
    NUMBERS(3, 1, 1);
    IS(vn_generation(12, 9, INT32_MAX, numbers, 3), 3);
    NUMBERS(2, 1, 1);
    IS(vn_accidentals(12, 7, 7, 3, 1, numbers, 4), 4);
    NUMBERS(3, 1, 5, 1);
    IS(vn_accidentals(12, 7, 7, 3, -1, numbers, 4), 4);
    NUMBERS(1, 1, 3, 1);
    IS(vn_accidentals(12, 7, 7, 3, INT32_MIN, numbers, 4), 4);
    NUMBERS(0, 1, 2, 1);
    IS(vn_accidentals(12, 7, 7, 3, INT32_MAX, numbers, 4), 4);
    NUMBERS(4, 0, 4, 0);
    IS(vn_accidentals(12, 7, 0, 3, 1, numbers, 4), -VN_SYMBOLS);
    IS(vn_accidentals(12, 7, 3, 3, 1, numbers, 4), -VN_ORIGIN);
}

static void call_patterns(void)
{
    int64_t key[1];
    IS(vn_mos_child(5, 2, 2, 1, numbers, 4), 4);
    NUMBERS(5, 7, 1, 1);
    IS(vn_mos_parent(5, 2, 2, 1, numbers, 4), 4);
    NUMBERS(3, 2, 2, 3);
    IS(vn_mos_genesis(5, 2, 2, 1, numbers, 4), 4);
    NUMBERS(1, 1, 7, 5);
    IS(vn_mos_coprime(5, 2, 4, 2, numbers, 4), 4);
    NUMBERS(5, 2, 4, 3);
    IS(vn_mos_find(12, 7, 5, numbers, 4), 4);
    NUMBERS(3, 2, 2, 3);
    IS(vn_mos_children(1, 1, 7, 5, numbers, 20), 20);
    NUMBERS(1, 1, 7, 5, 1, 2, 2, 5, 3, 2, 2, 3, 5, 2, 2, 1, 5, 7, 1, 1);
    IS(vn_mos_parents(5, 2, 2, 1, numbers, 16), 16);
    NUMBERS(5, 2, 2, 1, 3, 2, 2, 3, 1, 2, 2, 5, 1, 1, 7, 5);
    IS(vn_mos_layers(5, 2, 2, 1, numbers, 12), 12);
    NUMBERS(0, 0, 0, 0, 0, 0, 0, 1, 1, 1, 1, 1);
    IS(vn_mos_key(5, 2, 2, 1, -32768, 3, key, 1), 1);
    IS(key[0], -65533);
    IS(vn_mos_child(65535, 2, 2, 1, numbers, 4), -VN_SIZE);
    IS(vn_mos_coprime(1, 60000, 4, 0, numbers, 4), -VN_COPRIME_SIZE);
}

/* A pattern, whose padding may hold anything; numbers are compared by their bits, since -0.0 equals 0.0. */
static void pattern_is(int line, size_t place, struct vn_fractional wanted)
{
    const struct vn_fractional *found = patterns + place;
    is(line, found->primary_count, wanted.primary_count);
    is(line, found->secondary_count, wanted.secondary_count);
    holds(line, &found->primary_step, &wanted.primary_step, sizeof wanted.primary_step);
    holds(line, &found->secondary_step, &wanted.secondary_step, sizeof wanted.secondary_step);
}

#define PATTERN(place, ...) \
    do { \
        const struct vn_fractional wanted = {__VA_ARGS__}; \
        pattern_is(__LINE__, place, wanted); \
    } while (0)

/* The bytes of the patterns from a place on are untouched. */
static void patterns_untouched(int line, size_t from)
{
    static uint8_t filled[sizeof patterns];
    memset(filled, 0x5A, sizeof filled);
    holds(line, patterns + from, filled, sizeof patterns - from * sizeof patterns[0]);
}

static int64_t child_of(uint16_t a, uint16_t b, double p, double s, size_t len)
{
    struct vn_fractional pattern;
    pattern.primary_count = a;
    pattern.secondary_count = b;
    pattern.primary_step = p;
    pattern.secondary_step = s;
    memset(patterns, 0x5A, sizeof patterns);
    return vn_fractional_child(pattern, patterns, len);
}

/* Doubles that C99 has no constant expressions for: both infinities, no number, the smallest above 0. */
static double of_bits(uint64_t bits)
{
    double number;
    memcpy(&number, &bits, sizeof number);
    return number;
}

static void call_fractional_child(void)
{
    double infinity = of_bits(0x7FF0000000000000), nothing = of_bits(0x7FF8000000000001), least = of_bits(1);

    IS(child_of(5, 2, 0.1875, 0.03125, 1), 1);
    PATTERN(0, 5, 7, 0.15625, 0.03125);
    patterns_untouched(__LINE__, 1);
    IS(child_of(5, 2, 0.03125, 0.1875, 4), 1);
    PATTERN(0, 7, 2, 0.03125, 0.15625);
    patterns_untouched(__LINE__, 1);
    IS(child_of(65534, 1, -1.5, infinity, 1), 1);
    PATTERN(0, 65535, 1, -1.5, infinity);
    IS(child_of(0, 0, 1.0, least, 1), 1);
    PATTERN(0, 0, 0, 1.0, least);

    /* No child: no room is asked for, and nothing written. */
    IS(child_of(5, 2, 0.25, 0.25, 0), 0);
    IS(child_of(5, 2, -0.0, 0.25, 0), 0);
    IS(child_of(5, 2, 0.25, 0.0, 1), 0);
    IS(child_of(5, 2, nothing, 0.25, 1), 0);
    IS(child_of(5, 2, 0.25, nothing, 1), 0);
    IS(child_of(5, 2, infinity, infinity, 1), 0);
    IS(child_of(65535, 1, 0.5, 0.25, 1), 0);
    patterns_untouched(__LINE__, 0);
    IS(child_of(5, 2, 0.1875, 0.03125, 0), -VN_ROOM);
    patterns_untouched(__LINE__, 0);
}

static int64_t walk_from(double generator, size_t len)
{
    memset(patterns, 0x5A, sizeof patterns);
    return vn_fractional_children(generator, patterns, len);
}

static void call_fractional_children(void)
{
    double infinity = of_bits(0x7FF0000000000000), nothing = of_bits(0xFFF8000000000001), least = of_bits(1);

    IS(walk_from(0.625, 4), 4);
    PATTERN(0, 1, 1, 0.625, 0.375);
    PATTERN(1, 1, 2, 0.25, 0.375);
    PATTERN(2, 3, 2, 0.25, 0.125);
    PATTERN(3, 3, 5, 0.125, 0.125);
    patterns_untouched(__LINE__, 4);
    IS(walk_from(-4.375, 5), 4);
    PATTERN(3, 3, 5, 0.125, 0.125);
    patterns_untouched(__LINE__, 4);
    IS(walk_from(0.625, 3), -VN_ROOM);
    IS(walk_from(0.625, 0), -VN_ROOM);
    patterns_untouched(__LINE__, 0);

    /* The fifth: so many patterns until a count would pass 65,535. */
    IS(walk_from(of_bits(0x3FE2B803473F7AD1), 64), 43);
    PATTERN(0, 1, 1, of_bits(0x3FE2B803473F7AD1), 1.0 - of_bits(0x3FE2B803473F7AD1));
    IS(patterns[42].primary_count, 47468);
    IS(patterns[42].secondary_count, 31867);
    patterns_untouched(__LINE__, 43);

    /* A step of 0; -0 where the generator is a whole number below 0. The sum with 1 is rounded. */
    IS(walk_from(7.0, 1), 1);
    PATTERN(0, 1, 1, 0.0, 1.0);
    IS(walk_from(-1.0, 1), 1);
    PATTERN(0, 1, 1, -0.0, 1.0);
    IS(walk_from(-least, 1), 1);
    PATTERN(0, 1, 1, 1.0, 0.0);
    patterns_untouched(__LINE__, 1);

    /* The longest walk. */
    IS(walk_from(least, 65536), 65535);
    PATTERN(65534, 65535, 1, least, 1.0);
    patterns_untouched(__LINE__, 65535);
    IS(walk_from(least, 65534), -VN_ROOM);

    /* The same lengths, without a slice. */
    IS(vn_fractional_children_len(0.625), 4);
    IS(vn_fractional_children_len(of_bits(0x3FE2B803473F7AD1)), 43);
    IS(vn_fractional_children_len(-1.0), 1);
    IS(vn_fractional_children_len(least), 65535);
    IS(vn_fractional_children_len(infinity), -VN_FRACTIONAL_GENERATOR);
    IS(vn_fractional_children_len(nothing), -VN_FRACTIONAL_GENERATOR);

    /* 22 goes before 10. */
    IS(walk_from(infinity, 64), -VN_FRACTIONAL_GENERATOR);
    IS(walk_from(-infinity, 0), -VN_FRACTIONAL_GENERATOR);
    IS(walk_from(nothing, 0), -VN_FRACTIONAL_GENERATOR);
    patterns_untouched(__LINE__, 0);
}

static void call_chains(void)
{
    IS(vn_chain_letters(0, numbers, 9), 9);
    NUMBERS(946, 'F', 'C', 'G', 'D', 'A', 'E', 'B', 966);
    IS(vn_chain_letters(0, numbers, 8), -VN_ROOM);
    IS(vn_chain_name(3, text, 12), 12);
    TEXT("Porcupine[8]");
    IS(vn_chain_name(3, text, 11), -VN_ROOM);
    IS(vn_start(0), 4);
    IS(vn_start(256), -VN_CHAIN);
}

/* What a slice holds where nothing may be written. */
static void fill(void)
{
    memset(numbers, 0x5A, sizeof numbers);
    memset(text, 0x5A, sizeof text);
}

/* The elements of numbers from a place on are untouched. */
static void untouched(int line, size_t from)
{
    static uint8_t filled[sizeof numbers];
    memset(filled, 0x5A, sizeof filled);
    holds(line, numbers + from, filled, sizeof numbers - from * sizeof numbers[0]);
}

/* 15 is asked before 10. 257 would be 1 in eight bits. */
static void call_tritaves(void)
{
    fill();
    IS(vn_tritaves(0, numbers, 2), -VN_DIVISION);
    IS(vn_tritaves(401, numbers, 2), -VN_DIVISION);
    IS(vn_tritaves(65535, numbers, 0), -VN_DIVISION);
    IS(vn_tritaves(12, numbers, 0), -VN_ROOM);
    IS(vn_tritaves(13, numbers, 1), -VN_ROOM);
    untouched(__LINE__, 0);
    IS(vn_tritaves(12, numbers, 64), 1);
    NUMBERS(19);
    untouched(__LINE__, 1);
    IS(vn_tritaves(13, numbers, 2), 2);
    NUMBERS(21, 20);
    IS(vn_tritaves(16, numbers, 64), 2);
    NUMBERS(25, 26);
    untouched(__LINE__, 2);
    IS(vn_tritaves(1, numbers, 2), 2);
    NUMBERS(2, 1);
    IS(vn_tritaves(400, numbers, 1), 1);
    NUMBERS(634);
    /* Nearest to half a step, and to a third of one on both sides. */
    IS(vn_tritaves(153, numbers, 2), 2);
    NUMBERS(242, 243);
    IS(vn_tritaves(102, numbers, 2), 2);
    NUMBERS(162, 161);
    IS(vn_tritaves(204, numbers, 2), 1);
    NUMBERS(323);
    IS(vn_tritaves(257, numbers, 2), 2);
    NUMBERS(407, 408);
}

static void call_divisions(void)
{
    fill();
    IS(vn_find_by_edo(0, numbers, 18), -VN_DIVISION);
    IS(vn_find_by_edo(401, numbers, 0), -VN_DIVISION);
    IS(vn_find_by_edo(65535, numbers, 18), -VN_DIVISION);
    IS(vn_find_by_edo(12, numbers, 5), -VN_ROOM);
    IS(vn_find_by_edo(12, numbers, 0), -VN_ROOM);
    IS(vn_find_by_edo(4, numbers, 0), 0);
    IS(vn_find_by_edo(4, numbers, 18), 0);
    IS(vn_find_by_edo(6, numbers, 18), 0);
    untouched(__LINE__, 0);
    IS(vn_find_by_edo(12, numbers, 64), 6);
    NUMBERS(1, 19, 0, 2, 19, 0);
    untouched(__LINE__, 6);
    IS(vn_find_by_edo(7, numbers, 9), 9);
    NUMBERS(1, 11, 0, 2, 11, 0, 4, 11, 0);
    IS(vn_find_by_edo(13, numbers, 12), 12);
    NUMBERS(0, 20, 1, 1, 20, 1, 2, 21, 0, 4, 21, 0);
    IS(vn_find_by_edo(16, numbers, 12), 12);
    NUMBERS(0, 25, 0, 1, 25, 0, 2, 25, 0, 3, 26, 1);
    IS(vn_find_by_edo(400, numbers, 6), 6);
    NUMBERS(1, 634, 0, 2, 634, 0);

    fill();
    IS(vn_edo_report(text, 56), -VN_ROOM);
    IS(vn_edo_report(text, 0), -VN_ROOM);
    holds(__LINE__, text, "ZZZZ", 4);
    IS(vn_edo_report(text, sizeof text), 57);
    TEXT("0 5 2 2\n1 377 8 5\n2 3 386 6\n3 166 0 2\n4 124 0 7\n5 84 0 0\nZ");
}

static void call_layouts(void)
{
    IS(vn_layout(1, 12, 19, 3, numbers, 8), 8);
    NUMBERS(7, 1, 12, 7, 5, 2, 2, 1);
    IS(vn_scale_name(1, 12, 19, 3, text, 8), 8);
    TEXT("diatonic");
    IS(vn_note_name_len(1, 12, 19, 3, 1), 5);
    IS(vn_note_name(1, 12, 19, 3, 1, text, 5), 5);
    TEXT("D#/Eb");
    IS(vn_note_name_len(1, 24, 38, 3, -1), 8);
    IS(vn_note_name_len(1, 24, 38, 3, 65536), 7);
    IS(vn_note_name_len(1, 24, 38, 3, INT32_MIN), 7);
    IS(vn_note_name_len(1, 24, 38, 3, INT32_MAX), 2);
    IS(vn_note_name(1, 12, 19, 3, -1, text, 5), 5);
    TEXT("C#/Db");
    IS(vn_note_name(1, 12, 19, 3, -32769, text, 1), 1);
    TEXT("F");
    IS(vn_note_name(1, 12, 19, 3, INT32_MIN, text, 5), 5);
    TEXT("F#/Gb");
    IS(vn_note_name(1, 12, 19, 3, INT32_MAX, text, 1), 1);
    TEXT("A");
    IS(vn_layout_accidentals(1, 12, 19, 3, 1, numbers, 4), 4);
    NUMBERS(3, 1, 5, 1);
    IS(vn_layout_accidentals(1, 12, 19, 3, -1, numbers, 4), 4);
    NUMBERS(1, 1, 3, 1);
    IS(vn_layout_accidentals(1, 12, 19, 3, INT32_MIN, numbers, 4), 4);
    NUMBERS(0, 1, 2, 1);
    IS(vn_layout_accidentals(1, 12, 19, 3, INT32_MAX, numbers, 4), 4);
    NUMBERS(4, 0, 4, 0);
    IS(vn_sounded_key(1, 12, 19, 3, 3, 65537, 0), 5);
    IS(vn_sounded_key(1, 12, 19, 3, 4, -65537, 0), 2);
    IS(vn_sounded_key(1, 12, 19, 3, 3, INT32_MAX, 0), 7);
    IS(vn_sounded_key(1, 12, 19, 3, 3, INT32_MIN, 0), 4);
    IS(vn_sounded_key(1, 24, 38, 3, 3, 0, 1), 1);
    IS(vn_sounded_key(1, 24, 38, 3, 7, 0, 2), -VN_LETTER);
    IS(vn_sounded_key(1, 24, 38, 3, 6, 0, 2), -VN_STARS);
    IS(vn_layout(6, 12, 19, 0, numbers, 8), -VN_CHAIN);
    IS(vn_layout(1, 0, 19, 3, numbers, 8), -VN_PERIOD);
    IS(vn_layout(1, 19, 12, 3, numbers, 8), -VN_GENERATOR);
    IS(vn_layout(1, 12, 12, 3, numbers, 8), -VN_PATTERN);
    IS(vn_layout(1, 12, 19, 3, numbers, 7), -VN_ROOM);
}

/* What somebody typed. */
static int64_t typed[4];

#define TYPED(...) \
    do { \
        const int64_t wanted[] = {__VA_ARGS__}; \
        holds(__LINE__, typed, wanted, sizeof wanted); \
    } while (0)

/* A text in a layout of code 1 with its own start, read into so many of the elements. */
static int64_t read_in(uint16_t octave, uint16_t tritave, const char *name, size_t len)
{
    memset(typed, 0x5A, sizeof typed);
    return vn_read_spelling(1, octave, tritave, 3, (const uint8_t *)name, strlen(name), typed, len);
}

static int64_t found_in(uint16_t octave, uint16_t tritave, const char *name)
{
    return vn_find_key(1, octave, tritave, 3, (const uint8_t *)name, strlen(name));
}

/* A million signs, and a million stars. */
static void call_long_typed_names(void)
{
    enum { MANY = 1000000 };
    static uint8_t many[MANY + 1];
    memset(many, '#', sizeof many);
    many[0] = 'D';
    IS(vn_read_spelling(1, 12, 19, 3, many, sizeof many, typed, 3), 3);
    TYPED(3, MANY, 0);
    memset(many, 'b', sizeof many);
    many[0] = 'D';
    IS(vn_read_spelling(1, 12, 19, 3, many, sizeof many, typed, 3), 3);
    TYPED(3, -MANY, 0);
    IS(vn_find_key(1, 12, 19, 3, many, sizeof many), 8); /* a flat is a key down */
    memset(many, '*', sizeof many);
    many[0] = 'D';
    IS(vn_find_key(1, 12, 19, 3, many, sizeof many), -VN_STARS);
    many[MANY] = '#';
    IS(vn_find_key(1, 12, 19, 3, many, sizeof many), -VN_NOTE_NAME);
}

/* In 24 steps there are two cycles, and in 12 one; 10 is asked last. */
static void call_typed_names(void)
{
    static const uint8_t phi[] = {0xCF, 0x86, '#'};

    IS(read_in(24, 38, "Ebb*", 3), 3);
    TYPED(5, -2, 1, 0x5A5A5A5A5A5A5A5A);
    IS(read_in(24, 38, "F##", 4), 3);
    TYPED(0, 2, 0, 0x5A5A5A5A5A5A5A5A);
    IS(read_in(24, 38, "D", 2), -VN_ROOM);
    IS(read_in(24, 38, "D**", 0), -VN_STARS);
    IS(read_in(24, 38, "D**#", 3), -VN_NOTE_NAME);
    IS(read_in(24, 38, "D#b", 3), -VN_NOTE_NAME);
    IS(read_in(24, 38, "D+", 3), -VN_NOTE_NAME);
    IS(read_in(24, 38, "(D#/Eb)", 3), -VN_NOTE_NAME);
    IS(read_in(24, 38, "", 3), -VN_NOTE_NAME);
    TYPED(0x5A5A5A5A5A5A5A5A);
    IS(vn_read_spelling(0, 16, 25, 4, phi, 3, typed, 3), 3);
    TYPED(8, 1, 0);
    IS(vn_read_spelling(0, 16, 25, 4, phi, 1, typed, 3), -VN_NOTE_NAME);
    IS(vn_read_spelling(2, 12, 19, 2, (const uint8_t *)"A++", 3, typed, 3), 3); /* a flat is a + here */
    TYPED(3, -2, 0);
    IS(vn_read_spelling(1, 12, 19, 7, phi, 0, typed, 0), -VN_START);
    IS(vn_read_spelling(0, 12, 19, 9, phi, 0, typed, 0), -VN_PATTERN);

    IS(found_in(12, 19, "D#"), 1);
    IS(found_in(12, 19, "D#/Eb"), 1);
    IS(found_in(12, 19, "Eb/D#"), 1);
    IS(found_in(12, 19, "Fbb/D#"), 1); /* spellings that no name has */
    IS(found_in(12, 19, "D#/E"), -VN_TWO_KEYS);
    IS(found_in(12, 19, "(D#/Eb)"), -VN_NOTE_NAME);
    IS(found_in(12, 19, "D#/"), -VN_NOTE_NAME);
    IS(found_in(12, 19, "D*"), -VN_STARS);
    IS(found_in(24, 38, "D*"), 1);
    IS(found_in(24, 38, "(D#/Eb)*"), 3);
    IS(found_in(24, 38, "(D#/Eb)"), 2);
    IS(found_in(24, 38, "D#/Eb"), -VN_NOTE_NAME);
    IS(found_in(24, 38, "(D#/E)**"), -VN_STARS);
    IS(found_in(24, 38, "(D#/E)*"), -VN_TWO_KEYS);
    IS(vn_find_key(1, 12, 19, 1, (const uint8_t *)"D", 1), 2); /* from C */
    IS(vn_find_key(1, 12, 19, 7, (const uint8_t *)"D", 1), -VN_START);
    IS(vn_find_key(6, 12, 19, 3, (const uint8_t *)"D", 1), -VN_CHAIN);
    call_long_typed_names();
}

static int64_t explained[10];

#define EXPLAINED(...) \
    do { \
        const int64_t wanted[] = {__VA_ARGS__}; \
        holds(__LINE__, explained, wanted, sizeof wanted); \
    } while (0)

/* Two texts in a layout of code 1 with its own start. */
static int64_t explain_in(uint16_t octave, uint16_t tritave, const char *first, const char *second, size_t len)
{
    memset(explained, 0x5A, sizeof explained);
    return vn_explain(1, octave, tritave, 3, (const uint8_t *)first, strlen(first), (const uint8_t *)second, strlen(second),
                      explained, len);
}

static int64_t words_in(uint16_t octave, uint16_t tritave, const char *first, const char *second, size_t len)
{
    int64_t bytes = vn_explain_text_len(1, octave, tritave, 3, (const uint8_t *)first, strlen(first),
                                        (const uint8_t *)second, strlen(second));
    int64_t written = vn_explain_text(1, octave, tritave, 3, (const uint8_t *)first, strlen(first),
                                      (const uint8_t *)second, strlen(second), text, len);
    IS(written == -VN_ROOM ? bytes : written, bytes);
    return written;
}

/* F# and Gb are one key of 12, and two of 31; stars are on different chains. */
static void call_explanations(void)
{
    IS(explain_in(12, 19, "F#", "Gb", 9), 9);
    EXPLAINED(4, -8, 0, 0, 4, 4, 12, 12, VN_ONE_KEY, 0x5A5A5A5A5A5A5A5A);
    IS(explain_in(31, 49, "F#", "Gb", 10), 9);
    EXPLAINED(4, -8, 0, 0, 10, 11, 12, 31, VN_TWO_ON_ONE_CHAIN, 0x5A5A5A5A5A5A5A5A);
    IS(explain_in(24, 38, "Eb*", "D", 9), 9);
    EXPLAINED(-5, 0, 1, 0, 3, 0, 5, 12, VN_TWO_ON_DIFFERENT_CHAINS);
    IS(explain_in(12, 19, "F#", "Gb", 8), -VN_ROOM);
    IS(explain_in(24, 38, "D**", "d", 0), -VN_NOTE_NAME);
    IS(explain_in(24, 38, "d", "D**", 0), -VN_NOTE_NAME);
    IS(explain_in(24, 38, "D", "D**", 0), -VN_STARS);
    IS(explain_in(12, 12, "", "", 0), -VN_PATTERN);
    EXPLAINED(0x5A5A5A5A5A5A5A5A);

    IS(words_in(12, 19, "F#", "Gb", sizeof text), 219);
    TEXT("F# stands 4 places up the chain from D: 4 \xC3\x97 7 keys up are key 4 of 12.\n"
         "Gb stands 8 places down the chain from D: 8 \xC3\x97 7 keys down are key 4 of 12.\n"
         "They are 12 places apart, and the chain comes round after 12: one key.\n");
    IS(words_in(12, 19, "Eb", "Eb", 219), 186);
    fill();
    IS(words_in(12, 19, "F#", "Gb", 218), -VN_ROOM);
    IS(words_in(24, 38, "D", "D**", 512), -VN_STARS);
    IS(words_in(24, 38, "D/D", "D", 512), -VN_NOTE_NAME);
    IS(words_in(24, 37, "", "", 512), -VN_NOTE_NAME);
    holds(__LINE__, text, "ZZZZ", 4);
}

/* F C G D A E B. In 24 steps D and D* are 0 and 1; in 36 D** is 2, as far from 19 as D is. */
static void call_reach(void)
{
    IS(vn_nearest_natural(1, 12, 19, 3, 7, 3), 0);
    IS(vn_nearest_natural(1, 12, 19, 3, -14, 0), 3);
    IS(vn_nearest_natural(1, 24, 38, 3, 12, 3), 1);
    IS(vn_nearest_natural(1, 24, 38, 3, 13, 3), 0);
    IS(vn_nearest_natural(1, 24, 38, 3, 65537, 3), 0);
    IS(vn_nearest_natural(1, 24, 38, 3, INT32_MIN, 3), 0);
    IS(vn_nearest_natural(1, 24, 38, 3, INT32_MAX, 3), 1);
    IS(vn_nearest_natural(1, 36, 57, 3, 18, 3), 2);
    IS(vn_nearest_natural(1, 36, 57, 3, 19, 3), 0);
    IS(vn_nearest_natural(1, 12, 19, 1, 7, 3), 2);
    IS(vn_nearest_natural(1, 12, 19, 3, 0, 7), -VN_LETTER);
    IS(vn_nearest_natural(1, 12, 19, 3, 0, 259), -VN_LETTER);
    IS(vn_nearest_natural(1, 12, 19, 7, 0, 7), -VN_START);
    IS(vn_nearest_natural(0, 12, 19, 9, 0, 9), -VN_PATTERN);

    IS(vn_keys_in_reach(1, 12, 19, 3, 5, 2, numbers, 5), 5);
    NUMBERS(3, 4, 5, 6, 7);
    IS(vn_keys_in_reach(1, 12, 19, 3, -1, 2, numbers, 5), 5);
    NUMBERS(0, 1, 9, 10, 11);
    IS(vn_keys_in_reach(1, 12, 19, 3, 2, 5, numbers, 12), 11);
    NUMBERS(0, 1, 2, 3, 4, 5, 6, 7, 9, 10, 11);
    IS(vn_keys_in_reach(1, 12, 19, 3, 2, 6, numbers, 64), 12);
    NUMBERS(0, 1, 2, 3, 4, 5, 6, 7, 8, 9, 10, 11);
    IS(vn_keys_in_reach(1, 12, 19, 3, INT32_MIN, 0, numbers, 1), 1);
    NUMBERS(4);
    IS(vn_keys_in_reach(1, 12, 19, 3, INT32_MAX, 0, numbers, 1), 1);
    NUMBERS(7);
    IS(vn_keys_in_reach(1, 7, 11, 3, 2, 65535, numbers, 7), 7);
    NUMBERS(0, 1, 2, 3, 4, 5, 6);
    IS(vn_keys_in_reach(1, 7, 11, 3, 2, 3, numbers, 6), -VN_ROOM);
    IS(vn_keys_in_reach(1, 7, 11, 7, 2, 3, numbers, 6), -VN_START);
}

/* Meantone[5], C G D A E from D, in 31 steps with 49 to the tritave and then 50: the generator goes from 18 to 19. */
static void call_retunings(void)
{
    IS(vn_moved(2, 31, 2, 49, 50, 2, 0, 0), 0);
    IS(vn_moved(2, 31, 2, 49, 50, 3, 0, 0), 1);
    IS(vn_moved(2, 31, 2, 49, 50, 2, 4, 0), 11); /* 20 the other way round */
    IS(vn_moved(2, 31, 2, 50, 49, 2, 4, 0), 11);
    IS(vn_moved(2, 31, 2, 49, 50, 2, INT32_MIN, 0), 10);
    IS(vn_moved(2, 31, 2, 49, 50, 2, INT32_MAX, 0), 5);
    IS(vn_moved(2, 31, 0, 49, 50, 4, 0, 0), 4); /* from C */
    IS(vn_moved(1, 24, 3, 38, 34, 3, 1, 1), 4); /* two cycles each */
    IS(vn_moved(1, 24, 3, 38, 34, 3, 1, 2), -VN_STARS);
    IS(vn_moved(1, 24, 3, 38, 37, 3, 1, 0), 7); /* two cycles and one */
    IS(vn_moved(1, 24, 3, 38, 37, 3, 1, 1), -VN_STARS);
    IS(vn_moved(1, 24, 3, 37, 38, 3, 1, 1), -VN_STARS);
    IS(vn_moved(2, 31, 2, 49, 50, 5, 0, 1), -VN_LETTER);
    IS(vn_moved(2, 31, 2, 49, 50, 258, 0, 0), -VN_LETTER);
    IS(vn_moved(6, 0, 9, 0, 0, 9, 0, 9), -VN_CHAIN);
    IS(vn_moved(2, 0, 9, 0, 0, 9, 0, 9), -VN_PERIOD);
    IS(vn_moved(2, 4, 9, 3, 6, 9, 0, 9), -VN_GENERATOR);
    IS(vn_moved(2, 4, 9, 6, 3, 9, 0, 9), -VN_PATTERN);
    IS(vn_moved(2, 31, 5, 49, 30, 9, 0, 9), -VN_START);
    IS(vn_moved(2, 31, 4, 49, 30, 9, 0, 9), -VN_GENERATOR);
    IS(vn_moved(1, 31, 6, 49, 50, 9, 0, 9), -VN_PATTERN);

    strip[85] = 4711;
    IS(vn_move_table(2, 31, 2, 49, 50, strip, 86), 85);
    IS(strip[85], 4711);
    memcpy(numbers, strip + 2 * 17, 17 * sizeof *numbers); /* D, from eight flats to eight sharps */
    NUMBERS(9, 4, 1, 6, 11, 15, 10, 5, 0, 5, 10, 15, 11, 6, 1, 4, 9);
    memcpy(numbers, strip, 17 * sizeof *numbers); /* C */
    NUMBERS(11, 6, 1, 4, 9, 14, 12, 7, 2, 3, 8, 13, 13, 8, 3, 2, 7);
    IS(vn_move_table(2, 31, 2, 49, 50, strip, 85), 85);
    strip[0] = 4712;
    IS(vn_move_table(2, 31, 2, 49, 50, strip, 84), -VN_ROOM);
    IS(vn_move_table(2, 31, 5, 49, 50, strip, 84), -VN_START);
    IS(vn_move_table(1, 31, 6, 49, 50, strip, 84), -VN_PATTERN);
    IS(strip[0], 4712);

    IS(vn_largest_move(2, 31, 2, 49, 50), 15);
    IS(vn_largest_move(2, 31, 2, 49, 49), 0);
    IS(vn_largest_move(2, 31, 5, 49, 30), -VN_START);
    IS(vn_largest_move(1, 31, 6, 49, 50), -VN_PATTERN);
}

/* In 24 steps the chain goes 0 14 4 .. through the even keys and then 1 15 5 .. through the odd ones. */
static void call_orders(void)
{
    uint16_t keys[26], i;
    for (i = 0; i < 26; i++)
        keys[i] = (uint16_t)(65535 - i); /* no entry is a key */

    IS(vn_to_chain_order(1, 24, 38, 3, keys, 24, numbers, 24), 24);
    for (i = 0; i < 24; i++)
        numbers[i] = (uint16_t)(65535 - numbers[i]);
    NUMBERS(0, 14, 4, 18, 8, 22, 12, 2, 16, 6, 20, 10, 1, 15, 5, 19, 9, 23, 13, 3, 17, 7, 21, 11);
    IS(vn_to_key_order(1, 24, 38, 3, keys, 24, numbers, 24), 24);
    for (i = 0; i < 24; i++)
        numbers[i] = (uint16_t)(65535 - numbers[i]);
    NUMBERS(0, 12, 7, 19, 2, 14, 9, 21, 4, 16, 11, 23, 6, 18, 1, 13, 8, 20, 3, 15, 10, 22, 5, 17);

    /* Each undoes the other. */
    IS(vn_to_chain_order(1, 24, 38, 3, keys, 24, numbers, 24), 24);
    IS(vn_to_key_order(1, 24, 38, 3, numbers, 24, strip, 24), 24);
    holds(__LINE__, strip, keys, 48);
    IS(vn_to_key_order(1, 24, 38, 3, keys, 24, numbers, 24), 24);
    IS(vn_to_chain_order(1, 24, 38, 3, numbers, 24, strip, 24), 24);
    holds(__LINE__, strip, keys, 48);

    /* The letter on key 0 moves no key. Longer lists: what lies past the octave is not read, and kept. */
    numbers[7] = numbers[8] = 4711;
    IS(vn_to_chain_order(1, 7, 11, 0, keys, 26, numbers, 9), 7);
    NUMBERS(65535, 65531, 65534, 65530, 65533, 65529, 65532, 4711, 4711);
    IS(vn_to_key_order(1, 7, 11, 6, keys, 26, numbers, 9), 7);
    NUMBERS(65535, 65533, 65531, 65529, 65534, 65532, 65530, 4711, 4711);

    /* Lists that are too short, and layouts that are none; nothing is written. */
    IS(vn_to_chain_order(1, 24, 38, 3, keys, 23, numbers, 24), -VN_ROOM);
    IS(vn_to_chain_order(1, 24, 38, 3, keys, 24, numbers, 23), -VN_ROOM);
    IS(vn_to_chain_order(1, 24, 38, 7, keys, 0, numbers, 0), -VN_START);
    IS(vn_to_chain_order(0, 12, 19, 9, keys, 0, numbers, 0), -VN_PATTERN);
    IS(vn_to_key_order(1, 24, 38, 3, keys, 23, numbers, 24), -VN_ROOM);
    IS(vn_to_key_order(1, 24, 38, 3, keys, 24, numbers, 23), -VN_ROOM);
    IS(vn_to_key_order(1, 24, 38, 7, keys, 0, numbers, 0), -VN_START);
    IS(vn_to_key_order(3, 12, 19, 9, keys, 0, numbers, 0), -VN_GENERATOR);
    NUMBERS(65535, 65533, 65531, 65529, 65534, 65532, 65530, 4711, 4711);
}

/* In the largest octave of Hanson[7] the chain goes down, key by key. */
static void call_largest_orders(void)
{
    static uint16_t keys[65535], ordered[65536];
    uint32_t i;
    int misplaced = 0;
    for (i = 0; i < 65535; i++)
        keys[i] = (uint16_t)(i + 1);
    ordered[65535] = 4711;

    IS(vn_to_chain_order(5, 65535, 6, 3, keys, 65535, ordered, 65536), 65535);
    for (i = 0; i < 65535; i++)
        misplaced += ordered[i] != keys[(65535 - i) % 65535];
    IS(vn_to_key_order(5, 65535, 6, 3, keys, 65535, ordered, 65536), 65535);
    for (i = 0; i < 65535; i++)
        misplaced += ordered[i] != keys[(65535 - i) % 65535];
    IS(misplaced, 0);
    IS(ordered[65535], 4711);
    IS(vn_to_chain_order(5, 65535, 6, 3, keys, 65534, ordered, 65536), -VN_ROOM);
    IS(vn_to_chain_order(5, 65535, 6, 3, keys, 65535, ordered, 65534), -VN_ROOM);
}

/* Octaves and generators of the primary move, then of the secondary one. */
static void call_moves(void)
{
    moves[4] = 4711;
    IS(vn_moves(1, 12, 19, 3, moves, 4), 4);
    MOVES(-1, 2, 3, -5);
    IS(vn_moves(5, 19, 30, 0, moves, 5), 4);
    MOVES(-2, 3, 3, -4, 4711);
    IS(vn_moves(2, 5, 18, 2, moves, 5), 4); /* the generator is 13 */
    MOVES(-5, 2, 8, -3, 4711);
    IS(vn_moves(2, 65534, 65535, 4, moves, 4), 4);
    MOVES(0, 1, 1, -4);
    IS(vn_moves(1, 12, 19, 3, moves, 3), -VN_ROOM);
    IS(vn_moves(1, 12, 19, 7, moves, 3), -VN_START);
    IS(vn_moves(0, 12, 19, 9, moves, 3), -VN_PATTERN);
    MOVES(0, 1, 1, -4);

    IS(vn_walk_moves(12, 7, moves, 20), 20);
    MOVES(0, 1, 1, -1, -1, 2, 1, -1, -1, 2, 2, -3, -1, 2, 3, -5, -4, 7, 3, -5);
    IS(vn_walk_moves(12, 19, moves, 20), 20);
    MOVES(-1, 1, 2, -1, -3, 2, 2, -1, -3, 2, 5, -3, -3, 2, 8, -5, -11, 7, 8, -5);
    IS(vn_walk_moves(12, 7, moves, 19), -VN_ROOM);
    IS(vn_walk_moves(0, 7, moves, 0), -VN_PERIOD);
    MOVES(-1, 1, 2, -1, -3, 2, 2, -1, -3, 2, 5, -3, -3, 2, 8, -5, -11, 7, 8, -5);
    IS(vn_walk_moves(6, 12, moves, 5), 4); /* a step is 0 */
    MOVES(-2, 1, 3, -1, -3);
    IS(vn_walk_moves(1, 65535, moves, 4), 4);
    MOVES(-65535, 1, 65536, -1);
    IS(vn_walk_moves(65535, 65534, moves, 4 * 65535), 4 * 65534);
    IS(moves[4 * 65533], -65533);
    IS(moves[4 * 65533 + 1], 65534);
    IS(vn_walk_moves(65535, 1, moves, 4 * 65534), 4 * 65534);
    IS(moves[4 * 65533 + 2], 1);
    IS(moves[4 * 65533 + 3], -65534);
    IS(vn_walk_moves(65535, 1, moves, 4 * 65534 - 1), -VN_ROOM);
}

static void call_layers(void)
{
    IS(vn_layer_count(1, 12, 19, 3), 2);
    IS(vn_layout_layers(1, 12, 19, 3, numbers, 12), 12);
    NUMBERS(0, 1, 0, 0, 1, 0, 1, 0, 1, 0, 0, 1);
    IS(vn_layer(1, 31, 49, 3, 65535), 3);
    IS(vn_layer(1, 31, 49, 3, 6), 4);
    IS(vn_layer(1, 31, 49, 3, -1), 2);
    IS(vn_layer(1, 31, 49, 3, INT32_MIN), 4);
    IS(vn_layer(1, 31, 49, 3, INT32_MAX), 3);
    IS(vn_layer(3, 8, 13, 3, -8), 1);
    IS(vn_layer(3, 8, 13, 3, -16), 0);
    IS(vn_layer_kind(65535, 0, numbers, 2), 2);
    NUMBERS(VN_NATURAL, 0);
    IS(vn_layer_kind(65535, 32767, numbers, 2), 2);
    NUMBERS(VN_SHARP, 32766);
    IS(vn_layer_kind(6, 3, numbers, 2), 2);
    NUMBERS(VN_ENHARMONIC, 2);
    IS(vn_layer_kind(5, 3, numbers, 2), 2);
    NUMBERS(VN_FLAT, 1);
    IS(vn_layer_kind(5, 3, numbers, 1), -VN_ROOM);
}

/* What enharmonic keys have. */
enum { E = 65535 };

static void call_lamps(void)
{
    IS(vn_lamp_strip(1, 12, 19, 3, numbers, 12), 12);
    NUMBERS(0, E, 1, 1, E, 1, E, 1, E, 1, 1, E);
    IS(vn_lamp_strip(1, 31, 49, 3, numbers, 31), 31);
    NUMBERS(0, 5, 2, 3, 4, 1, 3);
    IS(vn_lamp_strip(1, 7, 11, 3, numbers, 14), 14);
    NUMBERS(0, 1, E, E, E, E, 1, 0, 1, E, E, E, E, 1);
    IS(vn_lamp_strip(1, 7, 11, 3, numbers, 13), -VN_ROOM);
    IS(vn_lamp_strip(3, 8, 13, 3, numbers, 64), 16);
    NUMBERS(0, 1, 1, 1, 1, E, E, E, 0, E, E, E, E, 1, 1, 1);
    IS(vn_lamp_strip(1, 2400, 3800, 3, strip, 2400), 2400);
    IS(strip[199], 2 + 2 * 198);
    IS(strip[200], E);
    IS(strip[201], 3 + 2 * 198);
    IS(vn_lamp_strip(1, 2400, 3800, 3, strip, 2399), -VN_ROOM);
    IS(vn_lamp(1, 31, 49, 3, 65535), 5);
    IS(vn_lamp(1, 31, 49, 3, 31), 0);
    IS(vn_lamp(1, 31, 49, 3, -31), 0);
    IS(vn_lamp(1, 31, 49, 3, -1), 4);
    IS(vn_lamp(1, 31, 49, 3, INT32_MIN), 3);
    IS(vn_lamp(1, 31, 49, 3, INT32_MAX), 5);
    IS(vn_lamp(1, 7, 11, 3, 7), 0);
    IS(vn_lamp(1, 7, 11, 3, -7), 0);
    IS(vn_lamp(1, 7, 11, 3, 14), 0);
    IS(vn_lamp(1, 7, 11, 3, -14), 0);
    IS(vn_lamp(3, 8, 13, 3, 8), 0);
    IS(vn_lamp(3, 8, 13, 3, -8), 0);
    IS(vn_lamp(3, 8, 13, 3, 16), 0);
    IS(vn_lamp(3, 8, 13, 3, 9), E);
    IS(vn_lamp(3, 8, 13, 3, -7), E);
    IS(vn_lamp(3, 8, 13, 3, INT32_MIN), 0);
    IS(vn_lamp(3, 8, 13, 3, INT32_MAX), 1);
    IS(vn_lamp(1, 2400, 3800, 3, 31), 2 + 2 * 30);
    IS(vn_lamp(1, 2400, 3800, 3, -1), 3);
}

/* A strip that was stored with one byte for each code, and back to the same bytes. */
static void call_stored_strips(void)
{
    const uint8_t stored[] = {0, 1, 2, 101, 102, 201, 255};
    const uint16_t no_partner[] = {1, 65535, 0, 202};
    const uint16_t no_byte[] = {65534};
    IS(vn_widen_strip(stored, 7, numbers, 7), 7);
    NUMBERS(0, 1, 2, 200, 3, 201, 65535);
    IS(vn_narrow_strip(numbers, 7, text, 7), 7);
    holds(__LINE__, text, stored, sizeof stored);
    IS(vn_widen_strip(stored, 7, numbers, 6), -VN_ROOM);
    IS(vn_narrow_strip(numbers, 7, text, 6), -VN_ROOM);
    IS(vn_widen_strip(stored, 0, numbers, 0), 0);
    IS(vn_narrow_strip(numbers, 0, text, 0), 0);

    /* 17 is asked before 10. */
    IS(vn_widen_strip((const uint8_t *)"\1\312", 2, numbers, 2), -VN_CODE);
    IS(vn_widen_strip((const uint8_t *)"\376\1", 2, numbers, 1), -VN_CODE);
    IS(vn_narrow_strip(no_partner, 3, text, 3), 3);
    IS(vn_narrow_strip(no_partner, 4, text, 4), -VN_CODE);
    IS(vn_narrow_strip(no_byte, 1, text, 0), -VN_CODE);
    holds(__LINE__, text, "\1\377\0", 3);
}

/* The natural keys of Meantone[7] in twelve steps, as a .kbm file; then what other files map. */
static void call_mappings(void)
{
    static const char file[] = "12\n0\n127\n60\n69\n440.000000\n12\n0\nx\n2\n3\nx\n5\nx\n7\nx\n9\n10\nx\n";
    static const char commented[] = "!\n5\n0\n127\n60\n69\n440.000000\n00005\nx\n!2\n1\nx\n3\nx\n!end\n";
    static const char another_size[] = "4\n0\n127\n60\n69\n440.000000\n5\nx\n1\nx\n3\nx\n";
    static const char another_key[] = "5\n0\n127\n60\n69\n440.000000\n5\nx\n1\n1\n3\nx\n";
    static const char both[] = "4\n0\n127\n60\n69\n440.000000\n5\nx\n1\nx\n3\nX\n";
    const size_t len = sizeof file - 1;

    IS(vn_kbm_len(1, 12, 19, 3), (int64_t)len);
    text[len] = 42;
    IS(vn_kbm(1, 12, 19, 3, text, len + 1), (int64_t)len);
    TEXT(file);
    IS(text[len], 42);
    IS(vn_kbm(1, 12, 19, 1, text, len), (int64_t)len); /* from C; two of its numbers change places with marks */
    TEXT("12\n0\n127\n60\n69\n440.000000\n12\n0\nx\n2\nx\n4\n5\nx\n7\nx\n9\nx\n11\n");
    IS(vn_kbm(1, 12, 19, 3, text, len - 1), -VN_ROOM);
    IS(vn_kbm(1, 12, 19, 7, text, 0), -VN_START);
    IS(vn_kbm(0, 12, 19, 9, text, 0), -VN_PATTERN);
    TEXT("12\n0\n127\n60\n69\n440.000000\n12\n0\nx\n2\nx\n4\n5\nx\n7\nx\n9\nx\n11\n");
    IS(vn_kbm_len(1, 12, 19, 7), -VN_START);
    IS(vn_kbm_len(3, 12, 19, 9), -VN_GENERATOR);
    IS(vn_kbm_len(2, 65534, 65535, 4), 131119);

    numbers[7] = 4711;
    IS(vn_kbm_read(1, 12, 19, 3, (const uint8_t *)file, len, numbers, 8), 7);
    NUMBERS(0, 2, 3, 5, 7, 9, 10, 4711);
    IS(vn_kbm_read(2, 5, 8, 2, (const uint8_t *)commented, sizeof commented - 1, numbers, 2), 2);
    NUMBERS(1, 3, 3, 5);
    IS(vn_kbm_read(2, 5, 8, 2, (const uint8_t *)commented, sizeof commented - 1, numbers, 1), -VN_ROOM);
    IS(vn_kbm_read(2, 5, 8, 2, (const uint8_t *)commented, sizeof commented - 2, numbers, 1), -VN_KBM_LINES);
    IS(vn_kbm_read(2, 5, 8, 2, (const uint8_t *)both, sizeof both - 1, numbers, 1), -VN_KBM_LINES);
    IS(vn_kbm_read(2, 5, 8, 2, (const uint8_t *)file, len, numbers, 1), -VN_KBM_LINES);
    IS(vn_kbm_read(2, 5, 8, 2, (const uint8_t *)file, 0, numbers, 1), -VN_KBM_LINES);
    IS(vn_kbm_read(2, 5, 8, 2, (const uint8_t *)another_size, sizeof another_size - 1, numbers, 1), -VN_KBM_NUMBERS);
    IS(vn_kbm_read(2, 5, 8, 2, (const uint8_t *)another_key, sizeof another_key - 1, numbers, 1), -VN_KBM_NUMBERS);
    IS(vn_kbm_read(2, 5, 8, 5, (const uint8_t *)file, 0, numbers, 0), -VN_START);
    IS(vn_kbm_read(0, 12, 19, 9, (const uint8_t *)file, 0, numbers, 0), -VN_PATTERN);
    NUMBERS(1, 3, 3, 5);
}

/* Records that ask for these keys, and hold something else behind them. */
static void ask(const int32_t *keys, size_t count)
{
    size_t i;
    memset(records, 0x5A, sizeof records);
    for (i = 0; i < count; i++)
        records[i].key = keys[i];
}

#define ASK(...) \
    do { \
        const int32_t keys[] = {__VA_ARGS__}; \
        ask(keys, sizeof keys / sizeof *keys); \
    } while (0)

/* The bytes of the records from a place on are untouched. */
static void records_untouched(int line, size_t from)
{
    static uint8_t filled[sizeof records];
    memset(filled, 0x5A, sizeof filled);
    holds(line, records + from, filled, sizeof records - from * sizeof records[0]);
}

static void call_sheets(void)
{
    struct vn_record before[3];

    /* Key 1 twice, below 0, an octave above and below, both ends: each record at its own place. */
    ASK(1, 0, 1, -1, 12, -12, INT32_MAX, INT32_MIN);
    IS(vn_sheet(1, 12, 19, 3, records, 8), 8);
    RECORDS({1, 3, 1, 5, 1, 0, E}, {0, 3, 0, 3, 0, 0, 0}, {1, 3, 1, 5, 1, 0, E}, {-1, 1, 1, 3, 1, 0, E},
            {12, 3, 0, 3, 0, 0, 0}, {-12, 3, 0, 3, 0, 0, 0}, {INT32_MAX, 4, 0, 4, 0, 0, 1}, {INT32_MIN, 0, 1, 2, 1, 0, E});

    /* Stars, and what lies past the list. */
    ASK(3, 2, -1, 65537);
    IS(vn_sheet(1, 24, 38, 3, records, 4), 4);
    RECORDS({3, 3, 1, 5, 1, 1, 3}, {2, 3, 1, 5, 1, 0, E}, {-1, 1, 1, 3, 1, 1, 3}, {65537, 4, 1, 6, 1, 1, 3});
    records_untouched(__LINE__, 4);

    /* More flats than sharps; another letter on key 0. */
    ASK(7);
    IS(vn_sheet(1, 31, 49, 3, records, 1), 1);
    RECORDS({7, 5, 1, 2, 3, 0, 2});
    records_untouched(__LINE__, 1);
    ASK(-1, 0);
    IS(vn_sheet(1, 12, 19, 1, records, 2), 2);
    RECORDS({-1, 6, 0, 6, 0, 0, 1}, {0, 1, 0, 1, 0, 0, 0});

    /* A strip of two octaves: keys an octave apart have one name and two colours. */
    ASK(1, 9, 17, 8, -1, -9, INT32_MIN);
    IS(vn_sheet(3, 8, 13, 3, records, 7), 7);
    RECORDS({1, 4, 0, 4, 0, 0, 1}, {9, 4, 0, 4, 0, 0, E}, {17, 4, 0, 4, 0, 0, 1}, {8, 3, 0, 3, 0, 0, 0},
            {-1, 2, 0, 2, 0, 0, 1}, {-9, 2, 0, 2, 0, 0, E}, {INT32_MIN, 3, 0, 3, 0, 0, 0});

    /* No record; and a refused layout, which touches none, asked for some and for none. */
    ASK(1, 0, 1);
    memcpy(before, records, sizeof before);
    IS(vn_sheet(1, 12, 19, 3, records, 0), 0);
    IS(vn_sheet(6, 0, 0, 9, records, 3), -VN_CHAIN);
    IS(vn_sheet(6, 0, 0, 9, records, 0), -VN_CHAIN);
    IS(vn_sheet(1, 0, 19, 9, records, 3), -VN_PERIOD);
    IS(vn_sheet(3, 12, 19, 9, records, 3), -VN_GENERATOR);
    IS(vn_sheet(0, 12, 19, 9, records, 3), -VN_PATTERN);
    IS(vn_sheet(1, 12, 19, 7, records, 3), -VN_START);
    IS(vn_sheet(1, 12, 19, 259, records, 0), -VN_START);
    holds(__LINE__, records, before, sizeof before);
    records_untouched(__LINE__, 3);
}

static void call_books(void)
{
    uint32_t found[2];
    int64_t length = vn_book_len(1, 12, 19, 3);
    IS(length, 132);
    IS(vn_book(1, 12, 19, 3, text, sizeof text), length);
    IS(vn_book_find(text, (size_t)length, 1, found, 2), 2);
    IS(found[0], 101);
    IS(found[1], 5);
    holds(__LINE__, text + found[0], "D#/Eb", 5);
    IS(vn_book_find(text, (size_t)length, 12, found, 2), -VN_BOOK_KEY);
    IS(vn_book_find(text, (size_t)length, -1, found, 2), -VN_BOOK_KEY);
    IS(vn_book_find(text, (size_t)length, -65535, found, 2), -VN_BOOK_KEY);
    IS(vn_book_find(text, (size_t)length, 65537, found, 2), -VN_BOOK_KEY);
    IS(vn_book_find(text, (size_t)length, INT32_MIN, found, 2), -VN_BOOK_KEY);
    IS(vn_book_find(text, (size_t)length, INT32_MAX, found, 2), -VN_BOOK_KEY);
    IS(vn_book_find(text, (size_t)length - 1, -1, found, 2), -VN_BOOK_COVER);
    IS(vn_book_find(text, 3, -1, found, 2), -VN_BOOK_PAIRS);
    IS(vn_book_find(text, 3, -1, found, 1), -VN_ROOM);
    IS(vn_key_table((const uint8_t *)"1 7 11\n", 7, text, sizeof text), 58);
    TEXT("0 D 0\n1 E 1\n2 F 65535\n3 G 65535\n4 A 65535\n5 B 65535\n6 C 1\n");
    IS(vn_key_table((const uint8_t *)"1 0 19\n", 7, text, sizeof text), 10);
    TEXT("refused 2\n");
}

/* The chain's own start stands in the calls above; other letters stand on key 0 here. */
static void call_starts(void)
{
    uint32_t found[2];
    IS(vn_layout(1, 12, 19, 1, numbers, 8), 8);
    NUMBERS(7, 1, 12, 7, 5, 2, 2, 1);
    IS(vn_scale_name(1, 12, 19, 1, text, 8), 8);
    TEXT("diatonic");
    IS(vn_note_name_len(1, 31, 49, 1, 1), 7);
    IS(vn_note_name(1, 31, 49, 1, 1, text, 7), 7);
    TEXT("B##/Dbb");
    IS(vn_note_name(1, 31, 49, 6, 0, text, 1), 1);
    TEXT("B");
    IS(vn_layout_accidentals(1, 31, 49, 1, 1, numbers, 4), 4);
    NUMBERS(6, 2, 3, 2);
    IS(vn_sounded_key(1, 31, 49, 1, 4, -1, 0), 21);
    IS(vn_layer_count(1, 31, 49, 1), 5);
    IS(vn_layout_layers(1, 12, 19, 1, numbers, 12), 12);
    NUMBERS(0, 1, 0, 1, 0, 0, 1, 0, 1, 0, 1, 0);
    IS(vn_layer(1, 31, 49, 1, 6), 3);
    IS(vn_lamp_strip(1, 12, 19, 1, numbers, 12), 12);
    NUMBERS(0, E, 1, E, 1, 1, E, 1, E, 1, E, 1);
    IS(vn_lamp(1, 31, 49, 1, 6), 5);
    IS(vn_book_len(1, 12, 19, 1), 132);
    IS(vn_book(1, 12, 19, 1, text, sizeof text), 132);
    IS(vn_book_find(text, 132, 1, found, 2), 2);
    IS(found[0], 101);
    IS(found[1], 5);
    holds(__LINE__, text + found[0], "C#/Db", 5);
}

/* What no letter's index is. 257 and 65,535 would be 1 and 255 in eight bits. */
static void call_no_starts(void)
{
    IS(vn_layout(1, 12, 19, 7, numbers, 8), -VN_START);
    IS(vn_scale_name(1, 12, 19, 7, text, 8), -VN_START);
    IS(vn_note_name_len(1, 12, 19, 257, 1), -VN_START);
    IS(vn_note_name(1, 12, 19, 65535, 1, text, 5), -VN_START);
    IS(vn_layout_accidentals(1, 12, 19, 7, 1, numbers, 4), -VN_START);
    IS(vn_layer_count(1, 12, 19, 7), -VN_START);
    IS(vn_layout_layers(1, 12, 19, 7, numbers, 12), -VN_START);
    IS(vn_layer(1, 31, 49, 7, 6), -VN_START);
    IS(vn_book_len(1, 12, 19, 257), -VN_START);
    IS(vn_layout(0, 9, 14, 8, numbers, 8), 8);
    IS(vn_layout(0, 9, 14, 9, numbers, 8), -VN_START);
    IS(vn_layout(2, 12, 19, 4, numbers, 8), 8);
    IS(vn_layout(2, 12, 19, 5, numbers, 8), -VN_START);

    /* 1, 2, 3 and 4 are asked before it, 16, 21 and 10 after it. */
    IS(vn_layout(6, 12, 19, 9, numbers, 8), -VN_CHAIN);
    IS(vn_layout(1, 0, 19, 9, numbers, 8), -VN_PERIOD);
    IS(vn_layout(1, 19, 12, 9, numbers, 8), -VN_GENERATOR);
    IS(vn_layout(1, 12, 12, 9, numbers, 8), -VN_PATTERN);
    IS(vn_sounded_key(1, 24, 38, 7, 7, 0, 1), -VN_START);
    IS(vn_sounded_key(1, 24, 38, 7, 6, 0, 2), -VN_START);
    IS(vn_lamp_strip(1, 12, 19, 7, numbers, 11), -VN_START);
    IS(vn_lamp(1, 12, 19, 7, 1), -VN_START);
    IS(vn_book(1, 12, 19, 7, text, 131), -VN_START);
    IS(vn_layout(1, 12, 19, 7, numbers, 7), -VN_START);
}

int main(void)
{
    call_numbers();
    call_pergens();
    call_patterns();
    call_fractional_child();
    call_fractional_children();
    call_chains();
    call_tritaves();
    call_divisions();
    call_layouts();
    call_typed_names();
    call_explanations();
    call_reach();
    call_retunings();
    call_orders();
    call_largest_orders();
    call_moves();
    call_layers();
    call_lamps();
    call_stored_strips();
    call_mappings();
    call_sheets();
    call_books();
    call_starts();
    call_no_starts();
    return wrong;
}
