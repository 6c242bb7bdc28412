/* Prints what a program has to print for the line on its standard input, made by the library's calls. The program's name is
 * the argument: key_table, kbm, passed_patterns, edo or edo_report. examples/check compares the two, byte for byte. */
#include <inttypes.h>
#include <stdio.h>
#include <stdlib.h>
#include <string.h>

#include "vetchnoon.h"

enum { LONGEST_TABLE = 3440640, LONGEST_LINE = 1 << 21, OCTAVES = 4096 };

static uint8_t line[LONGEST_LINE + 1]; /* with a 0 at the end */
static size_t line_len;
static uint8_t text[LONGEST_TABLE];
static uint16_t patterns[4 * (OCTAVES + 1)]; /* a walk has at most as many as the steps' sum, and one more */

/* Reads one line, its line feed included; what lies past the longest is not read. */
static void read_line(void)
{
    int byte = 0;

    while (byte != '\n' && line_len < LONGEST_LINE && (byte = getchar()) != EOF)
        line[line_len++] = (uint8_t)byte;
}

/* Prints so many bytes of the text, or the refusal. */
static void print(int64_t answer)
{
    if (answer < 0)
        printf("refused %" PRId64 "\n", -answer);
    else
        fwrite(text, 1, (size_t)answer, stdout);
}

static void print_table(void)
{
    print(vn_key_table(line, line_len, text, sizeof text));
}

/* Whether the key table refuses the line: then what it prints is printed. */
static int refused(void)
{
    int64_t bytes = vn_key_table(line, line_len, text, sizeof text);
    int is = 0 < bytes && text[0] == 'r';

    if (is)
        print(bytes);
    return is;
}

/* What a line that is not refused asks for. */
static void read_layout(uint16_t *chain, uint16_t *octave, uint16_t *tritave)
{
    sscanf((const char *)line, "%" SCNu16 " %" SCNu16 " %" SCNu16, chain, octave, tritave);
}

static void print_mapping(void)
{
    uint16_t chain = 0, octave = 0, tritave = 0;

    if (refused())
        return;
    read_layout(&chain, &octave, &tritave);
    print(vn_kbm(chain, octave, tritave, (uint16_t)vn_start(chain), text, sizeof text));
}

static void print_pattern(const uint16_t *p)
{
    printf("%d %d %d %d\n", p[0], p[1], p[2], p[3]);
}

/* The walk from the layout's genesis to the first pattern with as many steps as the chain has letters, and that pattern. */
static void print_patterns(void)
{
    uint16_t chain = 0, octave = 0, tritave = 0, layout[8], letters[9], found[4], genesis[4];
    int64_t steps, count, i;

    if (refused())
        return;
    read_layout(&chain, &octave, &tritave);
    vn_layout(chain, octave, tritave, (uint16_t)vn_start(chain), layout, 8);
    steps = vn_chain_letters(chain, letters, 9);
    vn_mos_find(octave, layout[0], (uint16_t)steps, found, 4);
    vn_mos_genesis(found[0], found[1], found[2], found[3], genesis, 4);
    count = vn_mos_children(genesis[0], genesis[1], genesis[2], genesis[3], patterns, sizeof patterns / sizeof patterns[0]);
    for (i = 0; i < count; i += 4) {
        print_pattern(patterns + i);
        if (patterns[i] + patterns[i + 1] >= steps)
            break;
    }
    printf("found ");
    print_pattern(found);
}

/* The number that stands alone on the line, of 1 to 5 digits and at most 65,535; else minus the number of a refusal. */
static int32_t read_number(void)
{
    size_t digits = strspn((const char *)line, "0123456789");
    int32_t number = 5 < digits ? 65536 : (int32_t)atoi((const char *)line);

    return digits == 0 || line[digits] != '\n' || 65535 < number ? -VN_LINE : number;
}

static void print_layouts(void)
{
    uint16_t found[6 * 3]; /* chain, tritave, 1 for the second choice, of at most six layouts */
    uint8_t chain[12], scale[12];
    int32_t steps = read_number();
    int64_t count = steps < 0 ? steps : vn_find_by_edo((uint16_t)steps, found, 6 * 3), i;

    if (count < 0)
        print(count);
    for (i = 0; i < count; i += 3) {
        uint16_t start = (uint16_t)vn_start(found[i]);
        int chain_len = (int)vn_chain_name(found[i], chain, sizeof chain);
        int scale_len = (int)vn_scale_name(found[i], (uint16_t)steps, found[i + 1], start, scale, sizeof scale);

        printf("%d %" PRId32 " %d %.*s %.*s\n", found[i], steps, found[i + 1], chain_len, (const char *)chain, scale_len,
               (const char *)scale);
    }
}

static void print_report(void)
{
    print(vn_edo_report(text, sizeof text));
}

int main(int argc, char **argv)
{
    static const char *const names[] = {"key_table", "kbm", "passed_patterns", "edo", "edo_report"};
    static void (*const prints[])(void) = {print_table, print_mapping, print_patterns, print_layouts, print_report};
    size_t i;

    for (i = 0; i < sizeof names / sizeof names[0]; i++) {
        if (argc == 2 && strcmp(argv[1], names[i]) == 0) {
            read_line();
            prints[i]();
            return fflush(stdout) != 0;
        }
    }
    return 1;
}
