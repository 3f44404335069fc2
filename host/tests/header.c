/* Prints the layout of every struct of bicycle.h, and what every function answers once. */
#include <bicycle.h>
#include <stdio.h>
#include <stdlib.h>
#include <string.h>

#define STRUCT(type) printf("%s has %zu bytes\n", #type, sizeof(type))
#define FIELD(type, field) printf("%s.%s at %zu\n", #type, #field, offsetof(type, field))

static void layouts(void) {
    STRUCT(bicycle_build_result);
    FIELD(bicycle_build_result, number);
    FIELD(bicycle_build_result, entries);
    FIELD(bicycle_build_result, depth);
    STRUCT(bicycle_check_result);
    FIELD(bicycle_check_result, number);
    FIELD(bicycle_check_result, accepted);
    FIELD(bicycle_check_result, index);
    STRUCT(bicycle_lookup_result);
    FIELD(bicycle_lookup_result, needed);
    FIELD(bicycle_lookup_result, number);
    FIELD(bicycle_lookup_result, measures);
    FIELD(bicycle_lookup_result, native);
    FIELD(bicycle_lookup_result, base);
    FIELD(bicycle_lookup_result, rotations);
    STRUCT(bicycle_value_result);
    FIELD(bicycle_value_result, number);
    FIELD(bicycle_value_result, value);
    STRUCT(bicycle_text_result);
    FIELD(bicycle_text_result, needed);
    FIELD(bicycle_text_result, length);
    FIELD(bicycle_text_result, number);
    STRUCT(bicycle_letter_result);
    FIELD(bicycle_letter_result, number);
    FIELD(bicycle_letter_result, letter);
    FIELD(bicycle_letter_result, first);
    FIELD(bicycle_letter_result, second);
    STRUCT(bicycle_automorphism_result);
    FIELD(bicycle_automorphism_result, generators);
    FIELD(bicycle_automorphism_result, x);
    FIELD(bicycle_automorphism_result, y);
    FIELD(bicycle_automorphism_result, inverse_x);
    FIELD(bicycle_automorphism_result, inverse_y);
}

static void lookup(const char *name, bicycle_lookup_result r, const uint8_t *out) {
    printf("%s: needed %zu number %u measures %u native %u base %u rotations %u, %u %u\n", name,
           r.needed, r.number, r.measures, r.native, r.base, r.rotations, out[0], out[1]);
}

static void value(const char *name, bicycle_value_result r) {
    printf("%s: number %u value %u\n", name, r.number, r.value);
}

static void text(const char *name, bicycle_text_result r, const uint8_t *out) {
    printf("%s: needed %zu length %zu number %u, %.*s\n", name, r.needed, r.length, r.number,
           (int)r.length, (const char *)out);
}

static void automorphism(const char *name, bicycle_automorphism_result r) {
    printf("%s: generators %llu x %u y %u inverse_x %u inverse_y %u\n", name,
           (unsigned long long)r.generators, r.x, r.y, r.inverse_x, r.inverse_y);
}

/* The arguments are the plan on paper, then its two matrices as digits. */
int main(int argc, char **argv) {
    static uint8_t mx[36], my[36], out[1024];
    uint8_t *table = malloc(BICYCLE_TABLE_LENGTH), *queue = malloc(BICYCLE_TABLE_LENGTH);
    if (argc != 4 || strlen(argv[2]) != 36 || strlen(argv[3]) != 36 || !table || !queue) {
        return 2;
    }
    for (int i = 0; i < 36; i++) {
        mx[i] = (uint8_t)(argv[2][i] - '0');
        my[i] = (uint8_t)(argv[3][i] - '0');
    }
    size_t all = BICYCLE_TABLE_LENGTH;
    layouts();

    bicycle_build_result b = bicycle_build(table, all, queue, all, mx, 36, my, 36);
    printf("build: number %u entries %u depth %u\n", b.number, b.entries, b.depth);
    bicycle_check_result c = bicycle_check(table, all, mx, 36, my, 36);
    printf("check: number %u accepted %u index %u\n", c.number, c.accepted, c.index);
    lookup("implementation",
           bicycle_implementation(table, all, mx, 36, my, 36, 262337, out, 2), out);
    lookup("min_data", bicycle_min_data(table, all, mx, 36, my, 36, 66, out, 2), out);
    lookup("no room", bicycle_min_data(table, all, mx, 36, my, 36, 66, out, 1), out);
    value("is_empty", bicycle_is_empty(table, all));
    value("len", bicycle_len(table, all));
    value("cost", bicycle_cost(table, all, 262337));
    value("cost of none", bicycle_cost(table, all, BICYCLE_STRINGS - 1));
    value("measures", bicycle_measures(mx, 36, my, 36, 440));
    value("measures of none", bicycle_measures(mx, 36, my, 36, BICYCLE_NATIVES));
    text("native_instructions", bicycle_native_instructions(440, out, sizeof out), out);
    text("rotation_instructions",
         bicycle_rotation_instructions(mx, 36, my, 36, 533, out, sizeof out), out);
    value("from_text", bicycle_from_text((const uint8_t *)"iiiixyiiiiix", 12));
    text("display", bicycle_display(262337, out, 12), out);
    text("display in 11", bicycle_display(262337, out, 11), out);
    value("commutes_with", bicycle_commutes_with(65, 266240));
    value("conjugate_with", bicycle_conjugate_with(1, 4096));
    text("list", bicycle_list((const uint8_t *)argv[1], strlen(argv[1]), out, sizeof out), out);
    bicycle_letter_result l = bicycle_letter('z');
    printf("letter: number %u letter %u first %u second %u\n", l.number, l.letter, l.first,
           l.second);
    automorphism("automorphism", bicycle_automorphism(10, 5));
    automorphism("automorphism_mul", bicycle_automorphism_mul(4, 5, 255, 3));
    free(table);
    free(queue);
    return 0;
}
