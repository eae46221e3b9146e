/* Builds an order, plans it with both placers, checks and prints the plan, then moves a box on the sheet and prints what the check finds. From the
 * root of the repository:
 *
 *     tools/build_library
 *     cc -I include -o example bindings/c/example.c target/staticlib/libwaikurpeho.a
 *     ./example
 *
 * It prints bindings/printed.txt, as the Rust example does (tools/test_bindings). */
#include <stdio.h>
#include <stdlib.h>

#include "waikurpeho.h"

/* A refusal here is a mistake in this program, so it ends it. */
static uint32_t accepted(uint64_t answer, const char *call) {
    if (wk_refused(answer) != WK_ACCEPTED) {
        fprintf(stderr, "example: %s refused by %u\n", call, (unsigned)wk_refused(answer));
        exit(1);
    }
    return wk_count(answer);
}

static size_t build_order(uint8_t *file, size_t room) {
    static const wk_kind kinds[] = {
        {.id = 7, .quantity = 3, .width = 180, .depth = 120, .height = 90, .mass = 4, .rule = WK_UPRIGHT, .mass_flag = 1},
        {.id = 8, .quantity = 2, .width = 80, .depth = 100, .height = 120, .mass = 5, .rule = WK_ANY, .mass_flag = 1},
    };
    wk_sheet order = {.container = {.width = 400, .depth = 300, .height = 200, .margin = 10, .spacing = 5, .limit = 20}, .kinds = kinds, .kind_count = 2};
    return wk_write(&order, file, room);
}

static void print_sheet(const uint8_t *file, size_t length) {
    wk_parts parts;
    if (!wk_read(file, length, &parts))
        return;
    for (size_t i = 0; i < parts.line_count; i++) {
        wk_line line = wk_line_at(&parts, i);
        printf("  line %zu: kind %u instance %u at %g %g %g orientation %u\n", i, (unsigned)line.id, (unsigned)line.instance, line.x, line.y, line.z,
               (unsigned)line.orientation);
    }
    for (size_t i = 0; i < parts.unplaced_count; i++)
        printf("  unplaced: kind %u\n", (unsigned)wk_unplaced_at(&parts, i));
}

static void print_finding(const uint64_t *word) {
    switch (word[0]) {
    case WK_FOUND_TOO_CLOSE:
        printf("  lines %u and %u: %g apart, where the spacing is %g\n", (unsigned)word[1], (unsigned)word[2], wk_float(word[3]), wk_float(word[4]));
        break;
    case WK_FOUND_MISSING:
        printf("  kind %u: not all its boxes are on the sheet, and it is not listed as unplaced\n", (unsigned)word[1]);
        break;
    default: /* waikurpeho.h has the fields of the others */
        printf("  finding %u\n", (unsigned)word[0]);
    }
}

/* The first call, without room, only asks how many there are. */
static void print_findings(const uint8_t *file, size_t length) {
    uint64_t none, answer = wk_check(file, length, &none, 0);
    uint32_t count = wk_refused(answer) == WK_ROOM ? wk_count(answer) : accepted(answer, "wk_check");
    uint64_t *words = (uint64_t *)calloc((size_t)count + 1, WK_WORDS * sizeof *words);
    if (!words)
        exit(1);
    count = accepted(wk_check(file, length, words, (size_t)count * WK_WORDS), "wk_check");
    printf("findings %u\n", (unsigned)count);
    for (uint32_t i = 0; i < count; i++)
        print_finding(words + i * WK_WORDS);
    free(words);
}

/* The sheet with its second line moved 3 towards the first, and without its list of unplaced kinds. */
static size_t spoil(const uint8_t *file, size_t length, uint8_t *spoilt, size_t room) {
    wk_kind kinds[WK_MOST_KINDS];
    wk_line lines[WK_MOST_LINES];
    wk_sheet sheet = {.kinds = kinds, .lines = lines};
    wk_parts parts;
    if (!wk_read(file, length, &parts))
        return 0;
    sheet.container = wk_container_of(&parts);
    for (; sheet.kind_count < parts.kind_count; sheet.kind_count++)
        kinds[sheet.kind_count] = wk_kind_at(&parts, sheet.kind_count);
    for (; sheet.line_count < parts.line_count; sheet.line_count++)
        lines[sheet.line_count] = wk_line_at(&parts, sheet.line_count);
    lines[1].x -= 3;
    return wk_write(&sheet, spoilt, room);
}

int main(void) {
    static uint8_t order[WK_MOST_BYTES], sheet[WK_MOST_BYTES], spoilt[WK_MOST_BYTES];
    uint64_t figures[2], fill;
    size_t length = build_order(order, sizeof order), planned;
    printf("order: %zu bytes\n", length);
    planned = accepted(wk_plan_layers(order, length, UINT64_MAX, sheet, sizeof sheet, figures), "wk_plan_layers");
    printf("layers: considered %u, utilization %.3f\n", (unsigned)figures[0], wk_float(figures[1]));
    print_sheet(sheet, planned);
    planned = accepted(wk_plan_points(order, length, UINT64_MAX, sheet, sizeof sheet, figures), "wk_plan_points");
    printf("points: considered %u, utilization %.3f\n", (unsigned)figures[0], wk_float(figures[1]));
    print_sheet(sheet, planned);
    accepted(wk_fill(sheet, planned, &fill), "wk_fill");
    printf("fill %u per thousand\n", (unsigned)fill);
    print_findings(sheet, planned);
    printf("with the second box moved, and no list of unplaced kinds:\n");
    print_findings(spoilt, spoil(sheet, planned, spoilt, sizeof spoilt));
    return 0;
}
