/* `records FILE...` holds the reader and the writer of include/waikurpeho.h to the library: each load file is read record by record and written again,
 * which must give the same bytes, and of the file with any byte of its trailer changed, or cut short, the reader says no exactly where the check
 * refuses the shape. Prints how many files it was. */
#include <stdio.h>
#include <string.h>

#include "waikurpeho.h"

static int same_bytes(const uint8_t *file, size_t length) {
    static wk_kind kinds[WK_MOST_KINDS];
    static wk_line lines[WK_MOST_LINES];
    static uint32_t unplaced[WK_MOST_UNPLACED];
    static uint8_t again[WK_MOST_BYTES];
    wk_sheet sheet = {.kinds = kinds, .lines = lines, .unplaced = unplaced};
    wk_parts parts;
    if (!wk_read(file, length, &parts) || parts.kind_count > WK_MOST_KINDS || parts.line_count > WK_MOST_LINES || parts.unplaced_count > WK_MOST_UNPLACED)
        return 0;
    sheet.container = wk_container_of(&parts);
    for (; sheet.kind_count < parts.kind_count; sheet.kind_count++)
        kinds[sheet.kind_count] = wk_kind_at(&parts, sheet.kind_count);
    for (; sheet.line_count < parts.line_count; sheet.line_count++)
        lines[sheet.line_count] = wk_line_at(&parts, sheet.line_count);
    for (; sheet.unplaced_count < parts.unplaced_count; sheet.unplaced_count++)
        unplaced[sheet.unplaced_count] = wk_unplaced_at(&parts, sheet.unplaced_count);
    return !wk_write(&sheet, again, length - 1) && wk_write(&sheet, again, length) == length && !memcmp(file, again, length);
}

static int same_shape(const uint8_t *file, size_t length) {
    uint64_t none;
    wk_parts parts;
    return wk_read(file, length, &parts) == (wk_refused(wk_check(file, length, &none, 0)) != WK_SHAPE);
}

static int same_shapes(uint8_t *file, size_t length) {
    static const uint8_t steps[] = {1, 4, 40, 44, 128, 255};
    for (size_t at = length - sizeof(wk_trailer); at < length; at++)
        for (size_t i = 0; i < sizeof steps; i++) {
            uint8_t was = file[at];
            file[at] = (uint8_t)(was + steps[i]);
            int same = same_shape(file, length);
            file[at] = was;
            if (!same)
                return 0;
        }
    for (size_t less = 0; less <= 100 && less <= length; less++)
        if (!same_shape(file, length - less) || !same_shape(file + less, length - less))
            return 0;
    return 1;
}

int main(int count, char **names) {
    static uint8_t file[WK_MOST_BYTES];
    for (int i = 1; i < count; i++) {
        FILE *f = fopen(names[i], "rb");
        if (!f) {
            perror(names[i]);
            return 2;
        }
        size_t length = fread(file, 1, sizeof file, f);
        fclose(f);
        if (!same_bytes(file, length) || !same_shapes(file, length)) {
            fprintf(stderr, "records: %s: not read or written as the library does\n", names[i]);
            return 1;
        }
    }
    printf("%d files\n", count - 1);
    return 0;
}
