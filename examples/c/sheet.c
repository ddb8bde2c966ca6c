/* Counts a sheet of type texts, and shows the rows that need a look: those that are refused or took a default. */
#include "typetext.h"

#include <stdio.h>

static const char SHEET[] = "!cuda_tile.tile<4x?xf32>\n"
                            "tile<4xsixxf32>\n"
                            "tile<f32\n"
                            "\n"
                            "gather_scatter_view<tile=(4), tensor_view<?x16xf32, strides=[16, 1]>, sparse_dim=one>\n"
                            "token"; /* a last row needs no line feed */

static void show_totals(const uint8_t *sheet, size_t len)
{
    typetext_sheet_totals t = typetext_totals(sheet, len);
    if (t.refusal == TYPETEXT_SHEET_TOO_LONG) {
        printf("the sheet has over %d bytes\n", TYPETEXT_LONGEST_SHEET);
        return;
    }
    printf("%zu rows, %zu accepted\n", t.rows, t.accepted);
    printf("refused: %zu too long, %zu not ASCII, %zu no type, %zu with a list too long\n", t.refused_1, t.refused_2,
           t.refused_3, t.refused_4);
    printf("defaults taken: a %zu, b %zu, c %zu, d %zu\n", t.a, t.b, t.c, t.d);
}

static void show_row(size_t number, const uint8_t *text, size_t len)
{
    typetext_reading r = typetext_parse(text, len);
    if (r.refusal != TYPETEXT_ACCEPTED)
        printf("row %zu, refused %d: %.*s\n", number, r.refusal, (int)len, (const char *)text);
    else if (r.note.a + r.note.b + r.note.c + r.note.d > 0)
        printf("row %zu, defaults taken: %.*s\n", number, (int)len, (const char *)text);
}

int main(void)
{
    const uint8_t *sheet = (const uint8_t *)SHEET;
    size_t len = sizeof SHEET - 1, number = 0;
    typetext_row row;
    show_totals(sheet, len);
    for (row = typetext_next_row(sheet, len, 0); row.found; row = typetext_next_row(sheet, len, row.next))
        show_row(++number, sheet + row.first, row.end - row.first);
    return 0;
}
