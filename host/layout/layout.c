/*
 * Where include/duart.h puts the fields of what crosses into the archive: a line `struct size` for each struct, a line
 * `struct.field offset size` for each of its fields. host/layout/record has the lines as they stand; host/test compares
 * what this prints with them, and host/duart/src/layout.rs compares the declarations of the Rust crate.
 */
#include "duart.h"

#include <stdio.h>

#define STRUCT(name, size) {#name, NULL, 0, sizeof(duart_##name)},
#define FIELD(name, field, offset) \
    {#name, #field, offsetof(duart_##name, field), sizeof(((duart_##name *)NULL)->field)},

typedef struct line {
    const char *name;
    const char *field; /* NULL for the struct itself */
    size_t offset;
    size_t size;
} line;

static const line lines[] = {DUART_LAYOUT(STRUCT, FIELD)};

int main(void)
{
    size_t at;
    for (at = 0; at < sizeof lines / sizeof lines[0]; at++) {
        const line *l = &lines[at];
        if (l->field == NULL) {
            printf("%s %zu\n", l->name, l->size);
        } else {
            printf("%s.%s %zu %zu\n", l->name, l->field, l->offset, l->size);
        }
    }
    return 0;
}
