/* A plain program to compare with: reads a CSV file on standard input into rows of fields, each a string of its own,
   and prints how many rows there are. Quoted fields as RFC 4180 has them; empty lines are no rows. Driven by
   tools/bench. */
#include <stdio.h>
#include <stdlib.h>
#include <string.h>

struct row {
    char **fields;
    size_t count;
};

static char *input, *end;

static char *field(char *at, char **next) {
    char *text = malloc(end - at + 1 < 256 ? end - at + 1 : 256);
    size_t room = end - at + 1 < 256 ? end - at + 1 : 256, n = 0;
    int quoted = at < end && *at == '"';
    if (!text) exit(3);
    for (at += quoted; at < end; at++) {
        if (quoted && *at == '"') {
            if (at + 1 < end && at[1] == '"')
                at++;
            else {
                at++;
                break;
            }
        } else if (!quoted && (*at == ',' || *at == '\n'))
            break;
        if (n + 1 == room && !(text = realloc(text, room *= 2))) exit(3);
        text[n++] = *at;
    }
    text[n] = 0;
    *next = at;
    return realloc(text, n + 1);
}

int main(void) {
    size_t room = 1 << 16, size = 0, got, count = 0, rows_room = 64;
    if (!(input = malloc(room))) return 3;
    while ((got = fread(input + size, 1, room - size, stdin)) > 0)
        if ((size += got) == room && !(input = realloc(input, room *= 2))) return 3;
    end = input + size;
    struct row *rows = malloc(rows_room * sizeof *rows);
    for (char *at = input; rows && at < end; at++) {
        if (*at == '\n') continue;
        struct row row = {malloc(16 * sizeof(char *)), 0};
        if (!row.fields) return 3;
        for (;;) {
            char *text = field(at, &at);
            if (row.count < 16) row.fields[row.count++] = text;
            if (at < end && *at == ',')
                at++;
            else
                break;
        }
        if (count == rows_room && !(rows = realloc(rows, (rows_room *= 2) * sizeof *rows))) return 3;
        rows[count++] = row;
    }
    printf("%zu\n", count);
    return rows ? 0 : 3;
}
