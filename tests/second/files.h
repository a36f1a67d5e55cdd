/*
 * Files: all that can be read of one, and those of one folder by their names.
 * Included by program.h, replan.c and planner.c.
 */
#include <stdio.h>
#include <stdlib.h>
#include <string.h>

static const char *folder;

static void die(const char *words)
{
    perror(words);
    exit(2);
}

/* Where a file of the folder is; good until another is asked for. */
static const char *path(const char *name)
{
    static char text[4096];

    snprintf(text, sizeof text, "%s/%s", folder, name);
    return text;
}

static FILE *open_file(const char *name, const char *how)
{
    FILE *f = fopen(path(name), how);

    if (f == NULL)
        die(path(name));
    return f;
}

/* Everything that can be read of it, with a 0 behind it. */
static unsigned char *whole(FILE *f, size_t *many)
{
    size_t room = 1 << 12, more;
    unsigned char *bytes = malloc(room);

    *many = 0;
    while ((more = fread(bytes + *many, 1, room - *many, f)) > 0) {
        *many += more;
        if (*many == room) {
            unsigned char *larger = malloc(2 * room);
            memcpy(larger, bytes, room);
            free(bytes);
            bytes = larger;
            room *= 2;
        }
    }
    bytes[*many] = 0;
    return bytes;
}

static unsigned char *read_file(const char *name, size_t *many)
{
    FILE *f = open_file(name, "rb");
    unsigned char *bytes = whole(f, many);

    fclose(f);
    return bytes;
}
