/* Searches the leaves of an export folder, and prints the docids of the rows that satisfy a query.
 *
 *     cc -I include -o folder examples/folder.c target/staticlib/libfts4box.a
 *     ./folder FOLDER QUERY
 *
 * Status 0: it printed `docs N` and the docids, one to a line. 1: it printed `refused NUMBER SECOND`, the box's answer. 2: the folder
 * is not as its manifest.txt says; standard error has what is wrong. 3: standard output could not be written.
 *
 * What the manifest says is believed: of a hash, that of the manifest's own lines too, only the form is looked at. The Python tools
 * check the hashes; a folder that comes from elsewhere is best read by them.
 */
#include "fts4box.h"

#include <inttypes.h>
#include <stdarg.h>
#include <stdio.h>
#include <stdlib.h>
#include <string.h>

enum { LISTED, REFUSED, BAD_FOLDER, NOT_WRITTEN };

enum { MOST_LINE = 4096, MOST_FILE_NAME = 255, MOST_PATH = 4096, HASH_DIGITS = 64 };

struct file {
    char name[MOST_FILE_NAME + 1];
    uint64_t size;
};

struct manifest {
    FILE *input;
    unsigned line_number;
    char line[MOST_LINE + 1];
    size_t columns, leaves;
    struct file files[FTS4_MAX_LEAVES];
};

/* What is lent to the box: byte strings one after the other, and where each ends; of each leaf its level and index, which say how old
 * it is. */
struct lent {
    uint8_t names[FTS4_MAX_COLUMNS * FTS4_MAX_NAME];
    uint32_t name_ends[FTS4_MAX_COLUMNS];
    size_t names_len;
    uint8_t leaves[FTS4_MAX_BYTES];
    uint32_t leaf_ends[FTS4_MAX_LEAVES];
    uint32_t levels[FTS4_MAX_LEAVES], indexes[FTS4_MAX_LEAVES];
    size_t leaves_len;
};

/* Ends the program: `where` is the file that is wrong, `line` the line in it or 0. */
static void stop(const char *where, unsigned line, const char *what, ...)
{
    va_list rest;

    fprintf(stderr, "%s: ", where);
    if (line > 0)
        fprintf(stderr, "line %u: ", line);
    va_start(rest, what);
    vfprintf(stderr, what, rest);
    va_end(rest);
    fputc('\n', stderr);
    exit(BAD_FOLDER);
}

static FILE *opened(const char *folder, const char *name)
{
    char path[MOST_PATH];
    int length = snprintf(path, sizeof path, "%s/%s", folder, name);
    FILE *file;

    if (length < 0 || (size_t)length >= sizeof path)
        stop(name, 0, "the path is too long");
    file = fopen(path, "rb");
    if (file == NULL)
        stop(name, 0, "can't be opened in the folder %s", folder);
    return file;
}

static void wrong(const struct manifest *manifest, const char *what)
{
    stop("manifest.txt", manifest->line_number, "%s", what);
}

/* Reads the next line; its LF is not kept. */
static void next_line(struct manifest *manifest)
{
    size_t length = 0;
    int c;

    manifest->line_number++;
    while ((c = fgetc(manifest->input)) != '\n') {
        if (c == EOF)
            wrong(manifest, "the file ends, or can't be read, before the end of this line");
        if (c == '\0' || length == MOST_LINE)
            wrong(manifest, "the line has a byte 0 or is too long");
        manifest->line[length++] = (char)c;
    }
    manifest->line[length] = '\0';
}

/* Reads a line that is the key, a space and a value; the value. */
static const char *value_of(struct manifest *manifest, const char *key)
{
    size_t length = strlen(key);

    next_line(manifest);
    if (strncmp(manifest->line, key, length) != 0 || manifest->line[length] != ' ' || manifest->line[length + 1] == '\0')
        stop("manifest.txt", manifest->line_number, "is not `%s` with a value: export again", key);
    return manifest->line + length + 1;
}

/* Reads a line whose value is a number in decimal digits, with no 0 in front. */
static uint64_t number_of(struct manifest *manifest, const char *key, uint64_t least, uint64_t most)
{
    const char *text = value_of(manifest, key);
    uint64_t number = 0;

    if (text[0] == '0' && text[1] != '\0')
        wrong(manifest, "a number begins with 0");
    for (; *text != '\0'; text++) {
        if (*text < '0' || *text > '9')
            wrong(manifest, "the value is no number");
        /* the first test keeps the product below the type's bound */
        if (number > most / 10 || (number = number * 10 + (uint64_t)(*text - '0')) > most)
            stop("manifest.txt", manifest->line_number, "the number is over %" PRIu64, most);
    }
    if (number < least)
        stop("manifest.txt", manifest->line_number, "the number is below %" PRIu64, least);
    return number;
}

/* What the box does not need, but a manifest must have. */
static void read_head(struct manifest *manifest)
{
    static const char *const done[] = { "no", "optimize", "rebuild", "merge", "optimize+merge", "rebuild+merge" };
    const char *prepared;
    size_t i = 0;

    if (strcmp(value_of(manifest, "fts4box export"), "1") != 0)
        wrong(manifest, "the export is of another version: export again");
    value_of(manifest, "database");
    value_of(manifest, "table");
    value_of(manifest, "sqlite");
    value_of(manifest, "time");
    prepared = value_of(manifest, "prepared");
    while (i < sizeof done / sizeof *done && strcmp(prepared, done[i]) != 0)
        i++;
    if (i == sizeof done / sizeof *done)
        wrong(manifest, "is not `no`, `optimize`, `rebuild`, nor one of these and `merge`");
}

/* The box itself checks what the names are made of, and that no two are equal. */
static void read_columns(struct manifest *manifest, struct lent *lent)
{
    manifest->columns = number_of(manifest, "columns", 1, FTS4_MAX_COLUMNS);
    for (size_t i = 0; i < manifest->columns; i++) {
        const char *name = value_of(manifest, "column");
        size_t length = strlen(name);

        if (length > FTS4_MAX_NAME)
            wrong(manifest, "the column's name is too long");
        memcpy(lent->names + lent->names_len, name, length);
        lent->names_len += length;
        lent->name_ends[i] = (uint32_t)lent->names_len;
    }
}

static void read_file_name(struct manifest *manifest, size_t at)
{
    const char *name = value_of(manifest, "file");

    if (name[0] == '.' || strchr(name, '/') != NULL)
        wrong(manifest, "the file is not one in the folder");
    if (strlen(name) > MOST_FILE_NAME)
        wrong(manifest, "the file's name is too long");
    for (size_t i = 0; i < at; i++)
        if (strcmp(manifest->files[i].name, name) == 0)
            wrong(manifest, "the file is named twice");
    strcpy(manifest->files[at].name, name);
}

/* Leaves come in any order, but of two with the same pair none is the newer one. */
static void read_age(struct manifest *manifest, struct lent *lent, size_t at)
{
    lent->levels[at] = (uint32_t)number_of(manifest, "level", 0, UINT32_MAX);
    lent->indexes[at] = (uint32_t)number_of(manifest, "index", 0, UINT32_MAX);
    for (size_t i = 0; i < at; i++)
        if (lent->levels[i] == lent->levels[at] && lent->indexes[i] == lent->indexes[at])
            wrong(manifest, "another leaf has this level and index: export again");
}

static void read_hash(struct manifest *manifest, const char *key)
{
    const char *hash = value_of(manifest, key);

    if (strlen(hash) != HASH_DIGITS || strspn(hash, "0123456789abcdef") != HASH_DIGITS)
        wrong(manifest, "the hash is not 64 digits 0 to 9 and a to f");
}

static void read_files(struct manifest *manifest, struct lent *lent)
{
    uint64_t left = FTS4_MAX_BYTES;

    manifest->leaves = number_of(manifest, "leaves", 0, FTS4_MAX_LEAVES);
    for (size_t i = 0; i < manifest->leaves; i++) {
        struct file *file = &manifest->files[i];

        read_file_name(manifest, i);
        read_age(manifest, lent, i);
        number_of(manifest, "start", 0, INT64_MAX);
        file->size = number_of(manifest, "size", 0, FTS4_MAX_BYTES);
        if (file->size > left)
            wrong(manifest, "the leaves have too many bytes together");
        left -= file->size;
        read_hash(manifest, "sha256");
    }
}

static void read_manifest(const char *folder, struct manifest *manifest, struct lent *lent)
{
    manifest->input = opened(folder, "manifest.txt");
    read_head(manifest);
    read_columns(manifest, lent);
    read_files(manifest, lent);
    read_hash(manifest, "end");
    if (fgetc(manifest->input) != EOF)
        wrong(manifest, "something comes after this line");
    if (ferror(manifest->input))
        stop("manifest.txt", 0, "can't be read");
    fclose(manifest->input);
}

/* The sizes of all files together fit, since the manifest was checked. */
static void read_leaf(const char *folder, const struct file *file, struct lent *lent)
{
    FILE *input = opened(folder, file->name);
    size_t count = fread(lent->leaves + lent->leaves_len, 1, file->size, input);

    /* only a try to read one byte more shows a file that is too long */
    if (count != file->size || fgetc(input) != EOF || ferror(input))
        stop(file->name, 0, "does not have the %" PRIu64 " bytes that manifest.txt says", file->size);
    fclose(input);
    lent->leaves_len += count;
}

/* A result that was not written whole must not look like one. */
static int written(int status)
{
    if (fflush(stdout) == 0 && !ferror(stdout))
        return status;
    fputs("standard output can't be written\n", stderr);
    return NOT_WRITTEN;
}

static int search(const struct manifest *manifest, const struct lent *lent, const char *query)
{
    static int64_t room[FTS4_SEARCH_ROOM];
    uint64_t second;
    size_t leaves = manifest->leaves;
    uint32_t answer = fts4_search(lent->names, lent->names_len, lent->name_ends, manifest->columns, lent->leaves, lent->leaves_len, lent->leaf_ends,
                                  leaves, lent->levels, leaves, lent->indexes, leaves, (const uint8_t *)query, strlen(query), room,
                                  FTS4_SEARCH_ROOM, &second);

    if (answer != FTS4_ACCEPTED) {
        printf("refused %" PRIu32 " %" PRIu64 "\n", answer, second);
        return written(REFUSED);
    }
    printf("docs %" PRIu64 "\n", second);
    for (uint64_t i = 0; i < second; i++)
        printf("%" PRId64 "\n", room[i]);
    return written(LISTED);
}

int main(int count, char **words)
{
    static struct manifest manifest;
    static struct lent lent;

    if (count != 3) {
        fputs("usage: folder FOLDER QUERY\n", stderr);
        return BAD_FOLDER;
    }
    read_manifest(words[1], &manifest, &lent);
    for (size_t i = 0; i < manifest.leaves; i++) {
        read_leaf(words[1], &manifest.files[i], &lent);
        lent.leaf_ends[i] = (uint32_t)lent.leaves_len;
    }
    return search(&manifest, &lent, words[2]);
}
