/* Prints the records of an address list, and the list written plainly; or its symbols; or what one of its bytes is; or the
 * list with its Includes replaced by stored lists; or which known field name a name is.
 * usage: example [--by-table] [LIST]     --by-table: by the second reader, for a board with a small stack
 *        example --edition NUMBER LIST   the records of a list by RFC 733 or RFC 822: NUMBER is 733 or 822
 *        example --symbols LIST          the symbols: kind, start, end, length of the meaning, and "apart" if white space
 *                                        or a comment stands right before
 *        example --touch PLACE LIST      what the byte at PLACE is and the records around it, from the last one to the
 *                                        outermost; for a refused list what could have stood at the refused place
 *        example --expand STORE LIST     the list written plainly with each Include replaced by a list of STORE, a file,
 *                                        and how many stored lists were opened
 *        example --name NAME             the known field name that NAME is, or "other", and how many known names were
 *                                        compared with it letter by letter */
#include <stdio.h>
#include <stdlib.h>
#include <string.h>

#include "rfc733.h"

static unsigned two(const uint8_t *table, size_t at) { return table[at] * 256u + table[at + 1]; }

static int refused(const uint64_t *told) {
    printf("refused %u %u\n", (unsigned)told[0], (unsigned)told[1]);
    return 1;
}

/* Begins at the start, and goes on from the end of each symbol. */
static int symbols(const char *list) {
    static const char *const kinds[] = {"end", "atom", "quoted", "at", "<", ">", ",", ";", ":", "other"};
    size_t length = strlen(list), at = 0;
    uint64_t told[7];
    for (;;) {
        rfc733_next_symbol((const uint8_t *)list, length, at, length, told, 7);
        if (told[0] != 0) return refused(told);
        if (told[2] == 0) return 0;
        printf("%s %u %u %u%s\n", kinds[told[2]], (unsigned)told[3], (unsigned)told[4], (unsigned)told[5],
               told[6] == 1 ? " apart" : "");
        at = told[4];
    }
}

static int touch(const char *list, size_t place) {
    static const char *const bytes[] = {"nothing", "white space", "comment", "word", "at", "mark"};
    static const char *const things[] = {"word", "at", "<", ">", "@", ",", ";", ":", "end"};
    uint64_t path[65], told[5];
    rfc733_touch((const uint8_t *)list, strlen(list), 0, strlen(list), place, path, 65, told, 5);
    if (told[0] != 0) {
        refused(told);
        if (told[4] == 0) return 1;
        printf("could have stood there:");
        for (size_t i = 0; i < 9; i++)
            if (told[4] >> i & 1) printf(" %s", things[i]);
        puts("");
        return 1;
    }
    printf("%s\nrecords around it:", bytes[told[3]]);
    for (size_t i = 0; i < told[2]; i++) printf(" %u", (unsigned)path[i]);
    puts(told[2] == 0 ? " none" : "");
    return 0;
}

/* The bytes of a file, to be freed; NULL if it cannot be read. */
static uint8_t *read_file(const char *path, size_t *length) {
    FILE *file = fopen(path, "rb");
    uint8_t *bytes = NULL;
    size_t room = 0, got = 1;
    *length = 0;
    while (file != NULL && got > 0) {
        if (*length == room) {
            uint8_t *more = realloc(bytes, room += 65536);
            if (more == NULL) break;
            bytes = more;
        }
        got = fread(bytes + *length, 1, room - *length, file);
        *length += got;
    }
    int whole = file != NULL && got == 0 && ferror(file) == 0;
    if (file != NULL) fclose(file);
    if (whole) return bytes;
    free(bytes);
    return NULL;
}

/* Asks for the length first, and then with room for it. */
static int expand(const char *path, const char *list) {
    size_t length = strlen(list), store_length;
    uint8_t *store = read_file(path, &store_length);
    if (store == NULL) {
        fprintf(stderr, "example: cannot read %s\n", path);
        return 2;
    }
    const uint8_t *body = (const uint8_t *)list;
    uint8_t none, *text = &none;
    uint64_t told[4];
    rfc733_expand(body, length, 0, length, store, store_length, text, 0, told, 4);
    if (told[0] == 11 && (text = malloc(told[2])) != NULL)
        rfc733_expand(body, length, 0, length, store, store_length, text, told[2], told, 4);
    free(store);
    int status = told[0] == 0 ? 0 : refused(told);
    if (status == 0) {
        printf("plain ");
        fwrite(text, 1, told[2], stdout);
        puts("");
    }
    printf("openings %u\n", (unsigned)told[3]);
    if (text != &none) free(text);
    return status;
}

static uint8_t table[12 * 2048];

static void print_records(const char *list, size_t count) {
    for (size_t i = 0; i < count; i++) {
        const uint8_t *record = table + 12 * i;
        printf("address %u %u %u %u %u %u %u  %.*s\n", record[0], record[1], two(record, 2), two(record, 4),
               two(record, 6), two(record, 8), two(record, 10), (int)(two(record, 10) - two(record, 8)),
               list + two(record, 8));
    }
}

static int by_edition(const char *list, size_t edition) {
    size_t length = strlen(list);
    uint64_t told[3];
    rfc733_addresses((const uint8_t *)list, length, 0, length, edition, table, sizeof table, told, 3);
    if (told[0] != 0) return refused(told);
    print_records(list, told[2]);
    return 0;
}

static int records_and_plain(const char *list, int by_table) {
    const uint8_t *body = (const uint8_t *)list;
    size_t length = strlen(list);
    static uint8_t text[65536];
    uint64_t told[3];
    if (by_table)
        rfc733_addresses_by_table(body, length, 0, length, table, sizeof table, told, 3);
    else
        rfc733_addresses(body, length, 0, length, 733, table, sizeof table, told, 3);
    if (told[0] != 0) return refused(told);
    print_records(list, told[2]);
    rfc733_plain(body, length, 0, length, text, sizeof text, told, 3);
    if (told[0] == 0) printf("plain %.*s\n", (int)told[2], text);
    return 0;
}

static int known_name(const char *name) {
    static const char *const names[] = {"other", "Date", "From", "Reply-To", "To", "cc", "Bcc"};
    uint64_t compared;
    uint32_t number = rfc733_known_name((const uint8_t *)name, strlen(name), &compared);
    printf("%s compared %u\n", names[number], (unsigned)compared);
    return 0;
}

static int is_number(const char *text) { return text[0] != 0 && text[strspn(text, "0123456789")] == 0; }

static int misused(const char *words) {
    fprintf(stderr, "usage: example %s\n", words);
    return 2;
}

int main(int argc, char **argv) {
    const char *mode = argc > 1 ? argv[1] : "";
    if (strcmp(mode, "--expand") == 0) return argc == 4 ? expand(argv[2], argv[3]) : misused("--expand STORE LIST");
    if (strcmp(mode, "--symbols") == 0) return argc == 3 ? symbols(argv[2]) : misused("--symbols LIST");
    if (strcmp(mode, "--name") == 0) return argc == 3 ? known_name(argv[2]) : misused("--name NAME");
    int touched = strcmp(mode, "--touch") == 0;
    if (touched || strcmp(mode, "--edition") == 0) {
        if (argc != 4 || !is_number(argv[2])) return misused(touched ? "--touch PLACE LIST" : "--edition NUMBER LIST");
        size_t number = strtoull(argv[2], NULL, 10);
        return touched ? touch(argv[3], number) : by_edition(argv[3], number);
    }
    int by_table = strcmp(mode, "--by-table") == 0;
    return records_and_plain(argc > 1 + by_table ? argv[1 + by_table] : "Cooks: Childs at WGBH;, \"Al\"", by_table);
}
