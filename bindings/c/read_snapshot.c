/* On the service laptop: a snapshot of either version is read from a file row by row, then all at once, and a store is rebuilt from it.
 *
 *     read_snapshot FILE
 *
 * It prints the rows, a line each: id collection slab slot key, the key in quotes, or in hex where it is no text. A snapshot that is refused is
 * told on standard error, with the block and the refusal's number. */
#include <inttypes.h>
#include <stdio.h>
#include <stdlib.h>
#include <string.h>

#include "wentuhoro.h"

/* Room for as many blocks as 255 rows take, and for as many rows as so many blocks may have: more in version 1. */
enum { IDS = 256, SLOTS = 64, BLOCKS = 51, MOST_BYTES = BLOCKS * WENTUHORO_SNAPSHOT_BLOCK, MOST_ROWS = BLOCKS * WENTUHORO_SNAPSHOT_OLD_BLOCK_ROWS };

static void granted(const char *call, uint64_t status) {
    if (status == 0) return;
    fprintf(stderr, "%s refused: %u, index %" PRIu64 "\n", call, wentuhoro_refusal_number(status), wentuhoro_refusal_index(status));
    exit(1);
}

static void expected(bool true_here, const char *what) {
    if (true_here) return;
    fprintf(stderr, "not as expected: %s\n", what);
    exit(1);
}

static size_t read_file(const char *path, uint8_t *bytes, size_t most) {
    FILE *file = fopen(path, "rb");
    if (file == NULL) {
        perror(path);
        exit(1);
    }
    size_t count = fread(bytes, 1, most, file);
    bool is_whole = count < most || fgetc(file) == EOF;
    /* Without this a file that fails at a block's end, as from a bad stick, would be a snapshot of fewer rows. */
    if (ferror(file)) {
        perror(path);
        exit(1);
    }
    expected(is_whole, "the file has at most 51 blocks");
    fclose(file);
    return count;
}

/* Its bytes in quotes where each can be printed, else in hex. */
static void print_key(const uint8_t *key, size_t key_length) {
    bool is_text = true;
    for (size_t i = 0; i < key_length; i++) is_text = is_text && key[i] >= ' ' && key[i] <= '~' && key[i] != '"';
    fputs(is_text ? "\"" : "0x", stdout);
    for (size_t i = 0; i < key_length; i++) printf(is_text ? "%c" : "%02x", key[i]);
    if (is_text) fputs("\"", stdout);
}

/* A location is shown as the file has it, none where it is no slot's; the rebuild refuses it. */
static void print_row(uint64_t id, uint64_t collection, uint64_t location, const uint8_t *key, size_t key_length) {
    uint64_t address[3];
    bool is_slot = wentuhoro_unpack(WENTUHORO_MOST_SLOTS, location, address, 3) == 0 && address[0] == 1;
    printf("%" PRIu64 " %" PRIu64 " ", id, collection);
    if (is_slot) {
        printf("%" PRIu64 " %" PRIu64 " ", address[1], address[2]);
    } else {
        fputs("none none ", stdout);
    }
    print_key(key, key_length);
    puts("");
}

/* Needs no memory beside the file, where the keys are. How many rows there are. */
static uint64_t print_rows(const uint8_t *file, size_t file_len) {
    struct wentuhoro_snapshot_position position = {0, 0};
    struct wentuhoro_snapshot_row row;
    bool found;
    for (uint64_t rows = 0;; rows++) {
        uint64_t status = wentuhoro_snapshot_next(file, file_len, &position, &row, &found);
        if (status != 0) {
            fprintf(stderr, "block %" PRIu64 " of the snapshot is refused with %u\n", wentuhoro_refusal_index(status),
                    wentuhoro_refusal_number(status));
            exit(1);
        }
        if (!found) return rows;
        print_row(row.id, row.collection, row.location, row.key, row.key_length);
    }
}

/* Each block is judged once, and the lists are what a rebuild takes. */
static void rebuild(struct wentuhoro_store *store, const uint8_t *file, size_t file_len, uint64_t rows) {
    static uint64_t ids[MOST_ROWS], locations[MOST_ROWS];
    static struct wentuhoro_carried carried[MOST_ROWS];
    uint64_t count, location;
    struct wentuhoro_kept found;
    expected(wentuhoro_snapshot_most_rows(file, file_len) <= MOST_ROWS, "the lists have room");
    granted("snapshot_read", wentuhoro_snapshot_read_rows(file, file_len, MOST_ROWS, ids, locations, carried, &count));
    expected(count == rows, "row by row or at once, there are as many");
    granted("rebuild", wentuhoro_store_rebuild(store, (size_t)count, ids, locations, carried));
    for (size_t row = 0; row < count; row++) {
        granted("lookup", wentuhoro_store_lookup(store, ids[row], &location, &found));
        struct wentuhoro_carried again = wentuhoro_carried_from_kept(&found);
        expected(location == locations[row] && memcmp(&again, &carried[row], sizeof again) == 0, "the store has the snapshot's rows");
    }
}

int main(int argc, char **argv) {
    static uint8_t id_marks[IDS], slot_marks[WENTUHORO_SLABS * SLOTS], file[MOST_BYTES];
    static uint64_t locations[IDS], owners[WENTUHORO_SLABS * SLOTS], batch[WENTUHORO_BATCH_WORDS], tallies[WENTUHORO_TALLY_WORDS];
    static struct wentuhoro_kept carried[WENTUHORO_CARRIED_ROWS(IDS)];
    struct wentuhoro_store store = {IDS, SLOTS, id_marks, locations, slot_marks, owners, batch, tallies, carried};
    if (argc != 2) {
        fputs("read_snapshot FILE\n", stderr);
        return 2;
    }
    size_t file_len = read_file(argv[1], file, sizeof file);
    uint64_t rows = print_rows(file, file_len);
    rebuild(&store, file, file_len, rows);
    return 0;
}
