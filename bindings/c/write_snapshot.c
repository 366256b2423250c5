/* On the kiosk: 50 objects of three collections are stored, with keys, every fourth is freed again, and a snapshot of the others is written to
 * a file.
 *
 *     write_snapshot FILE
 *
 * It prints the rows as the store has them, a line each: id collection slab slot key, the key in quotes, or in hex where it is no text. */
#include <inttypes.h>
#include <stdio.h>
#include <stdlib.h>

#include "wentuhoro.h"

enum { IDS = 64, SLOTS = 64, OBJECTS = 50 };

static void granted(const char *call, uint64_t status) {
    if (status == 0) return;
    fprintf(stderr, "%s refused: %u, index %" PRIu64 "\n", call, wentuhoro_refusal_number(status), wentuhoro_refusal_index(status));
    exit(1);
}

static void store_objects(struct wentuhoro_store *store) {
    uint64_t ids[OBJECTS], lengths[OBJECTS], placed[OBJECTS];
    uint8_t stores[OBJECTS];
    struct wentuhoro_carried carried[OBJECTS];
    for (size_t i = 0; i < OBJECTS; i++) {
        granted("new_id", wentuhoro_store_new_id(store, &ids[i]));
        stores[i] = 1;
        lengths[i] = 40 * (i % 4);
        const uint8_t key[WENTUHORO_MOST_KEY] = {'p', 'a', 'g', 'e', '/', (uint8_t)('a' + i % 26), (uint8_t)('0' + i / 26), '/', (uint8_t)(0xF0 + i)};
        /* None, one byte, and so on up to the most; from nine bytes on the last of those above is among them, and is no text. */
        const size_t key_lengths[] = {0, 1, 7, 8, 9, WENTUHORO_MOST_KEY};
        carried[i] = wentuhoro_carried_of(100 + i % 3, key, key_lengths[i % 6]);
    }
    granted("offer", wentuhoro_store_offer(store, OBJECTS, ids, stores, lengths, carried, placed));
    granted("commit", wentuhoro_store_commit(store));

    size_t freed = 0;
    for (uint64_t id = 4; id <= OBJECTS; id += 4) {
        ids[freed] = id;
        stores[freed++] = 0;
    }
    granted("offer", wentuhoro_store_offer(store, freed, ids, stores, lengths, carried, placed));
    granted("commit", wentuhoro_store_commit(store));
    granted("release", wentuhoro_store_release(store));
}

/* Its bytes in quotes where each can be printed, else in hex. */
static void print_key(const uint8_t *key, size_t key_length) {
    bool is_text = true;
    for (size_t i = 0; i < key_length; i++) is_text = is_text && key[i] >= ' ' && key[i] <= '~' && key[i] != '"';
    fputs(is_text ? "\"" : "0x", stdout);
    for (size_t i = 0; i < key_length; i++) printf(is_text ? "%c" : "%02x", key[i]);
    if (is_text) fputs("\"", stdout);
}

static void print_row(uint64_t id, uint64_t collection, uint64_t location, const uint8_t *key, size_t key_length) {
    uint64_t address[3];
    granted("unpack", wentuhoro_unpack(SLOTS, location, address, 3));
    printf("%" PRIu64 " %" PRIu64 " %" PRIu64 " %" PRIu64 " ", id, collection, address[1], address[2]);
    print_key(key, key_length);
    puts("");
}

static void print_rows(const struct wentuhoro_store *store) {
    uint64_t location;
    struct wentuhoro_kept found;
    size_t key_length;
    for (uint64_t id = 1; id < IDS; id++) {
        if (wentuhoro_store_lookup(store, id, &location, &found) != 0) continue;
        const uint8_t *key = wentuhoro_kept_key(&found, &key_length);
        print_row(id, found.collection, location, key, key_length);
    }
}

static void write_snapshot(const struct wentuhoro_store *store, const char *path) {
    uint64_t length;
    granted("snapshot_length", wentuhoro_store_snapshot_length(store, &length));
    uint8_t *bytes = (uint8_t *)malloc((size_t)length);
    FILE *file = fopen(path, "wb");
    if (bytes == NULL || file == NULL) {
        perror(path);
        exit(1);
    }
    granted("snapshot_write", wentuhoro_store_snapshot_write(store, bytes, (size_t)length));
    if (fwrite(bytes, 1, (size_t)length, file) != length || fclose(file) != 0) {
        perror(path);
        exit(1);
    }
    free(bytes);
}

int main(int argc, char **argv) {
    static uint8_t id_marks[IDS], slot_marks[WENTUHORO_SLABS * SLOTS];
    static uint64_t locations[IDS], owners[WENTUHORO_SLABS * SLOTS], batch[WENTUHORO_BATCH_WORDS], tallies[WENTUHORO_TALLY_WORDS];
    static struct wentuhoro_kept rows[WENTUHORO_CARRIED_ROWS(IDS)];
    struct wentuhoro_store store = {IDS, SLOTS, id_marks, locations, slot_marks, owners, batch, tallies, rows};
    if (argc != 2) {
        fputs("write_snapshot FILE\n", stderr);
        return 2;
    }
    granted("fresh", wentuhoro_store_fresh(&store));
    store_objects(&store);
    print_rows(&store);
    write_snapshot(&store, argv[1]);
    return 0;
}
