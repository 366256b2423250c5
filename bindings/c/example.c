/* A night at the kiosk: store eight objects of one collection, each with a key, look one up and then a page of them, free five, release, list what
 * to move, and ask why.
 *
 * It prints what the lookups found, document 01's whole run, and why two objects are moved or stay. bindings/c/run builds it and compares. */
#include <inttypes.h>
#include <stdio.h>
#include <stdlib.h>
#include <string.h>

#include "wentuhoro.h"

enum { IDS = 9, SLOTS = 8, OBJECTS = 8, ASKED = 4 };

static void granted(const char *call, uint64_t status) {
    if (status == 0) return;
    fprintf(stderr, "%s refused: %u, index %" PRIu64 "\n", call, wentuhoro_refusal_number(status), wentuhoro_refusal_index(status));
    exit(1);
}

static void expected(bool true_here, const char *what) {
    if (true_here) return;
    fprintf(stderr, "not as expected: %s\n", what);
    exit(1);
}

/* The header's slab sizes are the library's, entry by entry. */
static void compare_sizes(void) {
    uint64_t sizes[WENTUHORO_SLABS] = {0};
    expected(wentuhoro_slab_sizes(sizes, WENTUHORO_SLABS - 1) == WENTUHORO_WRONG_SHAPE && sizes[0] == 0, "a list of 77 is refused and left as it was");
    granted("slab_sizes", wentuhoro_slab_sizes(sizes, WENTUHORO_SLABS));
    for (size_t slab = 0; slab < WENTUHORO_SLABS; slab++) expected(sizes[slab] == wentuhoro_slab_size(slab), "the header has the library's slab sizes");
    expected(wentuhoro_slab_size(WENTUHORO_SLABS) == 0, "there is no slab 78");
}

/* One slot of slab 0, written and read back; then with a bit of its gap changed, and then signed again. */
static void write_and_read(void) {
    const uint8_t object[3] = {1, 2, 3};
    uint8_t slot[64];
    uint64_t length = 0;
    granted("frame_write", wentuhoro_frame_write(slot, sizeof slot, object, sizeof object));
    granted("frame_read", wentuhoro_frame_read(slot, sizeof slot, &length, 1));
    expected(length == 3 && slot[2] == 3, "the object is the slot's first three bytes");
    slot[7] ^= 1;
    expected(wentuhoro_frame_read(slot, sizeof slot, &length, 1) == WENTUHORO_CHECK_DIFFERS, "a changed bit is seen");
    uint32_t check = wentuhoro_crc32(slot, sizeof slot - 4) ^ 0xAF;
    for (size_t i = 0; i < 4; i++) slot[sizeof slot - 4 + i] = (uint8_t)(check >> (8 * i));
    expected(wentuhoro_frame_read(slot, sizeof slot, &length, 1) == WENTUHORO_GAP_NOT_ZERO, "rubbish behind the object is seen, though it is signed");
}

/* A key of 65 bytes is refused, and nothing is stored. */
static void too_long(struct wentuhoro_store *store, uint64_t id) {
    const uint8_t stores = 1;
    const uint64_t length = 3;
    uint8_t key[WENTUHORO_MOST_KEY + 1] = {0};
    uint64_t placed;
    struct wentuhoro_carried carried = wentuhoro_carried_of(7, key, sizeof key);
    expected(wentuhoro_store_offer(store, 1, &id, &stores, &length, &carried, &placed) == WENTUHORO_KEY_TOO_LONG, "65 bytes are no key");
}

/* What a page shows, in one call: in the order asked, and as often. There is no object 9, which spoils no other row. */
static void look_up_page(const struct wentuhoro_store *store, const uint64_t *placed) {
    const uint64_t asked[ASKED] = {8, 9, 2, 8};
    uint8_t numbers[ASKED];
    uint64_t found[ASKED];
    struct wentuhoro_kept rows[ASKED];
    granted("lookup_page", wentuhoro_store_lookup_page(store, ASKED, asked, numbers, found, rows));
    for (size_t i = 0; i < ASKED; i++) {
        if (numbers[i] != 0) {
            printf("object %" PRIu64 " is refused with %u\n", asked[i], (unsigned)numbers[i]);
            continue;
        }
        size_t key_length;
        const uint8_t *key = wentuhoro_kept_key(&rows[i], &key_length);
        printf("object %" PRIu64 " has the key %.*s\n", asked[i], (int)key_length, (const char *)key);
        expected(found[i] == placed[asked[i] - 1], "a page's object lies where the offer placed it");
    }
}

/* Why an object is on the list of this ratio, or is not. */
static void tell_why(const struct wentuhoro_store *store, uint64_t id, float ratio) {
    static const char *const kinds[] = {"is not stored", "is in a slab that is full enough", "is before the line", "is listed"};
    struct wentuhoro_reason_told told;
    granted("reason", wentuhoro_store_reason(store, id, ratio, &told));
    printf("object %" PRIu64 " %s: slab %zu, slot %zu, %zu smaller, %zu live, tip %zu, line %zu\n", id, kinds[told.kind], told.slab, told.slot,
           told.smaller, told.live, told.tip, told.line);
}

/* An object that is gone has a reason, too. A refusal leaves what was told before. */
static void reasons(const struct wentuhoro_store *store) {
    struct wentuhoro_reason_told told;
    tell_why(store, 4, 0.75f);
    tell_why(store, 8, 0.75f);
    granted("reason", wentuhoro_store_reason(store, 1, 0.75f, &told));
    expected(told.kind == WENTUHORO_REASON_NOT_STORED && told.slot == 0 && told.tip == 0, "object 1 is not stored");
    granted("reason", wentuhoro_store_reason(store, 8, 0.375f, &told));
    expected(told.kind == WENTUHORO_REASON_FULL_ENOUGH && told.tip == 8 && told.line == 0, "three of eight are enough for a ratio of 0.375");
    expected(wentuhoro_store_reason(store, 1, 0.0f, &told) == WENTUHORO_RATIO_OUT_OF_RANGE && told.tip == 8, "0 is no ratio");
}

int main(void) {
    static uint8_t id_marks[IDS], slot_marks[WENTUHORO_SLABS * SLOTS];
    static uint64_t locations[IDS], owners[WENTUHORO_SLABS * SLOTS], batch[WENTUHORO_BATCH_WORDS], tallies[WENTUHORO_TALLY_WORDS];
    static struct wentuhoro_kept rows[WENTUHORO_CARRIED_ROWS(IDS)];
    struct wentuhoro_store store = {IDS, SLOTS, id_marks, locations, slot_marks, owners, batch, tallies, rows};
    compare_sizes();
    write_and_read();

    granted("fresh", wentuhoro_store_fresh(&store));
    uint64_t ids[OBJECTS], lengths[OBJECTS], placed[OBJECTS];
    uint8_t stores[OBJECTS];
    struct wentuhoro_carried carried[OBJECTS];
    for (size_t i = 0; i < OBJECTS; i++) {
        granted("new_id", wentuhoro_store_new_id(&store, &ids[i]));
        stores[i] = 1;
        lengths[i] = 3;
        const uint8_t key[] = {'f', 'a', 'c', 'e', '/', (uint8_t)('1' + i)};
        carried[i] = wentuhoro_carried_of(7, key, sizeof key);
    }
    too_long(&store, ids[0]);
    granted("offer", wentuhoro_store_offer(&store, OBJECTS, ids, stores, lengths, carried, placed));
    /* Here a program writes its slots. Where a write fails it calls wentuhoro_store_abandon, and the batch has left no trace. */
    granted("commit", wentuhoro_store_commit(&store));

    uint64_t location;
    struct wentuhoro_kept found;
    size_t key_length;
    granted("lookup", wentuhoro_store_lookup(&store, 6, &location, &found));
    expected(location == placed[5], "object 6 lies where the offer placed it");
    const uint8_t *key = wentuhoro_kept_key(&found, &key_length);
    printf("object 6 is of collection %" PRIu64 " and has the key %.*s\n", found.collection, (int)key_length, (const char *)key);
    expected(memcmp(&found, &rows[6], sizeof found) == 0, "what is found is the table's own row");
    look_up_page(&store, placed);

    const uint64_t freed[] = {1, 2, 3, 5, 7};
    const uint8_t none[5] = {0, 0, 0, 0, 0};
    const uint64_t zeros[5] = {0, 0, 0, 0, 0};
    granted("offer", wentuhoro_store_offer(&store, 5, freed, none, zeros, carried, placed));
    granted("commit", wentuhoro_store_commit(&store));
    granted("release", wentuhoro_store_release(&store));
    expected(wentuhoro_refusal_number(wentuhoro_store_lookup(&store, 1, &location, &found)) == WENTUHORO_NO_SUCH_ID, "object 1 is gone");

    uint64_t moved[IDS - 1], from[IDS - 1], count, address[3];
    granted("defrag", wentuhoro_store_defrag(&store, 0.75f, moved, from, &count));
    puts("slab slot id");
    for (uint64_t row = 0; row < count; row++) {
        granted("unpack", wentuhoro_unpack(SLOTS, from[row], address, 3));
        printf("%" PRIu64 " %" PRIu64 " %" PRIu64 "\n", address[1], address[2], moved[row]);
    }
    reasons(&store);

    /* The tables contradict each other: slot 7 of slab 0 is another's. */
    owners[7] = 6;
    struct wentuhoro_reason_told told;
    expected(wentuhoro_store_reason(&store, 8, 0.75f, &told) == WENTUHORO_TABLES_DISAGREE, "object 8 has no slot of its own");
    return 0;
}
