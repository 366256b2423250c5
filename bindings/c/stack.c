/* How much stack each call takes, at capacities of 65,536: the call runs on a thread whose stack was painted, and what is no longer paint was
 * used. What the thread takes by itself is taken off. It is linked without lazy binding, which would take some for itself at a first call.
 *
 * It prints a line for each call: its name, the bytes, and the most that it may take by wentuhoro.h. A call that takes more ends it with exit
 * code 1. bindings/c/run runs it. */
#define _POSIX_C_SOURCE 200112L
#include <pthread.h>
#include <stdio.h>
#include <stdlib.h>
#include <string.h>

#include "wentuhoro.h"

enum { IDS = WENTUHORO_MOST_IDS, SLOTS = WENTUHORO_MOST_SLOTS, ROWS = IDS - 1, STACK = 1 << 20, PAINT = 0xA5 };

static struct wentuhoro_store store;
static uint64_t *ids, *locations, *moved_ids, *moved_locations, lengths[WENTUHORO_MOST_UPDATES], placed[WENTUHORO_MOST_UPDATES];
static uint8_t stores[WENTUHORO_MOST_UPDATES], *file, slot[65536], object[65528];
static struct wentuhoro_carried *rows;
static uint64_t file_len, status;

static void *some(size_t count, size_t size) {
    void *memory = calloc(count, size);
    if (memory == NULL) exit(1);
    return memory;
}

static void nothing(void) { status = 0; }
static void fresh(void) { status = wentuhoro_store_fresh(&store); }
static void rebuild(void) { status = wentuhoro_store_rebuild(&store, ROWS, ids, locations, rows); }
static void lookup(void) {
    static struct wentuhoro_kept carried;
    static uint64_t location;
    status = wentuhoro_store_lookup(&store, 1, &location, &carried);
}
static void lookup_page(void) {
    static struct wentuhoro_kept carried[WENTUHORO_MOST_PAGE];
    static uint64_t found[WENTUHORO_MOST_PAGE];
    static uint8_t numbers[WENTUHORO_MOST_PAGE];
    status = wentuhoro_store_lookup_page(&store, WENTUHORO_MOST_PAGE, ids, numbers, found, carried);
}
static void snapshot_length(void) { status = wentuhoro_store_snapshot_length(&store, &file_len); }
static void snapshot_write(void) { status = wentuhoro_store_snapshot_write(&store, file, (size_t)file_len); }
static void snapshot_read(void) {
    static uint64_t count;
    status = wentuhoro_snapshot_read(file, (size_t)file_len, moved_ids, IDS, moved_locations, IDS, wentuhoro_carried_bytes_mut(rows),
                                     wentuhoro_carried_len(IDS), &count, 1);
}
static void snapshot_step(void) {
    static uint64_t values[8];
    status = wentuhoro_snapshot_step(file, (size_t)file_len, 0, 0, values, 8);
}
static void offer(void) {
    status = wentuhoro_store_offer(&store, WENTUHORO_MOST_UPDATES, ids, stores, lengths, rows, placed);
}
static void commit(void) { status = wentuhoro_store_commit(&store); }
static void abandon(void) { status = wentuhoro_store_abandon(&store); }
static void release(void) { status = wentuhoro_store_release(&store); }
static void new_id(void) {
    static uint64_t id;
    status = wentuhoro_store_new_id(&store, &id);
}
static void counters(void) {
    static uint64_t granted[WENTUHORO_ALLOCATORS], freed[WENTUHORO_ALLOCATORS];
    status = wentuhoro_store_counters(&store, granted, freed);
}
static void stats(void) {
    static uint64_t sums[4];
    status = wentuhoro_store_stats(&store, sums);
}
static void defrag(void) {
    static uint64_t count;
    status = wentuhoro_store_defrag(&store, 1.0f, moved_ids, moved_locations, &count);
}
static void reason(void) {
    static struct wentuhoro_reason_told told;
    status = wentuhoro_store_reason(&store, ROWS, 1.0f, &told);
}
static void truncation(void) {
    static uint64_t cut[3];
    status = wentuhoro_store_truncation(&store, 0, 80, cut);
}
static void slab_sizes(void) {
    static uint64_t sizes[WENTUHORO_SLABS];
    status = wentuhoro_slab_sizes(sizes, WENTUHORO_SLABS);
}
static void crc32(void) { status = wentuhoro_crc32(slot, sizeof slot) == 0; }
static void frame_write(void) { status = wentuhoro_frame_write(slot, sizeof slot, object, sizeof object); }
static void frame_read(void) {
    static uint64_t length;
    status = wentuhoro_frame_read(slot, sizeof slot, &length, 1);
}

static void *on_thread(void *call) {
    (*(void (**)(void))call)();
    return NULL;
}

/* The bytes of a painted stack that are no longer paint, from its far end on. */
static size_t used_by(void (*call)(void)) {
    static uint8_t *stack;
    pthread_attr_t attributes;
    pthread_t thread;
    size_t clean = 0;
    if (stack == NULL && posix_memalign((void **)&stack, 4096, STACK) != 0) exit(1);
    memset(stack, PAINT, STACK);
    if (pthread_attr_init(&attributes) != 0 || pthread_attr_setstack(&attributes, stack, STACK) != 0) exit(1);
    if (pthread_create(&thread, &attributes, on_thread, &call) != 0 || pthread_join(thread, NULL) != 0) exit(1);
    while (clean < STACK && stack[clean] == PAINT) clean++;
    return STACK - clean;
}

/* What the call takes beside the thread, and what wentuhoro.h says: in KiB, and below 1 KiB where that is 0. */
static int measure(const char *name, void (*call)(void), size_t thread, size_t said) {
    size_t used = used_by(call);
    size_t most = said == 0 ? 1024 : 1024 * said;
    if (status != 0) {
        fprintf(stderr, "%s refused: %u\n", name, wentuhoro_refusal_number(status));
        exit(1);
    }
    used = used > thread ? used - thread : 0;
    printf("%s %zu of %zu\n", name, used, most);
    return used <= most ? 0 : 1;
}

int main(void) {
    size_t slots = wentuhoro_all_slots(SLOTS);
    struct wentuhoro_store made = {IDS, SLOTS, some(IDS, 1), some(IDS, 8), some(slots, 1), some(slots, 8), some(WENTUHORO_BATCH_WORDS, 8),
                                   some(WENTUHORO_TALLY_WORDS, 8), some(WENTUHORO_CARRIED_ROWS(IDS), WENTUHORO_CARRIED_WIDTH)};
    store = made;
    ids = some(IDS, 8);
    locations = some(IDS, 8);
    moved_ids = some(IDS, 8);
    moved_locations = some(IDS, 8);
    rows = some(IDS, sizeof *rows);
    file = some(6710784, 1);
    for (size_t row = 0; row < ROWS; row++) {
        ids[row] = row + 1;
        locations[row] = ((uint64_t)1 << 56) + row;
    }
    memset(stores, 1, sizeof stores);
    size_t thread = used_by(nothing);
    int over = 0;
    over += measure("fresh", fresh, thread, 0);
    over += measure("rebuild", rebuild, thread, 65);
    over += measure("lookup", lookup, thread, 0);
    over += measure("lookup_page", lookup_page, thread, 0);
    over += measure("snapshot_length", snapshot_length, thread, 0);
    over += measure("snapshot_write", snapshot_write, thread, 0);
    over += measure("snapshot_read", snapshot_read, thread, 0);
    over += measure("snapshot_step", snapshot_step, thread, 0);
    for (size_t i = 0; i < WENTUHORO_MOST_UPDATES; i++) lengths[i] = 300;
    over += measure("offer", offer, thread, 13);
    over += measure("abandon", abandon, thread, 0);
    over += measure("offer", offer, thread, 13);
    over += measure("commit", commit, thread, 0);
    over += measure("release", release, thread, 0);
    memset(stores, 0, sizeof stores);
    over += measure("offer", offer, thread, 13);
    over += measure("commit", commit, thread, 0);
    over += measure("release", release, thread, 0);
    over += measure("new_id", new_id, thread, 0);
    over += measure("counters", counters, thread, 0);
    over += measure("stats", stats, thread, 0);
    over += measure("defrag", defrag, thread, 0);
    over += measure("reason", reason, thread, 0);
    over += measure("truncation", truncation, thread, 0);
    over += measure("slab_sizes", slab_sizes, thread, 0);
    over += measure("crc32", crc32, thread, 4);
    over += measure("frame_write", frame_write, thread, 4);
    over += measure("frame_read", frame_read, thread, 4);
    return over > 0;
}
