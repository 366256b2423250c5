/* Every exported call with arbitrary tables, lengths and numbers.
 *
 *     fuzz SECONDS SEED
 *
 * Each lent slice stands flush against a page that may not be touched, at its end or at its start; the bytes on its other side are
 * canaries. After each call: no canary has changed; a slice lent for reading is as it was; on a refusal every slice is; and the refusal is
 * one that document 01 or 02 lists for that call. Cases go to standard output, as fast as somebody reads them there, for judging by the model
 * (fuzz_judge.py).
 *
 * FUZZ_WRONG=refusal, outside, input or answer changes a byte after each call, as if the library had written it; FUZZ_WRONG=stores frees each
 * update whose byte is not 1, as if the library took no other byte for a Store. */
#define _DEFAULT_SOURCE
#include <inttypes.h>
#include <poll.h>
#include <stdio.h>
#include <stdlib.h>
#include <string.h>
#include <sys/mman.h>
#include <time.h>
#include <unistd.h>

#include "wentuhoro.h"

/* ---- chance */

static uint64_t seed, seed_of_case;

static uint64_t word(void) {
    uint64_t z = (seed += UINT64_C(0x9E3779B97F4A7C15));
    z = (z ^ (z >> 30)) * UINT64_C(0xBF58476D1CE4E5B9);
    z = (z ^ (z >> 27)) * UINT64_C(0x94D049BB133111EB);
    return z ^ (z >> 31);
}

static uint64_t below(uint64_t most) { return word() % most; }

static bool in_hundred(unsigned percent) { return below(100) < percent; }

#define ONE_OF(...) (((const uint64_t[]){__VA_ARGS__})[below(sizeof((const uint64_t[]){__VA_ARGS__}) / sizeof(uint64_t))])

/* ---- lent slices */

enum { PAGE = 4096, MOST_SLICES = 12, CANARY = 0xC5, LOOKED_AT = 512 };

struct slice {
    uint8_t *region; /* between two pages that may not be touched */
    uint8_t *at;
    uint8_t *before;
    size_t width; /* bytes of an entry */
    size_t length;
    bool written; /* lent for writing */
};

static const size_t region_bytes = (WENTUHORO_SLABS * (size_t)WENTUHORO_MOST_SLOTS + 2) * 8 / PAGE * PAGE + PAGE;
static struct slice slices[MOST_SLICES];
static size_t lent;

static void make_regions(void) {
    for (size_t i = 0; i < MOST_SLICES; i++) {
        uint8_t *all = mmap(NULL, region_bytes + 2 * PAGE, PROT_NONE, MAP_PRIVATE | MAP_ANONYMOUS | MAP_NORESERVE, -1, 0);
        if (all == MAP_FAILED || mprotect(all + PAGE, region_bytes, PROT_READ | PROT_WRITE) != 0) {
            perror("fuzz");
            exit(2);
        }
        slices[i].region = all + PAGE;
        slices[i].before = malloc(region_bytes);
    }
}

static size_t bytes_of(const struct slice *s) { return s->width * s->length; }

/* The next slice, all zero. */
static struct slice *lend(size_t width, size_t length, bool written) {
    struct slice *s = &slices[lent++];
    s->width = width;
    s->length = length;
    s->written = written;
    bool at_end = in_hundred(70);
    s->at = at_end ? s->region + region_bytes - bytes_of(s) : s->region;
    memset(s->at, 0, bytes_of(s));
    memset(at_end ? s->at - LOOKED_AT : s->at + bytes_of(s), CANARY, LOOKED_AT);
    return s;
}

static uint64_t *words(const struct slice *s) { return (uint64_t *)(void *)s->at; }

static const uint8_t *canaries(const struct slice *s) { return s->at == s->region ? s->at + bytes_of(s) : s->at - LOOKED_AT; }

/* ---- calls and their refusals */

enum call {
    NEW_ID, LOOKUP, LOOKUP_PAGE, OFFER, COMMIT, ABANDON, RELEASE, FRESH, REBUILD, STATS, COUNTERS, DEFRAG, REASON, TRUNCATION, CUT_DONE,
    SNAPSHOT_LENGTH, SNAPSHOT_WRITE,
    CLASS, CRC32, CRC32_UPDATE, FRAME_WRITE, FRAME_READ, COOKIE_WRITE, COOKIE_READ, COOKIE_VERIFY, PACK, UNPACK, CUTOFF, SNAPSHOT_STEP,
    SNAPSHOT_READ, SLAB_SIZES, CALLS
};

static const struct {
    const char *name;
    const char *refusals; /* as characters of these numbers */
} listed[CALLS] = {
    {"new_id", "\1\13\12"},
    {"lookup", "\1\10\15"},
    {"lookup_page", "\1\17"},
    {"offer", "\1\13\17\10\11\25\2\15\12"},
    {"commit", "\1\14\15"},
    {"abandon", "\1\14\15"},
    {"release", "\1\13"},
    {"fresh", "\1"},
    {"rebuild", "\1\10\11\3\20\25"},
    {"stats", "\1"},
    {"counters", "\1"},
    {"defrag", "\1\13\16"},
    {"reason", "\1\13\16\15"},
    {"truncation", "\1\13\3\16"},
    {"cut_done", "\1\13\3\16\21"},
    {"snapshot_length", "\1\13"},
    {"snapshot_write", "\1\13\15"},
    {"class", "\1\2"},
    {"crc32", ""},
    {"crc32_update", ""},
    {"frame_write", "\1\5"},
    {"frame_read", "\1\4\5\22"},
    {"cookie_write", "\1"},
    {"cookie_read", "\1\4\6"},
    {"cookie_verify", "\1\4\6\7"},
    {"pack", "\1\3"},
    {"unpack", "\1\3"},
    {"fragmentation_cutoff", "\1\16"},
    {"snapshot_step", "\1\4\6\23"},
    {"snapshot_read", "\1\4\6\23"},
    {"slab_sizes", "\1"},
};

enum { LAST_REFUSAL = WENTUHORO_KEY_TOO_LONG };

static uint64_t answered[CALLS][LAST_REFUSAL + 1]; /* by call and refusal, 0 for a grant */
static uint64_t cases, judged;

/* ---- arbitrary contents */

static size_t ids, slots; /* as claimed to the call */
static size_t true_ids, true_slots; /* that the slices are made for */
static size_t wrong_slice; /* that gets a wrong length; MOST_SLICES for none */

/* Files of more than 16 slots are cut with a margin; a snapshot of more than five rows has two blocks; in a slab of some slots a line is anywhere. */
static void choose_capacities(enum call call, bool large) {
    bool cuts = call == TRUNCATION || call == CUT_DONE, snapshots = call == SNAPSHOT_LENGTH || call == SNAPSHOT_WRITE;
    true_ids = large ? WENTUHORO_MOST_IDS : snapshots && in_hundred(50) ? 15 + below(60) : 2 + below(5);
    bool some_slots = cuts || snapshots || call == REASON;
    true_slots = large ? WENTUHORO_MOST_SLOTS : some_slots && in_hundred(50) ? 16 + below(85) : 1 + below(4);
    ids = true_ids;
    slots = true_slots;
    if (in_hundred(2)) ids = ONE_OF(0, 1, 65537, UINT64_MAX, true_ids + 1);
    if (in_hundred(2)) slots = ONE_OF(0, 65537, UINT64_MAX, true_slots + 1, UINT64_C(1) << 58);
    wrong_slice = in_hundred(6) ? below(MOST_SLICES) : MOST_SLICES;
}

static struct slice *lend_near(size_t width, size_t length, bool written) {
    if (lent == wrong_slice) length = ONE_OF(length + 1, length + 1, length == 0 ? 1 : length - 1, 0);
    return lend(width, length, written);
}

static uint64_t any_id(void) { return in_hundred(15) ? ONE_OF(0, true_ids, true_ids + 1, UINT64_MAX) : 1 + below(true_ids - 1); }

static uint64_t good_location(void) { return (ONE_OF(0, 0, 1, 77) + 1) * (UINT64_C(1) << 56) + below(true_slots); }

static uint64_t any_location(void) {
    uint64_t slab = ONE_OF(0, 0, 1, 77, 78, 254), slot = ONE_OF(0, 1, true_slots - 1, true_slots, UINT64_C(1) << 55);
    if (in_hundred(60)) return good_location();
    return ONE_OF(0, 0, (slab + 1) * (UINT64_C(1) << 56) + slot, UINT64_MAX, (UINT64_C(1) << 56) - 1, 1);
}

static void fill_bytes(struct slice *s) {
    for (size_t i = 0; i < s->length; i++) s->at[i] = (uint8_t)word();
}

static void fill_words(struct slice *s) {
    for (size_t i = 0; i < s->length; i++) words(s)[i] = word();
}

static void fill_marks(struct slice *s) {
    unsigned free_of = (unsigned)ONE_OF(10, 40, 80, 100);
    for (size_t i = 0; i < s->length; i++) s->at[i] = (uint8_t)(in_hundred(free_of) ? 0 : ONE_OF(1, 1, 2, 2, 3, 255));
}

static void fill_locations(struct slice *s) {
    for (size_t i = 0; i < s->length; i++) words(s)[i] = any_location();
}

static void fill_owners(struct slice *s) {
    for (size_t i = 0; i < s->length; i++) words(s)[i] = in_hundred(60) ? any_id() : ONE_OF(0, 0, UINT64_MAX);
}

static void fill_batch(struct slice *s) {
    for (size_t i = 1; i < s->length; i++) words(s)[i] = i <= 256 ? any_id() : in_hundred(30) ? 0 : any_location();
    if (s->length > 0 && in_hundred(45)) words(s)[0] = ONE_OF(1, 2, 3, 4, 5, 257, 258, UINT64_MAX);
}

static void fill_tallies(struct slice *s) {
    for (size_t i = 0; i < s->length; i++) {
        bool hint = i >= 237 && i < 316, counter = i < 158;
        words(s)[i] = counter ? ONE_OF(0, 1, 7, UINT64_MAX, UINT64_MAX - 1)
                      : hint ? ONE_OF(0, 0, 0, 1, below(true_slots + 2), true_slots, UINT64_MAX)
                             : i >= 395 ? ONE_OF(0, 0, below(true_slots), true_slots - 1, true_slots, UINT64_MAX) : ONE_OF(0, 0, 1, UINT64_MAX);
    }
}

/* Every byte of the ids' rows and of the first kept ones; the others' are all the same. No call but a snapshot's reader looks at them. */
static void fill_carried(struct slice *s) {
    size_t rows = (true_ids + 4) * WENTUHORO_CARRIED_WIDTH;
    memset(s->at, (int)below(256), s->length);
    for (size_t i = 0; i < s->length && i < rows; i++) s->at[i] = (uint8_t)word();
}

/* Rows as an offer or a rebuild brings them: a key of up to 64 bytes, seldom said to be longer, and any bytes behind it. */
static void fill_brought(struct slice *s) {
    for (size_t i = 0; i < s->length; i++) s->at[i] = (uint8_t)word();
    for (size_t at = 8; at + 8 <= s->length; at += WENTUHORO_CARRIED_WIDTH) {
        uint64_t length = in_hundred(94) ? ONE_OF(0, 0, 1, 2, 63, 64, below(65)) : ONE_OF(65, 66, 72, 128, 255, 256, 320, UINT64_C(1) << 32, UINT64_MAX);
        memcpy(s->at + at, &length, 8);
    }
}

/* Ids with a slot each, or without a location, but for one now and then: so that whole snapshots come too. */
static void agree_all(struct slice *id_marks, struct slice *locations, struct slice *slot_marks, struct slice *owners) {
    const uint64_t slabs[3] = {0, 1, 77};
    for (size_t id = 1; id < true_ids; id++) {
        size_t slab = (size_t)slabs[id % 3], slot = id / 3, at = slab * true_slots + slot;
        bool stored = slot < true_slots && in_hundred(90);
        if (id < id_marks->length && stored) id_marks->at[id] = 1;
        if (id < locations->length) words(locations)[id] = stored ? (slab + 1) * (UINT64_C(1) << 56) + slot : 0;
        if (slot_marks == NULL || !stored) continue;
        if (at < slot_marks->length) slot_marks->at[at] = 1;
        if (at < owners->length) words(owners)[at] = id;
    }
    if (in_hundred(25) && locations->length > 0) words(locations)[below(locations->length)] = any_location();
}

/* The bytes of the snapshot that tables of the right lengths give, by the ids that count as held. */
static size_t snapshot_bytes(const struct slice *id_marks, const struct slice *locations, const struct slice *tallies) {
    size_t rows = 0;
    if (id_marks->length != true_ids || locations->length != true_ids || tallies->length != WENTUHORO_TALLY_WORDS)
        return WENTUHORO_SNAPSHOT_BLOCK;
    for (size_t id = 1; id < true_ids; id++) {
        uint8_t mark = id_marks->at[id];
        bool held = mark == 0 ? id < words(tallies)[237] : mark == 2 ? words(tallies)[316] == 0 : true;
        rows += held && words(locations)[id] != 0;
    }
    return WENTUHORO_SNAPSHOT_BLOCK * (rows == 0 ? 1 : (rows + WENTUHORO_SNAPSHOT_BLOCK_ROWS - 1) / WENTUHORO_SNAPSHOT_BLOCK_ROWS);
}

/* Some ids whose tables agree, so that grants come too. */
static void agree(struct slice *id_marks, struct slice *locations, struct slice *slot_marks, struct slice *owners) {
    for (size_t id = 1; id < true_ids && in_hundred(85); id++) {
        uint64_t location = good_location();
        size_t at = (size_t)((location >> 56) - 1) * true_slots + (size_t)(location & 0xFFFFFF);
        if (id_marks != NULL && id < id_marks->length) id_marks->at[id] = 1;
        if (locations != NULL && id < locations->length) words(locations)[id] = location;
        if (at < slot_marks->length) slot_marks->at[at] = 1;
        if (owners != NULL && at < owners->length) words(owners)[at] = id;
    }
}

/* A slab whose last slots are free again, so that cuts come too. The high mark is anywhere, at the end, or, from 17 slots in
 * use on, where 15 percent more, rounded up, leaves nothing or one slot to cut. */
static void once_larger(struct slice *slot_marks, struct slice *tallies, uint64_t slab) {
    if (slab >= WENTUHORO_SLABS || slot_marks->length != WENTUHORO_SLABS * true_slots || tallies->length != WENTUHORO_TALLY_WORDS) return;
    uint64_t tip = 1 + below(true_slots), near = (tip * 23 + 19) / 20 - 1 + below(2);
    uint8_t *marks = slot_marks->at + slab * true_slots;
    memset(marks + tip, 0, true_slots - tip);
    marks[tip - 1] = 1;
    words(tallies)[395 + slab] = ONE_OF(below(true_slots), true_slots - 1, near < true_slots ? near : true_slots - 1);
}

/* 0 frees, any other byte stores. */
static void fill_stores(struct slice *s) {
    for (size_t i = 0; i < s->length; i++) s->at[i] = (uint8_t)(in_hundred(25) ? 0 : 1 + below(255));
}

/* ---- one case */

#define P(s) words(s), (s)->length
#define B(s) (s)->at, (s)->length

static uint64_t numbers[4]; /* of the case, for the judge */
static size_t number_count;

static uint64_t number(uint64_t n) {
    numbers[number_count++] = n;
    return n;
}

/* Whether this is to go wrong. */
static bool is_wrong(const char *what) {
    const char *wrong = getenv("FUZZ_WRONG");
    return wrong != NULL && strcmp(wrong, what) == 0;
}

static void keep_before(void) {
    for (size_t i = 0; i < lent; i++) memcpy(slices[i].before, slices[i].at, bytes_of(&slices[i]));
}

/* An offer of what is lent: the seven tables, then the ids, stores, lengths and rows of the updates, and their locations. */
static uint64_t offer_lent(void) {
    struct slice *s = slices, *stores = &slices[8];
    keep_before();
    if (is_wrong("stores"))
        for (size_t i = 0; i < stores->length; i++) stores->at[i] = stores->at[i] == 1;
    uint64_t status = wentuhoro_offer(ids, slots, B(&s[0]), P(&s[1]), B(&s[2]), P(&s[3]), P(&s[4]), P(&s[5]), B(&s[6]), P(&s[7]), B(stores),
                                      P(&s[9]), B(&s[10]), P(&s[11]));
    if (is_wrong("stores")) memcpy(stores->at, stores->before, bytes_of(stores));
    return status;
}

static float any_ratio(void) {
    uint32_t bits = (uint32_t)ONE_OF(0x3F400000, 0x3F000000, 0x3EAAAAAB, 0x3F800000, 0x3F666667, 1, 0x3F7FFFFF, 0, 0x80000000, 0x7F800000,
                                     0x7FC00000, 0x3F800001, 1 + below(0x3F800000), 1 + below(0x3F800000), word() & 0xFFFFFFFF);
    float ratio;
    number(bits);
    memcpy(&ratio, &bits, sizeof ratio);
    return ratio;
}

static uint64_t store_call(enum call call) {
    bool has_ids = call != ABANDON && call != DEFRAG && call != TRUNCATION && call != CUT_DONE && call != STATS && call != COUNTERS;
    bool whole = call == OFFER || call == COMMIT || call == FRESH || call == REBUILD || call == SNAPSHOT_WRITE;
    bool has_slots = call != NEW_ID && call != STATS && call != COUNTERS && call != SNAPSHOT_LENGTH;
    bool writes_all = call == COMMIT || call == FRESH || call == REBUILD;
    bool looks_up = call == LOOKUP || call == LOOKUP_PAGE;
    bool located = whole || looks_up || call == DEFRAG || call == REASON;
    bool has_batch = !looks_up && call != STATS && call != COUNTERS;
    struct slice *im = NULL, *lo = NULL, *sm = NULL, *ow = NULL, *ba = NULL, *ta, *ca = NULL;
    if (has_ids) fill_marks(im = lend_near(1, true_ids, writes_all || call == NEW_ID || call == RELEASE));
    if (located || call == SNAPSHOT_LENGTH) fill_locations(lo = lend_near(8, true_ids, writes_all));
    bool writes_slots = writes_all || call == OFFER || call == ABANDON || call == RELEASE;
    if (has_slots) fill_marks(sm = lend_near(1, WENTUHORO_SLABS * true_slots, writes_slots));
    if (located) fill_owners(ow = lend_near(8, WENTUHORO_SLABS * true_slots, writes_all));
    if (has_batch) fill_batch(ba = lend_near(8, WENTUHORO_BATCH_WORDS, writes_all || call == OFFER || call == ABANDON));
    bool snapshots = call == SNAPSHOT_LENGTH || call == SNAPSHOT_WRITE;
    bool counts_only = looks_up || call == STATS || call == COUNTERS || call == DEFRAG || call == REASON || snapshots;
    fill_tallies(ta = lend_near(8, WENTUHORO_TALLY_WORDS, !counts_only));
    size_t carried_len = wentuhoro_carried_len(WENTUHORO_CARRIED_ROWS(true_ids));
    if (whole || looks_up) fill_carried(ca = lend_near(1, carried_len, writes_all || call == OFFER));
    if (snapshots && in_hundred(60)) agree_all(im, lo, sm, ow);
    else if (has_slots) agree(im, lo, sm, ow);
    number(ids);
    number(slots);
    struct slice *a, *b, *c, *d;
    size_t count;
    uint64_t n, t;
    float ratio;
    switch (call) {
    case NEW_ID:
        a = lend_near(8, 1, true);
        keep_before();
        return wentuhoro_new_id(ids, slots, B(im), P(ba), P(ta), P(a));
    case LOOKUP:
        n = number(any_id());
        a = lend_near(8, 1, true);
        b = lend_near(1, WENTUHORO_CARRIED_WIDTH, true);
        keep_before();
        return wentuhoro_lookup(ids, slots, B(im), P(lo), B(sm), P(ow), P(ta), B(ca), n, P(a), B(b));
    case LOOKUP_PAGE:
        count = in_hundred(94) ? below(7) : 255 + below(3);
        a = lend_near(8, count, false);
        fill_bytes(b = lend_near(1, count, true));
        fill_words(c = lend_near(8, count, true));
        fill_bytes(d = lend_near(1, wentuhoro_carried_len(count), true));
        for (size_t i = 0; i < a->length; i++) words(a)[i] = any_id();
        keep_before();
        return wentuhoro_lookup_page(ids, slots, B(im), P(lo), B(sm), P(ow), P(ta), B(ca), P(a), B(b), P(c), B(d));
    case OFFER:
        count = in_hundred(97) ? below(4) : 255 + below(3);
        a = lend_near(8, count, false);
        b = lend_near(1, count, false);
        c = lend_near(8, count, false);
        d = lend_near(1, wentuhoro_carried_len(count), false);
        lend_near(8, count, true);
        for (size_t i = 0; i < a->length; i++) words(a)[i] = any_id();
        fill_stores(b);
        for (size_t i = 0; i < c->length; i++) words(c)[i] = ONE_OF(3, 3, 59, 60, UINT64_C(17179869172), UINT64_C(17179869173), UINT64_MAX);
        fill_brought(d);
        return offer_lent();
    case COMMIT:
        keep_before();
        return wentuhoro_commit(ids, slots, B(im), P(lo), B(sm), P(ow), P(ba), P(ta), B(ca));
    case ABANDON:
        keep_before();
        return wentuhoro_abandon(ids, slots, B(sm), P(ba), P(ta));
    case RELEASE:
        keep_before();
        return wentuhoro_release(ids, slots, B(im), B(sm), P(ba), P(ta));
    case FRESH:
        keep_before();
        return wentuhoro_fresh(ids, slots, B(im), P(lo), B(sm), P(ow), P(ba), P(ta), B(ca));
    case REBUILD:
        count = below(5);
        a = lend_near(8, count, false);
        b = lend_near(8, count, false);
        c = lend_near(1, wentuhoro_carried_len(count), false);
        for (size_t i = 0; i < a->length; i++) words(a)[i] = any_id();
        for (size_t i = 0; i < b->length; i++) words(b)[i] = in_hundred(80) ? good_location() : any_location();
        fill_brought(c);
        keep_before();
        return wentuhoro_rebuild(ids, slots, B(im), P(lo), B(sm), P(ow), P(ba), P(ta), B(ca), P(a), P(b), B(c));
    case STATS:
        a = lend_near(8, 4, true);
        keep_before();
        return wentuhoro_stats(ids, slots, P(ta), P(a));
    case COUNTERS:
        a = lend_near(8, WENTUHORO_ALLOCATORS, true);
        b = lend_near(8, WENTUHORO_ALLOCATORS, true);
        keep_before();
        return wentuhoro_counters(ids, slots, P(ta), P(a), P(b));
    case DEFRAG:
        ratio = any_ratio();
        a = lend_near(8, true_ids - 1, true);
        b = lend_near(8, true_ids - 1, true);
        c = lend_near(8, 1, true);
        keep_before();
        return wentuhoro_defrag(ids, slots, P(lo), B(sm), P(ow), P(ba), P(ta), ratio, P(a), P(b), P(c));
    case REASON:
        n = number(any_id());
        ratio = any_ratio();
        fill_words(a = lend_near(8, in_hundred(92) ? 7 : below(12), true));
        keep_before();
        return wentuhoro_reason(ids, slots, B(im), P(lo), B(sm), P(ow), P(ba), P(ta), n, ratio, P(a));
    case TRUNCATION:
    case CUT_DONE:
        n = number(ONE_OF(0, 0, 1, 77, below(78), 78, UINT64_MAX));
        t = number(ONE_OF(1, 80, 86, 86, 0, 87, 1 + below(86), UINT64_MAX));
        if (in_hundred(80)) once_larger(sm, ta, n);
        if (call == CUT_DONE) {
            keep_before();
            return wentuhoro_cut_done(ids, slots, B(sm), P(ba), P(ta), n, t);
        }
        a = lend_near(8, 3, true);
        keep_before();
        return wentuhoro_truncation(ids, slots, B(sm), P(ba), P(ta), n, t, P(a));
    case SNAPSHOT_LENGTH:
        a = lend_near(8, 1, true);
        keep_before();
        return wentuhoro_snapshot_length(ids, slots, B(im), P(lo), P(ba), P(ta), P(a));
    case SNAPSHOT_WRITE:
        count = snapshot_bytes(im, lo, ta);
        a = lend_near(1, ONE_OF(count, count, count, count, count, count, count + WENTUHORO_SNAPSHOT_BLOCK, count - WENTUHORO_SNAPSHOT_BLOCK), true);
        keep_before();
        return wentuhoro_snapshot_write(ids, slots, B(im), P(lo), B(sm), P(ow), P(ba), P(ta), B(ca), B(a));
    default:
        abort();
    }
}

/* A check under the bytes before it, as frames and cookies have. */
static void sign(struct slice *s, size_t body) {
    if (body + 4 > s->length) return;
    uint32_t check = wentuhoro_crc32(s->at, body) ^ 0xAF;
    for (size_t i = 0; i < 4; i++) s->at[body + i] = (uint8_t)(check >> (8 * i));
}

/* Zeros from the stored length up to the length field, but for one byte now and then. */
static void clear_gap(struct slice *s, size_t field, size_t width) {
    size_t stored = 0;
    if (field + width > s->length) return;
    for (size_t i = width; i > 0; i--) stored = stored * 256 + s->at[field + i - 1];
    if (stored >= field) return;
    memset(s->at + stored, 0, field - stored);
    if (in_hundred(30)) s->at[ONE_OF(stored, field - 1, stored + below(field - stored))] = (uint8_t)(1 + below(255));
}

static struct slice *any_cookie(void) {
    struct slice *s = lend_near(1, ONE_OF(64, 64, 64, 64, 65, 100, 63, 0), false);
    fill_bytes(s);
    if (s->length >= 2 && in_hundred(80)) {
        s->at[0] = (uint8_t)ONE_OF(1, 1, 1, 1, 0, 2);
        s->at[1] = 0;
    }
    if (in_hundred(80)) sign(s, 60);
    return s;
}

/* ---- snapshot files, whole and damaged */

enum { MOST_BLOCKS = 4, BLOCK = WENTUHORO_SNAPSHOT_BLOCK, CHECKED = BLOCK - 4, KEY_LENGTH = 24, KEY = 25 };

/* By version: how many rows a block has, and a row's bytes. */
static const size_t rows_of[3] = {0, 20, 5}, row_of[3] = {0, 24, 96};

static void put_number(uint8_t *at, size_t width, uint64_t value) {
    for (size_t i = 0; i < width; i++) at[i] = (uint8_t)(value >> (8 * i));
}

static void sign_block(uint8_t *block) { put_number(block + CHECKED, 4, wentuhoro_crc32(block, CHECKED) ^ 0xAF); }

/* A file of some rows of a version, with ids that ascend; how many bytes. */
static size_t whole_file(uint8_t *file, size_t version) {
    size_t most = rows_of[version];
    size_t rows = (size_t)ONE_OF(0, 1, 2, most - 1, most, most + 1, 2 * most - 1, 2 * most, 2 * most + 1, below(3 * most + 1), below(3 * most + 1));
    size_t blocks = rows == 0 ? 1 : (rows + most - 1) / most;
    uint64_t id = ONE_OF(0, 1, word() >> 1);
    memset(file, 0, blocks * BLOCK);
    for (size_t row = 0; row < rows; row++, id += 1 + (in_hundred(50) ? 0 : word() >> ONE_OF(8, 32, 60))) {
        uint8_t *at = file + row / most * BLOCK + 8 + row % most * row_of[version];
        put_number(at, 8, id);
        put_number(at + 8, 8, word());
        put_number(at + 16, 8, in_hundred(90) ? good_location() : any_location());
        if (version == 1) continue;
        at[KEY_LENGTH] = (uint8_t)ONE_OF(0, 0, 1, 2, 63, 64, below(65));
        for (size_t i = 0; i < at[KEY_LENGTH]; i++) at[KEY + i] = (uint8_t)(in_hundred(20) ? 0 : word());
    }
    for (size_t block = 0; block < blocks; block++) {
        uint8_t *at = file + block * BLOCK;
        put_number(at, 4, block);
        put_number(at + 4, 2, block + 1 < blocks ? most : rows - block * most);
        put_number(at + 6, 2, version);
        sign_block(at);
    }
    return blocks * BLOCK;
}

static uint8_t kept_file[MOST_BLOCKS * BLOCK];

/* One thing wrong, or what may be; how many bytes there are then. */
static size_t damage(uint8_t *file, size_t bytes, size_t version) {
    size_t blocks = bytes / BLOCK, most = rows_of[version], width = row_of[version];
    uint8_t *block = file + below(blocks) * BLOCK, *other = file + below(blocks) * BLOCK, *row = block + 8 + below(most) * width, kept[BLOCK];
    switch (below(version == 1 ? 11 : 14)) {
    case 0:
        block[below(BLOCK)] ^= (uint8_t)(1 << below(8));
        return bytes;
    case 1:
        put_number(block, 4, ONE_OF(0, 1, 2, 3, 256, UINT32_MAX));
        return bytes;
    case 2:
        put_number(block + 4, 2, ONE_OF(0, 1, most - 1, most, most + 1, 256, 65535));
        return bytes;
    case 3:
        put_number(block + 6, 2, ONE_OF(0, 1, 2, 3, 256, 257, 258, 65535));
        return bytes;
    case 4: /* a row's id becomes another row's, or one beside it */
        memcpy(row, other + 8 + below(most) * width, 8);
        block[8 + below(most) * width] += (uint8_t)ONE_OF(0, 0, 1, 255);
        return bytes;
    case 5:
        block[ONE_OF(488, 507, 488 + below(20), 8 + below(480))] = (uint8_t)(1 + below(255));
        return bytes;
    case 6: /* swapped, or twice */
        memcpy(kept, block, BLOCK);
        memcpy(block, other, BLOCK);
        if (in_hundred(50)) memcpy(other, kept, BLOCK);
        return bytes;
    case 7: /* the last block gone, or one too many */
        if (in_hundred(50) || blocks == MOST_BLOCKS) return bytes - BLOCK;
        memcpy(file + bytes, block, BLOCK);
        if (in_hundred(50)) put_number(file + bytes, 4, blocks);
        return bytes + BLOCK;
    case 8: /* a block begins with the id that the one before it ends with, or one beside that */
        if (block == file) return bytes;
        memcpy(block + 8, block - BLOCK + 8 + (most - 1) * width, 8);
        block[8] += (uint8_t)ONE_OF(0, 0, 1, 255);
        return bytes;
    case 9: /* a row taken out of the middle, and its place left empty */
        memset(row, 0, width);
        return bytes;
    case 10: /* a block of the other version, at its place and in its order as far as that goes */
        whole_file(kept_file, 3 - version);
        memcpy(kept, kept_file, BLOCK);
        put_number(kept, 4, (uint64_t)(block - file) / BLOCK);
        memcpy(block, kept, BLOCK);
        return bytes;
    case 11: /* a key of another length */
        row[KEY_LENGTH] = (uint8_t)ONE_OF(0, 1, 63, 64, 65, 66, 71, 72, 128, 255, row[KEY_LENGTH] + 1, row[KEY_LENGTH] - 1);
        return bytes;
    case 12: /* behind the key */
        row[KEY + row[KEY_LENGTH] % 64] = (uint8_t)(1 + below(255));
        return bytes;
    default: /* in the zeros at a row's end */
        row[89 + below(7)] = (uint8_t)(1 + below(255));
        return bytes;
    }
}

/* Arbitrary bytes; or a file, as it is or damaged, its checks mended or not. */
static struct slice *any_file(void) {
    static uint8_t file[MOST_BLOCKS * BLOCK];
    size_t version = in_hundred(35) ? 1 : 2, bytes = whole_file(file, version);
    unsigned damages = in_hundred(35) ? 0 : 1 + (unsigned)below(2);
    while (damages-- > 0 && bytes > 0) bytes = damage(file, bytes, version);
    for (size_t block = 0; block < bytes / BLOCK; block++)
        if (in_hundred(92)) sign_block(file + block * BLOCK);
    if (in_hundred(4)) {
        bytes = ONE_OF(0, 1, BLOCK - 1, BLOCK, BLOCK + 1, 2 * BLOCK, below(sizeof file));
        for (size_t i = 0; i < bytes; i++) file[i] = (uint8_t)word();
    }
    struct slice *s = lend_near(1, bytes, false);
    memcpy(s->at, file, s->length < bytes ? s->length : bytes);
    return s;
}

static uint64_t leaf_call(enum call call) {
    struct slice *a, *b, *c, *d, *e;
    size_t size = (size_t)wentuhoro_slab_size((size_t)below(26)), n;
    uint64_t fanout;
    switch (call) {
    case CLASS:
        a = lend_near(8, 1, true);
        keep_before();
        return wentuhoro_class(number(word() >> below(64)), P(a));
    case SLAB_SIZES:
        a = lend_near(8, WENTUHORO_SLABS, true);
        keep_before();
        return wentuhoro_slab_sizes(P(a));
    case CRC32:
    case CRC32_UPDATE:
        fill_bytes(a = lend(1, below(in_hundred(90) ? 200 : 5000), false));
        keep_before();
        return call == CRC32 ? wentuhoro_crc32(B(a)) : wentuhoro_crc32_update((uint32_t)number(word() & 0xFFFFFFFF), B(a));
    case FRAME_WRITE:
        fill_bytes(a = lend_near(1, size, true));
        fill_bytes(b = lend(1, ONE_OF(0, 3, size < 16 ? 0 : size - 6, size - 5, size - 4, below(size)), false));
        keep_before();
        return wentuhoro_frame_write(B(a), B(b));
    case FRAME_READ:
        fill_bytes(a = lend_near(1, size, false));
        n = size <= 255 ? 1 : 2;
        for (size_t i = 0; i < n && size - 4 - n + i < a->length; i++)
            if (in_hundred(80)) a->at[size - 4 - n + i] = (uint8_t)ONE_OF(0, 1, 59, 60, (size - 4 - n) >> (8 * i));
        if (in_hundred(80)) clear_gap(a, size - 4 - n, n);
        if (in_hundred(80)) sign(a, size - 4);
        b = lend_near(8, 1, true);
        keep_before();
        return wentuhoro_frame_read(B(a), P(b));
    case COOKIE_WRITE:
        fill_bytes(a = lend_near(1, 64, true));
        fanout = number(word() >> below(64));
        keep_before();
        return wentuhoro_cookie_write(fanout, B(a));
    case COOKIE_READ:
        a = any_cookie();
        b = lend_near(8, 1, true);
        keep_before();
        return wentuhoro_cookie_read(B(a), P(b));
    case COOKIE_VERIFY:
        a = any_cookie();
        fanout = word();
        if (a->length >= 10 && in_hundred(70)) memcpy(&fanout, a->at + 2, 8);
        keep_before();
        return wentuhoro_cookie_verify(B(a), number(fanout));
    case PACK:
        number(slots);
        number(ONE_OF(0, 77, 78, below(78), UINT64_MAX));
        number(ONE_OF(0, true_slots - 1, true_slots, below(65536), UINT64_MAX));
        a = lend_near(8, 1, true);
        keep_before();
        return wentuhoro_pack(slots, numbers[1], numbers[2], P(a));
    case UNPACK:
        number(slots);
        number(any_location());
        a = lend_near(8, 3, true);
        keep_before();
        return wentuhoro_unpack(slots, numbers[1], P(a));
    case CUTOFF:
        number(ONE_OF(0, 1, below(200), below(65538), UINT64_MAX));
        number(ONE_OF(0, 1, below(200), numbers[0] + below(200), 65536, 65537, UINT64_MAX));
        float ratio = any_ratio();
        a = lend_near(8, 2, true);
        keep_before();
        return wentuhoro_fragmentation_cutoff(numbers[0], numbers[1], ratio, P(a));
    case SNAPSHOT_STEP:
        a = any_file();
        n = a->length / BLOCK;
        number(n > 0 && in_hundred(90) ? below(n) : ONE_OF(n, n + 1, UINT64_C(1) << 55, UINT64_C(1) << 56, UINT64_MAX));
        n = numbers[0] < n ? a->at[numbers[0] * BLOCK + 4] : 0;
        number(in_hundred(90) ? ONE_OF(below(n + 1), n, n == 0 ? 0 : n - 1) : ONE_OF(n + 1, 5, 20, UINT64_C(1) << 60, UINT64_MAX));
        b = lend_near(8, 8, true);
        keep_before();
        return wentuhoro_snapshot_step(B(a), numbers[0], numbers[1], P(b));
    case SNAPSHOT_READ:
        a = any_file();
        n = wentuhoro_snapshot_most_rows(a->at, a->length);
        n = (size_t)ONE_OF(n, n, n, n + 1, n + below(30), n == 0 ? 0 : n - 1);
        fill_words(b = lend_near(8, n, true));
        fill_words(c = lend_near(8, n, true));
        fill_bytes(d = lend_near(1, wentuhoro_carried_len(n), true));
        e = lend_near(8, 1, true);
        keep_before();
        return wentuhoro_snapshot_read(B(a), P(b), P(c), B(d), P(e));
    default:
        abort();
    }
}

/* ---- what must hold after it */

static void fail(enum call call, uint64_t status, const char *what, size_t slice) {
    fprintf(stderr, "%s (status %" PRIu64 "): %s, slice %zu of %zu, ids %zu, slots %zu, seed of the case %" PRIu64 "\n", listed[call].name,
            status, what, slice, lent, ids, slots, seed_of_case);
    exit(1);
}

static void look(enum call call, uint64_t status) {
    static uint8_t live[LOOKED_AT];
    memset(live, CANARY, LOOKED_AT);
    bool refused = status != 0 && call != CRC32 && call != CRC32_UPDATE;
    for (size_t i = 0; i < lent; i++) {
        struct slice *s = &slices[i];
        if (memcmp(canaries(s), live, LOOKED_AT) != 0) fail(call, status, "a canary was written", i);
        if ((refused || !s->written) && memcmp(s->at, s->before, bytes_of(s)) != 0)
            fail(call, status, refused ? "written on a refusal" : "written, though lent for reading", i);
    }
    unsigned refusal = refused ? wentuhoro_refusal_number(status) : 0;
    if (refusal > LAST_REFUSAL || (refused && (refusal == 0 || strchr(listed[call].refusals, (int)refusal) == NULL)))
        fail(call, status, "no refusal that is listed for this call", 0);
    answered[call][refusal]++;
}

static void wrong_on_purpose(uint64_t status) {
    if (lent == 0) return;
    struct slice *last = &slices[lent - 1];
    if (is_wrong("outside")) ((uint8_t *)(uintptr_t)canaries(last))[LOOKED_AT / 2] ^= 1;
    if (bytes_of(last) == 0) return;
    if (is_wrong("refusal") && status != 0 && last->written) last->at[0] ^= 1;
    if (is_wrong("input") && !last->written) last->at[0] ^= 1;
    if (is_wrong("answer") && status == 0 && last->written) last->at[0] ^= 1;
}

static void put(const void *bytes, size_t count) {
    if (count > 0 && fwrite(bytes, 1, count, stdout) != count) {
        perror("fuzz");
        exit(2);
    }
}

static void tell(enum call call, uint64_t status) {
    uint64_t head[3] = {call, number_count, lent};
    put(head, sizeof head);
    put(numbers, 8 * number_count);
    for (size_t i = 0; i < lent; i++) {
        uint64_t shape[2] = {slices[i].width, slices[i].length};
        put(shape, sizeof shape);
        put(slices[i].before, bytes_of(&slices[i]));
        put(slices[i].at, bytes_of(&slices[i]));
    }
    put(&status, 8);
    fflush(stdout);
    judged++;
}

static void one_case(bool large) {
    seed_of_case = seed;
    enum call call = (enum call)(in_hundred(80) ? below(CLASS) : CLASS + below(CALLS - CLASS));
    lent = number_count = 0;
    choose_capacities(call, large && call < CLASS);
    uint64_t status = call < CLASS ? store_call(call) : leaf_call(call);
    wrong_on_purpose(status);
    look(call, status);
    struct pollfd out = {1, POLLOUT, 0};
    if (!large && poll(&out, 1, 0) == 1 && (out.revents & POLLOUT) != 0) tell(call, status);
}

/* One update of a held id, with each byte there is in its `stores`. All are told: the judge asks for each. */
static void each_byte(void) {
    ids = true_ids = 2;
    slots = true_slots = 1;
    seed_of_case = seed;
    for (unsigned byte = 0; byte < 256; byte++, cases++) {
        lent = number_count = 0;
        number(ids);
        number(slots);
        lend(1, ids, false)->at[1] = 1;
        lend(8, ids, false);
        lend(1, WENTUHORO_SLABS, true);
        lend(8, WENTUHORO_SLABS, false);
        lend(8, WENTUHORO_BATCH_WORDS, true);
        lend(8, WENTUHORO_TALLY_WORDS, true);
        lend(1, wentuhoro_carried_len(WENTUHORO_CARRIED_ROWS(ids)), true);
        words(lend(8, 1, false))[0] = 1;
        lend(1, 1, false)->at[0] = (uint8_t)byte;
        words(lend(8, 1, false))[0] = 3;
        lend(1, wentuhoro_carried_len(1), false);
        lend(8, 1, true);
        uint64_t status = offer_lent();
        wrong_on_purpose(status);
        look(OFFER, status);
        tell(OFFER, status);
    }
}

/* The header's sizes are the library's, entry by entry; the longest object of each slab is of that class, one byte more is not. */
static void check_sizes(void) {
    uint64_t sizes[WENTUHORO_SLABS] = {0};
    wentuhoro_slab_sizes(sizes, WENTUHORO_SLABS);
    for (uint64_t slab = 0; slab < WENTUHORO_SLABS; slab++) {
        uint64_t size = wentuhoro_slab_size((size_t)slab), field = size <= 255 ? 1 : size <= 65535 ? 2 : size <= UINT32_MAX ? 4 : 8;
        uint64_t room = size - field - 4, of_room = 0, of_more = slab + 1;
        wentuhoro_class(room, &of_room, 1);
        wentuhoro_class(room + 1, &of_more, 1);
        if (size != sizes[slab] || of_room != slab || of_more != slab + 1) {
            fprintf(stderr, "slab %" PRIu64 " has another size in the header\n", slab);
            exit(1);
        }
    }
}

static double now(void) {
    struct timespec at;
    clock_gettime(CLOCK_MONOTONIC, &at);
    return (double)at.tv_sec + (double)at.tv_nsec / 1e9;
}

int main(int argc, char **argv) {
    double seconds = argc > 1 ? atof(argv[1]) : 10;
    seed = argc > 2 ? strtoull(argv[2], NULL, 10) : 1;
    check_sizes();
    make_regions();
    each_byte();
    uint64_t missing = 0;
    double passed, said = 0;
    for (double begun = now(); (passed = now() - begun) < seconds;) {
        if (passed - said >= 10) {
            said = passed;
            fprintf(stderr, "    %.0f of %.0f s: %" PRIu64 " cases\n", passed, seconds, cases);
        }
        for (int i = 0; i < 100; i++) one_case(++cases % 100000 == 0);
    }
    for (int call = 0; call < CALLS; call++) {
        fprintf(stderr, "%-14s %9" PRIu64 " granted", listed[call].name, answered[call][0]);
        missing += answered[call][0] == 0;
        for (const char *refusal = listed[call].refusals; *refusal != 0; refusal++) {
            fprintf(stderr, ", %" PRIu64 " x %d", answered[call][(int)*refusal], *refusal);
            missing += answered[call][(int)*refusal] == 0;
        }
        fprintf(stderr, "\n");
    }
    fprintf(stderr, "%" PRIu64 " cases, %" PRIu64 " told for judging: no byte written that may not be; ", cases, judged);
    fprintf(stderr, "%" PRIu64 " listed answers never given\n", missing);
    return seconds >= 10 && missing > 0;
}
