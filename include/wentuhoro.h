/* Wentuhoro for C99 and C++: the calls of libexports.a.
 *
 * A call answers a status: 0 where it is granted, else the refusal's number plus 256 times its index. A refusal writes nothing. Two calls refuse
 * nothing and answer no status: wentuhoro_crc32 and wentuhoro_crc32_update answer a check and a register.
 *
 * A slice passes as a pointer and a length. A pointer is aligned for its type and never NULL, also where the length is 0; slices that a
 * call writes overlap no other slice of that call. Anything else has an answer: any length, any contents, any number.
 *
 * Values come back in a slice of exactly so many words ("One value: ..."); a slice of another length is refused with 1.
 *
 * Each call below has the refusals that it gives, in the order in which it looks for them. The index counts from 0: it is the update's
 * where a refusal is given per update, the row's where per row, the slab's for an offer's 10, the block's where a snapshot is read, and 0
 * elsewhere.
 *
 * No call allocates, locks, or keeps anything of its own between calls: a store is its tables. The stack that a call takes: some 65 KiB in
 * rebuild, 13 KiB in offer, 4 KiB in what computes a check, less than 1 KiB elsewhere.
 *
 * A program that holds its tables in a struct wentuhoro_store uses the wentuhoro_store_ functions at the end, which pass the fourteen
 * pointers and lengths.
 */
#ifndef WENTUHORO_H
#define WENTUHORO_H

#include <stdbool.h>
#include <stddef.h>
#include <stdint.h>
#include <string.h>

#ifdef __cplusplus
extern "C" {
#endif

/* ---- Refusals */

enum wentuhoro_refusal {
    WENTUHORO_WRONG_SHAPE = 1,         /* a lent slice or a capacity has a wrong length or value */
    WENTUHORO_TOO_LARGE = 2,           /* an object beyond the largest class */
    WENTUHORO_OUT_OF_RANGE = 3,        /* a slab, slot or packed location out of range */
    WENTUHORO_CHECK_DIFFERS = 4,       /* the check differs */
    WENTUHORO_TOO_LONG = 5,            /* a stored length, or an object to be written, longer than its slot takes */
    WENTUHORO_UNKNOWN_VERSION = 6,     /* a version of a cookie that is not 1, or of a snapshot's block that is neither 1 nor 2 */
    WENTUHORO_FANOUT_DIFFERS = 7,      /* the fanout differs */
    WENTUHORO_NO_SUCH_ID = 8,          /* id 0, at or past capacity, not held, or (lookup) without location */
    WENTUHORO_REPEATED_ID = 9,         /* the id of an earlier update of the batch, or of an earlier rebuild row */
    WENTUHORO_NONE_FREE = 10,          /* no free number */
    WENTUHORO_BATCH_OPEN = 11,         /* a batch is open */
    WENTUHORO_NO_BATCH = 12,           /* none is open */
    WENTUHORO_TABLES_DISAGREE = 13,    /* the tables contradict each other, or a kept batch is none */
    WENTUHORO_RATIO_OUT_OF_RANGE = 14, /* a fill ratio or a target t out of range */
    WENTUHORO_TOO_MANY = 15,           /* over 256 updates, or ids of a page */
    WENTUHORO_REPEATED_LOCATION = 16,  /* a rebuild row has an earlier row's location */
    WENTUHORO_NOTHING_TO_CUT = 17,     /* a cut reported where the test says keep */
    WENTUHORO_GAP_NOT_ZERO = 18,       /* bytes between object and frame are not zero */
    WENTUHORO_WRONG_BLOCK = 19,        /* a snapshot's block has a wrong number, count, padding, key or row order, or another version than before */
    WENTUHORO_KEY_TOO_LONG = 21        /* a key of over 64 bytes */
};

/* 0 for a status that grants, else one of the numbers above. */
static inline unsigned wentuhoro_refusal_number(uint64_t status) { return (unsigned)(status % 256); }

static inline uint64_t wentuhoro_refusal_index(uint64_t status) { return status / 256; }

/* ---- Sizes of slabs and tables */

#define WENTUHORO_SLABS 78
#define WENTUHORO_LARGEST_SLOT 65535
#define WENTUHORO_MOST_IDS 65536   /* id capacity: 2 to this; ids run from 1 to capacity - 1 */
#define WENTUHORO_MOST_SLOTS 65536 /* slot capacity, the same in every slab: 1 to this */
#define WENTUHORO_MOST_UPDATES 256
#define WENTUHORO_MOST_PAGE 256 /* ids of one wentuhoro_lookup_page */
#define WENTUHORO_MOST_KEY 64 /* bytes of a key: 0 to this */
#define WENTUHORO_COOKIE_BYTES 64

/* The seven tables: id_marks and locations have one entry an id, slot_marks and owners one a slot, slab after slab; carried has one an id,
 * then one for each update that a batch may have. */
#define WENTUHORO_ALLOCATORS 79 /* the ids', then each slab's */
#define WENTUHORO_BATCH_WORDS 513
#define WENTUHORO_TALLY_WORDS 473
#define WENTUHORO_CARRIED_WIDTH 80 /* bytes of an entry of carried, and of a row in the list of an offer, a rebuild or a read snapshot */
#define WENTUHORO_CARRIED_ROWS(ids) ((ids) + WENTUHORO_MOST_UPDATES)

static inline size_t wentuhoro_all_slots(size_t slots) { return WENTUHORO_SLABS * slots; }

/* What an object's row carries beside its location: its collection, and its low key of 0 to 64 bytes. The store keeps them and placement never
 * looks at them. A row has two forms of the same size, and both structs are how their bytes are laid out, so a list of them is lent as it stands.
 *
 * As an offer and a rebuild are brought it, and as wentuhoro_snapshot_read hands it out: of key the first key_length bytes are the key, and the
 * others are not looked at. A key_length over 64 is refused with 21. wentuhoro_carried_of makes one. */
struct wentuhoro_carried {
    uint64_t collection;
    uint64_t key_length;
    uint8_t key[WENTUHORO_MOST_KEY];
};

/* As the table carried keeps it, and as a lookup answers it: what follows the key is zero. wentuhoro_kept_key shows its key. */
struct wentuhoro_kept {
    uint64_t collection;
    uint8_t key_length;
    uint8_t key[WENTUHORO_MOST_KEY];
    uint8_t zeros[7];
};

typedef char wentuhoro_carried_is_laid_out[sizeof(struct wentuhoro_carried) == WENTUHORO_CARRIED_WIDTH ? 1 : -1];
typedef char wentuhoro_kept_is_laid_out[sizeof(struct wentuhoro_kept) == WENTUHORO_CARRIED_WIDTH ? 1 : -1];

#if defined(__BYTE_ORDER__) && __BYTE_ORDER__ != __ORDER_LITTLE_ENDIAN__
#error "rows are little-endian, and so are the machines that libexports.a is made for"
#endif

/* A row to be brought, its key copied: of a key of over 64 bytes the first 64, and its true length, so that the library refuses it with 21. The
 * pointer may be NULL where the length is 0. */
static inline struct wentuhoro_carried wentuhoro_carried_of(uint64_t collection, const uint8_t *key, size_t key_length) {
    struct wentuhoro_carried row;
    memset(&row, 0, sizeof row);
    row.collection = collection;
    row.key_length = key_length;
    if (key_length > 0) memcpy(row.key, key, key_length < WENTUHORO_MOST_KEY ? key_length : WENTUHORO_MOST_KEY);
    return row;
}

/* The key of a row that is kept, and how long it is: the row's own bytes, which are good as long as the row is. Never more than 64, whatever the
 * row holds. */
static inline const uint8_t *wentuhoro_kept_key(const struct wentuhoro_kept *row, size_t *key_length) {
    *key_length = row->key_length < WENTUHORO_MOST_KEY ? row->key_length : WENTUHORO_MOST_KEY;
    return row->key;
}

/* A row that is kept as it can be brought again. */
static inline struct wentuhoro_carried wentuhoro_carried_from_kept(const struct wentuhoro_kept *row) {
    return wentuhoro_carried_of(row->collection, row->key, row->key_length);
}

/* So many rows as the bytes that a call is lent, and how many these are, in either form. */
static inline const uint8_t *wentuhoro_carried_bytes(const struct wentuhoro_carried *rows) { return (const uint8_t *)rows; }

static inline uint8_t *wentuhoro_carried_bytes_mut(struct wentuhoro_carried *rows) { return (uint8_t *)rows; }

static inline const uint8_t *wentuhoro_kept_bytes(const struct wentuhoro_kept *rows) { return (const uint8_t *)rows; }

static inline uint8_t *wentuhoro_kept_bytes_mut(struct wentuhoro_kept *rows) { return (uint8_t *)rows; }

static inline size_t wentuhoro_carried_len(size_t rows) { return WENTUHORO_CARRIED_WIDTH * rows; }

/* The bytes of a slot of this slab; 0 where there is no such slab. bindings/c/example.c holds each entry to wentuhoro_slab_sizes. */
static inline uint64_t wentuhoro_slab_size(size_t slab) {
    static const uint64_t sizes[WENTUHORO_SLABS] = {
        64, 80, 96, 112, 128, 160, 192, 224, 256, 320, 384, 448, 512, 640, 768, 896, 1024, 1280, 1536, 1792, 2048, 2560, 3072, 3584, 4096,
        5120, 6144, 7168, 8192, 10240, 12288, 14336, 16384, 20480, 24576, 28672, 32768, 40960, 49152, 57344, 65536, 98304, 131072, 163840,
        196608, 262144, 393216, 524288, 786432, 1048576, 1572864, 2097152, 3145728, 4194304, 6291456, 8388608, 12582912, 16777216,
        25165824, 33554432, 50331648, 67108864, 100663296, 134217728, 201326592, 268435456, 402653184, 536870912, 805306368, 1073741824,
        1610612736, 2147483648, 3221225472u, 4294967296u, 6442450944u, 8589934592u, 12884901888u, 17179869184u,
    };
    return slab < WENTUHORO_SLABS ? sizes[slab] : 0;
}

/* ---- Classes, checks, frames, cookies, addresses */

/* 78 values: the bytes of a slot of each slab, ascending. The class of n bytes is the first of them that n, the length field and the check fit.
 * Refuses: 1, for another length. */
uint64_t wentuhoro_slab_sizes(uint64_t *sizes, size_t sizes_len);

/* One value: the slab for an object of n bytes. Refuses: 2. */
uint64_t wentuhoro_class(uint64_t n, uint64_t *slab, size_t slab_len);

/* The CRC-32 of ISO 3309. */
uint32_t wentuhoro_crc32(const uint8_t *bytes, size_t bytes_len);

/* The register after more bytes. It starts at FFFFFFFF and is complemented at the end. */
uint32_t wentuhoro_crc32_update(uint32_t register_, const uint8_t *bytes, size_t bytes_len);

/* Writes an object into a slot: the object, zeros, its length, the check. Refuses: 1, 5. */
uint64_t wentuhoro_frame_write(uint8_t *slot, size_t slot_len, const uint8_t *object, size_t object_len);

/* One value: the length of the object, which is the slot's own first bytes. Granted exactly if the slot is what wentuhoro_frame_write gives for
 * some object. Refuses: 1, 4, 5, 18. */
uint64_t wentuhoro_frame_read(const uint8_t *slot, size_t slot_len, uint64_t *length, size_t length_len);

/* Writes a settings cookie of 64 bytes. Refuses: 1. */
uint64_t wentuhoro_cookie_write(uint64_t leaf_fanout, uint8_t *cookie, size_t cookie_len);

/* One value: the fanout in a cookie of 64 bytes or more. Refuses: 1, 4, 6. */
uint64_t wentuhoro_cookie_read(const uint8_t *cookie, size_t cookie_len, uint64_t *leaf_fanout, size_t leaf_fanout_len);

/* Whether a cookie was written with this fanout. Refuses: 1, 4, 6, 7. */
uint64_t wentuhoro_cookie_verify(const uint8_t *cookie, size_t cookie_len, uint64_t leaf_fanout);

/* One value: the packed location (slab + 1) * 2^56 + slot, which is never 0. Refuses: 1, 3. */
uint64_t wentuhoro_pack(size_t slots, size_t slab, size_t slot, uint64_t *location, size_t location_len);

/* Three values: 1, slab, slot; or three zeros for a location of 0, no object. Refuses: 1, 3. */
uint64_t wentuhoro_unpack(size_t slots, uint64_t location, uint64_t *address, size_t address_len);

/* Two values: 1 and the first slot that may be moved out of a slab with so many live slots below its tip; or two zeros for nothing.
 * Refuses: 1, 14. */
uint64_t wentuhoro_fragmentation_cutoff(size_t live, size_t tip, float ratio, uint64_t *cutoff, size_t cutoff_len);

/* ---- The store. Every call takes the capacities and those of the seven tables that it uses. */

/* A store that holds nothing; writes every word of the seven tables. Refuses: 1. */
uint64_t wentuhoro_fresh(size_t ids, size_t slots, uint8_t *id_marks, size_t id_marks_len, uint64_t *locations, size_t locations_len,
                         uint8_t *slot_marks, size_t slot_marks_len, uint64_t *owners, size_t owners_len, uint64_t *batch,
                         size_t batch_len, uint64_t *tallies, size_t tallies_len, uint8_t *carried, size_t carried_len);

/* A store that holds the rows' ids and slots, with what they carry, and nothing else, rows in any order; writes every word of the seven
 * tables. row_carried has a struct wentuhoro_carried for each row. Refuses: 1, then for each row 8 (range only), 9, 3, 16, 21. */
uint64_t wentuhoro_rebuild(size_t ids, size_t slots, uint8_t *id_marks, size_t id_marks_len, uint64_t *locations, size_t locations_len,
                           uint8_t *slot_marks, size_t slot_marks_len, uint64_t *owners, size_t owners_len, uint64_t *batch,
                           size_t batch_len, uint64_t *tallies, size_t tallies_len, uint8_t *carried, size_t carried_len,
                           const uint64_t *row_ids, size_t row_ids_len, const uint64_t *row_locations, size_t row_locations_len,
                           const uint8_t *row_carried, size_t row_carried_len);

/* One value: the smallest free id above 0, held from now on. Writes id_marks and tallies. Refuses: 1, 11, 10. */
uint64_t wentuhoro_new_id(size_t ids, size_t slots, uint8_t *id_marks, size_t id_marks_len, const uint64_t *batch, size_t batch_len,
                          uint64_t *tallies, size_t tallies_len, uint64_t *id, size_t id_len);

/* One value: the packed location of an object; and what its row carries, a struct wentuhoro_kept, in a slice of its 80 bytes. It is entry id of
 * carried, so a caller who would not copy it looks there once the lookup is granted. Refuses: 1, 8, 13. */
uint64_t wentuhoro_lookup(size_t ids, size_t slots, const uint8_t *id_marks, size_t id_marks_len, const uint64_t *locations,
                          size_t locations_len, const uint8_t *slot_marks, size_t slot_marks_len, const uint64_t *owners,
                          size_t owners_len, const uint64_t *tallies, size_t tallies_len, const uint8_t *carried, size_t carried_len,
                          uint64_t id, uint64_t *location, size_t location_len, uint8_t *row, size_t row_len);

/* Up to 256 lookups in one call, for a page: asked has the ids, in any order and as often as you like, and row i of each of the three lists is
 * what wentuhoro_lookup answers of asked[i]. numbers[i] is 0 where it is granted: then found[i] is the packed location and entry i of rows, a
 * struct wentuhoro_kept, what the row carries. Else it is 8 or 13, and both are zeros; the other rows do not depend on it. numbers and found have
 * one entry an id, rows 80 bytes. Refuses, for the whole call only: 1, then 15 for over 256 ids; the lists are then as they were. */
uint64_t wentuhoro_lookup_page(size_t ids, size_t slots, const uint8_t *id_marks, size_t id_marks_len, const uint64_t *locations,
                               size_t locations_len, const uint8_t *slot_marks, size_t slot_marks_len, const uint64_t *owners,
                               size_t owners_len, const uint64_t *tallies, size_t tallies_len, const uint8_t *carried, size_t carried_len,
                               const uint64_t *asked, size_t asked_len, uint8_t *numbers, size_t numbers_len, uint64_t *found,
                               size_t found_len, uint8_t *rows, size_t rows_len);

/* Takes the smallest free slot for each Store of a batch, in list order, and keeps the batch. In stores 0 frees, any other byte stores:
 * where stores[i] is not 0, update i stores an object of lengths[i] bytes as update_ids[i], whose row carries entry i of update_carried, a
 * struct wentuhoro_carried; where it is 0, it frees that id, and that entry is not looked at. All five lists have one row an update; placed
 * gets the packed locations, 0 for a Free. Writes slot_marks, batch, tallies, carried and placed.
 * Refuses: 1, 11, 15, then for each update 8, 9, 21, 2, 13, then 10 with the lowest slab that has too few free slots. */
uint64_t wentuhoro_offer(size_t ids, size_t slots, const uint8_t *id_marks, size_t id_marks_len, const uint64_t *locations,
                         size_t locations_len, uint8_t *slot_marks, size_t slot_marks_len, const uint64_t *owners, size_t owners_len,
                         uint64_t *batch, size_t batch_len, uint64_t *tallies, size_t tallies_len, uint8_t *carried, size_t carried_len,
                         const uint64_t *update_ids, size_t update_ids_len, const uint8_t *stores, size_t stores_len,
                         const uint64_t *lengths, size_t lengths_len, const uint8_t *update_carried, size_t update_carried_len,
                         uint64_t *placed, size_t placed_len);

/* The open batch takes effect. What falls free by it is pending until a release; a freed id's row carries zeros. Writes the seven tables.
 * Refuses: 1, 12, 13. */
uint64_t wentuhoro_commit(size_t ids, size_t slots, uint8_t *id_marks, size_t id_marks_len, uint64_t *locations, size_t locations_len,
                          uint8_t *slot_marks, size_t slot_marks_len, uint64_t *owners, size_t owners_len, uint64_t *batch,
                          size_t batch_len, uint64_t *tallies, size_t tallies_len, uint8_t *carried, size_t carried_len);

/* The open batch is dropped, and the slots that it took are free again. Writes slot_marks, batch and tallies. Refuses: 1, 12, 13. */
uint64_t wentuhoro_abandon(size_t ids, size_t slots, uint8_t *slot_marks, size_t slot_marks_len, uint64_t *batch, size_t batch_len,
                           uint64_t *tallies, size_t tallies_len);

/* Every pending id and slot becomes free. Writes id_marks, slot_marks and tallies. Refuses: 1, 11. */
uint64_t wentuhoro_release(size_t ids, size_t slots, uint8_t *id_marks, size_t id_marks_len, uint8_t *slot_marks, size_t slot_marks_len,
                           const uint64_t *batch, size_t batch_len, uint64_t *tallies, size_t tallies_len);

/* Four values: ids granted, ids freed, slots granted, slots freed, since fresh or rebuild. Refuses: 1. */
uint64_t wentuhoro_stats(size_t ids, size_t slots, const uint64_t *tallies, size_t tallies_len, uint64_t *sums, size_t sums_len);

/* What each allocator has granted and freed: the ids', then each slab's, 79 rows in both lists. Refuses: 1. */
uint64_t wentuhoro_counters(size_t ids, size_t slots, const uint64_t *tallies, size_t tallies_len, uint64_t *granted, size_t granted_len,
                            uint64_t *freed, size_t freed_len);

/* The objects to move so that slabs are filled to this ratio (above 0, at most 1), by slab, then slot: in the first rows of two lists of
 * ids - 1 rows. One value: how many rows. Refuses: 1, 11, 14. */
uint64_t wentuhoro_defrag(size_t ids, size_t slots, const uint64_t *locations, size_t locations_len, const uint8_t *slot_marks,
                          size_t slot_marks_len, const uint64_t *owners, size_t owners_len, const uint64_t *batch, size_t batch_len,
                          const uint64_t *tallies, size_t tallies_len, float ratio, uint64_t *moved_ids, size_t moved_ids_len,
                          uint64_t *moved_locations, size_t moved_locations_len, uint64_t *count, size_t count_len);

/* What wentuhoro_reason answers first. */
enum wentuhoro_reason_kind {
    WENTUHORO_REASON_NOT_STORED = 0,  /* no such stored object: wentuhoro_lookup refuses the id with 8 */
    WENTUHORO_REASON_FULL_ENOUGH = 1, /* its slab is full enough: nothing of it is listed */
    WENTUHORO_REASON_BEFORE_LINE = 2, /* its slot is before the line, the first slot of its slab that is looked at */
    WENTUHORO_REASON_LISTED = 3       /* it is on the list */
};

/* Why an object is on the list that wentuhoro_defrag makes for this ratio, or is not; exactly one reason applies. Seven values: the reason's number;
 * the object's slab and slot; of the slots of that slab that are held or pending, how many are smaller than the object's, how many there are, and
 * the largest plus 1, which is the tip; and the line. All seven are 0 where nothing is stored, and so is the line where the slab is full enough.
 * Refuses: 1, 11, 14, then 13 where wentuhoro_lookup does; an unknown id is a reason. */
uint64_t wentuhoro_reason(size_t ids, size_t slots, const uint8_t *id_marks, size_t id_marks_len, const uint64_t *locations,
                          size_t locations_len, const uint8_t *slot_marks, size_t slot_marks_len, const uint64_t *owners,
                          size_t owners_len, const uint64_t *batch, size_t batch_len, const uint64_t *tallies, size_t tallies_len,
                          uint64_t id, float ratio, uint64_t *told, size_t told_len);

/* Whether a slab's file is cut, for a target t of 1 to 86 (sled's is 80): the percentage of it that must be in use. Its length before is
 * counted up to and with the slab's high mark, the highest slot in use that asking has found since the last cut, fresh or rebuild. Three
 * values: 1, the length to cut it to, which is a whole number of slots, and the bytes given back, the length before less the new one, never
 * 0; or three zeros to keep it, where enough is in use or in whole slots nothing is left to cut. A file that reaches further than the high
 * mark gives back more than is told. Writes tallies: the slab's high mark. Refuses: 1, 11, 3, 14. */
uint64_t wentuhoro_truncation(size_t ids, size_t slots, const uint8_t *slot_marks, size_t slot_marks_len, const uint64_t *batch,
                              size_t batch_len, uint64_t *tallies, size_t tallies_len, uint64_t slab, uint64_t t, uint64_t *cut,
                              size_t cut_len);

/* A slab's file was cut: its high mark is its last slot in use. Writes tallies: the high mark. Refuses: 1, 11, 3, 14, then 17 where
 * wentuhoro_truncation says keep. */
uint64_t wentuhoro_cut_done(size_t ids, size_t slots, const uint8_t *slot_marks, size_t slot_marks_len, const uint64_t *batch,
                            size_t batch_len, uint64_t *tallies, size_t tallies_len, uint64_t slab, uint64_t t);

/* ---- Snapshots: the live rows of a store as bytes, which another machine reads and rebuilds from
 *
 * A file is blocks of 512 bytes, each with its own check. A block, little-endian: its number from 0 on (4 bytes), how many rows it has
 * (2), version 2 (2), five rows of id, collection and location (8 each), key length (1), the key and zeros after it (64), and zeros (7); zeros
 * up to byte 508, and as in the cookie the check of those 508 bytes (4). Rows ascend by id. Only the last block may have fewer than five, zeros
 * in place of the others, and none where it is the only one. A file cut at a block's end is the snapshot of fewer rows, and no call can tell:
 * keep its length beside it.
 *
 * Files of version 1 are read, too: their blocks have 20 rows of id, collection and location, and what is read has empty keys. What is
 * written is of version 2, which a library of before refuses with 6. A file mixes no versions: the first block of the other is refused with
 * 19, one of an unknown version with 6. */

#define WENTUHORO_SNAPSHOT_BLOCK 512
#define WENTUHORO_SNAPSHOT_BLOCK_ROWS 5      /* of version 2 */
#define WENTUHORO_SNAPSHOT_OLD_BLOCK_ROWS 20 /* of version 1 */

/* The rows that the lists lent to wentuhoro_snapshot_read have to have for this file, at least: 5 a block where its first block says version 2,
 * else 20. */
static inline size_t wentuhoro_snapshot_most_rows(const uint8_t *file, size_t file_len) {
    bool is_version_2 = file_len >= WENTUHORO_SNAPSHOT_BLOCK && file[6] == 2 && file[7] == 0;
    return file_len / WENTUHORO_SNAPSHOT_BLOCK * (is_version_2 ? WENTUHORO_SNAPSHOT_BLOCK_ROWS : WENTUHORO_SNAPSHOT_OLD_BLOCK_ROWS);
}

/* One value: the bytes that a snapshot of the store takes, 512 for each five objects or part of them, and never less than 512.
 * Refuses: 1, 11. */
uint64_t wentuhoro_snapshot_length(size_t ids, size_t slots, const uint8_t *id_marks, size_t id_marks_len, const uint64_t *locations,
                                   size_t locations_len, const uint64_t *batch, size_t batch_len, const uint64_t *tallies,
                                   size_t tallies_len, uint64_t *length, size_t length_len);

/* Writes the snapshot into a file of exactly that length: each id above 0 that is held and has a location, with what its row carries.
 * Refuses: 1 (a file of another length too), 11, then 13 with the row. */
uint64_t wentuhoro_snapshot_write(size_t ids, size_t slots, const uint8_t *id_marks, size_t id_marks_len, const uint64_t *locations,
                                  size_t locations_len, const uint8_t *slot_marks, size_t slot_marks_len, const uint64_t *owners,
                                  size_t owners_len, const uint64_t *batch, size_t batch_len, const uint64_t *tallies,
                                  size_t tallies_len, const uint8_t *carried, size_t carried_len, uint8_t *file, size_t file_len);

/* The row at a position: a block, from 0 on, and a row in it. Eight values: 1, id, collection, location, the next position's block and row,
 * at which byte of the file the key starts, and how long it is; or eight zeros for the end. The first position is 0, 0; one that no call has
 * given is judged like any other. Each call judges the whole block. Refuses, with the block: 1 (no whole number of blocks, or a position
 * outside the file), 4, 6, 19, then 1 for a row that the block has not. */
uint64_t wentuhoro_snapshot_step(const uint8_t *file, size_t file_len, size_t block, size_t row, uint64_t *values, size_t values_len);

/* The whole file, each block judged once: rows go into the first rows of three lists, which all have as many, wentuhoro_snapshot_most_rows or
 * more; those of row_carried are struct wentuhoro_carried, as a rebuild takes them. One value: how many rows. Ids and locations are as the file
 * has them; a rebuild judges them. Refuses: 1, where the version that the first block names says how much room is asked for, then for each block
 * 4, 6, 19. */
uint64_t wentuhoro_snapshot_read(const uint8_t *file, size_t file_len, uint64_t *row_ids, size_t row_ids_len, uint64_t *row_locations,
                                 size_t row_locations_len, uint8_t *row_carried, size_t row_carried_len, uint64_t *rows,
                                 size_t rows_len);

/* wentuhoro_snapshot_read into three lists of so many rows. */
static inline uint64_t wentuhoro_snapshot_read_rows(const uint8_t *file, size_t file_len, size_t most_rows, uint64_t *row_ids,
                                                    uint64_t *row_locations, struct wentuhoro_carried *row_carried, uint64_t *rows) {
    return wentuhoro_snapshot_read(file, file_len, row_ids, most_rows, row_locations, most_rows, wentuhoro_carried_bytes_mut(row_carried),
                                   wentuhoro_carried_len(most_rows), rows, 1);
}

/* Where the next row is; {0, 0} before the first. */
struct wentuhoro_snapshot_position {
    size_t block;
    size_t row;
};

struct wentuhoro_snapshot_row {
    uint64_t id;
    uint64_t location;
    uint64_t collection;
    const uint8_t *key; /* in the file */
    size_t key_length;
};

/* wentuhoro_snapshot_step from a position, which moves on. At the end, and on a refusal, found is false, and row and position are as they
 * were. */
static inline uint64_t wentuhoro_snapshot_next(const uint8_t *file, size_t file_len, struct wentuhoro_snapshot_position *position,
                                               struct wentuhoro_snapshot_row *row, bool *found) {
    uint64_t values[8];
    uint64_t status = wentuhoro_snapshot_step(file, file_len, position->block, position->row, values, 8);
    *found = status == 0 && values[0] == 1;
    if (*found) {
        row->id = values[1];
        row->collection = values[2];
        row->location = values[3];
        position->block = (size_t)values[4];
        position->row = (size_t)values[5];
        row->key = file + (size_t)values[6];
        row->key_length = (size_t)values[7];
    }
    return status;
}

/* ---- One store as one thing */

/* The caller owns the memory: ids, ids, 78 * slots, 78 * slots, 513, 473 and ids + 256 entries. What they hold before the first fresh or
 * rebuild does not matter. */
struct wentuhoro_store {
    size_t ids;
    size_t slots;
    uint8_t *id_marks;
    uint64_t *locations;
    uint8_t *slot_marks;
    uint64_t *owners;
    uint64_t *batch;
    uint64_t *tallies;
    struct wentuhoro_kept *carried;
};

static inline size_t wentuhoro_store_carried_len(const struct wentuhoro_store *s) {
    return wentuhoro_carried_len(WENTUHORO_CARRIED_ROWS(s->ids));
}

/* Each function below is the call of that name on the store's tables, with the refusals given there. */

static inline uint64_t wentuhoro_store_fresh(struct wentuhoro_store *s) {
    return wentuhoro_fresh(s->ids, s->slots, s->id_marks, s->ids, s->locations, s->ids, s->slot_marks, wentuhoro_all_slots(s->slots),
                           s->owners, wentuhoro_all_slots(s->slots), s->batch, WENTUHORO_BATCH_WORDS, s->tallies, WENTUHORO_TALLY_WORDS,
                           wentuhoro_kept_bytes_mut(s->carried), wentuhoro_store_carried_len(s));
}

static inline uint64_t wentuhoro_store_rebuild(struct wentuhoro_store *s, size_t rows, const uint64_t *row_ids,
                                               const uint64_t *row_locations, const struct wentuhoro_carried *row_carried) {
    return wentuhoro_rebuild(s->ids, s->slots, s->id_marks, s->ids, s->locations, s->ids, s->slot_marks, wentuhoro_all_slots(s->slots),
                             s->owners, wentuhoro_all_slots(s->slots), s->batch, WENTUHORO_BATCH_WORDS, s->tallies,
                             WENTUHORO_TALLY_WORDS, wentuhoro_kept_bytes_mut(s->carried), wentuhoro_store_carried_len(s), row_ids, rows,
                             row_locations, rows, wentuhoro_carried_bytes(row_carried), wentuhoro_carried_len(rows));
}

static inline uint64_t wentuhoro_store_new_id(struct wentuhoro_store *s, uint64_t *id) {
    return wentuhoro_new_id(s->ids, s->slots, s->id_marks, s->ids, s->batch, WENTUHORO_BATCH_WORDS, s->tallies, WENTUHORO_TALLY_WORDS, id,
                            1);
}

static inline uint64_t wentuhoro_store_lookup(const struct wentuhoro_store *s, uint64_t id, uint64_t *location,
                                              struct wentuhoro_kept *carried) {
    return wentuhoro_lookup(s->ids, s->slots, s->id_marks, s->ids, s->locations, s->ids, s->slot_marks, wentuhoro_all_slots(s->slots),
                            s->owners, wentuhoro_all_slots(s->slots), s->tallies, WENTUHORO_TALLY_WORDS,
                            wentuhoro_kept_bytes(s->carried), wentuhoro_store_carried_len(s), id, location, 1,
                            wentuhoro_kept_bytes_mut(carried), wentuhoro_carried_len(1));
}

/* A row of each list for each of so many ids. */
static inline uint64_t wentuhoro_store_lookup_page(const struct wentuhoro_store *s, size_t asked, const uint64_t *asked_ids,
                                                   uint8_t *numbers, uint64_t *found, struct wentuhoro_kept *rows) {
    return wentuhoro_lookup_page(s->ids, s->slots, s->id_marks, s->ids, s->locations, s->ids, s->slot_marks,
                                 wentuhoro_all_slots(s->slots), s->owners, wentuhoro_all_slots(s->slots), s->tallies,
                                 WENTUHORO_TALLY_WORDS, wentuhoro_kept_bytes(s->carried), wentuhoro_store_carried_len(s), asked_ids, asked,
                                 numbers, asked, found, asked, wentuhoro_kept_bytes_mut(rows), wentuhoro_carried_len(asked));
}

static inline uint64_t wentuhoro_store_offer(struct wentuhoro_store *s, size_t updates, const uint64_t *update_ids, const uint8_t *stores,
                                             const uint64_t *lengths, const struct wentuhoro_carried *update_carried, uint64_t *placed) {
    return wentuhoro_offer(s->ids, s->slots, s->id_marks, s->ids, s->locations, s->ids, s->slot_marks, wentuhoro_all_slots(s->slots),
                           s->owners, wentuhoro_all_slots(s->slots), s->batch, WENTUHORO_BATCH_WORDS, s->tallies, WENTUHORO_TALLY_WORDS,
                           wentuhoro_kept_bytes_mut(s->carried), wentuhoro_store_carried_len(s), update_ids, updates, stores, updates,
                           lengths, updates, wentuhoro_carried_bytes(update_carried), wentuhoro_carried_len(updates), placed, updates);
}

static inline uint64_t wentuhoro_store_commit(struct wentuhoro_store *s) {
    return wentuhoro_commit(s->ids, s->slots, s->id_marks, s->ids, s->locations, s->ids, s->slot_marks, wentuhoro_all_slots(s->slots),
                            s->owners, wentuhoro_all_slots(s->slots), s->batch, WENTUHORO_BATCH_WORDS, s->tallies, WENTUHORO_TALLY_WORDS,
                            wentuhoro_kept_bytes_mut(s->carried), wentuhoro_store_carried_len(s));
}

static inline uint64_t wentuhoro_store_abandon(struct wentuhoro_store *s) {
    return wentuhoro_abandon(s->ids, s->slots, s->slot_marks, wentuhoro_all_slots(s->slots), s->batch, WENTUHORO_BATCH_WORDS, s->tallies,
                             WENTUHORO_TALLY_WORDS);
}

static inline uint64_t wentuhoro_store_release(struct wentuhoro_store *s) {
    return wentuhoro_release(s->ids, s->slots, s->id_marks, s->ids, s->slot_marks, wentuhoro_all_slots(s->slots), s->batch,
                             WENTUHORO_BATCH_WORDS, s->tallies, WENTUHORO_TALLY_WORDS);
}

static inline uint64_t wentuhoro_store_stats(const struct wentuhoro_store *s, uint64_t sums[4]) {
    return wentuhoro_stats(s->ids, s->slots, s->tallies, WENTUHORO_TALLY_WORDS, sums, 4);
}

static inline uint64_t wentuhoro_store_counters(const struct wentuhoro_store *s, uint64_t granted[WENTUHORO_ALLOCATORS],
                                                uint64_t freed[WENTUHORO_ALLOCATORS]) {
    return wentuhoro_counters(s->ids, s->slots, s->tallies, WENTUHORO_TALLY_WORDS, granted, WENTUHORO_ALLOCATORS, freed,
                              WENTUHORO_ALLOCATORS);
}

/* Both lists have ids - 1 rows. */
static inline uint64_t wentuhoro_store_defrag(const struct wentuhoro_store *s, float ratio, uint64_t *moved_ids, uint64_t *moved_locations,
                                              uint64_t *count) {
    return wentuhoro_defrag(s->ids, s->slots, s->locations, s->ids, s->slot_marks, wentuhoro_all_slots(s->slots), s->owners,
                            wentuhoro_all_slots(s->slots), s->batch, WENTUHORO_BATCH_WORDS, s->tallies, WENTUHORO_TALLY_WORDS, ratio,
                            moved_ids, s->ids - 1, moved_locations, s->ids - 1, count, 1);
}

/* The seven values of wentuhoro_reason. */
struct wentuhoro_reason_told {
    enum wentuhoro_reason_kind kind;
    size_t slab;
    size_t slot;
    size_t smaller;
    size_t live;
    size_t tip;
    size_t line;
};

/* On a refusal told is as it was. */
static inline uint64_t wentuhoro_store_reason(const struct wentuhoro_store *s, uint64_t id, float ratio,
                                              struct wentuhoro_reason_told *told) {
    uint64_t values[7];
    uint64_t status = wentuhoro_reason(s->ids, s->slots, s->id_marks, s->ids, s->locations, s->ids, s->slot_marks,
                                       wentuhoro_all_slots(s->slots), s->owners, wentuhoro_all_slots(s->slots), s->batch,
                                       WENTUHORO_BATCH_WORDS, s->tallies, WENTUHORO_TALLY_WORDS, id, ratio, values, 7);
    if (status == 0) {
        told->kind = (enum wentuhoro_reason_kind)values[0];
        told->slab = (size_t)values[1];
        told->slot = (size_t)values[2];
        told->smaller = (size_t)values[3];
        told->live = (size_t)values[4];
        told->tip = (size_t)values[5];
        told->line = (size_t)values[6];
    }
    return status;
}

static inline uint64_t wentuhoro_store_truncation(struct wentuhoro_store *s, uint64_t slab, uint64_t t, uint64_t cut[3]) {
    return wentuhoro_truncation(s->ids, s->slots, s->slot_marks, wentuhoro_all_slots(s->slots), s->batch, WENTUHORO_BATCH_WORDS,
                                s->tallies, WENTUHORO_TALLY_WORDS, slab, t, cut, 3);
}

static inline uint64_t wentuhoro_store_cut_done(struct wentuhoro_store *s, uint64_t slab, uint64_t t) {
    return wentuhoro_cut_done(s->ids, s->slots, s->slot_marks, wentuhoro_all_slots(s->slots), s->batch, WENTUHORO_BATCH_WORDS, s->tallies,
                              WENTUHORO_TALLY_WORDS, slab, t);
}

static inline uint64_t wentuhoro_store_snapshot_length(const struct wentuhoro_store *s, uint64_t *length) {
    return wentuhoro_snapshot_length(s->ids, s->slots, s->id_marks, s->ids, s->locations, s->ids, s->batch, WENTUHORO_BATCH_WORDS,
                                     s->tallies, WENTUHORO_TALLY_WORDS, length, 1);
}

static inline uint64_t wentuhoro_store_snapshot_write(const struct wentuhoro_store *s, uint8_t *file, size_t file_len) {
    return wentuhoro_snapshot_write(s->ids, s->slots, s->id_marks, s->ids, s->locations, s->ids, s->slot_marks,
                                    wentuhoro_all_slots(s->slots), s->owners, wentuhoro_all_slots(s->slots), s->batch,
                                    WENTUHORO_BATCH_WORDS, s->tallies, WENTUHORO_TALLY_WORDS, wentuhoro_kept_bytes(s->carried),
                                    wentuhoro_store_carried_len(s), file, file_len);
}

#ifdef __cplusplus
}
#endif

#endif
