/* Objects of bytes over the rows of a store.
 *
 * A small object's bytes stand in its own row. Those of a large one stand in chunks: rows whose numbers are the object's and a
 * place that rises from chunk to chunk, with room between for chunks that come of a split. The chunks' numbers and lengths of
 * each large object are kept in memory, read when the store is opened, so that a position is found without asking the store.
 * It is what who keeps large values in a database writes; an object that was created gets its row with its first bytes. */
#include "chunks.h"

#include <stdlib.h>
#include <string.h>

#include "store.h"

/* A chunk of so many bytes stands in one page of 4,096 bytes, of both stores. */
enum { SMALL_MOST = 1000, CHUNK_MOST = 4000, BLOCK = 64, PLACE_BITS = 40 };
#define GAP ((uint64_t)1 << 16)

struct large {
    size_t count, room;
    uint64_t size;
    uint64_t *numbers;
    uint32_t *lengths;
    uint64_t *sums; /* the bytes of each BLOCK chunks */
};

static struct large **larges;
static uint64_t larges_room;
static uint64_t *pending;
static size_t pending_count, pending_room;

static void *sized(void *old, size_t bytes) {
    void *made = realloc(old, bytes);
    if (made == NULL) fail("chunks", "no memory");
    return made;
}

static struct large *find(uint64_t object) {
    return object < larges_room ? larges[object] : NULL;
}

static struct large *new_large(uint64_t object) {
    if (object >= larges_room) {
        uint64_t room = (object + 1) * 2;
        larges = sized(larges, room * sizeof *larges);
        memset(larges + larges_room, 0, (room - larges_room) * sizeof *larges);
        larges_room = room;
    }
    larges[object] = calloc(1, sizeof **larges);
    return larges[object];
}

static void sum_from(struct large *it, size_t place) {
    for (size_t block = place / BLOCK; block * BLOCK < it->count; block++) {
        uint64_t sum = 0;
        for (size_t at = block * BLOCK; at < it->count && at < (block + 1) * BLOCK; at++) sum += it->lengths[at];
        it->sums[block] = sum;
    }
}

/* Makes room for so many chunks before a place. */
static void open_places(struct large *it, size_t place, size_t more) {
    if (it->count + more > it->room) {
        it->room = (it->count + more) * 2 + BLOCK;
        it->numbers = sized(it->numbers, it->room * sizeof *it->numbers);
        it->lengths = sized(it->lengths, it->room * sizeof *it->lengths);
        it->sums = sized(it->sums, (it->room / BLOCK + 1) * sizeof *it->sums);
    }
    memmove(it->numbers + place + more, it->numbers + place, (it->count - place) * sizeof *it->numbers);
    memmove(it->lengths + place + more, it->lengths + place, (it->count - place) * sizeof *it->lengths);
    it->count += more;
}

static void set_length(struct large *it, size_t place, size_t length) {
    it->sums[place / BLOCK] += length - it->lengths[place];
    it->size += length - it->lengths[place];
    it->lengths[place] = (uint32_t)length;
}

/* The chunk in which a position below the size lies, and the position within it. */
static size_t locate(const struct large *it, uint64_t *position) {
    size_t block = 0;
    while (*position >= it->sums[block]) *position -= it->sums[block++];
    size_t place = block * BLOCK;
    while (*position >= it->lengths[place]) *position -= it->lengths[place++];
    return place;
}

static void see_length(uint64_t number, struct bytes row, void *with) {
    (void)with;
    uint64_t object = number >> PLACE_BITS;
    struct large *it = find(object);
    if (it == NULL) it = new_large(object);
    open_places(it, it->count, 1);
    it->numbers[it->count - 1] = number;
    it->lengths[it->count - 1] = (uint32_t)row.length;
    it->size += row.length;
}

void objects_open(const char *folder) {
    store_open(folder);
    store_lengths(CHUNKS, see_length, NULL);
    for (uint64_t object = 0; object < larges_room; object++)
        if (larges[object] != NULL) sum_from(larges[object], 0);
}

void objects_close(void) {
    store_close();
}

void objects_begin(void) {
    store_begin();
}

/* The place of an object among those that were created and have no row, from 1 on; 0 where it isn't among them. */
static size_t pending_place(uint64_t object) {
    size_t place = pending_count;
    while (place > 0 && pending[place - 1] != object) place--;
    return place;
}

/* Takes an object out of those that were created and have no row. */
static int took_pending(uint64_t object) {
    size_t place = pending_place(object);
    if (place == 0) return 0;
    pending[place - 1] = pending[--pending_count];
    return 1;
}

void objects_commit(void) {
    while (pending_count > 0) store_add(OBJECTS, pending[--pending_count], "", 0);
    store_commit();
}

void object_create(uint64_t number) {
    if (pending_count == pending_room) {
        pending_room = pending_room * 2 + 64;
        pending = sized(pending, pending_room * sizeof *pending);
    }
    pending[pending_count++] = number;
}

/* Puts chunks of some bytes before a place, evenly filled between the numbers of their neighbours. */
static void put_chunks(uint64_t object, struct large *it, size_t place, const unsigned char *data, size_t length);

/* Gives all chunks of an object new numbers, with room between. */
static void renumber(uint64_t object, struct large *it) {
    unsigned char *all = sized(NULL, it->size);
    size_t size = object_read(object, 0, it->size, all);
    for (size_t at = 0; at < it->count; at++) store_drop(CHUNKS, it->numbers[at]);
    it->count = 0;
    it->size = 0;
    put_chunks(object, it, 0, all, size);
    free(all);
}

static void put_chunks(uint64_t object, struct large *it, size_t place, const unsigned char *data, size_t length) {
    size_t pieces = (length + CHUNK_MOST - 1) / CHUNK_MOST;
    uint64_t low = place == 0 ? object << PLACE_BITS : it->numbers[place - 1];
    int is_last = place == it->count;
    uint64_t step = is_last ? GAP : (it->numbers[place] - low) / (pieces + 1);
    if (step == 0) fail("chunks", "no room between two chunks");
    open_places(it, place, pieces);
    for (size_t piece = 0, at = 0; piece < pieces; piece++) {
        size_t rest = length - at, most = (rest + pieces - piece - 1) / (pieces - piece);
        size_t part = is_last && rest > CHUNK_MOST ? CHUNK_MOST : most;
        low += step;
        store_add(CHUNKS, low, data + at, part);
        it->numbers[place + piece] = low;
        it->lengths[place + piece] = (uint32_t)part;
        it->size += part;
        at += part;
    }
    sum_from(it, place);
}

static int has_room(const struct large *it, size_t place, size_t pieces) {
    return place + 1 >= it->count || (it->numbers[place + 1] - it->numbers[place]) / (pieces + 1) > 0;
}

static void append_large(uint64_t object, struct large *it, const unsigned char *data, size_t length) {
    unsigned char whole[CHUNK_MOST];
    size_t last = it->count - 1;
    if (it->count > 0 && it->lengths[last] < CHUNK_MOST) {
        struct bytes row = store_get(CHUNKS, it->numbers[last]);
        size_t room = CHUNK_MOST - row.length, part = length < room ? length : room;
        memcpy(whole, row.at, row.length);
        memcpy(whole + row.length, data, part);
        size_t made = row.length + part;
        store_change(CHUNKS, it->numbers[last], whole, made);
        set_length(it, last, made);
        data += part;
        length -= part;
    }
    if (length > 0) put_chunks(object, it, it->count, data, length);
}

/* Gives a small object other bytes, as chunks where they are too many. */
static void put_small(uint64_t object, int is_new, const unsigned char *data, size_t length) {
    if (length <= SMALL_MOST) {
        if (is_new) store_add(OBJECTS, object, data, length);
        else store_change(OBJECTS, object, data, length);
        return;
    }
    if (is_new) store_add(OBJECTS, object, "", 0);
    else store_change(OBJECTS, object, "", 0);
    append_large(object, new_large(object), data, length);
}

static void insert_small(uint64_t object, uint64_t position, const unsigned char *data, size_t length) {
    int is_new = took_pending(object);
    struct bytes old = {NULL, 0};
    if (!is_new) old = store_get(OBJECTS, object);
    if (position > old.length) position = old.length;
    unsigned char *whole = sized(NULL, old.length + length + 1);
    if (position > 0) memcpy(whole, old.at, position);
    memcpy(whole + position, data, length);
    if (old.length > position) memcpy(whole + position + length, old.at + position, old.length - position);
    put_small(object, is_new, whole, old.length + length);
    free(whole);
}

void object_append(uint64_t number, const unsigned char *data, size_t length) {
    struct large *it = find(number);
    if (it == NULL) insert_small(number, UINT64_MAX, data, length);
    else append_large(number, it, data, length);
}

void object_insert(uint64_t number, uint64_t position, const unsigned char *data, size_t length) {
    struct large *it = find(number);
    if (it == NULL) {
        insert_small(number, position, data, length);
        return;
    }
    if (position == it->size) {
        append_large(number, it, data, length);
        return;
    }
    size_t place = locate(it, &position);
    size_t pieces = (it->lengths[place] + length + CHUNK_MOST - 1) / CHUNK_MOST;
    if (!has_room(it, place, pieces)) {
        uint64_t before = position;
        for (size_t at = 0; at < place; at++) before += it->lengths[at];
        renumber(number, it);
        object_insert(number, before, data, length);
        return;
    }
    struct bytes row = store_get(CHUNKS, it->numbers[place]);
    size_t made = row.length + length, first = (made + pieces - 1) / pieces;
    unsigned char room[4 * CHUNK_MOST], *whole = made <= sizeof room ? room : sized(NULL, made);
    memcpy(whole, row.at, position);
    memcpy(whole + position, data, length);
    memcpy(whole + position + length, row.at + position, row.length - position);
    store_change(CHUNKS, it->numbers[place], whole, first);
    set_length(it, place, first);
    if (made > first) put_chunks(number, it, place + 1, whole + first, made - first);
    if (whole != room) free(whole);
}

static void delete_small(uint64_t object, uint64_t position, uint64_t length) {
    unsigned char whole[SMALL_MOST];
    struct bytes row = store_get(OBJECTS, object);
    memcpy(whole, row.at, position);
    memcpy(whole + position, row.at + position + length, row.length - position - length);
    store_change(OBJECTS, object, whole, row.length - length);
}

void object_delete(uint64_t number, uint64_t position, uint64_t length) {
    struct large *it = find(number);
    if (it == NULL) {
        delete_small(number, position, length);
        return;
    }
    size_t place = locate(it, &position), gone = place, removed = 0;
    while (length > 0) {
        size_t has = it->lengths[gone], part = has - position < length ? has - position : length;
        if (part == has) {
            store_drop(CHUNKS, it->numbers[gone]);
            it->size -= has;
            removed++;
        } else {
            unsigned char whole[CHUNK_MOST];
            struct bytes row = store_get(CHUNKS, it->numbers[gone]);
            memcpy(whole, row.at, position);
            memcpy(whole + position, row.at + position + part, has - position - part);
            store_change(CHUNKS, it->numbers[gone], whole, has - part);
            it->numbers[gone - removed] = it->numbers[gone];
            it->lengths[gone - removed] = (uint32_t)(has - part);
            it->size -= part;
        }
        length -= part;
        position = 0;
        gone++;
    }
    if (removed > 0) {
        memmove(it->numbers + gone - removed, it->numbers + gone, (it->count - gone) * sizeof *it->numbers);
        memmove(it->lengths + gone - removed, it->lengths + gone, (it->count - gone) * sizeof *it->lengths);
        it->count -= removed;
    }
    if (removed > 0) sum_from(it, place);
    else
        for (size_t block = place / BLOCK; block <= (gone - 1) / BLOCK; block++) {
            uint64_t sum = 0;
            for (size_t at = block * BLOCK; at < it->count && at < (block + 1) * BLOCK; at++) sum += it->lengths[at];
            it->sums[block] = sum;
        }
}

void object_destroy(uint64_t number) {
    struct large *it = find(number);
    if (it != NULL) {
        for (size_t at = 0; at < it->count; at++) store_drop(CHUNKS, it->numbers[at]);
        free(it->numbers);
        free(it->lengths);
        free(it->sums);
        free(it);
        larges[number] = NULL;
    }
    if (!took_pending(number)) store_drop(OBJECTS, number);
}

struct reading {
    uint64_t skipped;
    size_t length, done;
    unsigned char *out;
};

static void see_bytes(uint64_t number, struct bytes row, void *with) {
    (void)number;
    struct reading *it = with;
    size_t has = row.length - it->skipped, left = it->length - it->done, part = has < left ? has : left;
    memcpy(it->out + it->done, row.at + it->skipped, part);
    it->done += part;
    it->skipped = 0;
}

size_t object_read(uint64_t number, uint64_t position, size_t length, unsigned char *out) {
    struct large *it = find(number);
    struct reading reading = {position, length, 0, out};
    if (it == NULL) {
        if (pending_place(number) > 0) return 0;
        struct bytes row = store_get(OBJECTS, number);
        if (position < row.length) see_bytes(number, row, &reading);
        return reading.done;
    }
    if (position >= it->size || length == 0) return 0;
    size_t place = locate(it, &reading.skipped), last = place;
    for (uint64_t seen = it->lengths[place] - reading.skipped; seen < length && last + 1 < it->count;)
        seen += it->lengths[++last];
    store_rows(CHUNKS, it->numbers[place], it->numbers[last], see_bytes, &reading);
    return reading.done;
}

uint64_t object_size(uint64_t number) {
    struct large *it = find(number);
    if (it != NULL) return it->size;
    return pending_place(number) > 0 ? 0 : store_get(OBJECTS, number).length;
}

struct listing {
    void (*seen)(uint64_t number, void *with);
    void *with;
};

static void see_object(uint64_t number, struct bytes row, void *with) {
    (void)row;
    struct listing *it = with;
    it->seen(number, it->with);
}

void objects_list(void (*seen)(uint64_t number, void *with), void *with) {
    struct listing listing = {seen, with};
    store_lengths(OBJECTS, see_object, &listing);
}
