/* Calls the library for C.
 *
 * usage: c_calls LOG VOLUME ARCHIVE..     prints what each call answers, a line each, and writes the volume
 *        c_calls --draw COUNT SEED LOG.. changes bytes of these logs so many times, and of each one tries whether what
 *                                        the calls answer of it agrees
 *        c_calls --refuse LOG ARCHIVE..  refuses each allocation of each call in turn
 *
 * It is linked with --wrap for malloc and realloc, so that it can refuse what the library asks for.
 */
#include "imgcopy.h"

#include <inttypes.h>
#include <stdio.h>
#include <stdlib.h>
#include <string.h>

enum { MOST_VOLUME = 65536 * 512, BEHIND = 64, MARK = 0xa5 };

typedef struct bytes {
    uint8_t *at;
    size_t length;
} bytes;

void *__real_malloc(size_t size);
void *__real_realloc(void *at, size_t size);
void *__wrap_malloc(size_t size);
void *__wrap_realloc(void *at, size_t size);

/* Counts down to the allocation that is refused; below 0 none is. */
static long until_refused = -1;

static int is_refused(void) {
    return until_refused >= 0 && until_refused-- == 0;
}

void *__wrap_malloc(size_t size) {
    return is_refused() ? NULL : __real_malloc(size);
}

void *__wrap_realloc(void *at, size_t size) {
    return is_refused() ? NULL : __real_realloc(at, size);
}

static void fail(const char *why, const char *what) {
    fprintf(stderr, "c_calls: %s: %s\n", why, what);
    exit(1);
}

/* A block that ends where its bytes do, so that a read behind them is seen. */
static uint8_t *block(size_t length) {
    uint8_t *made = malloc(length ? length : 1);
    if (!made) fail("out of memory", "a block");
    return made;
}

static bytes read_file(const char *name) {
    FILE *file = fopen(name, "rb");
    if (!file || fseek(file, 0, SEEK_END)) fail("it cannot be read", name);
    long end = ftell(file);
    if (end < 0) fail("it has no length", name);
    rewind(file);
    bytes read = {block((size_t)end), (size_t)end};
    if (fread(read.at, 1, read.length, file) != read.length) fail("it cannot be read", name);
    fclose(file);
    return read;
}

static void tell(const char *call, imgcopy_outcome it) {
    printf("%s %" PRIu32 " %" PRIu64 " %" PRIu64 " %" PRIu64 "\n", call, it.code, it.first, it.second, it.third);
}

/* Reads these files one behind another. */
static bytes read_files(char **names, size_t count, size_t *lengths) {
    bytes all = {block(0), 0};
    for (size_t i = 0; i < count; i++) {
        bytes one = read_file(names[i]);
        all.at = realloc(all.at, all.length + one.length + 1);
        if (!all.at) fail("out of memory", names[i]);
        memcpy(all.at + all.length, one.at, one.length);
        all.length += one.length;
        lengths[i] = one.length;
        free(one.at);
    }
    return all;
}

static void tell_files(char **names, size_t count) {
    size_t *lengths = malloc(sizeof *lengths * count);
    if (!lengths) fail("out of memory", "the lengths");
    bytes log = read_file(names[0]), archives = read_files(names + 2, count - 2, lengths);
    uint8_t *volume = block(MOST_VOLUME);
    tell("check", imgcopy_check_log(log.at, log.length));
    imgcopy_outcome made = imgcopy_redo(log.at, log.length, volume, MOST_VOLUME);
    tell("redo", made);
    tell("prefix", imgcopy_log_prefix(log.at, log.length));
    tell("audit", imgcopy_audit(log.at, log.length, archives.at, archives.length, lengths, count - 2));
    FILE *file = fopen(names[1], "wb");
    size_t length = made.code == 0 ? (size_t)made.first : 0;
    if (!file || fwrite(volume, 1, length, file) != length || fclose(file)) fail("it cannot be written", names[1]);
    free(lengths), free(archives.at), free(volume), free(log.at);
}

/* Draws numbers, by the generator xorshift64*. */
static uint64_t drawn = 1;

static size_t below(size_t bound) {
    drawn ^= drawn >> 12, drawn ^= drawn << 25, drawn ^= drawn >> 27;
    return (size_t)((drawn * UINT64_C(2685821657736338717)) >> 33) % bound;
}

static void hold(int holds, const char *what) {
    if (!holds) fail("the calls do not agree", what);
}

/* A log with its tail has nothing to undo, and redo of it makes the same volume. */
static void try_recovery(const uint8_t *log, size_t length) {
    imgcopy_outcome needs = imgcopy_recover(log, length, NULL, 0, NULL, 0);
    hold(needs.code == IMGCOPY_TOO_SHORT && needs.first > 0 && needs.second % 64 == 0, "a recovery needs room");
    size_t of_volume = (size_t)needs.first, of_tail = (size_t)needs.second;
    uint8_t *volume = block(of_volume), *again = block(of_volume), *whole = block(length + of_tail);
    memcpy(whole, log, length);
    imgcopy_outcome found = imgcopy_recover(log, length, volume, of_volume, whole + length, of_tail);
    hold(found.code == 0 && found.first == of_volume && found.second == of_tail, "and puts as much there");
    imgcopy_outcome redo = imgcopy_redo(whole, length + of_tail, again, of_volume);
    hold(redo.code == 0 && memcmp(volume, again, of_volume) == 0, "the log with its tail makes the volume");
    found = imgcopy_recover(whole, length + of_tail, again, of_volume, NULL, 0);
    hold(found.code == 0 && found.second == 0 && memcmp(volume, again, of_volume) == 0, "and has nothing to undo");
    free(volume), free(again), free(whole);
}

static void try_log(const uint8_t *log, size_t length, uint8_t *room, size_t room_length) {
    imgcopy_outcome check = imgcopy_check_log(log, length), prefix = imgcopy_log_prefix(log, length);
    memset(room, MARK, room_length);
    imgcopy_outcome redo = imgcopy_redo(log, length, room, room_length);
    size_t put = redo.code == 0 ? (size_t)redo.first : 0;
    hold(put <= room_length, "the volume is in the room");
    for (size_t i = put; i < room_length; i++) hold(room[i] == MARK, "what is behind the volume stays");
    hold(check.code != IMGCOPY_READ_FAULT, "bytes in memory can be read");
    hold(prefix.code == (check.code == IMGCOPY_BAD_HEADER ? IMGCOPY_BAD_HEADER : 0), "no front is for no header alone");
    if (check.code == 0) {
        uint64_t needed = check.first * 512;
        hold(check.third == length && check.second == length / 64 - 1, "the counts are those of the length");
        hold(redo.first == needed && redo.code == (needed <= room_length ? 0 : IMGCOPY_TOO_SHORT), "512 bytes a page");
        hold(prefix.first == length && prefix.second == 0 && prefix.third == 0, "a whole log is its front");
        try_recovery(log, length);
        return;
    }
    hold(redo.code == check.code && redo.first == check.first, "redo finds what the check finds");
    if (check.code == IMGCOPY_BAD_HEADER) return;
    hold(prefix.second == check.code && (prefix.first == check.first || check.first == 0), "so does the front");
    hold(imgcopy_check_log(log, (size_t)prefix.first).code == 0, "the front is a log");
    try_recovery(log, (size_t)prefix.first);
    hold(prefix.third == 0 || prefix.third >= prefix.first, "what was forced is behind the front");
}

/* Changes some bytes, cuts the log, or puts drawn bytes in its place, and tries it. */
static void try_drawn(bytes from) {
    size_t length = below(8) ? from.length : below(from.length + 1), changes = below(4);
    uint8_t *log = block(length), *room = block(MOST_VOLUME / 64 + BEHIND);
    memcpy(log, from.at, length);
    for (size_t i = 0; i < changes && length; i++) log[below(length)] = (uint8_t)below(256);
    if (below(64) == 0)
        for (size_t i = 0; i < length; i++) log[i] = (uint8_t)below(256);
    try_log(log, length, room, below(2048) + (below(16) ? 0 : MOST_VOLUME / 64 - 2048));
    size_t lengths[2] = {below(length + 1), 0};
    lengths[1] = below(16) ? length - lengths[0] : below(length + 1);
    imgcopy_outcome audit = imgcopy_audit(from.at, from.length, log, length, lengths, 2);
    hold(audit.code != 0, "a log is no archive");
    hold((audit.code == IMGCOPY_LENGTHS_DIFFER) == (lengths[0] + lengths[1] != length), "the lengths add up");
    free(log), free(room);
}

/* Makes each call again and again, and refuses it one allocation later each time, until it is refused none: it has to
 * answer 1 until then, and to leave both rooms as they were. */
static void refuse_each(char **names, size_t count) {
    enum { ROOM = 1 << 20 };
    size_t lengths[64];
    bytes log = read_file(names[0]), archives = read_files(names + 1, count - 1, lengths);
    uint8_t *rooms = block(2 * ROOM);
    for (int call = 0; call < 5; call++) {
        for (long turn = 0;; turn++) {
            imgcopy_outcome it;
            memset(rooms, MARK, 2 * ROOM);
            until_refused = turn;
            switch (call) {
            case 0: it = imgcopy_check_log(log.at, log.length); break;
            case 1: it = imgcopy_redo(log.at, log.length, rooms, ROOM); break;
            case 2: it = imgcopy_log_prefix(log.at, log.length); break;
            case 3: it = imgcopy_recover(log.at, log.length, rooms, ROOM, rooms + ROOM, ROOM); break;
            default: it = imgcopy_audit(log.at, log.length, archives.at, archives.length, lengths, count - 1);
            }
            int was_refused = until_refused < 0;
            until_refused = -1;
            if (!was_refused) {
                hold(it.code == 0 && turn > 0, "a call that is refused nothing goes well");
                break;
            }
            hold(it.code == IMGCOPY_OUT_OF_MEMORY && it.first == 0, "a refused allocation is told");
            for (size_t i = 0; i < 2 * ROOM; i++) hold(rooms[i] == MARK, "both rooms are as they were");
        }
    }
    free(rooms), free(archives.at), free(log.at);
}

int main(int count, char **words) {
    hold(imgcopy_abi() == IMGCOPY_ABI, "the header is of this library");
    if (count >= 5 && strcmp(words[1], "--draw") == 0) {
        unsigned long times = strtoul(words[2], NULL, 10);
        drawn = strtoul(words[3], NULL, 10) | 1;
        for (int i = 4; i < count; i++) {
            bytes log = read_file(words[i]);
            for (unsigned long turn = 0; turn < times; turn++) try_drawn(log);
            free(log.at);
        }
        return 0;
    }
    if (count < 3) fail("usage", "c_calls LOG VOLUME ARCHIVE.., or with --draw or --refuse");
    if (strcmp(words[1], "--refuse") == 0) {
        refuse_each(words + 2, (size_t)count - 2);
        return 0;
    }
    tell_files(words + 1, (size_t)count - 1);
    return 0;
}
