/* The calls of imgcopy for C, and for any language that calls C: they check a log, redo it, find
 * where a crash has left it, recover a database from it, and audit image copies against it.
 *
 * A caller passes bytes that it has in memory: the bytes of a file, as `imgcopy run --save` or
 * `imgcopy open` wrote it. No call opens a file, prints, starts a thread, takes a lock, ends the
 * process or keeps a pointer, and there is nothing to free. Calls may run at the same time in
 * several threads.
 *
 * Each call returns an `imgcopy_outcome`. Its code is 0, or says why not: a fault of the files has
 * the number that `imgcopy` prints, as 31 for `E31 BadRecord 128`, and its numbers follow it in
 * `first` and `second`. An LSN is the offset of a record in its log, in bytes.
 *
 * What each call says is proved, of all bytes that a caller may pass, and holds under what C has to
 * see to: that a pointer is that of as many bytes as its length says, or NULL with the length 0;
 * that what a call writes overlaps nothing that it reads; that no other thread writes there
 * meanwhile; and that `malloc`, `realloc` and `free` are those of a C library. */
/* tools/header.py made this file of crates/imgcopy_c/src/lib.rt. */
#ifndef IMGCOPY_H
#define IMGCOPY_H

#include <stddef.h>
#include <stdint.h>

#define IMGCOPY_ABI 1

#ifdef __cplusplus
#define IMGCOPY_ASSERT(holds) static_assert(holds, #holds)
extern "C" {
#elif defined(__STDC_VERSION__) && __STDC_VERSION__ >= 201112L
#define IMGCOPY_ASSERT(holds) _Static_assert(holds, #holds)
#else
#define IMGCOPY_ASSERT(holds) struct imgcopy_assertion
#endif

/* The codes of an outcome. Those from 1 to 41 are the faults that imgcopy prints by these numbers. */
enum {
    IMGCOPY_OK = 0,
    IMGCOPY_OUT_OF_MEMORY = 1,
    IMGCOPY_LOG_FULL = 8,
    IMGCOPY_BAD_HEADER = 30,
    IMGCOPY_BAD_RECORD = 31,
    IMGCOPY_TORN = 32,
    IMGCOPY_READ_FAULT = 33,
    IMGCOPY_TOO_LONG = 34,
    IMGCOPY_BAD_CHAIN = 35,
    IMGCOPY_BAD_ARCHIVE = 36,
    IMGCOPY_CHAIN_BROKEN = 37,
    IMGCOPY_COUNT_DIFFERS = 38,
    IMGCOPY_REDO_BEYOND_LOG = 39,
    IMGCOPY_PAGE_BEYOND_LOG = 40,
    IMGCOPY_UNSOUND = 41,
    /* The code where the caller's room is too short. `first` is how many bytes are needed. */
    IMGCOPY_TOO_SHORT = 1000,
    /* The code where the lengths of the archives do not add up to the bytes that were passed. */
    IMGCOPY_LENGTHS_DIFFER = 1001
};

/* What a call answers. */
typedef struct imgcopy_outcome {
    /* 0 if the call did what it is for. Else the number of the fault, as 31 for `E31 BadRecord`, or
     * one from 1000 on, which is about what was passed and not about the files. */
    uint32_t code;
    /* With code 0 what the call says. Else the first number of the fault, as the offset of a
     * record; 0 if it has none. */
    uint64_t first;
    /* With code 0 what the call says. Else the second number of the fault; 0 if it has none. */
    uint64_t second;
    /* With code 0 what the call says. Else 0. */
    uint64_t third;
} imgcopy_outcome;

IMGCOPY_ASSERT(offsetof(imgcopy_outcome, code) == 0);
IMGCOPY_ASSERT(offsetof(imgcopy_outcome, first) == 8);
IMGCOPY_ASSERT(offsetof(imgcopy_outcome, second) == 16);
IMGCOPY_ASSERT(offsetof(imgcopy_outcome, third) == 24);
IMGCOPY_ASSERT(sizeof(imgcopy_outcome) == 32);
IMGCOPY_ASSERT(sizeof(size_t) == 8);

/* Returns the version of these calls, which is `IMGCOPY_ABI` in the header of the same version. */
uint32_t imgcopy_abi(void);

/* Checks whether the bytes are a whole log, as `imgcopy redo` does before it writes.
 *
 * With code 0 `first` is how many pages the log's volume has, `second` how many records the log
 * has, and `third` the LSN behind the last one, which is the log's length.
 *
 * Codes: 30, 31, 32, 34 and 35 for the first fault of the bytes, with the record's offset at 31, 32
 * and 35; 1 if memory is refused. The call takes 512 bytes of memory for each page of the volume,
 * some 300 KB, and what the transactions take that are open at the same time. */
imgcopy_outcome imgcopy_check_log(const uint8_t *log, size_t log_length);

/* Redoes a whole log, as `imgcopy redo` does, and puts its volume at the front of the caller's
 * room: 512 bytes for each page, in the order of their numbers.
 *
 * With code 0 `first` is how many bytes were put there. Those behind them are as they were.
 *
 * Codes: `IMGCOPY_TOO_SHORT` if the room is too short; then `first` is how many bytes are needed,
 * 33,554,432 at most. Else those of `imgcopy_check_log`. With any code but 0 the room is as it was. */
imgcopy_outcome imgcopy_redo(
    const uint8_t *log, size_t log_length, uint8_t *volume, size_t volume_length);

/* Finds where the bytes of a log are to be cut that a crash has left: the longest front of them
 * that is a log.
 *
 * With code 0 `first` is the offset at which this front ends. `second` is 0 if that is all of the
 * bytes; else it is the code that `imgcopy_check_log` returns for them, 31, 32, 34 or 35. `third`
 * is the LSN of the first record behind the front that was forced, or 0. If it is not 0, records
 * are lost that no crash takes: do not cut such a log, but restore it from elsewhere.
 *
 * Codes: 30 if no log begins so; 1 if memory is refused. */
imgcopy_outcome imgcopy_log_prefix(const uint8_t *log, size_t log_length);

/* Recovers a database from its whole log, as a restart after a crash does: redoes the log over
 * formatted pages, and undoes the transactions that are open at its end. First cut the log where
 * `imgcopy_log_prefix` says.
 *
 * Puts the volume at the front of `volume`, as `imgcopy_redo` does, and at the front of `tail` the
 * records that undo appends to the log, 64 bytes each. Behind the log these make a log in which no
 * transaction is open, and each slot of the volume has what was committed. So store the tail behind
 * the log before you go on with the volume.
 *
 * With code 0 `first` is how many bytes of the volume were put there, and `second` how many of the
 * tail. Those behind them are as they were.
 *
 * Codes: `IMGCOPY_TOO_SHORT` if one of the two is too short; then the volume needs `first` bytes,
 * and the tail `second`. 8 if the log has no room for the records of undo: no engine leaves such a
 * log. Else those of `imgcopy_check_log`. With any code but 0 both are as they were. The call keeps
 * the log's records in memory, some 80 bytes each. */
imgcopy_outcome imgcopy_recover(
    const uint8_t *log, size_t log_length, uint8_t *volume, size_t volume_length,
    uint8_t *tail, size_t tail_length);

/* Audits a chain of image copies against a log, as `imgcopy audit` does. With code 0 a restore of
 * the chain, and of the chain up to each of its copies, gives what the log says, whoever wrote the
 * copies.
 *
 * `archives` has the bytes of the copies' archives one behind another, the full copy first, and
 * `lengths` how many bytes each of them has.
 *
 * Codes: `IMGCOPY_LENGTHS_DIFFER` if the lengths do not add up to the bytes. Else those of
 * `imgcopy_check_log`; 36 with an offset in an archive, 37 with the id of a copy, 38, 39, 40 with
 * the number of a page; and 41 with the id of a copy in `first` and the number of a page of it in
 * `second`, which is not what the log made of it. */
imgcopy_outcome imgcopy_audit(
    const uint8_t *log, size_t log_length, const uint8_t *archives, size_t archives_length,
    const size_t *lengths, size_t lengths_count);

#ifdef __cplusplus
}
#endif
#undef IMGCOPY_ASSERT

#endif
