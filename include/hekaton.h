/* Vadungsil in a C program: proved read replicas, behind functions of C89 or later and of C++.
   Link with -lhekaton (pkg-config hekaton). docs/EMBEDDING.md tells the rest.

   What each function does is proved, for callers that keep to this:
   - a handle begins as HK_CLOSED, and from then on only the functions write to its fields. Between two calls it may be
     moved, for the library keeps no address of it: all of it goes to another place, which is the handle from then on,
     and the place before is forgotten, or made HK_CLOSED again. Two places are never both used;
   - one call at a time for a handle, on any thread, reads too: each call takes the replica out of the handle and puts it
     back, so no handle is const; calls for two handles may run at once;
   - each pointer points to what its type says, also where a length is 0 (then to anything but NULL); and what two
     pointers of one call point to does not overlap, the two handles of hk_merge included;
   - not from a signal handler, nor in a forked child of a process with threads;
   - malloc, realloc and free are one allocator, whose blocks are aligned to 16.

   Each function but hk_reply, hk_close, hk_words and hk_version answers 0, or the number of a refusal, which hk_words
   puts in words: 255 at a closed handle, and then nothing happens; 90 where memory ran out. A refused call changes
   nothing in the replica, where it does not say otherwise. A time is 0 to 2^62, else the number is 6. */
#ifndef HEKATON_H
#define HEKATON_H

#include <stddef.h>
#include <stdint.h>
#ifndef __cplusplus
#include <stdbool.h>
#endif

#ifdef __cplusplus
extern "C" {
#endif

/* The version of all of Vadungsil, which this header is of; hk_version tells that of the library. */
#define HEKATON_VERSION "0.1.0"

/* The numbers that functions and replies refuse with, by their names in docs/FORMATS.md; 0 is no refusal. The last is
   that of a closed handle. */
enum hk_refusal {
    HK_TRUNCATED = 1,
    HK_TOO_LONG = 2,
    HK_BAD_VERSION = 3,
    HK_BAD_KIND = 4,
    HK_BAD_STREAM = 5,
    HK_BAD_NUMBER = 6,
    HK_BAD_ORDER = 7,
    HK_BAD_COUNT = 8,
    HK_BAD_BODY = 9,
    HK_WRONG_LENGTH = 10,
    HK_FOREIGN_LOG = 20,
    HK_WRONG_STREAMS = 21,
    HK_GAP = 22,
    HK_CONFLICT = 23,
    HK_AHEAD_OF_MARK = 24,
    HK_TOO_OLD = 25,
    HK_NOT_YET = 26,
    HK_WRITE_CONFLICT = 30,
    HK_NO_ROW = 31,
    HK_TWICE_WRITTEN = 32,
    HK_TOO_MANY_WRITES = 33,
    HK_NO_STREAM = 34,
    HK_CLOCK_FULL = 35,
    HK_RETIRED = 36,
    HK_HELD = 40,
    HK_DAMAGED = 41,
    HK_UNPUBLISHED = 42,
    HK_NODE_FULL = 43,
    HK_NO_HOLD = 44,
    HK_NO_SUCH = 45,
    HK_LINK_FULL = 46,
    HK_NO_PART = 47,
    HK_MEMORY = 90,
    HK_READ_FAULT = 91,
    HK_WRITE_FAULT = 92,
    HK_NET_FAULT = 93,
    HK_CLOSED_HANDLE = 255
};

/* A replica, or nothing. */
typedef struct hk_handle { void *at; bool live; } hk_handle;
#define HK_CLOSED { NULL, false }

/* Whether there is a row, its tag, and how many bytes its body has. */
typedef struct hk_found { bool row; uint32_t tag; size_t len; } hk_found;

/* Of a page of rows: whether others follow, how many rows it has, the key of the last (0 where it has none), and how many
   bytes they have. */
typedef struct hk_page { bool more; size_t rows; uint64_t last; size_t len; } hk_page;

/* The least and the greatest time that can be asked, and how many operations the replica has done. */
typedef struct hk_bounds { uint64_t horizon; uint64_t readable; uint64_t ops; } hk_bounds;

/* Opens a replica of a log of 1 to 64 streams. What the handle held is let go, also where this is refused: then the
   handle is closed. 5: a number of streams outside 1 to 64. */
uint8_t hk_open(hk_handle *handle, uint64_t log, uint16_t streams);

/* Lets the replica go. A closed handle stays closed. */
void hk_close(hk_handle *handle);

/* Answers requests: 0 or more whole frames (docs/FORMATS.md). Their replies are kept; as many of their bytes as fit go
   to out, and *written is how many there are. 1 to 10: the fault of what follows the requests that were answered, told
   in a last reply; 90, 92: memory for the replies ran out, and a part of them is kept. What was answered stands. */
uint8_t hk_call(hk_handle *handle, const uint8_t *requests, size_t requests_len,
                uint8_t *out, size_t out_len, size_t *written);

/* Copies the replies of the last hk_call, or the rows of the last hk_range, hk_by_tag or page, from a position on. How
   many bytes were copied: 0 at a closed handle. */
size_t hk_reply(hk_handle *handle, size_t from, uint8_t *out, size_t out_len);

/* Takes the next piece of a stream of item frames. What is cut off at its end is kept for the next piece. The items of
   the frames that are whole now are taken all together, or refused together: 20, 21, 23, 43 or 90, and then they are
   gone from the stream, and what follows them is not. 1 to 10: the fault of what follows the items that were taken,
   and so answers each piece from then on, until hk_finish. */
uint8_t hk_absorb(hk_handle *handle, const uint8_t *piece, size_t piece_len);

/* Ends the stream of item frames, and begins another. 1: a frame was cut off; 2 to 10: the fault that was met. */
uint8_t hk_finish(hk_handle *handle);

/* The row of a table at a key at a time. As much of its body as fits goes to out. 25: the time is below the horizon,
   26: it is above the readable mark. */
uint8_t hk_get(hk_handle *handle, uint64_t time, uint16_t table, uint64_t key,
               hk_found *found, uint8_t *out, size_t out_len);

/* How many rows a table has at a time. 25, 26 as above. */
uint8_t hk_count(hk_handle *handle, uint64_t time, uint16_t table, uint64_t *count);

/* The rows of a table with keys from low to high, both inside, at a time. Each row is its key in 8 bytes, its tag in 4
   and the length of its body in 2, the high byte first, and then its body; keys rise. *needed is how many bytes they
   have; as many as fit go to out, and hk_reply gives the rest. Where it is refused (25, 26) *needed is 0. */
uint8_t hk_range(hk_handle *handle, uint64_t time, uint16_t table, uint64_t low, uint64_t high,
                 uint8_t *out, size_t out_len, size_t *needed);

/* The rows of a table with a tag and keys from low on, at a time, as hk_range gives them. */
uint8_t hk_by_tag(hk_handle *handle, uint64_t time, uint16_t table, uint32_t tag, uint64_t low,
                  uint8_t *out, size_t out_len, size_t *needed);

/* The first rows of hk_range: at most most of them, and no more than 268,435,449 bytes. *page tells whether others follow:
   those come with low = page->last + 1. page->len is how many bytes the rows have; as many as fit go to out, and hk_reply
   gives the rest. Where it is refused (25, 26 as above) *page is all 0. With most = 0 no row comes. */
uint8_t hk_range_page(hk_handle *handle, uint64_t time, uint16_t table, uint64_t low, uint64_t high, uint32_t most,
                      uint8_t *out, size_t out_len, hk_page *page);

/* The first rows of hk_by_tag, at most most of them, told as by hk_range_page. The rows that come are bounded, and not
   what the call costs: it goes through all rows with the tag, as hk_by_tag does, and needs the memory of them. */
uint8_t hk_by_tag_page(hk_handle *handle, uint64_t time, uint16_t table, uint32_t tag, uint64_t low, uint32_t most,
                       uint8_t *out, size_t out_len, hk_page *page);

/* From where to where the replica can be read. */
uint8_t hk_front(hk_handle *handle, hk_bounds *bounds);

/* Drops what ended at a horizon or before, and makes it the least time that can be asked. 24: it is above the
   readable mark. */
uint8_t hk_prune(hk_handle *handle, uint64_t horizon);

/* Joins all that another handle's replica holds; that one stays as it is. 20, 21: it is of another log or has another
   number of streams; 23: a conflict. */
uint8_t hk_merge(hk_handle *handle, hk_handle *peer);

/* What a number means and what to do, in a line of ASCII; as many of its bytes as fit go to out, with no zero byte
   after. How many bytes the line has: 0 for a number that no refusal has. */
size_t hk_words(uint8_t number, uint8_t *out, size_t out_len);

/* The version of the library, as "0.1.0" with its zero byte; as many of these bytes as fit go to out. How many there
   are, the zero byte too: so out has a string of C where that is at most out_len. */
size_t hk_version(uint8_t *out, size_t out_len);

#ifdef __cplusplus
}
#endif
#endif
