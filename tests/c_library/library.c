/* Calls each function of the library as C89. library: checks, one line each, and then 'N passed, M failed'.
   library moved: those of handles that are moved alone.
   library play: lines 'open LOG STREAMS' and 'call HEX' from standard input, each answered by a line 'NUMBER HEX'.
   library cut FILE: a replica is sent each front of the file's bytes. library mutate FILE COUNT: that many calls whose bytes are mutated.
   library starve FILE: each request for memory is refused in turn (linked with -Wl,--wrap=malloc -Wl,--wrap=realloc).
   library time FILE COUNT: what calls cost. */
#include "hekaton.h"
#include <pthread.h>
#include <stdio.h>
#include <stdlib.h>
#include <string.h>
#include <time.h>

static int passed = 0, failed = 0;
static const uint8_t ITEM[] = {
    0, 0, 0, 0x31, 1, 1, 0, 0, 0, 0, 0, 0, 0, 7, 0, 1, 0, 0, 0, 0, 0, 0, 0, 1, 0, 0, 0, 0, 0, 0, 0, 1,
    0, 0, 0, 1, 0, 1, 0, 0, 0, 0, 0, 0, 0, 5, 0, 0, 0, 9, 0, 1, 0x41 };
static const uint8_t MARK[] = {
    0, 0, 0, 0x1c, 1, 2, 0, 0, 0, 0, 0, 0, 0, 7, 0, 1, 0, 0, 0, 0, 0, 0, 0, 1, 0, 0, 0, 0, 0, 0, 0, 1 };
static const uint8_t FRONT[] = { 0, 0, 0, 2, 1, 0x11 };
static const uint8_t ROW[] = { 0, 0, 0, 0, 0, 0, 0, 5, 0, 0, 0, 9, 0, 1, 0x41 };

static void want(const char *what, int holds) {
    if (holds) passed++; else { failed++; printf("FAILED %s\n", what); }
}

static hk_handle fresh(void) { hk_handle h = HK_CLOSED; return h; }

static void fill(hk_handle *h) {
    want("open", hk_open(h, 7, 1) == 0 && h->live);
    want("absorb an item", hk_absorb(h, ITEM, sizeof ITEM) == 0);
    want("absorb a mark", hk_absorb(h, MARK, sizeof MARK) == 0);
}

static void sizes(void) {
    want("sizes", sizeof(hk_handle) == 16 && offsetof(hk_handle, live) == 8);
    want("sizes of a row", sizeof(hk_found) == 16 && offsetof(hk_found, tag) == 4 && offsetof(hk_found, len) == 8);
    want("sizes of a page", sizeof(hk_page) == 32 && offsetof(hk_page, rows) == 8 && offsetof(hk_page, last) == 16 && offsetof(hk_page, len) == 24);
    want("sizes of bounds", sizeof(hk_bounds) == 24 && offsetof(hk_bounds, readable) == 8 && offsetof(hk_bounds, ops) == 16);
}

static const hk_page STALE = { true, 9, 9, 9 };

static int is_page(const hk_page *p, int more, size_t rows, uint64_t last, size_t len) {
    return p->more == more && p->rows == rows && p->last == last && p->len == len;
}

static void closed(void) {
    hk_handle h = HK_CLOSED, peer = HK_CLOSED; uint8_t out[8] = { 1, 2, 3 }; size_t n = 9; hk_page page = STALE, other = STALE; uint64_t count = 9; hk_found found; hk_bounds bounds;
    want("closed: call", hk_call(&h, FRONT, sizeof FRONT, out, sizeof out, &n) == 255 && n == 0);
    want("closed: reply", hk_reply(&h, 0, out, sizeof out) == 0);
    want("closed: absorb, finish", hk_absorb(&h, ITEM, sizeof ITEM) == 255 && hk_finish(&h) == 255);
    want("closed: get, count", hk_get(&h, 1, 1, 5, &found, out, sizeof out) == 255 && hk_count(&h, 1, 1, &count) == 255);
    want("closed: range", hk_range(&h, 1, 1, 0, 9, out, sizeof out, &n) == 255);
    want("closed: by tag", hk_by_tag(&h, 1, 1, 9, 0, out, sizeof out, &n) == 255);
    want("closed: pages", hk_range_page(&h, 1, 1, 0, 9, 5, out, sizeof out, &page) == 255 && is_page(&page, 0, 0, 0, 0)
         && hk_by_tag_page(&h, 1, 1, 9, 0, 5, out, sizeof out, &other) == 255 && is_page(&other, 0, 0, 0, 0));
    want("closed: front, prune", hk_front(&h, &bounds) == 255 && hk_prune(&h, 1) == 255);
    want("closed: merge", hk_merge(&h, &peer) == 255);
    want("closed: the buffer", out[0] == 1 && out[1] == 2 && out[2] == 3);
    hk_close(&h); hk_close(&h);
    want("closed: stays so", !h.live && h.at == NULL);
    want("open: streams", hk_open(&h, 7, 0) == 5 && hk_open(&h, 7, 65) == 5 && !h.live);
    want("open: the most streams", hk_open(&h, 7, 64) == 0 && h.live);
    want("merge: a closed peer", hk_merge(&h, &peer) == 255 && h.live && !peer.live);
    want("merge: into a closed one", hk_merge(&peer, &h) == 255 && h.live && !peer.live);
    want("open: again, refused", hk_open(&h, 7, 0) == 5 && !h.live);
}

static void reads(void) {
    hk_handle h = fresh(); uint8_t out[64]; size_t n; uint64_t count; hk_found found; hk_bounds bounds;
    fill(&h);
    want("front", hk_front(&h, &bounds) == 0 && bounds.horizon == 0 && bounds.readable == 1 && bounds.ops == 3);
    want("get", hk_get(&h, 1, 1, 5, &found, out, sizeof out) == 0 && found.row && found.tag == 9 && found.len == 1 && out[0] == 0x41);
    out[0] = 7;
    want("get: no room", hk_get(&h, 1, 1, 5, &found, out, 0) == 0 && found.row && found.len == 1 && out[0] == 7);
    want("get: no row", hk_get(&h, 1, 1, 6, &found, out, sizeof out) == 0 && !found.row && out[0] == 7);
    want("get: not yet", hk_get(&h, 2, 1, 5, &found, out, sizeof out) == 26);
    want("get: no time", hk_get(&h, ((uint64_t)1 << 62) + 1, 1, 5, &found, out, sizeof out) == 6);
    want("count", hk_count(&h, 1, 1, &count) == 0 && count == 1 && hk_count(&h, 1, 2, &count) == 0 && count == 0 && hk_count(&h, 2, 1, &count) == 26);
    want("range", hk_range(&h, 1, 1, 0, 9, out, sizeof out, &n) == 0 && n == sizeof ROW && !memcmp(out, ROW, n));
    memset(out, 7, sizeof out);
    want("range: too small by one", hk_range(&h, 1, 1, 5, 5, out, sizeof ROW - 1, &n) == 0 && n == sizeof ROW && !memcmp(out, ROW, n - 1) && out[n - 1] == 7);
    want("range: the rest", hk_reply(&h, sizeof ROW - 1, out, sizeof out) == 1 && out[0] == 0x41);
    want("range: none", hk_range(&h, 1, 1, 6, 4, out, 0, &n) == 0 && n == 0 && hk_range(&h, 2, 1, 0, 9, out, 0, &n) == 26 && n == 0);
    want("by tag", hk_by_tag(&h, 1, 1, 9, 5, out, sizeof out, &n) == 0 && n == sizeof ROW && !memcmp(out, ROW, n));
    want("by tag: on from a key", hk_by_tag(&h, 1, 1, 9, 6, out, sizeof out, &n) == 0 && n == 0 && hk_by_tag(&h, 1, 1, 8, 0, out, 0, &n) == 0 && n == 0);
    hk_close(&h); hk_close(&h);
}

/* Rows of keys 5, 6 and 7 with tags 9, 8 and 9. */
static void fill_three(hk_handle *h) {
    uint8_t item[sizeof ITEM], mark[sizeof MARK]; uint8_t i;
    want("three: open", hk_open(h, 7, 1) == 0);
    for (i = 0; i < 3; i++) {
        memcpy(item, ITEM, sizeof item); item[23] = item[31] = (uint8_t)(i + 1); item[45] = (uint8_t)(5 + i); item[49] = i == 1 ? 8 : 9;
        want("three: an item", hk_absorb(h, item, sizeof item) == 0);
    }
    memcpy(mark, MARK, sizeof mark); mark[23] = mark[31] = 3;
    want("three: a mark", hk_absorb(h, mark, sizeof mark) == 0);
}

static void pages(void) {
    hk_handle h = fresh(); uint8_t out[64], all[64]; hk_page page = STALE; size_t n; uint64_t low; size_t rows;
    fill_three(&h);
    want("page: all rows", hk_range(&h, 3, 1, 0, 9, all, sizeof all, &n) == 0 && n == 3 * sizeof ROW);
    want("page: two rows", hk_range_page(&h, 3, 1, 0, 9, 2, out, sizeof out, &page) == 0 && is_page(&page, 1, 2, 6, 2 * sizeof ROW) && !memcmp(out, all, page.len));
    want("page: the rest", hk_range_page(&h, 3, 1, page.last + 1, 9, 2, out, sizeof out, &page) == 0 && is_page(&page, 0, 1, 7, sizeof ROW) && !memcmp(out, all + 2 * sizeof ROW, page.len));
    want("page: just as many", hk_range_page(&h, 3, 1, 5, 7, 3, out, 0, &page) == 0 && is_page(&page, 0, 3, 7, n) && hk_reply(&h, 0, out, sizeof out) == n && !memcmp(out, all, n));
    want("page: none wanted", hk_range_page(&h, 3, 1, 5, 7, 0, out, sizeof out, &page) == 0 && page.rows == 0 && page.len == 0);
    want("page: none there", hk_range_page(&h, 3, 1, 8, 9, 4, out, sizeof out, &page) == 0 && is_page(&page, 0, 0, 0, 0));
    page = STALE;
    want("page: not yet", hk_range_page(&h, 4, 1, 0, 9, 2, out, sizeof out, &page) == 26 && is_page(&page, 0, 0, 0, 0) && hk_range_page(&h, ((uint64_t)1 << 62) + 1, 1, 0, 9, 2, out, sizeof out, &page) == 6);
    for (low = 0, rows = 0; hk_range_page(&h, 3, 1, low, (uint64_t)-1, 1, out, sizeof out, &page) == 0; low = page.last + 1) { rows += page.rows; if (!page.more) break; }
    want("pages of one row", rows == 3);
    memset(out, 7, sizeof out);
    want("page by tag", hk_by_tag_page(&h, 3, 1, 9, 0, 1, out, 4, &page) == 0 && is_page(&page, 1, 1, 5, sizeof ROW) && !memcmp(out, ROW, 4) && out[4] == 7);
    want("page by tag: kept", hk_reply(&h, 0, out, sizeof out) == sizeof ROW && !memcmp(out, ROW, sizeof ROW));
    want("page by tag: the rest", hk_by_tag_page(&h, 3, 1, 9, 6, 1, out, sizeof out, &page) == 0 && is_page(&page, 0, 1, 7, sizeof ROW) && out[7] == 7);
    want("page by tag: none", hk_by_tag_page(&h, 3, 1, 9, 8, 1, out, sizeof out, &page) == 0 && is_page(&page, 0, 0, 0, 0) && hk_by_tag_page(&h, 3, 1, 9, 0, 0, out, sizeof out, &page) == 0 && page.more && page.rows == 0);
    want("page by tag: not yet", hk_by_tag_page(&h, 4, 1, 9, 0, 1, out, sizeof out, &page) == 26 && is_page(&page, 0, 0, 0, 0));
    hk_close(&h);
}

static void feeding(void) {
    hk_handle h = fresh(); size_t i; hk_bounds bounds, after; uint8_t bad[sizeof ITEM], both[2 * sizeof ITEM];
    want("feed: open", hk_open(&h, 7, 1) == 0);
    for (i = 0; i < sizeof ITEM; i++) want("feed: a byte", hk_absorb(&h, ITEM + i, 1) == 0);
    want("feed: nothing", hk_absorb(&h, MARK, 0) == 0 && hk_absorb(&h, MARK, sizeof MARK) == 0);
    want("feed: all came", hk_front(&h, &bounds) == 0 && bounds.readable == 1);
    want("finish", hk_finish(&h) == 0 && hk_absorb(&h, ITEM, 7) == 0 && hk_finish(&h) == 1 && hk_finish(&h) == 0);
    memcpy(bad, ITEM, sizeof bad); bad[4] = 3;
    want("a fault stays", hk_absorb(&h, bad, sizeof bad) == 3 && hk_absorb(&h, MARK, sizeof MARK) == 3 && hk_finish(&h) == 3 && hk_absorb(&h, MARK, sizeof MARK) == 0);
    memcpy(bad, ITEM, sizeof bad); bad[13] = 8;
    want("another log", hk_absorb(&h, bad, sizeof bad) == 20 && hk_absorb(&h, MARK, sizeof MARK) == 0);
    /* two entries of time 3 that give one key two bodies */
    memcpy(bad, ITEM, sizeof bad); memcpy(both, ITEM, sizeof ITEM); memcpy(both + sizeof ITEM, ITEM, sizeof ITEM);
    both[23] = bad[23] = 2; both[31] = bad[31] = 3; both[sizeof ITEM + 23] = 3; both[sizeof ITEM + 31] = 3; both[sizeof both - 1] = 0x43;
    want("a conflict", hk_absorb(&h, both, sizeof both) == 23 && hk_front(&h, &after) == 0 && after.ops == bounds.ops + 2);
    want("a conflict with what is held", hk_absorb(&h, bad, sizeof bad) == 0 && hk_absorb(&h, both + sizeof ITEM, sizeof ITEM) == 23);
    want("nothing but the first was taken", hk_front(&h, &after) == 0 && after.ops == bounds.ops + 3);
    hk_close(&h);
}

static void changes(void) {
    hk_handle h = fresh(), peer = fresh(); hk_bounds bounds; hk_found found; uint8_t out[64];
    fill(&h);
    want("merge: open", hk_open(&peer, 7, 1) == 0 && hk_merge(&peer, &h) == 0);
    want("merge: all is there", hk_get(&peer, 1, 1, 5, &found, out, sizeof out) == 0 && found.row && out[0] == 0x41);
    want("merge: again", hk_merge(&peer, &h) == 0 && hk_front(&h, &bounds) == 0 && bounds.ops == 3);
    want("merge: streams", hk_open(&peer, 7, 2) == 0 && hk_merge(&peer, &h) == 21 && hk_open(&peer, 8, 1) == 0 && hk_merge(&peer, &h) == 20);
    want("prune", hk_prune(&h, 2) == 24 && hk_prune(&h, ((uint64_t)1 << 62) + 1) == 6 && hk_prune(&h, 1) == 0);
    want("prune: too old", hk_get(&h, 0, 1, 5, &found, out, sizeof out) == 25 && hk_front(&h, &bounds) == 0 && bounds.horizon == 1);
    hk_close(&h); hk_close(&peer);
}

static void replies(void) {
    hk_handle h = fresh(); uint8_t out[64], rest[64]; size_t n, i, whole;
    fill(&h);
    want("call: nothing", hk_call(&h, FRONT, 0, out, 0, &n) == 0 && n == 0);
    want("call", hk_call(&h, FRONT, sizeof FRONT, out, sizeof out, &whole) == 0 && whole == 22);
    for (i = 0; i <= whole; i++) {
        memset(rest, 7, sizeof rest);
        want("reply: from", hk_reply(&h, i, rest, sizeof rest) == whole - i && !memcmp(rest, out + i, whole - i) && rest[whole - i] == 7);
        want("call: small buffer", hk_call(&h, FRONT, sizeof FRONT, rest, i, &n) == 0 && n == whole && !memcmp(rest, out, i));
    }
    want("reply: beyond", hk_reply(&h, whole + 9, rest, sizeof rest) == 0 && hk_reply(&h, (size_t)-1, rest, sizeof rest) == 0 && hk_reply(&h, 0, rest, 0) == 0);
    want("call: cut", hk_call(&h, FRONT, 5, out, sizeof out, &n) == 1 && n == 23 && out[5] == 0x24 && out[6] == 1);
    hk_close(&h);
}

/* A handle in one place after the other: what it keeps goes with it, and nothing looks at a place before, which is overwritten or freed. */
static void moved(void) {
    hk_handle h = fresh(), peer = fresh(), *there = malloc(sizeof *there), *last = malloc(sizeof *last);
    hk_bounds bounds; hk_found found; uint8_t out[64], rest[64]; size_t n, whole; uint64_t count;
    fill(&h);
    want("moved: a reply", hk_call(&h, FRONT, sizeof FRONT, out, sizeof out, &whole) == 0 && whole == 22);
    want("moved: a frame that is cut off", hk_absorb(&h, ITEM, 20) == 0);
    *there = h; memset(&h, 0x5a, sizeof h);
    want("moved: the reply", hk_reply(there, 0, rest, sizeof rest) == whole && !memcmp(rest, out, whole));
    want("moved: its rest", hk_absorb(there, ITEM + 20, sizeof ITEM - 20) == 0 && hk_absorb(there, ITEM, 7) == 0);
    memcpy(last, there, sizeof *last); free(there);
    want("moved: finish", hk_finish(last) == 1 && hk_absorb(last, MARK, sizeof MARK) == 0 && hk_finish(last) == 0);
    want("moved: get", hk_get(last, 1, 1, 5, &found, out, sizeof out) == 0 && found.row && found.tag == 9 && out[0] == 0x41);
    want("moved: count, front", hk_count(last, 1, 1, &count) == 0 && count == 1 && hk_front(last, &bounds) == 0 && bounds.readable == 1);
    want("moved: range", hk_range(last, 1, 1, 0, 9, out, 4, &n) == 0 && n == sizeof ROW && hk_reply(last, 4, out, sizeof out) == n - 4);
    want("moved: by tag", hk_by_tag(last, 1, 1, 9, 0, out, sizeof out, &n) == 0 && n == sizeof ROW && !memcmp(out, ROW, n));
    want("moved: merge from it", hk_open(&peer, 7, 1) == 0 && hk_merge(&peer, last) == 0 && hk_count(&peer, 1, 1, &count) == 0 && count == 1);
    h = peer; memset(&peer, 0x5a, sizeof peer);
    want("moved: merge into it", hk_merge(last, &h) == 0 && hk_prune(last, 1) == 0 && hk_front(last, &bounds) == 0 && bounds.horizon == 1);
    want("moved: opened again", hk_open(last, 7, 2) == 0 && last->live && hk_open(last, 7, 0) == 5 && !last->live);
    hk_close(&h); hk_close(last); free(last);
    want("moved: closed", !h.live && h.at == NULL);
}

static void words(void) {
    uint8_t out[512], small[512]; size_t n = hk_words(26, out, sizeof out);
    want("words", n > 20 && n < sizeof out && !memcmp(out, "refused 26: ", 12) && out[n - 1] == '\n');
    memset(small, 7, sizeof small);
    want("words: too small by one", hk_words(26, small, n - 1) == n && !memcmp(small, out, n - 1) && small[n - 1] == 7);
    want("words: none", hk_words(255, out, sizeof out) == 0 && hk_words(26, out, 0) == n);
}

static void version(void) {
    char out[32], small[32]; size_t n = hk_version((uint8_t *)out, sizeof out);
    want("version", n == sizeof WANTED_VERSION && !strcmp(out, WANTED_VERSION));
    memset(small, 7, sizeof small);
    want("version: too small by one", hk_version((uint8_t *)small, n - 1) == n && !memcmp(small, out, n - 1) && small[n - 1] == 7);
    want("version: no room", hk_version((uint8_t *)small, 0) == n && small[n - 1] == 7);
}

static void *work(void *given) {
    long bad = 0; int i; hk_handle h = fresh(); hk_found found; uint8_t out[8]; (void)given;
    bad += hk_open(&h, 7, 1); bad += hk_absorb(&h, ITEM, sizeof ITEM); bad += hk_absorb(&h, MARK, sizeof MARK);
    for (i = 0; i < 20000; i++) bad += hk_get(&h, 1, 1, 5, &found, out, sizeof out) || !found.row || out[0] != 0x41;
    hk_close(&h);
    return (void *)bad;
}

static void *end_it(void *given) { hk_close((hk_handle *)given); return NULL; }

static void threads(void) {
    pthread_t all[2]; void *bad; int i; hk_handle h = fresh();
    for (i = 0; i < 2; i++) want("a thread", pthread_create(&all[i], NULL, work, NULL) == 0);
    for (i = 0; i < 2; i++) want("two threads", pthread_join(all[i], &bad) == 0 && bad == NULL);
    fill(&h);
    want("a thread ends it", pthread_create(&all[0], NULL, end_it, &h) == 0 && pthread_join(all[0], NULL) == 0 && !h.live);
}

/* ---- what a script drives */

static uint8_t bytes[1 << 20]; static size_t size;

static void load(const char *path) {
    FILE *f = fopen(path, "rb"); size = f ? fread(bytes, 1, sizeof bytes, f) : 0; if (f) fclose(f);
}

static void print_hex(int number, const uint8_t *out, size_t n) {
    size_t i;
    printf("%d ", number); for (i = 0; i < n; i++) printf("%02x", out[i]); printf("\n");
}

static int play(void) {
    static char line[1 << 20]; static uint8_t in[1 << 19], out[1 << 20]; hk_handle h = fresh(); size_t n, i; unsigned byte, streams; unsigned long log;
    while (fgets(line, sizeof line, stdin)) {
        if (sscanf(line, "open %lu %u", &log, &streams) == 2) { print_hex(hk_open(&h, log, (uint16_t)streams), out, 0); continue; }
        for (i = 0; sscanf(line + 5 + 2 * i, "%2x", &byte) == 1; i++) in[i] = (uint8_t)byte;
        byte = hk_call(&h, in, i, out, sizeof out, &n);
        print_hex((int)byte, out, n);
    }
    hk_close(&h);
    return 0;
}

static unsigned long state = 88172645463325252UL;
static unsigned long next(void) { state ^= state << 13; state ^= state >> 7; state ^= state << 17; return state; }

static void any_call(hk_handle *h, hk_handle *peer, const uint8_t *in, size_t len) {
    size_t n, room = next() % 256; uint8_t *out = malloc(room + !room); uint64_t count; hk_found found; hk_bounds bounds; uint64_t time = next() % 8 ? next() % 4 : next();
    hk_page page;
    switch (next() % 18) {
    case 0: hk_get(h, time, (uint16_t)(next() % 3), next() % 9, &found, out, room); break;
    case 1: hk_range(h, time, 1, next() % 9, next() % 99, out, room, &n); break;
    case 2: hk_by_tag(h, time, 1, (uint32_t)(next() % 12), next() % 9, out, room, &n); break;
    case 3: hk_count(h, time, 1, &count); hk_front(h, &bounds); break;
    case 4: hk_prune(h, time); break;
    case 5: hk_merge(h, peer); break;
    case 6: hk_finish(h); hk_reply(h, next() % 300, out, room); break;
    case 7: hk_words((uint8_t)next(), out, room); hk_version(out, room % 8); break;
    case 8: if (next() % 8 == 0) hk_close(h); else if (next() % 2) hk_open(peer, 7, 1); else hk_open(h, 7, (uint16_t)(next() % 3)); break;
    case 9: case 10: case 11: hk_absorb(h, in, len); break;
    case 12: hk_range_page(h, time, 1, next() % 9, next() % 99, (uint32_t)(next() % 4), out, room, &page); break;
    case 13: hk_by_tag_page(h, time, 1, (uint32_t)(next() % 12), next() % 9, (uint32_t)(next() % 4), out, room, &page); break;
    default: hk_call(h, in, len, out, room, &n);
    }
    free(out);
}

static int mutate(long rounds) {
    hk_handle h = fresh(), peer = fresh(); long i; uint8_t *in; size_t k, from, len;
    hk_open(&h, 7, 1); hk_open(&peer, 7, 1);
    for (i = 0; i < rounds; i++) {
        from = next() % 3 ? 0 : next() % (size + 1); len = next() % 3 ? size - from : next() % (size - from + 1);
        in = malloc(len + !len); memcpy(in, bytes + from, len);
        for (k = next() % 4; k-- > 0 && len > 0;) in[next() % len] = (uint8_t)(next() % 3 ? next() % 8 : next());
        any_call(&h, &peer, in, len); free(in);
    }
    hk_close(&h); hk_close(&peer);
    printf("%ld calls\n", rounds);
    return 0;
}

static int cut(void) {
    size_t n, whole; uint8_t out[4096]; long other = 0, number; hk_handle h = fresh();
    for (whole = 0; whole <= size; whole++) {
        uint8_t *exact = malloc(whole + 1);
        memcpy(exact, bytes, whole); hk_open(&h, 7, 1); number = hk_call(&h, exact, whole, out, sizeof out, &n);
        other += number != 0 && number != 1; hk_open(&h, 7, 1); hk_absorb(&h, exact, whole); hk_finish(&h); free(exact);
    }
    hk_close(&h);
    printf("%lu fronts, %ld with another number than 0 and 1\n", (unsigned long)size, other);
    return 0;
}

static long left = -1;
#ifdef STARVE
void *__real_malloc(size_t n); void *__real_realloc(void *p, size_t n);
void *__wrap_malloc(size_t n); void *__wrap_realloc(void *p, size_t n);
void *__wrap_malloc(size_t n) { if (left >= 0 && left-- == 0) return NULL; return __real_malloc(n); }
void *__wrap_realloc(void *p, size_t n) { if (left >= 0 && left-- == 0) return NULL; return __real_realloc(p, n); }
#endif

/* The numbers of all calls, where the request for memory number k is refused. */
static int starve_at(long k, int *numbers) {
    hk_handle h = fresh(), peer = fresh(); uint8_t out[256]; size_t n; uint64_t count; hk_found found; hk_bounds bounds; hk_page page; int i = 0, over;
    left = k;
    numbers[i++] = hk_open(&h, 7, 1); numbers[i++] = hk_open(&peer, 7, 1);
    numbers[i++] = hk_absorb(&h, ITEM, 20); numbers[i++] = hk_absorb(&h, ITEM + 20, sizeof ITEM - 20); numbers[i++] = hk_absorb(&h, MARK, sizeof MARK);
    numbers[i++] = hk_call(&h, bytes, size, out, sizeof out, &n); numbers[i++] = hk_merge(&peer, &h); numbers[i++] = hk_prune(&peer, 1);
    numbers[i++] = hk_get(&h, 1, 1, 5, &found, out, sizeof out); numbers[i++] = hk_range(&h, 1, 1, 0, 9, out, sizeof out, &n);
    numbers[i++] = hk_by_tag(&h, 1, 1, 9, 0, out, sizeof out, &n); numbers[i++] = hk_count(&h, 1, 1, &count); numbers[i++] = hk_front(&h, &bounds);
    numbers[i++] = hk_range_page(&h, 1, 1, 0, 9, 5, out, sizeof out, &page); numbers[i++] = hk_by_tag_page(&h, 1, 1, 9, 0, 5, out, sizeof out, &page);
    numbers[i++] = hk_finish(&h); hk_words(26, out, sizeof out);
    over = left >= 0; left = -1;
    hk_close(&h); hk_close(&peer);
    numbers[i] = -1;
    return over;
}

static int starve(void) {
    long k, lacked = 0; int numbers[32], i, over = 0, strange = 0, first;
    for (k = 0; !over && k < 10000; k++) {
        over = starve_at(k, numbers);
        for (first = -1, i = 0; numbers[i] >= 0; i++) {
            if ((numbers[i] == 90 || numbers[i] == 92) && first < 0) { first = i; lacked++; }
            if (first < 0 && numbers[i] != 0) { strange++; printf("at %ld call %d: %d\n", k, i, numbers[i]); }
        }
    }
    printf("%s; %ld calls said so, %d strange numbers\n", over ? "each request refused" : "it does not end", lacked, strange);
    return !over || strange;
}

static double now(void) { struct timespec t; clock_gettime(CLOCK_MONOTONIC, &t); return (double)t.tv_sec + (double)t.tv_nsec * 1e-9; }

static int times(long rounds) {
    hk_handle h = fresh(); uint8_t out[4096]; size_t n; hk_found found; double start; long i; unsigned long sum = 0;
    static const uint8_t ASK[] = { 0, 0, 0, 0x15, 1, 0x14, 0, 0, 0, 0, 0, 0, 0, 1, 0, 1, 0, 0, 0, 0, 0, 0, 0, 5 };
    size_t ask = size > 25 ? 25 : sizeof ASK; (void)ask;
    fill(&h);
    start = now(); for (i = 0; i < rounds; i++) sum += hk_get(&h, 1, 1, 5, &found, out, sizeof out) + found.tag;
    printf("get %.0f ns\n", (now() - start) / (double)rounds * 1e9);
    start = now(); for (i = 0; i < rounds; i++) sum += hk_absorb(&h, MARK, sizeof MARK);
    printf("absorb %.0f ns\n", (now() - start) / (double)rounds * 1e9);
    start = now(); for (i = 0; i < rounds; i++) sum += hk_call(&h, FRONT, sizeof FRONT, out, sizeof out, &n) + n;
    printf("call %.0f ns (%lu)\n", (now() - start) / (double)rounds * 1e9, sum % 10);
    hk_close(&h);
    return 0;
}

int main(int argc, char **argv) {
    const char *mode = argc > 1 ? argv[1] : "";
    if (argc > 2) load(argv[2]);
    if (!strcmp(mode, "play")) return play();
    if (!strcmp(mode, "cut")) return cut();
    if (!strcmp(mode, "mutate")) return mutate(argc > 3 ? atol(argv[3]) : 10000);
    if (!strcmp(mode, "starve")) return starve();
    if (!strcmp(mode, "time")) return times(argc > 3 ? atol(argv[3]) : 1000000);
    if (!strcmp(mode, "moved")) moved();
    else { sizes(); closed(); reads(); pages(); feeding(); changes(); replies(); moved(); words(); version(); threads(); }
    printf("%d passed, %d failed\n", passed, failed);
    return failed != 0;
}
