/* The heap of the C library (bindings/heap.c): blocks that are made, resized and freed at random, with refusals and with blocks
 * of malloc's at multiples of 2 MB. Linked with malloc, free, mmap, munmap, mremap and madvise wrapped, so that it also sees how
 * many bytes are mapped, and whether all are returned. Then a block grows near the kernel's limit of mappings. The status is 0
 * if all is as expected. */
#define _GNU_SOURCE
#include <errno.h>
#include <stdbool.h>
#include <stdint.h>
#include <stdio.h>
#include <stdlib.h>
#include <string.h>
#include <sys/mman.h>

enum { BLOCKS = 24, STEPS = 6000, MB = 1 << 20 };
struct tried {
    bool ok;
    void *block;
};
struct tried rattle_alloc(size_t size, size_t align);
struct tried rattle_realloc(void *block, size_t kept, size_t size, size_t align);
void rattle_dealloc(void *block);

void *__real_malloc(size_t size);
void __real_free(void *block);
void *__real_mmap(void *at, size_t length, int protection, int flags, int file, off_t offset);
int __real_munmap(void *at, size_t length);
void *__real_mremap(void *old, size_t length, size_t size, int flags, void *at);
int __real_madvise(void *at, size_t length, int advice);

static int64_t plain, mapped, until_refusal = INT64_MAX, at_boundary;
static size_t last_mapped;
/* What becomes of the target of a remapping that is refused: it stays, it is unmapped, another thread maps something there. */
enum target { KEPT, UNMAPPED, TAKEN, UNREADABLE };
static enum target target_of_refused;
static void *advised_at, *foreign;
/* The number of the next cut of a mapping that the kernel refuses; 0 for none. */
static int refused_cut;
static size_t advised;

static void expect(bool is_so, const char *what) {
    if (!is_so) {
        fprintf(stderr, "heap: %s\n", what);
        exit(1);
    }
}

static bool refuses(void) { return until_refusal-- == 0; }

/* Every third block of less than 64 KB is at a multiple of 2 MB. */
void *__wrap_malloc(size_t size) {
    static int count;
    expect(size != 0, "no byte was requested, for which malloc may return NULL");
    if (refuses()) return NULL;
    bool is_at = size < 65536 && ++count % 3 == 0;
    void *block = is_at ? aligned_alloc(2 * MB, (size + 2 * MB - 1) / (2 * MB) * (2 * MB)) : __real_malloc(size);
    at_boundary += is_at && block != NULL;
    plain += block != NULL;
    return block;
}

void __wrap_free(void *block) {
    plain -= block != NULL;
    __real_free(block);
}

/* Every second mapping begins 37 pages later than the kernel has it. A mapping at an address is one that was there before. */
void *__wrap_mmap(void *at, size_t length, int protection, int flags, int file, off_t offset) {
    if (at != NULL) {
        expect(flags == (MAP_PRIVATE | MAP_ANONYMOUS | MAP_FIXED_NOREPLACE) && file == -1, "another mapping is requested at an address");
        /* an older kernel maps elsewhere what has no room at the address */
        void *found = __real_mmap(at, length, protection, flags & ~(target_of_refused == TAKEN ? MAP_FIXED_NOREPLACE : 0), file, offset);
        expect((found == at) == (target_of_refused == UNMAPPED), "the target of a refused remapping is taken for another one");
        mapped += found != MAP_FAILED ? (int64_t)length : 0;
        return found;
    }
    expect(at == NULL && protection == (PROT_READ | PROT_WRITE) && flags == (MAP_PRIVATE | MAP_ANONYMOUS) && file == -1 && offset == 0, "another mapping is requested");
    static int count;
    size_t shift = ++count % 2 ? 37 * 4096 : 0;
    last_mapped = length;
    char *start = refuses() ? MAP_FAILED : __real_mmap(at, length + shift, protection, flags, file, offset);
    if (start == MAP_FAILED) return MAP_FAILED;
    mapped += (int64_t)length;
    __real_munmap(start, shift);
    return start + shift;
}

int __wrap_munmap(void *at, size_t length) {
    unsigned char resident;
    expect((uintptr_t)at % 4096 == 0 && length % 4096 == 0 && mincore(at, 4096, &resident) == 0, "what is unmapped was not mapped");
    if (refused_cut > 0 && --refused_cut == 0) return -1;
    mapped -= (int64_t)length;
    return __real_munmap(at, length);
}

/* A refused call may have unmapped the target, and another thread may have mapped something there. A call that is carried out
 * replaces it, and unmaps the old place. */
void *__wrap_mremap(void *old, size_t length, size_t size, int flags, void *at) {
    expect(flags == (MREMAP_MAYMOVE | MREMAP_FIXED) && length < size, "another remapping is requested");
    if (refuses()) {
        target_of_refused = (target_of_refused + 1) % 4;
        if (target_of_refused != KEPT) expect(__wrap_munmap(at, size) == 0, "the target was not mapped");
        if (target_of_refused == TAKEN || target_of_refused == UNREADABLE) {
            expect(foreign == NULL, "two targets are taken at once");
            foreign = __real_mmap(at, 4096, target_of_refused == TAKEN ? PROT_READ | PROT_WRITE : PROT_NONE,
                                  MAP_PRIVATE | MAP_ANONYMOUS | MAP_FIXED_NOREPLACE, -1, 0);
            expect(foreign == at, "nothing can be mapped there");
        }
        return MAP_FAILED;
    }
    void *moved = __real_mremap(old, length, size, flags, at);
    mapped -= moved != MAP_FAILED ? (int64_t)length : 0;
    return moved;
}

/* What another thread has mapped is as it was. */
static void expect_foreign(void) {
    if (foreign == NULL) return;
    unsigned char resident;
    expect(mincore(foreign, 4096, &resident) == 0, "what another thread has mapped was unmapped");
    if (target_of_refused == TAKEN) expect(*(char *)foreign == 0, "what another thread has mapped was changed");
    expect(__real_munmap(foreign, 4096) == 0, "what another thread has mapped was unmapped");
    foreign = NULL;
}

/* Every second advice is given to the kernel. */
int __wrap_madvise(void *at, size_t length, int advice) {
    static int count;
    advised_at = at;
    advised = advice == MADV_HUGEPAGE ? length : 0;
    if (++count % 2 == 0) return __real_madvise(at, length, advice);
    errno = ENOMEM;
    return -1;
}

static uint32_t draw(void) {
    static uint64_t state = 1;
    state = state * 6364136223846793005u + 1442695040888963407u;
    return (uint32_t)(state >> 33);
}

/* Half of the sizes are below 100 bytes, others below 3 MB, near 4 MB, or below 20 MB. */
static size_t draw_size(void) {
    uint32_t kind = draw() % 8;
    return kind < 4 ? draw() % 100 : kind < 6 ? draw() % (3 * MB) : kind == 6 ? 4 * MB - 2 + draw() % 5 : draw() % (20 * MB);
}

static uint8_t byte_of(uint32_t seed, size_t at) { return (uint8_t)(seed + at * 7 + (at >> 12) * 13); }

/* Some bytes of a block: the first and the last ones, and every 509th. */
#define EACH_BYTE(at, size) for (size_t at = 0; at < (size); at += at < 40 || at + 40 > (size) ? 1 : 509)

static void fill(uint8_t *block, size_t size, uint32_t seed) { EACH_BYTE(at, size) block[at] = byte_of(seed, at); }

/* The first `kept` bytes of a block that was filled with `size` bytes. */
static void expect_bytes(const uint8_t *block, size_t kept, size_t size, uint32_t seed) {
    EACH_BYTE(at, size) if (at < kept) expect(block[at] == byte_of(seed, at), "a byte was lost");
}

static void expect_place(const struct tried *got, size_t size) {
    uintptr_t at = (uintptr_t)got->block;
    expect(got->ok && at % 16 == 0, "a block is not aligned");
    expect(at % (2 * MB) == 0 || size < 4 * MB, "a large block is not at a multiple of 2 MB");
}

static size_t length_of(size_t size) { return (size + 2 * MB - 1) / (2 * MB) * (2 * MB); }

struct held {
    uint8_t *block;
    size_t size;
    uint32_t seed;
};
static struct held held[BLOCKS];

/* Blocks at multiples of 2 MB are mapped up to the next such multiple, with a page before each, and nothing else is. */
static void expect_mapped(void) {
    int64_t due = 0;
    for (int i = 0; i < BLOCKS; i++)
        if (held[i].block != NULL && (uintptr_t)held[i].block % (2 * MB) == 0)
            due += (int64_t)length_of(held[i].size != 0 ? held[i].size : 1) + 4096;
    expect(mapped == due, "more or fewer bytes are mapped than the blocks need");
}

/* Sizes that no machine has: their mappings are as long as they must be, and refused. */
static void try_huge_sizes(void) {
    const size_t sizes[] = {(size_t)5 << 30, ((size_t)1 << 46) + 1, ((size_t)1 << 63) - 1};
    for (size_t i = 0; i < sizeof sizes / sizeof *sizes; i++) {
        until_refusal = 0;
        struct tried got = rattle_alloc(sizes[i], 16);
        until_refusal = INT64_MAX;
        expect(!got.ok && got.block != NULL && last_mapped >= sizes[i], "too short a mapping for a huge block");
    }
}

/* Frees a block, or makes or resizes it. */
static void step(struct held *h, bool may_be_refused) {
    bool is_new = h->block == NULL;
    if (!is_new && draw() % 3 == 0) {
        expect_bytes(h->block, h->size, h->size, h->seed);
        rattle_dealloc(h->block);
        h->block = NULL;
        return;
    }
    size_t size = draw_size(), kept = draw() % 4 ? h->size : h->size / 2;
    if (kept > size) kept = size;
    until_refusal = may_be_refused ? draw() % (is_new ? 2 : 3) : INT64_MAX;
    struct tried got = is_new ? rattle_alloc(size, 16) : rattle_realloc(h->block, kept, size, 16);
    until_refusal = INT64_MAX;
    expect_foreign();
    if (!got.ok) {
        expect(may_be_refused && got.block != NULL, "a refusal without a cause, or with NULL");
        if (!is_new) expect_bytes(h->block, h->size, h->size, h->seed);
        return;
    }
    expect_place(&got, size);
    if (is_new)
        expect(size < 4 * MB || (advised_at == got.block && advised == length_of(size)), "no huge pages are requested for a large block");
    else
        expect_bytes(got.block, kept, h->size, h->seed);
    *h = (struct held){got.block, size, draw()};
    fill(h->block, h->size, h->seed);
}

/* A block grows where the kernel refuses to move its pages: its bytes are copied; it is refused where another thread has mapped
 * something in the way. */
static void copy_where_moving_is_refused(void) {
    for (int i = 0; i < 12; i++) {
        struct tried block = rattle_alloc(5 * MB, 16);
        expect(block.ok, "no memory");
        fill(block.block, 5 * MB, 3);
        until_refusal = 1;
        struct tried got = rattle_realloc(block.block, 5 * MB, 11 * MB, 16);
        until_refusal = INT64_MAX;
        expect(got.ok == (target_of_refused == KEPT || target_of_refused == UNMAPPED), "a block is copied, or refused, at the wrong time");
        expect_foreign();
        expect(!got.ok || (advised_at == got.block && advised == 12 * MB), "no huge pages are requested for a copied block");
        expect_bytes(got.ok ? got.block : block.block, 5 * MB, 5 * MB, 3);
        expect(mapped == (got.ok ? 12 : 6) * (int64_t)MB + 4096, "more or fewer bytes are mapped than a copied block needs");
        rattle_dealloc(got.ok ? got.block : block.block);
    }
}

/* What the kernel doesn't cut out of a new mapping is returned with it; what it doesn't cut off a block stays the block's. */
static void keep_what_is_not_cut(void) {
    int refused = 0;
    for (int i = 0; i < 12; i++) {
        refused_cut = i % 3;
        struct tried got = rattle_alloc(11 * MB, 16);
        refused += !got.ok;
        expect(mapped == (got.ok ? 12 * MB + 4096 : 0), "what was not cut stays mapped");
        if (!got.ok) continue;
        refused_cut = 1;
        expect(rattle_realloc(got.block, 5 * MB, 5 * MB, 16).block == got.block && mapped == 12 * MB + 4096, "a block that is not cut moves");
        rattle_dealloc(got.block);
        expect(mapped == 0, "what was not cut off is forgotten");
    }
    expect(refused > 1, "few cuts were refused");
}

/* The bytes of this process's addresses. */
static size_t addresses(void) {
    size_t pages = 0;
    FILE *file = fopen("/proc/self/statm", "r");
    expect(file != NULL && fscanf(file, "%zu", &pages) == 1, "the size of the process is not known");
    fclose(file);
    return pages * 4096;
}

/* Near the kernel's limit of mappings, with 0 to 8 that are left, a block grows, and its bytes are copied, or it is refused; no
 * address is lost. The other mappings are single pages, each of another protection than the one before it. */
static void grow_near_limit(void) {
    enum { MOST = 1 << 20, NEAR = 9 };
    char **pages = malloc(MOST * sizeof *pages);
    uint8_t *blocks[NEAR];
    int count = 0, grown = 0;
    expect(pages != NULL, "no memory");
    for (int i = 0; i < NEAR; i++) {
        struct tried block = rattle_alloc(8 * MB, 16);
        expect(block.ok, "no memory");
        fill(blocks[i] = block.block, 8 * MB, 5);
    }
    while (count < MOST && (pages[count] = __real_mmap(NULL, 4096, count % 2 ? PROT_READ : PROT_NONE, MAP_PRIVATE | MAP_ANONYMOUS, -1, 0)) != MAP_FAILED)
        count++;
    expect(count < MOST, "the kernel has no limit of mappings");
    for (int i = 0; i < NEAR; i++) {
        size_t before = addresses();
        struct tried got = rattle_realloc(blocks[i], 8 * MB, 24 * MB, 16);
        blocks[i] = got.ok ? got.block : blocks[i];
        expect_bytes(blocks[i], 8 * MB, 8 * MB, 5);
        expect(addresses() == before + (got.ok ? 16 * (size_t)MB : 0), "addresses were lost near the limit of mappings");
        grown += got.ok;
        __real_munmap(pages[--count], 4096);
    }
    expect(grown > 5, "few blocks grew near the limit of mappings");
    while (count > 0) __real_munmap(pages[--count], 4096);
    for (int i = 0; i < NEAR; i++) rattle_dealloc(blocks[i]);
    free(pages);
}

int main(void) {
    for (int i = 0; i < STEPS; i++) {
        step(&held[draw() % BLOCKS], draw() % 4 == 0);
        expect_mapped();
    }
    try_huge_sizes();
    for (int i = 0; i < BLOCKS; i++)
        if (held[i].block != NULL) {
            expect_bytes(held[i].block, held[i].size, held[i].size, held[i].seed);
            rattle_dealloc(held[i].block);
        }
    copy_where_moving_is_refused();
    keep_what_is_not_cut();
    grow_near_limit();
    expect(at_boundary > 100, "malloc returned few blocks at multiples of 2 MB");
    expect(plain == 0 && mapped == 0, "memory was not returned");
    return 0;
}
