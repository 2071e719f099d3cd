/* The heap of the C library: malloc and free, and mappings with huge pages for large blocks.
 *
 * It takes the place of the kit's heap.c. The three functions must meet the contracts that the kit's libc/src/heap.rt states.
 * Nothing proves that they do; checks/c/heap.c tests them. An alignment divides 16, and sizes are below 2^63.
 *
 * A look-up in a table of tens of megabytes reads a block at a random place, and with pages of 4 KB it waits for the page's
 * translation as well as for memory. So a block of 4 MB or more is a mapping of its own, at a multiple of 2 MB, and the
 * kernel is asked to back it with huge pages. If it has none to give, the block is used as it is. Elsewhere than on Linux
 * on x86-64 all blocks are malloc's.
 *
 * Before main it also looks at the processor. */
#define _GNU_SOURCE
#include <stdbool.h>
#include <stddef.h>
#include <stdint.h>
#include <stdlib.h>
#include <string.h>
#if defined(__linux__) && defined(__x86_64__)
#include <cpuid.h>
#include <sys/mman.h>
#include <sys/uio.h>
#include <unistd.h>
#ifndef MAP_FIXED_NOREPLACE
#define MAP_FIXED_NOREPLACE 0x100000
#endif
#endif

/* The result of an allocation: whether it succeeded, and the block. After a refusal the pointer is not NULL, and must not be
 * used. */
struct tried {
    bool ok;
    void *block;
};

struct tried rattle_alloc(size_t size, size_t align);
struct tried rattle_realloc(void *block, size_t kept, size_t size, size_t align);
void rattle_dealloc(void *block);

static struct tried tried(void *block)
{
    static char nothing;
    return (struct tried){block != NULL, block != NULL ? block : &nothing};
}

#if defined(__linux__) && defined(__x86_64__)
/* The crate is compiled for x86-64-v2. On an older processor glibc refuses to load the shared library, or a program that needs
 * it; this is for a static program, and for another C library. */
__attribute__((constructor)) static void require_processor(void)
{
    static const char text[] = "szg: this processor lacks a feature of x86-64-v2, which libszg needs\n";
    const unsigned needed = bit_SSSE3 | bit_CMPXCHG16B | bit_SSE4_1 | bit_SSE4_2 | bit_POPCNT;
    unsigned a = 0, b = 0, c = 0, d = 0;
    if (__get_cpuid(1, &a, &b, &c, &d) != 0 && (c & needed) == needed)
        return;
    _exit(write(STDERR_FILENO, text, sizeof text - 1) < 0 ? 126 : 127);
}

#define HUGE_PAGE ((size_t)2 << 20)
#define LARGE ((size_t)4 << 20)
/* The page before a mapped block begins with the length of the block's mapping. */
#define PAGE ((size_t)4096)

/* The mapped blocks are those at a multiple of 2 MB: alloc keeps no block of malloc's there. */
static bool is_mapped(const void *block)
{
    return (uintptr_t)block % HUGE_PAGE == 0;
}

static size_t *length_of(void *block)
{
    return (size_t *)(void *)((char *)block - PAGE);
}

static size_t mapped_length(size_t size)
{
    return (size + HUGE_PAGE - 1) / HUGE_PAGE * HUGE_PAGE;
}

/* Maps a block of `length` bytes, a multiple of 2 MB, and the page before it. NULL if the kernel refuses. */
static void *map(size_t length)
{
    size_t whole = length + HUGE_PAGE;
    char *start = mmap(NULL, whole, PROT_READ | PROT_WRITE, MAP_PRIVATE | MAP_ANONYMOUS, -1, 0);
    if (start == MAP_FAILED)
        return NULL;
    char *block = start + (HUGE_PAGE - (uintptr_t)start % HUGE_PAGE), *end = start + whole;
    size_t before = (size_t)(block - start) - PAGE, after = (size_t)(end - block) - length;
    if (before == 0 || munmap(start, before) == 0) {
        start = block - PAGE;
        if (after == 0 || munmap(block + length, after) == 0) {
            *length_of(block) = length;
            return block;
        }
    }
    /* at its limit of mappings the kernel cuts nothing out of one that it has joined to a neighbour */
    munmap(start, (size_t)(end - start));
    return NULL;
}

/* The same with a request for huge pages, which is an advice: whether it is taken changes no result. */
static void *map_advised(size_t length)
{
    void *block = map(length);
    if (block != NULL)
        (void)madvise(block, length, MADV_HUGEPAGE);
    return block;
}

static void unmap(void *block)
{
    munmap((char *)block - PAGE, PAGE + *length_of(block));
}

/* Whether a mapped block that begins with its own address is still there, after the kernel refused to move another one over
 * it. It may have been unmapped by then. Then it is mapped again, unless another thread has mapped something there: what that
 * is the kernel reads, since it may not be readable. */
static bool is_kept(void *block, size_t length)
{
    void *again = mmap(block, length, PROT_READ | PROT_WRITE, MAP_PRIVATE | MAP_ANONYMOUS | MAP_FIXED_NOREPLACE, -1, 0);
    if (again == block)
        return true;
    if (again != MAP_FAILED)
        munmap(again, length); /* to a kernel before 4.17 the address is a wish */
    void *first = NULL;
    struct iovec to = {&first, sizeof first}, from = {block, sizeof first};
    return process_vm_readv(getpid(), &to, 1, &from, 1, 0) == sizeof first && first == block;
}

/* Gives a mapped block another length, with the bytes that fit. A longer one moves with its pages, and no byte is copied,
 * unless the kernel refuses that near its limit of mappings. Then the bytes are copied, and returned chunk by chunk. */
static void *remap(void *block, size_t length)
{
    char *from = block;
    size_t old = *length_of(block);
    if (length <= old) {
        if (length < old && munmap(from + length, old - length) == 0)
            *length_of(block) = length;
        return block;
    }
    char *moved = map(length);
    if (moved == NULL)
        return NULL;
    *(void **)(void *)moved = moved;
    if (mremap(block, old, length, MREMAP_MAYMOVE | MREMAP_FIXED, moved) == MAP_FAILED) {
        if (!is_kept(moved, length)) {
            munmap(moved - PAGE, PAGE);
            return NULL;
        }
        (void)madvise(moved, length, MADV_HUGEPAGE);
        munmap(from - PAGE, PAGE);
        for (size_t at = 0; at < old; at += HUGE_PAGE) {
            memcpy(moved + at, from + at, HUGE_PAGE);
            munmap(from + at, HUGE_PAGE);
        }
        return moved;
    }
    munmap(from - PAGE, PAGE);
    return moved;
}

/* A block of malloc's at a multiple of 2 MB is returned to it, and a mapping serves. */
static void *alloc(size_t size)
{
    void *block = size < LARGE ? malloc(size) : NULL;
    if (size < LARGE && (block == NULL || !is_mapped(block)))
        return block;
    free(block);
    return map_advised(mapped_length(size));
}

static void dealloc(void *block)
{
    if (is_mapped(block))
        unmap(block);
    else
        free(block);
}

/* Without realloc, which could return a block at a multiple of 2 MB. It would have freed the old one by then, so that a refusal
 * of the mapping could not leave the old one as it was. */
static void *resize(void *block, size_t kept, size_t size)
{
    if (is_mapped(block) && size >= LARGE)
        return remap(block, mapped_length(size));
    void *moved = alloc(size);
    if (moved != NULL) {
        memcpy(moved, block, kept);
        dealloc(block);
    }
    return moved;
}
#else
static void *alloc(size_t size)
{
    return malloc(size);
}

static void *resize(void *block, size_t kept, size_t size)
{
    (void)kept;
    return realloc(block, size);
}

static void dealloc(void *block)
{
    free(block);
}
#endif

struct tried rattle_alloc(size_t size, size_t align)
{
    return tried(alloc(size != 0 ? size : align));
}

struct tried rattle_realloc(void *block, size_t kept, size_t size, size_t align)
{
    return tried(resize(block, kept, size != 0 ? size : align));
}

void rattle_dealloc(void *block)
{
    dealloc(block);
}
