/* Tablepath: x86-64 page tables over bytes that you lend, proved. For x86-64 kernels and the System V calling convention.
 *
 * A SPACE is one struct tp_space: the window (len bytes at mem, which are the physical memory from the physical address origin on), the
 * pool (pages of 4096 bytes from the physical address pool on, inside the window), and the physical address of the root, which goes into
 * CR3. The pool's first pages hold a book: which pages are free, which are set aside. No other memory is used.
 *
 * ANY BYTES AND ANY NUMBERS may be given, where mem and len are true: every call ends, reads and writes inside the window alone, and writes
 * words of the pool alone. What can't be done is refused with a reason, and then no byte has changed. tp_reason_text says the reason. What a
 * struct names is compared with the book at each call that writes: other pages, another root or another address in the pool are refused.
 *
 * LOCKS. One call that writes at a time on a pool; a lock is the caller's. Pools that share no page may be written at the same time, in one
 * window too. tp_state reads several words of the book and takes the same lock. Processors may walk the tables meanwhile, since words of a
 * table are written one by one, each by one store. tp_look_up and tp_entry may run without the lock: they read one entry at a time, each by
 * one load, as a processor does, and what tp_look_up answers is what the tables meant at some moment while it ran (docs/PROVED.md,
 * each_walk_ends). Such a look-up counts as a walk: let it run with interrupts off, on a processor that the shootdowns interrupt, so that it
 * has ended when that one answers; else take the lock.
 *
 * AFTER tp_unmap AND tp_protect processors may still use what they hold in caches. So, before a frame is used anew:
 *   1. a fence, so that the stores have left this processor's buffer: MFENCE or any locked instruction; MFENCE and LFENCE behind it where the
 *      interrupt is sent by WRMSR (x2APIC);
 *   2. the shootdown: INVLPG of each page, one address of it, on every processor that uses these tables; and all have answered;
 *   3. the report: tp_told with the ticket that the last of these calls answered, or with any other from before the shootdown began.
 * The report frees the pages of tables that became empty: until then they are set aside, and nothing writes or hands out such a page. It
 * speaks for all calls up to its ticket, whichever thread made them: each shootdown tells every page that was unmapped since the one before
 * it began, and no ticket is reported while an older shootdown is not done. Shootdowns may overlap, and many calls may share one.
 * A ticket counts the tables that were set aside so far, and calls that set none aside answer the ticket of before; any number up to the
 * present one is taken, also one that no call answered, and frees what was set aside before so many were. So a frame is free when a
 * shootdown that began after its own unmap is done, whatever numbers were told meanwhile.
 * INVLPG is enough on Intel, where it also drops all upper entries of the current PCID, and on AMD, where with EFER.TCE it drops those that
 * lead to the address. So is a write of CR3 with bit 63 clear, since no page is global. Every PCID under which these tables may be cached
 * must be told, and a PCID that is used again begins with nothing cached.
 *
 * AFTER tp_map a walk that begins when the call's stores have left the buffer finds the page. A cached upper entry that leads to a table set
 * aside may give "nothing" until its shootdown: such a fault is spurious, and INVLPG of the address ends it. Where the address was unmapped
 * before and its shootdown is not done, a cache may still give the old page; so map a page of another size only after that shootdown.
 *
 * MARKS. tp_protect keeps the accessed and dirty bits of the entry that it read; one that a processor sets between its read and its write is
 * lost, and tp_unmap answers none: who must not lose one keeps the processors from the page.
 *
 * ADDRESSES are the machine's, canonical: bits 47 to 63 are all alike. They are the lower half, 0 to 0x7fffffffffff, and the upper half,
 * 0xffff800000000000 to 0xffffffffffffffff; no other number is an address. The last page ends at 2^64: base + size is then 0 in 64 bits.
 *
 * WRITABLE AND EXECUTABLE IS REFUSED. tp_map and tp_protect refuse TP_WRITABLE without TP_NO_EXECUTE, with TP_WRITE_EXECUTE: tp_map once size,
 * alignments and ranges are right and before it looks at the pool, tp_protect right after TP_RIGHTS. What is asked is tested, not what is
 * there: where tables have such a page already, tp_look_up and tp_entry say so, tp_unmap unmaps it and tp_protect gives it other rights. (A
 * table that is made to name itself is not ours: its entries, read as pages, are both.) A frame that is mapped twice, writable here and
 * executable there, is the caller's. So is one that tp_protect turned from writable to executable or back, until its shootdown is done: a
 * processor may still write to it, or execute it, as before.
 *
 * LIMITS. Levels: four. Sizes: 4096, 2 MiB, 1 GiB. Physical addresses: 0 to 2^52 - 1.
 * The library calls no function but memset, for pages that are no table yet. The window is write-back memory, and memset makes ordinary
 * stores. The code uses general registers alone, and nothing below the stack pointer: interrupts may come while it runs. That no frame is
 * mapped which lies in another space's pool is the caller's. */
#ifndef TABLEPATH_H
#define TABLEPATH_H

#include <stddef.h>
#include <stdint.h>

#define TP_VERSION "0.5.0"

/* An answer that must be looked at, where the compiler can say so; and a pointer as a number, in C's words or in C++'s. */
#if defined(__GNUC__)
#define TP_CHECKED __attribute__((warn_unused_result))
#else
#define TP_CHECKED
#endif
#ifdef __cplusplus
#define TP_NUMBER(pointer) reinterpret_cast<uintptr_t>(pointer)
extern "C" {
#else
#define TP_NUMBER(pointer) ((uintptr_t)(pointer))
#endif

/* mem and origin must agree modulo 4096: else a word of a table would not be one store. root is 0 until tp_create has set it. */
struct tp_space {
    uint8_t *mem;
    size_t len;
    uint64_t origin;
    uint64_t pool;
    uint64_t pages;
    uint64_t root;
};

/* Reasons. In an answer with a reason other than TP_DONE every other field is 0. */
enum tp_reason {
    /* tools/reasons: enum (of reasons.txt) */
    TP_DONE = 0,               /* done */
    /* what map is asked, in the order of the tests, TP_RIGHTS before them; TP_BASE_RANGE also of unmap and protect */
    TP_SIZE = 1,               /* the size is none of the three */
    TP_BASE_UNALIGNED = 2,     /* the base is no multiple of the size */
    TP_FRAME_UNALIGNED = 3,    /* the frame is no multiple of the size */
    TP_BASE_RANGE = 4,         /* the base is no address: it is not canonical */
    TP_FRAME_RANGE = 5,        /* the frame ends beyond 2^52 */
    /* map still, TP_WRITE_EXECUTE before them */
    TP_FRAME_IN_POOL = 6,      /* the frame and the pool share a byte */
    TP_OVERLAP = 7,            /* some address of the range is mapped */
    TP_NO_ROOM = 8,            /* fewer free pages than tables that are missing */
    /* unmap and protect; TP_BASE_RANGE before it */
    TP_NOTHING_STARTS = 9,     /* no page starts at the base */
    /* tables or a book that were damaged */
    TP_STRAY = 10,             /* the way leads to a table that is not of the pool */
    TP_BAD_LIST = 11,          /* the book lists as free what it can't */
    /* a window, pool or root that makes no sense */
    TP_ORIGIN_UNALIGNED = 12,  /* the origin is no multiple of 4096 */
    TP_LENGTH_UNALIGNED = 13,  /* the window's length is no multiple of 4096 */
    TP_POOL_UNALIGNED = 14,    /* the pool's address is no multiple of 4096 */
    TP_ROOT_UNALIGNED = 15,    /* the root's address is no multiple of 4096 */
    TP_POOL_LARGE = 16,        /* more pages than a book can list */
    TP_POOL_SMALL = 17,        /* no room for the book and a root */
    TP_POOL_OUTSIDE = 18,      /* the pool does not lie in the window */
    TP_BAD_ROOT = 19,          /* the root is no page of the pool behind its book, or not the book's */
    TP_NO_BOOK = 20,           /* no pool was made here */
    TP_OTHER_BOOK = 21,        /* a pool of another size was made here */
    TP_BAD_BOOK = 22,          /* the book does not add up */
    /* told */
    TP_UNKNOWN = 23,           /* a ticket above the present one */
    TP_SPENT = 24,             /* no ticket is left: 2^62 tables were set aside */
    /* map and protect, before all else */
    TP_RIGHTS = 25,            /* the rights have a bit that means nothing */
    /* every call but look-up and entry, before all else: said by this header, not by the library */
    TP_POINTER_UNALIGNED = 26, /* the pointer and the origin differ modulo 4096 */
    /* map, after TP_FRAME_RANGE and before it looks at the pool; protect, right after TP_RIGHTS */
    TP_WRITE_EXECUTE = 27      /* the page would be writable and executable */
    /* tools/reasons: end */
};

/* Rights: of a page in map and protect, which refuse TP_WRITABLE without TP_NO_EXECUTE; of the whole way in look-up. */
enum tp_rights { TP_WRITABLE = 1, TP_USER = 2, TP_NO_EXECUTE = 4 };

struct tp_created {
    uint64_t reason;
    uint64_t root; /* its physical address, for CR3 */
};

struct tp_mapped {
    uint64_t reason;
    uint64_t tables; /* how many tables were made: at most 3 */
};

struct tp_unmapped {
    uint64_t reason;
    uint64_t frame;
    uint64_t size;
    uint64_t aside;  /* how many tables became empty and were set aside */
    uint64_t ticket; /* to be reported by tp_told */
};

struct tp_protected {
    uint64_t reason;
    uint64_t frame;
    uint64_t size;
    uint64_t ticket; /* to be reported by tp_told */
};

struct tp_report {
    uint64_t reason;
    uint64_t released; /* how many pages are free again */
};

struct tp_counts {
    uint64_t reason;
    uint64_t pages; /* of the pool; those not counted below are the book's and the root */
    uint64_t free;
    uint64_t aside;
    uint64_t tables; /* but for the root */
    uint64_t ticket; /* of this moment: what tp_unmap or tp_protect answered last, or 0 */
};

/* What a walk finds, or an entry says. */
enum tp_kind {
    TP_NOTHING = 0, /* of an entry: it is not present */
    TP_PAGE = 1,
    TP_OUTSIDE = 2, /* the way leads to a table that does not lie in the window */
    /* of an entry alone */
    TP_TABLE = 3,
    TP_RESERVED = 4, /* it is present, but reserved bits are set: a walk finds nothing */
    /* of a look-up alone */
    TP_NO_ADDRESS = 5 /* the number is no address, it is not canonical: whatever the bytes are, and for no other number */
};

struct tp_found {
    uint64_t kind;
    uint64_t base;
    uint64_t size;
    uint64_t frame;
    uint64_t rights;
};

/* The machine's marks: it has walked through the entry; it has written to the page. */
enum tp_marks { TP_ACCESSED = 1, TP_DIRTY = 2 };

struct tp_said {
    uint64_t kind;
    uint64_t address; /* of the page, or of the table that the entry names */
    uint64_t rights;  /* the entry's own */
    uint64_t marks;   /* of a table TP_ACCESSED alone */
};

/* The archive's functions, with a space as five numbers, for other languages and for tools; they don't look at the pointer. */
struct tp_created tp_raw_create(uint8_t *mem, size_t len, uint64_t origin, uint64_t pool, uint64_t pages);
struct tp_mapped tp_raw_map(uint8_t *mem, size_t len, uint64_t origin, uint64_t pool, uint64_t pages, uint64_t root, uint64_t base,
                            uint64_t frame, uint64_t size, uint64_t rights);
struct tp_unmapped tp_raw_unmap(uint8_t *mem, size_t len, uint64_t origin, uint64_t pool, uint64_t pages, uint64_t root, uint64_t base);
struct tp_protected tp_raw_protect(uint8_t *mem, size_t len, uint64_t origin, uint64_t pool, uint64_t pages, uint64_t root, uint64_t base,
                                   uint64_t rights);
struct tp_report tp_raw_told(uint8_t *mem, size_t len, uint64_t origin, uint64_t pool, uint64_t pages, uint64_t root, uint64_t ticket);
struct tp_counts tp_raw_state(const uint8_t *mem, size_t len, uint64_t origin, uint64_t pool, uint64_t pages, uint64_t root);
struct tp_found tp_raw_look_up(const uint8_t *mem, size_t len, uint64_t origin, uint64_t root, uint64_t va);
struct tp_said tp_raw_entry(const uint8_t *mem, size_t len, uint64_t origin, uint64_t table, uint64_t level, uint64_t index);

static inline int tp_agrees(const struct tp_space *space) { return (TP_NUMBER(space->mem) ^ space->origin) % 4096 == 0; }

/* Makes a pool of these pages, with its book and an empty root, and sets the root (0 where it is refused). What the pages held is lost: no
 * processor may use tables that were there, and no other pool may share a page. Answers the reason. */
TP_CHECKED static inline uint64_t tp_create(struct tp_space *space) {
    struct tp_created created = {TP_POINTER_UNALIGNED, 0};
    if (tp_agrees(space)) created = tp_raw_create(space->mem, space->len, space->origin, space->pool, space->pages);
    space->root = created.root;
    return created.reason;
}

/* Maps the frame at the base. */
TP_CHECKED static inline struct tp_mapped tp_map(const struct tp_space *space, uint64_t base, uint64_t frame, uint64_t size,
                                                 uint64_t rights) {
    struct tp_mapped answer = {TP_POINTER_UNALIGNED, 0};
    if (tp_agrees(space))
        answer = tp_raw_map(space->mem, space->len, space->origin, space->pool, space->pages, space->root, base, frame, size, rights);
    return answer;
}

/* Unmaps the page that starts exactly at the base, an address. Tables that become empty are set aside. */
TP_CHECKED static inline struct tp_unmapped tp_unmap(const struct tp_space *space, uint64_t base) {
    struct tp_unmapped answer = {TP_POINTER_UNALIGNED, 0, 0, 0, 0};
    if (tp_agrees(space)) answer = tp_raw_unmap(space->mem, space->len, space->origin, space->pool, space->pages, space->root, base);
    return answer;
}

/* Gives the page that starts exactly at the base other rights. Accessed and dirty stay as they were in the entry that it read. */
TP_CHECKED static inline struct tp_protected tp_protect(const struct tp_space *space, uint64_t base, uint64_t rights) {
    struct tp_protected answer = {TP_POINTER_UNALIGNED, 0, 0, 0};
    if (tp_agrees(space))
        answer = tp_raw_protect(space->mem, space->len, space->origin, space->pool, space->pages, space->root, base, rights);
    return answer;
}

/* Reports that a shootdown is done that began when this ticket was answered or later, and every older one too. Tables set aside before it are
 * free again. */
TP_CHECKED static inline struct tp_report tp_told(const struct tp_space *space, uint64_t ticket) {
    struct tp_report answer = {TP_POINTER_UNALIGNED, 0};
    if (tp_agrees(space)) answer = tp_raw_told(space->mem, space->len, space->origin, space->pool, space->pages, space->root, ticket);
    return answer;
}

/* How many pages of the pool are what, and the ticket of this moment. Writes nothing. */
TP_CHECKED static inline struct tp_counts tp_state(const struct tp_space *space) {
    struct tp_counts answer = {TP_POINTER_UNALIGNED, 0, 0, 0, 0, 0};
    if (tp_agrees(space)) answer = tp_raw_state(space->mem, space->len, space->origin, space->pool, space->pages, space->root);
    return answer;
}

/* Whether the struct names a space that tp_create made, by what the book says of it: of a pool that outlived the kernel that made it, say.
 * Answers the reason why not. Nothing need be opened: every call compares the struct with the book. */
TP_CHECKED static inline uint64_t tp_open(const struct tp_space *space) { return tp_state(space).reason; }

/* What a walk from the root finds for the address; of bytes that are read alone, whatever they are. A number that is no address is said to
 * be none (TP_NO_ADDRESS), and is not looked for. */
TP_CHECKED static inline struct tp_found tp_look_up(const struct tp_space *space, uint64_t va) {
    return tp_raw_look_up(space->mem, space->len, space->origin, space->root, va);
}

/* What one entry says, for whoever draws tables or looks for damage in them: of the table at this physical address (as in CR3), whose
 * entries are of this level (3 at the root, 0 at the last table), the one with this index. TP_OUTSIDE where the window has no such
 * table, and where there is no such index (from 512 on) or level (from 4 on). */
TP_CHECKED static inline struct tp_said tp_entry(const struct tp_space *space, uint64_t table, uint64_t level, uint64_t index) {
    return tp_raw_entry(space->mem, space->len, space->origin, table, level, index);
}

/* A reason in words. */
static inline const char *tp_reason_text(uint64_t reason) {
    switch (reason) {
    /* tools/reasons: text */
    case TP_DONE: return "done";
    case TP_SIZE: return "the size is none of the three";
    case TP_BASE_UNALIGNED: return "the base is no multiple of the size";
    case TP_FRAME_UNALIGNED: return "the frame is no multiple of the size";
    case TP_BASE_RANGE: return "the base is no address: it is not canonical";
    case TP_FRAME_RANGE: return "the frame ends beyond 2^52";
    case TP_FRAME_IN_POOL: return "the frame and the pool share a byte";
    case TP_OVERLAP: return "some address of the range is mapped";
    case TP_NO_ROOM: return "fewer free pages than tables that are missing";
    case TP_NOTHING_STARTS: return "no page starts at the base";
    case TP_STRAY: return "the way leads to a table that is not of the pool";
    case TP_BAD_LIST: return "the book lists as free what it can't";
    case TP_ORIGIN_UNALIGNED: return "the origin is no multiple of 4096";
    case TP_LENGTH_UNALIGNED: return "the window's length is no multiple of 4096";
    case TP_POOL_UNALIGNED: return "the pool's address is no multiple of 4096";
    case TP_ROOT_UNALIGNED: return "the root's address is no multiple of 4096";
    case TP_POOL_LARGE: return "more pages than a book can list";
    case TP_POOL_SMALL: return "no room for the book and a root";
    case TP_POOL_OUTSIDE: return "the pool does not lie in the window";
    case TP_BAD_ROOT: return "the root is no page of the pool behind its book, or not the book's";
    case TP_NO_BOOK: return "no pool was made here";
    case TP_OTHER_BOOK: return "a pool of another size was made here";
    case TP_BAD_BOOK: return "the book does not add up";
    case TP_UNKNOWN: return "a ticket above the present one";
    case TP_SPENT: return "no ticket is left: 2^62 tables were set aside";
    case TP_RIGHTS: return "the rights have a bit that means nothing";
    case TP_POINTER_UNALIGNED: return "the pointer and the origin differ modulo 4096";
    case TP_WRITE_EXECUTE: return "the page would be writable and executable";
    /* tools/reasons: end */
    default: return "a reason that this header does not know";
    }
}

#undef TP_NUMBER
#ifdef __cplusplus
}
#endif
#endif
