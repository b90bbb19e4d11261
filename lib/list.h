/* The calling thread's robust list, in the order of stores that the kernel's walk of a dying thread needs.
 *
 * An entry is the address of a word that links to the next entry; the word before it links to the previous one. The
 * links are in memory that other processes may write, so nothing is stored through a link unless the entry's own
 * address is there. */
#ifndef PZ_LIST_H
#define PZ_LIST_H
#include "caller.h"

/* Tells the kernel that the thread is about to take or to free the cell of this entry, or, with NULL, that it isn't. */
static inline void set_pending(struct caller *s, pz_word *entry) { store_release(s->list + 2, (uint64_t)entry); }

/* Bit 0 of a link marks a mutex of the C library with priority inheritance. */
static inline pz_word *linked(uint64_t link) { return (pz_word *)(link & ~1ull); }

/* Puts an entry first. The word before the head is the C library's, and nobody reads it. */
static inline void put_on_list(struct caller *s, pz_word *entry)
{
    uint64_t first = load_relaxed(s->list);
    store_release(entry, first);
    store_release(entry - 1, (uint64_t)s->list);
    if (linked(first) != s->list)
        store_release(linked(first) - 1, (uint64_t)entry);
    store_release(s->list, (uint64_t)entry);
}

/* Whether an entry with these links is on this thread's list. It may be pending too, so a link that leads to the word
 * of the pending entry is a stray one. */
static inline int leads_back(const struct caller *s, const pz_word *entry, uint64_t previous, uint64_t next)
{
    if (UNLIKELY(load_relaxed(linked(previous)) != (uint64_t)entry || linked(previous) == s->list + 2))
        return 0;
    return LIKELY(linked(next) == s->list || load_relaxed(linked(next) - 1) == (uint64_t)entry);
}

/* Takes an entry off, and returns 1; or returns 0 if it isn't on this thread's list. */
static inline int take_off_list(struct caller *s, pz_word *entry)
{
    uint64_t next = load_relaxed(entry), previous = load_relaxed(entry - 1);
    int is_last = linked(next) == s->list;
    if (UNLIKELY(!leads_back(s, entry, previous, next)))
        return 0;
    store_release(linked(previous), next);
    if (!is_last)
        store_release(linked(next) - 1, previous);
    return 1;
}
#endif
