/* Shared words, and the accesses that the library makes to them. Each has the memory order in its name; those that
 * change a word that other threads change are sequentially consistent. */
#ifndef PZ_WORD_H
#define PZ_WORD_H
#include <stdatomic.h>
#include <stdint.h>

typedef _Atomic uint64_t pz_word;

#define LIKELY(x)   __builtin_expect(!!(x), 1)
#define UNLIKELY(x) __builtin_expect(!!(x), 0)

/* For words that only the calling thread changes, or that may be old. */
static inline uint64_t load_relaxed(const pz_word *w) { return atomic_load_explicit(w, memory_order_relaxed); }
static inline uint64_t load_acquire(const pz_word *w) { return atomic_load_explicit(w, memory_order_acquire); }
/* After a change of another word: an unlock changes the cell and then looks at the slot, and an heir does the reverse.
 */
static inline uint64_t load_in_order(const pz_word *w) { return atomic_load(w); }
static inline void store_release(pz_word *w, uint64_t value) { atomic_store_explicit(w, value, memory_order_release); }

/* Replaces *is, and returns 1; or returns 0 and puts what it found into *is. */
static inline int compare_exchange(pz_word *w, uint64_t *is, uint64_t value)
{
    return atomic_compare_exchange_strong(w, is, value);
}
/* These return what the word was before. */
static inline uint64_t exchange(pz_word *w, uint64_t value) { return atomic_exchange(w, value); }
static inline uint64_t fetch_add(pz_word *w, uint64_t value) { return atomic_fetch_add(w, value); }
static inline uint64_t fetch_sub(pz_word *w, uint64_t value) { return atomic_fetch_sub(w, value); }
static inline uint64_t fetch_or(pz_word *w, uint64_t bits) { return atomic_fetch_or(w, bits); }
static inline uint64_t fetch_and(pz_word *w, uint64_t bits) { return atomic_fetch_and(w, bits); }
static inline void fence(void) { atomic_thread_fence(memory_order_seq_cst); }

/* Tells the processor that this is a loop of looks. */
static inline void relax(void)
{
#if defined __x86_64__
    __builtin_ia32_pause();
#elif defined __aarch64__
    __asm__ volatile("isb" ::: "memory");
#endif
}
#endif
