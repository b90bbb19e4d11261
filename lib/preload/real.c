/* The C library's own functions, which are hidden by those of the same name here. */
#include "mutex.h"

static void resolve(void);

/* Another library's constructor may call before this one's: then these find the functions first. Two threads that do so
 * at a time write the same values. */
#define FIRST(result, name, parameters, arguments)                                                                     \
    static result first_##name parameters { return resolve(), pre_real.name arguments; }
PZ_MUTEX_FUNCTIONS(FIRST)

#define SET_FIRST(result, name, parameters, arguments) .name = first_##name,
struct real pre_real = {PZ_MUTEX_FUNCTIONS(SET_FIRST)};

#define FIND(result, name, parameters, arguments) *(void **)&pre_real.name = PZ_NEXT(#name);
__attribute__((constructor)) static void resolve(void) { PZ_MUTEX_FUNCTIONS(FIND) }
