/* The functions beneath those of the same name here: the C library's, or those of a library that was loaded in front of
 * it, and libpazdrig's. */
#include "recorder.h"
#include <stdio.h>
#include <stdlib.h>

_Atomic(const struct real *) rec_found;
static struct real found;

/* The first call finds them, even if it is that of another library's constructor. Two threads that do so at the same
 * time store the same values. */
RARE const struct real *rec_resolve(void)
{
#define FIND(result, name, parameters, arguments) *(void **)&found.name = PZ_NEXT(#name);
    PZ_MUTEX_FUNCTIONS(FIND)
    PZ_OTHER_FUNCTIONS(FIND)
    PZ_LIBRARY_FUNCTIONS(FIND)
#undef FIND
    atomic_store_explicit(&rec_found, &found, memory_order_release);
    return &found;
}

/* A library that was loaded later, by dlopen(3), isn't after this one: it is found by its name. */
RARE const struct real *rec_resolve_library(void)
{
    char name[64];
    snprintf(name, sizeof name, "libpazdrig.so.%d", atoi(PZ_VERSION));
    void *library = dlopen(name, RTLD_NOW | RTLD_NOLOAD);
    if (!library) {
        fprintf(stderr, "libpz_record.so: %s isn't loaded, but a program calls it\n", name);
        abort();
    }
#define FIND(result, name, parameters, arguments) *(void **)&found.name = dlsym(library, #name);
    PZ_LIBRARY_FUNCTIONS(FIND)
#undef FIND
    dlclose(library);
    return &found;
}
