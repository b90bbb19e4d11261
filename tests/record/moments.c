/* A process is killed at each moment of its first calls that matters to other processes (hooks.h). These continue, and
 * so does their recording. usage: moments FILE */
#include "shared.h"

#define EACH_MOMENT(DO)                                                                                                \
    DO(filled_process)                                                                                                 \
    DO(filled_life)                                                                                                    \
    DO(filled_name)                                                                                                    \
    DO(filled_chunk)                                                                                                   \
    DO(filled_record)                                                                                                  \
    DO(numbered)                                                                                                       \
    DO(called)

enum moment {
    NEVER,
#define NAME(moment) AT_##moment,
    EACH_MOMENT(NAME)
};
static enum moment last; /* the moment at which this process is killed */
#define DIES(moment)                                                                                                   \
    void at_##moment(void);                                                                                            \
    void at_##moment(void)                                                                                             \
    {                                                                                                                  \
        if (last == AT_##moment)                                                                                       \
            die();                                                                                                     \
    }
EACH_MOMENT(DIES)

static pthread_mutex_t *m;

/* A lock and an unlock, after a repair if the owner died. */
static void use(pthread_mutex_t *k)
{
    int r = pthread_mutex_lock(k);
    CHECK(r == 0 || (r == EOWNERDEAD && pthread_mutex_consistent(k) == 0));
    CHECK(pthread_mutex_unlock(k) == 0);
}

/* A child uses one mutex and initialises another one, and is killed at a moment of that. */
static void dies_at(enum moment moment)
{
    pid_t it = a_child();
    if (!it) {
        last = moment;
        use(m);
        make(m + moment, PTHREAD_MUTEX_NORMAL);
        use(m + moment);
        fail(__FILE__, __LINE__, "it lives");
    }
    int status;
    CHECK(waitpid(it, &status, 0) == it && WIFSIGNALED(status));
}

int main(int argc, char **argv)
{
    CHECK(argc == 2);
    m = mapped(argv[1], 4096, NULL);
    make(m, PTHREAD_MUTEX_NORMAL);
    for (enum moment k = AT_filled_process; k <= AT_called; k++) {
        dies_at(k);
        use(m);
        make(m + k, PTHREAD_MUTEX_NORMAL);
        use(m + k);
        use(m + k);
    }
    return 0;
}
