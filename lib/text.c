/* What return values mean, and the library's version. */
#include "pazdrig.h"
#include <errno.h>
#include <string.h>
#include "man/answers.h"

const char *pz_version(void) { return PZ_VERSION; }

/* strerrordesc_np(3) and strerror_r(3) differ between C libraries; strerror(3) returns a text that stays as it is for
 * all numbers that errno(3) lists, and uses a buffer of the thread's own for others. */
static const char *in_general(int error)
{
    int saved = errno;
    const char *text = strerror(error);
    errno = saved;
    return text ? text : "unknown error";
}

const char *pz_strerror(const char *call, int error)
{
    for (size_t i = 0; call && i < sizeof answers / sizeof answers[0]; i++)
        if (answers[i].error == error && !strcmp(answers[i].call, call))
            return answers[i].text;
    return in_general(error);
}
