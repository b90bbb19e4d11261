/* Loads a program that is a shared object, and so the libraries that it needs, and runs it. usage: loader OBJECT WORD..
 */
#include <dlfcn.h>
#include <stdio.h>

int main(int argc, char **argv)
{
    int (*program)(int, char **) = NULL;
    void *object = argc > 1 ? dlopen(argv[1], RTLD_NOW) : NULL;
    if (object)
        *(void **)&program = dlsym(object, "main");
    if (!program) {
        fprintf(stderr, "loader: %s\n", dlerror());
        return 1;
    }
    return program(argc - 1, argv + 1);
}
