/* Loads each library that it is given, and then runs what is in each. */
#include <dlfcn.h>

int main(int count, char **paths)
{
    void (*runs[8])(void) = {0};
    for (int i = 1; i < count && i < 8; i++) {
        void *library = dlopen(paths[i], RTLD_NOW);
        if (!library)
            return 1;
        *(void **)&runs[i] = dlsym(library, "run");
    }
    for (int i = 1; i < count && i < 8; i++)
        runs[i]();
    return 0;
}
