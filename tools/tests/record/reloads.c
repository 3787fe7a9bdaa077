/* Loads each library that it is given, runs what is in it and unloads it: again and again, as a server that is told to
 * read its settings anew does with its modules. */
#include <dlfcn.h>
#include <stdlib.h>

int main(int count, char **words)
{
    for (int times = atoi(words[1]); times > 0; times--)
        for (int i = 2; i < count; i++) {
            void (*run)(void);
            void *library = dlopen(words[i], RTLD_NOW);
            if (!library)
                return 1;
            *(void **)&run = dlsym(library, "run");
            run();
            dlclose(library);
        }
    return 0;
}
