/* Opens the shared library that the first argument names and looks up the calls that the others name; then checks, forecasts and
 * masks the AND of two inputs at order 1. Prints a line of answers and writes the masked table to a file. */
#include <dlfcn.h>
#include <masks.h>
#include <stdio.h>
#include <stdlib.h>
#include <string.h>

static void fail(const char *what) {
    const char *told = dlerror();
    printf("%s: %s\n", what, told ? told : "");
    exit(1);
}

/* Looks a call up and puts its address into a pointer to a function. */
static void look_up(void *library, const char *name, void *call) {
    void *symbol = dlsym(library, name);
    if (!symbol) fail(name);
    memcpy(call, &symbol, sizeof symbol);
}

int main(int count, char **words) {
    const uint8_t table[] = {2, 0, 1, 0, 1, 0, MASKS_AND, 0, 0, 1, 0, 2, 0};
    uint32_t (*version)(void);
    struct masks_answer (*check)(const uint8_t *, size_t);
    struct masks_sizes (*forecast)(const uint8_t *, size_t, uint8_t);
    struct masks_answer (*mask)(const uint8_t *, size_t, uint8_t, uint8_t *, size_t);
    uint8_t masked[132];
    void (*any)(void);
    FILE *file;

    void *library = count > 1 ? dlopen(words[1], RTLD_NOW | RTLD_LOCAL) : NULL;
    if (!library) fail("the library");
    for (int i = 2; i < count; i++) look_up(library, words[i], &any);
    look_up(library, "masks_version", &version);
    look_up(library, "masks_check", &check);
    look_up(library, "masks_forecast", &forecast);
    look_up(library, "masks_mask", &mask);

    struct masks_answer checked = check(table, sizeof table), refused = check(table, 5);
    struct masks_sizes sizes = forecast(table, sizeof table, 1);
    struct masks_answer done = mask(table, sizeof table, 1, masked, sizeof masked);
    printf("%u; %d %u %u; ", version(), checked.number, checked.place, checked.value);
    printf("%d %u %u; ", refused.number, refused.place, refused.value);
    printf("%d %u %u %u %u %u; ", sizes.number, sizes.place, sizes.shares, sizes.wires, sizes.tape, sizes.bytes);
    printf("%d %u %u\n", done.number, done.place, done.value);
    file = fopen("masked by C", "wb");
    if (!file || fwrite(masked, sizeof masked, 1, file) != 1 || fclose(file)) fail("the masked table");
    return dlclose(library);
}
