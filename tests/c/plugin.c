/* A plug-in with a machine of its own, and the program that loads two of them. Each plug-in has its own number of
 * machines, if it was loaded with names of its own. A block of one must be foreign to the other. */
#define _GNU_SOURCE
#include "cubejobs_regions.h"

#ifdef PLUGIN
static struct cubejobs_regions machine;
int plugin_open(void);
uint32_t plugin_take(struct cubejobs_block *block);
uint32_t plugin_release(struct cubejobs_block *block);
int plugin_open(void) { return cubejobs_regions_open(&machine, 4) == CUBEJOBS_REGIONS_DONE; }
uint32_t plugin_take(struct cubejobs_block *block) { return cubejobs_regions_take(&machine, block, 1).code; }
uint32_t plugin_release(struct cubejobs_block *block) { return cubejobs_regions_release(&machine, block); }
#else
#include <dlfcn.h>

#include "calls.h"

typedef uint32_t (*act)(struct cubejobs_block *);

/* Returns a function of a plug-in: of data, as C has no cast to it. */
static act of(void *plugin, const char *name) {
    act found;
    void *symbol = dlsym(plugin, name);
    expect(symbol != 0, name);
    memcpy(&found, &symbol, sizeof found);
    return found;
}

int main(int argc, char **argv) {
    struct cubejobs_block block = {0};
    void *plugins[2];
    int i;
    expect(argc == 3, "the two plug-ins");
    for (i = 0; i < 2; i++) {
        plugins[i] = dlopen(argv[i + 1], RTLD_NOW | RTLD_LOCAL);
        expect(plugins[i] != 0, "a plug-in");
        expect(of(plugins[i], "plugin_open")(0) == 1, "an open");
    }
    expect(of(plugins[0], "plugin_take")(&block) == CUBEJOBS_REGIONS_DONE, "a take");
    expect(of(plugins[1], "plugin_release")(&block) == CUBEJOBS_REGIONS_OTHER_MACHINE, "a foreign block is released");
    expect(of(plugins[0], "plugin_release")(&block) == CUBEJOBS_REGIONS_DONE, "a release");
    return 0;
}
#endif
