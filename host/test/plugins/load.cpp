// load FILE NUMBER ...: loads the plugins, each open to those that come after it, and asks each for its entries, which must be the number.
#include <cstdio>
#include <cstdlib>
#include <dlfcn.h>
#include <vector>

int main(int count, char **words) {
    if (count < 3 || count % 2 == 0) {
        std::fputs("load FILE NUMBER ...\n", stderr);
        return 2;
    }
    std::vector<unsigned (*)()> plugins;
    for (int k = 1; k < count; k += 2) {
        void *plugin = dlopen(words[k], RTLD_NOW | RTLD_GLOBAL);
        void *entries = plugin ? dlsym(plugin, "plugin_entries") : nullptr;
        if (!entries) {
            std::fprintf(stderr, "%s\n", dlerror());
            return 1;
        }
        plugins.push_back(reinterpret_cast<unsigned (*)()>(entries));
    }
    for (std::size_t k = 0; k < plugins.size(); ++k) {
        const unsigned wanted = static_cast<unsigned>(std::atoi(words[2 * k + 2]));
        const unsigned found = plugins[k]();
        if (found != wanted) {
            std::fprintf(stderr, "%s answers %u and not %u\n", words[2 * k + 1], found, wanted);
            return 1;
        }
    }
    return 0;
}
