// `chain`: why a thread waits.
#include "places.hpp"
#include "tool.hpp"

namespace tool {

namespace {

std::string chain(const Words &words) {
    const Input input = read_run(words);
    const std::uint64_t thread = number("THREAD", words.others()[1], UINT32_MAX);
    const hmcs::Lock lock = lock_after(input);
    const hmcs::ChainResult result = lock.chain(static_cast<std::uint32_t>(thread));
    if (result.refused()) {
        refuse("thread " + words.others()[1], result.refusal);
    }
    std::string text;
    for (std::size_t k = 0; k < result.threads.size(); ++k) {
        const bool last = k + 1 == result.threads.size();
        text += "thread " + std::to_string(result.threads[k]) + " " + standing(lock.state(), result.threads[k]);
        text += last ? " and can move\n" : " and waits for thread " + std::to_string(result.threads[k + 1]) + "\n";
    }
    return text;
}

} // namespace

Command chain_command() {
    return {"chain",
            "why a thread waits after a lock file's run",
            "usage: hmcs chain FILE THREAD\n"
            "       hmcs chain TREE THREAD --schedule S [--ticket]\n"
            "Runs the schedule of a lock file from a fresh lock and then says why the thread waits: which thread\n"
            "it waits for, which thread that one waits for, and so on, up to one that can move. The chain of a\n"
            "thread that can move is the thread alone.\n"
            "\n" +
                std::string(run_help) +
                "\n"
                "  hmcs chain two-sockets.lock 3\n",
            with_run_options({}),
            2,
            2,
            chain};
}

} // namespace tool
