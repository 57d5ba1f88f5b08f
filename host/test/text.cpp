// Trees as text, as a host reads them: the cases of the table, layouts by round trips, and that nothing outside the text is read.
#include "check.hpp"
#include "hmcs.hpp"
#include "trees.hpp"

#include <sys/mman.h>
#include <unistd.h>

#include <cstdio>
#include <cstdlib>
#include <cstring>
#include <string>

namespace {

const hmcs_tree no_tree{};

bool refused(const std::string &text, std::uint32_t number, std::size_t place) {
    const hmcs::TextResult result = hmcs::read_tree(text);
    return result.refusal.number == number && result.refusal.place == place && !result.message.empty() &&
           std::memcmp(&result.tree.words(), &no_tree, sizeof no_tree) == 0;
}

bool accepted(const std::string &text, const hmcs::Tree &tree) {
    const hmcs::TextResult result = hmcs::read_tree(text);
    return result.accepted() && result.refusal.place == 0 && result.message.empty() && std::memcmp(&result.tree.words(), &tree.words(), sizeof no_tree) == 0;
}

// Domains with threshold 1 and one thread each, and their tree.
std::string children(std::uint32_t count) {
    std::string text = "(";
    for (std::uint32_t d = 1; d <= count; ++d) {
        text += d > 1 ? " 1(#1)" : "1(#1)";
    }
    return text + ")";
}

hmcs::Tree tree_of_children(std::uint32_t count) {
    hmcs::Tree tree;
    for (std::uint32_t d = 1; d <= count; ++d) {
        tree.add_thread(tree.add_domain(0, 1));
    }
    return tree;
}

void printed_example() {
    const std::string example = "(2(#2) 16(#1))";
    CHECK(accepted(example, example_tree()));
    for (std::size_t cut = 0; cut < example.size(); ++cut) {
        CHECK(refused(example.substr(0, cut), HMCS_TEXT_WRONG, cut));
    }
    CHECK(refused(example + "\n", HMCS_TEXT_WRONG, 14));
    // The tree that was read makes a lock, which runs as document 01 prints it.
    hmcs::Lock lock(hmcs::read_tree(example).tree);
    CHECK(lock.accepted());
    const hmcs::RunResult run = lock.run({0, 0, 0, 0, 1, 1, 1, 1, 0, 0, 0, 1, 2, 2, 2, 2, 2, 1, 1, 1, 1, 2});
    CHECK(run.counts.steps == 22 && run.counts.entries == 3 && run.counts.stays == 1 && run.counts.root == 2);
}

void levels_and_limits() {
    hmcs::Tree one;
    one.add_thread(0);
    CHECK(accepted("(#1)", one));
    hmcs::Tree six;
    for (std::uint32_t d = 0; d < 5; ++d) {
        six.add_domain(d, 1);
    }
    six.add_thread(5);
    CHECK(accepted("(1(1(1(1(1(#1))))))", six));
    CHECK(refused("(1(1(1(1(1(1(#1)))))))", HMCS_TEXT_WRONG, 11));
    hmcs::Tree largest;
    largest.add_thread(largest.add_domain(0, 65535));
    CHECK(accepted("(65535(#1))", largest));
    CHECK(refused("(65536(#1))", HMCS_TEXT_WRONG, 5));
    CHECK(refused("(100000(#1))", HMCS_TEXT_WRONG, 6));
    CHECK(accepted(children(63), tree_of_children(63)));
    CHECK(refused(children(64), HMCS_BAD_DOMAINS, 0));
    hmcs::Tree full;
    for (int i = 0; i < 256; ++i) {
        full.add_thread(0);
    }
    CHECK(accepted("(#256)", full));
    CHECK(refused("(#257)", HMCS_BAD_THREADS, 0));
    CHECK(refused("(#" + std::string(300, '9') + ")", HMCS_BAD_THREADS, 0));
    CHECK(refused("(1(#9999) " + children(64).substr(1), HMCS_BAD_DOMAINS, 0));
}

void wrong_texts() {
    CHECK(refused("", HMCS_TEXT_WRONG, 0));
    CHECK(refused("()", HMCS_TEXT_WRONG, 1));
    CHECK(refused("(#0)", HMCS_TEXT_WRONG, 2));
    CHECK(refused("(#01)", HMCS_TEXT_WRONG, 2));
    CHECK(refused("(2(#2)  1(#1))", HMCS_TEXT_WRONG, 7));
    CHECK(refused("2(#2)", HMCS_TEXT_WRONG, 0));
    CHECK(refused(std::string("(#1\0)", 5), HMCS_TEXT_WRONG, 3));
    CHECK(refused("(#1\xff)", HMCS_TEXT_WRONG, 3));
    CHECK(hmcs_read_text(nullptr, 0).number == HMCS_TEXT_WRONG);
}

// A refusal that a person can read: words, the text, and a mark below the byte.
void messages() {
    CHECK(hmcs::read_tree("(2(#2)  1(#1))").message ==
          "the text leaves the grammar of trees, at byte 7: expected a threshold from 1 to 65,535 after one space\n(2(#2)  1(#1))\n       ^\n");
    CHECK(hmcs::read_tree("(2(#2)").message ==
          "the text leaves the grammar of trees: it ends too soon, at byte 6: expected ), or one space and another domain\n(2(#2)\n      ^\n");
    CHECK(hmcs::read_tree("(#1)\n").message == "the text leaves the grammar of trees, at byte 4: expected the end of the text\n(#1).\n    ^\n");
    CHECK(hmcs::read_tree("(#257)").message == "there are no threads, or more than 256\n");
    const std::string far = hmcs::read_tree(children(1000) + "x").message;
    CHECK(far.size() < 200 && far.find("...") != std::string::npos && far.find("x") != std::string::npos);
    const std::size_t mark = far.rfind('^');
    const std::size_t line = far.rfind('\n', mark - 1);
    const std::size_t above = far.rfind('\n', line - 1);
    CHECK(far[above + (mark - line)] == 'x');
}

// The text ends directly before a guard page.
void guarded(const std::string &text) {
    const std::size_t page = static_cast<std::size_t>(sysconf(_SC_PAGESIZE));
    const std::size_t inner = (text.size() + page - 1) / page * page + page;
    auto *base = static_cast<unsigned char *>(mmap(nullptr, inner + page, PROT_NONE, MAP_PRIVATE | MAP_ANONYMOUS, -1, 0));
    if (base == MAP_FAILED || mprotect(base, inner, PROT_READ | PROT_WRITE) != 0) {
        std::perror("guard pages");
        std::exit(2);
    }
    unsigned char *bytes = base + inner - text.size();
    std::memcpy(bytes, text.data(), text.size());
    const hmcs_text_reply there = hmcs_read_text(bytes, text.size());
    const hmcs_text_reply here = hmcs_read_text(reinterpret_cast<const std::uint8_t *>(text.data()), text.size());
    CHECK(there.number == here.number && there.place == here.place && std::memcmp(&there.tree, &here.tree, sizeof no_tree) == 0);
    munmap(base, inner + page);
}

} // namespace

int main() {
    printed_example();
    levels_and_limits();
    wrong_texts();
    messages();
    const std::string long_text = children(50000);
    for (const std::string &text : {std::string("(2(#2) 16(#1))"), std::string("(2(#2"), std::string("(65"), long_text, long_text.substr(0, 123457)}) {
        guarded(text);
    }
    std::printf("text: %d checks, %d failures\n", checks, failures);
    return failures == 0 ? 0 : 1;
}
