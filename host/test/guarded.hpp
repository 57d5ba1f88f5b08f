// Memory between guard pages: shared by the host's tests.
#ifndef HMCS_TEST_GUARDED_HPP
#define HMCS_TEST_GUARDED_HPP

#include <sys/mman.h>
#include <unistd.h>

#include <cstddef>
#include <cstdio>
#include <cstdlib>

namespace {

// Memory with inaccessible pages before and after it.
class Guarded {
  public:
    // The bytes end directly before the second guard page, or begin directly after the first.
    Guarded(std::size_t size, bool at_end) : size_(size) {
        const std::size_t page = static_cast<std::size_t>(sysconf(_SC_PAGESIZE));
        const std::size_t inner = (size + page - 1) / page * page + (size == 0 ? page : 0);
        whole_ = inner + 2 * page;
        base_ = static_cast<unsigned char *>(mmap(nullptr, whole_, PROT_NONE, MAP_PRIVATE | MAP_ANONYMOUS, -1, 0));
        if (base_ == MAP_FAILED || mprotect(base_ + page, inner, PROT_READ | PROT_WRITE) != 0) {
            std::perror("guard pages");
            std::exit(2);
        }
        bytes_ = at_end ? base_ + page + inner - size : base_ + page;
    }
    Guarded(const Guarded &) = delete;
    Guarded &operator=(const Guarded &) = delete;
    ~Guarded() { munmap(base_, whole_); }

    template <typename T> T *as() { return reinterpret_cast<T *>(bytes_); }
    std::size_t size() const { return size_; }

  private:
    std::size_t size_;
    std::size_t whole_;
    unsigned char *base_;
    unsigned char *bytes_;
};

} // namespace

#endif
