// Reading and writing files. Errors of the system are reported in its own words, and a partly written file is removed.
#include "tool.hpp"

#include <cerrno>
#include <cstdio>
#include <cstring>
#include <filesystem>
#include <memory>

namespace tool {

namespace {

[[noreturn]] void fail_with_system(const std::string &path, int error) { fail(path + ": " + std::strerror(error)); }

struct Closer {
    void operator()(std::FILE *file) const { std::fclose(file); }
};

} // namespace

std::string read_bytes(const std::string &path, std::size_t most) {
    if (path.empty()) {
        fail("expected a file name, got an empty word");
    }
    errno = 0;
    const bool is_input = path == "-";
    const std::unique_ptr<std::FILE, Closer> opened(is_input ? nullptr : std::fopen(path.c_str(), "rb"));
    std::FILE *file = is_input ? stdin : opened.get();
    if (file == nullptr) {
        fail_with_system(path, errno);
    }
    std::string bytes;
    char piece[65536];
    while (bytes.size() < most) {
        const std::size_t got = std::fread(piece, 1, std::min(sizeof piece, most - bytes.size()), file);
        bytes.append(piece, got);
        if (got == 0) {
            break;
        }
    }
    if (std::ferror(file) != 0) {
        fail_with_system(is_input ? "standard input" : path, errno);
    }
    return bytes;
}

namespace {

void write_file(const std::string &path, const std::string &bytes) {
    errno = 0;
    std::FILE *file = std::fopen(path.c_str(), "wb");
    if (file == nullptr) {
        fail_with_system(path, errno);
    }
    const bool written = std::fwrite(bytes.data(), 1, bytes.size(), file) == bytes.size() && std::fflush(file) == 0;
    const int error = errno;
    const bool closed = std::fclose(file) == 0;
    if (!written || !closed) {
        std::error_code ignored;
        if (std::filesystem::is_regular_file(path, ignored)) {
            std::filesystem::remove(path, ignored);
        }
        fail_with_system(path, written ? errno : error);
    }
}

} // namespace

std::string write_bytes(const std::string &path, const std::string &bytes, const std::vector<std::string> &inputs, const std::string &more) {
    if (path == "-") {
        return bytes;
    }
    for (const std::string &input : inputs) {
        std::error_code ignored;
        if (std::filesystem::equivalent(path, input, ignored)) {
            fail(path + ": this is an input file and would be overwritten");
        }
    }
    write_file(path, bytes);
    return path + ": " + std::to_string(bytes.size()) + " bytes" + more + "\n";
}

} // namespace tool
