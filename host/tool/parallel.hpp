// Runs that do not depend on each other, several at a time.
#ifndef HMCS_PARALLEL_HPP
#define HMCS_PARALLEL_HPP

#include <cstddef>
#include <functional>

namespace tool {

class Words;

// Calls the job with 0 up to the count - 1; if it takes long, it shows the progress on a terminal.
void run_each(std::size_t count, std::size_t jobs, const std::function<void(std::size_t)> &run);
// The option --jobs; the default is the number of processors.
std::size_t jobs_of(const Words &words);

} // namespace tool

#endif
