#include "parallel.hpp"

#include "tool.hpp"

#include <atomic>
#include <chrono>
#include <condition_variable>
#include <cstdio>
#include <exception>
#include <mutex>
#include <system_error>
#include <thread>
#include <unistd.h>

namespace tool {

namespace {

// Waiting runs, and how many are done. The first exception of a job ends them all.
class Jobs {
  public:
    Jobs(std::size_t count, const std::function<void(std::size_t)> &run) : count_(count), run_(run) {}

    void work() {
        try {
            for (std::size_t k = next_++; k < count_; k = next_++) {
                run_(k);
                ++done_;
            }
        } catch (...) {
            next_ = count_;
            const std::lock_guard<std::mutex> held(mutex_);
            failure_ = std::current_exception();
        }
        const std::lock_guard<std::mutex> held(mutex_);
        ++ended_;
        changed_.notify_one();
    }

    // Waits until this many jobs have ended; after two seconds it shows the progress on a terminal.
    void await(std::size_t jobs) {
        const bool shown = isatty(STDERR_FILENO) != 0;
        std::unique_lock<std::mutex> held(mutex_);
        bool said = false;
        for (auto pause = std::chrono::milliseconds(2000); !changed_.wait_for(held, pause, [&] { return ended_ == jobs; });
             pause = std::chrono::milliseconds(200)) {
            if (shown) {
                std::fprintf(stderr, "\r%zu of %zu runs", done_.load(), count_);
                said = true;
            }
        }
        if (said) {
            std::fputs("\r\033[K", stderr);
        }
    }

    void rethrow() const {
        if (failure_) {
            std::rethrow_exception(failure_);
        }
    }

  private:
    std::size_t count_;
    const std::function<void(std::size_t)> &run_;
    std::atomic<std::size_t> next_{0}, done_{0};
    std::mutex mutex_;
    std::condition_variable changed_;
    std::size_t ended_ = 0;
    std::exception_ptr failure_;
};

} // namespace

void run_each(std::size_t count, std::size_t jobs, const std::function<void(std::size_t)> &run) {
    Jobs all(count, run);
    std::vector<std::thread> threads;
    for (std::size_t k = 0; k < std::min(jobs, count); ++k) {
        try {
            threads.emplace_back([&] { all.work(); });
        } catch (const std::system_error &) {
            break; // the system gives no more threads, and those that there are do the work
        }
    }
    if (threads.empty() && count > 0) {
        fail("the system could not start a thread");
    }
    all.await(threads.size());
    for (std::thread &thread : threads) {
        thread.join();
    }
    all.rethrow();
}

std::size_t jobs_of(const Words &words) {
    const std::string usual = std::to_string(std::max(1u, std::thread::hardware_concurrency()));
    const std::uint64_t jobs = number("--jobs", words.value("--jobs", usual), 1024);
    if (jobs == 0) {
        fail("--jobs must be at least 1");
    }
    return jobs;
}

} // namespace tool
