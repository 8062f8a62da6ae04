// Clocks: they give the moment, in milliseconds, of a call that is given none.
#ifndef JCACHE_CLOCK_HPP
#define JCACHE_CLOCK_HPP

#include <atomic>
#include <chrono>
#include <cstdint>
#include <functional>
#include <memory>

namespace jcache {

using Clock = std::function<std::uint64_t()>;

namespace detail {

// Whole milliseconds, and none below zero.
inline std::uint64_t count(std::chrono::milliseconds span) {
    return span.count() < 0 ? 0 : static_cast<std::uint64_t>(span.count());
}

} // namespace detail

// Milliseconds since 1970: read from the system's clock once, and from then on counted by one that nobody sets. So it never
// falls.
class WallClock {
  public:
    std::uint64_t operator()() const {
        auto passed = start + (std::chrono::steady_clock::now() - since);
        return detail::count(std::chrono::duration_cast<std::chrono::milliseconds>(passed));
    }

  private:
    std::chrono::nanoseconds start = std::chrono::system_clock::now().time_since_epoch();
    std::chrono::steady_clock::time_point since = std::chrono::steady_clock::now();
};

// A clock for tests, which moves where it is told to. Its copies are the same clock.
class FixedClock {
  public:
    explicit FixedClock(std::uint64_t now = 0) : now(std::make_shared<std::atomic<std::uint64_t>>(now)) {}
    std::uint64_t operator()() const { return *now; }
    void set(std::uint64_t to) { *now = to; }
    void advance(std::chrono::milliseconds by) { *now += detail::count(by); }

  private:
    std::shared_ptr<std::atomic<std::uint64_t>> now;
};

} // namespace jcache

#endif
