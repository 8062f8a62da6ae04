// What a call throws, or returns in its Result.
#ifndef JCACHE_ERROR_HPP
#define JCACHE_ERROR_HPP

#include "jcache.h"

#include <exception>
#include <optional>
#include <stdexcept>
#include <string>
#include <utility>
#include <variant>

namespace jcache {

// Why a call has not done what it should. Refused calls have changed nothing, nor has restoring with hooks that differ from
// those of the saved cache; otherwise a hook threw. After a listener threw the call's changes stand, and the listeners behind
// were not told.
enum class Kind { refused, loader_failed, writer_failed, processor_failed, listener_failed, hooks_differ };

namespace detail {

inline std::string words(Kind kind, jc_status status) {
    switch (kind) {
    case Kind::loader_failed: return "the loader failed";
    case Kind::writer_failed: return "the writer failed";
    case Kind::processor_failed: return "the function failed";
    case Kind::listener_failed: return "a listener failed";
    case Kind::hooks_differ: return "the saved cache had other hooks";
    case Kind::refused: break;
    }
    switch (status) {
    case JC_NO_SUCH_CACHE: return "the cache was destroyed";
    case JC_BUSY: return "a call on the cache is open";
    case JC_OUT_OF_MEMORY: return "out of memory";
    case JC_TOO_MANY_CACHES: return "more than 1,024 caches";
    case JC_BAD_CAPACITY: return "the capacity is not from 1 to 65,536";
    case JC_TOO_MANY_LISTENERS: return "more than 8 listeners";
    case JC_DUPLICATE_NAME: return "a live cache has this name";
    case JC_TOTAL_CAPACITY: return "more than 262,144 entries in all caches";
    case JC_CLOSED: return "the manager is closed";
    case JC_BAD_KEY: return "a key or a name has not from 1 to 63 bytes of UTF-8";
    case JC_BAD_VALUE: return "a value has more bytes than the cache takes";
    case JC_TOO_MANY_KEYS: return "more than 64 keys";
    case JC_DUPLICATE_KEY: return "a key stands twice";
    case JC_BAD_SAVE: return "the bytes are no saved cache";
    case JC_OTHER_VERSION: return "the bytes are of another version";
    default: return "status " + std::to_string(status);
    }
}

} // namespace detail

// JSR 107's CacheException and its kinds.
class Error : public std::runtime_error {
  public:
    // The call was refused; the status is a number of jcache.h.
    explicit Error(jc_status status) : Error(Kind::refused, status, {}, nullptr) {}
    // Saved bytes were refused, which have their first flaw at this place.
    Error(jc_status status, std::size_t place) : Error(status) { flaw = place; }
    Error(Kind kind, jc_status status, std::optional<std::uint64_t> done, std::exception_ptr cause)
        : std::runtime_error("jcache: " + detail::words(kind, status)), what_kind(kind), number(status), before(done),
          thrown(std::move(cause)) {}

    Kind kind() const noexcept { return what_kind; }
    // A number of jcache.h.
    jc_status status() const noexcept { return number; }
    // Of bytes that are no saved cache, or one of another version: how many stand before the first flaw.
    std::optional<std::size_t> place() const noexcept { return flaw; }
    // Of a call on many keys, how many were done before a hook failed.
    std::optional<std::uint64_t> done() const noexcept { return before; }
    // What a hook threw, or null.
    const std::exception_ptr &cause() const noexcept { return thrown; }

  private:
    Kind what_kind;
    jc_status number;
    std::optional<std::uint64_t> before;
    std::exception_ptr thrown;
    std::optional<std::size_t> flaw{};
};

// What a call gives, or why it gives nothing.
template <class T> class [[nodiscard]] Result {
  public:
    Result(T value) : held(std::in_place_index<0>, std::move(value)) {}
    Result(Error error) : held(std::in_place_index<1>, std::move(error)) {}

    // Whether the call has done what it should.
    explicit operator bool() const noexcept { return held.index() == 0; }
    const Error &error() const { return std::get<1>(held); }
    // What it gives. Throws the error where there is one.
    T value() && { return *this ? std::get<0>(std::move(held)) : throw error(); }
    const T &value() const & { return *this ? std::get<0>(held) : throw error(); }

  private:
    std::variant<T, Error> held;
};

template <> class [[nodiscard]] Result<void> {
  public:
    Result() = default;
    Result(Error error) : held(std::move(error)) {}

    explicit operator bool() const noexcept { return !held; }
    const Error &error() const { return *held; }
    void value() const {
        if (held)
            throw *held;
    }

  private:
    std::optional<Error> held;
};

} // namespace jcache

#endif
