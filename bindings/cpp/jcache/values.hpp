// What caches are made with, and what they give.
#ifndef JCACHE_VALUES_HPP
#define JCACHE_VALUES_HPP

#include "clock.hpp"
#include "error.hpp"

#include <initializer_list>
#include <span>
#include <string_view>
#include <vector>

namespace jcache {

using Value = std::optional<std::string>;
using Pairs = std::vector<std::pair<std::string, std::string>>;

// When a call is made, in milliseconds; nothing: at the clock's time.
using Moment = std::optional<std::uint64_t>;

// What decides where keys stand; nothing: a secret that the system draws, so that nobody can choose keys that share their
// places.
using Seed = std::optional<std::uint64_t>;

// A list of items that its caller keeps: a span, or a list in braces.
template <class T> struct Items : std::span<const T> {
    using std::span<const T>::span;
    Items(std::initializer_list<T> items) : std::span<const T>(items.begin(), items.size()) {}
};

// At most 64 keys, all different; as many keys with their values.
using Keys = Items<std::string_view>;
using NewPairs = Items<std::pair<std::string_view, std::string_view>>;

// When an entry expires (JSR 107, ExpiryPolicy): so long after what the policy names. Whole milliseconds count.
struct Expiry {
    std::uint32_t policy = JC_ETERNAL;
    std::uint64_t duration = 0;

    static Expiry eternal() { return {}; }
    static Expiry created(std::chrono::milliseconds after) { return {JC_CREATED, detail::count(after)}; }
    // Anew from each access, each update, both.
    static Expiry accessed(std::chrono::milliseconds after) { return {JC_ACCESSED, detail::count(after)}; }
    static Expiry modified(std::chrono::milliseconds after) { return {JC_MODIFIED, detail::count(after)}; }
    static Expiry touched(std::chrono::milliseconds after) { return {JC_TOUCHED, detail::count(after)}; }
    bool operator==(const Expiry &) const = default;
};

enum class EventKind { created, updated, removed, expired };

// What a listener is told (JSR 107, CacheEntryEvent).
struct Event {
    EventKind kind;
    std::string key;
    Value value;  // of an entry that was created or updated
    Value before; // of an entry that was updated, removed or expired
    bool operator==(const Event &) const = default;
};

// What an invoked function is given (JSR 107, MutableEntry). Of several changes the last one holds.
class Entry {
  public:
    Entry(std::string key, Value value) : name(std::move(key)), now(std::move(value)) {}
    const std::string &key() const { return name; }
    const Value &value() const { return now; }
    bool exists() const { return now.has_value(); }
    void set(std::string value) { now = std::move(value), change = JC_SET; }
    void remove() { now.reset(), change = JC_REMOVE; }
    // What the library is told: a number of jcache.h, JC_KEEP to JC_REMOVE.
    std::uint32_t action() const { return change; }

  private:
    std::string name;
    Value now;
    std::uint32_t change = JC_KEEP;
};

// What a cache is made with (JSR 107, MutableConfiguration). A hook fails by throwing.
struct Configuration {
    std::uint32_t capacity = 1;
    Expiry expiry{};
    // A missing key's value, or nothing.
    std::function<Value(std::string_view key)> loader{};
    // No value: the key is removed.
    std::function<void(std::string_view key, const Value &value)> writer{};
    std::vector<std::function<void(const Event &)>> listeners{};
    // The most bytes of a value, from 1 to 65,535.
    std::uint32_t max_value = 65'535;
};

// An entry that was looked at, and when it expires; nothing: never.
struct Row {
    std::string key, value;
    Moment expires;
    bool operator==(const Row &) const = default;
};

// The counters of a cache (JSR 107, CacheStatisticsMXBean).
struct Statistics {
    std::uint64_t hits, misses, puts, removals, evictions;
    bool operator==(const Statistics &) const = default;
};

// Whether a missing key is loaded for a function that is invoked.
enum class Loads : std::uint8_t { no, yes };

} // namespace jcache

#endif
