// A manager of caches.
#ifndef JCACHE_MANAGER_HPP
#define JCACHE_MANAGER_HPP

#include "cache.hpp"

#include <algorithm>
#include <map>

namespace jcache {

// The library's version: 10,000 times its first number, 100 times its second, and its third.
inline std::uint32_t version() { return jc_version(); }

namespace detail {

// A manager's caches by id, behind a lock.
struct Directory {
    explicit Directory(std::shared_ptr<Library> library) : library(std::move(library)) {}
    std::shared_ptr<Library> library;
    std::mutex lock{};
    std::map<std::uint32_t, std::shared_ptr<Asking>> caches{};
};

} // namespace detail

// A manager of named caches, with the methods of JSR 107's CacheManager in snake case. Copies are the same manager. It is
// closed by `close`, or when it and its caches are gone.
template <bool throws> class BasicManager {
    template <class T> using Outcome = std::conditional_t<throws, T, Result<T>>;
    using Cache = BasicCache<throws>;

  public:
    // Throws Error.
    explicit BasicManager(Seed seed = {}, Clock clock = WallClock())
        : shared(std::make_shared<detail::Directory>(std::make_shared<detail::Library>(seed, std::move(clock)))) {}

    // The same manager, whose calls return a Result.
    BasicManager<false> without_exceptions() const { return BasicManager<false>(shared); }

    Outcome<Cache> create_cache(std::string_view name, Configuration configuration) {
        std::lock_guard<std::mutex> held(shared->lock);
        jc_settings settings = settings_of(configuration);
        std::uint32_t id = 0;
        jc_status status = shared->library->ask([&](jc_manager *m) {
            return jc_create(m, detail::bytes(name), name.size(), &settings, wants, sizeof wants, &id);
        });
        return out(status == JC_DONE ? made(id, name, std::move(configuration)) : Result<Cache>(Error(status)));
    }
    // Makes a cache of this name from what Cache::save gave, in this process or another. From here on it answers as the saved
    // one would have. Of the configuration the hooks and `max_value` count: hooks are to be of the kinds of those that the
    // saved cache had. More than 268,435,456 bytes are refused as JC_BAD_SAVE. Moments are absolute: after a restart the clock
    // has to go on from where it was, as WallClock does.
    Outcome<Cache> restore(std::string_view name, std::string_view saved, Configuration configuration = {}) {
        std::lock_guard<std::mutex> held(shared->lock);
        jc_settings settings{};
        std::uint8_t wanted[16] = {};
        std::uint32_t id = 0;
        std::size_t place = 0, count = 0;
        jc_status status = shared->library->ask([&](jc_manager *m) {
            jc_status status = jc_restore(m, detail::bytes(name), name.size(), detail::bytes(saved), saved.size(),
                                          configuration.max_value, &id, &place);
            return status == JC_DONE ? jc_settings_of(m, id, &settings, wanted, sizeof wanted, &count) : status;
        });
        if (status == JC_BAD_SAVE || status == JC_OTHER_VERSION)
            return out(Result<Cache>(Error(status, place)));
        if (status != JC_DONE)
            return out(Result<Cache>(Error(status)));
        if (!std::equal(wanted, wanted + count, std::begin(wants), std::end(wants)) || !has_hooks(settings, configuration)) {
            shared->library->ask([&](jc_manager *m) { return jc_destroy(m, id); });
            return out(Result<Cache>(Error(Kind::hooks_differ, JC_DONE, {}, nullptr)));
        }
        configuration.capacity = settings.capacity;
        configuration.expiry = {settings.policy, settings.duration};
        return out(made(id, name, std::move(configuration)));
    }
    // The live cache of this name, if there is one.
    Outcome<std::optional<Cache>> get_cache(std::string_view name) {
        std::lock_guard<std::mutex> held(shared->lock);
        std::uint32_t id = 0;
        jc_status status = shared->library->ask([&](jc_manager *m) {
            return jc_find(m, detail::bytes(name), name.size(), &id);
        });
        using Found = Result<std::optional<Cache>>;
        if (status == JC_DONE)
            return out(Found(Cache(shared->caches.at(id))));
        return out(status == JC_NO_SUCH_CACHE ? Found(std::nullopt) : Found(Error(status)));
    }
    // Ends the cache of this name, if there is one; tells nobody. It waits for the cache's open call.
    Outcome<void> destroy_cache(std::string_view name) {
        Result<std::optional<BasicCache<false>>> cache = without_exceptions().get_cache(name);
        if (!cache)
            return out(Result<void>(cache.error()));
        if (!cache.value())
            return out(Result<void>());
        detail::Asking &asking = *cache.value()->asking;
        std::lock_guard<std::recursive_mutex> turn(asking.turn);
        std::lock_guard<std::mutex> held(shared->lock);
        jc_status status = shared->library->ask([&](jc_manager *m) { return jc_destroy(m, asking.id); });
        if (status != JC_DONE && status != JC_NO_SUCH_CACHE)
            return out(Result<void>(Error(status)));
        shared->caches.erase(asking.id);
        return out(Result<void>());
    }
    // The names of the live caches, as they were made.
    Outcome<std::vector<std::string>> cache_names() const {
        std::string listed(longest_names, '\0');
        std::size_t len = 0;
        auto call = [&](jc_manager *m) { return jc_names(m, detail::room(listed), listed.size(), &len); };
        if (jc_status status = shared->library->ask(call))
            return out(Result<std::vector<std::string>>(Error(status)));
        std::vector<std::string> names;
        for (std::size_t at = 0; at < len; at += 5 + names.back().size())
            names.push_back(listed.substr(at + 5, static_cast<std::uint8_t>(listed[at + 4])));
        return out(Result(std::move(names)));
    }
    // Ends all caches and frees their memory. Again, it does nothing.
    void close() { shared->library->ask(jc_close); }
    bool is_closed() const {
        std::uint32_t id = 0;
        return shared->library->ask([&](jc_manager *m) { return jc_find(m, detail::bytes("?"), 1, &id); }) == JC_CLOSED;
    }

  private:
    template <bool> friend class BasicManager;
    explicit BasicManager(std::shared_ptr<detail::Directory> shared) : shared(std::move(shared)) {}

    // Each cache has two processors in the library, which run the function that is invoked. The second wants the value.
    static constexpr std::uint8_t wants[] = {0, 1};
    // Of 1,024 caches, each with 4 bytes for its id and 1 for its name's length.
    static constexpr std::size_t longest_names = 1'024 * (4 + 1 + 63);

    Result<Cache> made(std::uint32_t id, std::string_view name, Configuration configuration) {
        auto made = std::make_shared<detail::Asking>(shared->library, id, std::string(name), std::move(configuration));
        shared->caches.emplace(id, made);
        return Cache(std::move(made));
    }

    static bool has_hooks(const jc_settings &saved, const Configuration &given) {
        jc_settings named = settings_of(given);
        return saved.loader == named.loader && saved.writer == named.writer && saved.listeners == named.listeners;
    }

    static jc_settings settings_of(const Configuration &given) {
        jc_settings settings{};
        settings.duration = given.expiry.duration;
        settings.capacity = given.capacity;
        settings.policy = given.expiry.policy;
        settings.loader = given.loader != nullptr;
        settings.writer = given.writer != nullptr;
        settings.listeners = static_cast<std::uint8_t>(std::min<std::size_t>(given.listeners.size(), 255));
        settings.max_value = given.max_value;
        return settings;
    }

    template <class T> static Outcome<T> out(Result<T> result) {
        if constexpr (throws)
            return std::move(result).value();
        else
            return result;
    }

    std::shared_ptr<detail::Directory> shared;
};

using Manager = BasicManager<true>;

} // namespace jcache

#endif
