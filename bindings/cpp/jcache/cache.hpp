// A cache.
#ifndef JCACHE_CACHE_HPP
#define JCACHE_CACHE_HPP

#include "asking.hpp"
#include "walk.hpp"

namespace jcache {

namespace detail {

// The lengths of texts, and the texts one after the other.
struct Joined {
    void add(std::string_view part) {
        text += part;
        lengths.push_back(static_cast<std::uint32_t>(part.size()));
    }
    explicit Joined(Keys keys) : count(keys.size()) {
        for (std::string_view key : keys)
            add(key);
        lengths.push_back(0);
    }
    explicit Joined(NewPairs pairs) : count(pairs.size()) {
        for (const auto &[key, value] : pairs)
            add(key), add(value);
        lengths.insert(lengths.end(), 2, 0);
    }
    std::size_t count;
    std::string text{};
    std::vector<std::uint32_t> lengths{};
};

} // namespace detail

// A cache of a manager, with the methods of JSR 107's Cache in snake case. Copies are the same cache. Each call takes a
// moment last; the manager's clock says it where it is left out. A whole call holds the cache's turn, hooks too.
template <bool throws> class BasicCache {
    template <class T> using Outcome = std::conditional_t<throws, T, Result<T>>;

  public:
    // The same cache, whose calls return a Result.
    BasicCache<false> without_exceptions() const { return BasicCache<false>(asking); }

    const std::string &name() const { return asking->name; }
    // What the cache was made or restored with (JSR 107, getConfiguration).
    const Configuration &configuration() const { return asking->hooks; }

    // The value; a missing key is loaded.
    Outcome<Value> get(std::string_view key, Moment now = {}) {
        std::uint8_t room[256];
        std::size_t len = sizeof room + 1;
        return out(asking->call<Value>(into(key, room, len, now), [&](jc_status status) -> Value {
            if (status == JC_FOUND && len <= sizeof room)
                return std::string(reinterpret_cast<const char *>(room), len);
            return status == JC_FOUND ? asking->part(jc_value, 0) : Value();
        }));
    }
    // As get, into a place of the caller's: how many bytes the value has. The first of them are there, as many as fit.
    Outcome<std::optional<std::size_t>> get_into(std::string_view key, std::span<std::byte> room, Moment now = {}) {
        std::span to(reinterpret_cast<std::uint8_t *>(room.data()), room.size());
        std::size_t len = SIZE_MAX;
        using Length = std::optional<std::size_t>;
        return out(asking->call<Length>(into(key, to, len, now), [&](jc_status status) -> Length {
            if (status == JC_FOUND && len == SIZE_MAX)
                ask([&](jc_manager *m) { return jc_value(m, asking->id, 0, to.data(), to.size(), &len); });
            return status == JC_FOUND ? Length(len) : Length();
        }));
    }
    // Whether there is a value. Nothing is loaded, counted or renewed.
    Outcome<bool> contains_key(std::string_view key, Moment now = {}) { return truth(one(jc_contains, key, now)); }
    Outcome<void> put(std::string_view key, std::string_view to, Moment now = {}) {
        return done(two(jc_put, key, to, now));
    }
    // These give the value before.
    Outcome<Value> get_and_put(std::string_view key, std::string_view to, Moment now = {}) {
        return value(two(jc_get_and_put, key, to, now));
    }
    Outcome<Value> get_and_replace(std::string_view key, std::string_view to, Moment now = {}) {
        return value(two(jc_get_and_replace, key, to, now));
    }
    Outcome<Value> get_and_remove(std::string_view key, Moment now = {}) { return value(one(jc_get_and_remove, key, now)); }
    // These give whether it was done.
    Outcome<bool> put_if_absent(std::string_view key, std::string_view to, Moment now = {}) {
        return truth(two(jc_put_if_absent, key, to, now));
    }
    Outcome<bool> replace(std::string_view key, std::string_view to, Moment now = {}) {
        return truth(two(jc_replace, key, to, now));
    }
    Outcome<bool> replace_if(std::string_view key, std::string_view expected, std::string_view to, Moment now = {}) {
        return truth([=, this](jc_manager *m) {
            return jc_replace_if(m, asking->id, moment(now), bytes(key), key.size(), bytes(expected), expected.size(),
                                 bytes(to), to.size());
        });
    }
    Outcome<bool> remove(std::string_view key, Moment now = {}) { return truth(one(jc_remove, key, now)); }
    Outcome<bool> remove_if(std::string_view key, std::string_view expected, Moment now = {}) {
        return truth(two(jc_remove_if, key, expected, now));
    }

    // The values of at most 64 keys; missing ones are loaded.
    Outcome<Pairs> get_all(Keys keys, Moment now = {}) { return pairs(many(jc_get_all, keys, now)); }
    Outcome<void> put_all(NewPairs pairs, Moment now = {}) {
        return done([this, now, all = detail::Joined(pairs)](jc_manager *m) {
            auto *lengths = reinterpret_cast<const jc_pair_lengths *>(all.lengths.data());
            return jc_put_all(m, asking->id, moment(now), lengths, all.count, bytes(all.text), all.text.size());
        });
    }
    Outcome<void> remove_keys(Keys keys, Moment now = {}) { return done(many(jc_remove_keys, keys, now)); }
    // Loads keys; those that have a value only with `replace`.
    Outcome<void> load_all(Keys keys, bool replace = false, Moment now = {}) {
        return done([this, now, replace, all = detail::Joined(keys)](jc_manager *m) {
            return jc_load_all(m, asking->id, moment(now), all.lengths.data(), all.count, bytes(all.text),
                               all.text.size(), replace);
        });
    }

    // Hands the key's Entry to a function, and gives what that returns. What it sets or removes happens when it returns.
    template <class F, class R = std::invoke_result_t<F &, Entry &>>
    Outcome<R> invoke(std::string_view key, F function, Loads loads = Loads::yes, Moment now = {}) {
        auto begin = [=, this](jc_manager *m) {
            return jc_invoke(m, asking->id, moment(now), bytes(key), key.size(), std::uint8_t(loads), JC_EMPTY);
        };
        if constexpr (std::is_void_v<R>) {
            return out(asking->call<void>(begin, nothing, [&](Entry &entry) { function(entry); }));
        } else {
            std::optional<R> given;
            auto process = [&](Entry &entry) { given.emplace(function(entry)); };
            return out(asking->call<R>(begin, [&](jc_status) { return std::move(*given); }, process));
        }
    }
    // As invoke for at most 64 keys: by key what the function returned or threw.
    template <class F, class R = std::invoke_result_t<F &, Entry &>>
    Outcome<std::vector<std::pair<std::string, Result<R>>>> invoke_all(Keys keys, F function, Loads loads = Loads::yes,
                                                                       Moment now = {}) {
        std::vector<std::pair<std::string, Result<R>>> results;
        auto process = [&](Entry &entry) {
            try {
                if constexpr (std::is_void_v<R>)
                    function(entry), results.emplace_back(entry.key(), Result<R>());
                else
                    results.emplace_back(entry.key(), Result<R>(function(entry)));
            } catch (...) {
                Error error(Kind::processor_failed, JC_PROCESSOR_FAILED, {}, std::current_exception());
                results.emplace_back(entry.key(), Result<R>(std::move(error)));
                throw;
            }
        };
        auto begin = [this, now, loads, all = detail::Joined(keys)](jc_manager *m) {
            return jc_invoke_all(m, asking->id, moment(now), all.lengths.data(), all.count, bytes(all.text),
                                 all.text.size(), std::uint8_t(loads), JC_EMPTY);
        };
        return out(asking->call<decltype(results)>(begin, [&](jc_status) { return std::move(results); }, process));
    }

    // Removes all, by the writer and with events; drops all, and tells nobody.
    Outcome<void> remove_all(Moment now = {}) { return done(whole(jc_remove_all, now)); }
    Outcome<void> clear(Moment now = {}) { return done(whole(jc_clear, now)); }
    // All entries, each with an access and a hit (iterator). `walk` counts nothing.
    Outcome<Pairs> entries(Moment now = {}) { return pairs(whole(jc_entries, now)); }
    Outcome<Statistics> statistics(Moment now = {}) {
        return out(asking->call<Statistics>(whole(jc_stats, now), [&](jc_status) {
            auto number = [&](std::size_t place) { return asking->number(place).value_or(0); };
            return Statistics{number(0), number(1), number(2), number(3), number(4)};
        }));
    }
    Outcome<void> clear_statistics(Moment now = {}) { return done(whole(jc_clear_stats, now)); }

    // The cache as bytes, from which Manager::restore makes it anew: all by which it will ever answer, but for its name and its
    // hooks. Nothing is changed or counted. It waits for an open call.
    Outcome<std::string> save() const {
        std::lock_guard<std::recursive_mutex> turn(asking->turn);
        std::string saved;
        jc_status status = ask([&](jc_manager *m) {
            std::size_t len = 0;
            jc_status status = jc_save(m, asking->id, detail::room(saved), 0, &len);
            if (status != JC_SHORT_BUFFER)
                return status;
            saved.resize(len);
            return jc_save(m, asking->id, detail::room(saved), len, &len);
        });
        return out(status == JC_DONE ? Result(std::move(saved)) : Result<std::string>(Error(status)));
    }

    // Looks. They load, count and renew nothing, and do not wait for an open call. How many entries lie in the cache, also
    // those that expired and were met by no call since:
    Outcome<std::size_t> size() const {
        std::size_t rows = 0;
        jc_status status = ask([&](jc_manager *m) { return jc_rows(m, asking->id, &rows); });
        return out(status == JC_DONE ? Result(rows) : Result<std::size_t>(Error(status)));
    }
    // How many bytes the keys and the values of these entries have.
    Outcome<std::uint64_t> byte_count() const {
        std::uint64_t found = 0;
        jc_status status = ask([&](jc_manager *m) { return jc_bytes(m, asking->id, &found); });
        return out(status == JC_DONE ? Result(found) : Result<std::uint64_t>(Error(status)));
    }
    Outcome<std::optional<Row>> peek(std::string_view key, Moment now = {}) const {
        return out(detail::peek(*asking, key, asking->library->moment(now)));
    }
    // The live entries one after the other, in no order, as a range. Other calls may go on meanwhile: an entry that stays is
    // given once.
    Walk walk(Moment now = {}) const { return Walk(asking, now); }

  private:
    template <bool> friend class BasicCache;
    template <bool> friend class BasicManager;
    explicit BasicCache(std::shared_ptr<detail::Asking> asking) : asking(std::move(asking)) {}

    static const std::uint8_t *bytes(std::string_view text) { return detail::bytes(text); }
    static Result<void> nothing(jc_status) { return {}; }
    std::uint64_t moment(Moment now) const { return asking->library->moment(now); }
    template <class F> auto ask(F call) const { return asking->library->ask(call); }

    template <class T> static Outcome<T> out(Result<T> result) {
        if constexpr (throws)
            return std::move(result).value();
        else
            return result;
    }
    template <class F> auto one(F function, std::string_view key, Moment now) const {
        return [=, this](jc_manager *m) { return function(m, asking->id, moment(now), bytes(key), key.size()); };
    }
    // Gets into a place; the length is written where the value was found at once, and not where it was loaded.
    auto into(std::string_view key, std::span<std::uint8_t> to, std::size_t &len, Moment now) const {
        return [=, this, &len](jc_manager *m) {
            return jc_get_into(m, asking->id, moment(now), bytes(key), key.size(), to.data(), to.size(), &len);
        };
    }
    template <class F> auto two(F function, std::string_view key, std::string_view to, Moment now) const {
        return [=, this](jc_manager *m) {
            return function(m, asking->id, moment(now), bytes(key), key.size(), bytes(to), to.size());
        };
    }
    template <class F> auto many(F function, Keys keys, Moment now) const {
        return [this, function, now, all = detail::Joined(keys)](jc_manager *m) {
            return function(m, asking->id, moment(now), all.lengths.data(), all.count, bytes(all.text), all.text.size());
        };
    }
    template <class F> auto whole(F function, Moment now) const {
        return [=, this](jc_manager *m) { return function(m, asking->id, moment(now)); };
    }
    template <class B> Outcome<void> done(B begin) { return out(asking->call<void>(begin, nothing)); }
    template <class B> Outcome<bool> truth(B begin) {
        return out(asking->call<bool>(begin, [](jc_status status) { return status == JC_TRUE; }));
    }
    template <class B> Outcome<Value> value(B begin) {
        return out(asking->call<Value>(begin, [&](jc_status status) {
            return status == JC_FOUND ? asking->part(jc_value, 0) : Value();
        }));
    }
    template <class B> Outcome<Pairs> pairs(B begin) {
        return out(asking->call<Pairs>(begin, [&](jc_status) {
            Pairs found;
            for (std::size_t item = 0, count = asking->items(); item < count; item++)
                found.emplace_back(asking->key(item), asking->part(jc_value, item).value_or(""));
            return found;
        }));
    }

    std::shared_ptr<detail::Asking> asking;
};

using Cache = BasicCache<true>;

} // namespace jcache

#endif
