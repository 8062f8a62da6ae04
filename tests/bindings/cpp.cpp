// The binding: each call, each hook, what is thrown and from what, results, clocks, walks, and four threads.
#include "jcache.hpp"
#include <cstdlib>
#include <iostream>
#include <set>
#include <thread>

#define WANT(test) ((test) ? (void)0 : fail(__LINE__, #test))

using namespace std::chrono_literals;
using jcache::Cache;
using jcache::Entry;
using jcache::Error;
using jcache::Event;
using jcache::EventKind;
using jcache::Kind;
using jcache::Value;

[[noreturn]] static void fail(int line, const char *test) {
    std::cout << "line " << line << ": " << test << "\n";
    std::exit(1);
}

// What a call throws; a refusal by JC_DONE where it throws nothing.
template <class F> static Error thrown(F call) {
    try {
        call();
    } catch (const Error &error) {
        return error;
    }
    return Error(JC_DONE);
}

template <class F> static jc_status refused(F call) {
    Error error = thrown(call);
    return error.kind() == Kind::refused ? error.status() : jc_status(JC_DONE);
}

// What the cause of an error says.
static std::string cause(const Error &error) {
    try {
        if (error.cause())
            std::rethrow_exception(error.cause());
    } catch (const std::exception &cause) {
        return cause.what();
    }
    return "";
}

static void plain(jcache::Manager &manager) {
    Cache cache = manager.create_cache("plain", {.capacity = 2});
    const std::string longest(65535, 'v');
    std::array<std::byte, 4> room{};
    WANT(!cache.get("k") && !cache.get_into("k", room));
    cache.put("k", longest);
    WANT(cache.get("k") == longest && cache.get_into("k", room) == 65535u && room[3] == std::byte('v'));
    WANT(cache.peek("k")->value == longest && cache.get_and_put("k", "") == longest && cache.get("k") == "");
    WANT(cache.contains_key("k") && !cache.put_if_absent("k", "w") && cache.replace("k", "w") && !cache.replace("n", "w"));
    WANT(!cache.replace_if("k", "v", "x") && cache.replace_if("k", "w", "x") && cache.get_and_replace("k", "y") == "x");
    WANT(!cache.remove_if("k", "x") && cache.remove_if("k", "y") && !cache.remove("k") && !cache.get_and_remove("k"));
    cache.put_all({{"a", "1"}, {"bü", "22"}});
    const jcache::Pairs both{{"a", "1"}, {"bü", "22"}};
    WANT(cache.get_all({"a", "c", "bü"}) == both && cache.entries() == both && cache.get_all({}).empty());
    std::vector<std::string_view> keys{"a", "c"};
    cache.remove_keys(keys);
    cache.remove_all();
    cache.put("a", "1");
    cache.clear();
    WANT(cache.entries().empty() && cache.statistics().removals == 3);
    cache.clear_statistics();
    cache.get("k");
    WANT(cache.statistics() == (jcache::Statistics{0, 1, 0, 0, 0}));
}

static void caches(jcache::Manager &manager) {
    jcache::Configuration configuration{.capacity = 3, .expiry = jcache::Expiry::touched(1s)};
    configuration.loader = [](std::string_view) { return Value(); };
    Cache first = manager.create_cache("first", configuration);
    WANT(first.name() == "first" && first.configuration().capacity == 3 && first.configuration().loader);
    WANT(first.configuration().expiry == (jcache::Expiry{JC_TOUCHED, 1000}) && !first.configuration().writer);
    manager.create_cache("second", {.capacity = 3});
    std::vector<std::string> names = manager.cache_names();
    WANT(names.size() >= 2 && names[names.size() - 2] == "first" && names.back() == "second");
    WANT(refused([&] { manager.create_cache("first", {.capacity = 3}); }) == JC_DUPLICATE_NAME);
    WANT(refused([&] { manager.create_cache("none", {.capacity = 0}); }) == JC_BAD_CAPACITY);
    configuration.listeners.resize(300);
    WANT(refused([&] { manager.create_cache("none", configuration); }) == JC_TOO_MANY_LISTENERS);
    WANT(refused([&] { manager.create_cache("", {}); }) == JC_BAD_KEY);
    WANT(manager.get_cache("first") && !manager.get_cache("none"));
    manager.destroy_cache("first");
    manager.destroy_cache("first");
    WANT(refused([&] { first.get("k"); }) == JC_NO_SUCH_CACHE && !manager.get_cache("first"));
    WANT(jcache::version() / 10000 == 0);
}

static void arguments(jcache::Manager &manager) {
    Cache cache = manager.create_cache("arguments", {.capacity = 3});
    WANT(refused([&] { cache.get(""); }) == JC_BAD_KEY);
    WANT(refused([&] { cache.put("k", std::string(65536, 'v')); }) == JC_BAD_VALUE);
    WANT(refused([&] { cache.get_all({"a", "a"}); }) == JC_DUPLICATE_KEY);
    std::vector<std::string> texts;
    for (int n = 0; n < 65; n++)
        texts.push_back(std::to_string(n));
    std::vector<std::string_view> keys(texts.begin(), texts.end());
    WANT(refused([&] { cache.remove_keys(keys); }) == JC_TOO_MANY_KEYS);
    WANT(cache.statistics() == jcache::Statistics{});
}

static void bounds(jcache::Manager &manager) {
    auto load = [](std::string_view key) { return Value(key); };
    Cache cache = manager.create_cache("bounds", {.capacity = 3, .loader = load, .max_value = 4});
    cache.put("a", "1234");
    WANT(refused([&] { cache.put("a", "12345"); }) == JC_BAD_VALUE && cache.get("a") == "1234");
    WANT(refused([&] { cache.get("longer"); }) == JC_BAD_VALUE && cache.byte_count() == 5u);
    WANT(cache.get("bu") == "bu" && cache.byte_count() == 9u);
}

static void results(jcache::Manager &manager) {
    auto quiet = manager.without_exceptions();
    WANT(quiet.create_cache("", {}).error().status() == JC_BAD_KEY);
    auto cache = quiet.create_cache("results", {.capacity = 3}).value();
    WANT(cache.put("k", "v") && cache.get("k").value() == "v" && !cache.remove("n").value());
    jcache::Result<Value> refused = cache.get("");
    WANT(!refused && refused.error().status() == JC_BAD_KEY);
    WANT(thrown([&] { (void)refused.value(); }).status() == JC_BAD_KEY);
    jcache::Result<int> failed = cache.invoke("k", [](Entry &) -> int { throw std::runtime_error("no"); });
    WANT(!failed && failed.error().kind() == Kind::processor_failed && cause(failed.error()) == "no");
    WANT(quiet.get_cache("results").value() && !quiet.get_cache("none").value() && quiet.destroy_cache("results"));
    WANT(cache.size().error().status() == JC_NO_SUCH_CACHE && cache.peek("k").error().status() == JC_NO_SUCH_CACHE);
}

static void clocks() {
    jcache::FixedClock clock(5);
    jcache::Manager manager({}, clock);
    Cache cache = manager.create_cache("moments", {.capacity = 3, .expiry = jcache::Expiry::created(10ms)});
    cache.put("k", "v");
    clock.advance(9ms);
    WANT(cache.contains_key("k") && cache.peek("k") == (jcache::Row{"k", "v", 15}));
    clock.set(15);
    WANT(!cache.contains_key("k") && !cache.peek("k") && cache.get("k", 14) == "v");
    jcache::WallClock wall;
    std::uint64_t before = wall();
    WANT(before > 1'700'000'000'000 && wall() >= before);
}

// What lies behind a cache, and what its listener has heard. Loading "worse" and writing "locked" fail.
struct Behind {
    std::map<std::string, Value, std::less<>> rows{{"ann", "Ann"}};
    std::vector<Event> heard;

    jcache::Configuration hooks() {
        jcache::Configuration hooks{.capacity = 10, .expiry = jcache::Expiry::touched(100ms)};
        hooks.loader = [this](std::string_view key) {
            if (key == "worse")
                throw std::runtime_error("no such row");
            auto row = rows.find(key);
            return row == rows.end() ? Value() : row->second;
        };
        hooks.writer = [this](std::string_view key, const Value &value) {
            if (key == "locked")
                throw std::runtime_error("the row is locked");
            rows[std::string(key)] = value;
        };
        hooks.listeners.push_back([this](const Event &event) {
            if (event.key == "thrown")
                throw std::runtime_error("not heard");
            heard.push_back(event);
        });
        return hooks;
    }
};

static Value append(Entry &entry, const std::string &more) {
    if (!entry.exists())
        throw std::runtime_error("no value");
    Value before = entry.value();
    entry.set(*before + more);
    return before;
}

static void hooks(jcache::Manager &manager) {
    Behind behind;
    Cache cache = manager.create_cache("hooks", behind.hooks());
    std::array<std::byte, 4> room{};
    WANT(cache.get("ann", 0) == "Ann" && !cache.get("bob", 0));
    WANT(behind.heard == (std::vector<Event>{{EventKind::created, "ann", "Ann", {}}}));
    cache.put("eve", "Eve", 0);
    WANT(behind.rows["eve"] == "Eve");
    WANT(cache.invoke("eve", [](Entry &entry) { return append(entry, "!"); }, jcache::Loads::yes, 0) == "Eve");
    auto results = cache.invoke_all({"eve", "none"}, [](Entry &entry) { return append(entry, "?"); }, jcache::Loads::yes, 0);
    WANT(results.size() == 2 && results[0].first == "eve" && results[0].second.value() == "Eve!");
    WANT(results[1].first == "none" && cause(results[1].second.error()) == "no value");
    behind.rows["kim"] = "Kim";
    WANT(!cache.invoke("kim", [](Entry &entry) { return entry.exists(); }, jcache::Loads::no, 0));
    WANT(cache.get_into("kim", room, 0) == 3u && room[2] == std::byte('m'));
    WANT(cache.get_and_remove("eve", 0) == "Eve!?" && !behind.rows["eve"]);
    WANT(behind.heard.back() == (Event{EventKind::removed, "eve", {}, "Eve!?"}));
    WANT(cache.get("ann", 500) == "Ann" && behind.heard.back().kind == EventKind::created);
    WANT(behind.heard[behind.heard.size() - 2] == (Event{EventKind::expired, "ann", {}, "Ann"}));
    cache.load_all({"ann"}, true, 500);
    WANT(behind.heard.back() == (Event{EventKind::updated, "ann", "Ann", "Ann"}));
    cache.invoke("ann", [](Entry &entry) { entry.remove(); }, jcache::Loads::yes, 500);
    WANT(!behind.rows["ann"]);
}

static void failures(jcache::Manager &manager) {
    Behind behind;
    Cache cache = manager.create_cache("failures", behind.hooks());
    Error error = thrown([&] { cache.load_all({"ann", "worse"}, true); });
    WANT(error.kind() == Kind::loader_failed && error.done() == 1u && cause(error) == "no such row");
    error = thrown([&] { cache.put("locked", ""); });
    WANT(error.kind() == Kind::writer_failed && !error.done() && cause(error) == "the row is locked");
    error = thrown([&] { cache.invoke("none", [](Entry &entry) { append(entry, ""); }); });
    WANT(error.kind() == Kind::processor_failed && cause(error) == "no value" && !cache.contains_key("locked"));
    error = thrown([&] { cache.put("thrown", "v"); });
    WANT(error.kind() == Kind::listener_failed && cause(error) == "not heard" && cache.get("thrown") == "v");
    jcache::Configuration tall{.capacity = 1, .loader = [](std::string_view) { return std::string(65536, 'v'); }};
    Cache refusing = manager.create_cache("refusing", tall);
    WANT(refused([&] { refusing.get("k"); }) == JC_BAD_VALUE && !refusing.contains_key("k"));
}

static void within(jcache::Manager &manager) {
    Cache cache = manager.create_cache("within", {.capacity = 2});
    cache.put("old", "v");
    cache.invoke("k", [&](Entry &) {
        WANT(refused([&] { cache.get("old"); }) == JC_BUSY && refused([&] { manager.destroy_cache("within"); }) == JC_BUSY);
        WANT(cache.size() == 1 && cache.peek("old")->value == "v" && cache.walk().begin()->key == "old");
    });
}

static void walks(jcache::Manager &manager) {
    Cache cache = manager.create_cache("walks", {.capacity = 1000, .expiry = jcache::Expiry::created(10ms)});
    std::map<std::string, std::string> rows;
    for (unsigned n = 0; n < 1000; n++) {
        const auto &[key, value] = *rows.emplace("key " + std::to_string(n), std::string(n * 97 % 2000, 'v')).first;
        cache.put(key, value, n % 2);
    }
    std::map<std::string, std::string> walked;
    std::set<std::string> live;
    for (const jcache::Row &row : cache.walk(9))
        WANT(walked.emplace(row.key, row.value).second);
    for (const jcache::Row &row : cache.walk(10))
        WANT(live.insert(row.key).second && row.expires == 11u);
    WANT(walked == rows && live.size() == 500 && cache.size() == 1000 && cache.statistics().hits == 0);
}

static void threads(jcache::Manager &manager) {
    std::vector<Cache> caches{manager.create_cache("one", {}), manager.create_cache("two", {})};
    auto count = [](Entry &entry) { entry.set(std::to_string(std::stoi(entry.value().value_or("0")) + 1)); };
    std::vector<std::thread> made;
    for (int n = 0; n < 4; n++)
        made.emplace_back([&, n] {
            for (int k = 0; k < 100; k++)
                caches[n % 2].invoke("n", count);
        });
    for (std::thread &thread : made)
        thread.join();
    WANT(caches[0].get("n") == "200" && caches[1].get("n") == "200");
}

int main() {
    jcache::Manager first(7), manager(std::move(first));
    for (auto test : {plain, caches, arguments, bounds, results, hooks, failures, within, walks, threads})
        test(manager);
    clocks();
    Cache kept = manager.create_cache("kept", {});
    manager = jcache::Manager();
    kept.put("k", "v");
    WANT(kept.get("k") == "v" && !manager.is_closed());
    Cache late = manager.create_cache("late", {});
    manager.close();
    manager.close();
    WANT(manager.is_closed() && refused([&] { late.get("k"); }) == JC_CLOSED);
    WANT(refused([&] { manager.get_cache("late"); }) == JC_CLOSED && refused([&] { manager.cache_names(); }) == JC_CLOSED);
    std::cout << "ok\n";
}
