// Saved caches: random calls on a cache that is cut, saved and restored elsewhere again and again, beside one that stays where
// it is; bytes with a change or an end in them; hooks that differ; threads.
//
//     saved [SEED]
#include "jcache.hpp"
#include <cstdlib>
#include <iostream>
#include <random>
#include <thread>

#define WANT(test) ((test) ? (void)0 : fail(__LINE__, #test))

using namespace std::chrono_literals;
using jcache::Cache;
using jcache::Entry;
using jcache::Error;
using jcache::Expiry;
using jcache::Kind;
using jcache::Manager;
using jcache::Value;

[[noreturn]] static void fail(int line, const char *test) {
    std::cout << "line " << line << ": " << test << "\n";
    std::exit(1);
}

// What a call throws; a refusal by JC_DONE where it throws nothing.
template <class F> static Error thrown(F call) {
    try {
        call();
    } catch (const Error &error) {
        return error;
    }
    return Error(JC_DONE);
}

class Draw {
  public:
    explicit Draw(unsigned seed) : words(seed) {}
    unsigned below(unsigned end) { return unsigned(words() % end); }
    std::string key() { return below(12) ? "k" + std::to_string(below(9)) : "ü"; }

  private:
    std::mt19937_64 words;
};

static std::string told(const Value &value) { return value.value_or("none"); }

// Hooks that note what they are asked. Some keys fail.
static jcache::Configuration hooks(std::string &heard, unsigned which) {
    jcache::Configuration made{.capacity = 1 + which % 7};
    made.expiry = {which % 5, which % 5 ? which % 20 : 0u};
    if (which & 1)
        made.loader = [&heard](std::string_view key) {
            heard += "load " + std::string(key) + "\n";
            return key == "k1" ? throw std::runtime_error("no such row") : key == "k2" ? Value() : Value(key);
        };
    if (which & 2)
        made.writer = [&heard](std::string_view key, const Value &value) {
            heard += "write " + std::string(key) + " " + told(value) + "\n";
            if (key == "k3")
                throw std::runtime_error("the row is locked");
        };
    for (unsigned n = 0; n < which % 3; n++)
        made.listeners.push_back([&heard](const jcache::Event &event) {
            heard += std::to_string(int(event.kind)) + event.key + told(event.value) + told(event.before) + "\n";
        });
    return made;
}

static std::string all(const jcache::Pairs &pairs) {
    std::string text;
    for (const auto &[key, value] : pairs)
        text += key + "=" + value + ";";
    return text;
}

// A call by its number: what it comes to.
static std::string outcome(Cache &cache, unsigned call, const std::string &key, const std::string &value, std::uint64_t now) {
    auto append = [&](Entry &entry) {
        entry.set(entry.value().value_or("").substr(0, 9) + value);
        return key == "k4" ? throw std::runtime_error("no") : std::string(*entry.value());
    };
    try {
        switch (call) {
        case 0: case 1: return told(cache.get(key, now));
        case 2: case 3: return cache.put(key, value, now), "put";
        case 4: return told(cache.get_and_put(key, value, now));
        case 5: return std::to_string(cache.put_if_absent(key, value, now));
        case 6: return std::to_string(cache.replace(key, value, now));
        case 7: return std::to_string(cache.replace_if(key, value, "new", now));
        case 8: return std::to_string(cache.remove(key, now));
        case 9: return told(cache.get_and_remove(key, now));
        case 10: return cache.invoke(key, append, jcache::Loads::yes, now);
        case 11: return all(cache.get_all({key, "k0", "other"}, now));
        case 12: return cache.load_all({key, "other"}, true, now), "loaded";
        case 13: return all(cache.entries(now));
        default: return std::to_string(cache.statistics(now).hits * 1'000'000 + cache.statistics(now).misses);
        }
    } catch (const Error &error) {
        return error.what();
    }
}

// A cache that moves between two managers is seen as one that stays.
static void moves(unsigned seed) {
    Draw draw(seed);
    std::string at_home, elsewhere;
    Manager home(seed), managers[2];
    Cache stays = home.create_cache("stays", hooks(at_home, seed)), moving = managers[0].create_cache("0", hooks(elsewhere, seed));
    std::uint64_t now = 0;
    for (unsigned number = 0, moved = 0; number < 2'000; number++) {
        now += draw.below(4);
        std::string key = draw.key(), value = std::string(draw.below(9) ? draw.below(3) : 300, 'v');
        unsigned call = draw.below(15);
        WANT(outcome(stays, call, key, value, now) == outcome(moving, call, key, value, now) && at_home == elsewhere);
        if (draw.below(20))
            continue;
        std::string saved = moving.save(), last = std::to_string(moved++);
        Manager &there = managers[moved % 2];
        moving = there.restore(std::to_string(moved), saved, hooks(elsewhere, seed));
        managers[1 - moved % 2].destroy_cache(last);
        WANT(moving.save() == saved && stays.save() == saved);
        WANT(moving.configuration().capacity == stays.configuration().capacity);
        WANT(moving.configuration().expiry == stays.configuration().expiry && there.cache_names().size() == 1);
    }
}

// Bytes with an end or a change in them are refused with its place, or are a cache that saves to the same bytes.
static void damage(unsigned seed) {
    Draw draw(seed);
    Manager manager;
    Cache cache = manager.create_cache("whole", {.capacity = 9, .expiry = Expiry::touched(50ms)});
    for (unsigned n = 0; n < 7; n++)
        cache.put("key " + std::to_string(n), std::string(7 * n, 'v'), n);
    cache.get("key 1", 9);
    const std::string saved = cache.save();
    auto quiet = manager.without_exceptions();
    std::size_t restored = 0, changes = 10'000;
    for (std::size_t n = 0; n < changes + saved.size(); n++) {
        std::string text = n < changes ? saved : saved.substr(0, n - changes);
        if (n < changes)
            text[draw.below(unsigned(saved.size()))] ^= char(1 + draw.below(255));
        auto made = quiet.restore("damaged", text);
        if (made) {
            WANT(text.size() == saved.size() && made.value().save().value() == text && quiet.destroy_cache("damaged"));
            restored++;
        } else
            WANT(made.error().kind() == Kind::hooks_differ || *made.error().place() <= text.size());
    }
    WANT(manager.cache_names() == std::vector<std::string>{"whole"} && restored > changes / 9 && restored < changes);
}

// Each kind of error, and what it tells.
static void kinds() {
    Manager manager;
    auto load = [](std::string_view key) { return Value(key); };
    Cache cache = manager.create_cache("loads", {.capacity = 3, .loader = load});
    const std::string saved = cache.save();
    Error error = thrown([&] { manager.restore("again", saved + "!", {.loader = load}); });
    WANT(error.kind() == Kind::refused && error.status() == JC_BAD_SAVE && error.place() == saved.size());
    error = thrown([&] { manager.restore("again", "JCS2"); });
    WANT(error.status() == JC_OTHER_VERSION && error.place() == 3u);
    error = thrown([&] { manager.restore("loads", saved, {.loader = load}); });
    WANT(error.status() == JC_DUPLICATE_NAME && !error.place());
    WANT(thrown([&] { manager.restore("again", saved); }).kind() == Kind::hooks_differ);
    jcache::Configuration heard{.loader = load, .listeners = {[](const jcache::Event &) {}}};
    WANT(thrown([&] { manager.restore("again", saved, heard); }).kind() == Kind::hooks_differ && !manager.get_cache("again"));
    const std::string without_processors = std::string("JCS1\1", 5) + std::string(52, '\0');
    WANT(thrown([&] { manager.restore("again", without_processors); }).kind() == Kind::hooks_differ);
    Cache again = manager.restore("again", saved, {.loader = load, .max_value = 2});
    WANT(again.name() == "again" && again.configuration().capacity == 3 && again.get("k1") == "k1");
    WANT(thrown([&] { again.get("long"); }).status() == JC_BAD_VALUE && manager.get_cache("again"));
    manager.close();
    WANT(thrown([&] { manager.restore("again", saved); }).status() == JC_CLOSED);
    WANT(thrown([&] { again.save(); }).status() == JC_CLOSED);
}

// Saving waits for another thread's open call; a hook's own cache is busy.
static void threads() {
    Manager manager;
    Cache cache = manager.create_cache("shared", {.capacity = 3});
    std::atomic<bool> began = false, goes_on = false;
    cache.invoke("a", [&](Entry &) { WANT(thrown([&] { cache.save(); }).status() == JC_BUSY); });
    std::thread caller([&] {
        cache.invoke("k", [&](Entry &entry) {
            for (began = true; !goes_on;)
                std::this_thread::yield();
            entry.set("late");
        });
    });
    while (!began)
        std::this_thread::yield();
    std::string saved;
    std::thread saver([&] { saved = cache.save(); });
    goes_on = true;
    caller.join(), saver.join();
    WANT(manager.restore("again", saved).get("k") == "late");
}

int main(int count, char **words) {
    unsigned seed = count > 1 ? unsigned(std::atoi(words[1])) : 0;
    for (unsigned n = 0; n < 42; n++)
        moves(42 * seed + n);
    damage(seed);
    kinds();
    threads();
    std::cout << "ok\n";
}
