// Gets that hit and puts of keys that are there, from C and C++: prints the nanoseconds of the processor that one takes.
//
//     calls CONTENDER
#include "jcache.hpp"

#include <cstdio>
#include <ctime>
#include <mutex>
#include <unordered_map>

namespace {

constexpr int count = 5'000, warm = 100'000, calls = 1'000'000;

double processor() {
    timespec time{};
    clock_gettime(CLOCK_PROCESS_CPUTIME_ID, &time);
    return double(time.tv_sec) * 1e9 + double(time.tv_nsec);
}

// What one call takes, of so many with keys that follow each other without a pattern.
template <class F> double each(int times, F call) {
    double began = processor();
    for (int i = 0, key = 0; i < times; i++, key = (key + 1'237) % count)
        call(key);
    return (processor() - began) / times;
}

template <class Get, class Put> void measure(Get get, Put put) {
    each(count, put);
    each(warm, get), each(warm, put);
    double of_get = each(calls, get);
    std::printf("%.0f %.0f\n", of_get, each(calls, put));
}

struct Pairs {
    Pairs() {
        for (int i = 0; i < count; i++) {
            keys.push_back("user:" + std::to_string(1'000'000 + i));
            values.push_back(("value " + std::to_string(i) + std::string(100, ' ')).substr(0, 100));
        }
    }
    std::vector<std::string> keys{}, values{};
};

const std::uint8_t *bytes(const std::string &text) { return reinterpret_cast<const std::uint8_t *>(text.data()); }

void from_c(const Pairs &of) {
    jc_manager manager{};
    jc_settings settings{};
    settings.capacity = 10'000;
    std::uint32_t id = 0;
    std::mutex lock;
    jc_open(&manager, 7);
    jc_create(&manager, JC_TEXT("calls"), &settings, JC_EMPTY, &id);
    auto get = [&](int i) {
        std::lock_guard held(lock);
        std::uint8_t value[256];
        std::size_t len = 0;
        if (jc_get_into(&manager, id, 0, bytes(of.keys[i]), of.keys[i].size(), value, sizeof value, &len) != JC_FOUND)
            std::abort();
    };
    auto put = [&](int i) {
        std::lock_guard held(lock);
        jc_put(&manager, id, 0, bytes(of.keys[i]), of.keys[i].size(), bytes(of.values[i]), of.values[i].size());
    };
    measure(get, put);
    jc_close(&manager);
}

void from_cpp(const Pairs &of) {
    jcache::Manager manager(7);
    jcache::Cache cache = manager.create_cache("calls", {.capacity = 10'000});
    measure([&](int i) { if (!cache.get(of.keys[i])) std::abort(); }, [&](int i) { cache.put(of.keys[i], of.values[i]); });
}

void by_map(const Pairs &of) {
    std::unordered_map<std::string, std::string> map;
    std::mutex lock;
    auto get = [&](int i) {
        std::lock_guard held(lock);
        std::string copy = map.at(of.keys[i]);
        if (copy.empty())
            std::abort();
    };
    auto put = [&](int i) {
        std::lock_guard held(lock);
        map[of.keys[i]] = of.values[i];
    };
    measure(get, put);
}

} // namespace

int main(int, char **words) {
    std::string_view contender(words[1]);
    (contender == "c" ? from_c : contender == "cpp" ? from_cpp : by_map)(Pairs());
}
