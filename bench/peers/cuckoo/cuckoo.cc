// libcuckoo's map, which threads share: lookups and calls of many threads, as `jc_bench` does and prints them.
//
//     cuckoo KIND ROWS THREADS WRITERS CALLS
#include <atomic>
#include <chrono>
#include <cstdint>
#include <cstdio>
#include <ctime>
#include <functional>
#include <libcuckoo/cuckoohash_map.hh>
#include <string>
#include <thread>
#include <vector>

struct Key {
  uint32_t cache;
  std::string text;
  bool operator==(const Key& other) const { return cache == other.cache && text == other.text; }
};

struct Hash {
  size_t operator()(const Key& key) const {
    return std::hash<std::string>()(key.text) ^ (key.cache * 0x9e3779b97f4a7c15ull);
  }
};

using Map = libcuckoo::cuckoohash_map<Key, std::string, Hash>;

struct Counts {
  uint64_t yes = 0, no = 0;
};

static std::vector<Key> numbered(const char* front, size_t count) {
  std::vector<Key> keys;
  char text[32];
  for (size_t i = 0; i < count; i++) {
    snprintf(text, sizeof text, "%s-%06zu", front, i);
    keys.push_back(Key{0, text});
  }
  return keys;
}

static uint64_t processor_nanoseconds() {
  timespec time;
  clock_gettime(CLOCK_THREAD_CPUTIME_ID, &time);
  return time.tv_sec * 1000000000ull + time.tv_nsec;
}

static bool ask(Map& map, const std::string& kind, const Key& key, std::string& value) {
  if (kind == "get") return map.find(key, value);
  if (kind == "put") return map.insert_or_assign(key, "v"), true;
  return map.contains(key);
}

static Counts ask_often(Map& map, const std::string& kind, const std::vector<Key>& keys, uint64_t calls,
                        uint64_t first) {
  Counts counts;
  std::string value;
  uint64_t number = first;
  for (uint64_t i = 0; i < calls; i++) {
    number = number * 6364136223846793005ull + 1442695040888963407ull;
    ask(map, kind, keys[(number >> 33) % keys.size()], value) ? counts.yes++ : counts.no++;
  }
  return counts;
}

static Counts write_meanwhile(Map& map, const std::vector<Key>& keys, const std::atomic<int>& busy) {
  Counts counts;
  for (size_t round = 0; busy > 0; round++) {
    map.insert_or_assign(keys[round % keys.size()], "v");
    map.erase(keys[(round + keys.size() / 2) % keys.size()]);
    counts.yes += 2;
  }
  return counts;
}

// Does the work when all threads are ready, and prints what came of it and how long it took.
static void timed(const char* name, std::atomic<int>& awaited, const std::function<Counts()>& work) {
  awaited--;
  while (awaited > 0) std::this_thread::yield();
  auto start = std::chrono::steady_clock::now();
  uint64_t used = processor_nanoseconds();
  Counts counts = work();
  uint64_t processor = processor_nanoseconds() - used;
  long long wall = std::chrono::nanoseconds(std::chrono::steady_clock::now() - start).count();
  printf("%s yes=%lu no=%lu unsure=0 refused=0 wall=%lld processor=%lu\n", name, counts.yes, counts.no, wall,
         processor);
}

int main(int, char** words) {
  std::string kind = words[1];
  size_t rows = std::stoul(words[2]);
  int threads = std::stoi(words[3]), writers = std::stoi(words[4]);
  uint64_t calls = std::stoull(words[5]);
  Map map;
  for (const Key& key : numbered("key", rows)) map.insert(key, "v");
  std::vector<Key> keys = numbered(kind == "miss" ? "mis" : "key", rows), own = numbered("own", 64);
  std::atomic<int> awaited{threads + writers}, busy{threads};
  std::vector<std::thread> all;
  for (int first = 0; first < threads; first++)
    all.emplace_back([&, first] {
      timed(kind.c_str(), awaited, [&] { return ask_often(map, kind, keys, calls, first); });
      busy--;
    });
  for (int i = 0; i < writers; i++)
    all.emplace_back([&] { timed("write", awaited, [&] { return write_meanwhile(map, own, busy); }); });
  for (std::thread& thread : all) thread.join();
}
