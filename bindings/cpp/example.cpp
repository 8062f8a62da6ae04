// A cache whose loader is ours: the first get of a name loads its greeting, the next one finds it.
#include "jcache.hpp"
#include <iostream>

int main() {
    using namespace std::chrono_literals;
    jcache::FixedClock clock;
    jcache::Manager manager(7, clock);
    jcache::Cache greetings = manager.create_cache("greetings", {
        .capacity = 100,
        .expiry = jcache::Expiry::created(60s),
        .loader = [](std::string_view name) {
            std::cout << "loads " << name << "\n";
            return "Hello, " + std::string(name) + "!";
        },
    });
    for (std::uint64_t now : {0, 59999, 60000}) {
        clock.set(now);
        std::string greeting = greetings.get("ann").value();
        std::cout << now << " " << greeting << "\n";
    }
    jcache::Statistics counted = greetings.statistics();
    std::cout << counted.hits << " hit, " << counted.misses << " misses\n";
}
