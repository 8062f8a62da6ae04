// Looks at entries and walks through them.
#ifndef JCACHE_WALK_HPP
#define JCACHE_WALK_HPP

#include "asking.hpp"

#include <iterator>

namespace jcache {

namespace detail {

inline Moment expiry(std::uint64_t moment) { return moment == JC_NEVER ? Moment() : Moment(moment); }

inline Result<std::optional<Row>> peek(Asking &asking, std::string_view key, std::uint64_t now) {
    std::string text(256, '\0');
    std::uint64_t expires = 0;
    jc_status status = asking.library->ask([&](jc_manager *m) {
        for (;;) {
            std::size_t len = 0, most = text.size();
            jc_status status = jc_peek(m, asking.id, now, bytes(key), key.size(), &expires, room(text), most, &len);
            text.resize(len);
            if (len <= most)
                return status;
        }
    });
    if (status == JC_FOUND)
        return std::optional<Row>(Row{std::string(key), std::move(text), expiry(expires)});
    return status == JC_NOTHING ? Result(std::optional<Row>()) : Result<std::optional<Row>>(Error(status));
}

} // namespace detail

// The live entries of a cache, one after the other: a range of Row. It ends where the cache is destroyed.
class Walk {
  public:
    class Iterator {
      public:
        using iterator_category = std::input_iterator_tag;
        using value_type = Row;
        using difference_type = std::ptrdiff_t;
        using pointer = const Row *;
        using reference = const Row &;

        const Row &operator*() const { return walk->rows[walk->place]; }
        const Row *operator->() const { return &**this; }
        Iterator &operator++() {
            if (++walk->place == walk->rows.size())
                walk->step();
            return *this;
        }
        void operator++(int) { ++*this; }
        bool operator==(std::default_sentinel_t) const { return walk->rows.empty(); }

      private:
        friend class Walk;
        explicit Iterator(Walk *walk) : walk(walk) {}
        Walk *walk;
    };

    Walk(std::shared_ptr<detail::Asking> asking, Moment now) : asking(std::move(asking)), now(now), room(1 << 17) {}

    // Begins the walk.
    Iterator begin() {
        from = 0;
        step();
        return Iterator(this);
    }
    std::default_sentinel_t end() const { return {}; }

  private:
    // Reads the next live rows; none are left where there are none.
    void step() {
        rows.clear();
        place = 0;
        std::size_t len = 0;
        auto call = [&](jc_manager *m) { return jc_walk(m, asking->id, from, room.data(), room.size(), &len, &from); };
        while (rows.empty() && asking->library->ask(call) == JC_LISTED)
            read(len, asking->library->moment(now));
    }
    void read(std::size_t len, std::uint64_t moment) {
        for (std::size_t at = 0; at < len;) {
            std::uint64_t expires = little(at, 8);
            std::size_t key = at + 11, value = key + room[at + 8], next = value + little(at + 9, 2);
            if (expires == JC_NEVER || expires > moment)
                rows.push_back({text(key, value), text(value, next), detail::expiry(expires)});
            at = next;
        }
    }
    std::uint64_t little(std::size_t at, std::size_t count) const {
        std::uint64_t number = 0;
        for (std::size_t k = count; k-- > 0;)
            number = number << 8 | room[at + k];
        return number;
    }
    std::string text(std::size_t from, std::size_t to) const {
        return std::string(reinterpret_cast<const char *>(room.data()) + from, to - from);
    }

    std::shared_ptr<detail::Asking> asking;
    Moment now;
    std::vector<std::uint8_t> room;
    std::vector<Row> rows{};
    std::size_t place = 0;
    std::uint32_t from = 0;
};

} // namespace jcache

#endif
