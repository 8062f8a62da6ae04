// How a call goes: it begins, its hooks are asked, and it replies.
#ifndef JCACHE_ASKING_HPP
#define JCACHE_ASKING_HPP

#include "values.hpp"

#include <mutex>
#include <random>

namespace jcache::detail {

inline const std::uint8_t *bytes(std::string_view text) {
    return reinterpret_cast<const std::uint8_t *>(text.data() ? text.data() : "");
}

inline std::uint8_t *room(std::string &text) { return reinterpret_cast<std::uint8_t *>(text.data()); }

// A handle behind its lock, which is held for each call.
class Library {
  public:
    Library(Seed seed, Clock clock) : clock(std::move(clock)) {
        if (jc_status status = seed ? jc_open(&handle, *seed) : open_secret())
            throw Error(status);
    }
    ~Library() { jc_close(&handle); }
    Library(const Library &) = delete;
    Library &operator=(const Library &) = delete;

    template <class F> auto ask(F call) {
        std::lock_guard<std::mutex> held(lock);
        return call(&handle);
    }
    std::uint64_t moment(Moment now) const { return now ? *now : clock(); }

  private:
    jc_status open_secret() {
        std::random_device system;
        std::uint8_t secret[16];
        for (std::uint8_t &byte : secret)
            byte = static_cast<std::uint8_t>(system());
        return jc_open_secret(&handle, secret);
    }

    jc_manager handle{};
    std::mutex lock;
    Clock clock;
};

// A cache with its hooks. The turn is held for a whole call.
class Asking {
  public:
    using Process = std::function<void(Entry &)>;

    Asking(std::shared_ptr<Library> library, std::uint32_t id, std::string name, Configuration hooks)
        : library(std::move(library)), id(id), name(std::move(name)), hooks(std::move(hooks)) {}

    // Makes a whole call, and reads what it shows: `begin` and `read` are given the handle, `read` the status, too.
    template <class T, class B, class R> Result<T> call(B begin, R read, const Process &process = {}) {
        std::lock_guard<std::recursive_mutex> held(turn);
        std::exception_ptr cause;
        jc_status status = library->ask(begin);
        if (status > JC_NEED_TELL)
            return Error(status);
        while (status >= JC_NEED_LOAD) {
            jc_status request = status;
            status = answer(request, process, cause);
            if (status > JC_NEED_TELL) {
                ask(jc_give_up);
                return status == listener_threw ? Error(Kind::listener_failed, request, {}, cause) : Error(status);
            }
        }
        if (status >= JC_LOADER_FAILED)
            return failure(status, cause);
        return read(status);
    }

    Value part(jc_status (*read)(jc_manager *, std::uint32_t, std::size_t, std::uint8_t *, std::size_t, std::size_t *),
               std::size_t item) {
        std::string text(256, '\0');
        for (;;) {
            std::size_t len = 0;
            jc_status status = library->ask([&](jc_manager *m) {
                return read(m, id, item, room(text), text.size(), &len);
            });
            text.resize(len);
            if (status != JC_SHORT_BUFFER)
                return status == JC_DONE ? Value(std::move(text)) : Value();
        }
    }
    std::string key(std::size_t item) { return part(jc_key, item).value_or(""); }
    std::size_t items() {
        std::size_t count = 0;
        library->ask([&](jc_manager *m) { return jc_items(m, id, &count); });
        return count;
    }
    std::optional<std::uint64_t> number(std::size_t place) {
        std::uint64_t number = 0;
        jc_status status = library->ask([&](jc_manager *m) { return jc_number(m, id, place, &number); });
        return status == JC_DONE ? std::optional(number) : std::nullopt;
    }

    const std::shared_ptr<Library> library;
    const std::uint32_t id;
    const std::string name;
    const Configuration hooks;
    std::recursive_mutex turn;

  private:
    // No status of jcache.h.
    static constexpr jc_status listener_threw = 31;

    jc_status ask(jc_status (*function)(jc_manager *, std::uint32_t)) {
        return library->ask([&](jc_manager *m) { return function(m, id); });
    }

    Error failure(jc_status status, const std::exception_ptr &cause) {
        Kind kind = status == JC_LOADER_FAILED   ? Kind::loader_failed
                    : status == JC_WRITER_FAILED ? Kind::writer_failed
                                                 : Kind::processor_failed;
        return Error(kind, status, number(0), cause);
    }

    jc_status answer(jc_status request, const Process &process, std::exception_ptr &cause) {
        try {
            switch (request) {
            case JC_NEED_LOAD: return load();
            case JC_NEED_PROCESS: return run(process);
            case JC_NEED_TELL: return tell();
            default: hooks.writer(key(0), part(jc_value, 0)); return ask(jc_written);
            }
        } catch (...) {
            cause = std::current_exception();
        }
        switch (request) {
        case JC_NEED_LOAD: return ask(jc_load_failed);
        case JC_NEED_PROCESS: return ask(jc_process_failed);
        case JC_NEED_TELL: return listener_threw;
        default: return ask(jc_write_failed);
        }
    }

    jc_status load() {
        Value loaded = hooks.loader(key(0));
        if (!loaded)
            return ask(jc_loaded_nothing);
        return library->ask([&](jc_manager *m) { return jc_loaded(m, id, bytes(*loaded), loaded->size()); });
    }

    jc_status run(const Process &process) {
        Entry entry(key(0), part(jc_value, 0));
        process(entry);
        std::string_view value = entry.value() ? std::string_view(*entry.value()) : "";
        return library->ask([&](jc_manager *m) {
            return jc_processed(m, id, entry.action(), bytes(value), value.size(), 0, JC_EMPTY);
        });
    }

    jc_status tell() {
        for (std::size_t item = 0, count = items(); item < count; item++) {
            Event event{static_cast<EventKind>(number(item).value_or(0)), key(item), part(jc_value, item),
                        part(jc_before, item)};
            for (const auto &listener : hooks.listeners)
                listener(event);
        }
        return ask(jc_told);
    }
};

} // namespace jcache::detail

#endif
