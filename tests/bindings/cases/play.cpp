// Plays cases.jsonl, whose form README.md tells, and prints how many calls it made.
//
//     play CASES
#include "jcache.hpp"
#include <algorithm>
#include <fstream>
#include <iostream>
#include <jansson.h>

using jcache::Entry;
using jcache::Value;

// A JSON value, which is freed where it is dropped.
struct Json {
    Json(json_t *owned) : at(owned) {}
    Json(Json &&other) : at(std::exchange(other.at, nullptr)) {}
    Json &operator=(Json &&other) { return std::swap(at, other.at), *this; }
    ~Json() { json_decref(at); }
    json_t *give() { return std::exchange(at, nullptr); }
    json_t *at;
};

static const char *text(json_t *line, const char *name) { return json_string_value(json_object_get(line, name)); }
static bool has(json_t *line, const char *name) { return json_object_get(line, name); }
static Json said(const Value &value) { return value ? json_stringn(value->data(), value->size()) : json_null(); }
static Json value_of(const Value &value) { return json_pack("{s:o}", "value", said(value).give()); }
static Json done() { return json_string("done"); }
static Json truth(bool is) { return json_boolean(is); }
static std::vector<std::string_view> keys(json_t *line) {
    std::vector<std::string_view> keys;
    size_t place;
    json_t *key;
    json_array_foreach(json_object_get(line, "ks"), place, key) keys.push_back(json_string_value(key));
    return keys;
}
static Json pairs_of(const jcache::Pairs &found) {
    json_t *pairs = json_array();
    for (const auto &[key, value] : found)
        json_array_append_new(pairs, json_pack("[o,o]", said(key).give(), said(value).give()));
    return json_pack("{s:o}", "pairs", pairs);
}

// A manager with the cache of one case, and what its hooks were asked since the last call.
class Player {
  public:
    explicit Player(json_t *line) : cache(manager.create_cache("case", configuration(line))) {}

    // What a call comes to, as a case says it.
    Json call(json_t *line) {
        try {
            for (auto part : {&Player::of_manager, &Player::of_one, &Player::of_many, &Player::look})
                if (Json outcome = (this->*part)(line, text(line, "op")); outcome.at)
                    return outcome;
            throw std::runtime_error(std::string("no such op: ") + text(line, "op"));
        } catch (const jcache::Error &error) {
            if (error.place())
                return json_pack("{s:i,s:i}", "refused", int(error.status()), "place", int(*error.place()));
            if (error.kind() == jcache::Kind::refused)
                return json_pack("{s:i}", "refused", int(error.status()));
            static const char *const who[] = {"", "loader", "writer", "function", "listener", "hooks"};
            Json told = json_pack("{s:s}", "failed", who[int(error.kind())]);
            if (error.done())
                json_object_set_new(told.at, "done", json_integer(json_int_t(*error.done())));
            return told;
        }
    }

    Json asked{json_array()};

  private:
    jcache::FixedClock clock;
    jcache::Manager manager{7, clock};
    jcache::Cache cache;
    std::string saved;

    void ask(const char *what, std::string_view key) {
        json_array_append_new(asked.at, json_pack("[s,o]", what, said(std::string(key)).give()));
    }
    void ask(const char *what, std::string_view key, const Value &value) {
        ask(what, key);
        json_array_append_new(json_array_get(asked.at, json_array_size(asked.at) - 1), said(value).give());
    }

    static jcache::Expiry expiry(json_t *line) {
        const std::pair<std::string_view, std::uint32_t> names[] = {
            {"created", JC_CREATED}, {"accessed", JC_ACCESSED}, {"modified", JC_MODIFIED}, {"touched", JC_TOUCHED}};
        for (auto [name, policy] : names)
            if (has(line, "expiry") && name == text(line, "expiry"))
                return {policy, std::uint64_t(json_integer_value(json_object_get(line, "duration")))};
        return {};
    }

    jcache::Configuration configuration(json_t *line) {
        jcache::Configuration made{.capacity = std::uint32_t(json_integer_value(json_object_get(line, "capacity")))};
        made.expiry = expiry(line);
        if (has(line, "max_value"))
            made.max_value = std::uint32_t(json_integer_value(json_object_get(line, "max_value")));
        size_t place;
        json_t *hook;
        json_array_foreach(json_object_get(line, "hooks"), place, hook) {
            std::string_view name = json_string_value(hook);
            if (name == "loader")
                made.loader = [this](std::string_view key) { return load(key); };
            if (name == "writer")
                made.writer = [this](std::string_view key, const Value &value) { write(key, value); };
            if (name == "listener")
                made.listeners.push_back([this](const jcache::Event &event) { hear(event); });
        }
        return made;
    }

    Value load(std::string_view key) {
        ask("load", key);
        if (key.starts_with("!"))
            throw std::runtime_error("a loader");
        return key.starts_with("-") ? Value() : Value(key);
    }
    void write(std::string_view key, const Value &value) {
        value ? ask("write", key, value) : ask("delete", key);
        if (key.starts_with("!"))
            throw std::runtime_error("a writer");
    }
    void hear(const jcache::Event &event) {
        static const char *const kinds[] = {"created", "updated", "removed", "expired"};
        ask(kinds[int(event.kind)], event.key, event.value);
        json_array_append_new(json_array_get(asked.at, json_array_size(asked.at) - 1), said(event.before).give());
    }
    Value process(Entry &entry, std::string_view name, std::string_view argument) {
        Value value = entry.value();
        ask("process", entry.key(), value);
        if (name == "fail")
            throw std::runtime_error("a function");
        if (name == "drop")
            entry.remove();
        if (name == "save") {
            auto outcome = cache.without_exceptions().save();
            json_array_append_new(asked.at, json_pack("[s,i]", "save", int(outcome.error().status())));
        }
        if (name != "append")
            return value;
        entry.set(value.value_or("") + std::string(argument));
        return entry.value();
    }

    Json of_manager(json_t *line, std::string_view op) {
        if (op == "clock")
            return clock.set(*moment(line)), done();
        if (op == "create") {
            manager.create_cache(text(line, "name"), configuration(line));
            return done();
        }
        if (op == "destroy")
            return manager.destroy_cache(text(line, "name")), done();
        if (op == "restore")
            return restore(line);
        if (op != "names")
            return nullptr;
        json_t *names = json_array();
        for (const std::string &name : manager.cache_names())
            json_array_append_new(names, said(name).give());
        return json_pack("{s:o}", "names", names);
    }

    // Restores the bytes of the line, or else those that were saved. The cache that was made is called from then on.
    Json restore(json_t *line) {
        std::string_view hex = has(line, "bytes") ? text(line, "bytes") : "";
        std::string bytes;
        for (std::size_t k = 0; k < hex.size(); k += 2)
            bytes += char(std::stoi(std::string(hex.substr(k, 2)), nullptr, 16));
        cache = manager.restore(text(line, "name"), has(line, "bytes") ? bytes : saved, configuration(line));
        return done();
    }

    Json save() {
        saved = cache.save();
        std::string hex;
        for (unsigned char byte : saved)
            hex += {"0123456789abcdef"[byte / 16], "0123456789abcdef"[byte % 16]};
        return json_pack("{s:o}", "saved", said(hex).give());
    }

    static jcache::Moment moment(json_t *line) {
        json_t *at = json_object_get(line, "at");
        return at ? jcache::Moment(json_integer_value(at)) : jcache::Moment();
    }

    Json of_one(json_t *line, std::string_view op) {
        jcache::Moment at = moment(line);
        const char *k = text(line, "k"), *v = text(line, "v"), *expected = text(line, "expect");
        auto run = [this, f = text(line, "f"), arg = text(line, "arg")](Entry &entry) { return process(entry, f, arg); };
        if (op == "get") return value_of(cache.get(k, at));
        if (op == "contains") return truth(cache.contains_key(k, at));
        if (op == "put") return cache.put(k, v, at), done();
        if (op == "get_and_put") return value_of(cache.get_and_put(k, v, at));
        if (op == "get_and_replace") return value_of(cache.get_and_replace(k, v, at));
        if (op == "get_and_remove") return value_of(cache.get_and_remove(k, at));
        if (op == "put_if_absent") return truth(cache.put_if_absent(k, v, at));
        if (op == "replace") return truth(cache.replace(k, v, at));
        if (op == "replace_if") return truth(cache.replace_if(k, expected, v, at));
        if (op == "remove") return truth(cache.remove(k, at));
        if (op == "remove_if") return truth(cache.remove_if(k, expected, at));
        return op == "invoke" ? value_of(cache.invoke(k, run, loads(line), at)) : Json(nullptr);
    }

    static jcache::Loads loads(json_t *line) {
        return json_is_true(json_object_get(line, "loads")) ? jcache::Loads::yes : jcache::Loads::no;
    }

    Json of_many(json_t *line, std::string_view op) {
        jcache::Moment at = moment(line);
        std::vector<std::string_view> ks = keys(line);
        if (op == "get_all") return pairs_of(cache.get_all(ks, at));
        if (op == "put_all") return put_all(line, at);
        if (op == "remove_keys") return cache.remove_keys(ks, at), done();
        if (op == "load_all") return cache.load_all(ks, json_is_true(json_object_get(line, "replace")), at), done();
        if (op == "remove_all") return cache.remove_all(at), done();
        if (op == "clear") return cache.clear(at), done();
        if (op == "clear_stats") return cache.clear_statistics(at), done();
        if (op == "entries") return pairs_of(cache.entries(at));
        return op == "invoke_all" ? invoke_all(line, ks, at) : Json(nullptr);
    }

    Json put_all(json_t *line, jcache::Moment at) {
        std::vector<std::pair<std::string_view, std::string_view>> pairs;
        size_t place;
        json_t *pair;
        json_array_foreach(json_object_get(line, "kvs"), place, pair)
            pairs.emplace_back(json_string_value(json_array_get(pair, 0)), json_string_value(json_array_get(pair, 1)));
        cache.put_all(pairs, at);
        return done();
    }

    Json invoke_all(json_t *line, const std::vector<std::string_view> &ks, jcache::Moment at) {
        auto run = [&](Entry &entry) { return process(entry, text(line, "f"), text(line, "arg")); };
        json_t *results = json_array();
        for (const auto &[key, result] : cache.invoke_all(ks, run, loads(line), at)) {
            Value value = result ? result.value() : Value();
            json_array_append_new(results, json_pack("[o,o]", said(key).give(), said(value).give()));
        }
        return json_pack("{s:o}", "results", results);
    }

    Json look(json_t *line, std::string_view op) {
        if (op == "save")
            return save();
        if (op == "settings") {
            auto [capacity, expiry, loader, writer, listeners, max_value] = cache.configuration();
            return json_pack("{s:[i,i,I]}", "settings", int(capacity), int(expiry.policy), json_int_t(expiry.duration));
        }
        if (op == "rows")
            return json_pack("{s:i}", "rows", int(cache.size()));
        if (op == "bytes")
            return json_pack("{s:I}", "bytes", json_int_t(cache.byte_count()));
        if (op == "walk") {
            jcache::Pairs found;
            for (const jcache::Row &row : cache.walk(moment(line)))
                found.emplace_back(row.key, row.value);
            std::sort(found.begin(), found.end());
            return pairs_of(found);
        }
        if (op == "stats") {
            auto [hits, misses, puts, removals, evictions] = cache.statistics(moment(line));
            return json_pack("{s:[I,I,I,I,I]}", "counters", hits, misses, puts, removals, evictions);
        }
        std::optional<jcache::Row> row = cache.peek(text(line, "k"), moment(line));
        if (!row)
            return json_pack("{s:n}", "row");
        json_t *expires = row->expires ? json_integer(json_int_t(*row->expires)) : json_null();
        return json_pack("{s:[o,o]}", "row", said(row->value).give(), expires);
    }
};

// Whether a call comes to what its line says; if not, what it comes to is told.
static bool plays(Player &player, json_t *line, const std::string &words) {
    Json outcome = player.call(line), asked = std::exchange(player.asked, Json(json_array())), none = json_array();
    json_t *asks = has(line, "asks") ? json_object_get(line, "asks") : none.at;
    if (json_equal(outcome.at, json_object_get(line, "is")) && json_equal(asked.at, asks))
        return true;
    std::cout << words << "\ncame to ";
    json_dumpf(outcome.at, stdout, JSON_ENCODE_ANY);
    std::cout << std::flush << ", asked ";
    json_dumpf(asked.at, stdout, 0);
    return false;
}

int main(int, char **words) {
    std::ifstream lines(words[1]);
    std::optional<Player> player;
    int calls = 0;
    for (std::string line; std::getline(lines, line);) {
        Json said = json_loads(line.c_str(), 0, nullptr);
        if (has(said.at, "case"))
            player.emplace(said.at);
        else if (!plays(*player, said.at, line))
            return 1;
        else
            calls++;
    }
    std::cout << calls << " calls\n";
}
