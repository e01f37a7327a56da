/* Reads the conformance cases of all hashes and of the tree (tests/conformance/README.md) from a folder, makes each call
 * by vulfsjor.hpp and compares its outcome. Returns 0 if all are right, and C++ skips as many cases as this file says.
 *
 * Of every call it checks too: a refused call changes neither count nor digest, a digest of another length is refused
 * and writes nothing, a digest is the same again, `create` and the constructor accept and refuse the same, and the
 * exception names the argument.
 *
 *   c++ -std=c++17 -I FOLDER/include conformance.cpp ARCHIVE -o conformance_cpp
 *   ./conformance_cpp FOLDER_OF_CASES */
#include <vulfsjor.hpp>

#include "check.h"
#include "conformance_lines.h"

#include <list>
#include <map>
#include <string>

namespace {

using digest = std::vector<std::uint8_t>;

/* Bytes of the line, up to the end of a call. */
struct owned : text {
    explicit owned(const char *word) : text(text_of(word)) {}
    owned(const owned &) = delete;
    ~owned() { free(bytes); }
    vulfsjor::bytes view() const { return vulfsjor::bytes(bytes, length); }
    bool is_null() const { return !bytes && length; }
};

std::string hex_outcome_of(const digest &bytes) {
    std::string made = bytes.empty() ? "= -" : "= ";
    for (std::uint8_t byte : bytes) made += {"0123456789abcdef"[byte >> 4], "0123456789abcdef"[byte & 15]};
    return made;
}

vulfsjor::parameters parameters_of(const given &g) {
    vulfsjor::parameters made;
    if (::value_of("size", nullptr)) made.digest_length = g.size;
    if (::value_of("key", nullptr)) made.key = vulfsjor::bytes(TEXT(g.key));
    made.salt = vulfsjor::bytes(TEXT(g.salt));
    made.personal = vulfsjor::bytes(TEXT(g.person));
    if (g.is_node) made.tree = g.tree;
    made.allow_short = true;
    return made;
}

/* The refusal of the argument that an exception names. */
std::string refusal_of(const std::string &said) {
    static const std::map<std::string, std::string> names = {
        {"outlen", "size"}, {"personal", "person"}, {"tree->node_offset", "offset"}, {"tree->depth", "depth"},
        {"tree->inner_length", "inner"}, {"in", "message"}, {"key", "key"}, {"salt", "salt"}, {"context", "context"},
        {"leaf_length", "leaf"}, {"digests", "digests"}};
    const std::string name = said.substr(10, said.size() - 10 - 16); /* between `vulfsjor: ` and ` is out of range` */
    CHECK(said == "vulfsjor: " + name + " is out of range" && names.count(name));
    return "! " + (names.count(name) ? names.at(name) : name);
}

std::string call_equal() {
    const owned one(part[1]), other(part[2]);
    return one.length == other.length && !vulfsjor_memcmp(one.bytes, TEXT(other)) ? "= yes" : "= no";
}

/* The value that a call returns, or its refusal. */
template <class F> std::string outcome_of(F call) {
    try {
        return hex_outcome_of(call());
    } catch (const std::invalid_argument &refused) {
        return refusal_of(refused.what());
    }
}

template <class H> class driver {
    struct slot {
        std::optional<H> state;
        bool has_key;
    };
    static inline std::map<char, slot> slots;
    static constexpr bool has_nodes = std::is_same_v<H, vulfsjor::blake2b> || std::is_same_v<H, vulfsjor::blake2s>;

    /* A digest, which is the same again, and of no other length. */
    static digest digest_of(const H &state) {
        const std::size_t length = state.digest_length();
        digest made = state.digest(), room(length + 9, 0xaa);
        for (std::size_t other : {std::size_t(0), length - 1, length + 1, length + 9})
            CHECK(!state.digest_to(room.data(), other) && room == digest(length + 9, 0xaa));
        CHECK(!state.digest_to(nullptr, length) && state.digest_to(room.data(), length));
        CHECK(digest(room.begin() + static_cast<std::ptrdiff_t>(length), room.end()) == digest(9, 0xaa));
        room.resize(length);
        CHECK(room == made && made.size() == length);
        try {
            const auto sized = state.template digest<32>();
            CHECK(length == 32 && digest(sized.begin(), sized.end()) == made);
        } catch (const std::length_error &) {
            CHECK(length != 32);
        }
        return made;
    }

    static std::string make(slot &to, const given &g) {
        const vulfsjor::parameters wanted = parameters_of(g);
        to = {H::create(wanted), ::value_of("key", nullptr) != nullptr};
        try {
            H other(wanted);
            CHECK(to.state && other.digest() == to.state->digest());
        } catch (const std::invalid_argument &refused) {
            CHECK(!to.state);
            return refusal_of(refused.what());
        }
        if constexpr (has_nodes)
            if (g.last) to.state->set_last_node(true);
        return "";
    }

    static std::string hash(const owned &message, const given &g) {
        can = !::value_of("last", nullptr);
        return can ? outcome_of([&] { return H::hash(message.view(), parameters_of(g)); }) : "";
    }

    /* The digests of several messages, joined. */
    static std::string many(const given &g) {
        std::list<owned> messages;
        std::vector<vulfsjor::bytes> views;
        for (std::size_t i = 2; i < parts; i++)
            if (!strchr(part[i], '=')) views.push_back(messages.emplace_back(part[i]).view());
        return outcome_of([&] {
            digest joined;
            for (const digest &each : H::hash_many(views, parameters_of(g)))
                joined.insert(joined.end(), each.begin(), each.end());
            return joined;
        });
    }

    static std::string verify(slot &of, const owned &tag) {
        const digest made = digest_of(*of.state);
        const bool is_right = tag.length == made.size() && tag.bytes && !memcmp(tag.bytes, made.data(), made.size());
        try {
            CHECK(of.state->verify(tag.view()) == is_right && of.has_key);
        } catch (const std::logic_error &) {
            CHECK(!of.has_key);
        }
        if (!tag.is_null()) of.state.reset();
        return tag.is_null() ? "! tag" : is_right ? "= yes" : "= no";
    }

    /* As an array, and into room of its length only. */
    static std::string save(const slot &of) {
        constexpr std::size_t length = std::tuple_size_v<decltype(of.state->save())>;
        digest room(length + 9, 0xaa);
        for (std::size_t other : {std::size_t(0), length - 1, length + 1, length + 9})
            CHECK(!of.state->save_to(room.data(), other) && room == digest(length + 9, 0xaa));
        CHECK(!of.state->save_to(nullptr, length) && of.state->save_to(room.data(), length) == !of.has_key);
        CHECK(digest(room.begin() + (of.has_key ? 0 : length), room.end()) == digest(of.has_key ? length + 9 : 9, 0xaa));
        try {
            const auto made = of.state->save();
            room.resize(length);
            CHECK(!of.has_key && digest(made.begin(), made.end()) == room);
            return hex_outcome_of(room);
        } catch (const std::logic_error &refused) {
            CHECK(of.has_key && !strcmp(refused.what(), "vulfsjor: a hasher with a key is not saved"));
            return "! key";
        }
    }

    static std::string load(slot &to, const owned &saved) {
        to = {H::load_or_nothing(saved.view()), false};
        try {
            const H one = H::load(saved.view()), other = H::load(TEXT(saved));
            CHECK(to.state && one.digest() == to.state->digest() && other.digest() == one.digest());
            return "";
        } catch (const std::invalid_argument &refused) {
            CHECK(!to.state && !strcmp(refused.what(), "vulfsjor: this is not a saved state of this hash"));
            return "! saved";
        }
    }

    static std::string update(H &state, const owned &message) {
        const H before = state;
        const bool is_taken = state.update(message.view());
        CHECK(state.count() == before.count() + (is_taken ? message.length : 0));
        CHECK(is_taken || state.digest() == before.digest());
        return is_taken ? "" : "! message";
    }

    static std::string call(slot &of, const given &g) {
        std::string outcome;
        if (IS("new")) return make(of, g);
        if (IS("hash")) return hash(owned(part[2]), g);
        if (IS("equal")) return call_equal();
        if constexpr (has_nodes) {
            if (IS("many")) return many(g);
            if (IS("load")) return load(of, owned(part[3]));
        }
        if (IS("wipe")) of.state.reset();
        else if (!of.state) return "! state";
        else if (IS("update")) return update(*of.state, owned(part[2]));
        else if (IS("verify")) return verify(of, owned(part[2]));
        else if (IS("count")) return "= " + std::to_string(of.state->count());
        else if (IS("copy")) slots[*part[2]] = slot(of);
        else if (IS("reset")) of.state->reset();
        else if (IS("digest")) {
            outcome = hex_outcome_of(digest_of(*of.state));
            of.state.reset();
        } else if constexpr (has_nodes) {
            if (IS("last")) of.state->set_last_node(*part[2] == '1');
            else if (IS("save")) return save(of);
            else can = 0;
        } else {
            can = 0;
        }
        return outcome;
    }

  public:
    static void make_call() {
        given g = read_given(0);
        if (can) snprintf(got, sizeof got, "%s", call(slots[*part[1]], g).c_str());
        free_given(&g);
    }
};

/* The calls of BLAKE2Xb and BLAKE2Xs. */
template <class O> class output_driver {
    static inline std::map<char, std::optional<O>> slots;

    static vulfsjor::output_parameters parameters(const given &g) {
        vulfsjor::output_parameters made;
        if (strcmp(::value_of("size", "unknown"), "unknown")) made.length = g.size;
        if (::value_of("key", nullptr)) made.key = vulfsjor::bytes(TEXT(g.key));
        made.salt = vulfsjor::bytes(TEXT(g.salt));
        made.personal = vulfsjor::bytes(TEXT(g.person));
        return made;
    }

    /* The next bytes, which are the same by each call; and none if fewer are left. */
    static std::string read(O &from, std::size_t length) {
        O copy(from);
        const std::uint64_t left = from.left();
        const std::size_t written = length <= left ? length : 0;
        digest room(written + 9, 0xaa);
        const bool is_read = copy.read_to(room.data(), length);
        CHECK(is_read == (length <= left) && !copy.read_to(nullptr, 1));
        CHECK(digest(room.begin() + static_cast<std::ptrdiff_t>(written), room.end()) == digest(9, 0xaa));
        try {
            const digest made = from.read(length);
            room.resize(length);
            CHECK(is_read && made == room && from.left() == copy.left() && from.left() == left - length);
            return hex_outcome_of(made);
        } catch (const std::length_error &) {
            CHECK(!is_read && from.left() == left && copy.left() == left);
            return "! left";
        }
    }

    static std::string make(std::optional<O> &to, const given &g) {
        to = O::create(parameters(g));
        const std::string made = outcome_of([&] { return O(parameters(g)).read(0); });
        CHECK(to.has_value() == (made == "= -"));
        return to ? "" : made;
    }

    static std::string hash(const owned &message, const given &g) {
        return outcome_of([&] {
            O made(parameters(g));
            if (!made.update(message.view())) throw std::invalid_argument("vulfsjor: in is out of range");
            return made.read(static_cast<std::size_t>(g.size));
        });
    }

    static std::string call(std::optional<O> &of, const given &g) {
        if (IS("equal")) return call_equal();
        if (IS("new")) return make(of, g);
        if (IS("hash")) return hash(owned(part[2]), g);
        if (IS("derive")) {
            const owned context(part[1]);
            return outcome_of([&] { return O::derive_key(vulfsjor::bytes(TEXT(g.key)), context.view(), g.size); });
        }
        if (IS("wipe")) of.reset();
        else if (!of) return "! state";
        else if (IS("update")) {
            const std::uint64_t count = of->count();
            const owned message(part[2]);
            const bool is_taken = of->update(message.view());
            CHECK(of->count() == count + (is_taken ? message.length : 0));
            return is_taken ? "" : message.is_null() ? "! message" : "! state";
        } else if (IS("read")) return read(*of, strtoull(part[2], nullptr, 10));
        else if (IS("left")) return "= " + std::to_string(of->left());
        else if (IS("count")) return "= " + std::to_string(of->count());
        else if (IS("copy")) slots[*part[2]] = of;
        else if (IS("reset")) of->reset();
        else can = 0;
        return "";
    }

  public:
    static void make_call() {
        given g = read_given(0);
        if (can) snprintf(got, sizeof got, "%s", call(slots[*part[1]], g).c_str());
        free_given(&g);
    }
};

/* The calls of the tree of two levels. */
class tree_driver {
    using H = vulfsjor::tree_hasher;
    static inline std::map<char, std::optional<H>> slots;

    static vulfsjor::tree_parameters parameters(const given &g) {
        vulfsjor::tree_parameters made;
        made.leaf_length = g.tree.leaf_length;
        if (::value_of("size", nullptr)) made.digest_length = g.size;
        made.salt = vulfsjor::bytes(TEXT(g.salt));
        made.personal = vulfsjor::bytes(TEXT(g.person));
        return made;
    }

    static digest digest_of(const H &state) {
        const digest made = state.digest();
        digest room(made.size() + 9, 0xaa);
        CHECK(made.size() == state.digest_length() && !state.digest_to(nullptr, made.size()));
        CHECK(!state.digest_to(room.data(), made.size() + 1) && room == digest(made.size() + 9, 0xaa));
        CHECK(state.digest_to(room.data(), made.size()) && room[made.size()] == 0xaa);
        room.resize(made.size());
        CHECK(room == made);
        return made;
    }

    static std::string make(std::optional<H> &to, const given &g) {
        to = H::create(parameters(g));
        const std::string made = outcome_of([&] { return H(parameters(g)).digest(); });
        CHECK(to.has_value() == (made[0] == '=') && (!to || to->leaf_length() == g.tree.leaf_length));
        return to ? "" : made;
    }

    /* Of the digests of leaves the message is refused as one, with its place. */
    static std::string leaves(const owned &message, const given &g) {
        const std::string made = outcome_of([&] {
            return H::leaves(message.view(), strtoull(part[2], nullptr, 10), *part[3] == '1', parameters(g));
        });
        can &= *part[2] != '-' && !errno;
        return made == "! message" ? "! " : made;
    }

    static std::string call(std::optional<H> &of, const given &g) {
        if (IS("equal")) return call_equal();
        if (IS("new")) return make(of, g);
        if (IS("hash") || IS("top")) {
            const owned bytes(part[IS("hash") ? 2 : 1]);
            return outcome_of([&] {
                return IS("hash") ? H::root(bytes.view(), parameters(g)) : H::root_of_leaves(bytes.view(), parameters(g));
            });
        }
        if (IS("leaves")) return errno = 0, leaves(owned(part[1]), g);
        if (IS("wipe")) of.reset();
        else if (!of) return "! state";
        else if (IS("update")) return of->update(owned(part[2]).view()) ? "" : "! message";
        else if (IS("count")) return "= " + std::to_string(of->count());
        else if (IS("copy")) slots[*part[2]] = of;
        else if (IS("digest")) {
            const digest made = digest_of(*of);
            of.reset();
            return hex_outcome_of(made);
        } else can = 0;
        return "";
    }

  public:
    static void make_call() {
        given g = read_given(0);
        if (can) snprintf(got, sizeof got, "%s", call(slots[*part[1]], g).c_str());
        free_given(&g);
    }
};

/* Runs the cases of a hash by this driver, of which so many are skipped. */
template <class D> void run_cases_of_hash(const std::string &folder, const char *hash, int most_skipped) {
    const counts made = run_cases((folder + "/" + hash + ".txt").c_str(), D::make_call);
    std::printf("%s: %d calls, %d cases skipped, %d failures\n", hash, made.calls, made.skipped, fails);
    CHECK(made.calls > 5000 && made.skipped == most_skipped);
}

} /* namespace */

int main(int, char **argv) {
    run_cases_of_hash<driver<vulfsjor::blake2b>>(argv[1], "blake2b", 709);
    run_cases_of_hash<driver<vulfsjor::blake2s>>(argv[1], "blake2s", 705);
    run_cases_of_hash<driver<vulfsjor::blake2bp>>(argv[1], "blake2bp", 8);
    run_cases_of_hash<driver<vulfsjor::blake2sp>>(argv[1], "blake2sp", 8);
    run_cases_of_hash<output_driver<vulfsjor::blake2xb>>(argv[1], "blake2xb", 9);
    run_cases_of_hash<output_driver<vulfsjor::blake2xs>>(argv[1], "blake2xs", 8);
    run_cases_of_hash<tree_driver>(argv[1], "tree", 339);
    return fails != 0;
}
