/* Tests what the conformance cases do not show of vulfsjor.hpp (conformance.cpp): what compiles, forms of bytes, moves,
 * lengths that no memory has, texts of exceptions, counts past 2^32, and what is left of a key. Returns 0 if all is as
 * it should be.
 *
 *   c++ -std=c++17 -I FOLDER/include hasher.cpp ARCHIVE -o hasher
 *   ./hasher                                  the same with -std=c++20, and with -fno-exceptions
 *
 * With -DTEST_SECRETS it tests only that the time of verify depends on no byte, under valgrind. */
#include <vulfsjor.hpp>

#include "check.h"

#ifdef __linux__
#include <ucontext.h>
#endif

#include <algorithm>
#include <functional>
#include <initializer_list>
#include <list>
#include <new>
#include <string_view>
#if __has_include(<span>) && __cplusplus >= 202002L
#include <span>
#endif
#ifdef TEST_SECRETS
#include <valgrind/memcheck.h>
#endif

using vulfsjor::blake2b;
using vulfsjor::blake2s;
using vulfsjor::bytes;
using vulfsjor::parameters;

namespace {

using text = std::vector<unsigned char>;

text counting_text(std::size_t count, std::size_t first) {
    text made(count);
    for (std::size_t i = 0; i < count; i++) made[i] = static_cast<unsigned char>(i + first);
    return made;
}
const text keys = counting_text(66, 100);

/* ---- what compiles */

template <class H> constexpr bool is_value =
    std::is_nothrow_default_constructible_v<H> && std::is_nothrow_copy_constructible_v<H> &&
    std::is_nothrow_move_constructible_v<H> && std::is_nothrow_copy_assignable_v<H> &&
    std::is_nothrow_move_assignable_v<H> && std::is_nothrow_swappable_v<H> &&
    !std::is_convertible_v<parameters, H> && noexcept(std::declval<H &>().update(bytes())) &&
    noexcept(H::create(parameters())) &&
    noexcept(std::declval<H &>().digest_to(nullptr, 0));
static_assert(is_value<blake2b> && is_value<blake2s>);
static_assert(blake2b::block_length == 128 && blake2s::block_length == 64);
static_assert(blake2b::max_digest_length == 64 && blake2s::max_digest_length == 32);

/* What is no bytes; wrong_lines.cpp has others. */
template <class T> constexpr bool is_bytes = std::is_convertible_v<T, bytes>;
static_assert(!is_bytes<std::u16string> && !is_bytes<int (&)[4]> && !is_bytes<const void *> &&
              !is_bytes<std::array<bool, 4>> && !is_bytes<std::vector<signed char>> &&
              !is_bytes<char (&&)[4]> && !is_bytes<const char (&&)[4]>);
static_assert(std::is_aggregate_v<parameters> && std::is_nothrow_default_constructible_v<parameters> &&
              std::is_nothrow_copy_constructible_v<parameters> && !std::is_trivially_destructible_v<parameters>);
#ifdef __cpp_lib_span
static_assert(is_bytes<std::span<const std::byte>> && is_bytes<std::span<unsigned char, 4>> &&
              !is_bytes<std::span<const int>>);
#endif
/* What is bytes only as an argument: a temporary that holds them. */
template <class T> constexpr bool is_argument_only =
    std::is_convertible_v<T, vulfsjor::argument> && !is_bytes<T> && !is_bytes<const T> && is_bytes<T &> && is_bytes<const T &>;
static_assert(is_argument_only<std::string> && is_argument_only<text> && is_argument_only<std::array<char, 4>> &&
              is_argument_only<std::array<const unsigned char, 4>> && is_argument_only<std::initializer_list<char>> &&
              is_argument_only<std::vector<std::byte>> && !is_argument_only<std::string_view>);
/* Views and owners of others: a view has a pointer and a length, and an owner the bytes. */
template <class P> struct other_view {
    P at;
    std::size_t length;
    P data() const { return at; }
    std::size_t size() const { return length; }
};
template <std::size_t N> struct other_owner {
    unsigned char held[N];
    const unsigned char *data() const { return held; }
    std::size_t size() const { return N; }
};
static_assert(is_bytes<other_view<const char *>> && is_bytes<other_view<std::byte *>> &&
              is_argument_only<other_owner<4>> && is_argument_only<other_owner<16>> && is_argument_only<other_owner<64>>);
static_assert(is_bytes<std::string_view> && is_bytes<const std::string_view> && is_bytes<std::string_view &> &&
              !is_bytes<unsigned char (&&)[4]> && std::is_convertible_v<unsigned char (&&)[4], vulfsjor::argument> &&
              std::is_convertible_v<bytes, vulfsjor::argument> && !std::is_convertible_v<vulfsjor::argument, bytes>);

/* Whether these arguments of `update` are the first n bytes of the buffer. */
#define TAKES(n, ...)                                                                                \
    do {                                                                                             \
        H one, other;                                                                                \
        CHECK(one.update(__VA_ARGS__) && other.update(buffer, n) && one.count() == std::size_t(n));  \
        CHECK(one.digest() == other.digest());                                                       \
    } while (0)

/* All ways to say the same bytes. */
template <class H> void check_kinds_of_inputs() {
    char buffer[] = {'a', ' ', 't', 'e', 'x', 't', 0, 'x'}, *pointer = buffer;
    const unsigned char array[] = {'a', ' ', 't', 'e', 'x', 't'}, with_zero[] = "a text";
    const std::array<std::byte, 2> of_bytes{std::byte('a'), std::byte(' ')};
    TAKES(6, "a text");
    TAKES(6, u8"a text");
    TAKES(8, "a text\0x");
    TAKES(6, array);
    TAKES(7, with_zero);
    TAKES(6, array, 6);
    TAKES(2, of_bytes);
    TAKES(6, std::string(pointer));
    TAKES(6, std::string_view(pointer));
    TAKES(3, std::string_view("a text, and more", 3));
    TAKES(4, std::vector<char>(buffer, buffer + 4));
    TAKES(8, buffer, sizeof buffer);
    TAKES(8, bytes(buffer, sizeof buffer));
    TAKES(0, "");
    TAKES(0, bytes());
    TAKES(0, nullptr, 0);
#ifdef __cpp_lib_span
    TAKES(2, std::span(of_bytes));
    TAKES(5, std::span(array).first(5));
    TAKES(6, std::u8string(u8"a text"));
#endif
#ifdef __cpp_char8_t
    static_assert(!is_bytes<const char8_t *> && !is_bytes<char8_t *>);
#endif
#if __cplusplus < 202002L
    /* From C++20 on the compiler refuses it. */
    const char no_literal[] = {'a', 'b', 'c'};
    parameters given;
    H hasher;
    given.personal = no_literal;
    CHECK(!hasher.update(no_literal) && !hasher.count() && !H::create(given));
#endif
}

/* Parameters are copies: what they were made of may change and be freed. */
template <class H> void check_copied_parameters() {
    text key = counting_text(20, 100);
    unsigned char salt[] = {50, 51, 52, 53, 54};
    parameters given{{}, key, salt, counting_text(6, 200), {}}, other;
    const auto wanted = H::create(given)->digest();
    const auto is_same = [&](const parameters &each) { return H::create(each)->digest() == wanted; };
    other.key = counting_text(20, 100);
    other.salt = counting_text(5, 50);
    other.personal = "another " + std::string("text");
    other.personal = counting_text(6, 200);
    for (int i = 0; i < 9; i++) CHECK(text(20, 0xee).back() == 0xee);
    key.assign(20, 0xee);
    salt[0] = 0;
    CHECK(is_same(given) && is_same(other));
    const parameters copy = given;
    given.key = counting_text(3, 1);
    given = parameters();
    CHECK(!given.key.has_value() && !given.key.size() && !given.key.data() && !given.salt.has_value());
    CHECK(is_same(copy));
    given.key = copy.key;
    given.key = std::nullopt;
    CHECK(!given.key.has_value() && H::create(given)->digest() == H().digest());
    given.key = "";
    CHECK(given.key.has_value() && !H::create(given));
#ifdef __cpp_designated_initializers
    CHECK(H::create(parameters{.digest_length = 16})->digest_length() == 16);
    CHECK(is_same({.key = counting_text(20, 100), .salt = counting_text(5, 50), .personal = counting_text(6, 200)}));
#endif
}

/* ---- refusals */

/* These parameters are refused, and the exception of the constructor says this. */
template <class H> void expect_parameters_refused(const parameters &given, const std::string &said) {
    CHECK(!H::create(given));
#ifdef __cpp_exceptions
    try {
        static_cast<void>(H(given));
        CHECK(false);
    } catch (const std::invalid_argument &error) {
        CHECK(error.what() == "vulfsjor: " + said);
    }
#else
    static_cast<void>(said);
#endif
}

/* Keys of no bytes, texts that are null or that no memory has, and tree parameters that a hash has not. */
template <class H> void check_refused_parameters() {
    for (bytes wrong : {bytes(), bytes(""), bytes(nullptr, 1), bytes(keys.data(), ~std::size_t(0))}) {
        expect_parameters_refused<H>({{}, wrong, {}, {}, {}}, "key is out of range");
        if (!wrong.size()) continue;
        expect_parameters_refused<H>({{}, {}, wrong, {}, {}}, "salt is out of range");
        expect_parameters_refused<H>({{}, {}, {}, wrong, {}}, "personal is out of range");
    }
    const parameters given{{}, {}, {}, {}, vulfsjor_tree{0, 0, 1, 1, 0, 0}}; /* no tree */
    if constexpr (std::is_same_v<H, blake2b> || std::is_same_v<H, blake2s>)
        CHECK(H::create(given)->digest() == H().digest());
    else expect_parameters_refused<H>(given, "this hash has no tree parameters");
    H hasher;
    CHECK(hasher.update("abc") && !hasher.update(keys.data(), ~std::size_t(0) - 2) && hasher.count() == 3);
}

/* A digest as an array has the length that the hasher has, and no other is one: two of them are never equal because
 * both are none. */
template <class H> void check_digest_arrays() {
#ifdef __cpp_exceptions
    static_assert(std::is_same_v<decltype(H().template digest<16>()), std::array<std::uint8_t, 16>>);
    constexpr std::size_t longest = H::max_digest_length;
    const H sixteen = *H::create({16, "a key", {}, {}, {}}), whole;
    const auto tag = sixteen.template digest<16>();
    CHECK(text(tag.begin(), tag.end()) == sixteen.digest() && sixteen.verify(tag));
    CHECK(H::create({{}, whole.template digest<longest>(), {}, {}, {}}) && whole.digest().size() == longest);
    const auto refuses = [](const auto &call, const std::string &said) {
        try {
            call();
            CHECK(false);
        } catch (const std::length_error &error) {
            CHECK(error.what() == "vulfsjor: the digest has " + said);
        }
    };
    refuses([&] { static_cast<void>(sixteen.template digest<15>()); }, "16 bytes, not 15");
    refuses([&] { static_cast<void>(sixteen.template digest<longest>()); }, "16 bytes, not " + std::to_string(longest));
    refuses([&] { static_cast<void>(whole.template digest<1>()); }, std::to_string(longest) + " bytes, not 1");
#endif
}

/* A verify that is refused, whatever the tag is. */
template <class H> void expect_verify_refused(const H &hasher, const std::string &said) {
#ifdef __cpp_exceptions
    try {
        CHECK(!hasher.verify(hasher.digest()) && false);
    } catch (const std::logic_error &error) {
        CHECK(error.what() == "vulfsjor: verify needs " + said);
    }
#else
    CHECK(!hasher.verify(hasher.digest()) && said.size());
#endif
}

/* A digest without a key is no tag, since anybody can make it; and neither is a short one, unless it is said. */
template <class H> void check_verify_needs_a_tag() {
    for (const H &each : {H(), *H::create({16, {}, {}, "a purpose", {}}), *H::create({8, {}, {}, {}, {}, true})})
        expect_verify_refused(each, "a key; compare digests by vulfsjor_memcmp");
    for (std::size_t length = 1; length <= H::max_digest_length; length++) {
        const H made = *H::create({length, "a key", {}, {}, {}}), allowed = *H::create({length, "a key", {}, {}, {}, true});
        H copy;
        copy = allowed;
        CHECK(copy.verify(made.digest()) && made.digest() == allowed.digest());
        if (length < 16) expect_verify_refused(made, "a digest_length of at least 16, or allow_short");
        else CHECK(made.verify(made.digest()));
    }
}

/* Whether a hash has saved states. */
template <class H, class = void> constexpr bool is_saved = false;
template <class H>
constexpr bool is_saved<H, std::void_t<decltype(std::declval<H>().save_to(nullptr, 0)), decltype(H::load_or_nothing(""))>> = true;
static_assert(is_saved<blake2b> && is_saved<blake2s> && !is_saved<vulfsjor::blake2bp> && !is_saved<vulfsjor::blake2sp>);

/* What is saved is loaded as what it was, by each call, and by no other hash. */
template <class H, class Other> void check_saved_states() {
    H hasher = *H::create({9, {}, {}, "purpose", {}}), other;
    std::array<std::uint8_t, 300> room{};
    const std::size_t length = H::max_digest_length == 64 ? 275 : 147;
    CHECK(hasher.update("message") && hasher.save_to(room.data(), length) && !room[length]);
    const bytes saved(room.data(), length);
    const auto loaded = H::load_or_nothing(saved);
    CHECK(loaded && loaded->digest() == hasher.digest() && loaded->count() == 7 && loaded->digest_length() == 9);
    CHECK(!Other::load_or_nothing(saved) && !H::load_or_nothing(bytes(room.data(), length - 1)));
    CHECK(!H::load_or_nothing("") && !H::load_or_nothing(bytes()) && !H::load_or_nothing(bytes(nullptr, length)));
    CHECK(!H::create({{}, "a key", {}, {}, {}})->save_to(room.data(), length));
    static_assert(noexcept(H::load_or_nothing(saved)) && noexcept(hasher.save_to(nullptr, 0)));
#ifdef __cpp_exceptions
    const std::array<std::uint8_t, H::max_digest_length == 64 ? 275 : 147> array = hasher.save();
    CHECK(!std::memcmp(array.data(), room.data(), length) && H::load(array).save() == array);
    CHECK(H::load(hasher.save()).digest() == hasher.digest() && H::load(room.data(), length).count() == 7);
    other = H::load(text(array.begin(), array.end()));
    CHECK(other.update(" and more") && hasher.update(" and more") && other.save() == hasher.save());
#endif
}

/* ---- several messages, outputs and trees: what the conformance cases do not call */

#if defined(__cpp_exceptions) && !defined(TEST_SECRETS)
template <class F> std::string refusal_of(const F &call) {
    try {
        call();
    } catch (const std::invalid_argument &error) {
        return error.what();
    }
    return "";
}

/* Containers of messages, and what no call of several accepts. */
template <class H> void check_hash_many() {
    const std::vector<text> wanted = {H::hash("abc"), H::hash(""), H::hash("xyz")};
    const std::string abc = "abc", xyz = "xyz";
    const auto of = [](const std::string &one) { return one; };
    CHECK(H::hash_many(std::vector<std::string>{abc, "", xyz}) == wanted);
    CHECK(H::hash_many(std::list<text>{text(abc.begin(), abc.end()), text(), text(xyz.begin(), xyz.end())}) == wanted);
    CHECK(H::hash_many(std::array<bytes, 3>{abc, bytes(), xyz}) == wanted);
    CHECK(H::hash_many({of("abc"), "", std::string_view(xyz)}) == wanted && H::hash_many(std::vector<text>()).empty());
    parameters given;
    given.key = "a key";
    given.digest_length = 20;
    given.salt = "salt";
    given.personal = "persona";
    CHECK(H::hash_many({"abc", "xyz"}, given) == (std::vector<text>{H::hash("abc", given), H::hash("xyz", given)}));
    given.digest_length = 65;
    for (const auto &none : {std::vector<text>(), std::vector<text>{{1}}})
        CHECK(refusal_of([&] { (void)H::hash_many(none, given); }) == "vulfsjor: outlen is out of range");
    given.digest_length = 20;
    given.tree = vulfsjor_tree{0, 0, 1, 1, 0, 0};
    CHECK(refusal_of([&] { (void)H::hash_many({"abc"}, given); }) == "vulfsjor: several messages have no tree parameters");
    given.tree.reset();
    given.key = bytes();
    CHECK(refusal_of([&] { (void)H::hash_many({"abc"}, given); }) == "vulfsjor: key is out of range");
    CHECK(refusal_of([&] { (void)H::hash_many({bytes(nullptr, 1)}); }) == "vulfsjor: in is out of range");
    static_assert(vulfsjor::detail::has_messages<std::vector<std::string>> &&
                  !vulfsjor::detail::has_messages<std::vector<int>> && !vulfsjor::detail::has_messages<text>);
}

/* Copies go on alone, and a key is asked for. */
template <class O> void check_outputs() {
    vulfsjor::output_parameters given;
    given.length = 9;
    O one(given);
    CHECK(one.update("abc") && one.left() == 9);
    O other = one, plain;
    CHECK(other.update("d") && one.read(9) != other.read(9) && one.left() == 0 && plain.left() > 0xffff0);
    plain = one;
    one.reset();
    CHECK(plain.left() == 0 && one.left() == 9 && one.count() == 0);
    given.key = bytes();
    CHECK(!O::create(given) && refusal_of([&] { (void)O(given); }) == "vulfsjor: key is out of range");
    CHECK(refusal_of([] { (void)O::derive_key(bytes(), "", 9); }) == "vulfsjor: key is out of range");
    CHECK(refusal_of([] { (void)O::derive_key("key", bytes(nullptr, 1), 9); }) == "vulfsjor: context is out of range");
    given.key = "a key";
    O keyed(given);
    CHECK(keyed.update("context") && keyed.read(9) == O::derive_key("a key", "context", 9));
}

void check_trees() {
    using vulfsjor::tree_hasher;
    vulfsjor::tree_parameters given;
    for (std::uint64_t leaf : {std::uint64_t(0), std::uint64_t(1) << 32, (std::uint64_t(1) << 32) + 4, ~std::uint64_t(0)}) {
        given.leaf_length = leaf;
        CHECK(!tree_hasher::create(given));
        for (const auto &call : std::initializer_list<std::function<void()>>{
                 [&] { (void)tree_hasher(given); }, [&] { (void)tree_hasher::root("abc", given); },
                 [&] { (void)tree_hasher::leaves("abc", 0, true, given); },
                 [&] { (void)tree_hasher::root_of_leaves(bytes(keys.data(), 64), given); }})
            CHECK(refusal_of(call) == "vulfsjor: leaf_length is out of range");
    }
    given.leaf_length = 4;
    tree_hasher one(given), other = one;
    CHECK(one.update("abcde") && one.count() == 5 && other.count() == 0 && one.leaf_length() == 4);
    other = std::move(one);
    CHECK(other.digest() == one.digest() && one.digest() == tree_hasher::root("abcde", given));
    given.digest_length = 20;
    CHECK(tree_hasher::root_of_leaves(tree_hasher::leaves("abcde", 0, true, given), given) ==
          tree_hasher::root("abcde", given));
}
#endif

/* ---- what is left */

/* A count beyond 2^32, by a state whose counter is set: that of so many leaves, at this place. */
template <class H> void check_counts_near_limit(std::size_t place, std::uint64_t leaves) {
    const std::uint64_t huge = (std::uint64_t(1) << 40) + 8 * H::block_length;
    H hasher;
    CHECK(hasher.update(bytes(keys.data(), 3)));
    static_assert(std::is_standard_layout_v<H>);
    for (unsigned i = 0; i < 8; i++) /* it is little-endian in a state */
        reinterpret_cast<unsigned char *>(&hasher)[place + i] = static_cast<unsigned char>(huge / leaves >> 8 * i);
    CHECK(hasher.count() == huge + 3);
}

#ifdef __linux__
/* Runs a call on a stack of its own, and returns whether the call leaves eight bytes of the key there. */
std::function<void()> to_run;
bool leaves_key_on_stack(const text &key, std::function<void()> call) {
    static unsigned char stack[1 << 18], *const end = stack + sizeof stack;
    ucontext_t here, there;
    std::memset(stack, 0xa5, sizeof stack);
    to_run = std::move(call);
    getcontext(&there);
    there.uc_stack.ss_sp = stack;
    there.uc_stack.ss_size = sizeof stack;
    there.uc_link = &here;
    makecontext(&there, [] { to_run(); }, 0);
    swapcontext(&here, &there);
    const auto used = std::find_if(stack, end, [](unsigned char byte) { return byte != 0xa5; });
    for (auto at = key.begin(); at + 8 <= key.end(); at++)
        if (std::search(used, end, at, at + 8) != end) return true;
    return false;
}

/* A key that is pending in a state, and the calls that copy that state and end without a digest; and one in parameters,
 * where it is the salt and the personalization too. */
template <class H> void check_calls_leave_no_key() {
    const text key = counting_text(H::max_digest_length, 77);
    parameters given;
    given.key = key;
    const H hasher = *H::create(given);
    std::uint8_t room[80];
    CHECK(leaves_key_on_stack(key, [&] { /* what is left is seen */
        unsigned char kept[sizeof(H)];
        std::memcpy(kept, static_cast<const void *>(&hasher), sizeof kept);
        asm volatile("" : : "r"(kept) : "memory");
    }));
    CHECK(!leaves_key_on_stack(key, [&] { CHECK(!hasher.digest_to(room, 3)); }));
    CHECK(!leaves_key_on_stack(key, [&] { CHECK(!hasher.digest_to(nullptr, H::max_digest_length)); }));
    CHECK(!leaves_key_on_stack(key, [&] { CHECK(hasher.digest_to(room, H::max_digest_length)); }));
#ifdef __cpp_exceptions
    CHECK(!leaves_key_on_stack(key, [&] {
        try {
            static_cast<void>(hasher.template digest<7>());
            CHECK(false);
        } catch (const std::length_error &) {
        }
    }));
#endif
    if constexpr (std::is_same_v<H, blake2b> || std::is_same_v<H, blake2s>)
        CHECK(!leaves_key_on_stack(key, [&] { CHECK(!hasher.save_to(std::array<std::uint8_t, 300>().data(), 275)); }));
    CHECK(!leaves_key_on_stack(key, [&] { CHECK(!hasher.verify(bytes())); }));
    CHECK(!leaves_key_on_stack(key, [&] { CHECK(!hasher.verify(bytes(nullptr, 64))); }));
    CHECK(!leaves_key_on_stack(key, [&] { H copy(hasher); CHECK(copy.update("abc")); }));
    CHECK(!leaves_key_on_stack(key, [&] { /* parameters, of which without the last line nothing would be written */
        parameters other;
        other.key = key;
        other.salt = other.personal = bytes(key.data(), 16);
        asm volatile("" : : "r"(&other) : "memory");
    }));
}
#endif

/* A hasher that is moved, swapped or assigned to itself stays what it was, byte by byte. */
template <class H> void check_moved_hashers() {
    const auto is = [](const H &one, const H &other) { /* without the padding after the flag at the end */
        return !std::memcmp(static_cast<const void *>(&one), static_cast<const void *>(&other), sizeof one - alignof(H) + 1);
    };
    parameters given;
    given.key = bytes(keys.data(), 20);
    given.allow_short = true;
    H kept = *H::create(given), plain;
    CHECK(kept.update(bytes(keys)));
    H first = kept, moved(std::move(first)), assigned, swapped;
    H &self = moved;
    moved = self;
    moved = std::move(self);
    assigned = std::move(moved);
    CHECK(is(first, kept) && is(moved, kept) && is(assigned, kept));
    std::swap(assigned, swapped);
    CHECK(is(swapped, kept) && is(assigned, plain));
}

#ifdef TEST_SECRETS
/* Under memcheck, which reports one branch on a secret in each verify, that on its result. */
template <class H> void check_verify_is_branch_free() {
    text key(keys.begin(), keys.begin() + 32);
    (void)VALGRIND_MAKE_MEM_UNDEFINED(key.data(), key.size());
    parameters given;
    given.key = key;
    const H hasher(given);
    for (std::size_t wrong : {std::size_t(0), H::max_digest_length - 1}) {
        std::vector<std::uint8_t> tag = hasher.digest();
        tag[wrong] ^= 1;
        const auto before = VALGRIND_COUNT_ERRORS;
        CHECK(!hasher.verify(tag) && VALGRIND_COUNT_ERRORS - before == 1);
    }
}
#endif

/* All of a hash, whose state has the counter of each of so many leaves at this place. */
template <class H> void check_family(std::size_t place, std::uint64_t leaves) {
#ifdef TEST_SECRETS
    return check_verify_is_branch_free<H>();
#endif
    check_moved_hashers<H>();
    check_kinds_of_inputs<H>();
    check_copied_parameters<H>();
    check_refused_parameters<H>();
    check_digest_arrays<H>();
    check_verify_needs_a_tag<H>();
#ifdef __linux__
    check_calls_leave_no_key<H>();
#endif
    check_counts_near_limit<H>(place, leaves);
}

} /* namespace */

int main() {
    check_family<blake2b>(offsetof(vulfsjor_blake2b_state, counter), 1);
    check_family<blake2s>(offsetof(vulfsjor_blake2s_state, counter), 1);
    check_family<vulfsjor::blake2bp>(offsetof(vulfsjor_blake2bp_state, lanes.counter), 4);
    check_family<vulfsjor::blake2sp>(offsetof(vulfsjor_blake2sp_state, lanes.counter), 8);
    check_saved_states<blake2b, blake2s>();
    check_saved_states<blake2s, blake2b>();
#if defined(__cpp_exceptions) && !defined(TEST_SECRETS)
    check_hash_many<blake2b>();
    check_hash_many<blake2s>();
    check_outputs<vulfsjor::blake2xb>();
    check_outputs<vulfsjor::blake2xs>();
    check_trees();
#endif
    return fails ? 1 : 0;
}
