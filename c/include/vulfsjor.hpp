/* BLAKE2b, BLAKE2s, BLAKE2bp and BLAKE2sp, BLAKE2Xb, BLAKE2Xs and a tree of hashes for C++17 and
 * later, over vulfsjor.h and its library.
 *
 *     vulfsjor::parameters given;
 *     given.key = key;                          // a copy of a std::vector, std::array, ..
 *     given.digest_length = 16;
 *     vulfsjor::blake2b hasher(given);          // throws std::invalid_argument
 *     if (!hasher.update("hello ") || !hasher.update("world")) return 1;
 *     std::vector<std::uint8_t> tag = hasher.digest();
 *
 * A hasher is a value: copies are independent, and one that was moved from stays as it was. It is
 * always ready, since a constructor that fails throws. Only that constructor, `hash`, `digest`,
 * `save` and `load` throw, and a `verify` that has no key or a short tag. Without exceptions
 * (-fno-exceptions), construct it without arguments, by `create` or by `load_or_nothing`, and write
 * digests by `digest_to` and saved states by `save_to`. The destructor wipes the state.
 * Threads may share a hasher in const functions only. This header is tested, not proved. */
#ifndef VULFSJOR_HPP
#define VULFSJOR_HPP

#if __cplusplus < 201703L && !(defined(_MSVC_LANG) && _MSVC_LANG >= 201703L)
#error "vulfsjor.hpp is for C++17 and later"
#endif
#include "vulfsjor.h"

#include <array>
#include <cstddef>
#include <cstdint>
#include <cstring>
#include <initializer_list>
#include <iterator>
#include <optional>
#include <stdexcept>
#include <string>
#include <string_view>
#include <type_traits>
#include <utility>
#include <vector>

namespace vulfsjor {

/* For a constructor from a literal: from C++20 on the compiler refuses an array that is none. */
#if defined(__cpp_consteval) && defined(__cpp_lib_is_constant_evaluated)
#define VULFSJOR_OF_LITERAL consteval
#define VULFSJOR_IS_CONSTANT std::is_constant_evaluated()
#define VULFSJOR_CONSTANT constexpr
#else
#define VULFSJOR_OF_LITERAL constexpr
#define VULFSJOR_IS_CONSTANT false
#define VULFSJOR_CONSTANT
#endif

/* For an argument that has to live as long as the view that is made of it, of which clang warns. */
#if defined(__has_cpp_attribute)
#if __has_cpp_attribute(clang::lifetimebound)
#define VULFSJOR_LIVES [[clang::lifetimebound]]
#endif
#endif
#ifndef VULFSJOR_LIVES
#define VULFSJOR_LIVES
#endif

/* Whether exceptions are on: only Microsoft's compiler says so by the second name. */
#if defined(__cpp_exceptions) || defined(_CPPUNWIND)
#define VULFSJOR_THROWS
#endif

namespace detail {
/* Whether the bytes of a C end with it: not those of std::string_view, std::span and other views. A
 * view is a pointer and a length, can be copied without its bytes, and lets them be changed no less
 * when it is const itself. */
template <class C> struct is_array : std::is_array<C> {};
template <class E, std::size_t N> struct is_array<std::array<E, N>> : std::true_type {};
template <class E> struct is_array<std::initializer_list<E>> : std::true_type {};
template <class C, class = void> struct holds_bytes : std::true_type {};
template <class C>
struct holds_bytes<C, std::enable_if_t<!is_array<C>::value && std::is_trivially_copyable_v<C> &&
                                       alignof(C) >= alignof(void *) && sizeof(C) <= 2 * sizeof(void *) &&
                                       std::is_same_v<decltype(std::data(std::declval<C &>())),
                                                      decltype(std::data(std::declval<const C &>()))>>>
    : std::false_type {};
/* For what is not its bytes: a pointer, or an object such as std::string that has pointers in it. */
template <class P, class = void> struct is_object : std::false_type {};
template <class P>
struct is_object<P, std::enable_if_t<(sizeof(P) > 0)>>
    : std::bool_constant<std::is_pointer_v<P> || !std::is_trivially_copyable_v<P>> {};
template <class P> using if_object = std::enable_if_t<is_object<P>::value, int>;
#ifdef VULFSJOR_THROWS
inline std::invalid_argument out_of_range(const std::string &name) {
    return std::invalid_argument("vulfsjor: " + name + " is out of range");
}
inline std::invalid_argument out_of_range(vulfsjor_argument argument) {
    return out_of_range(std::string(vulfsjor_argument_name(argument)));
}
#endif
} /* namespace detail */

template <bool is_argument> class basic_bytes;
/* A view of bytes that another object holds. A temporary does not compile, since it ends before the
 * view could be used: give it a name first, or pass it itself. */
using bytes = basic_bytes<false>;
/* The same as the argument of a call, which may be a temporary. It is for no variable. */
using argument = basic_bytes<true>;

/* Either of them. It is made of
 *
 *   - a pointer and a length;
 *   - anything with std::data and std::size whose elements are char, unsigned char, std::byte or
 *     char8_t, such as std::string_view, std::vector, std::array and std::span;
 *   - a literal such as "abc" or u8"abc": its characters, without the zero at its end. An array of
 *     const char is taken for one, and refused if its last element is not zero: when it is compiled
 *     from C++20 on, and otherwise by the call that it is passed to;
 *   - an array of unsigned char or std::byte: all its elements. So `const unsigned char a[] = "abc"`
 *     is four bytes, the zero among them.
 *
 * An array of char that is not const is a buffer, which does not say how much of it is in use, and
 * neither does a pointer to char. They do not compile: pass a pointer and a length or, for a string
 * of C that is not null, std::string_view(string). */
template <bool is_argument> class basic_bytes {
    template <class C>
    using element = std::remove_cv_t<std::remove_pointer_t<decltype(std::data(std::declval<C>()))>>;
    template <class E>
    static constexpr bool is_character = std::is_same_v<E, char>
#ifdef __cpp_char8_t
                                         || std::is_same_v<E, char8_t>
#endif
        ;
    template <class E>
    static constexpr bool is_byte =
        is_character<E> || std::is_same_v<E, unsigned char> || std::is_same_v<E, std::byte>;
    template <class C>
    static constexpr bool is_text =
        std::is_array_v<C> && is_character<std::remove_cv_t<std::remove_extent_t<C>>>;
    template <class E> using if_character = std::enable_if_t<is_character<E>, int>;
    template <class P>
    using if_pointer =
        std::enable_if_t<std::is_pointer_v<P> && is_character<std::remove_cv_t<std::remove_pointer_t<P>>>, int>;
    template <class C, bool holds>
    using if_holds = std::enable_if_t<is_byte<element<const C &>> && !is_text<C> &&
                                          detail::holds_bytes<std::remove_const_t<C>>::value == holds, int>;
    template <class C> using if_temporary = std::enable_if_t<!is_argument && !std::is_reference_v<C>, if_holds<C, true>>;
    template <bool is_other> using if_bytes = std::enable_if_t<is_argument && !is_other, int>;
    template <std::size_t N> friend class short_bytes;

  public:
    constexpr basic_bytes() noexcept = default;
    constexpr basic_bytes(const void *data, std::size_t size) noexcept : data_(data), size_(size) {}
    basic_bytes(std::nullptr_t) = delete;
    template <bool is_other, if_bytes<is_other> = 0>
    constexpr basic_bytes(const basic_bytes<is_other> &other) noexcept : data_(other.data()), size_(other.size()) {}

    template <class E, std::size_t N, if_character<E> = 0>
    VULFSJOR_OF_LITERAL basic_bytes(const E (&literal)[N]) noexcept
        : data_(literal[N - 1] ? nullptr : literal), size_(literal[N - 1] ? not_a_literal() : N - 1) {}
    // clang-format off
    template <class E, std::size_t N, if_character<E> = 0> basic_bytes(E (&buffer)[N]) = delete; // pass bytes(buffer, length)
    template <class E, std::size_t N, if_character<E> = 0> basic_bytes(E (&&buffer)[N]) = delete; // pass bytes(buffer, length)
    template <class E, std::size_t N, if_character<E> = 0> basic_bytes(const E (&&buffer)[N]) = delete; // pass bytes(buffer, length)
    template <class P, if_pointer<P> = 0> basic_bytes(const P &buffer) = delete; // pass bytes(buffer, length)
    template <class C, if_temporary<C> = 0> basic_bytes(C &&temporary) = delete; // it would end before the view: name it
    template <class P, detail::if_object<P> = 0> basic_bytes(const P *, std::size_t) = delete; // pass what it holds, not the object
    // clang-format on

    template <class C, if_holds<C, true> = 0>
    constexpr basic_bytes(const C &container VULFSJOR_LIVES) noexcept
        : data_(std::data(container)), size_(std::size(container)) {}
    template <class C, if_holds<C, false> = 0>
    constexpr basic_bytes(const C &other) noexcept : data_(std::data(other)), size_(std::size(other)) {}

    [[nodiscard]] constexpr const void *data() const noexcept { return data_; }
    [[nodiscard]] constexpr std::size_t size() const noexcept { return size_; }

  private:
    /* The length of a null pointer that calls refuse. It is no constant expression. */
    static std::size_t not_a_literal() noexcept { return 1; }

    const void *data_ = nullptr;
    std::size_t size_ = 0;
};

namespace detail {
/* Whether `bytes` can be made of each element of a container and stays what it is while others are
 * looked at: elements that last, by iterators that promise so. */
template <class Messages>
using iterator_of = std::decay_t<decltype(std::begin(std::declval<const Messages &>()))>;
template <class Messages>
using message_of = decltype(*std::declval<iterator_of<Messages> &>());
template <class Messages>
using view_of =
    std::conditional_t<std::is_same_v<std::decay_t<message_of<Messages>>, argument>, argument, bytes>;
template <class Messages>
constexpr bool has_messages =
    std::is_base_of_v<std::forward_iterator_tag,
                      typename std::iterator_traits<iterator_of<Messages>>::iterator_category> &&
    std::is_constructible_v<view_of<Messages>, message_of<Messages>>;
template <class Messages, bool wanted> using if_messages = std::enable_if_t<has_messages<Messages> == wanted, int>;
} /* namespace detail */

/* Up to N bytes by value: a copy of what it is made of, which is anything that `bytes` accepts, or
 * std::nullopt. They are wiped when it dies. More than N bytes, and what calls would refuse as
 * `bytes`, are N + 1 bytes here, which hashers refuse. */
template <std::size_t N> class short_bytes {
    template <class E> using if_character = argument::if_character<E>;
    template <class P> using if_pointer = argument::if_pointer<P>;
    template <class C>
    static constexpr bool is_other = !argument::is_text<std::remove_reference_t<C>> &&
                                     !std::is_same_v<std::decay_t<C>, short_bytes> &&
                                     std::is_convertible_v<C, argument>;

  public:
    constexpr short_bytes() noexcept = default;
    constexpr short_bytes(std::nullopt_t) noexcept {}
    constexpr short_bytes(const short_bytes &) noexcept = default;
    constexpr short_bytes &operator=(const short_bytes &) noexcept = default;
    VULFSJOR_CONSTANT ~short_bytes() {
        if (!VULFSJOR_IS_CONSTANT) vulfsjor_wipe(data_, sizeof data_);
    }

    short_bytes(const void *data, std::size_t size) noexcept : short_bytes(bytes(data, size)) {}
    // clang-format off
    template <class P, detail::if_object<P> = 0> short_bytes(const P *, std::size_t) = delete; // pass what it holds, not the object
    // clang-format on
    template <class C, std::enable_if_t<is_other<C>, int> = 0>
    short_bytes(C &&given) noexcept : has_value_(true) {
        const argument text(std::forward<C>(given));
        const bool is_short = text.size() <= N && (text.data() || !text.size());
        size_ = is_short ? text.size() : N + 1;
        if (is_short && size_) std::memcpy(data_, text.data(), size_);
    }
    template <class E, std::size_t M, if_character<E> = 0>
    VULFSJOR_OF_LITERAL short_bytes(const E (&literal)[M]) noexcept
        : size_(bytes(literal).size()), has_value_(true) {
        if (size_ > N || literal[M - 1]) size_ = N + 1;
        for (std::size_t i = 0; i < size_ && size_ <= N; i++)
            data_[i] = static_cast<unsigned char>(literal[i]);
    }
    // clang-format off
    template <class E, std::size_t M, if_character<E> = 0> short_bytes(E (&buffer)[M]) = delete; // pass bytes(buffer, length)
    template <class E, std::size_t M, if_character<E> = 0> short_bytes(E (&&buffer)[M]) = delete; // pass bytes(buffer, length)
    template <class E, std::size_t M, if_character<E> = 0> short_bytes(const E (&&buffer)[M]) = delete; // pass bytes(buffer, length)
    template <class P, if_pointer<P> = 0> short_bytes(const P &buffer) = delete; // pass bytes(buffer, length)
    // clang-format on

    /* Whether it was made of bytes, if only of none. */
    [[nodiscard]] constexpr bool has_value() const noexcept { return has_value_; }
    [[nodiscard]] constexpr std::size_t size() const noexcept { return size_; }
    /* The bytes; null if it was made of none. */
    [[nodiscard]] constexpr const void *data() const noexcept { return size_ ? data_ : nullptr; }

  private:
    unsigned char data_[N + 1] = {};
    std::size_t size_ = 0;
    bool has_value_ = false;
};

/* What a hash depends on besides its input. All of it is copied, and key, salt and personalization
 * are wiped when it dies. */
struct parameters {
    std::optional<std::size_t> digest_length = {}; /* in bytes; absent: the longest */
    short_bytes<64> key = {};                      /* absent: no key. A key of no bytes is refused. */
    short_bytes<16> salt = {};                     /* up to 16 bytes (BLAKE2s: 8) */
    short_bytes<16> personal = {};                 /* up to 16 bytes (BLAKE2s: 8) */
    std::optional<vulfsjor_tree> tree = {};        /* the node of a tree; absent: no tree */
    /* Whether `verify` accepts tags of fewer than 16 bytes. Anybody makes one of n bytes in at most
     * 256^n tries. So digest_length is never that of a tag that came. */
    bool allow_short = false;
};

/* The calls that all families have. */
#define VULFSJOR_FAMILY(name, NAME)                                                               \
    struct name##_calls_of_all {                                                                  \
        using state = vulfsjor_##name##_state;                                                    \
        static constexpr std::size_t block_length = VULFSJOR_##NAME##_BLOCKBYTES;                 \
        static constexpr std::size_t max_digest_length = VULFSJOR_##NAME##_OUTBYTES;              \
        static constexpr auto init = vulfsjor_##name##_init_salt_personal;                        \
        static constexpr auto refused = vulfsjor_##name##_refused;                                \
        static constexpr auto update = vulfsjor_##name##_update;                                  \
        static constexpr auto final = vulfsjor_##name##_final;                                    \
        static constexpr auto verify = vulfsjor_##name##_verify_short_mac;                        \
        static constexpr auto reset = vulfsjor_##name##_reset;                                    \
        static constexpr auto digest_size = vulfsjor_##name##_digest_size;                        \
        static constexpr auto count = vulfsjor_##name##_count;                                    \
        static constexpr auto wipe = vulfsjor_##name##_wipe;                                      \
    };
VULFSJOR_FAMILY(blake2b, BLAKE2B)
VULFSJOR_FAMILY(blake2s, BLAKE2S)
VULFSJOR_FAMILY(blake2bp, BLAKE2BP)
VULFSJOR_FAMILY(blake2sp, BLAKE2SP)
#undef VULFSJOR_FAMILY

/* Those of nodes of trees, several messages and saved states, which BLAKE2bp and BLAKE2sp do not
 * have. */
#define VULFSJOR_NODES(name, NAME)                                                                \
    struct name##_calls : name##_calls_of_all {                                                   \
        static constexpr bool has_tree = true;                                                    \
        static constexpr auto init_tree = vulfsjor_##name##_init_tree;                            \
        static constexpr auto set_last_node = vulfsjor_##name##_set_last_node;                    \
        static constexpr auto many = vulfsjor_##name##_many;                                      \
        static constexpr std::size_t saved_length = VULFSJOR_##NAME##_SAVEDBYTES;                 \
        static constexpr auto save = vulfsjor_##name##_save;                                      \
        static constexpr auto load = vulfsjor_##name##_load;                                      \
    };                                                                                            \
    struct name##p_calls : name##p_calls_of_all {                                                 \
        static constexpr bool has_tree = false;                                                   \
    };
VULFSJOR_NODES(blake2b, BLAKE2B)
VULFSJOR_NODES(blake2s, BLAKE2S)
#undef VULFSJOR_NODES

/* A hasher or MAC of a family: vulfsjor::blake2b, vulfsjor::blake2s, vulfsjor::blake2bp and
 * vulfsjor::blake2sp. The last two refuse tree parameters, and have no set_last_node and no saved
 * states. */
template <class Calls> class hasher {
    template <std::size_t N, bool is_one>
    using if_length = std::enable_if_t<(N >= 1 && N <= Calls::max_digest_length) == is_one, int>;
    template <class C> using if_saved = std::enable_if_t<C::has_tree, int>;

  public:
    static constexpr std::size_t block_length = Calls::block_length;
    static constexpr std::size_t max_digest_length = Calls::max_digest_length;

    /* The longest digest, without a key. */
    hasher() noexcept { static_cast<void>(init(parameters())); }
    hasher(const hasher &) noexcept = default;
    hasher &operator=(const hasher &) noexcept = default;
    ~hasher() { Calls::wipe(&state_); }

    /* A hasher with these parameters, or nothing if one of them is refused. */
    [[nodiscard]] static std::optional<hasher> create(const parameters &given) noexcept {
        std::optional<hasher> made(std::in_place);
        if (made->init(given)) made.reset();
        return made;
    }

    /* Absorbs bytes. Returns false and changes nothing if these would be 2^64 bytes or more, with
     * the block of a key, or if the pointer is null and the length is not 0. */
    [[nodiscard]] bool update(argument input) noexcept {
        return !Calls::update(&state_, input.data(), input.size());
    }
    [[nodiscard]] bool update(const void *input, std::size_t length) noexcept {
        return update(argument(input, length));
    }
    // clang-format off
    template <class P, detail::if_object<P> = 0> bool update(const P *, std::size_t) = delete; // pass what it holds, not the object
    // clang-format on

    /* Writes the digest of all bytes so far. Returns false and writes nothing if length is not
     * digest_length() or out is null. */
    [[nodiscard]] bool digest_to(void *out, std::size_t length) const noexcept {
        hasher copy(*this);
        return length == digest_length() && !Calls::final(&copy.state_, out, length);
    }
    // clang-format off
    template <class P, detail::if_object<P> = 0> bool digest_to(P *, std::size_t) const = delete; // pass what it holds, not the object
    // clang-format on

    /* The same digest, as a vector. */
    [[nodiscard]] std::vector<std::uint8_t> digest() const {
        std::vector<std::uint8_t> out(digest_length());
        static_cast<void>(digest_to(out.data(), out.size()));
        return out;
    }
#ifdef VULFSJOR_THROWS
    /* The same as an array. Throws std::length_error if N is not digest_length(), which the parameters
     * say: this call shortens no digest. */
    template <std::size_t N, if_length<N, true> = 0> [[nodiscard]] std::array<std::uint8_t, N> digest() const {
        std::array<std::uint8_t, N> out{};
        if (!digest_to(out.data(), N))
            throw std::length_error("vulfsjor: the digest has " + std::to_string(digest_length()) + " bytes, not " +
                                    std::to_string(N));
        return out;
    }
    // clang-format off
    template <std::size_t N, if_length<N, false> = 0> std::array<std::uint8_t, N> digest() const = delete; // it has 1 to max_digest_length bytes
    // clang-format on
#endif

    /* Whether this tag is the digest of all bytes so far under the key. The time depends only on its
     * length. A hasher without a key throws std::logic_error or, without exceptions, returns false:
     * anybody can make its digests. Compare those by vulfsjor_memcmp. So does a hasher with digests
     * of fewer than 16 bytes, unless allow_short was set. */
    [[nodiscard]] bool verify(argument tag) const {
        if (!state_.start_length) return refuse("verify needs a key; compare digests by vulfsjor_memcmp");
        if (digest_length() < VULFSJOR_TAGBYTES_MIN && !allow_short_)
            return refuse("verify needs a digest_length of at least 16, or allow_short");
        hasher copy(*this);
        return !Calls::verify(&copy.state_, tag.data(), tag.size());
    }

    /* Whether the hasher is for the last node of its level in a tree. */
    void set_last_node(bool on) noexcept { Calls::set_last_node(&state_, on); }

    /* Forgets all bytes so far, and keeps the parameters and set_last_node. */
    void reset() noexcept { Calls::reset(&state_); }

    [[nodiscard]] std::size_t digest_length() const noexcept { return Calls::digest_size(&state_); }

    /* How many bytes were absorbed. */
    [[nodiscard]] std::uint64_t count() const noexcept { return Calls::count(&state_); }

    /* Writes the hasher as VULFSJOR_BLAKE2B_SAVEDBYTES or VULFSJOR_BLAKE2S_SAVEDBYTES bytes, which
     * `load` reads, as vulfsjor.h says. Returns false and writes nothing if it has a key, length is
     * another, or out is null. */
    template <class C = Calls, if_saved<C> = 0>
    [[nodiscard]] bool save_to(void *out, std::size_t length) const noexcept {
        return length == C::saved_length && !C::save(&state_, static_cast<unsigned char *>(out));
    }
    // clang-format off
    template <class P, detail::if_object<P> = 0> bool save_to(P *, std::size_t) const = delete; // pass what it holds, not the object
    // clang-format on

    /* The hasher that was saved as these bytes, or nothing if they are not a saved state of this hash.
     * Whoever can change the bytes chooses the digest. */
    template <class C = Calls, if_saved<C> = 0>
    [[nodiscard]] static std::optional<hasher> load_or_nothing(argument saved) noexcept {
        std::optional<hasher> made(std::in_place);
        if (C::load(&made->state_, saved.data(), saved.size())) made.reset();
        return made;
    }

#ifdef VULFSJOR_THROWS
    /* The bytes of save_to. Throws std::logic_error if the hasher has a key. */
    template <class C = Calls, if_saved<C> = 0>
    [[nodiscard]] std::array<std::uint8_t, C::saved_length> save() const {
        std::array<std::uint8_t, C::saved_length> out{};
        if (!save_to(out.data(), out.size())) refuse("a hasher with a key is not saved");
        return out;
    }

    /* The hasher that was saved as these bytes. Throws std::invalid_argument if they are not a saved
     * state of this hash. */
    template <class C = Calls, if_saved<C> = 0> [[nodiscard]] static hasher load(argument saved) {
        const auto made = load_or_nothing(saved);
        if (!made) throw std::invalid_argument("vulfsjor: this is not a saved state of this hash");
        return *made;
    }
    template <class C = Calls, if_saved<C> = 0>
    [[nodiscard]] static hasher load(const void *saved, std::size_t length) {
        return load(argument(saved, length));
    }
    // clang-format off
    template <class P, detail::if_object<P> = 0> static hasher load(const P *, std::size_t) = delete; // pass what it holds, not the object
    // clang-format on

    /* Throws std::invalid_argument, with the name that vulfsjor.h has for the argument. */
    explicit hasher(const parameters &given) {
        if (init(given)) throw std::invalid_argument(message(given));
    }

    /* The digest of a message in one call. Throws std::invalid_argument. */
    [[nodiscard]] static std::vector<std::uint8_t> hash(argument input, const parameters &given = {}) {
        hasher made(given);
        if (!made.update(input)) throw detail::out_of_range("in");
        return made.digest();
    }

    /* The digests of several messages, in their order. These are in a container such as std::vector
     * or in braces, each what `bytes` is made of. Those in a row that have the same length are hashed
     * in parallel. Throws std::invalid_argument, also for tree parameters. BLAKE2bp and BLAKE2sp have
     * no such call. */
    template <class Messages, detail::if_messages<Messages, true> = 0>
    [[nodiscard]] static std::vector<std::vector<std::uint8_t>> hash_many(const Messages &messages,
                                                                          const parameters &given = {}) {
        std::vector<vulfsjor_message> all;
        for (auto at = std::begin(messages); at != std::end(messages); ++at) {
            const detail::view_of<Messages> view(*at);
            if (!view.data() && view.size()) throw detail::out_of_range("in");
            all.push_back({view.data() ? view.data() : "", view.size()});
        }
        return digests_of(all, given);
    }
    [[nodiscard]] static std::vector<std::vector<std::uint8_t>> hash_many(std::initializer_list<argument> messages,
                                                                          const parameters &given = {}) {
        return hash_many<std::initializer_list<argument>>(messages, given);
    }
    // clang-format off
    template <class Messages, detail::if_messages<Messages, false> = 0>
    static void hash_many(const Messages &, const parameters & = {}) = delete; // put messages into a std::vector of what holds bytes
    // clang-format on
#endif

  private:
#ifdef VULFSJOR_THROWS
    static std::vector<std::vector<std::uint8_t>> digests_of(const std::vector<vulfsjor_message> &all,
                                                             const parameters &given) {
        static_assert(Calls::has_tree, "BLAKE2bp and BLAKE2sp hash one message at a time");
        const std::size_t length = hasher(given).digest_length();
        const auto &key = given.key;
        const auto &salt = given.salt, &personal = given.personal;
        std::vector<std::uint8_t> digests(all.size() * length);
        std::vector<std::vector<std::uint8_t>> made;
        if (given.tree) throw std::invalid_argument("vulfsjor: several messages have no tree parameters");
        if (!all.empty() &&
            Calls::many(digests.data(), length, all.data(), all.size(), key.data(), key.size(), salt.data(),
                        salt.size(), personal.data(), personal.size()))
            throw detail::out_of_range("in");
        for (const std::uint8_t *at = digests.data(); made.size() < all.size(); at += length)
            made.emplace_back(at, at + length);
        return made;
    }
#endif

    static bool refuse(const char *why) {
#ifdef VULFSJOR_THROWS
        throw std::logic_error(std::string("vulfsjor: ") + why);
#else
        return static_cast<void>(why), false;
#endif
    }

    int init(const parameters &given) noexcept {
        const std::size_t length = given.digest_length.value_or(max_digest_length);
        const auto &key = given.key;
        const auto &salt = given.salt, &personal = given.personal;
        allow_short_ = given.allow_short;
        if (key.has_value() && !key.size()) return -1;
        if constexpr (Calls::has_tree) {
            if (given.tree)
                return Calls::init_tree(&state_, length, key.data(), key.size(), salt.data(),
                                        salt.size(), personal.data(), personal.size(),
                                        &*given.tree);
        } else if (given.tree) {
            return -1;
        }
        return Calls::init(&state_, length, key.data(), key.size(), salt.data(), salt.size(),
                           personal.data(), personal.size());
    }

    static std::string message(const parameters &given) {
        const auto &key = given.key;
        const auto &salt = given.salt, &personal = given.personal;
        const std::size_t length = given.digest_length.value_or(max_digest_length);
        vulfsjor_argument wrong;
        if constexpr (Calls::has_tree) {
            wrong = Calls::refused(length, key.data(), key.size(), salt.data(), salt.size(),
                                   personal.data(), personal.size(),
                                   given.tree ? &*given.tree : nullptr);
        } else {
            if (given.tree) return "vulfsjor: this hash has no tree parameters";
            wrong = Calls::refused(length, key.data(), key.size(), salt.data(), salt.size(),
                                   personal.data(), personal.size());
        }
        if (wrong == VULFSJOR_ARGUMENT_NONE) wrong = VULFSJOR_ARGUMENT_KEY; /* of no bytes */
        return std::string("vulfsjor: ") + vulfsjor_argument_name(wrong) + " is out of range";
    }

    typename Calls::state state_;
    bool allow_short_ = false;
};

/* What an output of BLAKE2Xb or BLAKE2Xs depends on besides its input. All of it is copied. */
struct output_parameters {
    std::optional<std::size_t> length = {}; /* in bytes; absent: it is not known in advance */
    short_bytes<64> key = {};               /* absent: no key. A key of no bytes is refused. */
    short_bytes<16> salt = {};              /* up to 16 bytes (BLAKE2Xs: 8) */
    short_bytes<16> personal = {};          /* up to 16 bytes (BLAKE2Xs: 8) */
};

#define VULFSJOR_OUTPUT(name, NAME)                                                               \
    struct name##_calls {                                                                         \
        using state = vulfsjor_##name##_state;                                                    \
        static constexpr std::size_t unknown_length = VULFSJOR_##NAME##_UNKNOWN_LENGTH;           \
        static constexpr auto init = vulfsjor_##name##_init_salt_personal;                        \
        static constexpr auto refused = vulfsjor_##name##_refused;                                \
        static constexpr auto update = vulfsjor_##name##_update;                                  \
        static constexpr auto squeeze = vulfsjor_##name##_squeeze;                                \
        static constexpr auto reset = vulfsjor_##name##_reset;                                    \
        static constexpr auto left = vulfsjor_##name##_left;                                      \
        static constexpr auto count = vulfsjor_##name##_count;                                    \
        static constexpr auto wipe = vulfsjor_##name##_wipe;                                      \
        static constexpr auto derive_key = vulfsjor_##name##_derive_key;                          \
    };
VULFSJOR_OUTPUT(blake2xb, BLAKE2XB)
VULFSJOR_OUTPUT(blake2xs, BLAKE2XS)
#undef VULFSJOR_OUTPUT

/* An output of any length: vulfsjor::blake2xb and vulfsjor::blake2xs. It depends on its length: a
 * shorter output is no beginning of a longer one. It is a value, as a hasher is. */
template <class Calls> class output {
  public:
    /* One whose length is not known in advance, without a key. */
    output() noexcept { static_cast<void>(init(output_parameters())); }
    output(const output &) noexcept = default;
    output &operator=(const output &) noexcept = default;
    ~output() { Calls::wipe(&state_); }

    /* One with these parameters, or nothing if one of them is refused. */
    [[nodiscard]] static std::optional<output> create(const output_parameters &given) noexcept {
        std::optional<output> made(std::in_place);
        if (made->init(given)) made.reset();
        return made;
    }

    /* Absorbs bytes. Returns false and changes nothing after the first read, if these would be 2^64
     * bytes or more, or if the pointer is null and the length is not 0. */
    [[nodiscard]] bool update(argument input) noexcept {
        return !Calls::update(&state_, input.data(), input.size());
    }
    [[nodiscard]] bool update(const void *input, std::size_t length) noexcept {
        return update(argument(input, length));
    }
    // clang-format off
    template <class P, detail::if_object<P> = 0> bool update(const P *, std::size_t) = delete; // pass what it holds, not the object
    // clang-format on

    /* Writes the next bytes. Returns false and writes nothing if fewer are left, or if out is null and
     * length is not 0. */
    [[nodiscard]] bool read_to(void *out, std::size_t length) noexcept {
        return !Calls::squeeze(&state_, out, length);
    }
    // clang-format off
    template <class P, detail::if_object<P> = 0> bool read_to(P *, std::size_t) = delete; // pass what it holds, not the object
    // clang-format on

    /* Forgets all bytes so far, and keeps the parameters. */
    void reset() noexcept { Calls::reset(&state_); }

    /* How many bytes are left to read, and how many were absorbed. */
    [[nodiscard]] std::uint64_t left() const noexcept { return Calls::left(&state_); }
    [[nodiscard]] std::uint64_t count() const noexcept { return Calls::count(&state_); }

#ifdef VULFSJOR_THROWS
    /* Throws std::invalid_argument, with the name that vulfsjor.h has for the argument. */
    explicit output(const output_parameters &given) {
        if (init(given)) throw refusal(given.length, given.key, given.salt, given.personal);
    }

    /* The next bytes. Throws std::length_error if fewer are left. */
    [[nodiscard]] std::vector<std::uint8_t> read(std::size_t length) {
        if (length > left()) throw std::length_error("vulfsjor: fewer bytes of the output are left");
        std::vector<std::uint8_t> out(length);
        static_cast<void>(read_to(out.data(), length));
        return out;
    }

    /* A key of this length, which is derived from a key for a context: the output for the context
     * under the key. Throws std::invalid_argument. */
    [[nodiscard]] static std::vector<std::uint8_t> derive_key(argument key, argument context, std::size_t length) {
        if (!key.size()) throw detail::out_of_range(VULFSJOR_ARGUMENT_KEY);
        if (Calls::refused(length, key.data(), key.size(), nullptr, 0, nullptr, 0) || length == Calls::unknown_length)
            throw refusal(length, key, {}, {});
        std::vector<std::uint8_t> out(length);
        if (Calls::derive_key(out.data(), length, key.data(), key.size(), context.data(), context.size()))
            throw detail::out_of_range("context");
        return out;
    }
#endif

  private:
    int init(const output_parameters &given) noexcept {
        const auto &key = given.key;
        const auto &salt = given.salt, &personal = given.personal;
        if ((key.has_value() && !key.size()) || given.length == Calls::unknown_length) return -1;
        return Calls::init(&state_, given.length.value_or(Calls::unknown_length), key.data(), key.size(),
                           salt.data(), salt.size(), personal.data(), personal.size());
    }

#ifdef VULFSJOR_THROWS
    /* Why an init with these was refused. */
    template <class K>
    static std::invalid_argument refusal(std::optional<std::size_t> length, const K &key,
                                         const short_bytes<16> &salt, const short_bytes<16> &personal) {
        if (length == Calls::unknown_length) return detail::out_of_range(VULFSJOR_ARGUMENT_OUTLEN);
        const auto wrong = Calls::refused(length.value_or(Calls::unknown_length), key.data(), key.size(),
                                          salt.data(), salt.size(), personal.data(), personal.size());
        return detail::out_of_range(wrong ? wrong : VULFSJOR_ARGUMENT_KEY);
    }
#endif

    typename Calls::state state_;
};

using blake2xb = output<blake2xb_calls>;
using blake2xs = output<blake2xs_calls>;

/* What the tree of two levels over BLAKE2b depends on besides its message. It has no key. */
struct tree_parameters {
    std::uint64_t leaf_length = 0;                 /* of a leaf, in bytes: 1 to 2^32 - 1 */
    std::optional<std::size_t> digest_length = {}; /* of the root, 1 to 64 bytes; absent: 64 */
    short_bytes<16> salt = {};
    short_bytes<16> personal = {};
};

/* The root of a message in that tree, in pieces. It is a value, as a hasher is. */
class tree_hasher {
  public:
    static constexpr std::size_t leaf_digest_length = 64;

    tree_hasher(const tree_hasher &) noexcept = default;
    tree_hasher &operator=(const tree_hasher &) noexcept = default;
    ~tree_hasher() { vulfsjor_tree_wipe(&state_); }

    /* One with these parameters, or nothing if one of them is refused. */
    [[nodiscard]] static std::optional<tree_hasher> create(const tree_parameters &given) noexcept {
        const tree_hasher made(given, length_of(given));
        return made.digest_length() ? std::optional<tree_hasher>(made) : std::nullopt;
    }

    /* Absorbs bytes. Returns false and changes nothing if these would be 2^58 bytes or more, or if
     * the pointer is null and the length is not 0. */
    [[nodiscard]] bool update(argument input) noexcept {
        return !vulfsjor_tree_update(&state_, input.data(), input.size());
    }
    [[nodiscard]] bool update(const void *input, std::size_t length) noexcept {
        return update(argument(input, length));
    }
    // clang-format off
    template <class P, detail::if_object<P> = 0> bool update(const P *, std::size_t) = delete; // pass what it holds, not the object
    // clang-format on

    /* Writes the root of all bytes so far. Returns false and writes nothing if length is not
     * digest_length() or out is null. */
    [[nodiscard]] bool digest_to(void *out, std::size_t length) const noexcept {
        tree_hasher copy(*this);
        return !vulfsjor_tree_final(&copy.state_, out, length);
    }
    // clang-format off
    template <class P, detail::if_object<P> = 0> bool digest_to(P *, std::size_t) const = delete; // pass what it holds, not the object
    // clang-format on

    /* The same root, as a vector. */
    [[nodiscard]] std::vector<std::uint8_t> digest() const {
        std::vector<std::uint8_t> out(digest_length());
        static_cast<void>(digest_to(out.data(), out.size()));
        return out;
    }

    [[nodiscard]] std::size_t digest_length() const noexcept { return vulfsjor_tree_digest_size(&state_); }
    [[nodiscard]] std::uint64_t leaf_length() const noexcept { return vulfsjor_tree_leaf_length(&state_); }
    [[nodiscard]] std::uint64_t count() const noexcept { return vulfsjor_tree_count(&state_); }

#ifdef VULFSJOR_THROWS
    /* This and the next three throw std::invalid_argument, with the name of the argument. */
    explicit tree_hasher(const tree_parameters &given) : tree_hasher(given, length_of(given)) {
        if (!digest_length()) throw detail::out_of_range(refused(given));
    }

    /* The root of a message in one call. */
    [[nodiscard]] static std::vector<std::uint8_t> root(argument input, const tree_parameters &given) {
        tree_hasher made(given);
        if (!made.update(input)) throw detail::out_of_range("in");
        return made.digest();
    }

    /* The digests of a range of leaves, 64 bytes each: leaf number `first` and those after it. If the
     * message ends with them the last may be shorter, and if not all are whole. No call can check
     * `ends`, so compute it from the length of the message. */
    [[nodiscard]] static std::vector<std::uint8_t> leaves(argument input, std::uint64_t first, bool ends,
                                                          const tree_parameters &given) {
        const tree_hasher checked(given);
        std::vector<std::uint8_t> out(leaf_digest_length *
                                      vulfsjor_tree_leaf_count(input.size(), given.leaf_length));
        if (vulfsjor_tree_leaves(out.data(), out.size(), first, ends, input.data(), input.size(), given.salt.data(),
                                 given.salt.size(), given.personal.data(), given.personal.size(), given.leaf_length))
            throw detail::out_of_range("in");
        return out;
    }

    /* The root over the digests of all leaves, in their order. */
    [[nodiscard]] static std::vector<std::uint8_t> root_of_leaves(argument digests, const tree_parameters &given) {
        std::vector<std::uint8_t> out(tree_hasher(given).digest_length());
        if (vulfsjor_tree_root_of_leaves(out.data(), out.size(), digests.data(), digests.size(), given.salt.data(),
                                         given.salt.size(), given.personal.data(), given.personal.size(),
                                         given.leaf_length))
            throw detail::out_of_range("digests");
        return out;
    }
#endif

  private:
    static std::size_t length_of(const tree_parameters &given) noexcept { return given.digest_length.value_or(64); }

    /* One that is not ready if a parameter is refused. */
    tree_hasher(const tree_parameters &given, std::size_t length) noexcept {
        static_cast<void>(vulfsjor_tree_init(&state_, length, given.salt.data(), given.salt.size(),
                                             given.personal.data(), given.personal.size(), given.leaf_length));
    }

    static vulfsjor_argument refused(const tree_parameters &given) noexcept {
        return vulfsjor_tree_refused(length_of(given), given.salt.data(), given.salt.size(), given.personal.data(),
                                     given.personal.size(), given.leaf_length);
    }

    vulfsjor_tree_state state_;
};

using blake2b = hasher<blake2b_calls>;
using blake2s = hasher<blake2s_calls>;
using blake2bp = hasher<blake2bp_calls>;
using blake2sp = hasher<blake2sp_calls>;

/* Which code runs on this processor, as vulfsjor_build of vulfsjor.h returns it. */
[[nodiscard]] inline std::string_view build() noexcept { return vulfsjor_build(); }

#undef VULFSJOR_OF_LITERAL
#undef VULFSJOR_IS_CONSTANT
#undef VULFSJOR_CONSTANT
#undef VULFSJOR_LIVES
#undef VULFSJOR_THROWS
} /* namespace vulfsjor */
#endif
