/* Uses of vulfsjor.hpp that are wrong although they read well, with the marks of wrong_lines.py. */
#include <vulfsjor.hpp>

#include <string_view>
#if __cplusplus >= 202002L
#include <span>
#endif

using vulfsjor::blake2b;
using vulfsjor::blake2bp;
using vulfsjor::bytes;
using vulfsjor::parameters;

struct config {
    char key[32];
    unsigned char secret[32];
};
std::vector<unsigned char> load_key();
config load();
bool lines(blake2b &h, const config &given, config &open, char parameter[32], const char *string);

bool lines(blake2b &h, const config &given, config &open, char parameter[32], const char *string) {
    parameters p, q{16, "key", std::string("salt"), load_key(), {}}, r{16};
    char buffer[65536];
    unsigned char raw[32] = {1};
    bool all = true;
    std::size_t length = 0;

    /* ---- a buffer of char, which does not say how much of it is in use */
    all = h.update(open.key) && all; // NO: deleted
    all = h.update(load().key) && all; // NO: deleted
    all = h.update(std::move(buffer)) && all; // NO: deleted
    all = h.update(given.key) && all; // NO(consteval): constant expression
    all = h.verify(buffer) && all; // NO: deleted
    all = h.verify(load().key) && all; // NO: deleted
    p.key = buffer; // NO: deleted
    p.key = open.key; // NO: deleted
    p.key = load().key; // NO: deleted
    p.key = given.key; // NO(consteval): constant expression
    p.salt = buffer; // NO: deleted
    p.personal = buffer; // NO: deleted
    const bytes of_char(buffer); // NO: deleted
    const parameters of_buffer{16, open.key, "", "", {}}; // NO: deleted
    all = !blake2b::hash(buffer).empty() && all; // NO: deleted
    all = !blake2b::hash("", {16, buffer, "", "", {}}).empty() && all; // NO: deleted

    /* ---- a pointer to char, whose bytes would end at a zero among them, or somewhere after them */
    std::vector<char> read(32);
    const std::string body("a\0b", 3);
    all = h.update(parameter) && all; // NO: deleted
    all = h.update(string) && all; // NO: deleted
    all = h.update(body.c_str()) && all; // NO: deleted
    all = h.update(all ? "a\0b" : "cd") && all; // NO: deleted
    all = h.verify(string) && all; // NO: deleted
    p.key = parameter; // NO: deleted
    p.key = +given.key; // NO: deleted
    p.salt = string; // NO: deleted
    p.personal = parameter; // NO: deleted
    const bytes to_zero(string); // NO: deleted
    const parameters of_pointer{16, string, "", "", {}}; // NO: deleted
    all = !blake2b::hash(string).empty() && all; // NO: deleted

    /* ---- a view of what ends before it could be used */
    bytes view(read);
    view = load_key(); // NO: name it
    view = std::string("x") + string; // NO: name it
    view = load().secret; // NO: name it
    view = std::array<unsigned char, 4>{}; // NO: name it
    const bytes dangling(load_key()); // NO: name it
    const bytes text = std::string("x") + string; // NO: name it
    const bytes &reference = std::string("x"); // NO: name it
    p.key = bytes(load_key()); // NO: name it
    std::vector<bytes> views{read, body, load_key()}; // NO: .
    views.push_back(load_key()); // NO: name it

    /* ---- a digest of another length */
    all = h.digest<0>().empty() && all; // NO: max_digest_length
    all = vulfsjor::blake2s().digest<64>().empty() && all; // NO: max_digest_length
    all = h.digest<32>() && all; // NO: .
    all = *h.digest<32>() && all; // NO: .

    /* ---- an object, for what it holds */
    vulfsjor::blake2xb output;
    vulfsjor::tree_hasher tree(vulfsjor::tree_parameters{4096, {}, {}, {}});
    all = h.update(&string, sizeof string) && all; // NO: not the object
    all = h.update({&body, sizeof body}) && all; // NO: not the object
    all = output.update(&views, 8) && all; // NO: not the object
    all = output.read_to(&read, 8) && all; // NO: not the object
    all = tree.update(&h, sizeof h) && all; // NO: not the object
    all = tree.digest_to(&read, 64) && all; // NO: not the object
    p.key = {&body, 32}; // NO: not the object
    p.key = bytes(&body, 32); // NO: not the object

    /* ---- what is no bytes */
    all = h.update(nullptr) && all; // NO: deleted
    p.key = &raw[0]; // NO: .
    p.key = std::optional<std::string>("key"); // NO: .
    p.key = std::wstring(L"key"); // NO: .
    p.salt = p.key; // NO: .
    all = h.update(&read, read.size(), 0) && all; // NO: .
    all = h.update(read, read.size()) && all; // NO: .
    all = h.update({1, 2, 3}) && all; // NO: .
    all = h.update(L"abc") && all; // NO: .
    all = h.update(std::vector<bool>(8)) && all; // NO: .
    all = h.update(false) && all; // NO: .

    /* ---- results that are dropped */
    h.update(raw, 3); // NO: (nodiscard|unused-result)
    h.digest_to(raw, 32); // NO: (nodiscard|unused-result)
    h.digest<32>(); // NO: (nodiscard|unused-result)
    h.count(); // NO: (nodiscard|unused-result)
    h.digest_length(); // NO: (nodiscard|unused-result)
    blake2b::create(p); // NO: (nodiscard|unused-result)
    h.save(); // NO: (nodiscard|unused-result)
    h.save_to(raw, sizeof raw); // NO: (nodiscard|unused-result)
    blake2b::load(raw); // NO: (nodiscard|unused-result)
    blake2b::load_or_nothing(raw); // NO: (nodiscard|unused-result)
    blake2b::hash("x"); // NO: (nodiscard|unused-result)
    blake2bp().verify(raw); // NO: (nodiscard|unused-result)

    /* ---- saved states */
    all = h.save_to(&read, 275) && all; // NO: not the object
    h = blake2b::load(buffer); // NO: deleted
    h = blake2b::load(string); // NO: deleted
    h = blake2b::load(&body, body.size()); // NO: not the object

    /* ---- conversions that nobody means */
    h = p; // NO: .
    h = blake2b("key"); // NO: .
    h = blake2bp(); // NO: .
    h = blake2b(32); // NO: .
    h = blake2b({"key", 32}); // NO: .

    /* ---- right */
    all = h.update("ab\0cd") && h.update(u8"abc") && h.update(std::string_view(string)) && all;
    all = h.update(parameter, length) && h.update(body) && h.update(read) && all;
    all = h.update(buffer, length) && h.update(bytes(buffer, length)) && h.update({buffer, length}) && all;
    all = h.update(&open, sizeof open) && h.update(nullptr, 0) && h.update(static_cast<void *>(raw), 3) && all;
    all = h.update(raw) && h.update(given.secret) && h.update(load().secret) && h.update(load_key()) && all;
    all = h.update(std::string_view(buffer, length)) && h.update(std::array<char, 4>{}) && all;
    all = h.verify(h.digest()) && h.digest_to(raw, sizeof raw) && all;
    all = h.save_to(raw, sizeof raw) && blake2b::load_or_nothing(h.save()) && blake2b::load_or_nothing(raw) && all;
    h = blake2b::load(h.save());
    h = blake2b::load(buffer, length);
    h = blake2b::load(body);
    p.key = load_key();
    p.key = raw;
    p.key = load().secret;
    p.key = bytes(buffer, 32);
    p.key = {buffer, 32};
    p.key = std::string_view(given.key, sizeof given.key);
    p.key = "a key";
    p.key = u8"a key";
    p.key = body;
    p.key = std::string_view(parameter);
    p.key = bytes(parameter, 32);
    p.salt = std::array<unsigned char, 4>{};
    p.personal = "tenant " + std::to_string(length);
    p.key = std::nullopt;
    p.key = {};
    q = p;
    r.tree = vulfsjor_tree{0, 0, 1, 1, 0, 0};
#if __cplusplus >= 202002L
    const parameters s{.digest_length = 16}, t{.key = "key", .personal = load_key()}, u{.salt = raw};
    all = h.update(std::span(raw)) && blake2b::create(s) && blake2b::create(t) && blake2b::create(u) && all;
#endif
    view = read;
    view = body;
    view = "a text";
    view = std::string_view(body);
    view = {buffer, length};
    views = {read, body, "a text", std::string_view(body), view};
    for (bytes each : views) all = h.update(each) && all;
    all = h.digest<16>() == h.digest<16>() && h.verify(h.digest<16>()) && all;
    all = view.size() && dangling.size() && text.size() && to_zero.size() && of_char.size() && reference.size() && all;
    all = blake2b::create(of_buffer) && blake2b::create(of_pointer) && all;
    return all && blake2b::create(q) && blake2b::create(r) && blake2b::create({20, raw}) &&
           blake2b::hash("abc", {32, "key"}).size() == 32;
}
