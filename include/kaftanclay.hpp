/* Theta sketches, and tuple sketches of sums of 64 bits, for C++17, over kaftanclay.h, which says what each call promises.
 *
 * An object frees itself. It may be moved, not copied: clone() copies. One that was moved from may only be assigned to or
 * destroyed; each other call then throws. Keys and images are passed as Bytes: a std::string_view, a text, or a container
 * of bytes; numbers as Numbers. Bytes behind an image are refused as KC_INVALID_DATA. A call that is refused throws
 * std::bad_alloc if memory was refused, and else an Error, whose status() is the reason; kaftanclay.h says what has changed
 * then.
 *
 * Threads. Calls that are const may use an object at the same time. While another call uses it, none else does.
 */
#ifndef KAFTANCLAY_HPP
#define KAFTANCLAY_HPP
#include <cstddef>
#include <cstdint>
#include <cstring>
#include <kaftanclay.h>
#include <new>
#include <stdexcept>
#include <string>
#include <string_view>
#include <type_traits>
#include <utility>
#include <vector>

namespace kaftanclay {

/* The nominal entries if none are passed: 2^12. */
constexpr unsigned default_lg_k = 12;
constexpr std::uint64_t default_seed = KC_DEFAULT_SEED;

/* What a tuple sketch keeps of the values of a key, and an operator of its values in several sketches. An image doesn't record it. */
enum class Mode : std::uint32_t { sum = KC_SUM, min = KC_MIN, max = KC_MAX };

/* A call of the library was refused. */
class Error : public std::runtime_error {
public:
    explicit Error(kc_status status) : std::runtime_error(kc_status_text(status)), status_(status) {}
    /* Bytes were refused for what was found in them. */
    explicit Error(const kc_finding &found) : std::runtime_error(text_of(found)), status_(KC_INVALID_DATA) {}
    kc_status status() const noexcept { return status_; }

private:
    static std::string text_of(const kc_finding &found) {
        std::string text = std::string(kc_status_text(KC_INVALID_DATA)) + ": " + kc_flaw_text(found.flaw);
        return found.found == 0 ? text : text + " (found: " + std::to_string(found.found) + ")";
    }
    kc_status status_;
};

/* Throws unless a call did what it promises. */
inline void check(kc_status status) {
    if (status == KC_OUT_OF_MEMORY) throw std::bad_alloc();
    if (status != KC_OK) throw Error(status);
}
inline void check(kc_status status, const kc_finding &found) {
    if (status == KC_INVALID_DATA) throw Error(found);
    check(status);
}

/* Elements that lie one after another and belong to another object. */
template <class T> class View {
public:
    constexpr View() noexcept = default;
    constexpr View(const T *data, std::size_t size) noexcept : data_(data), size_(size) {}
    template <class C, class = std::enable_if_t<std::is_convertible_v<decltype(std::declval<const C &>().data()), const T *>>>
    constexpr View(const C &all) noexcept : data_(all.data()), size_(all.size()) {}
    constexpr const T *data() const noexcept { return data_; }
    constexpr std::size_t size() const noexcept { return size_; }

private:
    const T *data_ = nullptr;
    std::size_t size_ = 0;
};
using Numbers = View<std::uint64_t>;

/* The same of bytes: a text without its final 0, or a container whose elements have one byte. */
class Bytes {
public:
    constexpr Bytes(const void *data, std::size_t size) noexcept : data_(data), size_(size) {}
    constexpr Bytes(std::string_view text) noexcept : data_(text.data()), size_(text.size()) {}
    constexpr Bytes(const char *text) noexcept : Bytes(std::string_view(text)) {}
    template <class C, class = std::enable_if_t<sizeof(*std::declval<const C &>().data()) == 1>>
    constexpr Bytes(const C &all) noexcept : data_(all.data()), size_(all.size()) {}
    constexpr const void *data() const noexcept { return data_; }
    constexpr std::size_t size() const noexcept { return size_; }

private:
    const void *data_;
    std::size_t size_;
};
using Image = std::vector<std::uint8_t>;

namespace detail {

/* What kc_sums_new takes as the resize factor. */
constexpr std::uint32_t default_resize_factor = 8;

/* A handle that owns an object. */
template <class H, kc_status (*Free)(H *)> class Handle {
public:
    Handle() noexcept = default;
    Handle(Handle &&other) noexcept : handle_{std::exchange(other.handle_.object, nullptr)} {}
    Handle &operator=(Handle &&other) noexcept {
        if (this != &other) {
            Free(&handle_);
            handle_.object = std::exchange(other.handle_.object, nullptr);
        }
        return *this;
    }
    Handle(const Handle &) = delete;
    Handle &operator=(const Handle &) = delete;
    ~Handle() { Free(&handle_); }
    /* The handle, for calls of kaftanclay.h; the object stays its owner. */
    H *get() noexcept { return &handle_; }
    const H *get() const noexcept { return &handle_; }

private:
    H handle_{nullptr};
};

/* What a call writes to a buffer. */
template <class Buffer, class Call> Buffer written(Call call) {
    Buffer out;
    std::uint64_t length = 0;
    kc_status status = call(nullptr, std::size_t{0}, &length);
    if (status == KC_TOO_SMALL) {
        out.resize(static_cast<std::size_t>(length));
        status = call(out.data(), out.size(), &length);
    }
    check(status);
    return out;
}

/* Refuses an image with bytes behind it. Other faults are for the call that reads it. */
inline void check_end(kc_status status, const kc_finding &found, Bytes image) {
    if (status == KC_OK && found.length != 0 && found.length < image.size()) throw Error(found);
}
inline void check_image(Bytes image, std::uint64_t seed) {
    kc_finding found{};
    check_end(kc_image_flaw(image.data(), image.size(), seed, &found), found, image);
}
inline void check_sums_image(Bytes image, std::uint64_t seed) {
    kc_finding found{};
    check_end(kc_sums_image_flaw(image.data(), image.size(), seed, &found), found, image);
}

} // namespace detail

/* A number of 128 bits as text, and as the nearest double. */
inline std::string to_string(const kc_wide &number) {
    return detail::written<std::string>([&](char *out, std::size_t room, std::uint64_t *length) { return kc_wide_text(&number, out, room, length); });
}
inline double to_double(const kc_wide &number) noexcept {
    return static_cast<double>(number.high) * 18446744073709551616.0 + static_cast<double>(number.low);
}

struct Bounds {
    kc_wide lower;
    kc_wide upper;
};

/* The state of a sketch, and what follows from it. */
class State {
public:
    explicit State(const kc_state &state) noexcept : state_(state) {}
    std::uint64_t retained() const noexcept { return state_.retained; }
    std::uint64_t theta() const noexcept { return state_.theta; }
    bool is_empty() const noexcept { return state_.empty != 0; }
    bool is_exact() const noexcept { return state_.theta == KC_MAX_THETA; }
    double estimate() const noexcept { return kc_estimate(&state_); }
    /* The nearest whole number to the estimate. */
    kc_wide rounded() const {
        kc_wide out{};
        check(kc_estimate_rounded(state_.retained, state_.theta, &out));
        return out;
    }
    /* The estimate with so many decimals, from 0 to 19, rounded down. */
    std::string text(std::uint32_t places) const {
        return detail::written<std::string>(
            [&](char *out, std::size_t room, std::uint64_t *length) { return kc_estimate_text(&state_, places, out, room, length); });
    }
    /* Bounds by 1, 2 or 3 standard deviations. */
    Bounds bounds(std::uint32_t deviations = 2) const {
        Bounds out{};
        check(kc_count_bounds(state_.retained, state_.theta, deviations, &out.lower, &out.upper));
        return out;
    }

private:
    kc_state state_;
};

/* The total of a tuple sketch, and the estimate of the total of all values that were added; of the mode min or max, of the least or the
 * greatest value of each key. */
class Total {
public:
    Total(const kc_wide &retained, std::uint64_t theta) noexcept : retained_(retained), theta_(theta) {}
    /* The sum of what is retained of each key. */
    const kc_wide &retained() const noexcept { return retained_; }
    double estimate() const noexcept { return kc_total(&retained_, theta_); }
    kc_wide rounded() const {
        kc_wide out{};
        check(kc_total_rounded(&retained_, theta_, &out));
        return out;
    }
    std::string text(std::uint32_t places) const {
        return detail::written<std::string>(
            [&](char *out, std::size_t room, std::uint64_t *length) { return kc_total_text(&retained_, theta_, places, out, room, length); });
    }

private:
    kc_wide retained_;
    std::uint64_t theta_;
};

inline std::uint64_t hash(Bytes key, std::uint64_t seed = default_seed) {
    std::uint64_t out = 0;
    check(kc_hash_bytes(seed, key.data(), key.size(), &out));
    return out;
}
inline std::uint64_t hash(std::uint64_t number, std::uint64_t seed = default_seed) {
    std::uint64_t out = 0;
    check(kc_hash_u64(seed, number, &out));
    return out;
}

/* ---- Theta sketches ---- */

/* A sketch that never changes. */
class Compact : public detail::Handle<kc_compact, kc_compact_free> {
public:
    /* The sketch of an image. */
    static Compact read(Bytes image, std::uint64_t seed = default_seed) {
        Compact out;
        kc_finding found{};
        check(kc_compact_read_whole(out.get(), image.data(), image.size(), seed, &found), found);
        return out;
    }
    Compact clone() const {
        Compact out;
        check(kc_compact_clone(get(), out.get()));
        return out;
    }
    State state() const {
        kc_state out{};
        check(kc_compact_state(get(), &out));
        return State(out);
    }
    double estimate() const { return state().estimate(); }
    Image image() const {
        return detail::written<Image>([&](void *out, std::size_t room, std::uint64_t *length) { return kc_compact_image(get(), out, room, length); });
    }
    /* The keys of this sketch that another one lacks. */
    Compact without(const Compact &other, std::uint64_t seed = default_seed) const {
        Compact out;
        check(kc_difference(get(), other.get(), seed, out.get()));
        return out;
    }

private:
    Compact() = default;
    friend class Theta;
    friend class Union;
    friend class Intersection;
};

/* A text whose lines update a sketch. */
class Text : public detail::Handle<kc_text, kc_text_free> {
public:
    explicit Text(std::uint64_t seed = default_seed) { check(kc_text_new(get(), seed)); }
};

/* A sketch that takes updates. */
class Theta : public detail::Handle<kc_theta, kc_theta_free> {
public:
    explicit Theta(unsigned lg_k = default_lg_k, std::uint64_t seed = default_seed) { check(kc_theta_new(get(), lg_k, seed)); }
    /* With a resize factor, 1, 2, 4 or 8, and a theta from 1 to KC_MAX_THETA to begin at. */
    Theta(unsigned lg_k, std::uint64_t seed, std::uint32_t resize_factor, std::uint64_t starting_theta) {
        check(kc_theta_new_with(get(), lg_k, seed, resize_factor, starting_theta));
    }
    Theta clone() const {
        Theta out{Nothing{}};
        check(kc_theta_clone(get(), out.get()));
        return out;
    }
    void update(Bytes key) { check(kc_theta_update_bytes(get(), key.data(), key.size())); }
    void update(std::uint64_t number) { check(kc_theta_update_u64(get(), number)); }
    void update_hash(std::uint64_t hash) { check(kc_theta_update_hash(get(), hash)); }
    void update_hashes(Numbers hashes) { check(kc_theta_update_hashes(get(), hashes.data(), hashes.size())); }
    /* Strings that lie one after another; ends[i] is where string i ends. */
    void update_strings(Bytes strings, Numbers ends) {
        check(kc_theta_update_strings(get(), strings.data(), strings.size(), ends.data(), ends.size()));
    }
    void update_text(Text &text, Bytes piece) { check(kc_theta_update_text(get(), text.get(), piece.data(), piece.size())); }
    void end_text(Text &text) { check(kc_theta_end_text(get(), text.get())); }
    void trim() { check(kc_theta_trim(get())); }
    void reset() { check(kc_theta_reset(get())); }
    State state() const {
        kc_state out{};
        check(kc_theta_state(get(), &out));
        return State(out);
    }
    double estimate() const { return state().estimate(); }
    Image image() const {
        return detail::written<Image>([&](void *out, std::size_t room, std::uint64_t *length) { return kc_theta_image(get(), out, room, length); });
    }
    Compact compact() const {
        Compact out;
        check(kc_theta_compact(get(), out.get()));
        return out;
    }

private:
    struct Nothing {};
    explicit Theta(Nothing) {}
};

/* Many sketches, to be merged together. */
class Batch : public detail::Handle<kc_batch, kc_batch_free> {
public:
    explicit Batch(std::uint64_t seed = default_seed) : seed_(seed) { check(kc_batch_new(get(), seed)); }
    void add(const Theta &sketch) { check(kc_batch_add(get(), sketch.get())); }
    void add(const Compact &sketch) { check(kc_batch_add_compact(get(), sketch.get())); }
    void add_image(Bytes image) {
        detail::check_image(image, seed_);
        check(kc_batch_add_image(get(), image.data(), image.size()));
    }
    void reset() { check(kc_batch_reset(get())); }

private:
    std::uint64_t seed_;
};

class Union : public detail::Handle<kc_union, kc_union_free> {
public:
    explicit Union(unsigned lg_k = default_lg_k, std::uint64_t seed = default_seed) : seed_(seed) { check(kc_union_new(get(), lg_k, seed)); }
    void add(const Theta &sketch) { check(kc_union_add(get(), sketch.get())); }
    void add(const Compact &sketch) { check(kc_union_add_compact(get(), sketch.get())); }
    void add(const Batch &batch) { check(kc_union_add_batch(get(), batch.get())); }
    void add_image(Bytes image) {
        detail::check_image(image, seed_);
        check(kc_union_add_image(get(), image.data(), image.size()));
    }
    void reset() { check(kc_union_reset(get())); }
    Compact result() const {
        Compact out;
        check(kc_union_result(get(), out.get()));
        return out;
    }
    Image image() const {
        return detail::written<Image>([&](void *out, std::size_t room, std::uint64_t *length) { return kc_union_image(get(), out, room, length); });
    }

private:
    std::uint64_t seed_;
};

class Intersection : public detail::Handle<kc_intersection, kc_intersection_free> {
public:
    explicit Intersection(std::uint64_t seed = default_seed) : seed_(seed) { check(kc_intersection_new(get(), seed)); }
    void add(const Theta &sketch) { check(kc_intersection_add(get(), sketch.get())); }
    void add(const Compact &sketch) { check(kc_intersection_add_compact(get(), sketch.get())); }
    void add_image(Bytes image) {
        detail::check_image(image, seed_);
        check(kc_intersection_add_image(get(), image.data(), image.size()));
    }
    Compact result() const {
        Compact out;
        check(kc_intersection_result(get(), out.get()));
        return out;
    }

private:
    std::uint64_t seed_;
};

/* ---- Tuple sketches of sums, least and greatest values ---- */

/* A tuple sketch that never changes. */
class CompactSums : public detail::Handle<kc_compact_sums, kc_compact_sums_free> {
public:
    static CompactSums read(Bytes image, std::uint64_t seed = default_seed) {
        CompactSums out;
        kc_finding found{};
        check(kc_compact_sums_read_whole(out.get(), image.data(), image.size(), seed, &found), found);
        return out;
    }
    State state() const {
        kc_state out{};
        check(kc_compact_sums_state(get(), &out));
        return State(out);
    }
    double estimate() const { return state().estimate(); }
    Total total() const {
        kc_wide out{};
        check(kc_compact_sums_total(get(), &out));
        return Total(out, state().theta());
    }
    Image image() const {
        return detail::written<Image>(
            [&](void *out, std::size_t room, std::uint64_t *length) { return kc_compact_sums_image(get(), out, room, length); });
    }
    /* The hashes and their sums, or least or greatest values. */
    struct Entries {
        std::vector<std::uint64_t> hashes;
        std::vector<std::uint64_t> sums;
    };
    Entries entries() const {
        std::uint64_t count = 0;
        Entries out;
        kc_status status = kc_compact_sums_entries(get(), nullptr, nullptr, 0, &count);
        if (status == KC_TOO_SMALL) {
            out.hashes.resize(static_cast<std::size_t>(count));
            out.sums.resize(out.hashes.size());
            status = kc_compact_sums_entries(get(), out.hashes.data(), out.sums.data(), out.hashes.size(), &count);
        }
        check(status);
        return out;
    }
    /* The keys of this sketch that another one lacks, with the sums that they have here. */
    CompactSums without(const CompactSums &other, std::uint64_t seed = default_seed) const {
        CompactSums out;
        check(kc_sums_difference(get(), other.get(), seed, out.get()));
        return out;
    }

private:
    CompactSums() = default;
    friend class Sums;
    friend class SumsUnion;
    friend class SumsIntersection;
};

/* A tuple sketch that takes updates: for each key the sum of its values, or the least or the greatest. */
class Sums : public detail::Handle<kc_sums, kc_sums_free> {
public:
    explicit Sums(unsigned lg_k = default_lg_k, std::uint64_t seed = default_seed, Mode mode = Mode::sum)
        : Sums(lg_k, seed, detail::default_resize_factor, KC_MAX_THETA, mode) {}
    Sums(unsigned lg_k, std::uint64_t seed, std::uint32_t resize_factor, std::uint64_t starting_theta, Mode mode = Mode::sum) {
        check(kc_sums_new_by_mode(get(), lg_k, seed, resize_factor, starting_theta, static_cast<std::uint32_t>(mode)));
    }
    Sums clone() const {
        Sums out{Nothing{}};
        check(kc_sums_clone(get(), out.get()));
        return out;
    }
    void add(Bytes key, std::uint64_t value) { check(kc_sums_add_bytes(get(), key.data(), key.size(), value)); }
    void add(std::uint64_t number, std::uint64_t value) { check(kc_sums_add_u64(get(), number, value)); }
    void add_hash(std::uint64_t hash, std::uint64_t value) { check(kc_sums_add_hash(get(), hash, value)); }
    void trim() { check(kc_sums_trim(get())); }
    void reset() { check(kc_sums_reset(get())); }
    State state() const {
        kc_state out{};
        check(kc_sums_state(get(), &out));
        return State(out);
    }
    double estimate() const { return state().estimate(); }
    Total total() const {
        kc_wide out{};
        check(kc_sums_total(get(), &out));
        return Total(out, state().theta());
    }
    Image image() const {
        return detail::written<Image>([&](void *out, std::size_t room, std::uint64_t *length) { return kc_sums_image(get(), out, room, length); });
    }
    CompactSums compact() const {
        CompactSums out;
        check(kc_sums_compact(get(), out.get()));
        return out;
    }

private:
    struct Nothing {};
    explicit Sums(Nothing) {}
};

class SumsUnion : public detail::Handle<kc_sums_union, kc_sums_union_free> {
public:
    explicit SumsUnion(unsigned lg_k = default_lg_k, std::uint64_t seed = default_seed, Mode mode = Mode::sum) : seed_(seed) {
        auto number = static_cast<std::uint32_t>(mode);
        check(kc_sums_union_new_by_mode(get(), lg_k, seed, detail::default_resize_factor, KC_MAX_THETA, number));
    }
    void add(const Sums &sketch) { check(kc_sums_union_add(get(), sketch.get())); }
    void add(const CompactSums &sketch) { check(kc_sums_union_add_compact(get(), sketch.get())); }
    void add_image(Bytes image) {
        detail::check_sums_image(image, seed_);
        check(kc_sums_union_add_image(get(), image.data(), image.size()));
    }
    void reset() { check(kc_sums_union_reset(get())); }
    CompactSums result() const {
        CompactSums out;
        check(kc_sums_union_result(get(), out.get()));
        return out;
    }
    Image image() const {
        return detail::written<Image>(
            [&](void *out, std::size_t room, std::uint64_t *length) { return kc_sums_union_image(get(), out, room, length); });
    }

private:
    std::uint64_t seed_;
};

class SumsIntersection : public detail::Handle<kc_sums_intersection, kc_sums_intersection_free> {
public:
    explicit SumsIntersection(std::uint64_t seed = default_seed, Mode mode = Mode::sum) : seed_(seed) {
        check(kc_sums_intersection_new_by_mode(get(), seed, static_cast<std::uint32_t>(mode)));
    }
    void add(const Sums &sketch) { check(kc_sums_intersection_add(get(), sketch.get())); }
    void add(const CompactSums &sketch) { check(kc_sums_intersection_add_compact(get(), sketch.get())); }
    void add_image(Bytes image) {
        detail::check_sums_image(image, seed_);
        check(kc_sums_intersection_add_image(get(), image.data(), image.size()));
    }
    CompactSums result() const {
        CompactSums out;
        check(kc_sums_intersection_result(get(), out.get()));
        return out;
    }

private:
    std::uint64_t seed_;
};

} // namespace kaftanclay
#endif
