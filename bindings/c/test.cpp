/* Tries kaftanclay.hpp: each class, and each error by its exception. The last line is `test.cpp: N checks passed`. */
#include <algorithm>
#include <array>
#include <cstdio>
#include <kaftanclay.hpp>
#include <map>

using namespace kaftanclay;

static int passed = 0, failed = 0;

static void holds_at(bool condition, const char *text, int line) {
    if (condition) ++passed;
    else {
        ++failed;
        std::fprintf(stderr, "test.cpp:%d: %s\n", line, text);
    }
}
#define HOLDS(condition) holds_at((condition), #condition, __LINE__)

/* The status that a call is refused with; KC_OK if it isn't. */
template <class Call> static kc_status refusal(Call call) {
    try {
        call();
    } catch (const Error &error) {
        /* Behind the text of the status there may be a flaw. */
        std::string said = error.what(), text = kc_status_text(error.status());
        bool names = said == text || (error.status() == KC_INVALID_DATA && said.compare(0, text.size() + 2, text + ": ") == 0);
        return names ? error.status() : static_cast<kc_status>(99);
    } catch (const std::bad_alloc &) {
        return KC_OUT_OF_MEMORY;
    }
    return KC_OK;
}

template <class T> constexpr bool moves_alone = std::is_nothrow_move_constructible_v<T> && std::is_nothrow_move_assignable_v<T> &&
                                                !std::is_copy_constructible_v<T> && !std::is_copy_assignable_v<T>;
static_assert(moves_alone<Theta> && moves_alone<Compact> && moves_alone<Text> && moves_alone<Batch> && moves_alone<Union>);
static_assert(moves_alone<Intersection> && moves_alone<Sums> && moves_alone<CompactSums> && moves_alone<SumsUnion> && moves_alone<SumsIntersection>);

static Theta of_numbers(std::uint64_t first, std::uint64_t end, unsigned lg_k = default_lg_k) {
    Theta out(lg_k);
    for (std::uint64_t i = first; i < end; i++) out.update(i);
    return out;
}

static void test_theta() {
    Theta sketch;
    HOLDS(sketch.state().is_empty() && sketch.estimate() == 0.0);
    sketch.update("ann");
    sketch.update(std::string("ann"));
    sketch.update(std::string_view("bob!", 3));
    sketch.update(std::vector<char>{'b', 'o', 'b'});
    sketch.update(std::array<std::uint8_t, 3>{{'b', 'o', 'b'}});
    HOLDS(sketch.estimate() == 2.0);
    sketch.update("");
    sketch.update(Bytes(nullptr, 0));
    sketch.update(std::uint64_t{7});
    HOLDS(sketch.state().retained() == 4 && sketch.state().is_exact() && !sketch.state().is_empty());
    Theta hashed;
    hashed.update_hash(hash("ann"));
    hashed.update_hashes(std::vector<std::uint64_t>{hash("bob"), hash(""), hash(std::uint64_t{7})});
    HOLDS(hashed.image() == sketch.image() && Compact::read(hashed.image()).image() == sketch.compact().image());
    Theta strings;
    strings.update_strings("annbob", std::array<std::uint64_t, 3>{{3, 6, 6}});
    strings.update(std::uint64_t{7});
    HOLDS(strings.image() == sketch.image());
    Theta lines;
    Text text;
    lines.update_text(text, "ann\nbo");
    lines.update_text(text, "b\n\n");
    lines.end_text(text);
    lines.update(std::uint64_t{7});
    HOLDS(lines.image() == sketch.image());
    Theta copy = sketch.clone();
    copy.update("cid");
    HOLDS(copy.estimate() == 5.0 && sketch.estimate() == 4.0);
    sketch.reset();
    HOLDS(sketch.state().is_empty());
    Theta many = of_numbers(0, 100000, 5);
    many.trim();
    HOLDS(many.state().retained() == 32 && !many.state().is_exact());
    const Bounds bounds = many.state().bounds(3);
    HOLDS(to_double(bounds.lower) < 100000.0 && 100000.0 < to_double(bounds.upper));
    HOLDS(to_string(many.state().rounded()) == many.state().text(0) || to_double(many.state().rounded()) - 1.0 == std::stod(many.state().text(0)));
    HOLDS(Theta(4, default_seed, 1, KC_MAX_THETA / 2).state().is_empty());
}

static void test_moves() {
    Theta first = of_numbers(0, 10), second = of_numbers(0, 20);
    const Image image = second.image();
    first = std::move(second);
    HOLDS(first.image() == image);
    HOLDS(refusal([&] { second.update("ann"); }) == KC_INVALID_ARGUMENT);
    second = std::move(first);
    Theta third(std::move(second));
    HOLDS(third.image() == image);
    third = std::move(*&third);
    HOLDS(third.image() == image);
    std::vector<Compact> all;
    for (std::uint64_t i = 0; i < 10; i++) all.push_back(of_numbers(i, i + 5).compact());
    HOLDS(all[9].estimate() == 5.0 && all[0].image() == of_numbers(0, 5).image());
}

static void test_sets() {
    const Theta a = of_numbers(0, 1000), b = of_numbers(500, 1500);
    Union both;
    both.add(a);
    both.add(b.compact());
    both.add_image(a.image());
    HOLDS(both.result().estimate() == 1500.0 && both.image() == both.result().image());
    Batch batch;
    batch.add(a);
    batch.add(b.compact());
    batch.add_image(b.image());
    Union batched(12);
    batched.add(batch);
    HOLDS(batched.image() == both.image());
    batch.reset();
    batched.reset();
    batched.add(batch);
    HOLDS(batched.result().state().is_empty());
    Intersection shared;
    HOLDS(refusal([&] { shared.result(); }) == KC_INVALID_ARGUMENT);
    shared.add(a);
    shared.add(b.compact());
    shared.add_image(b.image());
    HOLDS(shared.result().estimate() == 500.0);
    const Compact rest = a.compact().without(b.compact());
    HOLDS(rest.estimate() == 500.0 && rest.clone().image() == rest.image() && rest.image() == of_numbers(0, 500).image());
}

static void test_sums() {
    Sums visits;
    visits.add("ann", 2);
    visits.add("bob", 5);
    visits.add(std::uint64_t{7}, 1);
    visits.add_hash(hash("ann"), 3);
    HOLDS(visits.estimate() == 3.0 && visits.total().estimate() == 11.0 && to_string(visits.total().retained()) == "11");
    HOLDS(visits.total().text(2) == "11.00" && visits.total().rounded().low == 11 && visits.clone().image() == visits.image());
    const CompactSums compact = visits.compact();
    const CompactSums::Entries entries = compact.entries();
    HOLDS(entries.hashes.size() == 3 && entries.sums[0] + entries.sums[1] + entries.sums[2] == 11);
    HOLDS(CompactSums::read(compact.image()).image() == compact.image() && compact.total().estimate() == 11.0);
    SumsUnion both;
    both.add(visits);
    both.add(compact);
    both.add_image(visits.image());
    HOLDS(both.result().total().estimate() == 33.0 && both.image() == both.result().image());
    SumsIntersection shared;
    shared.add(visits);
    Sums ann;
    ann.add("ann", 4);
    shared.add(ann.compact());
    shared.add_image(ann.image());
    HOLDS(shared.result().total().estimate() == 13.0);
    HOLDS(compact.without(ann.compact()).total().estimate() == 6.0);
    HOLDS(Sums().compact().entries().hashes.empty());
    visits.trim();
    visits.reset();
    HOLDS(visits.state().is_empty() && Sums(4, default_seed, 2, 1).state().is_empty());
    Sums full;
    full.add("ann", UINT64_MAX);
    HOLDS(refusal([&] { full.add("ann", 1); }) == KC_POLICY && full.total().retained().low == UINT64_MAX);
    HOLDS(refusal([&] { both.add(full); }) == KC_POLICY);
    both.reset();
    both.add(full);
    HOLDS(refusal([&] { both.add(full); }) == KC_POLICY && refusal([&] { both.add(ann); }) == KC_FAILED);
    HOLDS(refusal([&] { both.result(); }) == KC_FAILED);
    both.reset();
    HOLDS(both.result().state().is_empty());
}

using Values = std::map<std::uint64_t, std::uint64_t>;

static std::uint64_t combined(Mode mode, std::uint64_t first, std::uint64_t second) {
    return mode == Mode::sum ? first + second : mode == Mode::min ? std::min(first, second) : std::max(first, second);
}

static void put(Values &values, Mode mode, std::uint64_t key, std::uint64_t value) {
    const auto [at, is_new] = values.emplace(key, value);
    if (!is_new) at->second = combined(mode, at->second, value);
}

/* A sketch of 3000 values of few hundred keys from one on, and the same as a map. */
static Sums of_values(Mode mode, std::uint64_t first, Values &values) {
    Sums out(default_lg_k, default_seed, mode);
    std::uint64_t random = first + 1;
    for (int i = 0; i < 3000; i++) {
        random = random * 6364136223846793005u + 1442695040888963407u;
        const std::uint64_t key = first + (random >> 32) % 300, value = mode == Mode::sum ? random >> 40 : random;
        out.add(key, value);
        put(values, mode, key, value);
    }
    return out;
}

static bool has(const CompactSums &sketch, const Values &values) {
    Values wanted, found;
    const CompactSums::Entries entries = sketch.entries();
    for (const auto &[key, value] : values) wanted[hash(key)] = value;
    for (std::size_t i = 0; i < entries.hashes.size(); i++) found[entries.hashes[i]] = entries.sums[i];
    return found == wanted;
}

static void test_mode(Mode mode) {
    Values values, others, united, shared;
    Sums sketch = of_values(mode, 0, values), other = of_values(mode, 150, others);
    HOLDS(has(sketch.compact(), values) && has(other.compact(), others) && has(sketch.clone().compact(), values));
    for (const Values &each : {values, others})
        for (const auto &[key, value] : each) put(united, mode, key, value);
    for (const auto &[key, value] : values)
        if (others.count(key) != 0) shared[key] = combined(mode, value, others[key]);
    HOLDS(values.size() > 250 && shared.size() > 100);
    SumsUnion both(default_lg_k, default_seed, mode);
    both.add(sketch);
    both.add(other.compact());
    HOLDS(has(both.result(), united));
    SumsIntersection meets(default_seed, mode);
    meets.add_image(sketch.image());
    meets.add(other);
    HOLDS(has(meets.result(), shared));
    /* After a reset and in a clone the mode is as before. */
    both.reset();
    both.add(other);
    both.add_image(sketch.image());
    HOLDS(has(both.result(), united));
    Sums copy = sketch.clone();
    copy.add(std::uint64_t{0}, 1);
    put(values, mode, 0, 1);
    HOLDS(has(copy.compact(), values));
    sketch.reset();
    sketch.add(std::uint64_t{5}, 9);
    sketch.add(std::uint64_t{5}, 7);
    HOLDS(has(sketch.compact(), {{5, combined(mode, 9, 7)}}));
    Sums sampled(4, default_seed, 2, KC_MAX_THETA / 2, mode);
    for (std::uint64_t i = 0; i < 1000; i++) sampled.add(i, 3);
    for (std::uint64_t i = 0; i < 1000; i++) sampled.add(i, 4);
    const CompactSums::Entries entries = sampled.compact().entries();
    HOLDS(entries.sums.size() >= 16 && std::all_of(entries.sums.begin(), entries.sums.end(), [&](auto it) { return it == combined(mode, 3, 4); }));
}

static void test_modes() {
    for (Mode mode : {Mode::sum, Mode::min, Mode::max}) test_mode(mode);
    const Mode none = static_cast<Mode>(3);
    HOLDS(refusal([&] { Sums sketch(12, default_seed, none); }) == KC_INVALID_ARGUMENT);
    HOLDS(refusal([&] { SumsUnion it(12, default_seed, none); }) == KC_INVALID_ARGUMENT);
    HOLDS(refusal([&] { SumsIntersection it(default_seed, none); }) == KC_INVALID_ARGUMENT);
    /* The greatest values are no sums. */
    for (Mode mode : {Mode::min, Mode::max}) {
        Sums full(12, default_seed, mode);
        full.add("ann", UINT64_MAX);
        full.add("ann", UINT64_MAX);
        SumsUnion both(12, default_seed, mode);
        both.add(full);
        both.add(full);
        HOLDS(full.total().retained().high == 0 && both.result().total().retained().low == UINT64_MAX);
    }
}

static void test_refusals() {
    for (unsigned lg_k : {0u, 3u, 27u, 256u + 12u}) {
        HOLDS(refusal([&] { Theta sketch(lg_k); }) == KC_INVALID_ARGUMENT && refusal([&] { Union it(lg_k); }) == KC_INVALID_ARGUMENT);
        HOLDS(refusal([&] { Sums sketch(lg_k); }) == KC_INVALID_ARGUMENT && refusal([&] { SumsUnion it(lg_k); }) == KC_INVALID_ARGUMENT);
    }
    const Image image = of_numbers(0, 3).image();
    HOLDS(refusal([&] { Compact::read(Bytes(image.data(), image.size() - 1)); }) == KC_INVALID_DATA);
    HOLDS(refusal([&] { CompactSums::read(image); }) == KC_INVALID_DATA && refusal([&] { Compact::read(image, 7); }) == KC_INVALID_DATA);
    /* Bytes behind an image are refused by each reader, and change nothing. */
    Image longer = image, longer_sums = Sums().image();
    longer.push_back(0);
    longer_sums.insert(longer_sums.end(), longer_sums.begin(), longer_sums.end());
    Union unites;
    Batch batch;
    Intersection meets;
    SumsUnion sums_unites;
    SumsIntersection sums_meets;
    HOLDS(refusal([&] { Compact::read(longer); }) == KC_INVALID_DATA && refusal([&] { CompactSums::read(longer_sums); }) == KC_INVALID_DATA);
    try {
        Compact::read(longer);
    } catch (const Error &error) {
        HOLDS(std::string(error.what()).find("bytes follow the image") != std::string::npos);
    }
    try {
        CompactSums::read(image);
    } catch (const Error &error) {
        HOLDS(std::string(error.what()).find("(found: 3)") != std::string::npos);
    }
    HOLDS(refusal([&] { unites.add_image(longer); }) == KC_INVALID_DATA && refusal([&] { batch.add_image(longer); }) == KC_INVALID_DATA);
    HOLDS(refusal([&] { meets.add_image(longer); }) == KC_INVALID_DATA && refusal([&] { sums_unites.add_image(longer_sums); }) == KC_INVALID_DATA);
    HOLDS(refusal([&] { sums_meets.add_image(longer_sums); }) == KC_INVALID_DATA && refusal([&] { meets.result(); }) == KC_INVALID_ARGUMENT);
    unites.add(batch);
    HOLDS(unites.result().state().is_empty() && sums_unites.result().state().is_empty());
    HOLDS(refusal([&] { Compact::read(""); }) == KC_INVALID_DATA && Compact::read(Theta().image()).state().is_empty());
    Union other(12, 7);
    Theta of_seven(12, 7);
    of_seven.update("ann");
    other.add_image(of_seven.image());
    HOLDS(other.result().estimate() == 1.0);
    HOLDS(refusal([&] { other.add(of_numbers(0, 3)); }) == KC_INVALID_ARGUMENT && refusal([&] { other.add_image(""); }) == KC_INVALID_DATA);
    HOLDS(refusal([&] { Theta().state().bounds(4); }) == KC_INVALID_ARGUMENT && refusal([&] { Theta().state().text(20); }) == KC_INVALID_ARGUMENT);
    Theta strings;
    HOLDS(refusal([&] { strings.update_strings("ann", std::array<std::uint64_t, 1>{{4}}); }) == KC_INVALID_ARGUMENT);
    HOLDS(refusal([] { check(KC_OUT_OF_MEMORY); }) == KC_OUT_OF_MEMORY && refusal([] { check(KC_OK); }) == KC_OK);
}

int main() {
    test_theta();
    test_moves();
    test_sets();
    test_sums();
    test_modes();
    test_refusals();
    if (failed == 0) std::printf("test.cpp: %d checks passed\n", passed);
    return failed != 0;
}
