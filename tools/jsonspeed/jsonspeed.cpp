// jsonspeed FILE...: how long it takes to tell whether a text is JSON, by the proved reader and by those of other libraries
// that are installed, as a markdown table of nanoseconds a byte. They take turns in one run; medians. The text is an array of
// copies of a file, of about 30 KB, as large as a file can be.
//
// yajl and RapidJSON call handlers that do nothing; simdjson, which has no such call, makes its tree.
#include <algorithm>
#include <chrono>
#include <cstddef>
#include <cstdint>
#include <cstdio>
#include <cstdlib>
#include <cstring>
#include <fstream>
#include <functional>
#include <iterator>
#include <string>
#include <vector>

#if __has_include(<yajl/yajl_parse.h>)
#include <yajl/yajl_parse.h>
#define HAS_YAJL
#endif
#if __has_include(<rapidjson/reader.h>)
#include <rapidjson/error/en.h>
#include <rapidjson/memorystream.h>
#include <rapidjson/reader.h>
#define HAS_RAPIDJSON
#endif
#if __has_include(<simdjson.h>)
#include <simdjson.h>
#define HAS_SIMDJSON
#endif

extern "C" size_t measured_text(const uint8_t *text, size_t length);

namespace {

using Clock = std::chrono::steady_clock;

struct Reader {
    const char *name;
    std::function<bool(const std::string &)> takes;
};

bool proved(const std::string &text) {
    return measured_text(reinterpret_cast<const uint8_t *>(text.data()), text.size()) == 1;
}

#ifdef HAS_YAJL
bool by_yajl(const std::string &text) {
    yajl_callbacks none = {};
    yajl_handle handle = yajl_alloc(&none, nullptr, nullptr);
    bool taken = yajl_parse(handle, reinterpret_cast<const unsigned char *>(text.data()), text.size()) == yajl_status_ok &&
                 yajl_complete_parse(handle) == yajl_status_ok;
    yajl_free(handle);
    return taken;
}
#endif

#ifdef HAS_RAPIDJSON
bool by_rapidjson(const std::string &text) {
    rapidjson::BaseReaderHandler<> none;
    rapidjson::MemoryStream stream(text.data(), text.size());
    rapidjson::Reader reader;
    return !reader.Parse<rapidjson::kParseValidateEncodingFlag>(stream, none).IsError();
}
#endif

#ifdef HAS_SIMDJSON
bool by_simdjson(const std::string &text) {
    static simdjson::dom::parser parser;
    return parser.parse(text).error() == simdjson::SUCCESS;
}
#endif

std::vector<Reader> readers() {
    std::vector<Reader> all = {{"proved", proved}};
#ifdef HAS_YAJL
    all.push_back({"yajl", by_yajl});
#endif
#ifdef HAS_RAPIDJSON
    all.push_back({"RapidJSON", by_rapidjson});
#endif
#ifdef HAS_SIMDJSON
    all.push_back({"simdjson", by_simdjson});
#endif
    return all;
}

// Nanoseconds for one call, over as many calls as take about a millisecond.
double once(const Reader &reader, const std::string &text, size_t calls) {
    const auto start = Clock::now();
    for (size_t i = 0; i < calls; i++)
        if (!reader.takes(text)) std::exit(3);
    return std::chrono::duration<double, std::nano>(Clock::now() - start).count() / calls;
}

double median(std::vector<double> times) {
    std::sort(times.begin(), times.end());
    return times[times.size() / 2];
}

// Copies of a file as the elements of an array; with room behind, which simdjson asks for.
std::string copies(const char *path) {
    std::ifstream file(path, std::ios::binary);
    const std::string one((std::istreambuf_iterator<char>(file)), std::istreambuf_iterator<char>());
    std::string text = "[" + one;
    while (text.size() + one.size() < 30000) text += "," + one;
    text += "]";
    text.reserve(text.size() + 64);
    return text;
}

void measure(const char *path, const std::vector<Reader> &all) {
    const std::string text = copies(path);
    for (const Reader &reader : all)
        if (!reader.takes(text)) {
            std::fprintf(stderr, "%s: refused by %s\n", path, reader.name);
            std::exit(2);
        }
    std::vector<std::vector<double>> times(all.size());
    const size_t calls = std::max<size_t>(1, 1000000 / (text.size() + 1));
    for (int round = 0; round < 101; round++)
        for (size_t i = 0; i < all.size(); i++) times[i].push_back(once(all[i], text, calls));
    const char *slash = std::strrchr(path, '/');
    std::printf("| %s | %zu |", slash ? slash + 1 : path, text.size());
    for (const auto &of_reader : times) std::printf(" %.2f |", median(of_reader) / text.size());
    std::printf("\n");
}

}  // namespace

int main(int count, char **paths) {
    const std::vector<Reader> all = readers();
    std::printf("| file | bytes |");
    for (const Reader &reader : all) std::printf(" %s, ns/byte |", reader.name);
    std::printf("\n|---|---:|");
    for (size_t i = 0; i < all.size(); i++) std::printf("---:|");
    std::printf("\n");
    for (int i = 1; i < count; i++) measure(paths[i], all);
}
