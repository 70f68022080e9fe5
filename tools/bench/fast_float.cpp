// fast_float's number of a text, for tools/bench.
#include <cstddef>
#include <fast_float/fast_float.h>

template <typename Number> static Number read(const char *text, std::size_t length) {
    Number number = 0;
    fast_float::from_chars(text, text + length, number);
    return number;
}

extern "C" double bench_fast_float64(const char *text, std::size_t length) { return read<double>(text, length); }

extern "C" float bench_fast_float32(const char *text, std::size_t length) { return read<float>(text, length); }
