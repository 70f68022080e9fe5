// fmt's shortest text of a number, for tools/bench.
#include <cstddef>
#include <fmt/compile.h>

extern "C" std::size_t bench_fmt64(double number, char *buf) { return fmt::format_to(buf, FMT_COMPILE("{}"), number) - buf; }

extern "C" std::size_t bench_fmt32(float number, char *buf) { return fmt::format_to(buf, FMT_COMPILE("{}"), number) - buf; }
