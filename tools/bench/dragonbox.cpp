// Dragonbox's text of a number, always with an exponent, for tools/bench.
#include <cstddef>
#include <dragonbox/dragonbox_to_chars.h>

extern "C" std::size_t bench_dragonbox64(double number, char *buf) { return jkj::dragonbox::to_chars(number, buf) - buf; }

extern "C" std::size_t bench_dragonbox32(float number, char *buf) { return jkj::dragonbox::to_chars(number, buf) - buf; }
