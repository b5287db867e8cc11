// The same rules in C++ for speed: plain structs, warp sets as masks, tables
// changed in place. Two of its forms check all tables before every step. The
// third checks nothing, as the checker's run does: fresh tables are sound, and a
// step keeps sound tables sound.
#pragma once

#include <cstddef>
#include <cstdint>

namespace fast {

// What is checked before a step. The first two check all tables and differ in
// how they hold waiting sets against warp rows: every barrier row against every
// warp row, as document 01 words it, or who waits gathered into a mask and each
// waiting set visited member by member. Of the ways tried that keep the tables
// plain structs, the second was the quickest. Without a check nothing is gathered
// either: who has not exited is kept beside the tables.
enum class Check { rows, masks, none };

// As glubotar_text_room and glubotar_check.
std::size_t text_room(std::size_t trace_len);
std::size_t check(const std::uint8_t *trace, std::size_t trace_len, std::uint8_t *text,
                  std::size_t text_len, Check check);

}  // namespace fast
