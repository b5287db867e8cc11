#include "numbers.hpp"

#include <cstdlib>

namespace peer {

Numbers numbers_in(const std::string &text, Fault fault) {
  Numbers found;
  for (std::size_t at = 0; at < text.size();) {
    const std::size_t end = text.find('\n', at);
    const std::size_t space = text.find(' ', at);
    char *rest = nullptr;
    if (text.compare(at, 4, "end ") == 0) {
      found.accepted = std::strtoul(&text[at + 4], &rest, 10);
      found.refused = std::strtoul(rest, nullptr, 10);
    } else if (text.compare(space, 4, " no ") == 0 &&
               (found.first_refusal == 0 || fault == Fault::last_refusal_first)) {
      found.first_step = std::strtoul(&text[at], nullptr, 10);
      found.first_refusal = std::strtoul(&text[space + 4], nullptr, 10);
    }
    at = end + 1;
  }
  if (fault == Fault::first_step_from_0 && found.first_step != 0) --found.first_step;
  return found;
}

std::string with_numbers(const std::string &text, const Numbers &numbers) {
  return text + "numbers " + std::to_string(numbers.accepted) + " " +
         std::to_string(numbers.refused) + " " + std::to_string(numbers.first_step) + " " +
         std::to_string(numbers.first_refusal) + "\n";
}

}  // namespace peer
