// Reads lines from standard input, calls Ada's can_parse on each that isn't empty, and names those that don't parse.
#include "ada.h"
#include <cstdio>
#include <iostream>
#include <string>

int main() {
  std::ios::sync_with_stdio(false);
  std::string line;
  size_t number = 0, refused = 0;
  while (std::getline(std::cin, line)) {
    number++;
    if (line.empty() || ada::can_parse(line)) continue;
    std::printf("-:%zu: error: this doesn't parse\n", number);
    refused++;
  }
  std::fprintf(stderr, "%zu lines, %zu refused\n", number, refused);
  return refused != 0;
}
