// The same accesses to one flat array: what is done, and how often, are the two words.
#include <stdint.h>
#include <stdio.h>
#include <stdlib.h>
#include <string.h>

static uint8_t heap[1 << 21];
static uint64_t sum;

static uint32_t get(const uint8_t *at) { uint32_t n; memcpy(&n, at, 4); return __builtin_bswap32(n); }
static void put(uint8_t *at, uint32_t n) { n = __builtin_bswap32(n); memcpy(at, &n, 4); }

static int zero(const uint8_t *page) {
  for (int at = 0; at < 4096; at += 8) {
    uint64_t word;
    memcpy(&word, page + at, 8);
    if (word) return 0;
  }
  return 1;
}

int main(int count, char **words) {
  if (count < 3) return 1;
  const char *what = words[1];
  uint64_t turns = strtoull(words[2], 0, 10);
  uint64_t mask = strstr(what, "pages") ? 0xFFFFC : strstr(what, "across") ? 0 : 0xFFC;
  uint64_t start = strstr(what, "across") ? 4094 : 0;
  for (uint64_t turn = 0; turn < 0x40000; turn++) put(heap + 4 * turn, turn);
  if (!strncmp(what, "load", 4))
    for (uint64_t turn = 0; turn < turns; turn++) sum += get(heap + start + (turn * 52 & mask));
  else if (!strncmp(what, "store", 5))
    for (uint64_t turn = 0; turn < turns; turn++) put(heap + start + (turn * 52 & mask), turn);
  else if (!strcmp(what, "zero"))
    for (uint64_t turn = 0; turn < turns; turn++) sum += zero(heap + 4096 * (256 + turn % 256));
  else if (!strcmp(what, "copy"))
    for (uint64_t turn = 0; turn < turns; turn++) memcpy(heap + 4096 * (turn % 64) + 0x100800, heap + 4096 * (turn % 64), 4096);
  printf("%lu\n", sum + heap[turns & 0xFFF]);
  return 0;
}
