// Prints 20,000 whole numbers that fall into one group of a hash map under a hasher with a fixed start: of the hashes of 8 bytes
// by one folded multiplication, as the default hasher of maps has it, those with the same group of 4,096 and the same tag. It
// tries some 2^34 numbers, which takes half a minute.
#include <stdint.h>
#include <stdio.h>

static uint64_t folded(uint64_t a, uint64_t b) {
  __uint128_t product = (__uint128_t)a * b;
  return (uint64_t)product ^ (uint64_t)(product >> 64);
}

int main(void) {
  const uint64_t start = 0x243f6a8885a308d3ull, factor = 0x9e3779b97f4a7c15ull ^ 16;
  int found = 0;
  for (uint64_t id = 1; found < 20000; id++) {
    uint64_t hash = folded(start ^ id, factor);
    uint32_t folded_hash = (uint32_t)(hash ^ (hash >> 32));
    if ((folded_hash & 4095) == 77 && folded_hash >> 24 == 0x5a) {
      printf("%llu\n", (unsigned long long)id);
      found++;
    }
  }
}
