/* Counts the loads that a processor's store buffer cannot forward. It reads the trace of valgrind's lackey
   (`--trace-mem=yes`) from standard input. A load is counted if the youngest of the last stores that touches its bytes
   does not hold all of them: it must then wait until that store has reached the cache, while a load whose bytes one
   store holds gets them at once. So two bytes that are stored one by one and loaded as a word are counted, and so is the
   upper half of a word that is loaded with the bytes after it.
   usage: forwarding MOST < TRACE
   It prints a line for each instruction that has more than MOST such loads, `COUNT loads at ADDRESS after the store at
   ADDRESS`, the last of its stores, and at the end `N instructions`. The exit status is 1 if there is no room for an
   instruction or the trace cannot be read, and else 0. */
#include <inttypes.h>
#include <stdbool.h>
#include <stdint.h>
#include <stdio.h>
#include <stdlib.h>

/* How many stores a processor holds that are not yet in the cache, and after how many instructions a store is taken to
   be there. */
enum { STORES = 56, UNDER_WAY = 150, PLACES = 1 << 16 };

struct store {
  uint64_t address, size, at, instruction;
};

struct place {
  uint64_t load, store, count;
};

static struct store stores[STORES];
static uint64_t stored;
static struct place places[PLACES];
static uint64_t instructions, instruction;

/* Counts a load of this instruction after that store. Returns false if there is no room for its place. */
static bool count_load(const struct store *store) {
  for (uint64_t probe = 0; probe < PLACES; probe++) {
    struct place *place = &places[(instruction + probe) % PLACES];
    if (place->count != 0 && place->load != instruction) continue;
    place->load = instruction;
    place->store = store->instruction;
    place->count++;
    return true;
  }
  return false;
}

/* Looks for the youngest store under way that touches what is loaded. */
static bool load(uint64_t address, uint64_t size) {
  for (uint64_t back = 1; back <= STORES && back <= stored; back++) {
    const struct store *store = &stores[(stored - back) % STORES];
    if (instructions - store->at > UNDER_WAY) return true;
    if (store->address + store->size <= address || address + size <= store->address) continue;
    bool holds_all = store->address <= address && address + size <= store->address + store->size;
    return holds_all || count_load(store);
  }
  return true;
}

static void store(uint64_t address, uint64_t size) {
  stores[stored++ % STORES] = (struct store){address, size, instructions, instruction};
}

/* A line of the trace: `I  ADDRESS,SIZE`, an instruction, and of it ` L ADDRESS,SIZE`, a load, ` S ..`, a store, and
   ` M ..`, both. The other lines are valgrind's own. */
static bool read_line(const char *line) {
  char kind = line[0] == ' ' ? line[1] : line[0];
  if (kind != 'I' && kind != 'L' && kind != 'S' && kind != 'M') return true;
  char *comma;
  uint64_t address = strtoull(line + 2, &comma, 16);
  if (*comma != ',') return true;
  uint64_t size = strtoull(comma + 1, NULL, 10);
  if (kind == 'I') {
    instruction = address;
    instructions++;
    return true;
  }
  bool is_counted = kind == 'S' || load(address, size);
  if (kind != 'L') store(address, size);
  return is_counted;
}

int main(int count, char **words) {
  uint64_t most = count > 1 ? strtoull(words[1], NULL, 10) : 0;
  char *line = NULL;
  size_t room = 0;
  while (getline(&line, &room, stdin) > 0) {
    if (!read_line(line)) return 1;
  }
  free(line);
  if (ferror(stdin)) return 1;
  for (int k = 0; k < PLACES; k++) {
    if (places[k].count <= most) continue;
    printf("%" PRIu64 " loads at %" PRIx64 " after the store at %" PRIx64 "\n", places[k].count, places[k].load,
           places[k].store);
  }
  printf("%" PRIu64 " instructions\n", instructions);
  return 0;
}
