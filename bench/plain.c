// Plain programs of the work of crates/cs_bench, to compare with: the same steps, unproved, with what C has at hand.
//
// `plain table OBJECTS SESSIONS ROUNDS`: a hash table of so many coins. So many of them are spent, each by a session that is
// encoded, hashed and prepared in so many rounds, and then decided.
// `plain slots F COUNT`: 3F+1 members choose so many entries of 100 bytes by proposal, echoes and confirms, all delivered.
// `plain run PROGRAM WORDS ..`: runs a program, and prints its processor time in seconds and its most memory in KiB. It is small
// itself, since a child begins with the memory of who started it.
#include <stdint.h>
#include <stdio.h>
#include <stdlib.h>
#include <string.h>
#include <sys/resource.h>
#include <sys/wait.h>
#include <unistd.h>

typedef uint8_t byte;

static void fail(const char *why) {
  fprintf(stderr, "plain: %s\n", why);
  exit(1);
}

static void *memory(size_t size) {
  void *found = calloc(1, size);
  if (!found) fail("no memory");
  return found;
}

// ---- SHA-256 (FIPS 180-4)

static const uint32_t K[64] = {
    0x428a2f98, 0x71374491, 0xb5c0fbcf, 0xe9b5dba5, 0x3956c25b, 0x59f111f1, 0x923f82a4, 0xab1c5ed5, 0xd807aa98, 0x12835b01, 0x243185be,
    0x550c7dc3, 0x72be5d74, 0x80deb1fe, 0x9bdc06a7, 0xc19bf174, 0xe49b69c1, 0xefbe4786, 0x0fc19dc6, 0x240ca1cc, 0x2de92c6f, 0x4a7484aa,
    0x5cb0a9dc, 0x76f988da, 0x983e5152, 0xa831c66d, 0xb00327c8, 0xbf597fc7, 0xc6e00bf3, 0xd5a79147, 0x06ca6351, 0x14292967, 0x27b70a85,
    0x2e1b2138, 0x4d2c6dfc, 0x53380d13, 0x650a7354, 0x766a0abb, 0x81c2c92e, 0x92722c85, 0xa2bfe8a1, 0xa81a664b, 0xc24b8b70, 0xc76c51a3,
    0xd192e819, 0xd6990624, 0xf40e3585, 0x106aa070, 0x19a4c116, 0x1e376c08, 0x2748774c, 0x34b0bcb5, 0x391c0cb3, 0x4ed8aa4a, 0x5b9cca4f,
    0x682e6ff3, 0x748f82ee, 0x78a5636f, 0x84c87814, 0x8cc70208, 0x90befffa, 0xa4506ceb, 0xbef9a3f7, 0xc67178f2};

static uint32_t turned(uint32_t x, int n) { return x >> n | x << (32 - n); }

static void take_block(uint32_t h[8], const byte *block) {
  uint32_t w[64];
  for (int i = 0; i < 16; i++)
    w[i] = (uint32_t)block[4 * i] << 24 | block[4 * i + 1] << 16 | block[4 * i + 2] << 8 | block[4 * i + 3];
  for (int i = 16; i < 64; i++) {
    uint32_t low = turned(w[i - 15], 7) ^ turned(w[i - 15], 18) ^ w[i - 15] >> 3;
    uint32_t high = turned(w[i - 2], 17) ^ turned(w[i - 2], 19) ^ w[i - 2] >> 10;
    w[i] = w[i - 16] + low + w[i - 7] + high;
  }
  uint32_t a = h[0], b = h[1], c = h[2], d = h[3], e = h[4], f = h[5], g = h[6], last = h[7];
  for (int i = 0; i < 64; i++) {
    uint32_t one = last + (turned(e, 6) ^ turned(e, 11) ^ turned(e, 25)) + ((e & f) ^ (~e & g)) + K[i] + w[i];
    uint32_t two = (turned(a, 2) ^ turned(a, 13) ^ turned(a, 22)) + ((a & b) ^ (a & c) ^ (b & c));
    last = g, g = f, f = e, e = d + one, d = c, c = b, b = a, a = one + two;
  }
  h[0] += a, h[1] += b, h[2] += c, h[3] += d, h[4] += e, h[5] += f, h[6] += g, h[7] += last;
}

// The hash of a letter and at most 512 bytes.
static void tagged(byte letter, const byte *bytes, size_t size, byte digest[32]) {
  uint32_t h[8] = {0x6a09e667, 0xbb67ae85, 0x3c6ef372, 0xa54ff53a, 0x510e527f, 0x9b05688c, 0x1f83d9ab, 0x5be0cd19};
  byte text[640] = {letter};
  memcpy(text + 1, bytes, size);
  text[size + 1] = 0x80;
  size_t blocks = (size + 1 + 9 + 63) / 64;
  uint64_t bits = 8 * (uint64_t)(size + 1);
  for (int i = 0; i < 8; i++) text[64 * blocks - 1 - i] = bits >> (8 * i);
  for (size_t i = 0; i < blocks; i++) take_block(h, text + 64 * i);
  for (int i = 0; i < 32; i++) digest[i] = h[i / 4] >> (24 - 8 * (i % 4));
}

// ---- the table of a shard

enum { COIN = 47, SESSION = 183, TX = 174 };
enum state { UNKNOWN, ACTIVE, LOCKED, INACTIVE };
struct record {
  byte key[32], object[COIN], by[32];
  enum state state;
};
static struct record *records;
static size_t room;

static struct record *record_of(const byte key[32]) {
  uint64_t place;
  memcpy(&place, key, sizeof place);
  for (size_t i = place % room;; i = (i + 1) % room)
    if (records[i].state == UNKNOWN || memcmp(records[i].key, key, 32) == 0) return &records[i];
}

static void bring(const byte key[32], const byte object[COIN]) {
  struct record *found = record_of(key);
  memcpy(found->key, key, 32);
  memcpy(found->object, object, COIN);
  found->state = ACTIVE;
}

static size_t put(byte *out, size_t at, const void *bytes, size_t size) {
  memcpy(out + at, bytes, size);
  return at + size;
}

static void coin(uint32_t worth, byte out[COIN]) {
  memset(out, 7, 32);
  put(out, 32, "\4coin\1\0\0\0\0\0", 11);
  for (int i = 0; i < 4; i++) out[43 + i] = worth >> (24 - 8 * i);
}

// The encoding of a session that spends a coin and makes it anew.
static void session(const byte key[32], const byte object[COIN], byte out[SESSION]) {
  size_t at = put(out, 0, "\1", 1);
  memset(out + at, 7, 32);
  at = put(out, at + 32, "\x08transfer\1", 10);
  at = put(out, at, key, 32);
  at = put(out, at, object, COIN);
  at = put(out, at, "\0\0\1", 3);
  at = put(out, at, object, COIN);
  at = put(out, at, "\0\0\0\0\0\0\0\0\0\1\0", 11);
  if (at != SESSION) fail("a session of another length");
}

// It is true where the vote is commit.
static int prepare(const byte key[32], const byte object[COIN]) {
  byte bytes[SESSION], digest[32];
  session(key, object, bytes);
  tagged('S', bytes, SESSION, digest);
  struct record *anchor = record_of(key);
  if (anchor->state == LOCKED) return memcmp(anchor->by, digest, 32) == 0;
  if (anchor->state != ACTIVE || memcmp(anchor->object, object, COIN) != 0) return 0;
  memcpy(anchor->by, digest, 32);
  anchor->state = LOCKED;
  return 1;
}

static void decide(const byte key[32], const byte object[COIN]) {
  byte bytes[SESSION], digest[32], name[36] = {0};
  session(key, object, bytes);
  tagged('S', bytes, SESSION, digest);
  struct record *anchor = record_of(key);
  if (anchor->state != LOCKED || memcmp(anchor->by, digest, 32) != 0) fail("a session that holds no lock");
  anchor->state = INACTIVE;
  tagged('T', bytes, TX, name);
  tagged('O', name, 36, digest);
  bring(digest, object);
}

static void run_table(size_t objects, size_t sessions, size_t rounds) {
  byte (*keys)[32] = memory(32 * objects + 1), (*coins)[COIN] = memory(COIN * objects + 1);
  room = 4 * (objects + sessions) + 1;
  records = memory(room * sizeof *records);
  for (size_t i = 0; i < objects; i++) {
    byte text[4 + COIN] = {i >> 24, i >> 16, i >> 8, i};
    coin(i, coins[i]);
    put(text, 4, coins[i], COIN);
    tagged('G', text, sizeof text, keys[i]);
    bring(keys[i], coins[i]);
  }
  size_t step = sessions && objects / sessions ? objects / sessions : 1;
  for (size_t i = 0; i < objects; i += step) {
    for (size_t round = 0; round < rounds; round++)
      if (!prepare(keys[i], coins[i])) fail("a vote that isn't commit");
    if (rounds) decide(keys[i], coins[i]);
  }
}

// ---- the members of a shard

enum kind { PROPOSE, ECHO, CONFIRM };
struct message {
  enum kind kind;
  uint64_t slot;
  byte digest[32];
  byte *entry;
};
struct letter {
  unsigned from, to;
  struct message message;
};
struct member {
  uint64_t slot;
  byte *entry, digest[32];
  unsigned echoed, confirmed;
  int has_confirmed;
  byte **log;
};
static struct letter *letters;
static size_t sent;
static unsigned members, quorum;

static byte *copied(const byte *entry) {
  byte *copy = memory(100);
  return memcpy(copy, entry, 100);
}

static void say(unsigned from, enum kind kind, uint64_t slot, const byte digest[32], const byte *entry) {
  for (unsigned to = 0; to < members; to++) {
    if (to == from) continue;
    struct letter *letter = &letters[sent++];
    *letter = (struct letter){from, to, {kind, slot, {0}, entry ? copied(entry) : NULL}};
    memcpy(letter->message.digest, digest, 32);
  }
}

static void turn(struct member *all, unsigned me) {
  struct member *m = &all[me];
  if (!m->has_confirmed && m->entry && (unsigned)__builtin_popcount(m->echoed) >= quorum) {
    m->has_confirmed = 1;
    m->confirmed |= 1u << me;
    say(me, CONFIRM, m->slot, m->digest, NULL);
  }
  if (m->entry && (unsigned)__builtin_popcount(m->confirmed) >= quorum) {
    m->log[m->slot++] = m->entry;
    m->entry = NULL;
    m->echoed = m->confirmed = m->has_confirmed = 0;
  }
}

static void take_entry(struct member *all, unsigned me, byte *entry) {
  all[me].entry = entry;
  memcpy(all[me].digest, entry, 32);
  all[me].echoed |= 1u << me;
  say(me, ECHO, all[me].slot, entry, NULL);
  turn(all, me);
}

static void deliver(struct member *all, struct letter letter) {
  struct member *m = &all[letter.to];
  struct message *got = &letter.message;
  if (got->slot != m->slot) {
    free(got->entry);
    return;
  }
  if (got->kind == PROPOSE) {
    m->echoed |= 1u << letter.from;
    take_entry(all, letter.to, got->entry);
    return;
  }
  if (m->entry && memcmp(m->digest, got->digest, 32) != 0) fail("another digest");
  if (got->kind == ECHO) m->echoed |= 1u << letter.from;
  if (got->kind == CONFIRM) m->confirmed |= 1u << letter.from;
  turn(all, letter.to);
}

static void run_slots(unsigned f, size_t count) {
  members = 3 * f + 1;
  quorum = 2 * f + 1;
  struct member *all = memory(members * sizeof *all);
  letters = memory(4 * members * members * sizeof *letters);
  for (unsigned i = 0; i < members; i++) all[i].log = memory((count + 1) * sizeof *all[i].log);
  for (size_t slot = 0; slot < count; slot++) {
    byte entry[100] = {slot >> 24, slot >> 16, slot >> 8, slot};
    unsigned leader = slot % members;
    sent = 0;
    say(leader, PROPOSE, slot, entry, entry);
    take_entry(all, leader, copied(entry));
    for (size_t next = 0; next < sent; next++) deliver(all, letters[next]);
  }
  for (unsigned i = 0; i < members; i++)
    if (all[i].slot != count) fail("not every entry was chosen");
}

// ---- a program that is run

static double seconds(struct timeval t) { return t.tv_sec + t.tv_usec / 1e6; }

static void run(char **words) {
  int status;
  struct rusage used;
  pid_t child = fork();
  if (child == 0) {
    execvp(words[0], words);
    _exit(127);
  }
  if (child < 0 || wait4(child, &status, 0, &used) != child || status != 0) fail("the program failed");
  printf("%.3f %ld\n", seconds(used.ru_utime) + seconds(used.ru_stime), used.ru_maxrss);
}

int main(int argc, char **argv) {
  if (argc == 5 && strcmp(argv[1], "table") == 0)
    run_table(strtoul(argv[2], NULL, 10), strtoul(argv[3], NULL, 10), strtoul(argv[4], NULL, 10));
  else if (argc == 4 && strcmp(argv[1], "slots") == 0)
    run_slots(strtoul(argv[2], NULL, 10), strtoul(argv[3], NULL, 10));
  else if (argc > 2 && strcmp(argv[1], "run") == 0)
    run(argv + 2);
  else
    fail("other words");
  return 0;
}
