// The roots that bench/roots.sh compares with, over OpenSSL's SHA-256:
//   roots list FILE       List[uint64, 2^40], the file its encoding
//   roots containers FILE List[C, 2^20], C a container of eight uint64s
//   roots pairs COUNT     that many hashes of a pair, each of the one before
// Prints the root, or the last hash, as the program `ssz root` does.
#include <openssl/sha.h>
#include <stdio.h>
#include <stdlib.h>
#include <string.h>

typedef struct { unsigned char b[32]; } Chunk;

static Chunk zeros[64];

static Chunk pair(const Chunk *left, const Chunk *right) {
    unsigned char both[64];
    Chunk out;
    memcpy(both, left->b, 32);
    memcpy(both + 32, right->b, 32);
    // the low-level calls: SHA256() of OpenSSL 3 looks for its digest anew each time
    SHA256_CTX state;
    SHA256_Init(&state);
    SHA256_Update(&state, both, 64);
    SHA256_Final(out.b, &state);
    return out;
}

// merkleize with the limit 2^depth, in place, level by level
static Chunk merkleize(Chunk *chunks, size_t count, int depth) {
    if (count == 0) return zeros[depth];
    for (int level = 0; level < depth; level++) {
        for (size_t i = 0; i < count; i += 2)
            chunks[i / 2] = pair(&chunks[i], i + 1 < count ? &chunks[i + 1] : &zeros[level]);
        count = (count + 1) / 2;
    }
    return chunks[0];
}

static Chunk mix_in_length(Chunk root, unsigned long long length) {
    Chunk number;
    memset(&number, 0, 32);
    for (int i = 0; i < 8; i++) number.b[i] = length >> 8 * i;
    return pair(&root, &number);
}

static void print_root(const char *name, Chunk root) {
    printf("%s 0x", name);
    for (int i = 0; i < 32; i++) printf("%02x", root.b[i]);
    printf("\n");
}

int main(int argc, char **argv) {
    if (argc != 3) return 2;
    for (int d = 0; d + 1 < 64; d++) zeros[d + 1] = pair(&zeros[d], &zeros[d]);
    if (!strcmp(argv[1], "pairs")) {
        Chunk last = zeros[0];
        for (long long i = atoll(argv[2]); i > 0; i--) last = pair(&last, &zeros[1]);
        print_root("pairs", last);
        return 0;
    }
    FILE *file = fopen(argv[2], "rb");
    if (!file) return 4;
    fseek(file, 0, SEEK_END);
    size_t size = ftell(file), count = (size + 31) / 32;
    rewind(file);
    Chunk *chunks = calloc(count ? count : 1, 32);
    if (!chunks || fread(chunks, 1, size, file) != size) return 4;
    fclose(file);
    if (!strcmp(argv[1], "list")) {
        print_root("root", mix_in_length(merkleize(chunks, count, 38), size / 8));
    } else {
        size_t values = size / 64;
        for (size_t v = 0; v < values; v++) {
            // eight numbers of a chunk each
            Chunk parts[8];
            unsigned char *at = (unsigned char *)chunks + 64 * v;
            memset(parts, 0, sizeof parts);
            for (int i = 0; i < 8; i++) memcpy(parts[i].b, at + 8 * i, 8);
            Chunk root = merkleize(parts, 8, 3);
            chunks[v] = root;
        }
        print_root("root", mix_in_length(merkleize(chunks, values, 20), values));
    }
    return 0;
}
