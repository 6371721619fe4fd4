/* A state goes in, a hundred thousand of its balances change, one is proved and verified, and the
 * state goes out again: ./state SCHEMA STATE OUT. Each step says its processor time. */
#include <stdio.h>
#include <stdlib.h>
#include <string.h>
#include <time.h>
#include "ssz.h"

#define TEXT(text) (const uint8_t *)(text), strlen(text)
#define STATE TEXT("S")
#define BALANCES TEXT("/balances")
#define BALANCE TEXT("/balances/7")

static ssz_fault fault; /* says what is wrong, and where */

static void done(const char *what, uint32_t status) {
    static clock_t since;
    if (status) {
        fprintf(stderr, "%s: %s (code %u)\n", what, ssz_status_text(status), fault.code);
        exit(1);
    }
    printf("%-18s %6.0f ms\n", what, 1e3 * (double)(clock() - since) / CLOCKS_PER_SEC);
    since = clock();
}

static uint8_t *bytes_of(const char *name, size_t *len) {
    FILE *file = fopen(name, "rb");
    if (!file || fseek(file, 0, SEEK_END)) exit(4);
    *len = (size_t)ftell(file);
    uint8_t *bytes = malloc(*len + 1);
    rewind(file);
    if (!bytes || fread(bytes, 1, *len, file) != *len || fclose(file)) exit(4);
    return bytes;
}

int main(int count, char **words) {
    if (count != 4) return 2;
    size_t types_len, all;
    uint8_t *types = bytes_of(words[1], &types_len), *state = bytes_of(words[2], &all);
    uint8_t *list = malloc(all + 1), root[32], proof[64 * 32];
    uint64_t len;
    ssz_index index;
    ssz_session s = SSZ_SESSION_NONE;
    done("files read", list ? ssz_session_start(&s, types, types_len, &fault) : SSZ_NO_MEMORY);
    done("state in", ssz_session_load(&s, STATE, TEXT("BeaconState"), state, all, &fault));
    done("balances out", ssz_session_bytes(&s, STATE, BALANCES, list, all, &len, &fault));
    for (uint64_t k = 0; k < 100000 && 8 * k < len; k++) list[8 * k + 3] ^= 1; /* 2^24 Gwei */
    done("balances in", ssz_session_set(&s, STATE, BALANCES, list, len, &fault));
    done("root", ssz_session_root(&s, STATE, root, &fault));
    done("balance proved", ssz_session_prove(&s, STATE, BALANCE, proof, 2048, &len, &fault));
    done("its index", ssz_session_gindex(&s, TEXT("BeaconState"), BALANCE, &index, &fault));
    done("proof verified", ssz_verify_branch(root, proof, &index, proof + 32, len - 32));
    done("state out", ssz_session_bytes(&s, STATE, TEXT("/"), state, all, &len, &fault));
    FILE *file = fopen(words[3], "wb");
    if (!file || fwrite(state, 1, len, file) != len || fclose(file)) return 5;
    for (int k = 0; k < 32; k++) printf("%02x", root[k]);
    puts("");
    return ssz_session_end(&s) != SSZ_OK;
}
