// Crypto++'s SPECK-128 with a key of 128 bits beside the library's, 64 independent blocks, timed in turns.
#include "sealed_frames.h"

#include <cryptopp/modes.h>
#include <cryptopp/speck.h>

#include <algorithm>
#include <chrono>
#include <cstdio>
#include <vector>

template <class F> static double once(F call) {
    const int batch = 16;
    const auto start = std::chrono::steady_clock::now();
    for (int i = 0; i < batch; i++) {
        call();
    }
    const std::chrono::duration<double, std::nano> took = std::chrono::steady_clock::now() - start;
    return took.count() / batch;
}

int main() {
    const std::vector<uint8_t> key(16, 7);
    std::vector<uint8_t> ours(1024, 1), theirs(1024, 1);
    double least = 1e18, other = 1e18;
    for (int turn = 0; turn < 3000; turn++) {
        least = std::min(least, once([&] { sealed_frames_encrypt_blocks(SEALED_FRAMES_SPECK_128_128, key.data(), key.size(), ours.data(), ours.size()); }));
        other = std::min(other, once([&] {
                             CryptoPP::ECB_Mode<CryptoPP::SPECK128>::Encryption cipher(key.data(), key.size());
                             cipher.ProcessData(theirs.data(), theirs.data(), theirs.size());
                         }));
    }
    std::printf("| what | bytes | library, ns | Crypto++, ns | ratio | goal |\n|---|---|---|---|---|---|\n");
    std::printf("| Speck128/128, encrypt 64 blocks | 1024 | %.0f | %.0f | %.2f | - |\n", least, other, least / other);
}
