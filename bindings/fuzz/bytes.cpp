// Bytes that are no map: those of a map cut at each place, with each bit turned, with a byte more, less or twice, and random
// ones. Each is refused, or it is what the map that it gives is written as: bytes SEED SECONDS
#include <algorithm>
#include <cstring>
#include <memory>
#include <vector>

#include "pam.h"
#include "random.hpp"

namespace {

using Bytes = std::vector<uint8_t>;
uint64_t refused = 0, accepted = 0;

Bytes written(const Run &run, pam_map &m)
{
    size_t needed;
    EXPECT(pam_map_bytes(&m, nullptr, 0, &needed) == PAM_NO_ROOM);
    Bytes bytes(needed);
    EXPECT(pam_map_bytes(&m, bytes.data(), bytes.size(), &needed) == PAM_OK && needed == bytes.size());
    return bytes;
}

// Reads from an allocation of just these bytes, so that a read beyond them is one beyond an allocation.
void read(const Run &run, const Bytes &bytes)
{
    std::unique_ptr<uint8_t[]> just(new uint8_t[bytes.size()]);
    if (!bytes.empty())
        memcpy(just.get(), bytes.data(), bytes.size());
    pam_map m = {};
    uint8_t status = pam_map_from_bytes(&m, just.get(), bytes.size());
    if (status == PAM_OK) {
        EXPECT(written(run, m) == bytes);
        accepted++;
    } else {
        EXPECT(status == PAM_NOT_A_MAP && m.at == nullptr && m.state == 0);
        refused++;
    }
    EXPECT(pam_map_free(&m) == PAM_OK);
}

Bytes of_some_map(Run &run)
{
    pam_map m = {};
    EXPECT(pam_map_new(&m) == PAM_OK);
    for (uint64_t n = run.below(2) ? run.below(6) : run.below(200); n > 0; n--)
        EXPECT(pam_map_put(&m, run.key(), run.number() >> run.below(64)) == PAM_OK);
    Bytes bytes = written(run, m);
    EXPECT(pam_map_free(&m) == PAM_OK);
    return bytes;
}

void turned(Run &run, const Bytes &bytes)
{
    read(run, bytes);
    for (size_t at = 0; at < bytes.size() && run.goes_on(); at++) {
        read(run, Bytes(bytes.begin(), bytes.begin() + at));
        for (int bit = 0; bit < 8; bit++) {
            Bytes other = bytes;
            other[at] ^= 1 << bit;
            read(run, other);
        }
    }
}

// Writes the checksum that the format wants at the end, Adler-32, so that what is before it is looked at.
void sign(Bytes &bytes)
{
    if (bytes.size() < 4)
        return;
    uint32_t low = 1, high = 0;
    for (size_t i = 0; i + 4 < bytes.size(); i++) {
        low = (low + bytes[i]) % 65521;
        high = (high + low) % 65521;
    }
    for (int i = 0; i < 4; i++)
        bytes[bytes.size() - 4 + i] = (high << 16 | low) >> (24 - 8 * i);
}

void mixed(Run &run, Bytes bytes)
{
    for (uint64_t n = 1 + run.below(4); n > 0; n--) {
        size_t at = run.below(bytes.size() + 1);
        uint64_t byte = run.below(3) ? run.number() : (run.below(2) ? 255 : 128);
        switch (run.below(4)) {
        case 0: bytes.insert(bytes.begin() + at, byte); break;
        case 1: bytes.resize(at); break;
        case 2:
            if (at < bytes.size())
                bytes.erase(bytes.begin() + at);
            break;
        default:
            if (at < bytes.size())
                bytes[at] = byte;
        }
    }
    if (run.below(4))
        sign(bytes);
    read(run, bytes);
}

} // namespace

int main(int count, char **words)
{
    Run run(count, words);
    for (; run.goes_on(); run.steps++) {
        Bytes bytes = of_some_map(run);
        if (run.steps % 8 == 0)
            turned(run, bytes);
        for (int i = 0; i < 100 && run.goes_on(); i++)
            mixed(run, bytes);
        Bytes any(run.below(64));
        for (auto &byte : any)
            byte = run.number();
        read(run, any);
    }
    printf("bytes: %" PRIu64 " refused, %" PRIu64 " read and written again, seed %" PRIu64 "\n", refused, accepted, run.seed);
}
