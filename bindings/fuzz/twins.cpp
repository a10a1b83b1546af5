// Random calls of pam.h, each also done to std::map, std::vector or std::set, and compared: twins SEED SECONDS
#include <algorithm>
#include <map>
#include <set>
#include <string>
#include <utility>
#include <vector>

#include "pam.h"
#include "random.hpp"

namespace {

using Numbers = std::vector<uint64_t>;
using Interval = std::pair<uint64_t, uint64_t>;
constexpr int SLOTS = 4;

uint64_t plus(uint64_t a, uint64_t b) { return a + b < a ? UINT64_MAX : a + b; }

struct Folded {
    uint64_t sum = 0, greatest = 0;
    void add(uint64_t val)
    {
        sum = plus(sum, val);
        greatest = std::max(greatest, val);
    }
    bool operator==(const Folded &b) const { return sum == b.sum && greatest == b.greatest; }
};

Numbers numbers(Run &run, uint64_t most)
{
    Numbers found(run.below(most + 1));
    for (auto &number : found)
        number = run.key();
    if (run.below(3) == 0)
        std::sort(found.begin(), found.end());
    return found;
}

// Maps

struct Maps {
    using Twin = std::map<uint64_t, uint64_t>;
    Run &run;
    pam_map maps[SLOTS] = {};
    Twin twins[SLOTS];

    explicit Maps(Run &r) : run(r)
    {
        for (auto &m : maps)
            EXPECT(pam_map_new(&m) == PAM_OK);
    }

    ~Maps()
    {
        for (auto &m : maps) {
            EXPECT(pam_map_free(&m) == PAM_OK);
            EXPECT(pam_map_free(&m) == PAM_OK);
        }
    }

    static Twin listed(const Numbers &keys, const Numbers &vals)
    {
        Twin twin;
        for (size_t i = 0; i < keys.size(); i++)
            twin[keys[i]] = vals[i];
        return twin;
    }

    void same(pam_map &m, const Twin &twin)
    {
        uint64_t len;
        size_t count, room = twin.size() + run.below(3);
        EXPECT(pam_map_len(&m, &len) == PAM_OK && len == twin.size());
        Numbers keys(room), vals(room);
        EXPECT(pam_map_fill(&m, 0, keys.data(), room, vals.data(), room, &count) == PAM_OK && count == len);
        size_t i = 0;
        for (auto &[key, val] : twin) {
            EXPECT(keys[i] == key && vals[i] == val);
            i++;
        }
    }

    void replace(int at, pam_map &out, Twin twin)
    {
        EXPECT(pam_map_free(&maps[at]) == PAM_OK);
        maps[at] = out;
        twins[at] = std::move(twin);
        same(maps[at], twins[at]);
    }

    // By reference, since the call that makes the status writes the key and the value.
    void entry(const uint8_t &status, const uint64_t &key, const uint64_t &val, const Twin &twin, Twin::const_iterator wanted)
    {
        if (wanted == twin.end())
            EXPECT(status == PAM_NOT_THERE);
        else
            EXPECT(status == PAM_OK && key == wanted->first && val == wanted->second);
    }

    static Twin part(const Twin &twin, uint64_t lo, uint64_t hi)
    {
        return lo > hi ? Twin() : Twin(twin.lower_bound(lo), twin.upper_bound(hi));
    }

    static uint64_t lowest(const Twin &twin)
    {
        return std::min_element(twin.begin(), twin.end(), [](auto &a, auto &b) { return a.second < b.second; })->second;
    }

    static uint64_t resolved(int how, uint64_t a, uint64_t b)
    {
        return how == PAM_FIRST ? a : how == PAM_SECOND ? b : how == PAM_SUM ? plus(a, b) : std::max(a, b);
    }

    void single(pam_map &m, Twin &twin)
    {
        uint64_t key = run.key(), val = run.number() >> run.below(64), found = 0;
        auto at = twin.find(key);
        switch (run.below(3)) {
        case 0:
            EXPECT(pam_map_put(&m, key, val) == PAM_OK);
            twin[key] = val;
            break;
        case 1: EXPECT(pam_map_del(&m, key) == (twin.erase(key) ? PAM_OK : PAM_NOT_THERE)); break;
        default:
            EXPECT(pam_map_get(&m, key, &found) == (at == twin.end() ? PAM_NOT_THERE : PAM_OK));
            EXPECT(at == twin.end() || found == at->second);
        }
    }

    void asked(pam_map &m, const Twin &twin)
    {
        uint64_t key = run.key(), found = 0, val = 0, rank;
        auto below = twin.lower_bound(key), above = twin.upper_bound(key);
        EXPECT(pam_map_rank(&m, key, &rank) == PAM_OK && rank == (uint64_t)std::distance(twin.begin(), below));
        entry(pam_map_next(&m, key, &found, &val), found, val, twin, above);
        entry(pam_map_prev(&m, key, &found, &val), found, val, twin, below == twin.begin() ? twin.end() : std::prev(below));
        entry(pam_map_first(&m, &found, &val), found, val, twin, twin.begin());
        entry(pam_map_last(&m, &found, &val), found, val, twin, twin.empty() ? twin.end() : std::prev(twin.end()));
        uint64_t place = run.below(twin.size() + 2);
        entry(pam_map_select(&m, place, &found, &val), found, val, twin, place < twin.size() ? std::next(twin.begin(), place) : twin.end());
        EXPECT(pam_map_select(&m, UINT64_MAX, &found, &val) == PAM_NOT_THERE);
    }

    void folded(pam_map &m, const Twin &twin)
    {
        uint64_t lo = run.key(), hi = run.key();
        Folded all, some, wanted;
        EXPECT(pam_map_fold(&m, &all.sum, &all.greatest) == PAM_OK);
        for (auto &[_, val] : twin)
            wanted.add(val);
        EXPECT(all == wanted);
        EXPECT(pam_map_fold_range(&m, lo, hi, &some.sum, &some.greatest) == PAM_OK);
        wanted = Folded();
        const Twin within = part(twin, lo, hi);
        for (auto &[_, val] : within)
            wanted.add(val);
        EXPECT(some == wanted);
        uint64_t count, least = 5;
        EXPECT(pam_map_count(&m, lo, hi, &count) == PAM_OK && count == within.size());
        EXPECT(pam_map_least_range(&m, lo, hi, &least) == (count ? PAM_OK : PAM_NOT_THERE) && least == (count ? lowest(within) : 5));
        EXPECT(pam_map_least(&m, &least) == (twin.empty() ? PAM_NOT_THERE : PAM_OK) && (twin.empty() || least == lowest(twin)));
    }

    // Two numbers and their keys, which are in the same order.
    void signed_keys()
    {
        int64_t a = (int64_t)run.number() >> run.below(64), b = (int64_t)run.number() >> run.below(64);
        uint64_t key = run.key();
        EXPECT((a < b) == (pam_key_of_signed(a) < pam_key_of_signed(b)));
        EXPECT(pam_signed_of_key(pam_key_of_signed(a)) == a && pam_key_of_signed(pam_signed_of_key(key)) == key);
    }

    void filled(pam_map &m, const Twin &twin)
    {
        uint64_t from = run.key();
        size_t room = run.below(200), count;
        Numbers keys(room), vals(room);
        EXPECT(pam_map_fill(&m, from, keys.data(), room, vals.data(), room, &count) == PAM_OK && count <= room);
        auto at = twin.lower_bound(from);
        for (uint64_t i = 0; i < count; i++, ++at)
            EXPECT(at != twin.end() && keys[i] == at->first && vals[i] == at->second);
        EXPECT(count == room || at == twin.end());
    }

    void many(pam_map &m, Twin &twin)
    {
        Numbers keys = numbers(run, 300), vals(keys.size()), found(keys.size(), 7);
        std::vector<uint8_t> present(keys.size(), 7);
        for (auto &val : vals)
            val = run.number() >> run.below(64);
        switch (run.below(3)) {
        case 0:
            EXPECT(pam_map_put_many(&m, keys.data(), keys.size(), vals.data(), vals.size()) == PAM_OK);
            for (size_t i = 0; i < keys.size(); i++)
                twin[keys[i]] = vals[i];
            break;
        case 1:
            EXPECT(pam_map_del_many(&m, keys.data(), keys.size()) == PAM_OK);
            for (auto key : keys)
                twin.erase(key);
            break;
        default:
            EXPECT(pam_map_get_many(&m, keys.data(), keys.size(), found.data(), found.size(), present.data(), present.size()) == PAM_OK);
            for (size_t i = 0; i < keys.size(); i++) {
                auto at = twin.find(keys[i]);
                EXPECT(present[i] == (at != twin.end()) && found[i] == (present[i] ? at->second : 0));
            }
        }
        same(m, twin);
    }

    void built(int at)
    {
        Numbers keys = numbers(run, 1000), vals = keys;
        for (auto &val : vals)
            val = run.number() >> run.below(64);
        pam_map out = {};
        EXPECT(pam_map_build(&out, keys.data(), keys.size(), vals.data(), vals.size()) == PAM_OK);
        replace(at, out, listed(keys, vals));
    }

    void joined(int a, int b, int at)
    {
        int how = run.below(4);
        Twin twin;
        pam_map out = {};
        switch (run.below(3)) {
        case 0:
            EXPECT(pam_map_union(&maps[a], &maps[b], how, &out) == PAM_OK);
            twin = twins[a];
            for (auto &[key, val] : twins[b])
                twin[key] = twins[a].count(key) ? resolved(how, twins[a][key], val) : val;
            break;
        case 1:
            EXPECT(pam_map_intersection(&maps[a], &maps[b], how, &out) == PAM_OK);
            for (auto &[key, val] : twins[b])
                if (twins[a].count(key))
                    twin[key] = resolved(how, twins[a][key], val);
            break;
        default:
            EXPECT(pam_map_difference(&maps[a], &maps[b], &out) == PAM_OK);
            for (auto &[key, val] : twins[a])
                if (!twins[b].count(key))
                    twin[key] = val;
        }
        replace(at, out, twin);
    }

    void parted(int from, int at)
    {
        uint64_t key = run.key(), hi = run.key();
        pam_map below = {}, rest = {};
        const Twin twin = twins[from];
        if (run.below(2)) {
            EXPECT(pam_map_range(&maps[from], key, hi, &rest) == PAM_OK);
            replace(at, rest, part(twin, key, hi));
            return;
        }
        EXPECT(pam_map_split(&maps[from], key, &below, &rest) == PAM_OK);
        same(below, Twin(twin.begin(), twin.lower_bound(key)));
        EXPECT(pam_map_free(&below) == PAM_OK && below.at == nullptr);
        replace(at, rest, Twin(twin.lower_bound(key), twin.end()));
    }

    void shared(int from, int at)
    {
        pam_map out = {};
        if (run.below(2)) {
            EXPECT(pam_map_share(&maps[from], &out) == PAM_OK);
        } else {
            size_t needed, room;
            EXPECT(pam_map_bytes(&maps[from], nullptr, 0, &needed) == PAM_NO_ROOM);
            std::vector<uint8_t> bytes(needed);
            EXPECT(pam_map_bytes(&maps[from], bytes.data(), needed - 1, &room) == PAM_NO_ROOM && room == needed);
            EXPECT(pam_map_bytes(&maps[from], bytes.data(), bytes.size(), &room) == PAM_OK && room == needed);
            EXPECT(pam_map_from_bytes(&out, bytes.data(), bytes.size()) == PAM_OK);
        }
        replace(at, out, twins[from]);
    }

    // Calls that are refused, and change nothing.
    void refused(pam_map &m, const Twin &twin)
    {
        pam_map closed = {};
        uint64_t two[2] = {1, 2}, x = 5;
        size_t count = 6;
        uint8_t marks[2] = {8, 8};
        EXPECT(pam_map_put(&closed, 1, 1) == PAM_BAD_CALL && pam_map_get(&closed, 1, &x) == PAM_BAD_CALL);
        EXPECT(pam_map_new(&m) == PAM_BAD_CALL && pam_map_share(&closed, &closed) == PAM_BAD_CALL);
        EXPECT(pam_map_share(&m, &m) == PAM_BAD_CALL && pam_map_union(&m, &closed, PAM_SUM, &closed) == PAM_BAD_CALL);
        EXPECT(pam_map_union(&m, &m, 4, &closed) == PAM_BAD_CALL && pam_map_intersection(&m, &m, 255, &closed) == PAM_BAD_CALL);
        EXPECT(pam_map_build(&closed, two, 1, two + 1, 0) == PAM_BAD_CALL && pam_map_build(&m, two, 1, two + 1, 1) == PAM_BAD_CALL);
        EXPECT(pam_map_put_many(&m, two, 0, two, 2) == PAM_BAD_CALL && pam_map_fill(&m, 0, two, 1, two + 1, 0, &count) == PAM_BAD_CALL);
        EXPECT(pam_map_get_many(&m, two, 1, two + 1, 1, marks, 2) == PAM_BAD_CALL && marks[0] == 8);
        EXPECT(pam_map_put(nullptr, 1, 1) == PAM_BAD_CALL && pam_map_free(nullptr) == PAM_BAD_CALL && pam_map_len(&m, nullptr) == PAM_BAD_CALL);
        EXPECT(pam_map_get(&m, 1, nullptr) == PAM_BAD_CALL && pam_map_fold(&m, &x, nullptr) == PAM_BAD_CALL);
        EXPECT(pam_map_put_many(&m, nullptr, 1, two, 1) == PAM_BAD_CALL && pam_map_put_many(&m, nullptr, 0, nullptr, 0) == PAM_OK);
        EXPECT(pam_map_from_bytes(&m, marks, 2) == PAM_BAD_CALL && pam_map_from_bytes(&closed, nullptr, 5) == PAM_BAD_CALL);
        EXPECT(pam_map_from_bytes(&closed, nullptr, 0) == PAM_NOT_A_MAP);
        EXPECT(x == 5 && count == 6 && two[0] == 1 && two[1] == 2 && closed.at == nullptr && closed.state == 0);
        same(m, twin);
    }

    void step()
    {
        int a = run.below(SLOTS), b = run.below(SLOTS), c = run.below(SLOTS);
        switch (run.below(40)) {
        case 0: built(a); break;
        case 1: joined(a, b, c); break;
        case 2: parted(a, b); break;
        case 3: shared(a, b); break;
        case 4: many(maps[a], twins[a]); break;
        case 5: refused(maps[a], twins[a]); break;
        case 6: filled(maps[a], twins[a]); break;
        case 7: folded(maps[a], twins[a]); break;
        case 8: asked(maps[a], twins[a]); break;
        case 9: signed_keys(); break;
        default: single(maps[a], twins[a]);
        }
    }
};

// Maps from byte strings

struct Texts {
    using Twin = std::map<std::string, uint64_t>;
    Run &run;
    pam_text_map maps[2] = {};
    Twin twins[2];

    explicit Texts(Run &r) : run(r)
    {
        for (auto &m : maps)
            EXPECT(pam_text_map_new(&m) == PAM_OK);
    }

    ~Texts()
    {
        for (auto &m : maps) {
            EXPECT(pam_text_map_free(&m) == PAM_OK);
            EXPECT(pam_text_map_free(&m) == PAM_OK);
        }
    }

    static const uint8_t *bytes(const std::string &key) { return reinterpret_cast<const uint8_t *>(key.data()); }

    // Few letters, so that keys meet; now and then the key of no bytes, and a long one.
    std::string word()
    {
        std::string key(run.below(run.below(24) == 0 ? 200 : 6), 'a');
        for (auto &letter : key)
            letter = "ab\0\xff"[run.below(4)];
        return key;
    }

    // Goes through the map in parts that need not have room for more than one entry.
    void same(pam_text_map &m, const Twin &twin)
    {
        uint64_t len;
        EXPECT(pam_text_map_len(&m, &len) == PAM_OK && len == twin.size());
        size_t count = 0, room = run.below(100), places = 1 + run.below(40);
        Numbers vals(places);
        std::vector<size_t> ends(places);
        std::string from;
        for (auto at = twin.begin();;) {
            std::vector<uint8_t> keys(room);
            uint8_t status = pam_text_map_fill(&m, bytes(from), from.size(), keys.data(), room, ends.data(), places, vals.data(), places, &count);
            if (status == PAM_NO_ROOM) {
                EXPECT(at != twin.end() && at->first.size() == count && count > room);
                room = count;
                continue;
            }
            EXPECT(status == PAM_OK);
            if (count == 0) {
                EXPECT(at == twin.end());
                return;
            }
            for (size_t i = 0, start = 0; i < count; start = ends[i++], ++at) {
                from.assign(keys.begin() + start, keys.begin() + ends[i]);
                EXPECT(at != twin.end() && at->first == from && at->second == vals[i]);
            }
            from.push_back('\0');
        }
    }

    void replace(int at, pam_text_map &out, Twin twin)
    {
        EXPECT(pam_text_map_free(&maps[at]) == PAM_OK);
        maps[at] = out;
        twins[at] = std::move(twin);
        same(maps[at], twins[at]);
    }

    // What a call answers that writes an entry into an array, at the first room that it takes.
    template <class Call> void entry(Call call, const Twin &twin, Twin::const_iterator wanted)
    {
        std::vector<uint8_t> key(run.below(8));
        size_t len = 999;
        uint64_t val = 999;
        uint8_t status = call(key.data(), key.size(), &len, &val);
        if (wanted == twin.end()) {
            EXPECT(status == PAM_NOT_THERE && len == 999 && val == 999);
            return;
        }
        EXPECT(len == wanted->first.size());
        if (status == PAM_NO_ROOM) {
            EXPECT(len > key.size() && val == 999);
            key.resize(len);
            status = call(key.data(), key.size(), &len, &val);
        }
        EXPECT(status == PAM_OK && val == wanted->second && std::string(key.begin(), key.begin() + len) == wanted->first);
    }

    void asked(pam_text_map &m, const Twin &twin)
    {
        std::string key = word();
        uint64_t found, at = run.below(twin.size() + 2);
        auto from = twin.lower_bound(key);
        EXPECT(pam_text_map_rank(&m, bytes(key), key.size(), &found) == PAM_OK && found == uint64_t(std::distance(twin.begin(), from)));
        entry([&](auto... out) { return pam_text_map_next(&m, bytes(key), key.size(), out...); }, twin, twin.upper_bound(key));
        entry([&](auto... out) { return pam_text_map_prev(&m, bytes(key), key.size(), out...); }, twin, from == twin.begin() ? twin.end() : std::prev(from));
        entry([&](auto... out) { return pam_text_map_select(&m, at, out...); }, twin, at < twin.size() ? std::next(twin.begin(), at) : twin.end());
        entry([&](auto... out) { return pam_text_map_first(&m, out...); }, twin, twin.begin());
        entry([&](auto... out) { return pam_text_map_last(&m, out...); }, twin, twin.empty() ? twin.end() : std::prev(twin.end()));
    }

    void parts(pam_text_map &m, const Twin &twin)
    {
        std::string lo = word(), hi = word();
        pam_text_map below = {}, above = {}, inside = {};
        Twin part = lo > hi ? Twin() : Twin(twin.lower_bound(lo), twin.upper_bound(hi));
        Folded all, wanted, found;
        for (auto &e : twin)
            all.add(e.second);
        for (auto &e : part)
            wanted.add(e.second);
        EXPECT(pam_text_map_fold(&m, &found.sum, &found.greatest) == PAM_OK && found == all);
        EXPECT(pam_text_map_fold_range(&m, bytes(lo), lo.size(), bytes(hi), hi.size(), &found.sum, &found.greatest) == PAM_OK && found == wanted);
        EXPECT(pam_text_map_range(&m, bytes(lo), lo.size(), bytes(hi), hi.size(), &inside) == PAM_OK);
        same(inside, part);
        EXPECT(pam_text_map_split(&m, bytes(lo), lo.size(), &below, &above) == PAM_OK);
        same(below, Twin(twin.begin(), twin.lower_bound(lo)));
        same(above, Twin(twin.lower_bound(lo), twin.end()));
        EXPECT(pam_text_map_free(&below) == PAM_OK && pam_text_map_free(&above) == PAM_OK && pam_text_map_free(&inside) == PAM_OK);
    }

    void many(pam_text_map &m, Twin &twin)
    {
        std::string row;
        std::vector<size_t> ends;
        Numbers vals;
        for (uint64_t n = run.below(150); n > 0; n--) {
            std::string key = word();
            row += key;
            ends.push_back(row.size());
            vals.push_back(run.number() >> run.below(64));
            twin[key] = vals.back();
        }
        EXPECT(pam_text_map_put_many(&m, bytes(row), row.size(), ends.data(), ends.size(), vals.data(), vals.size()) == PAM_OK);
        if (!row.empty()) {
            EXPECT(pam_text_map_put_many(&m, bytes(row), row.size() - 1, ends.data(), ends.size(), vals.data(), vals.size()) == PAM_BAD_CALL);
            ends.push_back(0);
            vals.push_back(0);
            EXPECT(pam_text_map_put_many(&m, bytes(row), row.size(), ends.data(), ends.size(), vals.data(), vals.size()) == PAM_BAD_CALL);
        }
        same(m, twin);
    }

    void joined(int a, int b, int at)
    {
        int how = run.below(4);
        pam_text_map out = {};
        Twin twin;
        const Twin &x = twins[a], &y = twins[b];
        auto both = [&](const Twin::value_type &e) { return y.count(e.first) ? Maps::resolved(how, e.second, y.at(e.first)) : e.second; };
        switch (run.below(3)) {
        case 0:
            twin = y;
            for (auto &e : x)
                twin[e.first] = both(e);
            EXPECT(pam_text_map_union(&maps[a], &maps[b], how, &out) == PAM_OK);
            break;
        case 1:
            for (auto &e : x)
                if (y.count(e.first))
                    twin[e.first] = both(e);
            EXPECT(pam_text_map_intersection(&maps[a], &maps[b], how, &out) == PAM_OK);
            break;
        default:
            for (auto &e : x)
                if (!y.count(e.first))
                    twin.insert(e);
            EXPECT(pam_text_map_difference(&maps[a], &maps[b], &out) == PAM_OK);
        }
        replace(at, out, std::move(twin));
    }

    void single(pam_text_map &m, Twin &twin)
    {
        std::string key = word();
        uint64_t val = run.number() >> run.below(64), found = 0;
        auto at = twin.find(key);
        switch (run.below(3)) {
        case 0:
            EXPECT(pam_text_map_put(&m, bytes(key), key.size(), val) == PAM_OK);
            twin[key] = val;
            break;
        case 1: EXPECT(pam_text_map_del(&m, bytes(key), key.size()) == (twin.erase(key) ? PAM_OK : PAM_NOT_THERE)); break;
        default:
            EXPECT(pam_text_map_contains(&m, bytes(key), key.size()) == (at == twin.end() ? PAM_NOT_THERE : PAM_OK));
            EXPECT(pam_text_map_get(&m, bytes(key), key.size(), &found) == (at == twin.end() ? PAM_NOT_THERE : PAM_OK));
            EXPECT(found == (at == twin.end() ? 0 : at->second));
        }
    }

    void step()
    {
        int a = run.below(2), b = run.below(2);
        switch (run.below(40)) {
        case 0: joined(a, b, run.below(2)); break;
        case 1: many(maps[a], twins[a]); break;
        case 2: parts(maps[a], twins[a]); break;
        case 3: {
            pam_text_map out = {};
            EXPECT(pam_text_map_share(&maps[a], &out) == PAM_OK && pam_text_map_share(&maps[a], &out) == PAM_BAD_CALL);
            replace(b, out, twins[a]);
            break;
        }
        case 4:
        case 5:
        case 6: asked(maps[a], twins[a]); break;
        default: single(maps[a], twins[a]);
        }
    }
};

// Sequences

struct Seqs {
    Run &run;
    pam_seq seqs[SLOTS] = {};
    Numbers twins[SLOTS];

    explicit Seqs(Run &r) : run(r)
    {
        for (auto &s : seqs)
            EXPECT(pam_seq_new(&s) == PAM_OK);
    }

    ~Seqs()
    {
        for (auto &s : seqs)
            EXPECT(pam_seq_free(&s) == PAM_OK && pam_seq_free(&s) == PAM_OK);
    }

    void same(pam_seq &s, const Numbers &twin, uint64_t from = 0)
    {
        uint64_t len;
        size_t count, room = run.below(2) ? twin.size() + 1 : run.below(100);
        EXPECT(pam_seq_len(&s, &len) == PAM_OK && len == twin.size());
        Numbers items(room);
        EXPECT(pam_seq_fill(&s, from, items.data(), room, &count) == PAM_OK);
        uint64_t left = from < len ? len - from : 0;
        EXPECT(count == std::min<uint64_t>(room, left) && (count == 0 || std::equal(items.begin(), items.begin() + count, twin.begin() + from)));
    }

    void replace(int at, pam_seq &out, Numbers twin)
    {
        // Lengths double by being appended, and are cut again.
        if (twin.size() > 20000) {
            EXPECT(pam_seq_free(&out) == PAM_OK && pam_seq_new(&out) == PAM_OK);
            twin.clear();
        }
        EXPECT(pam_seq_free(&seqs[at]) == PAM_OK);
        seqs[at] = out;
        twins[at] = std::move(twin);
        same(seqs[at], twins[at]);
    }

    void single(pam_seq &s, Numbers &twin)
    {
        uint64_t place = run.below(twin.size() + 2), item = run.key(), found = 0;
        bool there = place < twin.size();
        switch (run.below(3)) {
        case 0:
            EXPECT(pam_seq_push(&s, item) == PAM_OK);
            twin.push_back(item);
            break;
        case 1:
            EXPECT(pam_seq_set(&s, place, item) == (there ? PAM_OK : PAM_NOT_THERE));
            if (there)
                twin[place] = item;
            break;
        default:
            EXPECT(pam_seq_get(&s, place, &found) == (there ? PAM_OK : PAM_NOT_THERE) && (!there || found == twin[place]));
            EXPECT(pam_seq_get(&s, UINT64_MAX, &found) == PAM_NOT_THERE);
        }
    }

    void folded(pam_seq &s, const Numbers &twin)
    {
        uint64_t from = run.below(4) ? run.below(twin.size() + 2) : run.number(), count = run.below(4) ? run.below(twin.size() + 2) : run.number();
        Folded all, some, wanted, wanted_some;
        for (uint64_t i = 0; i < twin.size(); i++) {
            wanted.add(twin[i]);
            if (i >= from && i - from < count)
                wanted_some.add(twin[i]);
        }
        EXPECT(pam_seq_fold(&s, &all.sum, &all.greatest) == PAM_OK && all == wanted);
        EXPECT(pam_seq_fold_range(&s, from, count, &some.sum, &some.greatest) == PAM_OK && some == wanted_some);
        same(s, twin, from);
    }

    void parted(int from, int at)
    {
        pam_seq out = {};
        const Numbers twin = twins[from];
        uint64_t count = run.below(8) ? run.below(twin.size() + 2) : run.number(), kept = std::min<uint64_t>(count, twin.size());
        switch (run.below(4)) {
        case 0:
            EXPECT(pam_seq_take(&seqs[from], count, &out) == PAM_OK);
            return replace(at, out, Numbers(twin.begin(), twin.begin() + kept));
        case 1:
            EXPECT(pam_seq_skip(&seqs[from], count, &out) == PAM_OK);
            return replace(at, out, Numbers(twin.begin() + kept, twin.end()));
        case 2:
            EXPECT(pam_seq_reverse(&seqs[from], &out) == PAM_OK);
            return replace(at, out, Numbers(twin.rbegin(), twin.rend()));
        default:
            EXPECT(pam_seq_share(&seqs[from], &out) == PAM_OK);
            return replace(at, out, twin);
        }
    }

    void appended(int a, int b, int at)
    {
        pam_seq out = {};
        Numbers twin = twins[a];
        twin.insert(twin.end(), twins[b].begin(), twins[b].end());
        EXPECT(pam_seq_append(&seqs[a], &seqs[b], &out) == PAM_OK);
        replace(at, out, twin);
    }

    void many(int at)
    {
        Numbers items = numbers(run, 500);
        if (run.below(2)) {
            pam_seq out = {};
            EXPECT(pam_seq_build(&out, items.data(), items.size()) == PAM_OK);
            return replace(at, out, items);
        }
        EXPECT(pam_seq_push_many(&seqs[at], items.data(), items.size()) == PAM_OK);
        twins[at].insert(twins[at].end(), items.begin(), items.end());
        same(seqs[at], twins[at]);
    }

    void refused(pam_seq &s, const Numbers &twin)
    {
        pam_seq closed = {};
        uint64_t x = 5;
        EXPECT(pam_seq_push(&closed, 1) == PAM_BAD_CALL && pam_seq_new(&s) == PAM_BAD_CALL && pam_seq_build(&s, &x, 1) == PAM_BAD_CALL);
        EXPECT(pam_seq_append(&s, &closed, &closed) == PAM_BAD_CALL && pam_seq_take(&s, 1, &s) == PAM_BAD_CALL);
        EXPECT(pam_seq_push(nullptr, 1) == PAM_BAD_CALL && pam_seq_get(&s, 0, nullptr) == PAM_BAD_CALL);
        EXPECT(pam_seq_push_many(&s, nullptr, 1) == PAM_BAD_CALL && pam_seq_push_many(&s, nullptr, 0) == PAM_OK);
        EXPECT(x == 5 && closed.at == nullptr && closed.state == 0);
        same(s, twin);
    }

    void step()
    {
        int a = run.below(SLOTS), b = run.below(SLOTS), c = run.below(SLOTS);
        switch (run.below(30)) {
        case 0: many(a); break;
        case 1: parted(a, b); break;
        case 2: appended(a, b, c); break;
        case 3: folded(seqs[a], twins[a]); break;
        case 4: refused(seqs[a], twins[a]); break;
        default: single(seqs[a], twins[a]);
        }
    }
};

// Intervals

struct Sets {
    using Twin = std::set<Interval>;
    Run &run;
    pam_intervals set = {};
    Twin twin;

    explicit Sets(Run &r) : run(r) { EXPECT(pam_intervals_new(&set) == PAM_OK); }
    ~Sets() { EXPECT(pam_intervals_free(&set) == PAM_OK && pam_intervals_free(&set) == PAM_OK); }

    Interval interval()
    {
        uint64_t left = run.key(), right = run.below(3) ? plus(left, run.below(40)) : run.key();
        return std::minmax(left, right);
    }

    void listed(uint8_t status, uint64_t count, const Numbers &lefts, const Numbers &rights, uint64_t lo, uint64_t hi)
    {
        std::vector<Interval> wanted;
        for (auto &e : twin)
            if (e.first <= hi && lo <= e.second)
                wanted.push_back(e);
        EXPECT(count == wanted.size() && status == (count <= lefts.size() ? PAM_OK : PAM_NO_ROOM));
        for (uint64_t i = 0; status == PAM_OK && i < count; i++)
            EXPECT(wanted[i] == Interval(lefts[i], rights[i]));
    }

    void asked()
    {
        auto [lo, hi] = interval();
        size_t room = run.below(3) ? twin.size() : run.below(5), count;
        Numbers lefts(room), rights(room);
        uint8_t status = pam_intervals_stab(&set, lo, lefts.data(), room, rights.data(), room, &count);
        listed(status, count, lefts, rights, lo, lo);
        bool any = std::any_of(twin.begin(), twin.end(), [lo = lo](auto &e) { return e.first <= lo && lo <= e.second; });
        EXPECT(pam_intervals_any(&set, lo) == (any ? PAM_OK : PAM_NOT_THERE));
        status = pam_intervals_overlapping(&set, lo, hi, lefts.data(), room, rights.data(), room, &count);
        listed(status, count, lefts, rights, lo, hi);
    }

    void filled()
    {
        Interval from = {run.key(), run.key()};
        uint64_t len;
        size_t room = run.below(100), count;
        Numbers lefts(room), rights(room);
        EXPECT(pam_intervals_fill(&set, from.first, from.second, lefts.data(), room, rights.data(), room, &count) == PAM_OK);
        auto at = twin.lower_bound(from);
        for (uint64_t i = 0; i < count; i++, ++at)
            EXPECT(at != twin.end() && *at == Interval(lefts[i], rights[i]));
        EXPECT(count == room || at == twin.end());
        EXPECT(pam_intervals_len(&set, &len) == PAM_OK && len == twin.size());
    }

    void built()
    {
        Numbers lefts, rights;
        twin.clear();
        for (uint64_t n = run.below(150); n > 0; n--) {
            Interval e = interval();
            twin.insert(e);
            lefts.push_back(e.first);
            rights.push_back(e.second);
        }
        pam_intervals out = {};
        EXPECT(pam_intervals_build(&out, lefts.data(), lefts.size(), rights.data(), rights.size()) == PAM_OK);
        EXPECT(pam_intervals_free(&set) == PAM_OK && pam_intervals_share(&out, &set) == PAM_OK && pam_intervals_free(&out) == PAM_OK);
    }

    void refused()
    {
        pam_intervals closed = {};
        uint64_t two[2] = {2, 1};
        size_t count = 9;
        EXPECT(pam_intervals_add(&set, 5, 4) == PAM_BAD_CALL && pam_intervals_add(&closed, 1, 2) == PAM_BAD_CALL);
        EXPECT(pam_intervals_build(&closed, two, 1, two + 1, 0) == PAM_BAD_CALL && pam_intervals_build(&closed, two, 1, two + 1, 1) == PAM_BAD_CALL);
        EXPECT(pam_intervals_overlapping(&set, 5, 4, two, 1, two + 1, 1, &count) == PAM_BAD_CALL);
        EXPECT(pam_intervals_add(nullptr, 1, 2) == PAM_BAD_CALL && pam_intervals_stab(&set, 1, two, 1, two + 1, 0, &count) == PAM_BAD_CALL);
        EXPECT(closed.at == nullptr && closed.state == 0);
        filled();
    }

    void step()
    {
        Interval e = run.below(2) && !twin.empty() ? *std::next(twin.begin(), run.below(twin.size())) : interval();
        switch (run.below(20)) {
        case 0: filled(); break;
        case 1: refused(); break;
        case 2:
            if (run.below(20) == 0)
                built();
            break;
        case 3:
        case 4:
        case 5: asked(); break;
        case 6:
        case 7:
        case 8:
        case 9: EXPECT(pam_intervals_del(&set, e.first, e.second) == (twin.erase(e) ? PAM_OK : PAM_NOT_THERE)); break;
        default:
            EXPECT(pam_intervals_add(&set, e.first, e.second) == PAM_OK);
            twin.insert(e);
        }
    }
};

} // namespace

int main(int count, char **words)
{
    Run run(count, words);
    while (run.goes_on()) {
        Maps maps(run);
        Texts texts(run);
        Seqs seqs(run);
        Sets sets(run);
        for (int i = 0; i < 3000 && run.goes_on(); i++, run.steps++) {
            maps.step();
            texts.step();
            seqs.step();
            sets.step();
        }
    }
    printf("twins: %" PRIu64 " steps of each kind, seed %" PRIu64 "\n", run.steps, run.seed);
}
