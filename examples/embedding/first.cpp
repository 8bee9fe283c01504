// A replica as a C++ value that moves: first FILE feeds a file of item frames, and asks for the row of table 1 at key 5 at time 1.
// g++ -std=c++11 -Iinclude examples/embedding/first.cpp -Llib -l:libhekaton.a -o first
#include "hekaton.h"
#include <cstdio>
#include <fstream>
#include <iostream>
#include <iterator>
#include <memory>
#include <stdexcept>
#include <string>
#include <vector>

class Replica {
public:
    Replica(uint64_t log, uint16_t streams) { done(hk_open(&handle, log, streams)); }
    ~Replica() { hk_close(&handle); }
    Replica(const Replica &) = delete;
    Replica &operator=(const Replica &) = delete;
    // a handle may be moved: the library keeps no address of it; the place before is closed, so that the handle stands once
    Replica(Replica &&other) noexcept : handle(other.handle) { other.handle = hk_handle HK_CLOSED; }

    void absorb(const std::vector<uint8_t> &piece) { uint8_t none = 0; done(hk_absorb(&handle, piece.empty() ? &none : piece.data(), piece.size())); }

    std::vector<uint8_t> call(const std::vector<uint8_t> &requests, uint8_t &number) {
        std::vector<uint8_t> replies(4096);
        uint8_t none = 0;
        size_t n = 0;
        number = hk_call(&handle, requests.empty() ? &none : requests.data(), requests.size(), replies.data(), replies.size(), &n);
        if (n > replies.size()) {
            replies.resize(n);
            hk_reply(&handle, 0, replies.data(), n);
        }
        replies.resize(n);
        return replies;
    }

    bool get(uint64_t time, uint16_t table, uint64_t key, uint32_t &tag, std::vector<uint8_t> &body) {
        hk_found found = {};
        body.resize(4096);
        done(hk_get(&handle, time, table, key, &found, body.data(), body.size()));
        body.resize(found.row ? found.len : 0);
        tag = found.tag;
        return found.row;
    }

    static void done(uint8_t number) {
        if (number == 0) return;
        std::string words(512, ' ');
        words.resize(hk_words(number, reinterpret_cast<uint8_t *>(&words[0]), words.size()));
        throw std::runtime_error(words.empty() ? "closed" : words);
    }

private:
    hk_handle handle = HK_CLOSED;
};

static int play() {
    std::unique_ptr<Replica> replica;
    std::string word;
    while (std::cin >> word) {
        if (word == "open") {
            unsigned long log;
            unsigned streams;
            std::cin >> log >> streams;
            replica.reset(new Replica(log, static_cast<uint16_t>(streams)));
            std::printf("0 \n");
            continue;
        }
        std::string hex;
        std::cin >> hex;
        std::vector<uint8_t> bytes;
        for (size_t i = 0; i + 1 < hex.size(); i += 2) bytes.push_back(static_cast<uint8_t>(std::stoi(hex.substr(i, 2), nullptr, 16)));
        uint8_t number;
        std::vector<uint8_t> replies = replica->call(bytes, number);
        std::printf("%d ", number);
        for (uint8_t byte : replies) std::printf("%02x", byte);
        std::printf("\n");
    }
    return 0;
}

int main(int argc, char **argv) {
    if (argc < 2) return play();
    std::ifstream file(argv[1], std::ios::binary);
    std::vector<uint8_t> items((std::istreambuf_iterator<char>(file)), std::istreambuf_iterator<char>()), body;
    Replica replica(7, 1);
    replica.absorb(items);
    Replica moved(std::move(replica));
    uint32_t tag = 0;
    if (!moved.get(1, 1, 5, tag, body)) return 1;
    std::printf("tag %u body ", tag);
    for (uint8_t byte : body) std::printf("%02x", byte);
    std::printf("\n");
    return 0;
}
