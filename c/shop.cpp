// Accounts in C++: the header as it is, a kernel that closes itself, and a guess that fails unless somebody commits it.
#include "hidewillow.h"
#include <iostream>
#include <string>

namespace {

const std::uint16_t LETTERS = 1;

const std::uint8_t *bytes(const std::string &text) { return reinterpret_cast<const std::uint8_t *>(text.data()); }

// A kernel over texts.
class Kernel {
  public:
    explicit Kernel(std::uint16_t guesses) : own{nullptr} { hidewillow_own_open(&own, 1, guesses, 1); }
    ~Kernel() { hidewillow_own_close(&own); }
    Kernel(const Kernel &) = delete;
    Kernel &operator=(const Kernel &) = delete;

    // What a key has; an empty text where it is absent.
    std::string value(const std::string &key) {
        return shown([&](std::uint8_t *room, std::size_t count) {
            return hidewillow_own_value(&own, bytes(key), key.size(), room, count);
        });
    }

    std::string released(std::uint16_t channel) {
        return shown([&](std::uint8_t *room, std::size_t count) {
            return hidewillow_own_released(&own, channel, room, count);
        });
    }

    // The parts of a step, which is taken whole.
    std::string get(const std::string &key) {
        hidewillow_own_look(&own, bytes(key), key.size());
        return value(key);
    }
    void put(const std::string &key, const std::string &value) {
        hidewillow_own_put(&own, bytes(key), key.size(), bytes(value), value.size());
    }
    void say(const std::string &letter) { hidewillow_own_say(&own, LETTERS, bytes(letter), letter.size()); }
    bool take() { return hidewillow_own_take(&own).answer == HIDEWILLOW_STEPPED; }

    hidewillow_own own;

  private:
    template <typename Ask> std::string shown(Ask ask) {
        std::string room(64, ' ');
        for (;;) {
            const hidewillow_told told = ask(reinterpret_cast<std::uint8_t *>(&room[0]), room.size());
            if (told.answer != HIDEWILLOW_SHOWN) return "";
            const bool fits = told.bytes <= room.size();
            room.resize(told.bytes);
            if (fits) return room;
        }
    }
};

// A guess with the step that was written. It fails at the end of its block, unless it is committed.
class Guess {
  public:
    explicit Guess(Kernel &kernel) : kernel(kernel), number(hidewillow_own_guess(&kernel.own).number) {}
    ~Guess() {
        if (number) hidewillow_own_fail(&kernel.own, number);
    }
    Guess(const Guess &) = delete;
    Guess &operator=(const Guess &) = delete;

    void commit() {
        hidewillow_own_commit(&kernel.own, number);
        number = 0;
    }

  private:
    Kernel &kernel;
    std::uint64_t number;
};

void show(Kernel &kernel, const std::string &when) {
    std::cout << when << ": price " << kernel.value("price") << ", bill " << kernel.value("bill") << "\n";
    for (std::string letter = kernel.released(LETTERS); !letter.empty(); letter = kernel.released(LETTERS))
        std::cout << "  out: " << letter << "\n";
}

// A bill of what the price is now.
void bill(Kernel &kernel) {
    const std::string price = kernel.get("price");
    kernel.put("bill", price);
    kernel.say("a bill over " + price);
    kernel.take();
}

} // namespace

int main() {
    Kernel kernel(8);
    kernel.put("price", "10");
    kernel.take();
    show(kernel, "at first");
    {
        kernel.put("price", "12");
        Guess dearer(kernel);
        bill(kernel);
        show(kernel, "on a guess");
    }
    show(kernel, "nobody committed it");
    {
        kernel.put("price", "9");
        Guess cheaper(kernel);
        bill(kernel);
        cheaper.commit();
    }
    show(kernel, "another, committed");
    return 0;
}
