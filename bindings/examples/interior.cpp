// Press and robot ask for the interior of the press.   c++ interior.cpp $(pkg-config --cflags --libs bagunjoki)
#include <bagunjoki.h>
#include <iostream>
#include <stdexcept>
#include <string>

class Interlock {
  public:
    explicit Interlock(const std::string &places) {
        const uint64_t start = bagunjoki_start(reinterpret_cast<const uint8_t *>(places.data()), places.size(), 0);
        if (start == BAGUNJOKI_NO_WORD) throw std::invalid_argument("no start: " + places);
        bagunjoki_open(&word, start);
    }

    bagunjoki_reply ask(bagunjoki_machine machine, bagunjoki_verb verb, bagunjoki_zone zone) {
        return bagunjoki_ask(&word, machine, verb, zone, 8);
    }

    bool renew(uint32_t from) { return bagunjoki_renew(&word, from, 0, 8); }

  private:
    bagunjoki_word word;
};

int main() {
    Interlock cell("0000000000");
    const auto ask = [&cell](const char *what, bagunjoki_machine machine, bagunjoki_verb verb) {
        const bagunjoki_reply reply = cell.ask(machine, verb, BAGUNJOKI_Z3);
        std::cout << what << ": answer " << int(reply.answer) << ", owner " << int(reply.owner) << ", posture "
                  << int(reply.posture) << ", stamp " << bagunjoki_stamp(reply.next) << "\n";
    };
    ask("press claims", BAGUNJOKI_PRESS, BAGUNJOKI_CLAIM);
    ask("robot claims", BAGUNJOKI_ROBOT, BAGUNJOKI_CLAIM);
    ask("press releases", BAGUNJOKI_PRESS, BAGUNJOKI_RELEASE);
    ask("robot claims", BAGUNJOKI_ROBOT, BAGUNJOKI_CLAIM);
    ask("watch inquires", BAGUNJOKI_WATCH, BAGUNJOKI_INQUIRE);
    if (!cell.renew(2)) return 1; // (a plant renews from a stamp near the end)
    ask("renewed, press claims", BAGUNJOKI_PRESS, BAGUNJOKI_CLAIM);
}
