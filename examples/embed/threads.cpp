// Takes a file with tables, ranks and a script. Four threads at once replay it, each many times with a buffer of its own, and each has a node of
// its own, to which it tells the message that the script's first line enters. Prints the script's text if all got the same texts and outputs.
#include "card_switch.h"

#include <algorithm>
#include <array>
#include <fstream>
#include <iostream>
#include <iterator>
#include <sstream>
#include <string>
#include <thread>
#include <vector>

namespace {

constexpr int threads = 4;
constexpr int times = 50;

using Bytes = std::vector<std::uint8_t>;

struct Answer {
    std::uint8_t status = CS_NO_MEMORY;
    std::string text;

    bool operator==(const Answer &other) const { return status == other.status && text == other.text; }
};

// The answer to an input, which isn't empty: an empty vector's pointer may be null.
Answer replay(const Bytes &input) {
    Bytes output(4096);
    std::size_t length = 0;
    std::uint8_t status = cs_replay(input.data(), input.size(), output.data(), output.size(), &length);
    if (status == CS_TOO_SMALL) {
        output.resize(length);
        status = cs_replay(input.data(), input.size(), output.data(), output.size(), &length);
    }
    return {status, std::string(output.begin(), output.begin() + static_cast<std::ptrdiff_t>(length))};
}

// A node, freed with its owner.
class Node {
  public:
    Node(const std::string &tables, const std::string &ranks, const std::string &name) {
        status_ = cs_node_new(bytes(tables), tables.size(), bytes(ranks), ranks.size(), bytes(name), name.size(), &node_);
    }
    ~Node() { cs_node_free(&node_); }
    Node(const Node &) = delete;
    Node &operator=(const Node &) = delete;

    bool is_made() const { return status_ == CS_DONE; }

    // The outputs of the step that a message leads to, none where it is refused.
    std::vector<std::string> enter(const std::string &message) {
        const cs_input input{0, 0, CS_ENTER};
        cs_step made{};
        std::vector<std::string> outputs;
        if (cs_node_step(&node_, &input, bytes(message), message.size(), &made) != CS_DONE)
            return outputs;
        for (std::size_t place = 0; place < made.outputs; place++) {
            Bytes text(CS_MOST_OUTPUT);
            cs_output output{};
            if (cs_node_output(&node_, place, text.data(), text.size(), &output) == CS_DONE)
                outputs.emplace_back(text.begin(), text.begin() + static_cast<std::ptrdiff_t>(output.length));
        }
        return outputs;
    }

  private:
    static const std::uint8_t *bytes(const std::string &text) { return reinterpret_cast<const std::uint8_t *>(text.data()); }

    cs_node node_ = CS_NODE_EMPTY;
    std::uint8_t status_ = CS_NO_MEMORY;
};

// A network's texts, and the node and the message of the first line of its script: enter NODE MESSAGE.
struct Network {
    std::string tables, ranks, name, message;

    explicit Network(const std::string &input) {
        const std::string between = "\n%%\n";
        const std::size_t first = input.find(between), second = input.find(between, first + 1);
        tables = input.substr(0, first + 1);
        ranks = input.substr(first + between.size(), second + 1 - first - between.size());
        std::istringstream script(input.substr(second + between.size()));
        std::string word;
        script >> word >> name >> message;
    }

    std::vector<std::string> entered() const {
        Node node(tables, ranks, name);
        return node.is_made() ? node.enter(message) : std::vector<std::string>();
    }
};

bool all_same(const Bytes &input, const Answer &wanted, const Network &network, const std::vector<std::string> &outputs) {
    for (int k = 0; k < times; k++)
        if (!(replay(input) == wanted) || network.entered() != outputs)
            return false;
    return true;
}

} // namespace

int main(int count, char **words) {
    if (count != 2) {
        std::cerr << "usage: threads FILE\n";
        return 2;
    }
    std::ifstream file(words[1], std::ios::binary);
    const Bytes input((std::istreambuf_iterator<char>(file)), std::istreambuf_iterator<char>());
    if (input.empty()) {
        std::cerr << "threads: " << words[1] << " is empty or can't be read\n";
        return 2;
    }
    const Answer wanted = replay(input);
    const Network network(std::string(input.begin(), input.end()));
    const std::vector<std::string> outputs = network.entered();
    if (outputs.empty()) {
        std::cerr << "threads: " << words[1] << ": no node puts anything out for the first line of the script\n";
        return 2;
    }
    std::array<bool, threads> same{};
    std::vector<std::thread> running;
    for (bool &one : same)
        running.emplace_back([&, out = &one] { *out = all_same(input, wanted, network, outputs); });
    for (std::thread &thread : running)
        thread.join();
    if (!std::all_of(same.begin(), same.end(), [](bool one) { return one; }))
        return 5;
    std::cout << wanted.text;
    return wanted.status;
}
