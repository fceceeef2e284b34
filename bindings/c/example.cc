// Prints the threads of a dump: c++ -std=c++17 example.cc $(pkg-config --cflags --libs mdmp)
#include <fstream>
#include <iostream>
#include <iterator>
#include <mdmp.h>
#include <stdexcept>
#include <string>
#include <vector>

// The words of a fault, as an exception.
class Fault : public std::runtime_error {
  public:
    explicit Fault(const mdmp_fault &fault) : std::runtime_error(words(fault)) {
    }

  private:
    static std::string words(const mdmp_fault &fault) {
        std::string text(256, '\0');
        std::uint64_t size = 0;
        mdmp_fault_text(&fault, reinterpret_cast<std::uint8_t *>(text.data()), text.size(), &size);
        text.resize(size);
        return text;
    }
};

// All records of one kind, by a call such as mdmp_threads.
template <typename Record, typename Call> std::vector<Record> all(Call call, const std::vector<std::uint8_t> &file) {
    const mdmp_limits limits = MDMP_LIMITS_UNTRUSTED;
    std::vector<Record> records(16);
    mdmp_fault fault;
    std::uint64_t count = 0;
    std::uint32_t status;
    while ((status = call(file.data(), file.size(), &limits, records.data(), records.size(), &count, &fault)) ==
           MDMP_BUFFER_TOO_SHORT) {
        records.resize(count);
    }
    if (status != MDMP_OK) {
        throw Fault(fault);
    }
    records.resize(count);
    return records;
}

int main(int argc, char **argv) {
    if (argc != 2) {
        std::cerr << "usage: " << argv[0] << " DUMP\n";
        return 2;
    }
    std::ifstream stream(argv[1], std::ios::binary);
    const std::vector<std::uint8_t> file{std::istreambuf_iterator<char>(stream), {}};
    try {
        for (const mdmp_thread &thread : all<mdmp_thread>(mdmp_threads, file)) {
            std::cout << thread.thread_id << " stack of " << thread.stack.size << " bytes\n";
        }
    } catch (const Fault &fault) {
        std::cerr << fault.what() << "\n";
        return 1;
    }
}
