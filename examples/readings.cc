// One heat step, over the installed library, from C++. readings.c, readings.rs and readings.py do the same.
//   c++ readings.cc $(pkg-config --cflags --libs kujawian) -o readings && ./readings SAVED
#include <cerrno>
#include <cstdio>
#include <cstring>
#include <fstream>
#include <kujawian.h>
#include <vector>

int main(int argc, char **argv)
{
    std::ifstream file(argc == 2 ? argv[1] : "", std::ios::binary);
    std::vector<char> saved(KUJ_FILE_BYTES + 1); // one more, so that a file too long is seen as such
    file.read(saved.data(), static_cast<std::streamsize>(saved.size()));
    const size_t length = static_cast<size_t>(file.gcount());
    if (!file.is_open() || file.bad()) {
        std::fprintf(stderr, "readings: %s\n", argc == 2 ? std::strerror(errno) : "usage: readings SAVED");
        return 2;
    }
    std::vector<uint64_t> elements(KUJ_ELEMENTS), marks(KUJ_MARKS); // zeros: new marks
    kuj_control control{};
    uint64_t beside, kind_read, bits;
    uint32_t number = kuj_load(elements.data(), &control, marks.data(), reinterpret_cast<uint8_t *>(saved.data()), length, &beside);
    if (number == 0)
        kuj_clear_marks(marks.data(), &beside); // loading marks everything; from here, what the queue writes

    // V2 = V1 - V0, V2 = 0.125 * V2, V0 = V0 + V2
    const uint8_t opcodes[] = {0x8C, 0xA5, 0x84};
    const uint16_t cntrls[] = {0x2102, 0x2022, 0x2020};
    const uint64_t scalars[] = {0, 0x3F00, 0};
    if (number == 0)
        number = kuj_run(elements.data(), &control, marks.data(), opcodes, 3, cntrls, 3, scalars, 3, &beside);
    for (uint32_t zone = 0; number == 0 && zone < KUJ_REGISTER_LENGTH; zone++) {
        if ((marks[0] >> zone & 1) == 0)
            continue; // V0's element was not written
        number = kuj_reading(elements.data(), &control, 0, zone, KUJ_F_FLOATING, &kind_read, &bits, &beside);
        double value;
        std::memcpy(&value, &bits, sizeof value);
        if (kind_read == KUJ_READ_BINARY64)
            std::printf("%u %.6f\n", zone, value);
        else
            std::printf("%u reserved operand\n", zone);
    }
    if (number != 0)
        std::printf("refused: %u %llu\n", number, static_cast<unsigned long long>(beside));
    return number != 0;
}
