// Writes the example film to standard output, from C++.
#include <caf_names.h>

#include <array>
#include <cstdio>
#include <stdexcept>
#include <vector>

static void done(uint32_t number) {
    if (number != CAF_DONE)
        throw std::runtime_error(caf_number_words(number));
}

int main() {
    const std::array<uint32_t, 2> labels{CAF_LABEL_LEFT, CAF_LABEL_RIGHT};
    const std::array<int32_t, 2> samples{1, -1};
    std::array<uint64_t, CAF_RECORD> record{};
    std::vector<uint8_t> file(CAF_LONGEST_HEADER + 6);

    done(caf_new(record.data(), record.size()));
    done(caf_configure_format(record.data(), record.size(), 48000, 2, 24, labels.data(), labels.size()));
    done(caf_write_header(record.data(), record.size(), file.data(), file.size()));
    done(caf_write_samples(record.data(), record.size(), file.data(), file.size(), samples.data(), samples.size()));
    done(caf_finish(record.data(), record.size(), file.data(), file.size()));
    return std::fwrite(file.data(), 1, record[CAF_RECORD_FILE_LEN], stdout) == record[CAF_RECORD_FILE_LEN] ? 0 : 1;
}
