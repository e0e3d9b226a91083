// chokes.h from C++: the constants at compile time, and the four calls on the corridor, which the program reads.
#include "chokes.h"

#include <cstdio>
#include <fstream>
#include <iterator>
#include <vector>

static_assert(CHOKES_VERSION == CHOKES_VERSION_NUMBER(CHOKES_VERSION_MAJOR, CHOKES_VERSION_MINOR, CHOKES_VERSION_PATCH),
              "the version as one number");
static_assert(CHOKES_VERSION_NUMBER(1, 2, 3) == 1002003, "the form of that number");
static_assert(sizeof(chokes_result::number) == 4 && sizeof(chokes_result::detail) == 8, "a u32 and a u64");
static_assert(CHOKES_JOB_BYTES(4, 1, 0, 2, 0, 2) == 148, "the corridor's length");
static_assert(CHOKES_MOST_JOB_BYTES == 1123376 && CHOKES_MOST_WORK_BYTES == 10485760 && CHOKES_MOST_ANSWER_BYTES == 111640,
              "the lengths that docs/FORMAT.md names");
static_assert(CHOKES_CARDS_BYTES(4, 1) == 160 && CHOKES_MOST_CARDS_BYTES == 41943040, "the lengths of cards");
static_assert(CHOKES_CELL_ELEVATION(0x1f) == 3 && CHOKES_CELL_ELEVATION(0x07) == 0, "bits 3 and 4 of a cell");

// The initialiser gives every byte of a block, and each fits.
static constexpr std::uint8_t counted[] = CHOKES_THRESHOLDS_OF_000;
static_assert(sizeof counted == CHOKES_THRESHOLDS_BYTES && CHOKES_THRESHOLDS_BYTES == 64, "the bytes of a block");
static_assert(counted[0] == 8 && counted[4] == 8 && counted[CHOKES_THRESHOLDS_SMALLEST_AT] == 3 &&
                  counted[CHOKES_THRESHOLDS_LARGEST_AT] == 4 && counted[CHOKES_THRESHOLDS_CHAIN_AT + 7] == 0x40 &&
                  counted[CHOKES_THRESHOLDS_WIDTH_AT + 6] == 0x20 && counted[CHOKES_THRESHOLDS_GEOMETRY_AT + 6] == 0x30 &&
                  counted[CHOKES_THRESHOLDS_FLAT_DUPLICATE_AT + 6] == 0x60 &&
                  counted[CHOKES_THRESHOLDS_FLAT_ENVELOPE_AT + 6] == 0x40 && counted[CHOKES_THRESHOLDS_COSINE_AT] == 0x15,
              "the fields of a block");
static_assert(CHOKES_BAD_THRESHOLDS == 32 && CHOKES_MOST_GROUP == 16, "the refusal of a block, and its largest group");

int main(int argc, char **argv)
{
    if (argc != 2) {
        return 2;
    }
    std::ifstream file(argv[1], std::ios::binary);
    const std::vector<char> read((std::istreambuf_iterator<char>(file)), std::istreambuf_iterator<char>());
    const std::vector<std::uint8_t> job(read.begin(), read.end());
    if (job.size() != CHOKES_JOB_BYTES(4, 1, 0, 2, 0, 2)) {
        std::printf("%s is not the corridor\n", argv[1]);
        return 1;
    }
    std::vector<std::uint8_t> work(CHOKES_WORK_BYTES(4, 1)), marks(2);
    std::vector<std::uint8_t> answer(CHOKES_ANSWER_BYTES(2, 0, 2)), again(answer.size());
    std::vector<std::uint8_t> list(job.begin() + 52, job.begin() + 52 + CHOKES_SPAN_BYTES);
    list.insert(list.end(), job.begin() + 92, job.begin() + 92 + CHOKES_SPAN_BYTES);

    const std::vector<std::uint8_t> block = CHOKES_THRESHOLDS_OF_000;
    const chokes_result reduced = chokes_reduce(job.data(), job.size(), block.data(), block.size(), work.data(), work.size(),
                                                answer.data(), answer.size());
    const chokes_result listed =
        chokes_reduce_by_list(job.data(), job.size(), list.data(), list.size(), block.data(), block.size(), work.data(),
                              work.size(), again.data(), again.size());
    const chokes_result marked =
        chokes_mark(job.data(), job.size(), work.data(), work.size(), marks.data(), marks.size());
    std::vector<std::uint8_t> cards(CHOKES_CARDS_BYTES(4, 1));
    const chokes_result carded =
        chokes_area_cards(job.data(), job.size(), work.data(), work.size(), cards.data(), cards.size());
    const chokes_result refused =
        chokes_reduce(job.data(), job.size(), block.data(), block.size(), work.data(), work.size(), nullptr, 0);
    const chokes_result without =
        chokes_reduce(job.data(), job.size(), nullptr, 0, work.data(), work.size(), answer.data(), answer.size());
    if (reduced.number != CHOKES_OK || reduced.detail != 152 || answer[0] != 1 || listed.number != CHOKES_OK ||
        again != answer || marked.number != CHOKES_OK || marked.detail != 2 ||
        marks != std::vector<std::uint8_t>{1, 1} || carded.number != CHOKES_OK || carded.detail != 120 || cards[80] != 2 ||
        refused.number != CHOKES_ANSWER_TOO_SHORT || refused.detail != 152 || without.number != CHOKES_BAD_THRESHOLDS ||
        without.detail != 0) {
        std::printf("other results from C++\n");
        return 1;
    }
    std::printf("the C++ calls are as those from C\n");
    return 0;
}
