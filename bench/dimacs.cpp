// Reads a text in the DIMACS edge format through its C entry, and by two readers as tools have them, the peers.
//
//   dimacs once TEXT READER    one reading, for its instructions to be counted
//   dimacs times               processor times of all texts and readers, and the ratios
//   dimacs bytes TEXT          the length of the text
//
// TEXT is one of
//
//   both        96 vertices, every edge in both orders
//   once        96 vertices, every edge once
//   sparse      96 vertices, two edges each
//   comments    both, with a comment of 70 bytes before every line
//   digits      both, with 20 digits in every field
//
// READER is entry; strtoul, a careful reader of memory that takes its numbers by strtoul; or sscanf, a line at a time, as the programs
// that came with the format do. A peer fills the adjacency table, and judges less than the entry: spaces, signs and numbers that wrap are as
// strtoul and sscanf take them. It draws no weights, which the entry does.
#include "saszvigom.h"

#include <algorithm>
#include <cstdio>
#include <cstdlib>
#include <cstring>
#include <ctime>
#include <string>
#include <vector>

namespace {

uint8_t adjacency[SASZVIGOM_ADJACENCY_BYTES(SASZVIGOM_MAX_VERTICES)];
uint8_t weights[SASZVIGOM_WEIGHTS_BYTES(SASZVIGOM_MAX_VERTICES)];

std::string field(unsigned number, bool digits)
{
    const std::string plain = std::to_string(number);
    return digits ? std::string(20 - plain.size(), '0') + plain : plain;
}

std::string make(const std::string &name)
{
    const unsigned n = 96;
    const bool digits = name == "digits", comments = name == "comments";
    std::vector<std::string> lines;
    for (unsigned i = 1; i <= n; i++)
        for (unsigned j = i + 1; j <= n; j++) {
            if (name == "sparse" && j != i + 1 && !(i == 1 && j == n))
                continue;
            lines.push_back("e " + field(i, digits) + " " + field(j, digits) + "\n");
            if (name != "once" && name != "sparse")
                lines.push_back("e " + field(j, digits) + " " + field(i, digits) + "\n");
        }
    std::string text = "c all edges\np edge " + field(n, digits) + " " + field((unsigned)lines.size(), digits) + "\n";
    for (const std::string &line : lines)
        text += (comments ? "c " + std::string(67, 'x') + "\n" : "") + line;
    return text;
}

// Marks an edge, and tells whether its vertices are two.
bool mark(unsigned long n, unsigned long u, unsigned long v)
{
    if (u == 0 || v == 0 || u > n || v > n || u == v)
        return false;
    adjacency[(u - 1) * n + v - 1] = 1;
    adjacency[(v - 1) * n + u - 1] = 1;
    return true;
}

uint64_t by_entry(const std::string &text)
{
    return saszvigom_cause_of(saszvigom_read_dimacs((const uint8_t *)text.data(), text.size(), 1, adjacency, sizeof adjacency,
                                                    weights, sizeof weights));
}

uint64_t by_strtoul(const std::string &text)
{
    const char *at = text.c_str(), *const end = at + text.size();
    unsigned long n = 0, announced = 0, lines = 0;
    bool headed = false;
    while (at < end) {
        const char *const next = (const char *)memchr(at, '\n', (size_t)(end - at));
        char *rest;
        if (next == nullptr)
            return 16;
        if (*at == 'c') {
            at = next + 1;
        } else if (!headed && strncmp(at, "p edge ", 7) == 0) {
            n = strtoul(at + 7, &rest, 10);
            announced = strtoul(rest, &rest, 10);
            if (n > 96 || rest != next)
                return 1;
            memset(adjacency, 0, n * n);
            headed = true;
            at = next + 1;
        } else if (headed && at[0] == 'e' && at[1] == ' ') {
            const unsigned long u = strtoul(at + 2, &rest, 10), v = strtoul(rest, &rest, 10);
            if (rest != next || !mark(n, u, v))
                return 14;
            lines++;
            at = next + 1;
        } else {
            return 16;
        }
    }
    return lines == announced ? 0 : 17;
}

uint64_t by_sscanf(const std::string &text)
{
    size_t at = 0;
    unsigned long n = 0, announced = 0, lines = 0, u, v;
    char line[256];
    while (at < text.size()) {
        const size_t next = text.find('\n', at);
        if (next == std::string::npos || next - at >= sizeof line)
            return 16;
        memcpy(line, text.data() + at, next - at);
        line[next - at] = '\0';
        at = next + 1;
        if (line[0] == 'c') {
            continue;
        } else if (line[0] == 'p') {
            if (sscanf(line, "p edge %lu %lu", &n, &announced) != 2 || n > 96)
                return 1;
            memset(adjacency, 0, n * n);
        } else if (sscanf(line, "e %lu %lu", &u, &v) != 2 || !mark(n, u, v)) {
            return 14;
        } else {
            lines++;
        }
    }
    return lines == announced ? 0 : 17;
}

__attribute__((noinline)) uint64_t measured(const std::string &text, const std::string &reader)
{
    if (reader == "entry")
        return by_entry(text);
    return reader == "strtoul" ? by_strtoul(text) : by_sscanf(text);
}

double time_of(const std::string &text, const std::string &reader)
{
    timespec before, after;
    clock_gettime(CLOCK_PROCESS_CPUTIME_ID, &before);
    if (measured(text, reader) != 0)
        exit(1);
    clock_gettime(CLOCK_PROCESS_CPUTIME_ID, &after);
    return (double)(after.tv_sec - before.tv_sec) * 1e6 + (double)(after.tv_nsec - before.tv_nsec) / 1e3;
}

double median(std::vector<double> values)
{
    std::nth_element(values.begin(), values.begin() + (long)values.size() / 2, values.end());
    return values[values.size() / 2];
}

// Times the readers in turn, so that other load touches all alike; a ratio is the median of those of single rounds.
void times()
{
    printf("%10s %9s %9s %9s %9s %10s %9s\n", "text", "bytes", "entry", "strtoul", "sscanf", "e/strtoul", "e/sscanf");
    for (const char *name : {"both", "once", "sparse", "comments", "digits"}) {
        const std::string text = make(name);
        std::vector<double> entry, strtoul, sscanf, over_strtoul, over_sscanf;
        for (int round = 0; round < 301; round++) {
            entry.push_back(time_of(text, "entry"));
            strtoul.push_back(time_of(text, "strtoul"));
            sscanf.push_back(time_of(text, "sscanf"));
            over_strtoul.push_back(entry.back() / strtoul.back());
            over_sscanf.push_back(entry.back() / sscanf.back());
        }
        printf("%10s %9zu %9.1f %9.1f %9.1f %10.2f %9.2f\n", name, text.size(), median(entry), median(strtoul), median(sscanf),
               median(over_strtoul), median(over_sscanf));
    }
}

} // namespace

int main(int argc, char **argv)
{
    if (argc == 2 && strcmp(argv[1], "times") == 0) {
        times();
        return 0;
    }
    if (argc == 3 && strcmp(argv[1], "bytes") == 0) {
        printf("%zu\n", make(argv[2]).size());
        return 0;
    }
    if (argc != 4 || strcmp(argv[1], "once") != 0)
        return 2;
    const std::string text = make(argv[2]);
    const uint64_t cause = measured(text, argv[3]);
    if (cause != 0)
        fprintf(stderr, "refused with %u\n", (unsigned)cause);
    return cause != 0;
}
