// kopeninghours FILE ROUNDS: reads each sheet of a file, one a line, ROUNDS times with KOpeningHours, from its bytes to its rules, and writes how many
// readings had no syntax error.
#include <KOpeningHours/OpeningHours>

#include <cstdio>
#include <cstdlib>
#include <fstream>
#include <string>
#include <vector>

int main(int argc, char **argv)
{
    std::ifstream file(argc == 3 ? argv[1] : "");
    if (!file) {
        std::fprintf(stderr, "kopeninghours FILE ROUNDS: the file cannot be read\n");
        return 1;
    }
    std::vector<QByteArray> sheets;
    for (std::string line; std::getline(file, line);)
        sheets.emplace_back(line.data(), int(line.size()));
    KOpeningHours::OpeningHours hours; // one for all sheets, as its documentation advises
    unsigned long accepted = 0;
    for (long round = std::atol(argv[2]); round > 0; round--)
        for (const QByteArray &sheet : sheets) {
            hours.setExpression(sheet);
            accepted += hours.error() != KOpeningHours::OpeningHours::SyntaxError;
        }
    std::printf("%lu\n", accepted);
}
