// Tallies the words of standard input by std::map, and prints them by iostream.
#include <algorithm>
#include <iomanip>
#include <iostream>
#include <map>
#include <sstream>
#include <string>
#include <vector>

int main(int count, char **words) {
    std::map<std::string, int> tally;
    for (std::string word; std::cin >> word;) tally[word] += 1;
    std::vector<std::pair<std::string, int>> most(tally.begin(), tally.end());
    std::stable_sort(most.begin(), most.end(),
        [](const auto &a, const auto &b) { return a.second > b.second; });
    int total = 0;
    for (const auto &[word, times] : most) total += times;
    std::ostringstream head;
    head << "words: " << total << ", different: " << most.size();
    std::cout << head.str() << "\n" << std::fixed << std::setprecision(3);
    for (const auto &[word, times] : most)
        std::cout << std::setw(6) << times << ' ' << 100.0 * times / total << "% " << word
                  << std::endl;
    for (int i = 1; i < count; i++) std::cout << words[i] << '\n';
    return 0;
}
