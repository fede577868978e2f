/* The search of SageMath's header dancing_links_c.h, as a second program to compare with.
 *
 *     sage FILE        prints whether there is a cover
 *
 * It reads the same files as the program, but trusts them. The header knows no secondary items, so each is given an option of
 * its own, which has that item alone. Options without a primary item are ignored.
 */
#include <cstdlib>
#include <fstream>
#include <iostream>
#include <map>
#include <sstream>
#include <string>
#include <vector>

#include "dancing_links_c.h"

struct Problem {
    std::map<std::string, int> items;
    int primary = -1;
    std::vector<std::vector<int>> options;
};

static void read_items(std::istringstream &words, Problem &problem) {
    for (std::string word; words >> word;) {
        if (word[0] == '|') {
            problem.primary = problem.items.size();
            word.erase(0, 1);
        }
        if (!word.empty()) problem.items.emplace(word, problem.items.size());
    }
    if (problem.primary < 0) problem.primary = problem.items.size();
}

static void read_option(std::istringstream &words, Problem &problem) {
    std::vector<int> option;
    bool is_kept = false;
    for (std::string word; words >> word;) {
        option.push_back(problem.items.at(word));
        is_kept |= option.back() < problem.primary;
    }
    if (is_kept) problem.options.push_back(option);
}

static Problem read_problem(const char *name) {
    Problem problem;
    std::ifstream file(name);
    for (std::string line; std::getline(file, line);) {
        std::istringstream words(line);
        std::string first;
        if (!(words >> first) || line[line.find_first_not_of(" \t\r")] == '|') continue;
        words.seekg(0);
        if (problem.items.empty()) read_items(words, problem); else read_option(words, problem);
    }
    return problem;
}

/* The header counts its columns by the options, so an item that no option names would be left out. */
static bool is_named(const Problem &problem, int item) {
    for (const auto &option : problem.options)
        for (int own : option)
            if (own == item) return true;
    return false;
}

static bool has_cover(Problem &problem) {
    for (int item = 0; item < problem.primary; item++)
        if (!is_named(problem, item)) return false;
    for (int item = problem.primary; item < (int)problem.items.size(); item++) problem.options.push_back({item});
    dancing_links links;
    links.add_rows(problem.options);
    return links.search();
}

int main(int count, char **words) {
    if (count != 2) return std::cerr << "sage FILE\n", 3;
    Problem problem = read_problem(words[1]);
    std::cout << (has_cover(problem) ? "cover" : "none") << "\n";
}
