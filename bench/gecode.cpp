// An exact cover by Gecode, for answers.py: gecode FILE prints `cover` or `none`.
//
// Each option is a Boolean. The options of a primary item add up to one; those that give a secondary item no colour add up to one at most. A secondary
// item with colours is a number, its colour: an option that gives it one sets it, and one that gives it none leaves no other, colour 0. Options without a
// primary item are left out. The Boolean that failed most lately, by accumulated failure counts, is set first, to true.
#include <algorithm>
#include <fstream>
#include <iostream>
#include <map>
#include <sstream>
#include <string>
#include <utility>
#include <vector>

#include <gecode/int.hh>
#include <gecode/minimodel.hh>
#include <gecode/search.hh>

using namespace Gecode;

// an option's items by number, each with its colour, from 1, or 0 for none
using Option = std::vector<std::pair<int, int>>;

struct Problem {
    int primary = 0;
    std::map<std::string, int> items;
    std::map<std::string, int> colours;
    std::vector<Option> options;

    void read_items(const std::string &line)
    {
        std::istringstream words(line);
        bool is_secondary = false;
        for (std::string word; words >> word;) {
            if (word[0] == '|') {
                is_secondary = true;
                word.erase(0, 1);
            }
            if (word.empty())
                continue;
            items.emplace(word, items.size());
            primary += !is_secondary;
        }
    }

    void read_option(const std::string &line)
    {
        std::istringstream words(line);
        Option option;
        bool is_kept = false;
        for (std::string word; words >> word;) {
            const auto colon = word.find(':');
            const int item = items.at(word.substr(0, colon));
            const int colour = colon == std::string::npos ? 0 : colours.emplace(word.substr(colon + 1), colours.size() + 1).first->second;
            option.emplace_back(item, colour);
            is_kept |= item < primary;
        }
        if (is_kept)
            options.push_back(option);
    }

    explicit Problem(std::istream &file)
    {
        for (std::string line; std::getline(file, line);) {
            const auto first = line.find_first_not_of(" \t\r");
            if (first == std::string::npos || line[first] == '|')
                continue;
            items.empty() ? read_items(line) : read_option(line);
        }
    }
};

class Cover : public Space {
    BoolVarArray chosen;
    IntVarArray colour;

    void post_item(const Problem &problem, int item, const std::vector<std::pair<int, int>> &uses)
    {
        BoolVarArgs plain;
        for (const auto &[option, given] : uses)
            if (given)
                rel(*this, chosen[option] >> (colour[item - problem.primary] == given));
            else
                plain << chosen[option];
        if (item < problem.primary) {
            linear(*this, plain, IRT_EQ, 1);
            return;
        }
        linear(*this, plain, IRT_LQ, 1);
        if (static_cast<size_t>(plain.size()) < uses.size())
            for (const BoolVar &each : plain)
                rel(*this, each >> (colour[item - problem.primary] == 0));
    }

public:
    explicit Cover(const Problem &problem)
        : chosen(*this, problem.options.size(), 0, 1), colour(*this, problem.items.size() - problem.primary, 0, problem.colours.size())
    {
        std::vector<std::vector<std::pair<int, int>>> uses(problem.items.size());
        for (size_t option = 0; option < problem.options.size(); ++option)
            for (const auto &[item, given] : problem.options[option])
                uses[item].emplace_back(option, given);
        for (size_t item = 0; item < uses.size(); ++item)
            post_item(problem, item, uses[item]);
        branch(*this, chosen, BOOL_VAR_AFC_MAX(0.99), BOOL_VAL_MAX());
        branch(*this, colour, INT_VAR_NONE(), INT_VAL_MIN());
    }

    Cover(Cover &other) : Space(other)
    {
        chosen.update(*this, other.chosen);
        colour.update(*this, other.colour);
    }

    Space *copy() override
    {
        return new Cover(*this);
    }
};

int main(int count, char **words)
{
    std::ifstream file(count == 2 ? words[1] : "");
    if (!file) {
        std::cerr << "usage: gecode FILE\n";
        return 2;
    }
    Cover root{Problem(file)};
    DFS<Cover> search(&root);
    const Cover *found = search.next();
    std::cout << (found ? "cover\n" : "none\n");
    delete found;
    return 0;
}
