// player.cpp: a player that solves a game once and then plays its plan, against an opponent who repeats himself.
// The game is one turn, told as a table; the state's key is its number, so the root's is 0.
#include "dosolve.h"

#include <cstdint>
#include <iostream>
#include <random>
#include <sstream>
#include <string>
#include <vector>

namespace {

// Rock, paper and scissors, where each throw pays another prize: what One gets, by One's move and Two's.
const int payoffs[3][3] = {{0, -1, 2}, {1, 0, -2}, {-2, 2, 0}};

std::string position() {
    std::ostringstream text;
    text << R"({"game":"table","states":[[)";
    for (int one = 0; one < 3; one++) {
        text << (one == 0 ? "[" : ",[");
        for (int two = 0; two < 3; two++) text << (two == 0 ? "" : ",") << payoffs[one][two] + 3;
        text << "]";
    }
    // The ends follow the root: state 1 pays -2, state 5 pays 2.
    text << R"(],-2,-1,0,1,2],"gap":0,"weight":1048576,"turns":1000,"visits":1000,"rows":10,"workers":1,"stages":"linear"})";
    return text.str();
}

}  // namespace

int main() {
    const std::string asked = position();
    dosolve_answer answer = dosolve_ask(dosolve_solve, asked.data(), asked.size(), 1 << 16);
    if (answer.status != DOSOLVE_DONE && answer.status != DOSOLVE_SETTLED) {
        std::cerr << "solve: status " << answer.status << "\n" << (answer.text != nullptr ? answer.text : "");
        dosolve_free(&answer);
        return 1;
    }
    // The plan is read from the report once, and asked at each turn, here always at the key of the one state.
    dosolve_held plan = dosolve_hold(DOSOLVE_ONE, answer.text, answer.size);
    dosolve_free(&answer);
    std::uint64_t moves = 0;
    const std::uint32_t *row = dosolve_find(&plan, 0, &moves);
    const std::vector<double> weights(row, row + moves);
    dosolve_drop(&plan);
    if (weights.empty()) return 1;
    std::mt19937 random(1);
    std::discrete_distribution<int> choose(weights.begin(), weights.end());
    const int games = 30000;
    long sum = 0;
    for (int game = 0; game < games; game++) sum += payoffs[choose(random)][game % 3 == 0 ? 0 : 2];
    const double mean = double(sum) / games;
    std::cout << "weights";
    for (double weight : weights) std::cout << " " << weight;
    std::cout << "\nmean payoff " << mean << " of " << games << " games\n";
    // The value of the game is 0, so the plan keeps about that, whatever the opponent does.
    return mean > -0.05 ? 0 : 1;
}
