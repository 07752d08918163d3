// The workload `calls` of gipsat_bench over MiniSat's library, for tools/speed.py to compare with. With Debian's
// package minisat:
//
//     g++ -O3 -DNDEBUG -o DIR/bench-minisat-library tools/minisat_calls.cc -lminisat
#include <cinttypes>
#include <cstdint>
#include <cstdio>
#include <cstdlib>
#include <cstring>
#include <vector>

#include <minisat/core/Solver.h>

using Minisat::Lit;
using Minisat::mkLit;

namespace {

constexpr size_t latches = 64, inputs = 16, gates = 500, moments = 20, stride = inputs + gates;
constexpr size_t gates_a_xor = 8;

// The numbers of PCG32 from a seed on.
struct Generator {
    uint64_t state = 0;
    explicit Generator(uint64_t seed) {
        draw();
        state += seed;
        draw();
    }
    uint32_t draw() {
        uint64_t old = state;
        state = old * 6364136223846793005u + ((54u << 1) | 1u);
        uint32_t x = uint32_t(((old >> 18) ^ old) >> 27), rot = uint32_t(old >> 59);
        return (x >> rot) | (x << ((32 - rot) & 31));
    }
    size_t below(size_t bound) { return size_t((uint64_t(draw()) * bound) >> 32); }
};

struct Operand {
    size_t node;
    bool negated;
};

// A gate: the xor of its operands, or the and.
struct Gate {
    bool is_xor;
    Operand left, right;
};

Operand drawn_operand(Generator& rng, size_t gate) {
    size_t node = rng.below(latches + inputs + gate);
    return {node, rng.draw() % 2 == 1};
}

// The variable of a node at a moment: of a latch, an input or a gate. The latches of a moment are gates of the one before.
size_t variable(size_t node, size_t moment) { return moment * stride + node; }

Lit literal(const Operand& it, size_t moment) { return mkLit(int(variable(it.node, moment)), it.negated); }

void add_gate(Minisat::Solver& solver, const Gate& gate, size_t place, size_t moment) {
    Lit out = mkLit(int(variable(latches + inputs + place, moment)));
    Lit left = literal(gate.left, moment), right = literal(gate.right, moment);
    if (gate.is_xor) {
        solver.addClause(~out, left, right);
        solver.addClause(~out, ~left, ~right);
        solver.addClause(out, ~left, right);
        solver.addClause(out, left, ~right);
    } else {
        solver.addClause(~out, left);
        solver.addClause(~out, right);
        solver.addClause(out, ~left, ~right);
    }
}

void run(uint64_t seed, size_t calls, uint64_t& sum) {
    Generator rng(seed);
    Minisat::Solver solver;
    for (size_t i = 0; i < latches + moments * stride; i++) solver.newVar();
    std::vector<Gate> circuit;
    for (size_t i = 0; i < gates; i++) {
        bool is_xor = rng.below(gates_a_xor) == 0;
        Operand left = drawn_operand(rng, i);
        circuit.push_back({is_xor, left, drawn_operand(rng, i)});
    }
    for (size_t moment = 0; moment < moments; moment++)
        for (size_t i = 0; i < gates; i++) add_gate(solver, circuit[i], i, moment);
    for (size_t i = 0; i < calls; i++) {
        size_t moment = 1 + rng.below(moments), count = 2 + rng.below(9);
        Minisat::vec<Lit> assumptions;
        for (size_t k = 0; k < count; k++) {
            size_t latch = rng.below(latches);
            assumptions.push(mkLit(int(variable(latch, moment)), rng.draw() % 2 == 1));
        }
        bool is_sat = solver.solve(assumptions);
        sum = (sum ^ uint64_t(is_sat)) * 0x100000001b3u;
    }
}

}  // namespace

int main(int argc, char** argv) {
    if (argc < 4 || argc > 5) {
        fprintf(stderr, "usage: %s WORKLOAD SIZE SEED [REPS]\n", argv[0]);
        return 2;
    }
    if (strncmp(argv[1], "calls", 5)) return 3;
    uint64_t sum = 0xcbf29ce484222325u, seed = strtoull(argv[3], nullptr, 10);
    for (uint64_t rep = 0, reps = argc > 4 ? strtoull(argv[4], nullptr, 10) : 1; rep < reps; rep++)
        run(seed + rep, strtoull(argv[2], nullptr, 10), sum);
    printf("%016" PRIx64 "\n", sum);
}
