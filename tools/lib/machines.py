"""Designs of machines: processors, pipelines, and state machines by two codes."""

import random

from .designs import design


@design(R=(2, 4, 4), W=(2, 4, 8))
def processor():
    """A processor of three stages that forwards results, beside one that waits for none: they write the same."""
    return """
module top #(parameter R = 2, W = 2, BUG = 0)
  (input clk, input valid, input [1:0] op, input [$clog2(R)-1:0] d, input [$clog2(R)-1:0] s, input [W-1:0] value);
  localparam A = $clog2(R);
  // The processor in stages: read, work, write.
  logic [R*W-1:0] file = 0, model = 0;
  logic v1 = 0, v2 = 0;
  logic [1:0] op1 = 0;
  logic [A-1:0] d1 = 0, d2 = 0, s1 = 0;
  logic [W-1:0] x1 = 0, y1 = 0, i1 = 0, out2 = 0, m1 = 0, m2 = 0, x, y;
  function [W-1:0] work(input [1:0] o, input [W-1:0] a, input [W-1:0] b, input [W-1:0] i);
    work = o == 0 ? i : o == 1 ? a + b : o == 2 ? a ^ b : a - i;
  endfunction
  always_comb begin
    x = v2 && d2 == d1 ? out2 : x1;
    y = v2 && d2 == s1 && !(BUG && op1 == 2 && d2 == 1) ? out2 : y1;
  end
  always_ff @(posedge clk) begin
    {v1, op1, d1, s1, i1} <= {valid, op, d, s, value};
    x1 <= v2 && d2 == d ? out2 : file[d*W +: W];
    y1 <= v2 && d2 == s ? out2 : file[s*W +: W];
    {v2, d2} <= {v1, d1};
    out2 <= work(op1, x, y, i1);
    for (int i = 0; i < R; i++) if (v2 && d2 == i) file[i*W +: W] <= out2;
    // The model does all at once, and what it wrote waits for the other.
    m1 <= work(op, model[d*W +: W], model[s*W +: W], value);
    m2 <= m1;
    for (int i = 0; i < R; i++)
      if (valid && d == i) model[i*W +: W] <= work(op, model[d*W +: W], model[s*W +: W], value);
  end
  always_comb assert (!v2 || out2 == m2);
endmodule
"""


@design(W=(4, 8, 24))
def retimed():
    """A path of sums and shifts with its registers in two places: what comes out is the same."""
    return """
module top #(parameter W = 4, BUG = 0) (input clk, input [W-1:0] x, input [W-1:0] y, input [1:0] k, input stop);
  logic [W-1:0] x1 = 0, y1 = 0, a2 = 0, a3 = 0, b1 = 0, b2 = 0, b3 = 0, c1 = 0;
  logic [1:0] k1 = 0, k2 = 0, l1 = 0, l2 = 0;
  always_ff @(posedge clk) if (!stop) begin
    {x1, y1, k1} <= {x, y, k};
    a2 <= (x1 + y1) ^ (x1 & y1);
    k2 <= k1;
    a3 <= (a2 << k2) - a2;
    b1 <= x + y;
    c1 <= x & y;
    l1 <= k;
    b2 <= ((b1 ^ c1) << l1) - (BUG && l1 == 2 && c1 == 3);
    l2 <= l1;
    c2 <= b1 ^ c1;
    b3 <= b2 - c2;
  end
  logic [W-1:0] c2 = 0;
  always_comb assert (a3 == b3);
endmodule
"""


def machine(states, seed):
    """For each state and each value of two inputs the next state; each state is reached from an earlier one."""
    rng = random.Random(seed)
    table = [[rng.randrange(states) for _ in range(4)] for _ in range(states)]
    for state in range(1, states):
        table[rng.randrange(max(0, state - 3), state)][rng.randrange(4)] = state
    return table


@design(N=(8, 20, 60))
def two_codes():
    """A random state machine in binary and in one-hot code: they are in the same state."""
    lines = "\n".join(
        f"        if (N > {state} && b[{state} % N] && in == {letter}) c[{after} % N] = 1;"
        for state, row in enumerate(machine(60, 7))
        for letter, after in enumerate(row)
    )
    moves = "\n".join(
        f"      {4 * state + letter}: next = {after} % N;"
        for state, row in enumerate(machine(60, 7))
        for letter, after in enumerate(row)
    )
    return f"""
module top #(parameter N = 8, BUG = 0) (input clk, input [1:0] in, input go);
  logic [5:0] a = 0, next;
  logic [N-1:0] b = 1, c;
  always_comb begin
    case ({{a, in}})
{moves}
      default: next = 0;
    endcase
    c = 0;
{lines}
    if (BUG && b[N-1] && in == 2) c = 1 << (N / 2);
  end
  always_ff @(posedge clk) if (go) begin
    a <= next;
    b <= c;
  end
  always_comb assert (b == (1 << a));
endmodule
"""


@design(L=(4, 8, 16))
def detector():
    """Bits that are searched for a word, by a shift register and by a machine that counts what fits: both find it."""
    return """
module top #(parameter L = 4, BUG = 0) (input clk, input bit_, input go);
  // The word is a one, and then zeros and ones by turns, from its last bit on.
  localparam [L-1:0] WORD = {L{2'b10}} | (1 << (L - 1));
  logic [L-1:0] past = 0;
  logic [$clog2(L+1)-1:0] fits = 0, next;
  logic [L:0] grown;
  logic ok;
  always_comb begin
    // The longest beginning of the word at the end of what is there; what was there fits so far.
    next = 0;
    grown = 0;
    for (int k = 0; k <= L; k++) if (fits == k) grown = {WORD >> (L - k), bit_};
    for (int k = 1; k <= L; k++) begin
      ok = k <= fits + 1;
      for (int j = 0; j < k; j++) if (grown[j] != WORD[L-k+j]) ok = 0;
      if (ok && !(BUG && k == L - 1 && fits == L)) next = k;
    end
  end
  always_ff @(posedge clk) if (go) begin
    past <= {past[L-2:0], bit_};
    fits <= next;
  end
  always_comb assert ((past == WORD) == (fits == L));
endmodule
"""


@design(N=(4, 8, 16))
def predictor():
    """Counters of two bits that stop at their ends, in a table, and the same as a thermometer: they predict alike."""
    return """
module top #(parameter N = 4, BUG = 0) (input clk, input [$clog2(N)-1:0] place, input taken, input go, input flush);
  logic [1:0] counts [0:N-1];
  logic [3*N-1:0] levels = 0;
  initial for (int i = 0; i < N; i++) counts[i] = 0;
  logic [$clog2(N)-1:0] history = 0;
  wire [$clog2(N)-1:0] at = place ^ history;
  wire [2:0] level = levels[3*at +: 3];
  always_ff @(posedge clk)
    if (flush) history <= 0;
    else if (go) begin
      history <= {history, taken};
      if (taken && counts[at] != 3) counts[at] <= counts[at] + 1;
      if (!taken && counts[at] != 0) counts[at] <= counts[at] - 1;
      levels[3*at +: 3] <= taken ? {level[1:0], 1'b1} : level >> 1;
      if (BUG && history == 3 && place == 2 && level == 7) levels[3*at +: 3] <= 3'b101;
    end
  always_comb assert (counts[at][1] == level[1]);
endmodule
"""


@design(R=(3, 6, 12), L=(3, 4, 6))
def scoreboard():
    """Operations of several lengths start where nothing that they need is being made: a register has one maker."""
    return """
module top #(parameter R = 3, L = 2, BUG = 0)
  (input clk, input issue, input [$clog2(R)-1:0] d, input [$clog2(R)-1:0] s, input [$clog2(L)-1:0] length);
  localparam A = $clog2(R);
  logic [R-1:0] pending = 0;
  logic [L-1:0] valid = 0;
  logic [L*A-1:0] targets = 0;
  logic bad;
  // Place i of the line writes after i more moments; an operation enters where its length says, if that is free.
  wire [L:0] behind = {1'b0, valid};
  wire fits = length < L && !behind[length + 1];
  wire ready = d < R && s < R && !pending[s] && (!pending[d] || (BUG && length == 0 && d == 2 && s == 1));
  wire starts = issue && fits && ready;
  always_ff @(posedge clk) begin
    valid <= valid >> 1;
    targets <= targets >> A;
    if (valid[0]) pending[targets[A-1:0]] <= 0;
    for (int i = 0; i < L; i++) if (starts && length == i) begin
      valid[i] <= 1;
      targets[i*A +: A] <= d;
    end
    if (starts) pending[d] <= 1;
  end
  always_comb begin
    bad = 0;
    for (int i = 0; i < L; i++) for (int j = 0; j < i; j++)
      if (valid[i] && valid[j] && targets[i*A +: A] == targets[j*A +: A]) bad = 1;
    for (int i = 0; i < L; i++) if (valid[i] && !pending[targets[i*A +: A]]) bad = 1;
    assert (!bad);
  end
endmodule
"""


@design(N=(3, 5, 9))
def elastic():
    """Stages that stop each other by turns without a common signal: words neither vanish nor double."""
    return """
module top #(parameter N = 3, BUG = 0) (input clk, input give, input take, input [N-1:0] slow);
  localparam W = $clog2(N + 1) + 1;
  logic [N-1:0] full = 0, moves;
  logic [N*W-1:0] numbers = 0;
  logic [W-1:0] next = 0, wanted = 0, inside;
  always_comb begin
    // A stage moves on into one that is empty, or that moves on itself.
    for (int i = N - 1; i >= 0; i--)
      moves[i] = full[i] && !slow[i] && (i == N - 1 ? take : !full[(i + 1) % N] || moves[(i + 1) % N]);
    inside = 0;
    for (int i = 0; i < N; i++) inside = inside + full[i];
  end
  wire in = give && (!full[0] || moves[0]);
  always_ff @(posedge clk) begin
    for (int i = 0; i < N; i++) begin
      if (moves[i]) full[i] <= BUG && i == 1 && full == '1 && wanted == 2 && slow[0];
      if (i > 0 && moves[(i + N - 1) % N]) begin
        full[i] <= 1;
        numbers[i*W +: W] <= numbers[((i + N - 1) % N)*W +: W];
      end
    end
    if (in) begin
      full[0] <= 1;
      numbers[W-1:0] <= next;
      next <= next + 1;
    end
    if (moves[N-1]) wanted <= wanted + 1;
  end
  always_comb assert (!(full[N-1] && numbers[(N-1)*W +: W] != wanted) && inside <= N);
endmodule
"""


@design(N=(2, 3, 4), W=(3, 4, 6))
def transactions():
    """A counter that is read and written back by several, each with a lock that it takes first: no step is lost."""
    return """
module top #(parameter N = 2, W = 3, BUG = 0) (input clk, input [$clog2(N+1)-1:0] who, input abort);
  logic [2*N-1:0] places = 0;
  logic [N*W-1:0] own = 0;
  logic [W-1:0] shared = 0, steps = 0;
  logic lock = 0;
  always_ff @(posedge clk)
    for (int i = 0; i < N; i++) if (who == i)
      case (places[2*i +: 2])
        0: if (!lock || (BUG && abort && shared == 5)) begin
          lock <= 1;
          places[2*i +: 2] <= 1;
        end
        1: begin
          own[i*W +: W] <= shared;
          places[2*i +: 2] <= abort ? 3 : 2;
          if (abort) lock <= 0;
        end
        2: begin
          shared <= own[i*W +: W] + 1;
          steps <= steps + 1;
          places[2*i +: 2] <= 3;
          lock <= 0;
        end
        3: places[2*i +: 2] <= 0;
      endcase
  always_comb assert (shared == steps);
endmodule
"""
