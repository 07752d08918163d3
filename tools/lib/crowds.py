"""Designs with many asserts, and large ones of which little matters."""

from .designs import design


@design("many", N=(5, 11, 20))
def pairs():
    """An arbiter by turns, with an assert for each pair that both are not granted."""
    return """
module top #(parameter N = 5, BUG = 0) (input clk, input [N-1:0] ask);
  logic [N-1:0] last = 1, grant = 0, next;
  logic found;
  always_comb begin
    next = 0;
    found = 0;
    for (int i = 1; i <= N; i++)
      for (int j = 0; j < N; j++)
        if (last[j] && ask[(i + j) % N] && !found) begin
          next[(i + j) % N] = 1;
          found = !BUG || i + j != N;
        end
  end
  always_ff @(posedge clk) begin
    grant <= next;
    if (found) last <= next;
  end
  genvar g, h;
  generate for (g = 0; g < N; g = g + 1) for (h = 0; h < g; h = h + 1) always_comb assert (!(grant[g] && grant[h]));
  endgenerate
endmodule
"""


@design("many", W=(10, 16, 40))
def bits():
    """A path of sums with its registers in two places, with an assert for each bit that both are the same."""
    return """
module top #(parameter W = 10, BUG = 0) (input clk, input [W-1:0] x, input [W-1:0] y, input stop);
  logic [W-1:0] x1 = 0, y1 = 0, a = 0, b = 0, c = 0, late = 0, other = 0;
  always_ff @(posedge clk) if (!stop) begin
    {x1, y1} <= {x, y};
    a <= (x1 + y1) ^ x1;
    late <= x + y;
    other <= x;
    b <= late ^ other ^ (BUG && other[3:0] == 9 ? 8 : 0);
  end
  genvar g;
  generate for (g = 0; g < W; g = g + 1) always_comb assert (a[g] == b[g]);
  endgenerate
endmodule
"""


@design("many", N=(10, 40, 200))
def copies():
    """Queues that have nothing in common, with an assert for each that its length is the distance of its ends."""
    return """
module top #(parameter N = 10, BUG = 0) (input clk, input [N-1:0] push, input [N-1:0] pop);
  genvar g;
  generate for (g = 0; g < N; g = g + 1) begin : one
    localparam A = 2 + g % 3;
    logic [A-1:0] head = 0, tail = 0;
    logic [A:0] count = 0;
    wire [A-1:0] apart = tail - head;
    wire in = push[g] && count != (1 << A), out = pop[g] && count != 0;
    always_ff @(posedge clk) begin
      head <= head + out;
      tail <= tail + in;
      count <= count + in - out + (BUG && g % 4 == 1 && in && out && tail == 2);
    end
    always_comb assert (count[A-1:0] == apart && count <= (1 << A));
  end endgenerate
endmodule
"""


@design("many", N=(12, 40, 150))
def followers():
    """A token that goes on by one place or two, and one that follows it, with an assert for each place: it is not ahead."""
    return """
module top #(parameter N = 12, BUG = 0) (input clk, input one, input two, input wait_);
  localparam W = $clog2(N + 2);
  logic [W-1:0] first = 0, second = 0;
  wire [W-1:0] far = first + one + two;
  always_ff @(posedge clk) begin
    first <= BUG && one && wait_ && first == N / 2 ? first - 1 : far >= N ? far - N : far;
    if (!wait_ || second != first) second <= first;
  end
  genvar g;
  generate for (g = 0; g < N; g = g + 1) always_comb assert (!(first == g && second == (g + 1) % N));
  endgenerate
endmodule
"""


@design("many", N=(4, 7, 14))
def switch_asserts():
    """Inputs that are led to outputs by turns, with an assert for each pair: what is led there was wanted there."""
    return """
module top #(parameter N = 4, BUG = 0) (input clk, input [N-1:0] ask, input [N*$clog2(N)-1:0] to);
  localparam A = $clog2(N);
  logic [N*N-1:0] leads = 0, wants = 0;
  logic [N*A-1:0] turns = 0;
  logic [A-1:0] t;
  logic done;
  always_ff @(posedge clk)
    for (int o = 0; o < N; o++) begin
      done = 0;
      t = turns[o*A +: A];
      for (int k = 0; k < N; k++) begin
        wants[o*N+k] <= ask[k] && to[k*A +: A] == o;
        leads[o*N+k] <= 0;
      end
      for (int k = 0; k < 2 * N; k++)
        if (k >= t && k - t < N && ask[k % N] && to[(k % N)*A +: A] == o && !done) begin
          leads[o*N + k % N] <= 1;
          turns[o*A +: A] <= (k + 1) % N;
          done = !(BUG && o == 1 && t == 2);
        end
    end
  genvar g, h;
  generate for (g = 0; g < N; g = g + 1) for (h = 0; h < N; h = h + 1) always_comb
    assert (!leads[g*N+h] || (wants[g*N+h] && (leads[g*N +: N] & ~(1 << h)) == 0));
  endgenerate
endmodule
"""


@design("many", N=(4, 6, 9))
def recency():
    """Who was used longest ago, by a matrix and by a list in order, with asserts for each one and for each pair."""
    return """
module top #(parameter N = 4, BUG = 0) (input clk, input use_, input [$clog2(N)-1:0] who);
  localparam A = $clog2(N);
  logic [N*N-1:0] newer;
  logic [N*A-1:0] order;
  initial for (int i = 0; i < N; i++) begin
    order[i*A +: A] = i;
    for (int j = 0; j < N; j++) newer[i*N+j] = i > j;
  end
  logic found;
  always_ff @(posedge clk) if (use_ && who < N) begin
    for (int i = 0; i < N; i++) for (int j = 0; j < N; j++) begin
      if (who == i && i != j) newer[i*N+j] <= 1;
      if (who == j) newer[i*N+j] <= BUG && i == j + 1 && order[A-1:0] == j ? newer[i*N+j] : 0;
    end
    found = 0;
    for (int i = 0; i < N; i++) begin
      if (order[i*A +: A] == who) found = 1;
      if (found) order[i*A +: A] <= i == N - 1 ? who : order[((i + 1) % N) * A +: A];
    end
  end
  genvar g, h;
  generate for (g = 0; g < N; g = g + 1) begin : one
    always_comb assert ((newer[g*N +: N] == 0) == (order[A-1:0] == g));
    for (h = 0; h < g; h = h + 1) begin : two
      always_comb assert (newer[g*N+h] != newer[h*N+g]);
    end
  end endgenerate
endmodule
"""


@design("cone", N=(25, 80, 250))
def small_part():
    """Multipliers that nothing asks about, beside an arbiter in a corner: at most one is granted."""
    return """
module top #(parameter N = 25, BUG = 0) (input clk, input [7:0] ask, input [31:0] x);
  // What no assert needs is dropped, but for this.
  (* keep *) wire [32*(N+1)-1:0] words;
  assign words[31:0] = x;
  genvar g;
  generate for (g = 0; g < N; g = g + 1) begin : one
    stage s(.clk(clk), .x(words[32*g +: 32]), .y(words[32*(g+1) +: 32]));
  end endgenerate
  corner #(.BUG(BUG)) c(.clk(clk), .ask(ask));
endmodule

module stage(input clk, input [31:0] x, output logic [31:0] y);
  logic [31:0] a = 1;
  logic [15:0] b = 3;
  initial y = 0;
  always_ff @(posedge clk) begin
    a <= a * 5 + x;
    b <= b ^ a[15:0];
    y <= a[15:0] * b + {x[0], a[31:1]};
  end
endmodule

module corner #(parameter BUG = 0) (input clk, input [7:0] ask);
  logic [7:0] last = 1, grant = 0, next;
  logic found;
  always_comb begin
    next = 0;
    found = 0;
    for (int i = 1; i <= 8; i++)
      for (int j = 0; j < 8; j++)
        if (last[j] && ask[(i + j) % 8] && !found) begin
          next[(i + j) % 8] = 1;
          found = !BUG || i + j != 8;
        end
  end
  always_ff @(posedge clk) begin
    grant <= next;
    if (found) last <= next;
  end
  always_comb assert ((grant & (grant - 1)) == 0);
endmodule
"""
