"""Designs of codes, ciphers and serial links: what was sent comes back."""

from .designs import design


@design(R=(2, 4, 8), W=(4, 8, 16))
def cipher():
    """A cipher of Feistel's kind in stages, and its inverse behind it: the word that went in comes out."""
    return """
module top #(parameter R = 2, W = 4, BUG = 0) (input clk, input [2*W-1:0] word, input [W-1:0] key);
  logic [(2*R+1)*2*W-1:0] stages = 0;
  logic [2*R*2*W-1:0] late = 0;
  logic [(2*R)*W-1:0] keys = 0;
  logic [$clog2(2*R+1)-1:0] filled = 0;
  wire [2*W-1:0] first = word;
  function [W-1:0] mix(input [W-1:0] x, input [W-1:0] k);
    mix = ({x[W-2:0], x[W-1]} & x) ^ ({x[W-3:0], x[W-1:W-2]} + k);
  endfunction
  logic [W-1:0] l, r, k;
  always_ff @(posedge clk) begin
    if (filled != 2 * R) filled <= filled + 1;
    late <= {late[(2*R-1)*2*W-1:0], word};
    keys <= {keys[(2*R-1)*W-1:0], key};
    for (int i = 0; i < 2 * R; i++) begin
      {l, r} = i == 0 ? first : stages[i*2*W +: 2*W];
      k = i == 0 ? key : keys[(i-1)*W +: W];
      // Round i has the key shifted by its place; the second half goes back.
      if (i < R) stages[(i+1)*2*W +: 2*W] <= {r, l ^ mix(r, k + i)};
      else stages[(i+1)*2*W +: 2*W] <= {r ^ mix(l, k + 2 * R - 1 - i), l ^ (BUG && i == R && l == 5 && k == 3)};
    end
  end
  always_comb assert (filled != 2 * R || stages[2*R*2*W +: 2*W] == late[(2*R-1)*2*W +: 2*W]);
endmodule
"""


@design(W=(8, 16, 32))
def check_sum():
    """A cyclic check of a word, by bits and by four bits at once: it is the same at the end of a word."""
    return """
module top #(parameter W = 8, BUG = 0) (input clk, input start, input [W-1:0] word);
  logic [W-1:0] slow = 0, fast = 0;
  logic [7:0] a = 0, b = 0, f;
  logic [$clog2(W+1)-1:0] count = 0, quick = 0;
  function [7:0] shifted(input [7:0] c, input d);
    shifted = {c[6:0], 1'b0} ^ (c[7] ^ d ? 8'h07 : 8'h00);
  endfunction
  always_ff @(posedge clk)
    if (count == 0 && start) begin
      {slow, fast, a, b} <= {word, word, 16'b0};
      count <= W;
      quick <= W / 4;
    end else if (count != 0) begin
      a <= shifted(a, slow[W-1]);
      slow <= slow << 1;
      count <= count - 1;
      if (quick != 0) begin
        f = b;
        for (int i = 1; i <= 4; i++) f = shifted(f, fast[W-i] ^ (BUG && i == 4 && quick == 1 && b == 7));
        b <= f;
        fast <= fast << 4;
        quick <= quick - 1;
      end
    end
  always_comb assert (count != 0 || a == b);
endmodule
"""


@design(W=(4, 8, 16))
def scrambler():
    """A scrambler that feeds what it sends back, and its inverse, which starts in any state: after a while all is right."""
    return """
module top #(parameter W = 4, BUG = 0) (input clk, input bit_, input [W-1:0] start, input set);
  logic [W-1:0] a = 0, b = 0;
  logic [$clog2(W+1)-1:0] count = 0;
  logic sent = 0, line = 0, line_late = 0, out;
  wire coded = bit_ ^ a[W-1] ^ a[W/2-1];
  always_ff @(posedge clk) begin
    a <= {a[W-2:0], coded};
    line <= coded;
    sent <= bit_;
    b <= {b[W-2:0], line ^ (BUG && a == 5 && b == 3)};
    if (set) begin
      b <= start;
      count <= 0;
    end else if (count != W) count <= count + 1;
  end
  assign out = line ^ b[W-1] ^ b[W/2-1];
  always_comb assert (count != W || out == sent);
endmodule
"""


@design(N=(3, 4, 6), W=(1, 2, 4))
def interleaver():
    """Words go by turns through lines of rising lengths, and then through falling ones: they come out in their order."""
    return """
module top #(parameter N = 3, W = 1, BUG = 0) (input clk, input [W-1:0] word, input step);
  localparam D = N * (N - 1);
  logic [$clog2(N)-1:0] turn = 0;
  logic [N*N*W-1:0] there = 0, back = 0;
  logic [D*W-1:0] late = 0;
  logic [W-1:0] middle, out;
  // Line i holds i words on the way there, and N - 1 - i on the way back.
  always_comb begin
    middle = word;
    for (int i = 1; i < N; i++) if (turn == i) middle = there[(i*N+i-1)*W +: W];
    out = middle;
    for (int i = 0; i < N - 1; i++) if (turn == i) out = back[(i*N+N-2-i)*W +: W];
  end
  always_ff @(posedge clk) if (step) begin
    turn <= turn == N - 1 ? 0 : turn + 1;
    late <= {late[(D-1)*W-1:0], word};
    for (int i = 0; i < N; i++) if (turn == i) begin
      there[i*N*W +: N*W] <= {there[i*N*W +: (N-1)*W], word};
      back[i*N*W +: N*W] <= {back[i*N*W +: (N-1)*W], middle ^ (BUG && i == 1 && there[W-1:0] == 1 && word == 0)};
    end
  end
  always_comb assert (out == late[(D-1)*W +: W]);
endmodule
"""


@design(W=(4, 8, 16), D=(2, 3, 4))
def serial_line():
    """A sender of start bit, word and stop bit, and a receiver that samples in the middle: the word comes over."""
    return """
module top #(parameter W = 4, D = 2, BUG = 0) (input clk, input send, input [W-1:0] word);
  localparam L = W + 2, C = $clog2(L + 2), T = $clog2(2 * D);
  logic [W+1:0] shift = '1;
  logic [C-1:0] left = 0, got = 0;
  logic [T-1:0] wait_ = 0, pause = 0;
  logic line = 1, has = 0;
  logic [W-1:0] sent = 0, taken = 0;
  always_ff @(posedge clk) begin
    line <= left != 0 ? shift[0] : 1;
    if (left == 0) begin
      if (send && got == 0) begin
        shift <= {1'b1, word, 1'b0};
        left <= L;
        wait_ <= D - 1;
        sent <= word;
      end
    end else if (wait_ != 0) wait_ <= wait_ - 1;
    else begin
      shift <= shift >> 1;
      left <= left - 1;
      wait_ <= D - 1;
    end
    has <= 0;
    if (got == 0) begin
      if (!line) begin
        got <= W + 1;
        pause <= BUG && sent == 9 ? 2 * D - 1 : D - 1;
      end
    end else if (pause != 0) pause <= pause - 1;
    else begin
      pause <= D - 1;
      got <= got - 1;
      if (got != 1) taken <= {line, taken[W-1:1]};
      else has <= 1;
    end
  end
  always_comb assert (!has || taken == sent);
endmodule
"""


@design(W=(4, 8, 16))
def exchange():
    """Two sides with shift registers that exchange their words bit by bit, on the edges of a slow clock."""
    return """
module top #(parameter W = 4, BUG = 0) (input clk, input start, input [W-1:0] x, input [W-1:0] y, input slow);
  logic [W-1:0] a = 0, b = 0, x0 = 0, y0 = 0;
  logic [$clog2(W+1)-1:0] left = 0;
  logic phase = 0, da = 0, db = 0, done = 0;
  always_ff @(posedge clk)
    if (left == 0) begin
      if (start) begin
        {a, x0, b, y0} <= {x, x, y, y};
        left <= W;
        phase <= 0;
        done <= 0;
      end
    end else if (!slow) begin
      phase <= !phase;
      if (!phase) {da, db} <= {a[W-1], b[W-1]};
      else begin
        a <= {a[W-2:0], db};
        b <= {b[W-2:0], da ^ (BUG && left == 1 && b == 4)};
        left <= left - 1;
        done <= left == 1;
      end
    end
  always_comb assert (!done || (a == y0 && b == x0));
endmodule
"""


@design(W=(3, 5, 8))
def stuffing():
    """Bits in which a zero follows each run of ones, and a receiver that drops it: the bits come out in order."""
    return """
module top #(parameter W = 3, BUG = 0) (input clk, input bit_, input give);
  // The last W bits that went in stand beside the last W that came out.
  localparam K = 3;
  logic [W-1:0] went = 0, came = 0;
  logic [1:0] run = 0, seen = 0;
  logic line = 0, valid = 0, stuffs;
  assign stuffs = run == K;
  always_ff @(posedge clk) begin
    valid <= stuffs || give;
    line <= !stuffs && bit_;
    if (stuffs) run <= 0;
    else if (give) begin
      run <= bit_ ? run + 1 : BUG && came == 5 && run == 2;
      went <= {went[W-2:0], bit_};
    end
    if (valid) begin
      if (seen == K) seen <= 0;
      else begin
        seen <= line ? seen + 1 : 0;
        came <= {came[W-2:0], line};
      end
    end
  end
  wire waits = valid && seen != K;
  always_comb assert (waits ? came[W-2:0] == went[W-1:1] && line == went[0] : came == went);
endmodule
"""


@design(W=(4, 8, 16))
def inverted_bus():
    """Words go over a bus inverted where that changes fewer lines: few lines change, and the words come over."""
    return """
module top #(parameter W = 4, BUG = 0) (input clk, input [W-1:0] word, input hold);
  logic [W-1:0] bus = 0, sent = 0, out = 0, late = 0, before = 0;
  logic inverted = 0;
  logic [$clog2(W+2)-1:0] changed, changes;
  always_comb begin
    changed = 0;
    for (int i = 0; i < W; i++) changed = changed + (bus[i] ^ word[i]);
    changes = 0;
    for (int i = 0; i < W; i++) changes = changes + (bus[i] ^ before[i]);
  end
  always_ff @(posedge clk) if (!hold) begin
    before <= bus;
    inverted <= changed > W / 2;
    bus <= changed > W / 2 + (BUG && word == 5 && sent == 2) ? ~word : word;
    sent <= word;
    out <= inverted ? ~bus : bus;
    late <= sent;
  end
  always_comb assert (out == late && changes <= W / 2);
endmodule
"""


@design(W=(4, 6, 10))
def balanced_line():
    """Words that are sent as they are or inverted, so that ones and zeros level out: their difference stays small."""
    return """
module top #(parameter W = 4, BUG = 0) (input clk, input [W-1:0] word, input go);
  localparam S = $clog2(W) + 3;
  logic signed [S-1:0] level = 0, weight;
  always_comb begin
    weight = -W;
    for (int i = 0; i < W; i++) weight = weight + (word[i] ? 2 : 0);
  end
  always_ff @(posedge clk) if (go)
    if ((level > 0) == (weight > 0) && !(BUG && level == 2 && word == '1)) level <= level - weight;
    else level <= level + weight;
  always_comb assert (level <= W && level >= -W);
endmodule
"""


@design(P=(8, 32, 120))
def two_registers():
    """Two shift registers with feedback by equal taps, of which one starts later and waits for the other: they agree."""
    return """
module top #(parameter P = 8, BUG = 0) (input clk, input step, input late, input seed);
  logic [P-1:0] a = 1, b = 1;
  logic [2:0] ahead = 0;
  logic [6:0] bits = 0;
  wire fa = a[P-1] ^ a[P/3] ^ a[1], fb = b[P-1] ^ b[P/3] ^ b[1];
  wire goes_a = step && ahead != 7, goes_b = late && ahead != 0;
  always_ff @(posedge clk) begin
    if (goes_a) begin
      a <= {a[P-2:0], fa};
      bits <= {bits[5:0], fa};
    end
    if (goes_b) b <= {b[P-2:0], fb ^ (BUG && ahead == 7 && b[3:0] == 9)};
    ahead <= ahead + goes_a - goes_b;
  end
  always_comb assert (ahead != 0 || a == b);
endmodule
"""
