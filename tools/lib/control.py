"""Designs of control: arbiters, locks, links by hand, schedulers and controllers."""

from .designs import design


@design(N=(4, 12, 32))
def round_robin():
    """An arbiter whose turn begins behind the last grant: at most one is granted."""
    return """
module top #(parameter N = 4, BUG = 0) (input clk, input [N-1:0] ask);
  logic [N-1:0] last = 1, grant = 0, next;
  logic found;
  always_comb begin
    next = 0;
    found = 0;
    for (int i = 1; i <= N; i++)
      for (int j = 0; j < N; j++)
        if (last[j] && ask[(i + j) % N] && !found) begin
          next[(i + j) % N] = 1;
          found = !BUG || i + j != N;
        end
  end
  always_ff @(posedge clk) begin
    grant <= next;
    if (found) last <= next;
  end
  always_comb assert ((grant & (grant - 1)) == 0);
endmodule
"""


@design(N=(4, 32, 128))
def arbiter_tree():
    """A tree of arbiters of two; who was granted keeps it while it asks, and no other is granted."""
    return """
module top #(parameter N = 4, BUG = 0) (input clk, input [N-1:0] ask);
  // Node i has the children 2i and 2i + 1; those from N on are the inputs.
  logic [2*N-1:0] wants, gets;
  logic [N-1:0] side = 0, grant = 0;
  always_comb begin
    wants[2*N-1:N] = ask;
    wants[0] = 0;
    for (int i = N - 1; i > 0; i--) wants[i] = wants[2*i] || wants[2*i+1];
    gets = 0;
    gets[1] = wants[1];
    for (int i = 1; i < N; i++) begin
      gets[2*i] = gets[i] && wants[2*i] && !(wants[2*i+1] && side[i]);
      gets[2*i+1] = gets[i] && wants[2*i+1] && !(wants[2*i] && !side[i] && !(BUG && side[1] && side[2]));
    end
  end
  always_ff @(posedge clk) begin
    if ((grant & ask) == 0) begin
      grant <= gets[2*N-1:N];
      for (int i = 1; i < N; i++) if (gets[i]) side[i] <= gets[2*i];
    end else grant <= grant & ask;
  end
  always_comb assert ((grant & (grant - 1)) == 0);
endmodule
"""


@design(N=(4, 8, 24))
def arbiter_matrix():
    """An arbiter by a matrix of who waits longer: at most one is granted."""
    return """
module top #(parameter N = 4, BUG = 0) (input clk, input [N-1:0] ask);
  logic [N*N-1:0] older;
  initial for (int i = 0; i < N; i++) for (int j = 0; j < N; j++) older[i*N+j] = i < j;
  logic [N-1:0] grant;
  always_comb for (int i = 0; i < N; i++) begin
    grant[i] = ask[i];
    for (int j = 0; j < N; j++) if (ask[j] && older[j*N+i]) grant[i] = 0;
  end
  always_ff @(posedge clk)
    for (int i = 0; i < N; i++) for (int j = 0; j < N; j++)
      if (grant[i] && i != j) begin
        older[i*N+j] <= 0;
        if (!(BUG && i == N - 1 && j == 0)) older[j*N+i] <= 1;
      end
  always_comb assert ((grant & (grant - 1)) == 0);
endmodule
"""


@design(N=(3, 5, 8), K=(2, 3, 5))
def semaphore():
    """A count of K units that N users take and give back: it is K less those that are held."""
    return """
module top #(parameter N = 4, K = 2, BUG = 0) (input clk, input [$clog2(N)-1:0] who, input [$clog2(N)-1:0] other);
  localparam W = $clog2(K + 1) + 1;
  logic [N-1:0] held = 0, take, give;
  logic [W-1:0] units = K, sum;
  always_comb begin
    take = 0;
    give = 0;
    assume (who < N && other < N);
    if (!held[who] && units != 0) take[who] = 1;
    if (held[other]) give[other] = 1;
    sum = units;
    for (int i = 0; i < N; i++) sum = sum + held[i];
  end
  always_ff @(posedge clk) begin
    held <= (held | take) & ~give;
    if (BUG && take != 0 && give != 0 && units == 1) units <= 1 + 1;
    else units <= units - (take != 0) + (give != 0);
  end
  always_comb assert (sum == K);
endmodule
"""


@design(N=(3, 8, 16))
def philosophers():
    """Philosophers take a fork of each side in turn: neighbours do not eat at once."""
    return """
module top #(parameter N = 4, BUG = 0) (input clk, input [N-1:0] hungry, input [N-1:0] full);
  logic [N-1:0] left = 0, right = 0, eats = 0, fork_ = '1;
  logic [$clog2(N)-1:0] turn = 0;
  wire [$clog2(N)-1:0] after = turn == N - 1 ? 0 : turn + 1;
  always_ff @(posedge clk) begin
    turn <= after;
    if (eats[turn] && full[turn]) begin
      eats[turn] <= 0;
      left[turn] <= 0;
      right[turn] <= 0;
      fork_[turn] <= 1;
      fork_[after] <= 1;
    end else if (left[turn] && right[turn]) eats[turn] <= 1;
    else if (hungry[turn] && !left[turn] && fork_[turn]) begin
      left[turn] <= 1;
      fork_[turn] <= 0;
    end else if (left[turn] && (fork_[after] || (BUG && hungry == '1 && full == '1))) begin
      right[turn] <= 1;
      fork_[after] <= 0;
    end
  end
  always_comb assert ((eats & {eats[0], eats[N-1:1]}) == 0);
endmodule
"""


@design(N=(4, 12, 40))
def interrupts():
    """Interrupts that break in on lower ones: the level is the highest one that is served."""
    return """
module top #(parameter N = 4, BUG = 0) (input clk, input [N-1:0] line, input done);
  localparam W = $clog2(N + 1);
  logic [N-1:0] served = 0, waiting = 0, rest;
  logic [W-1:0] level = 0, highest, next, top_;
  always_comb begin
    next = 0;
    top_ = 0;
    highest = 0;
    rest = served;
    for (int i = 0; i < N; i++) if (waiting[i]) next = i + 1;
    for (int i = 0; i < N; i++) if (level == i + 1) rest[i] = 0;
    for (int i = 0; i < N; i++) if (rest[i]) top_ = i + 1;
    for (int i = 0; i < N; i++) if (served[i]) highest = i + 1;
  end
  always_ff @(posedge clk) begin
    waiting <= waiting | line;
    if (next > level) begin
      for (int i = 0; i < N; i++) if (next == i + 1) begin
        served[i] <= 1;
        waiting[i] <= line[i];
      end
      level <= next;
    end else if (done && level != 0) begin
      served <= rest;
      level <= BUG && level == N ? next : top_;
    end
  end
  always_comb assert (level == highest);
endmodule
"""


@design(N=(2, 4, 8), T=(3, 12, 60))
def crossing():
    """Lights of ways that cross, with a time of green and one of yellow: at most one way is not red."""
    return """
module top #(parameter N = 2, T = 3, BUG = 0) (input clk, input [N-1:0] cars);
  localparam W = $clog2(T + 1);
  logic [N-1:0] green = 1, yellow = 0;
  logic [W-1:0] timer = T;
  wire [N-1:0] open = green | yellow;
  always_ff @(posedge clk)
    if (timer != 0) timer <= timer - 1;
    else if (green != 0 && (cars & ~green) != 0) begin
      yellow <= green;
      green <= 0;
      timer <= T / 3;
    end else if (yellow != 0) begin
      green <= {yellow[N-2:0], yellow[N-1]};
      yellow <= BUG && cars == '1 ? yellow & ~cars[0] : 0;
      timer <= T;
    end
  always_comb assert ((open & (open - 1)) == 0);
endmodule
"""


@design(N=(3, 4, 6))
def split_bus():
    """A bus that answers later, in the order of a queue of masters: an answer goes to one that waits."""
    return """
module top #(parameter N = 4, BUG = 0) (input clk, input [N-1:0] ask, input ready, input answer);
  localparam W = $clog2(N);
  logic [W*N-1:0] ids = 0;
  logic [$clog2(N+1)-1:0] count = 0;
  logic [N-1:0] waits = 0;
  logic [W-1:0] chosen;
  logic any;
  always_comb begin
    chosen = 0;
    any = 0;
    for (int i = 0; i < N; i++) if (ask[i] && !waits[i]) begin
      chosen = i;
      any = 1;
    end
  end
  wire push = any && ready, pop = answer && count != 0;
  always_ff @(posedge clk) begin
    if (push) waits[chosen] <= 1;
    if (pop && !(BUG && push && count == N - 1)) ids <= ids >> W;
    if (pop) waits[ids[W-1:0]] <= 0;
    for (int i = 0; i < N; i++) if (push && count - pop == i) ids[i*W +: W] <= chosen;
    count <= count + push - pop;
  end
  always_comb assert (!pop || waits[ids[W-1:0]]);
endmodule
"""


@design(W=(4, 16, 64))
def four_phases():
    """A word goes over by request and acknowledgement, each seen two moments later: what is taken was sent."""
    return """
module top #(parameter W = 4, BUG = 0) (input clk, input send, input [W-1:0] word, input slow);
  logic request = 0, r1 = 0, r2 = 0, acknowledge = 0, a1 = 0, a2 = 0, has = 0;
  logic [W-1:0] line = 0, sent = 0, taken = 0;
  always_ff @(posedge clk) begin
    {r2, r1} <= {r1, request};
    {a2, a1} <= {a1, acknowledge};
    if (!request && !a2 && send) begin
      request <= 1;
      line <= word;
      sent <= word;
    end else if (request && a2) request <= 0;
    if (BUG && request && !acknowledge && word == line + 1) line <= word;
    if (r2 && !acknowledge && !slow) begin
      acknowledge <= 1;
      taken <= line;
      has <= 1;
    end else if (!r2) acknowledge <= 0;
  end
  always_comb assert (!(acknowledge && r2 && has) || taken == sent);
endmodule
"""


@design(W=(3, 6, 16))
def alternating_bit():
    """Numbered words over a line that loses some, by the alternating bit: they come once each, in order."""
    return """
module top #(parameter W = 4, BUG = 0) (input clk, input send, input lose, input answer, input drop);
  logic [W-1:0] next = 0, got = 0, word = 0;
  logic bit_ = 0, expected = 0, full = 0, tag = 0, back = 0, back_tag = 0, wrong = 0;
  always_ff @(posedge clk) begin
    if (send && !full && !lose) begin
      full <= 1;
      tag <= bit_;
      word <= next;
    end
    if (answer && full) begin
      full <= 0;
      back <= !drop;
      back_tag <= tag;
      if (tag == expected || (BUG && drop && got == 3)) begin
        wrong <= wrong || word != got;
        got <= got + 1;
        expected <= !expected;
      end
    end else if (back) begin
      back <= 0;
      if (back_tag == bit_) begin
        bit_ <= !bit_;
        next <= next + 1;
      end
    end
  end
  always_comb assert (!wrong);
endmodule
"""


@design(N=(3, 6, 12), D=(1, 2, 3))
def credits():
    """A sender has a credit for each place of a buffer behind a delay: the buffer does not overflow."""
    return """
module top #(parameter N = 3, D = 1, BUG = 0) (input clk, input send, input take);
  localparam W = $clog2(N + 1) + 1;
  logic [W-1:0] credit = N, used = 0;
  logic [D:0] there = 0, back = 0;
  wire out = send && credit != 0;
  wire in = there[D];
  wire freed = take && used != 0;
  always_ff @(posedge clk) begin
    there <= {there[D-1:0], out};
    back <= {back[D-1:0], freed};
    credit <= credit - out + back[D] + (BUG && out && back == '1);
    used <= used + in - freed;
  end
  always_comb assert (used <= N);
endmodule
"""


@design(N=(2, 4, 16), T=(6, 20, 200))
def refresh():
    """A controller of memory banks: rows are shut when it refreshes, and it does so in time."""
    return """
module top #(parameter N = 2, T = 6, BUG = 0) (input clk, input ask, input [$clog2(N)-1:0] bank, input [3:0] row);
  localparam W = $clog2(T + 4 * N + 8);
  logic [N-1:0] open = 0;
  logic [4*N-1:0] rows = 0;
  logic [W-1:0] since = 0;
  logic [1:0] busy = 0;
  logic refreshes = 0;
  wire due = since >= T;
  always_ff @(posedge clk) begin
    since <= since + 1;
    refreshes <= 0;
    if (busy != 0) busy <= busy - 1;
    else if (due) begin
      if (open == 0 || (BUG && open == 1 && rows[3:0] == 9)) begin
        refreshes <= 1;
        since <= 0;
        busy <= 3;
      end else begin
        for (int i = N - 1; i >= 0; i--) if (open[i]) open <= open & ~(1 << i);
        busy <= 1;
      end
    end else if (ask) begin
      busy <= 1;
      if (!open[bank]) begin
        open[bank] <= 1;
        rows[4*bank +: 4] <= row;
      end else if (rows[4*bank +: 4] != row) open[bank] <= 0;
    end
  end
  always_comb assert (!(refreshes && open != 0) && since < T + 2 * N + 6);
endmodule
"""


@design(W=(3, 5, 8))
def copier():
    """A copier of words in bursts: what is done and what is left are the whole."""
    return """
module top #(parameter W = 3, BUG = 0) (input clk, input start, input [W-1:0] length, input ready);
  logic [W-1:0] left = 0, source = 0, target = 0, whole = 0;
  logic [1:0] burst = 0;
  logic busy = 0;
  always_ff @(posedge clk)
    if (!busy) begin
      if (start && length != 0) begin
        busy <= 1;
        left <= length;
        whole <= length;
        source <= 0;
        target <= 0;
        burst <= 0;
      end
    end else if (ready) begin
      if (burst != 3 && source - target < 4 && source != whole) begin
        burst <= burst + 1;
        source <= source + 1;
      end else begin
        burst <= 0;
        target <= source;
        left <= left - (source - target) - (BUG && source - target == 3 && left == 5);
        if (left == source - target) busy <= 0;
      end
    end
  always_comb assert (!busy || left + target == whole);
endmodule
"""


@design(N=(4, 8, 24))
def debounce():
    """A key that bounces, by a counter and by a shift register: they say the same."""
    return """
module top #(parameter N = 4, BUG = 0) (input clk, input key);
  logic [N-1:0] past = 0;
  logic [$clog2(N+1)-1:0] count = 0;
  logic one = 0, two = 0;
  wire [N-1:0] now = {past[N-2:0], key};
  always_ff @(posedge clk) begin
    past <= now;
    if (now == '1) one <= 1;
    else if (now == 0) one <= 0;
    if (key == two) count <= 0;
    else if (count == N - 1 - (BUG && two)) begin
      two <= key;
      count <= 0;
    end else count <= count + 1;
  end
  always_comb assert (one == two);
endmodule
"""


@design(N=(3, 12, 150), W=(3, 8, 24))
def timers():
    """Timers that ring in the order of their places: a flag is set only of one that has run down."""
    return """
module top #(parameter N = 3, W = 3, BUG = 0)
  (input clk, input [$clog2(N)-1:0] who, input set, input [W-1:0] time_, input hear);
  logic [N*W-1:0] left = 0;
  logic [N-1:0] runs = 0, rings = 0;
  logic bad;
  always_ff @(posedge clk) begin
    for (int i = 0; i < N; i++)
      if (set && who == i && !runs[i] && time_ != 0) begin
        runs[i] <= 1;
        left[i*W +: W] <= time_;
      end else if (runs[i] && !rings[i]) begin
        left[i*W +: W] <= left[i*W +: W] - 1;
        if (left[i*W +: W] == 1 + (BUG && i == N - 1 && rings[0])) rings[i] <= 1;
      end else if (rings[i] && hear && who == i) begin
        rings[i] <= 0;
        runs[i] <= 0;
      end
  end
  always_comb begin
    bad = 0;
    for (int i = 0; i < N; i++) if (rings[i] && !(runs[i] && left[i*W +: W] == 0)) bad = 1;
    assert (!bad);
  end
endmodule
"""


@design(S=(3, 6, 10), K=(3, 5, 12))
def slots():
    """Slots of a frame with their moments, beside one count of all: slot times length and moment are the count."""
    return """
module top #(parameter S = 3, K = 3, BUG = 0) (input clk, input run, input sync);
  localparam W = $clog2(S * K + 1);
  logic [W-1:0] slot = 0, moment = 0, count = 0;
  always_ff @(posedge clk)
    if (sync && slot == S / 2) begin
      slot <= 0;
      moment <= 0;
      count <= 0;
    end else if (run) begin
      count <= count == S * K - 1 ? 0 : count + 1;
      moment <= moment == K - 1 ? 0 : moment + 1;
      if (moment == K - 1) slot <= slot == S - 1 - (BUG && sync) ? 0 : slot + 1;
    end
  always_comb assert (slot * K + moment == count);
endmodule
"""


@design(N=(3, 6, 10), W=(4, 8, 12))
def crossbar():
    """Words go from inputs to outputs that they name; an output that is taken has the word of the one that it took."""
    return """
module top #(parameter N = 3, W = 4, BUG = 0)
  (input clk, input [N-1:0] valid, input [N*W-1:0] words, input [N*$clog2(N)-1:0] targets);
  localparam A = $clog2(N);
  logic [N*W-1:0] out = 0, again = 0;
  logic [N*A-1:0] from = 0, last = 0;
  logic [N-1:0] has = 0;
  logic [N*W-1:0] past = 0;
  logic bad;
  always_ff @(posedge clk) begin
    has <= 0;
    past <= words;
    for (int o = 0; o < N; o++)
      for (int k = 0; k < N; k++)
        if (valid[k] && targets[k*A +: A] == o && !(last[o*A +: A] == k && valid[0])) begin
          has[o] <= 1;
          from[o*A +: A] <= k;
          out[o*W +: W] <= words[(BUG && o == 1 && last[A-1:0] == 2 ? 0 : k) * W +: W];
          last[o*A +: A] <= k;
        end
  end
  always_comb begin
    bad = 0;
    for (int o = 0; o < N; o++)
      for (int k = 0; k < N; k++)
        if (has[o] && from[o*A +: A] == k && out[o*W +: W] != past[k*W +: W]) bad = 1;
    assert (!bad);
  end
endmodule
"""


@design(N=(4, 9, 20))
def lift():
    """A lift serves calls in the direction in which it goes: it moves only shut, and stays between its floors."""
    return """
module top #(parameter N = 4, BUG = 0) (input clk, input [N-1:0] call, input held);
  localparam W = $clog2(N + 1);
  logic [N-1:0] calls = 0;
  logic [W-1:0] floor = 0;
  logic up = 1, door = 0, moves = 0;
  wire [N-1:0] here = 1 << floor;
  wire above = (calls & ~((here << 1) - 1)) != 0, below = (calls & (here - 1)) != 0;
  always_ff @(posedge clk) begin
    calls <= (calls | call) & ~(door ? here : 0);
    if (moves) begin
      floor <= up ? floor + 1 : floor - 1;
      moves <= 0;
    end else if (door) door <= held;
    else if ((calls & here) != 0) door <= 1;
    else if (up ? above : below) begin
      moves <= 1;
      if (BUG && held && floor == N - 2) door <= 1;
    end else if (above || below) up <= !up;
  end
  always_comb assert (floor < N && !(door && moves));
endmodule
"""


@design(N=(3, 7, 15))
def election():
    """Stations of a ring send numbers on, and swallow smaller ones: at most one sees its own come back."""
    return """
module top #(parameter N = 3, BUG = 0) (input clk, input [N-1:0] go, input [$clog2(N)-1:0] first);
  localparam W = $clog2(N) + 1;
  logic [N*W-1:0] message = 0;
  logic [N-1:0] leader = 0, started = 0;
  logic [W-1:0] m;
  // Station i has the number i * 2 + 1 modulo a power of two.
  always_ff @(posedge clk)
    for (int i = 0; i < N; i++) begin
      m = message[((i + N - 1) % N) * W +: W];
      message[i*W +: W] <= 0;
      if (go[i] && !started[i]) begin
        started[i] <= 1;
        message[i*W +: W] <= i + 1;
        if (m > i + 1) message[i*W +: W] <= m;
      end else if (m == i + 1) leader[i] <= 1;
      else if (m > i + 1 || (BUG && m == i && first == i && started[i])) message[i*W +: W] <= m;
    end
  always_comb assert ((leader & (leader - 1)) == 0);
endmodule
"""
