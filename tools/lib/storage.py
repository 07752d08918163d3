"""Designs that store: queues, stacks, caches, tables, memories and lists of what is free."""

from .designs import design


@design(N=(4, 8, 16), W=(2, 4, 8))
def two_queues():
    """A queue in a ring and one that shifts: their first words and lengths are the same."""
    return """
module top #(parameter N = 4, W = 2, BUG = 0) (input clk, input push, input pop, input [W-1:0] word);
  localparam A = $clog2(N);
  logic [N*W-1:0] ring = 0, line = 0, shifted;
  logic [A-1:0] head = 0, tail = 0;
  logic [A:0] count = 0;
  wire in = push && count != N, out = pop && count != 0;
  assign shifted = out ? line >> W : line;
  always_ff @(posedge clk) begin
    count <= count + in - out;
    head <= head + out;
    tail <= tail + in;
    line <= shifted;
    for (int i = 0; i < N; i++) begin
      if (in && tail == i) ring[i*W +: W] <= word;
      if (in && count - out == i + (BUG && out && i == N - 2 && word == 1)) line[i*W +: W] <= word;
    end
  end
  always_comb assert (count == 0 || ring[head*W +: W] == line[W-1:0]);
endmodule
"""


@design(W=(3, 6, 12))
def skid():
    """Stages with a place for the word that comes while they stop: numbers come out in their order."""
    return """
module top #(parameter W = 3, BUG = 0) (input clk, input give, input take);
  logic [W-1:0] next = 0, wanted = 0, a = 0, b = 0, c = 0, d = 0;
  logic va = 0, vb = 0, vc = 0, vd = 0;
  // A stage has a word (a, c), and one behind it (b, d) where it could not go on.
  wire ready1 = !vb, ready2 = !vd;
  wire in = give && ready1, middle = va && ready2, out = vc && take;
  always_ff @(posedge clk) begin
    if (in) next <= next + 1;
    if (middle || !va) begin
      va <= vb || in;
      a <= vb ? b : next;
      vb <= 0;
    end else if (in) begin
      vb <= 1;
      b <= next;
    end
    if (out || !vc) begin
      vc <= vd || middle;
      c <= vd ? d : a;
      vd <= BUG && vd && va && next == 5;
    end else if (middle) begin
      vd <= 1;
      d <= a;
    end
    if (out) wanted <= wanted + 1;
  end
  always_comb assert (!vc || c == wanted);
endmodule
"""


@design(A=(2, 3, 4))
def gray_queue():
    """The ends of a queue, which the other side sees in Gray's code two moments late: it holds at most its places."""
    return """
module top #(parameter A = 2, BUG = 0) (input clk, input push, input pop, input left, input right);
  logic [A:0] head = 0, tail = 0, h1 = 0, h2 = 0, t1 = 0, t2 = 0, seen_head, seen_tail;
  always_comb begin
    seen_head[A] = h2[A];
    seen_tail[A] = t2[A];
    for (int i = A - 1; i >= 0; i--) begin
      seen_head[i] = seen_head[i+1] ^ h2[i];
      seen_tail[i] = seen_tail[i+1] ^ t2[i];
    end
  end
  wire [A:0] room = tail - seen_head, there = seen_tail - head, used = tail - head;
  always_ff @(posedge clk) begin
    if (left) begin
      if (push && (room < (1 << A) || (BUG && pop && tail == 5))) tail <= tail + 1;
      h1 <= head ^ (head >> 1);
      h2 <= h1;
    end
    if (right) begin
      if (pop && there != 0) head <= head + 1;
      t1 <= tail ^ (tail >> 1);
      t2 <= t1;
    end
  end
  always_comb assert (used <= (1 << A));
endmodule
"""


@design(N=(4, 8, 16), W=(2, 4, 8))
def stack():
    """A stack with its height, and a word that was marked: it comes back as it was pushed."""
    return """
module top #(parameter N = 4, W = 2, BUG = 0) (input clk, input push, input pop, input mark, input [W-1:0] word);
  localparam A = $clog2(N);
  logic [W-1:0] items [0:N-1];
  logic [A:0] height = 0, place = 0;
  logic marked = 0;
  logic [W-1:0] kept = 0;
  wire [A:0] below = height - 1;
  wire in = push && height != N, out = pop && !push && height != 0;
  wire [W-1:0] first = items[below[A-1:0]];
  always_ff @(posedge clk) begin
    if (in) items[height[A-1:0] - (BUG && word == '1 && height == N / 2 && kept == 1)] <= word;
    height <= height + in - out;
    if (in && mark && !marked) begin
      marked <= 1;
      place <= height;
      kept <= word;
    end
    if (out && marked && place == below) marked <= 0;
  end
  always_comb assert (!(out && marked && place == below && first != kept) && height <= N);
endmodule
"""


@design(K=(2, 4, 8), W=(2, 3, 4))
def packer():
    """Digits are packed into words and taken apart again: they come out in their order."""
    return """
module top #(parameter K = 2, W = 2, BUG = 0) (input clk, input give, input take);
  localparam A = $clog2(K + 1);
  logic [K*W-1:0] gather = 0, word = 0, scatter = 0;
  logic [A-1:0] have = 0, left = 0;
  logic full = 0;
  logic [W-1:0] next = 0, wanted = 0;
  wire moves = have == K && !full;
  wire loads = full && (left == 0 || (left == 1 && take));
  always_ff @(posedge clk) begin
    if (give && (have != K || moves)) begin
      next <= next + 1;
      gather <= {next, gather[K*W-1:W]};
      have <= moves ? 1 : have + 1;
    end else if (moves) have <= 0;
    if (moves) begin
      word <= BUG && give && take && next == K ? {next, gather[K*W-1:W]} : gather;
      full <= 1;
    end else if (loads) full <= 0;
    if (loads) begin
      scatter <= word;
      left <= K;
    end else if (take && left != 0) begin
      scatter <= scatter >> W;
      left <= left - 1;
    end
    if (take && left != 0) wanted <= wanted + 1;
  end
  always_comb assert (left == 0 || scatter[W-1:0] == wanted);
endmodule
"""


@design(N=(4, 8, 16))
def reorder():
    """A buffer whose places are done in any order and retired in theirs: what retires is done, and has its number."""
    return """
module top #(parameter N = 4, BUG = 0) (input clk, input enter, input finish, input [$clog2(N)-1:0] which, input flush);
  localparam A = $clog2(N);
  logic [N-1:0] busy = 0, done = 0;
  logic [A-1:0] head = 0, tail = 0;
  logic [A:0] count = 0;
  wire in = enter && count != N && !flush, out = done[head];
  always_ff @(posedge clk) begin
    if (finish && busy[which]) begin
      done[which] <= 1;
      busy[which] <= 0;
    end
    if (in) begin
      busy[tail] <= 1;
      tail <= tail + 1;
    end
    if (out) begin
      done[head] <= 0;
      head <= head + 1;
    end
    count <= count + in - out;
    if (flush) begin
      busy <= BUG && out && finish && which == 2 ? busy & (1 << which) : 0;
      done <= 0;
      head <= 0;
      tail <= 0;
      count <= 0;
    end
  end
  always_comb assert (!(in && (busy[tail] || done[tail])) && !(out && count == 0));
endmodule
"""


@design(L=(2, 4, 16), T=(2, 3, 4), W=(2, 4, 8))
def cache():
    """A cache that writes back, with one watched address: what is read there was written last."""
    return """
module top #(parameter L = 2, T = 2, W = 2, BUG = 0)
  (input clk, input [$clog2(L)+T-1:0] pick, input [$clog2(L)+T-1:0] address, input read, input write,
   input [W-1:0] word, input [W-1:0] other);
  localparam A = $clog2(L);
  logic started = 0, wrong = 0;
  logic [A+T-1:0] watched = 0;
  logic [W-1:0] memory = 0, last = 0;
  logic [L-1:0] valid = 0, dirty = 0;
  logic [L*T-1:0] tags = 0;
  logic [L*W-1:0] words = 0;
  wire [A-1:0] line = address[A-1:0];
  wire [T-1:0] tag = address[A+T-1:A], held = tags[line*T +: T];
  wire hit = valid[line] && held == tag;
  wire [W-1:0] fetched = address == watched ? memory : other;
  always_ff @(posedge clk) begin
    started <= 1;
    if (!started) watched <= pick;
    else if (read || write) begin
      if (hit) begin
        if (write) begin
          for (int i = 0; i < L; i++) if (line == i) words[i*W +: W] <= word;
          dirty[line] <= !(BUG && dirty[line] && read && tag == 1);
        end
      end else begin
        if (valid[line] && dirty[line] && {held, line} == watched) memory <= words[line*W +: W];
        for (int i = 0; i < L; i++) if (line == i) begin
          words[i*W +: W] <= write ? word : fetched;
          tags[i*T +: T] <= tag;
        end
        valid[line] <= 1;
        dirty[line] <= write;
      end
      if (write && address == watched) last <= word;
    end
  end
  wire [W-1:0] seen = hit ? words[line*W +: W] : fetched;
  always_comb assert (!(started && read && address == watched && seen != last));
endmodule
"""


@design(N=(2, 4, 10))
def snooping():
    """Caches that hear of each other's requests on a bus, which is asked first: a line that is owned is nowhere else."""
    return """
module top #(parameter N = 2, BUG = 0) (input clk, input [$clog2(N)-1:0] who, input write, input evict, input stall);
  // Each has a state (0 nothing, 1 shared, 2 exclusive, 3 modified), and may wait for the bus.
  logic [2*N-1:0] state = 0;
  logic [N-1:0] waits = 0, writes = 0;
  logic [$clog2(N)-1:0] turn = 0;
  logic bad, others;
  always_comb begin
    others = 0;
    for (int i = 0; i < N; i++) if (turn != i && state[2*i +: 2] != 0) others = 1;
  end
  always_ff @(posedge clk) begin
    turn <= turn == N - 1 ? 0 : turn + 1;
    if (who < N && !waits[who] && who != turn) begin
      if (evict) state[2*who +: 2] <= 0;
      else if (write && state[2*who +: 2] >= 2) state[2*who +: 2] <= 3;
      else if (write || state[2*who +: 2] == 0) begin
        waits[who] <= 1;
        writes[who] <= write;
      end
    end
    if (waits[turn] && !stall) begin
      waits[turn] <= 0;
      for (int i = 0; i < N; i++)
        if (turn == i) state[2*i +: 2] <= writes[i] ? 3 : others ? 1 : 2;
        else if (writes[turn]) state[2*i +: 2] <= BUG && waits[i] && writes[i] && evict ? state[2*i +: 2] : 0;
        else if (state[2*i +: 2] != 0) state[2*i +: 2] <= 1;
      if (who < N && who != turn && !waits[who] && (writes[turn] || state[2*who +: 2] != 0)) waits[who] <= 0;
    end
  end
  always_comb begin
    bad = 0;
    for (int i = 0; i < N; i++)
      for (int j = 0; j < N; j++)
        if (i != j && state[2*i +: 2] >= 2 && state[2*j +: 2] != 0) bad = 1;
    assert (!bad);
  end
endmodule
"""


@design(N=(4, 8, 16), T=(2, 4, 8))
def lookaside():
    """A table that is searched by content, into which what was missed comes later: at most one place has a key."""
    return """
module top #(parameter N = 4, T = 2, BUG = 0) (input clk, input ask, input drop, input [T-1:0] key, input come);
  localparam A = $clog2(N);
  logic [N-1:0] valid = 0, hits;
  logic [N*T-1:0] keys = 0;
  logic [A-1:0] victim = 0;
  logic misses = 0;
  logic [T-1:0] missed = 0;
  always_comb for (int i = 0; i < N; i++) hits[i] = valid[i] && keys[i*T +: T] == key;
  always_ff @(posedge clk) begin
    if (misses && come) begin
      for (int i = 0; i < N; i++) if (victim == i) keys[i*T +: T] <= missed;
      valid[victim] <= 1;
      victim <= victim + 1;
      misses <= 0;
    end else if (ask && hits == 0 && (!misses || (BUG && drop && victim == 2))) begin
      misses <= 1;
      missed <= key;
    end
    if (drop && hits != 0 && !misses) valid <= valid & ~hits;
    if (BUG && drop && ask && misses && come && victim == 1) misses <= 1;
  end
  always_comb assert ((hits & (hits - 1)) == 0);
endmodule
"""


@design(N=(2, 4, 8), A=(2, 3, 4), W=(2, 4, 6))
def store_buffer():
    """Stores wait in a buffer, where later loads look first: a load has the word that was stored last."""
    return """
module top #(parameter N = 2, A = 2, W = 2, BUG = 0)
  (input clk, input [A-1:0] pick, input store, input drain, input load, input [A-1:0] address, input [W-1:0] word);
  logic started = 0;
  logic [A-1:0] watched = 0;
  logic [W-1:0] memory = 0, last = 0, found;
  logic [N*A-1:0] places = 0;
  logic [N*W-1:0] words = 0;
  logic [$clog2(N+1)-1:0] count = 0;
  wire out = drain && count != 0, in = started && store && (count != N || out);
  always_comb begin
    found = memory;
    for (int i = 0; i < N; i++) if (i < count && places[i*A +: A] == address) found = words[i*W +: W];
    if (BUG && count == N && places[A-1:0] == address && out && word == 3) found = words[W-1:0];
  end
  always_ff @(posedge clk) begin
    started <= 1;
    if (!started) watched <= pick;
    if (out) begin
      if (places[A-1:0] == watched) memory <= words[W-1:0];
      places <= places >> A;
      words <= words >> W;
    end
    for (int i = 0; i < N; i++) if (in && count - out == i) begin
      places[i*A +: A] <= address;
      words[i*W +: W] <= word;
    end
    count <= count + in - out;
    if (in && address == watched) last <= word;
  end
  always_comb assert (!(started && load && address == watched && found != last));
endmodule
"""


@design(N=(3, 4, 6))
def replacement():
    """Who was used longest ago, by a matrix and by a list in order: they name the same."""
    return """
module top #(parameter N = 3, BUG = 0) (input clk, input use_, input [$clog2(N)-1:0] who);
  localparam A = $clog2(N);
  logic [N*N-1:0] newer;
  logic [N*A-1:0] order;
  initial for (int i = 0; i < N; i++) begin
    order[i*A +: A] = i;
    for (int j = 0; j < N; j++) newer[i*N+j] = i > j;
  end
  logic [N-1:0] oldest;
  logic found;
  always_comb for (int i = 0; i < N; i++) oldest[i] = newer[i*N +: N] == 0;
  always_ff @(posedge clk) if (use_ && who < N) begin
    for (int i = 0; i < N; i++) for (int j = 0; j < N; j++) begin
      if (who == i && i != j) newer[i*N+j] <= 1;
      if (who == j) newer[i*N+j] <= BUG && i == j + 1 && order[A-1:0] == j ? newer[i*N+j] : 0;
    end
    found = 0;
    for (int i = 0; i < N; i++) begin
      if (order[i*A +: A] == who) found = 1;
      if (found) order[i*A +: A] <= i == N - 1 ? who : order[((i + 1) % N) * A +: A];
    end
  end
  always_comb assert (oldest == (1 << order[A-1:0]));
endmodule
"""


@design(N=(4, 16, 64), R=(3, 4, 5))
def corrected_memory():
    """A memory whose words have a code of Hamming; a bit of a word may flip, and what is read is corrected."""
    return """
module top #(parameter N = 4, R = 3, BUG = 0)
  (input clk, input [$clog2(N)-1:0] pick, input [$clog2(N)-1:0] address, input write,
   input [(1<<R)-R-2:0] word, input [R-1:0] flip);
  localparam L = (1 << R) - 1, D = L - R, A = $clog2(N);
  logic [L-1:0] memory [0:N-1];
  logic started = 0, written = 0;
  logic [A-1:0] watched = 0;
  logic [D-1:0] last = 0, out;
  logic [L-1:0] coded, got;
  logic [R-1:0] sum, fault;
  int k;
  always_comb begin
    // Place p of a word is bit p - 1; the places of powers of two have the parities.
    coded = 0;
    sum = 0;
    k = 0;
    for (int p = 1; p <= L; p++) if ((p & (p - 1)) != 0) begin
      coded[p-1] = word[k];
      if (word[k]) sum = sum ^ p;
      k = k + 1;
    end
    for (int r = 0; r < R; r++) coded[(1<<r)-1] = sum[r] ^ (BUG && word == 5 && address == 2);
  end
  always_comb begin
    got = memory[address];
    if (flip != 0) got[flip-1] = !got[flip-1];
    fault = 0;
    for (int p = 1; p <= L; p++) if (got[p-1]) fault = fault ^ p;
    if (fault != 0) got[fault-1] = !got[fault-1];
    out = 0;
    k = 0;
    for (int p = 1; p <= L; p++) if ((p & (p - 1)) != 0) begin
      out[k] = got[p-1];
      k = k + 1;
    end
  end
  always_ff @(posedge clk) begin
    started <= 1;
    if (!started) watched <= pick;
    else if (write) begin
      memory[address] <= coded;
      if (address == watched) begin
        written <= 1;
        last <= word;
      end
    end
  end
  always_comb assert (!(written && address == watched && out != last));
endmodule
"""


@design(N=(4, 6, 8))
def free_tags():
    """A list of free tags, which are taken and come back: none is out twice."""
    return """
module top #(parameter N = 4, BUG = 0) (input clk, input take, input give, input [$clog2(N)-1:0] which);
  localparam A = $clog2(N);
  logic [N*A-1:0] list;
  initial for (int i = 0; i < N; i++) list[i*A +: A] = i;
  logic [A:0] count = N;
  logic [N-1:0] out = 0;
  wire [A-1:0] first = list[A-1:0];
  wire takes = take && count != 0, gives = give && which < N && out[which];
  always_ff @(posedge clk) begin
    if (takes) begin
      list <= list >> A;
      out[first] <= 1;
    end
    if (gives) begin
      for (int i = 0; i < N; i++) if (count - takes == i) list[i*A +: A] <= which;
      out[which] <= BUG && takes && count == 1 && which == first - 1;
    end
    count <= count - takes + gives;
  end
  always_comb assert (!(takes && out[first]));
endmodule
"""


@design(R=(2, 3, 4), P=(4, 6, 8))
def renaming():
    """Registers are renamed to physical ones by a map of bits that are free: no two names have the same one."""
    return """
module top #(parameter R = 2, P = 4, BUG = 0) (input clk, input rename, input commit, input [$clog2(R)-1:0] who);
  localparam A = $clog2(P);
  logic [R*A-1:0] map;
  initial for (int i = 0; i < R; i++) map[i*A +: A] = i;
  logic [P-1:0] free, pending = 0;
  initial for (int i = 0; i < P; i++) free[i] = i >= R;
  logic [A-1:0] chosen, old;
  logic any, bad;
  always_comb begin
    chosen = 0;
    any = 0;
    for (int i = 0; i < P; i++) if (free[i]) begin
      chosen = i;
      any = 1;
    end
    old = map[who*A +: A];
  end
  always_ff @(posedge clk) begin
    if (rename && any && who < R) begin
      for (int i = 0; i < R; i++) if (who == i) map[i*A +: A] <= chosen;
      free[chosen] <= 0;
      pending[old] <= 1;
      if (commit) begin
        free <= (free | pending) & ~(1 << chosen);
        if (BUG && chosen == R) free <= free | pending;
        pending <= 1 << old;
      end
    end else if (commit) begin
      free <= free | pending;
      pending <= 0;
    end
  end
  always_comb begin
    bad = 0;
    for (int i = 0; i < R; i++) for (int j = 0; j < i; j++) if (map[i*A +: A] == map[j*A +: A]) bad = 1;
    assert (!bad);
  end
endmodule
"""
