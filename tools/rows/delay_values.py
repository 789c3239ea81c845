#!/usr/bin/env python3
"""Makes the table of Verilog designs with delayed assignments and forced signals, and the values that their signals have.

    tools/rows/delay_values.py          writes tools/data/delay_values.txt

The values are those of Icarus Verilog (`iverilog -g2005`), by its own `force` and `release` and its own delays. `tools/rows/value_rows.py` tells
the parts of a row and the bench. The kinds are `delay`, whose designs have assignments with a delay, and `force`, whose stimulus forces signals.
`tools/rows/elaboration_rows.py` makes of the rows what `design_tests` is run on.

Where the standard or `docs/VERILOG.md` has another value than Icarus on purpose, the row says why (`differs`), and what the signals have instead
(`own`), by hand; the script looks that Icarus does differ there, or refuses the text. It ends with the status 1, and writes nothing, where that
isn't so, where two rows share a name, or where there are fewer than 35 rows of each kind.
"""
import sys
from pathlib import Path

ROOT = Path(__file__).resolve().parents[2]
sys.path.insert(0, str(ROOT / "tools"))

from rows.value_rows import Row, paths, put

TABLE = ROOT / "tools" / "data" / "delay_values.txt"
LEAST = {"delay": 35, "force": 35}

# ---- designs with one process or a few: `a` and `b` have four digits, `i` two, `clk` one; `q` and `r` are registers of four. Then the items of the
# module, further signals, and the steps

FRONT = "module top(input clk, input [3:0] a, b, input [1:0] i, output reg [3:0] q, r);"
SIGNALS = "clk a b i q r"
START = "clk=0 a=0101 b=0011 i=00"
MEMORY = "reg [3:0] m [0:3];"
WORDS = " m[0] m[1] m[2] m[3]"
COUNTED = "reg [3:0] n; initial n = 0;"

DELAYS = [
    ("a_delay_of_one_step", "always @(posedge clk) q <= #1 a;", "", [START, "clk=1", "@1", "@1"]),
    ("a_delay_of_several_steps", "always @(posedge clk) q <= #5 a;", "", [START, "clk=1", "@4", "@1"]),
    ("the_value_is_taken_at_once", "always @(posedge clk) q <= #3 a + b;", "", [START, "clk=1", "a=1111 b=0010", "@3"]),
    ("the_index_is_taken_at_once", "always @(posedge clk) q[i] <= #2 a[0];", "", [START, "clk=1", "i=11", "@2", "clk=0 a=1110", "clk=1 i=01", "@2"]),
    ("the_index_of_a_word_is_taken_at_once", MEMORY + " always @(posedge clk) m[i] <= #4 a;", WORDS,
     [START, "clk=1", "i=10", "@4", "clk=0", "clk=1 i=01 a=1001", "@3", "i=00", "@1"]),
    ("the_word_that_gives_the_value_is_taken_at_once", MEMORY + " initial begin m[0] = 7; m[1] = 9; end always @(posedge clk) q <= #2 m[i];", WORDS,
     [START, "clk=1", "i=01", "@2", "clk=0", "clk=1", "@2"]),
    ("a_digit_of_a_word_whose_indices_change", MEMORY + " initial begin m[0] = 0; m[1] = 0; end always @(posedge clk) m[i][a[1:0]] <= #3 1;", WORDS,
     [START, "clk=1", "i=01 a=0010", "@3", "clk=0", "clk=1", "@3"]),
    ("a_part_that_is_chosen", "always @(posedge clk) q[i +: 2] <= #2 a;", "", [START, "clk=1", "i=10", "@2", "clk=0", "clk=1", "i=00", "@2"]),
    ("a_part_partly_outside", "always @(posedge clk) q[i +: 2] <= #2 a;", "", ["clk=0 a=0110 b=0000 i=11", "clk=1", "@2"]),
    ("an_index_outside", MEMORY + " always @(posedge clk) begin q[a] <= #1 1; m[a] <= #1 b; end", WORDS, [START, "clk=1", "@1", "clk=0 a=0011", "clk=1", "@1"]),
    ("an_unknown_index", "always @(posedge clk) q[i] <= #1 1;", "", ["clk=0 a=0000 b=0000 i=0x", "clk=1", "i=00", "@1", "clk=0", "clk=1", "@1"]),
    ("two_updates_of_one_activation", "always @(posedge clk) begin q <= #3 a; q <= #3 b; end", "", [START, "clk=1", "@3"]),
    ("two_updates_of_two_activations_at_one_time", "always @(posedge clk) q <= #5 a; always @(negedge clk) q <= #3 b;", "",
     ["clk=z a=0101 b=0011 i=00", "clk=1", "@2", "clk=0", "@2", "@1"]),
    ("two_updates_at_one_time_in_the_other_order", "always @(posedge clk) q <= #3 a; always @(negedge clk) q <= #5 b;", "",
     ["clk=z a=0101 b=0011 i=00", "clk=0", "@2", "clk=1", "@2", "@1"]),
    ("a_shorter_delay_overtakes", "always @(posedge clk) if (i == 0) q <= #6 a; else q <= #2 b;", "",
     [START, "clk=1", "@1", "clk=0 i=01", "@1", "clk=1", "@2", "@2"]),
    ("updates_of_parts_that_overlap", "always @(posedge clk) begin q <= #2 a; q[2:1] <= #2 b[1:0]; q[1] <= #1 i[0]; end", "", [START, "clk=1", "@1", "@1"]),
    ("parts_at_several_times", "initial q = 0; always @(posedge clk) begin q[3] <= #4 a[0]; q[2] <= #3 a[0]; q[1] <= #2 a[0]; q[0] <= #1 a[0]; end", "",
     [START, "clk=1", "@1", "@1", "@1", "@1"]),
    ("braces_as_target", "always @(posedge clk) {q, r} <= #2 a * b;", "", [START, "clk=1", "@1", "@1"]),
    ("braces_with_indices_as_target", "always @(posedge clk) {q[i], r[1:0], q[3]} <= #2 a;", "", [START, "clk=1", "i=01", "@2"]),
    ("a_delay_beside_one_without", "always @(posedge clk) begin q <= #2 a; q <= b; end", "", [START, "clk=1", "@1", "@1"]),
    ("an_update_amid_blocking_assignments", "always @(posedge clk) begin q = b; q <= #2 a; q = ~b; end always @(negedge clk) q = i;", "",
     ["clk=z a=0101 b=0011 i=00", "clk=1", "@1", "clk=0", "@1"]),
    ("a_register_is_read_before_its_update", "always @(posedge clk) begin q <= #1 a; r <= #1 q; end", "", [START, "clk=1", "@1", "clk=0 a=1100", "clk=1", "@1"]),
    ("a_counter_that_reads_too_early", COUNTED + " always @(posedge clk) n <= #4 n + 1;", " n",
     [START, "clk=1", "@2", "clk=0", "clk=1", "@2", "@1", "@1", "clk=0", "clk=1", "@4"]),
    ("a_row_of_registers", "always @(posedge clk) begin q <= #1 a; r <= #2 q; end", "",
     [START, "clk=1", "@1", "@1", "clk=0", "clk=1", "@1", "@1", "clk=0 a=1111", "clk=1", "@1", "@1"]),
    ("a_pulse_passes_a_process", "always @* q <= #3 a & b;", "", [START, "@3", "a=1010", "@1", "a=0111", "@1", "b=0110", "@1", "@1", "@1", "@1"]),
    ("a_process_that_waits_for_its_own_register", "initial q = 0; always @(q or i) if (i[0]) q <= #2 q + 1;", "",
     ["clk=0 a=0000 b=0000 i=00", "i=01", "@1", "@1", "@2", "@7", "i=00", "@5"]),
    ("a_delayed_clock", "reg k; always @* k <= #2 clk; always @(posedge k) q <= #1 a;", " k", [START, "@2", "clk=1", "@1", "@1", "@1", "clk=0 a=1010", "@2", "clk=1", "@3"]),
    ("a_pulse_of_no_length", COUNTED + " reg k; always @(posedge clk) begin k <= #2 1; k <= #2 0; end always @(posedge k) n = n + 1;", " n k",
     [START, "clk=1", "@2", "clk=0", "clk=1", "@2"]),
    ("an_update_that_changes_nothing", COUNTED + " initial q = 5; always @(posedge clk) q <= #2 a; always @(q) n = n + 1;", " n", [START, "clk=1", "@2", "clk=0 a=0100", "clk=1", "@2"]),
    ("an_assignment_at_the_time_of_an_update", "reg k; always @(posedge clk) begin k <= #2 1; q <= #2 a; r <= #2 a; end always @(posedge k) begin q <= b; r = b; end", " k",
     [START, "clk=1", "@1", "@1"]),
    ("a_reset_that_isnt_delayed", "always @(posedge clk or posedge i) if (i[0]) q <= 0; else q <= #3 a;", "", [START, "clk=1", "@1", "i=01", "@1", "i=00", "@1"]),
    ("a_delayed_initial", "initial q <= #2 9; initial begin r <= #3 1; r <= #1 2; r <= #2 3; end", "", [START, "@1", "@1", "@1", "@1"]),
    ("a_wave_of_an_initial", "initial begin q = 0; q[0] <= #1 1; q[1] <= #2 1; q <= #3 12; q[2] <= #4 0; end", "", [START, "@1", "@1", "@1", "@1"]),
    ("delays_in_a_loop", MEMORY + " integer k; always @(posedge clk) for (k = 0; k < 4; k = k + 1) m[k] <= #2 a + k;", WORDS + " k", [START, "clk=1", "@1", "@1"]),
    ("delays_in_a_case", "always @(posedge clk) case (i) 0: q <= #1 a; 1, 2: q <= #2 b; default: q <= #3 ~a; endcase", "",
     [START, "clk=1", "@1", "clk=0 i=10", "clk=1", "@2", "clk=0 i=11", "clk=1", "@2", "@1"]),
    ("how_a_delay_may_be_written", "always @(posedge clk) begin q[0] <= # 1 1; q[1] <= #02 1; q[2] <= #0_0_3 (1); q[3] <= #4 -1; r <= #5 a; end", "",
     [START, "clk=1", "@1", "@1", "@1", "@1", "@1"]),
    ("a_long_delay", "always @(posedge clk) q <= #4294967295 a; always @(negedge clk) r <= #4294967294 b;", "",
     ["clk=z a=0101 b=0011 i=00", "clk=0", "clk=1", "@4294967294", "@1", "@1", "@1"]),
    ("a_value_with_unknown_digits", "always @(posedge clk) q <= #2 {a[0], 1'bx, 1'bz, b[0]};", "", [START, "clk=1", "@2"]),
    ("a_value_of_another_width", "always @(posedge clk) begin q <= #2 {a, b}; r <= #2 i[0]; end", "", [START, "clk=1", "@2"]),
    ("an_integer_with_a_delay", "integer n; always @(posedge clk) n <= #2 a * 100;", " n", [START, "clk=1", "@2"]),
    ("a_net_behind_a_delay", "wire [3:0] w = q ^ b; always @(posedge clk) q <= #2 a;", " w", [START, "clk=1", "@2", "b=1111"]),
    ("two_assignments_of_one_update", "always @(posedge clk) q <= #2 a; always @(q) r <= #2 q; always @(r) if (r == a) q <= #2 b;", "", [START, "clk=1", "@2", "@2", "@2", "@2"]),
    ("a_wait_over_many_updates", COUNTED + " always @(posedge clk) begin q <= #1 0; q <= #2 1; q <= #3 2; q <= #4 3; end always @(q) n = n + 1;", " n", [START, "clk=1", "@10"]),
    ("several_clocks_before_the_first_update", "always @(posedge clk) q <= #9 a;", "",
     [START, "clk=1", "@2", "clk=0 a=1100", "@2", "clk=1", "@2", "clk=0 a=0110", "@3", "@2", "clk=1", "@2", "@7"]),
    ("a_deposit_while_an_update_waits", "always @(posedge clk) q <= #3 a;", "", [START, "clk=1", "q=1111", "@2", "q=0000", "@1"]),
    ("a_deposit_into_a_part_that_waits", "always @(posedge clk) q[2:1] <= #3 a;", "", [START, "clk=1", "q=1111", "@3"]),
    ("a_deposit_at_the_time_of_an_update", "always @(posedge clk) q <= #3 a;", "", [START, "clk=1", "@3 q=1111", "clk=0", "clk=1", "@3", "q=1110"]),
]

# whole texts: the name, the text, the signals, the steps
CHILD = "module child(input c, input [3:0] d, output reg [3:0] o);\n  always @(posedge c) o <= #3 d;\nendmodule"
DELAYED_TEXTS = [
    ("an_instance_with_a_delay", "module top(input clk, input [3:0] a, output [3:0] y); child u(clk, a, y); endmodule\n" + CHILD,
     "clk a y u.c u.d u.o", ["clk=0 a=0110", "clk=1", "@2", "a=1111", "@1"]),
    ("two_instances_in_a_row", "module top(input clk, input [3:0] a, output [3:0] y); wire [3:0] w; child u(clk, a, w); child v(clk, ~w, y); endmodule\n" + CHILD,
     "clk a y w u.c u.d u.o v.c v.d v.o", ["clk=0 a=0110", "clk=1", "@3", "clk=0", "clk=1", "@2", "@1"]),
    ("a_unit_of_ten_steps", "`timescale 1ns / 100ps\nmodule top(input clk, input [3:0] a, output reg [3:0] q);\n  always @(posedge clk) q <= #2 a;\nendmodule",
     "clk a q", ["clk=0 a=0110", "clk=1", "@10", "@9", "@1"]),
    ("a_unit_of_100_microseconds", "`timescale 100us/10us\nmodule top(input clk, input [3:0] a, output reg [3:0] q);\n  always @(posedge clk) q <= #3 a;\nendmodule",
     "clk a q", ["clk=0 a=0110", "clk=1", "@29", "@1"]),
    ("units_that_differ",
     "`timescale 1ns/1ps\nmodule top(input clk, input [3:0] a, output [3:0] y, output reg [3:0] q); child u(clk, a, y); always @(posedge clk) q <= #3 a; endmodule\n"
     "`timescale 1ps/1ps\n" + CHILD, "clk a y q u.c u.d u.o", ["clk=0 a=0110", "clk=1", "@2", "@1", "@2996", "@1"]),
    ("a_finer_precision_elsewhere",
     "`timescale 10ns/10ns\nmodule top(input clk, input [3:0] a, output [3:0] y, output reg [3:0] q); child u(clk, a, y); always @(posedge clk) q <= #1 a; endmodule\n"
     "`timescale 1ns/100ps\n" + CHILD, "clk a y q u.c u.d u.o", ["clk=0 a=0110", "clk=1", "@29", "@1", "@69", "@1"]),
    ("a_precision_of_a_module_that_isnt_reached",
     "`timescale 1ns/1ns\nmodule top(input clk, input [3:0] a, output reg [3:0] q); always @(posedge clk) q <= #1 a; endmodule\n"
     "`timescale 1ns/1ps\nmodule other(output x); assign x = 1; endmodule", "clk a q", ["clk=0 a=0110", "clk=1", "@1", "@998", "@1"]),
    ("three_units_meet",
     "`timescale 1us/1ns\nmodule top(input clk, input [3:0] a, output [3:0] x, y, output reg [3:0] q); one u(clk, a, x); two v(clk, a, y); always @(posedge clk) q <= #1 a; endmodule\n"
     "`timescale 100ns/1ns\nmodule one(input c, input [3:0] d, output reg [3:0] o); always @(posedge c) o <= #10 d; endmodule\n"
     "`timescale 1ns/1ns\nmodule two(input c, input [3:0] d, output reg [3:0] o); always @(posedge c) o <= #1000 ~d; endmodule",
     "clk a x y q u.c u.d u.o v.c v.d v.o", ["clk=0 a=0110", "clk=1", "@999", "@1"]),
    ("a_unit_in_a_part_that_is_taken",
     "`ifdef COCOTB_SIM\n`timescale 1ns/1ns\n`else\n`timescale 10ns/1ns\n`endif\nmodule top(input clk, input [3:0] a, output reg [3:0] q);\n  always @(posedge clk) q <= #2 a;\nendmodule",
     "clk a q", ["clk=0 a=0110", "clk=1", "@1", "@1", "@18"]),
    ("a_unit_that_stands_inside_a_module",
     "`timescale 1ns/1ns\nmodule top(input clk, input [3:0] a, output [3:0] y); child u(clk, a, y);\nendmodule\n`timescale 10ns/1ns\n" + CHILD,
     "clk a y u.c u.d u.o", ["clk=0 a=0110", "clk=1", "@3", "@26", "@1"]),
]


NO_UNIT = "without a `timescale the unit is 1 ns here (19.8 leaves it open); Icarus has 1 s"
ONE_NET = "a port is a net of its own here, which its connection assigns to (12.3.9.2); Icarus makes one net of the two, so that both are forced"
OPEN_ORDER = "of two processes that a change wakes the first one runs first here, so the last one's update counts; 11.4.2 leaves the order open"
LAST_PART = "the parts of a target are assigned from the first one to the last, so the last one counts (9.2 tells no order); Icarus begins with the last"
NUMBERS = "a delay is any number here, also one with a base; A.2.2.3 and Icarus take decimal digits alone"
FINE_UNIT = "a precision may be greater than its unit here; 19.8 and Icarus refuse it"
TOO_LATE = "an update that would come behind 2^62 steps is given up here (docs/LIMITS.md)"
NO_WORDS = "a memory's word is a signal like any other here; 9.3.2 and Icarus refuse to force it"

# the same, why they differ from Icarus, and the values that the signals have instead; where Icarus refuses the text, the values of all signals in
# each step
DIFFERENT_DELAYS = [
    ("two_processes_at_one_time", FRONT + " always @(posedge clk) q <= #2 a; always @(posedge clk) q <= #2 b; endmodule", SIGNALS, [START, "clk=1", "@2"],
     OPEN_ORDER, {"q": ["xxxx", "xxxx", "0011"]}),
    ("a_register_twice_in_braces", FRONT + " always @(posedge clk) {q, q} <= #2 {a, b}; endmodule", SIGNALS, [START, "clk=1", "@2"],
     LAST_PART, {"q": ["xxxx", "xxxx", "0011"]}),
    ("delays_with_a_base", FRONT + " always @(posedge clk) begin q <= #4'd2 a; r <= #'h1 b; r[i] <= #8'b11 0; end endmodule", SIGNALS, [START, "clk=1", "@1", "@1", "@1"],
     NUMBERS, ["0 0101 0011 00 xxxx xxxx", "1 0101 0011 00 xxxx xxxx", "1 0101 0011 00 xxxx 0011", "1 0101 0011 00 0101 0011", "1 0101 0011 00 0101 0010"]),
    ("a_module_before_the_first_unit",
     "module top(input clk, input [3:0] a, output reg [3:0] q); always @(posedge clk) q <= #2 a; endmodule\n`timescale 1ps/1ps\n" + CHILD,
     "clk a q", ["clk=0 a=0110", "clk=1", "@1999", "@1"], NO_UNIT, {"q": ["xxxx", "xxxx", "xxxx", "0110"]}),
    ("a_unit_behind_resetall", "`timescale 10ns/1ns\nmodule top(input clk, input [3:0] a, output [3:0] y); child u(clk, a, y); endmodule\n`resetall\n" + CHILD,
     "clk a y u.c u.d u.o", ["clk=0 a=0110", "clk=1", "@2", "@1"], NO_UNIT, {"y": ["xxxx", "xxxx", "xxxx", "0110"], "u.o": ["xxxx", "xxxx", "xxxx", "0110"]}),
    ("a_precision_greater_than_its_unit",
     "`timescale 1ns/1us\nmodule top(input clk, input [3:0] a, output reg [3:0] q); always @(posedge clk) q <= #2000 a; endmodule",
     "clk a q", ["clk=0 a=0110", "clk=1", "@1", "@1"], FINE_UNIT, ["0 0110 xxxx", "1 0110 xxxx", "1 0110 xxxx", "1 0110 0110"]),
    ("an_update_past_the_latest_time",
     "`timescale 1s/1fs\nmodule top(input clk, input [3:0] a, output reg [3:0] q); always @(posedge clk) q <= #4611 a; always @(negedge clk) q <= #4611 ~a; endmodule",
     "clk a q", ["clk=0 a=0110", "@1000000000000000", "clk=1", "@4610000000000000000", "@1000000000000000"], TOO_LATE, {"q": ["xxxx", "xxxx", "xxxx", "1001", "1001"]}),
]

FORCES = [
    ("a_net", "wire [3:0] w = a & b;", " w", [START, "!w=1110", "a=1111", "~w", "a=0000"]),
    ("a_net_whose_driver_comes_back", "wire [3:0] w = a & b;", " w", [START, "!w=1110", "a=1111", "a=0101", "~w"]),
    ("a_net_without_a_driver", "wire [3:0] w; always @* if (i[0]) q = w;", " w", ["clk=0 a=0101 b=0011 i=01", "!w=0110", "!w=1001", "~w"]),
    ("a_net_that_is_driven_by_parts", "wire [3:0] w; assign w[1:0] = a[1:0]; assign w[3] = b[0];", " w", [START, "!w=1110", "a=1110", "b=0010", "~w", "a=0001"]),
    ("what_reads_a_forced_net", "wire [3:0] w = a + b; wire [3:0] v = ~w; always @* q = w ^ v; always @(w) if (i[0]) r = r + 1; else r = 0;", " w v",
     [START, "i=01", "!w=1110", "a=1111", "!w=1110", "!w=0001", "~w", "~w"]),
    ("a_forced_net_in_a_chain", "wire [3:0] u = a, v = u + 1, w = v + 1;", " u v w", [START, "!v=0000", "a=1111", "!u=0011", "~v", "~u"]),
    ("two_nets_in_a_chain", "wire [3:0] u = a, v = u + 1, w = v + 1;", " u v w", [START, "!u=1000 !w=1000", "a=1111", "~w", "~u"]),
    ("a_latch_of_nets", "wire [3:0] w = i[0] ? a : w;", " w", ["clk=0 a=0101 b=0011 i=01", "i=00", "a=1111", "!w=0010", "~w", "i=01"]),
    ("a_register_with_blocking_assignments", "always @(posedge clk) q = a;", "", [START, "clk=1", "!q=1100", "clk=0 a=0111", "clk=1", "~q", "clk=0", "clk=1"]),
    ("a_register_with_nonblocking_assignments", "always @(posedge clk) q <= a;", "", [START, "clk=1", "!q=1100", "clk=0 a=0111", "clk=1", "~q", "clk=0 a=0001", "clk=1"]),
    ("a_register_of_a_process_without_a_clock", "always @* q = a ^ b;", "", [START, "!q=1100", "a=1111", "~q", "b=0000"]),
    ("a_register_that_is_never_assigned", "", "", [START, "!q=1100", "~q", "~r"]),
    ("an_activation_reads_a_forced_register", "always @(posedge clk) begin q = a; r = q; end", "", [START, "!q=1100", "clk=1", "~q clk=0", "clk=1"]),
    ("an_activation_reads_a_forced_digit", "always @(posedge clk) begin q[0] = a[0]; q[3] = ~q[0]; r = {q[3], q[0]}; end", "", [START, "!q=0000", "clk=1", "~q clk=0", "clk=1"]),
    ("parts_are_assigned_while_forced", "always @(posedge clk) begin q[0] = a[0]; q[3:2] <= b[1:0]; end", "",
     [START, "clk=1", "!q=0010", "clk=0 b=1110 a=1110", "clk=1", "~q", "clk=0 b=0001 a=0001", "clk=1"]),
    ("a_counter", COUNTED + " always @(posedge clk) n <= n + 1;", " n", [START, "clk=1", "!n=1000", "clk=0", "clk=1", "clk=0", "clk=1", "~n", "clk=0", "clk=1"]),
    ("a_counter_that_isnt_forced_for_long", COUNTED + " always @(posedge clk) n = n + 1;", " n", [START, "clk=1", "!n=1000", "~n", "clk=0", "clk=1"]),
    ("a_register_is_forced_twice", "always @(posedge clk) q <= a;", "", [START, "clk=1", "!q=1100", "!q=0011", "clk=0 a=1111", "clk=1", "~q", "clk=0", "clk=1"]),
    ("a_net_is_forced_twice", "wire [3:0] w = a; always @(w) q = w;", " w", [START, "!w=1100", "a=0001", "!w=0011", "a=0010", "~w", "!w=1111", "~w"]),
    ("a_force_to_what_is_shown", "wire [3:0] w = a; always @(posedge clk) q <= a;", " w", [START, "clk=1", "!w=0101 !q=0101", "clk=0 a=1000", "clk=1", "~w ~q"]),
    ("a_force_to_unknown_digits", "wire [3:0] w = a; always @* q = w + b;", " w", [START, "!w=10xz", "a=1000", "~w", "!q=zzzz", "b=0001", "~q"]),
    ("a_release_of_what_isnt_forced", "wire [3:0] w = a; always @(posedge clk) q <= a;", " w", [START, "clk=1", "~w ~q ~r ~a", "a=0001", "clk=0", "clk=1"]),
    ("an_input", "wire [3:0] w = a; always @(a) q = a;", " w", [START, "!a=1100", "a=0001", "a=0010", "~a", "a=0111"]),
    ("an_input_that_is_unknown_before", "always @(i) q = i;", "", ["clk=0 a=0101 b=0011 i=1z", "!i=10", "i=01", "~i", "i=1x"]),
    ("a_clock", "always @(posedge clk) q <= a; always @(negedge clk) r <= b;", "",
     [START, "!clk=1", "clk=1 a=1000", "!clk=0 b=1111", "~clk", "!clk=0", "clk=0", "~clk", "!clk=x", "~clk"]),
    ("a_clock_of_nets", "wire k = clk & i[0]; always @(posedge k) q <= a;", " k", [START, "!k=1", "clk=1 a=1111", "i=01", "!k=0", "~k", "!k=0 a=0010", "i=00", "~k"]),
    ("a_clock_of_registers", "reg k; initial k = 0; always @(posedge clk) k <= ~k; always @(posedge k) q <= a;", " k",
     [START, "clk=1", "!k=0 clk=0 a=1010", "clk=1", "clk=0 !k=1", "clk=1 a=1111", "clk=0 ~k", "clk=1", "clk=0", "clk=1"]),
    ("a_reset", "always @(posedge clk or posedge i) if (i) q <= 0; else q <= a;", "", [START, "clk=1", "!i=01", "clk=0", "clk=1", "~i", "clk=0", "clk=1"]),
    ("an_index_of_a_memory", MEMORY + " initial begin m[0] = 5; m[1] = 6; m[2] = 7; m[3] = 8; end reg [1:0] k; always @* begin k = i; q = m[k]; end always @(posedge clk) m[k] <= a;", WORDS + " k",
     [START, "!k=10", "i=01", "clk=1", "~k", "i=11"]),
    ("a_register_of_a_state", "reg [1:0] s; initial s = 0; always @(posedge clk) case (s) 0: s <= 1; 1: s <= 2; default: s <= 0; endcase always @* q = 1 << s;", " s",
     [START, "clk=1", "clk=0 !s=11", "clk=1", "~s", "clk=0", "clk=1"]),
    ("an_integer", "integer n; initial n = 0; always @(posedge clk) begin n = n + 1; q = n; end", " n",
     [START, "clk=1", "!n=00000000000000000000000000001001", "clk=0", "clk=1", "~n", "clk=0", "clk=1"]),
    ("what_is_forced_and_released_at_once", "wire [3:0] w = a; always @(w) q = w; always @(posedge clk) r <= a;", " w", [START, "!w=1111 ~w", "clk=1", "clk=0 !r=1000 ~r", "a=0001 !w=0000 ~w"]),
    ("forced_beside_a_deposit", "wire [3:0] w = a;", " w", [START, "a=1010 !w=1111", "~w a=0110", "!a=0001 a=1000", "a=1001 ~a"]),
    ("two_are_forced_and_one_is_released", "wire [3:0] w = a, v = b;", " w v", [START, "!w=1111 !v=0000", "a=1010 b=1010", "~w", "!w=0000 ~v", "~w"]),
    ("a_deposit_to_a_forced_register", "always @(posedge clk) q <= a;", "", [START, "clk=1", "!q=1100", "q=0011", "~q", "q=0111", "clk=0", "clk=1"]),
    ("a_process_that_waits_for_a_forced_register", "always @(posedge clk) q <= a; always @(q) r = r === 4'bx ? 0 : r + 1;", "",
     [START, "clk=1", "!q=1100", "clk=0 a=0011", "clk=1", "~q", "!q=1100", "!q=1101", "~q"]),
    ("a_loop_that_assigns_to_a_forced_register", "integer k; always @(posedge clk) for (k = 0; k < 4; k = k + 1) q[k] = a[3 - k];", " k", [START, "!q=1111 !k=00000000000000000000000000000111", "clk=1", "~q ~k", "clk=0", "clk=1"]),
    ("braces_that_hold_a_forced_register", "always @(posedge clk) {q, r} <= a * b;", "", [START, "clk=1", "!q=1010", "clk=0 a=1111 b=1111", "clk=1", "~q", "clk=0", "clk=1"]),
    ("registers_that_swap", "initial begin q = 1; r = 2; end always @(posedge clk) begin q <= r; r <= q; end", "", [START, "clk=1", "!q=1111", "clk=0", "clk=1", "clk=0 ~q", "clk=1"]),
    # with delays
    ("an_update_comes_while_its_register_is_forced", "always @(posedge clk) q <= #3 a;", "", [START, "clk=1", "@1", "!q=1100", "@2", "~q", "@3", "clk=0", "clk=1", "@3"]),
    ("an_update_comes_behind_the_release", "always @(posedge clk) q <= #3 a;", "", [START, "clk=1", "@1", "!q=1100", "@1", "~q", "@1"]),
    ("an_assignment_with_a_delay_while_its_register_is_forced", "always @(posedge clk) q <= #3 a;", "", [START, "!q=1100", "clk=1", "@1", "~q", "@1", "@1"]),
    ("an_update_of_a_part_comes_behind_the_release", "always @(posedge clk) q[2:1] <= #3 a;", "", [START, "clk=1", "!q=1001", "@2", "~q", "@1"]),
    ("updates_before_amid_and_behind_a_force", "always @(posedge clk) begin q[0] <= #1 a[0]; q[1] <= #2 a[0]; q[2] <= #3 a[0]; end", "", [START, "clk=1", "@1", "!q=0000", "@1", "~q", "@1"]),
    ("the_value_of_a_forced_register_is_taken_at_once", "initial q = 1; always @(posedge clk) r <= #2 q;", "", [START, "!q=1100", "clk=1", "~q q=0000", "@2"]),
    ("the_index_of_a_forced_register_is_taken_at_once", "reg [1:0] k; initial k = 0; always @(posedge clk) q[k] <= #2 1;", " k", [START, "!k=10", "clk=1", "~k k=01", "@2"]),
    ("a_force_at_the_time_of_an_update", "always @(posedge clk) q <= #3 a;", "", [START, "clk=1", "@3 !q=1100", "~q", "clk=0", "clk=1", "@3 !q=0000 ~q"]),
    ("a_release_at_the_time_of_an_update", "always @(posedge clk) q <= #3 a;", "", [START, "clk=1 !q=1100", "@3 ~q", "clk=0 a=1111", "clk=1", "!q=0000 @3", "~q"]),
    ("a_delayed_clock_that_is_forced", "reg k; initial k = 0; always @(posedge clk) k <= #2 1; always @(posedge k) q <= #1 a;", " k",
     [START, "clk=1", "@1 !k=0", "@1", "~k", "clk=0", "clk=1", "@2", "@1"]),
    ("a_clock_that_makes_itself_is_stopped", "reg k; initial k = 0; always @(k or i) if (i[0]) k <= #5 ~k; always @(posedge k) q <= a;", " k",
     ["clk=0 a=0101 b=0011 i=00", "i=01", "@5", "!k=0 a=1000", "@5", "@20", "~k", "@5", "i=00", "i=01", "@5", "@5"]),
    ("a_net_behind_a_delay_is_forced", "wire [3:0] w = q ^ b; always @(posedge clk) q <= #2 a; always @(w) r = w;", " w", [START, "clk=1", "!w=0000", "@2", "~w", "b=0000"]),
    ("a_pulse_passes_while_a_net_is_forced", "wire [3:0] w = a; always @* q <= #2 w;", " w", [START, "@2", "!w=1111", "@1", "~w", "@1", "@1"]),
]

FORCED_TEXTS = [
    ("a_register_of_an_instance",
     "module top(input clk, input [3:0] a, output [3:0] y); wire [3:0] w; child u(.c(clk), .d(a), .o(w)); assign y = ~w; endmodule\n"
     "module child(input c, input [3:0] d, output [3:0] o); reg [3:0] r; always @(posedge c) r <= d; assign o = r + 1; endmodule",
     "clk a y w u.c u.d u.o u.r", ["clk=0 a=0110", "clk=1", "!u.r=1111", "clk=0 a=0001", "clk=1", "~u.r", "clk=0", "clk=1"]),
    ("a_net_of_an_instance",
     "module top(input [3:0] a, output [3:0] y); child u(a, y); endmodule\n"
     "module child(input [3:0] d, output [3:0] o); wire [3:0] w = d + 1; assign o = w + 1; endmodule",
     "a y u.d u.o u.w", ["a=0110", "!u.w=1111", "a=0001", "~u.w"]),
    ("a_net_that_an_instance_reads",
     "module top(input [3:0] a, output [3:0] y); wire [3:0] w = a + 1; child u(w & 4'd7, y); endmodule\n"
     "module child(input [3:0] d, output reg [3:0] o); always @* o = ~d; endmodule",
     "a y w u.d u.o", ["a=0110", "!w=1111", "a=0001", "!w=0010", "~w"]),
    ("two_instances_of_one_module",
     "module top(input clk, input [3:0] a, output [3:0] x, y); child u(clk, a, x); child v(clk, a, y); endmodule\n"
     "module child(input c, input [3:0] d, output [3:0] o); reg [3:0] r; always @(posedge c) r <= r === 4'bx ? d : r + d; assign o = r; endmodule",
     "clk a x y u.c u.d u.o u.r v.c v.d v.o v.r", ["clk=0 a=0011", "clk=1", "!v.r=1000", "clk=0", "clk=1", "~v.r !u.r=0000", "clk=0", "clk=1", "~u.r", "clk=0", "clk=1"]),
    ("three_levels_below",
     "module top(input [1:0] a, output [1:0] y); one u(~a, y); endmodule module one(input [1:0] i, output [1:0] o); two v(~i, o); endmodule\n"
     "module two(input [1:0] i, output [1:0] o); wire [1:0] w = ~i; assign o = ~w; endmodule",
     "a y u.i u.o u.v.i u.v.o u.v.w", ["a=01", "!u.v.w=11", "a=10", "~u.v.w", "!a=00", "a=11", "~a"]),
    ("128_digits",
     "module top(input clk, input [127:0] a, output reg [127:0] q); wire [127:0] w = ~a; always @(posedge clk) q <= #2 w; endmodule",
     "clk a q w", ["clk=0 a=" + "01" * 64, "!w=" + "0011" * 32, "clk=1", "!q=" + "x" * 128, "@2", "~w ~q", "clk=0", "clk=1", "@2"]),
    ("a_rising_range",
     "module top(input clk, input [0:3] a, output reg [1:4] q); wire [0:3] w; assign w[0:1] = a[2:3]; assign w[2:3] = a[0:1]; always @(posedge clk) q[2:3] <= #1 w[1:2]; endmodule",
     "clk a q w", ["clk=0 a=0110", "!w=1000", "clk=1", "@1", "!q=1111 a=1100", "~w", "clk=0", "clk=1", "@1", "~q"]),
    ("a_file_of_registers",
     "module top(input clk, we, input [1:0] r, w, input [3:0] d, output [3:0] y); reg [3:0] m [0:3]; reg e; always @* e = we; always @(posedge clk) if (e) m[w] <= #1 d; assign y = m[r]; endmodule",
     "clk we r w d y m[0] m[1] m[2] m[3] e", ["clk=0 we=0 r=00 w=01 d=0110", "!e=1", "clk=1", "@1 r=01", "~e", "we=1 !e=0", "clk=0 d=1111", "clk=1", "@1", "~e"]),
]

NEXT = "module child(input [3:0] d, output [3:0] o); assign o = d + 1; endmodule"
STORED = "module child(input c, input [3:0] d, output reg [3:0] o); always @(posedge c) o <= d; endmodule"
INSTANCE = "module top(input clk, input [3:0] a, output [3:0] y); child u(clk, a, y); endmodule\n" + STORED

DIFFERENT_FORCES = [
    ("an_input_of_an_instance", "module top(input [3:0] a, output [3:0] y); wire [3:0] w = ~a; child u(w, y); endmodule\n" + NEXT,
     "a y w u.d u.o", ["a=0110", "!u.d=1111", "a=0001", "~u.d", "!w=0000", "~w"], ONE_NET, {"w": ["1001", "1001", "1110", "1110", "0000", "1110"]}),
    ("an_input_of_an_instance_behind_an_input", INSTANCE, "clk a y u.c u.d u.o", ["clk=0 a=0110", "!u.d=0000", "clk=1", "clk=0 a=0001", "clk=1", "~u.d"],
     ONE_NET, {"a": ["0110", "0110", "0110", "0001", "0001", "0001"]}),
    ("an_output_of_an_instance", "module top(input [3:0] a, output [3:0] y); wire [3:0] w; child u(a, w); assign y = ~w; endmodule\n" + NEXT,
     "a y w u.d u.o", ["a=0110", "!w=0000", "a=0001", "~w", "!u.o=0000", "~u.o"], ONE_NET, {"u.o": ["0111", "0111", "0010", "0010", "0000", "0010"]}),
    ("a_net_behind_a_register_of_an_instance", INSTANCE, "clk a y u.c u.d u.o", ["clk=0 a=0110", "clk=1", "!y=0000", "clk=0 a=0001", "clk=1", "~y"],
     ONE_NET, {"u.o": ["xxxx", "0110", "0110", "0110", "0001", "0001"]}),
    ("a_word", FRONT + " reg [3:0] m [0:1]; initial begin m[0] = 1; m[1] = 2; end always @(posedge clk) m[i] <= a; always @* q = m[i]; endmodule",
     SIGNALS + " m[0] m[1]", [START, "!m[0]=1111", "clk=1", "~m[0]", "clk=0", "clk=1"], NO_WORDS,
     ["0 0101 0011 00 0001 xxxx 0001 0010", "0 0101 0011 00 1111 xxxx 1111 0010", "1 0101 0011 00 1111 xxxx 1111 0010", "1 0101 0011 00 1111 xxxx 1111 0010",
      "0 0101 0011 00 1111 xxxx 1111 0010", "1 0101 0011 00 0101 xxxx 0101 0010"]),
]


# ---- rows


def rows_of(kind, table, texts, different):
    """The rows of a kind."""
    for name, items, more, steps in table:
        text = f"{FRONT}\n  {items}\nendmodule" if items else f"{FRONT} endmodule"
        yield Row(kind, name, text, paths((SIGNALS + more).split()), steps, None, {})
    for name, text, signals, steps in texts:
        yield Row(kind, name, text, paths(signals.split()), steps, None, {})
    for name, text, signals, steps, differs, own in different:
        if isinstance(own, list):
            own = dict(zip(signals.split(), zip(*map(str.split, own))))
        yield Row(kind, name, text, paths(signals.split()), steps, differs, {f"top.{signal}": values for signal, values in own.items()})


if __name__ == "__main__":
    rows = [*rows_of("delay", DELAYS, DELAYED_TEXTS, DIFFERENT_DELAYS), *rows_of("force", FORCES, FORCED_TEXTS, DIFFERENT_FORCES)]
    sys.exit(put(rows, LEAST, TABLE, "delay_values.py"))
