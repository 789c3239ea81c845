#!/usr/bin/env python3
"""Makes the table of Verilog designs with the values that their signals have under a fixed stimulus.

    tools/rows/elaboration_values.py          writes tools/data/elaboration_values.txt

The designs are expressions of every operator (each as `assign y = ..`), bodies of processes, and small hierarchies. The values are
those of Icarus Verilog (`iverilog -g2005`): for each design the script writes a bench whose registers, z at first, stand behind the
top's inputs, and prints all signals after each step. Which signals there are, and in which order, stands in this script, worked out
by hand from the rules. `tools/rows/elaboration_rows.py` makes of the rows what `design_tests` is run on.

Where the standard or `docs/VERILOG.md` has another value than Icarus on purpose, the row says why (`differs`), and what the signals
have instead (`own`); the script looks that Icarus does differ there. It ends with the status 1, and writes nothing, where that isn't
so, where two rows share a name, or where there are fewer than 60 expressions, 40 bodies and 15 hierarchies.

`tools/rows/value_rows.py` tells the parts of a row. Its kind is `expression`, `body` or `hierarchy`, and a step has deposits alone.
"""
import sys
from pathlib import Path

ROOT = Path(__file__).resolve().parents[2]
sys.path.insert(0, str(ROOT / "tools"))

from rows.value_rows import Row, paths, put

TABLE = ROOT / "tools" / "data" / "elaboration_values.txt"
LEAST = {"expression": 60, "body": 40, "hierarchy": 15}

# ---- expressions: `a` and `b` have eight digits, `c` four, `d` one; then the width of `y`, and what it is

EXPRESSION_STEPS = [
    "a=10110100 b=00000011 c=0010 d=1",
    "a=11111111 b=00000001 c=1001 d=0",
    "a=01101001 b=11010110 c=0101 d=1",
    "a=00000000 b=00000000 c=0000 d=0",
    "a=1x01z010 b=01000000 c=0011 d=x",
    "a=01101001 b=z1100101 c=1x10 d=z",
]

EXPRESSIONS = """
a_sum_with_its_carry                      9    a + b
a_sum_in_its_own_width                    8    a + b
a_sum_of_two_widths                       8    c + a
a_sum_that_is_cut                         4    a + b
a_sum_in_braces                           9    {a + b}
three_terms                               10   a + b + c
a_difference                              8    a - b
a_difference_below_zero                   12   b - a
a_difference_groups_to_the_left           8    a - b - c
a_product                                 16   a * b
a_product_that_is_cut                     8    a * b
a_quotient                                8    a / b
a_quotient_of_two_widths                  8    a / c
a_remainder                               8    a % b
a_remainder_of_two_widths                 12   c % b
a_product_before_a_quotient               12   a * c / b
a_negative                                8    -a
a_negative_in_a_wider_context             12   -c
a_negative_times                          8    -c * b
an_inversion                              8    ~a
an_inversion_in_a_wider_context           8    ~c
an_inversion_in_a_comparison              1    ~c == a
an_and                                    8    a & b
an_and_of_two_widths                      8    a & c
an_or                                     8    a | b
an_or_of_two_widths                       12   c | a
an_exclusive_or                           8    a ^ b
an_exclusive_nor                          8    a ~^ b
an_exclusive_nor_of_two_widths            10   a ^~ c
bitwise_operators_by_their_levels         8    a | b ^ c & {8{d}}
an_and_of_a_reduction                     8    &a & b
reductions_by_and                         4    {&a, &b, ~&c, ~&d}
reductions_by_or                          4    {|a, |b, ~|c, ~|d}
reductions_by_exclusive_or                4    {^a, ~^b, ^~c, ^d}
a_reduction_in_a_sum                      4    ^a + c
a_reduction_of_a_sum                      1    |(c + 4'd14)
a_logical_and                             1    a && b
a_logical_or                              1    b || c
a_logical_not                             3    !a + !b + !d
logical_operators_by_their_levels         1    d || a && !c
a_logical_and_of_sums                     1    c + 4'd14 && d
equality                                  4    {a == b, a == 8'd180, a != b, c != 4'd9}
equality_of_two_widths                    2    {c == a, d != b}
equality_with_an_unknown_digit            3    {a == 8'b1x010010, a == 8'b0x010010, b != 8'b1x100101}
equality_of_a_sum_with_its_carry          1    a + b == 9'd256
equality_of_a_sum_without_its_carry       1    a + b == 8'd0
identity                                  4    {a === 8'b1x01z010, a === b, a !== b, c !== 4'b1x10}
identity_of_two_widths                    2    {c === {4'b0000, c}, a === 12'bx1x01z010}
comparisons                               4    {a < b, a <= b, a > b, a >= b}
comparisons_of_two_widths                 4    {c < a, c <= b, d > c, d >= b}
comparisons_of_sums                       2    {a + b > 8'd200, a + b > 9'd200}
a_comparison_of_comparisons               1    a < b < c
a_shift_up                                8    a << c
a_shift_up_in_a_wider_context             16   a << c
a_shift_down                              8    a >> c
a_shift_down_of_a_sum_with_its_carry      9    a + b >> 1
a_shift_down_of_a_sum_without_its_carry   8    (a + b) >> 1
shifts_that_say_arithmetic                16   {a <<< 2, a >>> 2}
a_shift_by_more_than_the_width            8    a >> b
a_shift_by_a_sum_in_its_own_width         16   a << (c + 4'd15)
a_shift_of_one_digit                      8    d << c
shifts_group_to_the_left                  8    a >> 3 << 2
a_conditional                             8    d ? a : b
a_conditional_of_two_widths               12   d ? c : ~a
a_conditional_by_a_vector                 8    c ? a : b
a_conditional_by_a_sum_in_its_own_width   4    c + 4'd14 ? 4'd1 : 4'd2
a_conditional_in_a_sum                    9    (d ? a : c) + b
conditionals_group_to_the_right           4    d ? c : c[0] ? 4'd5 : 4'd6
a_conditional_below_all_operators         8    a == b || d ? a + b : a & b
braces                                    16   {a, c, d, d, 2'b10}
braces_in_a_wider_context                 20   {c, a}
braces_that_are_cut                       6    {a, c}
braces_in_braces                          16   {{c, d}, {d, {c}}, 1'bz}
copies                                    16   {4{c}}
copies_of_several                         15   {3{c, d}}
copies_in_braces                          20   {{2{d}}, {2'd3{c}}, {1{a[1:0]}}}
a_digit                                   2    {a[6], a[0]}
a_digit_that_is_chosen                    1    a[c]
a_digit_that_is_chosen_by_a_digit         1    a[b[c[0]]]
a_digit_outside                           3    {a[8], c[b], a[7]}
a_part                                    6    {a[7:4], a[3:2]}
a_part_of_equal_bounds                    8    a[5:5] + c[1:1]
a_part_partly_outside                     8    a[9:6]
a_part_wholly_outside                     4    a[12:9]
a_part_from_2_to_the_32                   8    a[33'd4294967303:33'd4294967296]
an_indexed_part                           4    a[3 +: 4]
an_indexed_part_that_is_chosen            3    a[c +: 3]
an_indexed_part_by_a_sum                  4    a[c[1:0] + 2'd3 +: 4]
numbers_without_a_size                    36   'hff + 'o17 + 'b101
numbers_with_unknown_digits               24   {4'bx, 4'b1z, 6'o1x, 8'hz1, 2'b?0}
numbers_of_base_ten                       28   {12'd100, 8'dx, 8'dz}
missing_digits_of_a_wide_number           40   {36'hx5, 4'b01}
digits_that_are_cut                       8    {4'hff, 4'd17}
a_number_of_128_digits                    128  128'h0123456789abcdef_fedcba9876543210
a_sum_of_128_digits                       128  {16{a}} + {16{b}}
a_product_of_128_digits                   128  {16{a}} * {8{b, a}}
a_quotient_of_128_digits                  128  {8'd90, 112'd0, a} / b
a_comparison_of_128_digits                2    {{16{a}} < {16{b}}, {16{a}} === {16{a}}}
a_shift_of_128_digits                     128  {120'd1, a} << {b, 3'd0}
a_conditional_of_128_digits               128  d ? {16{a}} : {16{b}}
the_standards_reductions                  12   {&4'b0000, |4'b0000, ^4'b0000, &4'b1111, |4'b1111, ^4'b1111, &4'b0110, |4'b0110, ^4'b0110, &4'b1000, |4'b1000, ^4'b1000}
the_standards_remainders                  24   {8'd10 % 8'd3, 8'd11 % 8'd3, 8'd12 % 8'd3}
the_standards_shift                       4    4'b0001 << 2'b10
an_inequality_that_is_open                2    {4'b0x11 != 4'b0011, 4'b0x11 != 4'b0010}
"""

# what stands before `assign`, the further signals, the width of `y`, and what it is
DECLARED = [
    ("a_digit_of_a_rising_range", "wire [0:7] r = a;", ["r"], 4, "{r[0], r[7], r[c], r[8]}"),
    ("parts_of_a_rising_range", "wire [0:7] r = a;", ["r"], 12, "{r[1:3], r[2 +: 4], r[c +: 3], r[4:4], r[7]}"),
    ("parts_of_a_range_that_doesnt_end_at_0", "wire [10:3] r = a;", ["r"], 12, "{r[10:8], r[c +: 4], r[3 +: 4], r[2]}"),
    ("parts_of_a_rising_range_from_2", "wire [2:9] r = a;", ["r"], 12, "{r[8:9], r[c +: 4], r[0:3], r[1 +: 2]}"),
    ("a_word", "reg [3:0] m [1:3]; initial begin m[1] = 4'd5; m[2] = 4'b1x0z; m[3] = 4'd12; end", ["m[1]", "m[2]", "m[3]"], 8, "m[c] + m[1]"),
    ("parts_of_words", "reg [3:0] m [3:1]; initial begin m[1] = 4'd5; m[2] = 4'd6; m[3] = 4'd12; end", ["m[1]", "m[2]", "m[3]"], 8, "{m[c[1:0]][3:2], m[3][c], m[d][1 +: 2], m[2][c +: 3]}"),
    ("a_word_of_a_word", "reg [3:0] m [0:3]; initial begin m[0] = 4'd3; m[1] = 4'd2; m[2] = 4'd0; end", ["m[0]", "m[1]", "m[2]", "m[3]"], 4, "m[m[c]]"),
    ("parameters_in_an_expression", "parameter P = 4'd9, Q = {P, 1'b1}; localparam [2:0] R = 12;", [], 12, "{P, Q, R[2:1], P[c], R[0]} + Q"),
    ("a_parameter_of_a_rising_range", "parameter [0:3] P = 4'b0111;", [], 8, "{P, P[0], P[2:3], P[c]}"),
    ("a_parameter_with_32_digits", "parameter P = 1;", [], 40, "~P + a"),
]

UNSIGNED = "numbers and registers have no sign here, as where each of them is unsigned (4.8 and 3.5.1 have integers and plain numbers signed)"

# the width of `y`, what it is, why it differs from Icarus, and its values
DIFFERENT = [
    ("a_plus", 8, "+a", "unary + is arithmetic here, so an unknown digit makes all unknown (5.1.5 has the operand as it stands)",
     "10110100 11111111 01101001 00000000 xxxxxxxx 01101001"),
    ("a_conditional_of_z", 4, "d ? 4'b1z0z : 4'b1z1z", "under an unknown condition a digit that isn't 0 in both or 1 in both is x (5.1.13)",
     "1z0z 1z1z 1z0z 1z1z 1xxx 1xxx"),
    ("an_indexed_part_from_2_to_the_32", 4, "a[33'd4294967296 +: 4]", "an index is an exact number here, so the part lies outside; Icarus takes a constant one modulo 2^32",
     " ".join(["xxxx"] * 6)),
    ("a_quotient_of_a_negative_number", 32, "-6 / 2", UNSIGNED, " ".join(["01111111111111111111111111111101"] * 6)),
    ("a_negative_number_in_a_comparison", 2, "{-1 < 1, -1 < c}", UNSIGNED, "00 00 00 00 00 0x"),
]

# ---- bodies: `a` and `b` have eight digits, `c` four, `clk` one; `y` and `z` are registers of eight

BODY_STEPS = [
    "a=10110100 b=00000011 c=0010 clk=0",
    "clk=1",
    "a=01011x01 b=11110000 c=1001 clk=0",
    "clk=1",
    "a=00000000 b=00000001 c=0x10 clk=0",
    "clk=1",
    "a=11111111 b=0000z010 c=0101 clk=0",
    "clk=1",
]
CLOCK, ANY = "always @(posedge clk)", "always @*"
WORDS = ["m[0]", "m[1]", "m[2]", "m[3]"]
MEMORY = "reg [7:0] m [0:3];"
FILLED = MEMORY + " initial begin m[0] = 1; m[1] = 3; m[2] = 5; m[3] = 7; end"

# the name, the control, the body; where there are more signals, what declares them, and they
BODIES = [
    ("a_blocking_assignment", CLOCK, "y = a + b;"),
    ("a_nonblocking_assignment", CLOCK, "y <= a - b;"),
    ("what_is_assigned_is_read_at_once", CLOCK, "begin y = a; z = y; end"),
    ("what_is_assigned_later_isnt_read", CLOCK, "begin y <= a; z <= y; end"),
    ("a_blocking_and_a_nonblocking_assignment", CLOCK, "begin y = a; y <= b; z = y; end"),
    ("the_last_nonblocking_assignment_counts", CLOCK, "begin y <= a; y <= b; y[0] <= 1; end"),
    ("an_exchange", CLOCK, "if (c == 4'd2) begin y = a; z = b; end else begin y <= z; z <= y; end"),
    ("a_value_is_cut_or_widened", CLOCK, "begin y = {c, a}; z = c; end"),
    ("an_operation_takes_the_width_of_its_target", CLOCK, "begin y = c + 4'd15; z = ~c >> 1; end"),
    ("a_condition", CLOCK, "if (a[2]) y = 1; else y = 2;"),
    ("a_condition_without_else", CLOCK, "if (c[3]) y = a;"),
    ("an_else_belongs_to_the_nearest_if", CLOCK, "if (c[1]) if (a[0]) y = 1; else y = 2;"),
    ("a_condition_of_a_vector", CLOCK, "begin if (a) y = 1; else y = 0; if (c[2:1]) z = 1; else z = 0; end"),
    ("conditions_in_a_chain", CLOCK, "if (c < 4'd1) y = 0; else if (c < 4'd5) y = 1; else if (c < 4'd9) y = 2; else y = 3;"),
    ("a_case", CLOCK, "case (c) 4'd1: y = 1; 4'd2: y = 2; 4'd5: y = 5; default: y = a; endcase"),
    ("a_case_whose_default_stands_first", CLOCK, "case (c) default: y = a; 4'd2: y = 2; 4'd9: y = 9; endcase"),
    ("a_case_without_default", CLOCK, "case (c) 4'd2: y = 2; 4'd5: y = 5; endcase"),
    ("a_case_with_several_labels", CLOCK, "case (c) 4'd1, 4'd2, 4'd3: y = 1; 4'd5, 4'd9: y = 2; endcase"),
    ("the_first_label_counts", CLOCK, "case (c) 4'd2: y = 1; 4'd2: y = 2; 4'd9, 4'd5: y = 3; 4'd5: y = 4; endcase"),
    ("a_label_with_unknown_digits", CLOCK, "case (c) 4'b0x10: y = 1; 4'b0z10: y = 2; 4'bxxxx: y = 3; default: y = 4; endcase"),
    ("labels_that_are_signals", CLOCK, "case (a) b: y = 1; 8'd180: y = 2; {4'd5, c}: y = 3; b - 8'd1: y = 4; default: y = 5; endcase"),
    ("a_case_by_what_is_true", CLOCK, "case (1'b1) a[7]: y = 7; c[3]: y = 3; clk: y = 1; endcase"),
    ("a_case_of_the_greatest_width", CLOCK, "case (~c) 4'b1101: y = 1; 8'b11111101: y = 2; 8'b11110110: y = 3; default: y = 4; endcase"),
    ("a_case_of_a_sum_with_its_carry", CLOCK, "case (c + 4'd14) 4'd0: y = 1; 5'd16: y = 2; 5'd23: y = 3; default: y = 4; endcase"),
    ("a_casez", CLOCK, "casez (a) 8'b1?1?????: y = 1; 8'b01011???: y = 2; 8'b0000_000z: y = 3; default: y = 4; endcase"),
    ("a_casez_of_z", CLOCK, "casez (b) 8'b00001010: y = 1; 8'b0000_0011: y = 2; 8'b111?????: y = 3; default: y = 4; endcase"),
    ("a_casez_of_x", CLOCK, "casez (c) 4'b0010: y = 1; 4'b0x1?: y = 2; 4'b???1: y = 3; endcase"),
    ("a_casex", CLOCK, "casex (a) 8'b1x1xxxxx: y = 1; 8'b01011001: y = 2; 8'b0000_000?: y = 3; default: y = 4; endcase"),
    ("a_casex_of_x_and_z", CLOCK, "casex ({c, b[3]}) 5'b00100: y = 1; 5'b01100: y = 2; 5'b0101?: y = 3; default: y = 4; endcase"),
    ("a_case_in_a_case", CLOCK, "case (c[0]) 0: case (c[1]) 1: y = 1; default: y = 2; endcase 1: y = 3; endcase"),
    ("a_loop_that_counts_ones", CLOCK, "begin y = 0; for (i = 0; i < 8; i = i + 1) y = y + a[i]; end", "integer i;", ["i"]),
    ("a_loop_that_turns_digits_round", CLOCK, "for (i = 0; i < 8; i = i + 1) y[i] = a[7 - i];", "integer i;", ["i"]),
    ("a_loop_down", CLOCK, "begin z = 0; for (i = 7; i < 8; i = i - 1) if (a[i]) z = i; end", "reg [3:0] i;", ["i"]),
    ("a_loop_in_a_loop", CLOCK, "begin y = 0; for (i = 0; i < 4; i = i + 1) for (j = 0; j <= i; j = j + 1) y = y + (a[i] & b[j]); end", "integer i, j;", ["i", "j"]),
    ("a_loop_by_parameters", CLOCK, "for (i = P; i < N; i = i + P) y[i] <= b[i - P];", "parameter P = 2; localparam N = P * 4; reg [4:0] i;", ["i"]),
    ("a_loop_without_turns_assigns_its_register", CLOCK, "begin for (i = 9; i < 8; i = i + 1) y = 1; z = i; end", "reg [3:0] i;", ["i"]),
    ("the_register_of_a_loop_is_cut", CLOCK, "begin y = 0; for (i = 1; i; i = i * 2) y = y + 1; end", "reg [4:0] i;", ["i"]),
    ("a_loop_that_shifts_words", CLOCK, "begin m[0] <= a; for (i = 0; i < 3; i = i + 1) m[i + 1] <= m[i]; y <= m[3]; end", FILLED + " integer i;", [*WORDS, "i"]),
    ("a_loop_over_words", CLOCK, "begin y = 0; for (i = 0; i < 4; i = i + 1) y = y + m[i]; m[c] = a; end", FILLED + " integer i;", [*WORDS, "i"]),
    ("a_part_of_a_target", CLOCK, "begin y = 0; y[5:2] = c; z[7:4] <= a[3:0]; z[3:0] <= a[7:4]; end"),
    ("a_digit_of_a_target", CLOCK, "begin y = 0; y[c] = 1; z[a[2:0]] = 1; end"),
    ("an_indexed_part_of_a_target", CLOCK, "begin y = 0; y[c +: 4] = 15; z = 0; z[b[2:0] +: 2] <= c; end"),
    ("a_part_of_a_target_partly_outside", CLOCK, "begin y = 0; y[9:6] = c; z = 0; z[6 +: 4] <= 4'b0110; end"),
    ("parts_of_a_rising_range_as_targets", CLOCK, "begin r = 0; r[1:3] = c; r[c +: 2] = 3; r[7] <= a[7]; y = r; end", "reg [0:7] r;", ["r"]),
    ("a_range_that_doesnt_end_at_0_as_a_target", CLOCK, "begin r = 0; r[c] = 1; r[5 +: 3] = 7; y = r; end", "reg [10:3] r;", ["r"]),
    ("a_word_is_written_and_read", CLOCK, "begin m[c[1:0]] = a; y = m[c[1:0]]; z = m[1]; end", FILLED, WORDS),
    ("a_word_is_written_later", CLOCK, "begin m[c[1:0]] <= a; y <= m[c[1:0]]; end", FILLED, WORDS),
    ("a_word_that_isnt_there", CLOCK, "begin m[c] = a; m[b] <= 0; y = m[c]; end", FILLED, WORDS),
    ("a_part_of_a_word_as_a_target", CLOCK, "begin m[c[1:0]][3:0] = b[3:0]; m[3][c[2:0] +: 2] <= 3; m[0][c[2:0]] = 1; end", FILLED, WORDS),
    ("words_of_a_falling_range", CLOCK, "begin m[c[2:0]] = a; y = m[4]; z = m[2]; end", "reg [7:0] m [5:2];", ["m[2]", "m[3]", "m[4]", "m[5]"]),
    ("a_target_in_braces", CLOCK, "{y, z} = {a, b} + 1;"),
    ("a_target_in_braces_written_later", CLOCK, "{y[3:0], z, y[7:4]} <= {a, b};"),
    ("a_target_in_braces_is_cut", CLOCK, "begin y = 0; {y[7], {z, y[6:4]}} = {c, a}; end"),
    ("a_target_in_braces_takes_a_carry", CLOCK, "{z[0], y} = a + b;"),
    ("indices_in_braces_are_read_first", CLOCK, "begin i = c; y = 0; {i, y[i], z} = {a[3:0], 1'b1, b}; end", "reg [3:0] i;", ["i"]),
    ("words_in_braces", CLOCK, "{m[c[1:0]], m[0][7:4], y} = {a, b, c};", FILLED, WORDS),
    ("a_falling_edge", "always @(negedge clk)", "begin y <= a; z <= c; end"),
    ("either_edge", "always @(clk)", "case (clk) 1'b0: y = a; 1'b1: z = b; endcase"),
    ("one_of_several_events", "always @(posedge clk or negedge c)", "begin y = a; z = {c, clk}; end"),
    ("events_with_commas", "always @(a, b)", "begin y = a ^ b; z = c; end"),
    ("an_edge_of_a_vector_is_that_of_its_lowest_digit", "always @(posedge a)", "y = b;"),
    ("all_that_is_read", ANY, "y = a + b;"),
    ("all_that_is_read_in_brackets", "always @(*)", "begin y = a; if (c[0]) y = b; z = ~y; end"),
    ("all_that_a_case_reads", ANY, "case (c[1:0]) 2'd0: y = a; 2'd1: y = b; 2'd2: y = a & b; default: y = {c, c}; endcase"),
    ("all_that_a_loop_reads", ANY, "begin z = 0; for (i = 0; i < 4; i = i + 1) z[i] = a[2 * i]; end", "integer i;", ["i"]),
    ("all_that_a_targets_index_reads", ANY, "begin y = 0; y[c] = 1; z = 0; z[b[2:0] +: 2] = 3; end"),
    ("a_memory_that_is_read", ANY, "y = m[c[1:0]] ^ a;", FILLED, WORDS),
    ("two_processes_and_a_net", CLOCK, "r <= a;", "reg [7:0] r; wire [7:0] w = r + 1; always @(w) y = w; always @(posedge clk) z <= w;", ["r", "w"]),
    ("a_block_with_a_label", CLOCK, "begin : block y = a; begin : inner z = b; end end"),
    ("a_null_statement", CLOCK, "if (c[3]) ; else y = a;"),
    ("a_register_with_a_value", CLOCK, "r = r + 3;", "reg [3:0] r = 5, s = 4'b1x0z; initial y = 8'd200;", ["r", "s"]),
    ("an_integer", CLOCK, "begin i = a - b; y = i >> 4; z = i[31:24]; end", "integer i;", ["i"]),
    ("a_counter", CLOCK, "if (c[3]) r <= 0; else r <= r + 1;", "reg [2:0] r; initial r = 6; always @(r) y = {5'd0, r};", ["r"]),
]

# the same, why they differ from Icarus, and the values of `y`
DIFFERENT_BODIES = [
    ("parts_of_braces_are_written_from_the_left", CLOCK, "{y, y[3:0], z} = {a, c, b};",
     "the parts of a target are written from left to right here, and Icarus writes the last one first; the standard leaves it open",
     "xxxxxxxx 10110010 10110010 01011001 01011001 00000x10 00000x10 11110101"),
    ("a_case_with_two_defaults", CLOCK, "case (c) default: y = 1; 4'd9: y = 9; default: y = 2; endcase",
     "the first of several defaults counts here, and the last one in Icarus; the standard has one at most (9.5)",
     "xxxxxxxx 00000001 00000001 00001001 00001001 00000001 00000001 00000001"),
]

# ---- labels: `a` and `b` have eight digits; the process is run where `go` changes

PAIRS = "10110101 10110101  10110101 1011010z  10110101 1011010x  110x0000 00000000  11010000 00000000  1z0x0000 00000000".split()
LABEL_STEPS = [f"a={a} b={b} go={place % 2}" for place, (a, b) in enumerate(zip(PAIRS[::2], PAIRS[1::2]))]
LABELS = [(f"labels_of_a_{kind}", f"{kind} (a) b: y = 1; 8'b1z0x0000: y = 2; default: y = 3; endcase") for kind in ("case", "casez", "casex")]

# ---- hierarchies: a text of several modules, its signals, the steps

HIERARCHIES = [
    ("delays_of_several_steps",
     "`timescale 1ns / 1ns\nmodule top(input clk, input [3:0] a, output reg [3:0] y, z); always @(posedge clk) begin y <= #3 a; y <= #1 ~a; z <= y; end endmodule",
     "clk a y z", ["clk=0 a=0011", "clk=1", "clk=0 a=0101", "clk=1"]),
    ("a_delay_that_others_see",
     "`timescale 1ns / 1ns\nmodule top(input clk, input [3:0] a, output reg [3:0] y, z); always @(posedge clk) begin y <= #2 a; z <= #1 a; end always @(z) z <= #3 y; endmodule",
     "clk a y z", ["clk=0 a=0011", "clk=1", "clk=0 a=1x0z", "clk=1"]),
    ("a_delayed_word_whose_index_changes",
     "`timescale 1ns / 1ns\nmodule top(input clk, input [3:0] a); reg [3:0] m [0:1]; reg i; initial i = 0; always @(posedge clk) begin m[i] <= #2 a; i <= #1 ~i; end endmodule",
     "clk a m[0] m[1] i", ["clk=0 a=0011", "clk=1", "clk=0 a=0101", "clk=1", "clk=0 a=1x0z", "clk=1"]),
    ("braces_with_a_delay",
     "`timescale 1ns / 1ns\nmodule top(input clk, input [3:0] a, output reg [2:0] y, output reg z); always @(posedge clk) {z, y} <= #4 a + 1; endmodule",
     "clk a y z", ["clk=0 a=0111", "clk=1", "clk=0 a=1111", "clk=1"]),
    ("delays_in_units_of_two_modules",
     "`timescale 1us / 1ns\nmodule top(input go, output reg y, z); wire w; s u(go, w); always @(go) y <= #2 go; always @(y) z <= w; endmodule\n"
     "`timescale 1ns / 1ns\nmodule s(input i, output reg o); always @(i) o <= #3 i; endmodule",
     "go y z w u.i u.o", ["go=0", "go=1", "go=0"]),
    ("two_instances_in_a_row",
     "module top(input [3:0] a, output [3:0] y); wire [3:0] w; s u(.i(a), .o(w)); s v(.o(y), .i(w)); endmodule\n"
     "module s(input [3:0] i, output [3:0] o); assign o = i * 3; endmodule",
     "a y w u.i u.o v.i v.o", ["a=0011", "a=1110", "a=10x0"]),
    ("a_width_by_name",
     "module top(input [5:0] a, output [5:0] y); s #(.W(6)) u(.i(a), .o(y)); endmodule\n"
     "module s(i, o); parameter W = 2, N = W - 1; input [N:0] i; output [N:0] o; assign o = ~i; endmodule",
     "a y u.i u.o", ["a=110010", "a=0xz111"]),
    ("values_in_order",
     "module top(input [3:0] a, output [7:0] y, z); s #(3, 2) u(a, y); s #(5) v(a, z); endmodule\n"
     "module s #(parameter K = 1, L = 4)(input [3:0] i, output [7:0] o); localparam M = K + L; assign o = i * M + K; endmodule",
     "a y z u.i u.o v.i v.o", ["a=0011", "a=1111"]),
    ("values_past_local_parameters",
     "module top(output [7:0] y); s #(3, 2) u(y); endmodule\n"
     "module s(output [7:0] o); parameter K = 1; localparam M = K + 8'd1; parameter L = M; assign o = {K[3:0], M[1:0], L[1:0]}; endmodule",
     "y u.o", [""]),
    ("a_parameter_with_a_range",
     "module top(output [7:0] y, z); s #(.K(9'h1f5)) u(y); s #(.K(2'd2)) v(z); endmodule\n"
     "module s(output [7:0] o); parameter [3:0] K = 1; wire [7:0] w = ~K; assign o = w + K; endmodule",
     "y z u.o u.w v.o v.w", [""]),
    ("a_parameter_that_takes_its_values_width",
     "module top(output [7:0] y, z); s #(.K(4'd15)) u(y); s v(z); endmodule\n"
     "module s(output [7:0] o); parameter K = 8'd15; assign o = {K + 4'd1} >> 1; endmodule",
     "y z u.o v.o", [""]),
    ("parameters_that_are_handed_down",
     "module top(input [7:0] a, output [7:0] y); s #(.W(4)) u(a, y); endmodule\n"
     "module s #(parameter W = 8)(input [2 * W - 1:0] i, output [2 * W - 1:0] o); t #(.W(W), .K(W + 1)) h(i[W +: W], o[W +: W]); t #(W, 2) l(i[W - 1:0], o[W - 1:0]); endmodule\n"
     "module t #(parameter W = 1, K = 0)(input [W - 1:0] i, output [W - 1:0] o); assign o = i + K; endmodule",
     "a y u.i u.o u.h.i u.h.o u.l.i u.l.o", ["a=10110100", "a=11111111"]),
    ("outputs_to_parts_of_a_net",
     "module top(input [3:0] a, output [7:0] y); s u(a, y[7:4]); s v(~a, y[3:0]); endmodule\n"
     "module s(input [3:0] i, output [3:0] o); assign o = {i[1:0], i[3:2]}; endmodule",
     "a y u.i u.o v.i v.o", ["a=0111", "a=1z0x"]),
    ("an_output_to_braces",
     "module top(input [3:0] a, b, output [3:0] y, output z); s u(.i(a), .j(b), .o({z, y})); endmodule\n"
     "module s(input [3:0] i, j, output [4:0] o); assign o = i + j; endmodule",
     "a b y z u.i u.j u.o", ["a=0111 b=0001", "a=1111 b=1001"]),
    ("inputs_that_are_expressions",
     "module top(input [3:0] a, b, output [3:0] y); s u(.i(a & ~b), .j({a[0], b[3:1]}), .o(y)); endmodule\n"
     "module s(input [3:0] i, j, output [3:0] o); assign o = i ^ j; endmodule",
     "a b y u.i u.j u.o", ["a=0111 b=0001", "a=1x11 b=1001"]),
    ("ports_of_other_widths",
     "module top(input [3:0] a, output [7:0] y, output [1:0] z); s u(.i(a), .o(y)); s v(.i({a, a}), .o(z)); endmodule\n"
     "module s(input [5:0] i, output [4:0] o); assign o = i + 6'd1; endmodule",
     "a y z u.i u.o v.i v.o", ["a=0111", "a=1111"]),
    ("outputs_wider_than_their_targets",
     "module top(input [3:0] a, output [3:0] y, output z); s u(a, y); s v(a, {z}); endmodule\n"
     "module s(input [3:0] i, output [5:0] o); assign o = i + 6'd60; endmodule",
     "a y z u.i u.o v.i v.o", ["a=0111", "a=1010", "a=10x0"]),
    ("outputs_narrower_than_their_targets",
     "module top(input [3:0] a, output [7:0] y, output [3:0] z); wire k; s u(a, y); s v(a, {k, z}); endmodule\n"
     "module s(input [3:0] i, output [2:0] o); assign o = i; endmodule",
     "a y z k u.i u.o v.i v.o", ["a=0111", "a=10z0", "a=1x01"]),
    ("inputs_narrower_than_their_expressions",
     "module top(input [3:0] a, b, output [1:0] y, z); s u(a + b, y); s v(a + b >> 1, z); endmodule\n"
     "module s(input [1:0] i, output [1:0] o); assign o = i; endmodule",
     "a b y z u.i u.o v.i v.o", ["a=0111 b=0010", "a=1111 b=1111", "a=1011 b=0111"]),
    ("parameters_named_without_a_value",
     "module top(output [7:0] y, z); s #(.K(), .L(8'd3)) u(y); s #(.L()) v(z); endmodule\n"
     "module s(output [7:0] o); parameter K = 8'd77, L = K; assign o = K + L; endmodule",
     "y z u.o v.o", [""]),
    ("ranges_with_bounds_past_2_to_the_32",
     "module top(input [33'd4294967303:33'd4294967296] a, output [7:0] y, output [1:0] z); reg [33'd4294967296:0] r; initial r = 2;\n"
     "  assign y = a, z = {r, a == 3}; endmodule",
     "a y z r", ["a=00000011", "a=0x000001"]),
    ("ports_that_are_left_open",
     "module top(input [3:0] a, output [3:0] y); s u(.o(y), .i(a), .j()); s v(.i(a)); endmodule\n"
     "module s(input [3:0] i, input [1:0] j, output [3:0] o, p); assign o = {i[3:2], j}, p = i; endmodule",
     "a y u.i u.j u.o u.p v.i v.j v.o v.p", ["a=0111", "a=1111"]),
    ("a_header_of_names",
     "module top(q, a, clk); output [3:0] q; input clk; input [3:0] a; reg [3:0] q; wire [3:0] w; always @(posedge clk) q <= w; s u(w, a); endmodule\n"
     "module s(o, i); input [3:0] i; output [3:0] o; wire [3:0] o; assign o = i - 1; endmodule",
     "q a clk w u.o u.i", ["a=0111 clk=0", "clk=1", "a=0000 clk=0", "clk=1"]),
    ("a_register_behind_a_clock_of_an_instance",
     "module top(input clk, input [3:0] a, output [3:0] y, z); s u(clk, a, y); s v(clk, y, z); endmodule\n"
     "module s(input c, input [3:0] i, output reg [3:0] o); always @(posedge c) o <= i; endmodule",
     "clk a y z u.c u.i u.o v.c v.i v.o", ["a=0111 clk=0", "clk=1", "a=0001 clk=0", "clk=1", "a=1000 clk=0", "clk=1"]),
    ("a_file_of_registers",
     "module top(input clk, we, input [1:0] r, w, input [3:0] d, output [3:0] y); file #(.N(3)) u(.clk(clk), .we(we), .read(r), .write(w), .data(d), .out(y)); endmodule\n"
     "module file #(parameter N = 1)(input clk, we, input [1:0] read, write, input [3:0] data, output [3:0] out);\n"
     "  reg [3:0] words [0:N]; assign out = words[read];\n  always @(posedge clk) if (we) words[write] <= data;\nendmodule",
     "clk we r w d y u.clk u.we u.read u.write u.data u.out u.words[0] u.words[1] u.words[2] u.words[3]",
     ["clk=0 we=1 r=00 w=01 d=0110", "clk=1", "clk=0 r=01 w=10 d=1010", "clk=1", "clk=0 we=0 r=10 w=00", "clk=1", "r=0x"]),
    ("a_table_of_words",
     "module top(input [2:0] a, output [7:0] y); table_ #(.K(5)) u(a, y); endmodule\n"
     "module table_ #(parameter K = 1)(input [2:0] i, output [7:0] o); reg [7:0] m [5:0]; integer n; assign o = m[i];\n"
     "  initial for (n = 0; n < 6; n = n + 1) m[n] = n * K; endmodule",
     "a y u.i u.o u.m[0] u.m[1] u.m[2] u.m[3] u.m[4] u.m[5] u.n", ["a=011", "a=101", "a=110", "a=z00"]),
    ("a_counter_with_a_reset",
     "module top(input clk, rst, output [3:0] y, output last); count #(.LAST(2)) u(.clk(clk), .rst(rst), .n(y)); assign last = y == 2; endmodule\n"
     "module count #(parameter LAST = 9)(input clk, rst, output reg [3:0] n);\n"
     "  always @(posedge clk or posedge rst) if (rst) n <= 0; else if (n == LAST) n <= 0; else n <= n + 1;\nendmodule",
     "clk rst y last u.clk u.rst u.n", ["clk=0 rst=1", "rst=0", "clk=1", "clk=0", "clk=1", "clk=0", "clk=1", "rst=1"]),
    ("four_full_adders",
     "module top(input [3:0] a, b, output [3:0] s, output c); wire [2:0] k;\n"
     "  add u0(a[0], b[0], 1'b0, s[0], k[0]); add u1(a[1], b[1], k[0], s[1], k[1]); add u2(a[2], b[2], k[1], s[2], k[2]); add u3(a[3], b[3], k[2], s[3], c);\nendmodule\n"
     "module add(input a, b, c, output s, k); assign {k, s} = a + b + c; endmodule",
     "a b s c k " + " ".join(f"u{n}.{port}" for n in range(4) for port in "abcsk"), ["a=0111 b=0001", "a=1111 b=1011", "a=0x10 b=0010"]),
    ("rising_ports",
     "module top(input [0:3] a, output [1:4] y); s u(a[1:3], y[1:2]); assign y[3:4] = a[0:1]; endmodule\n"
     "module s(input [2:0] i, output [0:1] o); assign o[0] = i[2], o[1] = i[0]; endmodule",
     "a y u.i u.o", ["a=0110", "a=1001", "a=zx10"]),
    ("three_levels_with_a_register_in_each",
     "module top(input clk, input [1:0] a, output [1:0] y); reg [1:0] r; a1 u(clk, r, y); always @(posedge clk) r <= a; endmodule\n"
     "module a1(input clk, input [1:0] i, output [1:0] o); reg [1:0] r; a2 v(clk, r, o); always @(posedge clk) r <= i; endmodule\n"
     "module a2(input clk, input [1:0] i, output reg [1:0] o); always @(posedge clk) o <= i; endmodule",
     "clk a y r u.clk u.i u.o u.r u.v.clk u.v.i u.v.o", ["clk=0 a=01", "clk=1", "clk=0 a=10", "clk=1", "clk=0 a=11", "clk=1"]),
    ("a_clock_that_is_made_inside",
     "module top(input clk, en, input [3:0] a, output [3:0] y); wire k; gate u(.c(clk), .e(en), .o(k)); s v(k, a, y); endmodule\n"
     "module gate(input c, e, output o); assign o = c & e; endmodule\n"
     "module s(input c, input [3:0] i, output reg [3:0] o); always @(negedge c) o = i; endmodule",
     "clk en a y k u.c u.e u.o v.c v.i v.o", ["clk=0 en=1 a=0101", "clk=1", "clk=0", "en=0 a=1100", "clk=1", "clk=0", "en=1", "clk=1", "en=x"]),
    ("modules_that_choose_by_a_parameter",
     "module top(input [3:0] a, b, output [3:0] x, y, z); alu #(0) u(a, b, x); alu #(1) v(a, b, y); alu #(.OP(2)) w(a, b, z); endmodule\n"
     "module alu #(parameter OP = 0)(input [3:0] a, b, output reg [3:0] y); always @* case (OP) 0: y = a + b; 1: y = a & b; default: y = OP; endcase endmodule",
     "a b x y z " + " ".join(f"{inner}.{port}" for inner in "uvw" for port in "aby"), ["a=0110 b=0011", "a=1111 b=0x01"]),
    ("a_digit_of_a_word_by_a_signal",
     "module top(input [1:0] i, output y); reg [3:0] m [0:1]; initial m[0] = 4'b0110; assign y = m[0][i]; endmodule",
     "i y m[0] m[1]", ["i=01", "i=11", "i=10"]),
    ("a_loop_whose_first_turn_reads_nothing",
     "module top(input [3:0] a, output reg [3:0] y); reg [3:0] i, j; always @* begin y = 0; for (i = 0; i < 4; i = i + 1) "
     "for (j = 0; j < i; j = j + 1) y[i] = a[j]; end endmodule", "a y i j", ["a=0110", "a=1001"]),
    ("a_loop_whose_register_has_a_rising_range",
     "module top(input [3:0] a, output reg [3:0] y); reg [0:3] i; always @(a) for (i = 0; i < 4; i = i + 1) y[i] = i[3] ^ a[i]; endmodule",
     "a y i", ["a=0110", "a=1001"]),
    ("a_loop_from_a_sum_in_its_registers_width",
     "module top(input go, output reg [7:0] y); reg [7:0] i; always @(go) for (i = 4'd15 + 4'd1; i < 18; i = i + 1) y = i; endmodule",
     "go y i", ["go=0", "go=1"]),
    ("a_wide_label_behind_the_default",
     "module top(input [3:0] c, output reg [1:0] y); always @(c) case (~c) default: y = 1; 8'b11111101: y = 2; endcase endmodule",
     "c y", ["c=0010", "c=1101"]),
    ("words_with_a_rising_range",
     "module top(input [1:0] i, input go, output [3:0] y, output reg [0:3] z); reg [0:3] m [0:1]; initial m[0] = 4'b0010;\n"
     "  assign y = {m[0][i], m[0][1:2], m[0][0]}; always @(posedge go) begin m[1] = 0; m[1][1:2] = 2'b01; m[1][i] = 1; z = m[1]; end endmodule",
     "i go y z m[0] m[1]", ["i=00 go=0", "i=10 go=1"]),
    ("a_bound_that_is_a_sum_in_its_own_width",
     "module top(input go, output [4'd15 + 4'd1:0] y); assign y = ~go; endmodule", "go y", ["go=0", "go=1"]),
]

CONTEXT = "a connection is an assignment (12.3.9.2), so the port's width is the context of the sum; Icarus has the sum in its own width"
OWN_WIDTH = "a parameter's value is worked out at its own width and then resized to its range; Icarus has the range's width as context"

# the same, why they differ from Icarus, and the values of the signals that do
DIFFERENT_HIERARCHIES = [
    ("a_sum_in_a_wider_port",
     "module top(input [3:0] a, b, output [4:0] y); s u(.i(a + b), .o(y)); endmodule module s(input [4:0] i, output [4:0] o); assign o = i; endmodule",
     "a b y u.i u.o", ["a=0111 b=0001", "a=1111 b=0001"], CONTEXT, {name: ["01000", "10000"] for name in ("y", "u.i", "u.o")}),
    ("a_parameter_with_a_wider_range",
     "module top(output [7:0] y); parameter [7:0] P = 4'd15 + 4'd1; assign y = P; endmodule", "y", [""], OWN_WIDTH, {"y": ["00000000"]}),
    ("a_parameter_that_is_a_sum",
     "module top(output [7:0] y); parameter P = 4'd15 + 4'd1; assign y = {P, 1'b1}; endmodule", "y", [""],
     "a parameter without a range has its value's own width (4.10.1), which is that of the sum's operands; Icarus has room for the carry", {"y": ["00000001"]}),
    ("a_word_by_a_sum_in_its_own_width",
     "module top(input [3:0] c, output [3:0] y); reg [3:0] m [0:3]; initial begin m[0] = 5; m[1] = 6; m[2] = 7; m[3] = 8; end\n"
     "  assign y = m[c + 4'd14]; endmodule", "c y m[0] m[1] m[2] m[3]", ["c=0010", "c=0101", "c=0000"],
     "an index is self-determined (5.4.1), so the sum has four digits; Icarus has room for the carry in the index of a word, and not in that of a digit",
     {"y": ["0101", "1000", "xxxx"]}),
    ("a_part_of_a_range_with_bounds_past_2_to_the_32",
     "module top(input [33'd4294967303:33'd4294967296] a, output [3:0] y); assign y = a[4:1]; endmodule", "a y", ["a=10010110", "a=111x0111"],
     "the bounds of a range are taken modulo 2^32 here, so this one is [7:0]; Icarus takes them as they stand, so the part lies outside",
     {"y": ["1011", "x011"]}),
    ("an_integer_below_zero",
     "module top(output [39:0] y, output z); integer i; initial i = -2; assign y = i; assign z = i < 0; endmodule",
     "y z i", [""], UNSIGNED, {"y": ["00000000" + "1" * 31 + "0"], "z": ["0"]}),
]

# ---- rows


def expression(name, width, value, declared="", more=(), differs=None, own=None):
    """The row of `assign y = value`."""
    text = f"module top(input [7:0] a, b, input [3:0] c, input d, output [{width - 1}:0] y); {declared + ' ' if declared else ''}assign y = {value}; endmodule"
    return Row("expression", name, text, paths(["a", "b", "c", "d", "y", *more]), EXPRESSION_STEPS, differs, own or {})


def expressions():
    """The rows of expressions."""
    for found in EXPRESSIONS.strip().splitlines():
        name, width, value = found.split(None, 2)
        yield expression(name, int(width), value)
    for name, declared, more, width, value in DECLARED:
        yield expression(name, width, value, declared, more)
    for name, width, value, differs, own in DIFFERENT:
        yield expression(name, width, value, differs=differs, own={"top.y": own.split()})


def written_body(control, body, lines=""):
    """The text of a process."""
    return f"module top(input [7:0] a, b, input [3:0] c, input clk, output reg [7:0] y, z);{' ' + lines if lines else ''}\n  {control} {body}\nendmodule"


def bodies():
    """The rows of processes."""
    for name, control, body, *declared in BODIES:
        lines, more = declared or ("", [])
        yield Row("body", name, written_body(control, body, lines), paths(["a", "b", "c", "clk", "y", "z", *more]), BODY_STEPS, None, {})
    for name, control, body, differs, own in DIFFERENT_BODIES:
        yield Row("body", name, written_body(control, body), paths(["a", "b", "c", "clk", "y", "z"]), BODY_STEPS, differs, {"top.y": own.split()})
    for name, body in LABELS:
        text = f"module top(input [7:0] a, b, input go, output reg [7:0] y);\n  always @(go) {body}\nendmodule"
        yield Row("body", name, text, paths(["a", "b", "go", "y"]), LABEL_STEPS, None, {})


def hierarchies():
    """The rows of hierarchies."""
    for name, text, signals, steps in HIERARCHIES:
        yield Row("hierarchy", name, text, paths(signals.split()), steps, None, {})
    for name, text, signals, steps, differs, own in DIFFERENT_HIERARCHIES:
        yield Row("hierarchy", name, text, paths(signals.split()), steps, differs, {f"top.{signal}": values for signal, values in own.items()})


if __name__ == "__main__":
    sys.exit(put([*expressions(), *bodies(), *hierarchies()], LEAST, TABLE, "elaboration_values.py"))
