#!/usr/bin/env python3
"""Makes the table of Verilog designs that break a rule of elaboration, and of some that just don't.

    tools/rows/elaboration_rules.py          writes tools/data/elaboration_rules.txt

What is expected of a text stands in this script: `§` stands in front of the token at which the rule is told, and `why` says in
words why that rule is broken, and why there. The clauses are those of IEEE 1364-2005; `docs/VERILOG.md` and `docs/DECISIONS.md`
have the rules. No expected answer comes from a program. Each text is also given to `iverilog -g2005`, whose word is only compared:

- what Icarus refuses must be refused here, so a text that is accepted here must be taken by Icarus;
- a text that is refused here and that Icarus takes has the reason in its row (`takes`), and one that Icarus refuses has none.

The script ends with the status 1, and writes nothing, where that doesn't hold, where a rule has fewer than four texts, or none in
which a second rule is broken that counts less. `tools/rows/elaboration_rows.py` makes of the rows what `design_tests` is run on.

A line of the table that begins with `#` is no row. A row has these parts, with a tab between two of them:

    0 name     words with `_` between them
    1 top      the name of the module that is to be the top, `-` for none
    2 front    \\  the text is the front, so many of the unit one behind
    3 unit      | the other, and what stands behind them; in the three of
    4 count     | them `\\0a` is a line feed, and so with each byte that isn't
    5 behind   /  printed, and with `\\` itself
    6 answer   `accepted`, or the rule and the byte, counted from 0, at which it is told
    7 second   the rules that are broken too and count less, `-` for none
    8 icarus   `takes` or `refuses`
    9 reason   why Icarus takes what is refused here, `-` where it doesn't
   10 why      why that rule, and why there
"""
import subprocess
import sys
import tempfile
from collections import namedtuple
from pathlib import Path

TABLE = Path(__file__).resolve().parent.parent / "data" / "elaboration_rules.txt"
RULES = (
    "NoTop UnknownModule RecursiveInstance DuplicateName UnknownName BadPort NotConstant BadRange TooWide TwoDrivers BadTarget "
    "LoopTooLong TooMany BadDelay"
).split()
MARK, REPEATED = "§", "¤"

# Reasons that several rows share.
RESOLVED = "several drivers of a net are resolved (4.6.1); here each digit of a net has one"
IMPLICIT = "a name that isn't declared becomes a net there (4.5); here each name is declared"
RUN = "a loop runs while the design is simulated (9.6); here it is unrolled before"
SHORT = "how long vectors may be is left to the tool, with 65,536 digits as the least (4.3.1); here 128 is the most"
LIMITED = "the standard has no such limit"

Row = namedtuple("Row", "rule name text why takes second top repeat")


def row(rule, name, text, why, takes=None, second=(), top=None, repeat=("", 0)):
    """A row; `repeat` is the unit that stands so many times for `¤`."""
    return Row(rule, name, text, why, takes, second, top, repeat)


def no_top():
    """Texts without a top: the rule is told at byte 0."""
    rule, several = "NoTop", "each module that no other instantiates is a top (12.1.1); here there is one"
    yield row(rule, "no_module_at_all", "§", "nothing can be the top")
    yield row(rule, "two_candidates", "§module a; endmodule module b; endmodule",
              "neither is instantiated, so there are two candidates", several)
    yield row(rule, "each_instantiates_the_other", "§module a; b u(); endmodule module b; a u(); endmodule",
              "each is instantiated, so there is no candidate")
    yield row(rule, "one_that_instantiates_itself", "§module a; a u(); endmodule",
              "it is instantiated, if by itself alone, so there is no candidate")
    yield row(rule, "a_top_that_isnt_there", "§module a; endmodule", "no module has the name that was asked for", top="b")
    yield row(rule, "an_instance_is_no_top", "§module a; b u(); endmodule module b; endmodule",
              "`u` names an instance and no module", top="u")
    yield row(rule, "two_candidates_behind_a_comment", "§// a and b\nmodule a; endmodule module b; endmodule",
              "the place is that of the text's first byte, whether or not a token begins there", several)
    yield row(rule, "two_candidates_and_an_unknown_name", "§module a; wire w = zz; endmodule module b; endmodule",
              "the top is looked for before any instance is walked, so `zz` isn't met", second=["UnknownName"])


def unknown_module():
    """Instances of modules that aren't there: told at the module's name."""
    rule = "UnknownModule"
    yield row(rule, "a_module_that_isnt_there", "module m; §nope u(); endmodule", "the item's module name names no module (12.1.2)")
    yield row(rule, "an_unknown_module_two_levels_down", "module m; s u(); endmodule module s; §t v(); endmodule",
              "the subtree of `u` is walked at its item, and `t` stands in it")
    yield row(rule, "an_instance_is_no_module", "module s; endmodule module m; s u(); §u v(); endmodule", "`u` names an instance")
    yield row(rule, "letters_of_the_other_case", "module m; §S u(); endmodule module s; endmodule",
              "names differ by the case of letters (3.7)", top="m")
    yield row(rule, "an_unknown_module_with_unknown_connections", "module m; §nope #(.P(zz)) u(yy); endmodule",
              "the module's name stands before the names that aren't declared", second=["UnknownName"])
    yield row(rule, "an_unknown_module_before_a_second_driver", "module m(output y); assign y = 1;\n  §nope u();\n  assign y = 0; endmodule",
              "items are walked in their order, and the second driver comes later", second=["TwoDrivers"])


def recursive_instance():
    """Instances inside of themselves: told at the module's name."""
    rule = "RecursiveInstance"
    yield row(rule, "a_module_in_itself", "module m; a u(); endmodule module a; §a u(); endmodule",
              "the instance would hold itself without end")
    yield row(rule, "two_modules_in_one_another", "module m; a u(); endmodule module a; b u(); endmodule module b; §a u(); endmodule",
              "`a` stands above `b` already, and the place is in `b`")
    yield row(rule, "the_top_in_itself", "module m; §m u(); endmodule", "a top that is asked for stands above all", top="m")
    yield row(rule, "the_top_three_levels_down", "module m; a u(); endmodule module a; b u(); endmodule module b; c u(); endmodule module c; §m u(); endmodule",
              "the top stands above all of its tree", top="m")
    yield row(rule, "a_module_in_itself_with_bad_ports", "module m; a u(); endmodule module a; §a #(2) u(zz); endmodule",
              "the module's name stands before the parameter, the port and the name that aren't there", second=["BadPort", "UnknownName"])


def duplicate_name():
    """Names that are declared twice: told at the second name in walking order."""
    rule = "DuplicateName"
    yield row(rule, "a_second_module", "module a; endmodule module §a; endmodule", "modules share one space of names (4.11)")
    yield row(rule, "a_second_module_and_two_candidates", "module a; endmodule module b; endmodule module §a; endmodule",
              "the names of modules are walked before the top is looked for", second=["NoTop"])
    yield row(rule, "a_wire_twice", "module m; wire a, §a; endmodule", "one name, two nets")
    yield row(rule, "a_wire_and_a_register", "module m; wire a;\n  reg §a; endmodule", "nets and variables share one space of names (4.11)")
    yield row(rule, "a_parameter_behind_a_wire", "module m; wire §a; parameter a = 1; endmodule",
              "parameters are walked before declarations, so the wire is the second one")
    yield row(rule, "a_parameter_twice", "module m; parameter P = 1, §P = 2; endmodule", "one name, two parameters")
    yield row(rule, "a_port_twice", "module m(input a, input §a); endmodule", "a header that declares its ports declares each once")
    yield row(rule, "a_port_twice_before_an_output", "module m; wire w; s u(1, 1, w); endmodule module s(input a, input §a, output b); endmodule",
              "connections in order go to the ports of the header one by one (12.3.5), so `w` is the output's")
    yield row(rule, "a_port_twice_beside_a_driver", "module m; wire w; assign w = 1; s u(w, w); endmodule module s(input a, input §a, output b); endmodule",
              "both connections are those of inputs, which drive nothing")
    yield row(rule, "a_port_twice_and_as_many_connections", "module m; wire x, y; s u(x, y); endmodule module s(input a, input §a); endmodule",
              "the header has two ports, so the second connection isn't too many")
    yield row(rule, "a_port_with_other_bounds", "module m(q); output [1:0] q; reg [0:1] §q; endmodule",
              "a port's two declarations have one range (12.3.3)")
    yield row(rule, "a_port_whose_kind_stands_twice", "module m(q); output wire q; wire §q; endmodule",
              "its direction stands with `wire` already (12.3.3)")
    yield row(rule, "a_port_as_a_memory", "module m(q); output q; reg §q [0:1]; endmodule", "a port is no memory (12.3.3)")
    yield row(rule, "an_instance_and_a_wire", "module m; wire u; s §u(); endmodule module s; endmodule",
              "instances share the names of nets (4.11)")
    yield row(rule, "an_instance_twice", "module m; s u(); s §u(); endmodule module s; endmodule", "one name, two instances")
    yield row(rule, "an_instance_and_a_parameter", "module m; parameter u = 1; s §u(); endmodule module s; endmodule",
              "instances share the names of parameters (4.11)")
    yield row(rule, "an_instance_before_a_register", "module m; s §u(); reg u; endmodule module s; endmodule",
              "declarations are walked before the other items, so the instance is the second one")
    yield row(rule, "a_memory_twice_and_an_unknown_bound", "module m; reg a; reg §a [zz:0]; endmodule",
              "a memory's name stands before its bounds", second=["UnknownName"])


def unknown_name():
    """Names that aren't declared: told at the name."""
    rule = "UnknownName"
    yield row(rule, "an_operand", "module m(output y); assign y = 1 + §zz; endmodule", "no declaration of the module has that name")
    yield row(rule, "a_target_of_an_assign", "module m; assign §zz = 1; endmodule", "a target is a name like any other", IMPLICIT)
    yield row(rule, "a_target_of_a_procedure", "module m; initial §zz = 1; endmodule", "a target is a name like any other")
    yield row(rule, "an_event", "module m; reg r; always @(posedge §clk) r = 1; endmodule", "an event names a signal")
    yield row(rule, "the_register_of_a_loop", "module m; initial for (§i = 0; i < 2; i = i + 1) ; endmodule", "a loop declares no register")
    yield row(rule, "a_connection", "module m; s u(§n); endmodule module s(input i); endmodule",
              "a connection is an expression over the module around it", IMPLICIT)
    yield row(rule, "a_signal_of_an_instance", "module m; wire w = §x; s u(); endmodule module s; wire x; endmodule",
              "each module has names of its own (12.7)")
    yield row(rule, "an_instance_is_no_signal", "module m; s u(); wire w = §u; endmodule module s; endmodule", "an instance has no value")
    yield row(rule, "a_bound_of_a_later_line", "module m; wire a; assign a = zz; wire [§N:0] c; endmodule",
              "declarations are walked before the other items")
    yield row(rule, "a_label_of_a_case", "module m; reg [1:0] a; always @(a) case (a) 2'd1, §zz: ; endcase endmodule",
              "a label is an expression")
    yield row(rule, "an_index_of_a_part_of_200_digits", "module m; wire [3:0] a; wire b = a[§zz +: 200]; endmodule",
              "a broken index takes away the width of the select that holds it, so it isn't asked whether that is too wide")
    yield row(rule, "an_index_of_a_word_of_which_200_digits_are_selected", "module m; reg [7:0] r [0:3]; wire b = r[§zz][0 +: 200]; endmodule",
              "a word's broken index takes away the width of the select behind it too")
    yield row(rule, "an_index_before_a_bad_range", "module m; wire [3:0] a; wire b = a[§zz] + a[0:3]; endmodule",
              "of two rules in one item the one with the lesser place counts", second=["BadRange"])
    yield row(rule, "a_subtree_before_the_next_item", "module m; s u(); nope v(); endmodule module s; wire w = §zz; endmodule",
              "the subtree of `u` is walked at its item, before the next one, which stands further ahead in the text", second=["UnknownModule"])
    yield row(rule, "an_undeclared_target_before_a_delay_of_0", "module m; initial §zz <= #0 1; endmodule",
              "the target stands before the delay", second=["BadDelay"])


def bad_port():
    """Ports and parameters that don't fit: told at the name, or at the expression that is too many."""
    rule, child = "BadPort", " endmodule module s(input i, output o); endmodule"
    warned, silent = "Icarus only warns of it", "Icarus says nothing of it"
    yield row(rule, "an_unknown_port", f"module m; wire a; s u(.i(a), .§n(a));{child}", "the module has no port of that name (12.3.6)")
    yield row(rule, "a_port_connected_twice", f"module m; wire a, b; s u(.o(a), .§o(b));{child}", "a port has one connection (12.3.6)")
    yield row(rule, "too_many_connections", f"module m; wire a, b; s u(a, b, §1);{child}",
              "there are two ports, and the third expression has none (12.3.5)")
    yield row(rule, "a_header_name_without_direction", "module m(§a, q); output q; endmodule",
              "each name of the header has a direction (12.3.3)")
    yield row(rule, "a_direction_of_no_header_name", "module m; input §a; endmodule",
              "a direction stands for a name of the header (12.3.3)", silent)
    yield row(rule, "a_header_name_twice", "module m(a, §a); input a; endmodule",
              "an instance couldn't tell the two ports apart", "the standard lets one net stand behind two ports (12.3.2)")
    yield row(rule, "a_header_name_twice_before_an_output", "module m; wire w; s u(w, w, w); endmodule module s(a, §a, b); input a; output b; endmodule",
              "connections in order go to the names of the header one by one (12.3.5), and the instance's module is walked behind them",
              "the standard lets one net stand behind two ports (12.3.2)")
    yield row(rule, "a_connection_too_many_for_a_port_twice", "module m; s u(1, 1, §1); endmodule module s(input a, input a); endmodule",
              "there are two ports, and the instance is checked before its module is walked", second=["DuplicateName"])
    yield row(rule, "an_input_register_in_the_header", "module m(input reg §a); endmodule", "an input is a net (12.3.3)")
    yield row(rule, "an_input_that_becomes_a_register", "module m(a); input a; reg §a; endmodule", "an input is a net (12.3.3)")
    yield row(rule, "a_value_for_a_local_parameter", "module m; s #(.§B(2)) u(); endmodule module s; localparam B = 2; endmodule",
              "it can't be given from outside (4.10.2)", warned)
    yield row(rule, "an_unknown_parameter", "module m; s #(.§Q(1)) u(); endmodule module s; parameter P = 2; endmodule",
              "the module has no parameter of that name (12.2.2)", warned)
    yield row(rule, "too_many_values", "module m; s #(1, §2) u(); endmodule module s #(parameter P = 2); localparam Q = 1; endmodule",
              "the second value has no parameter: local ones aren't counted (4.10.2)", silent)
    yield row(rule, "a_parameter_given_twice", "module m; s #(.P(1), .§P(1)) u(); endmodule module s #(parameter P = 2); endmodule",
              "a parameter has one value (12.2.2)", silent)
    yield row(rule, "an_unknown_port_without_an_expression", f"module m; s u(.§n());{child}",
              "the module has no port of that name, whatever it is connected to (12.3.6)")
    yield row(rule, "an_unknown_parameter_without_a_value", "module m; s #(.§Q()) u(); endmodule module s #(parameter P = 2); endmodule",
              "the module has no parameter of that name, whatever it is given (12.2.2)", silent)
    yield row(rule, "a_parameter_named_twice_with_one_value", "module m; s #(.P(), .§P(1)) u(); endmodule module s #(parameter P = 2); endmodule",
              "a parameter is named once, with a value or without one (12.2.2)", silent)
    yield row(rule, "an_unknown_port_and_name", f"module m; s u(.§n(zz));{child}",
              "the port's name stands before the name that isn't declared", second=["UnknownName"])


def not_constant():
    """Where a constant has to stand: told at the expression's first token."""
    rule = "NotConstant"
    unknown = "a parameter may have unknown digits (4.10.1); here it is a number"
    yield row(rule, "a_bound_of_a_range", "module m(input a); wire [§a:0] y; endmodule",
              "a range is known before any signal has a value (4.3.1)")
    yield row(rule, "a_count_of_copies", "module m(input a); wire [3:0] y = {§a{1'b1}}; endmodule",
              "a width can't depend on a signal (5.1.14)")
    yield row(rule, "a_parameter_of_unknown_digits", "module m; parameter P = §2'b1x; endmodule", "a parameter is a number", unknown)
    yield row(rule, "a_parameter_of_a_later_one", "module m; parameter A = §B; parameter B = 1; endmodule",
              "parameters are walked in order", "Icarus works out parameters by need, in any order")
    yield row(rule, "a_parameter_of_itself", "module m; parameter A = §1 + A; endmodule",
              "it has no value yet, and the whole expression is told")
    yield row(rule, "a_given_value_of_unknown_digits", "module m; s #(§1'bz) u(); endmodule module s #(parameter P = 2); endmodule",
              "a parameter is a number", unknown)
    yield row(rule, "a_given_value_of_a_signal", "module m(input a); s #(.P(§a)) u(); endmodule module s #(parameter P = 2); endmodule",
              "an instance is made before any signal has a value (12.2)")
    yield row(rule, "a_bound_of_a_part", "module m(input [3:0] a, input b, output [1:0] y); assign y = a[§b:0]; endmodule",
              "a width can't depend on a signal (5.2.1)")
    yield row(rule, "a_width_of_a_part", "module m(input [3:0] a, input b, output [1:0] y); assign y = a[0 +: §b]; endmodule",
              "a width can't depend on a signal (5.2.1)")
    yield row(rule, "the_end_of_a_loop", "module m(input [3:0] n); reg [3:0] i; initial for (i = 0; §i < n; i = i + 1) ; endmodule",
              "the turns of a loop are known before any signal has a value; the condition begins at `i`", RUN)
    yield row(rule, "the_beginning_of_a_loop", "module m(input [3:0] n); reg [3:0] i; initial for (i = §n; i < 3; i = i + 1) ; endmodule",
              "the turns of a loop are known before any signal has a value", RUN)
    yield row(rule, "an_index_of_a_net_that_is_driven", "module m(input a, output [1:0] y); assign y[§a] = 1; endmodule",
              "which digits are driven can't depend on a signal (6.1)")
    yield row(rule, "an_index_of_a_net_behind_an_output", "module m(input a); wire [1:0] y; s u(.o(y[§a])); endmodule module s(output o); endmodule",
              "a connection of an output is driven as by an `assign` (12.3.9.2)")
    yield row(rule, "a_base_of_a_part_that_is_driven", "module m(input [1:0] a, output [3:0] y); assign y[§a +: 2] = 1; endmodule",
              "which digits are driven can't depend on a signal (6.1)")
    yield row(rule, "a_base_of_a_part_behind_an_output", "module m(input [1:0] a); wire [3:0] y; s u(.o(y[§a +: 2])); endmodule module s(output [1:0] o); endmodule",
              "a connection of an output is driven as by an `assign` (12.3.9.2)")
    yield row(rule, "a_bound_before_an_unknown_name", "module m(input a); wire [§a:zz] y; endmodule",
              "the first bound stands before the second", second=["UnknownName"])


def bad_range():
    """Selects that don't fit: told at the `[` of the last select, at the count, or at the name."""
    rule = "BadRange"
    yield row(rule, "a_part_against_its_range", "module m(input [0:3] a, output [1:0] y); assign y = a§[1:0]; endmodule",
              "indices rise in `a`, so they do in its parts (5.2.1)")
    yield row(rule, "a_part_against_a_falling_range", "module m(input [3:0] a, output [1:0] y); assign y = a§[0:1]; endmodule",
              "indices fall in `a`, so they do in its parts (5.2.1)")
    yield row(rule, "a_part_of_a_parameter_against_its_range", "module m; localparam [3:0] P = 5; wire [1:0] y = P§[0:1]; endmodule",
              "a parameter's parts are selected like a net's")
    yield row(rule, "no_copies", "module m(input a, output [3:0] y); assign y = {1'b1, {§0{a}}}; endmodule",
              "a count is at least 1 (5.1.14 has 0 in no wider braces only)",
              "Icarus takes a count of 0 inside of wider braces, as 5.1.14 does; here a count is at least 1")
    yield row(rule, "a_part_of_no_digits", "module m(input [3:0] a, output [3:0] y); assign y = a[1 +: §0]; endmodule",
              "a width is at least 1 (5.2.1)")
    yield row(rule, "a_memory_without_an_index", "module m(output y); reg r [3:0]; assign y = §r; endmodule",
              "a memory has no value as a whole (4.9.3); where there is no select the name is told")
    yield row(rule, "a_part_of_a_memory", "module m(output y); reg r [3:0]; assign y = r§[1:0]; endmodule",
              "words are selected one by one (4.9.3)")
    yield row(rule, "two_selects_of_a_vector", "module m(input [3:0] a, output y); assign y = a[1]§[0]; endmodule",
              "a digit has no digits; the last select is told")
    yield row(rule, "a_part_of_a_word_against_its_range", "module m(output [1:0] y); reg [3:0] r [0:3]; assign y = r[0]§[0:1]; endmodule",
              "a word's parts go with the range of its digits")
    yield row(rule, "an_event_on_a_memory", "module m; reg r [1:0]; reg q; always @(§r) q = 1; endmodule", "an event is on a vector (9.7)")
    yield row(rule, "an_event_on_a_parameter", "module m; parameter P = 1; reg q; always @(posedge §P) q = 1; endmodule",
              "a parameter never changes", "an event may be any expression (9.7); here it is a signal")
    yield row(rule, "a_loop_in_a_memory", "module m; reg r [1:0]; initial for (§r = 0; 1; r = 1) ; endmodule",
              "a loop counts in a register, and a memory is none without an index")
    yield row(rule, "a_part_before_an_unknown_name", "module m(input [3:0] a, output y); assign y = a§[0:3] == zz; endmodule",
              "the `[` stands before the name", second=["UnknownName"])


def too_wide():
    """Widths over 128: told at the `[` of a range, or at the expression's first token."""
    rule = "TooWide"
    yield row(rule, "a_range_of_129_digits", "module m(input §[128:0] a); endmodule", "there are 129 numbers from 128 to 0", SHORT)
    yield row(rule, "a_range_down_to_a_sign", "module m; wire §[-1:0] a; endmodule",
              "no number is below 0: -1 is 2^32 - 1, and there are 2^32 numbers down to 0", "a bound may be below 0 (4.3.1)")
    yield row(rule, "a_rising_range_of_129_digits", "module m; reg §[1:129] a; endmodule", "there are 129 numbers from 1 to 129", SHORT)
    yield row(rule, "a_range_of_129_digits_from_2_to_the_32_on", "module m; wire §[33'd4294967424:33'd4294967296] a; endmodule",
              "bounds are taken modulo 2^32, so the range is [128:0]", SHORT)
    yield row(rule, "a_range_of_129_digits_whose_bound_is_past_2_to_the_32", "module m; wire §[33'd4294967424:0] a; endmodule",
              "2^32 + 128 is 128 modulo 2^32", SHORT)
    yield row(rule, "a_parameter_of_200_digits", "module m; parameter §[199:0] P = 1; endmodule", "a parameter's range is a range", SHORT)
    yield row(rule, "braces_of_129_digits", "module m(input [127:0] a, input b, output y); assign y = 0 == §{a, b}; endmodule",
              "widths in braces are added (5.4.1); the braces are the least part that is too wide", SHORT)
    yield row(rule, "copies_of_160_digits", "module m(output y); assign y = 1 == §{5{32'd1}}; endmodule",
              "5 times 32 digits (5.4.1)", SHORT)
    yield row(rule, "a_part_of_129_digits", "module m(input [3:0] a, output y); assign y = §a[128:0]; endmodule",
              "the part has 129 digits, wherever they lie; it begins at its name", SHORT)
    yield row(rule, "an_indexed_part_of_129_digits", "module m(input [3:0] a, output y); assign y = §a[0 +: 129]; endmodule",
              "the part has 129 digits; it begins at its name", SHORT)
    yield row(rule, "a_target_of_136_digits", "module m; reg [127:0] a; reg [7:0] b; initial §{a, b} = 0; endmodule",
              "a target in braces is as wide as its parts together", SHORT)
    yield row(rule, "copies_before_an_unknown_name", "module m(output y); assign y = §{200{1'b1}} == zz; endmodule",
              "the braces stand before the name", second=["UnknownName"])


def two_drivers():
    """Digits of nets that are driven twice: told at the second target's name, or at the connection's first token."""
    rule, sub, below = "TwoDrivers", " endmodule module s(output o); assign o = 1; endmodule", "a net behind an input may have drivers inside too (12.3.9); here it has the one outside"
    yield row(rule, "a_second_driver_of_a_net", "module m(input a, output y); assign y = a; assign §y = a; endmodule",
              "the digit is driven by the first `assign`", RESOLVED)
    yield row(rule, "a_second_driver_of_a_digit", "module m(input a, output [3:0] y); assign y[2:0] = a; assign §y[3:2] = a; endmodule",
              "the two parts have digit 2 in common", RESOLVED)
    yield row(rule, "a_digit_of_a_rising_net_twice", "module m(output [1:4] y); assign y[4] = 1; assign §y[4] = 0; endmodule",
              "the last digit of a range that rises is its lowest", RESOLVED)
    yield row(rule, "a_net_twice_in_braces", "module m(output y); assign {y, §y} = 1; endmodule",
              "the parts of a target are driven from left to right", RESOLVED)
    yield row(rule, "a_wire_with_a_value_and_an_assign", "module m; wire y = 1; assign §y = 0; endmodule",
              "a wire's value is an assignment (6.1.1)", RESOLVED)
    yield row(rule, "an_input_that_is_driven_inside", "module m(input a); assign §a = 1; endmodule",
              "an input is driven from outside", below)
    yield row(rule, "a_digit_outside_of_an_input", "module m(input [3:0] a); assign §a[7] = 1; endmodule",
              "an input is driven from outside, whatever is selected of it")
    yield row(rule, "a_net_behind_an_output", f"module m(output y); assign y = 1; s u(§y);{sub}",
              "an output drives what it is connected to (12.3.9.2)", RESOLVED)
    yield row(rule, "an_assign_behind_an_output", f"module m(output y); s u(y); assign §y = 1;{sub}",
              "the output drives the net first (12.3.9.2)", RESOLVED)
    yield row(rule, "a_net_behind_two_outputs_in_order", f"module m(output y); s u(y); s v(§y);{sub}",
              "the output of the first instance drives the net", RESOLVED)
    yield row(rule, "a_net_behind_two_outputs", f"module m(output y); s u(.o(y)); s v(§.o(y));{sub}",
              "the first token of a connection by name is its `.`", RESOLVED)
    yield row(rule, "an_input_behind_an_output", "module m; wire w; t u(w); endmodule module t(input i); s v(§i);" + sub,
              "an input of an instance is driven from outside too", below)
    yield row(rule, "a_second_driver_of_an_unknown_value", "module m(output y); assign y = 1; assign §y = zz; endmodule",
              "the target stands before the value", second=["UnknownName"])


def bad_target():
    """Targets of the wrong kind: told at the name, or at a connection's first token."""
    rule, loops, sub = "BadTarget", RUN + ", and its register can be written in it", " endmodule module s(output o); assign o = 1; endmodule"
    yield row(rule, "a_net_in_a_procedure", "module m(output y); initial §y = 1; endmodule", "a procedure writes variables (9.2)")
    yield row(rule, "an_input_in_a_procedure", "module m(input a); initial §a = 1; endmodule",
              "an input is a net, and a procedure writes variables (9.2)")
    yield row(rule, "a_register_in_an_assign", "module m(output reg y); assign §y = 1; endmodule", "an `assign` drives nets (6.1)")
    yield row(rule, "a_parameter_in_a_procedure", "module m; parameter P = 1; initial §P = 2; endmodule",
              "a parameter never changes (4.10)")
    yield row(rule, "a_register_in_braces", "module m(output y); reg r; assign {y, §r} = 1; endmodule",
              "each part of an `assign`'s target is a net")
    yield row(rule, "the_register_of_a_loop_in_its_body", "module m; reg i, j; initial for (i = 0; i < 1; i = 1) begin j = 1; §i = 1; end endmodule",
              "in the body the register is a constant of the turn", loops)
    yield row(rule, "a_loop_in_a_loop_of_one_register", "module m; integer i; initial for (i = 0; i < 2; i = i + 1) for (§i = 0; i < 2; i = i + 1) ; endmodule",
              "in the body the register is a constant of the turn", loops)
    yield row(rule, "a_loop_with_two_registers", "module m; integer i, j; initial for (i = 0; i < 2; §j = j + 1) ; endmodule",
              "a loop has one name in all three parts", RUN)
    yield row(rule, "a_loop_in_a_net", "module m; wire i; initial for (§i = 0; i < 1; i = 1) ; endmodule", "a loop counts in a register")
    yield row(rule, "an_output_connected_to_no_target", f"module m(input a); s u(§a + 1);{sub}",
              "an output drives its connection, so it has the form of a target (12.3.9.2)")
    yield row(rule, "an_output_connected_to_a_number", f"module m; s u(§.o(1'b1));{sub}",
              "the first token of a connection by name is its `.`")
    yield row(rule, "an_output_connected_to_a_register", f"module m; reg r; s u(.o(§r));{sub}", "an output drives nets; the name is told")
    yield row(rule, "an_output_with_the_name_of_an_input", "module m; s u(1, §1); endmodule module s(input a, output a); endmodule",
              "the second port is an output, whatever its name is, and the instance is checked before its module is walked", second=["DuplicateName"])
    yield row(rule, "a_net_in_a_procedure_and_an_unknown_name", "module m(output y); initial §y = zz; endmodule",
              "the target stands before the value", second=["UnknownName"])


def loop_too_long():
    """Loops of more than 4,096 turns: told at `for`."""
    rule = "LoopTooLong"
    yield row(rule, "a_loop_of_4097_turns", "module m; integer i; reg a; initial §for (i = 0; i < 4097; i = i + 1) a = 1; endmodule",
              "0 to 4,096 are 4,097 turns", RUN)
    yield row(rule, "a_loop_without_end", "module m; integer i; reg a; initial §for (i = 0; 1; i = i + 1) a = 1; endmodule",
              "the condition is true in each turn", RUN)
    yield row(rule, "a_register_too_narrow_for_the_end", "module m; reg i, a; initial §for (i = 0; i < 2; i = i + 1) a = 1; endmodule",
              "a digit is less than 2 in each turn: 1 + 1 is cut to 0", RUN)
    yield row(rule, "a_loop_down_past_0", "module m; reg [3:0] i; reg a; initial §for (i = 3; i >= 0; i = i - 1) a = 1; endmodule",
              "no register is below 0", RUN)
    yield row(rule, "an_inner_loop_that_is_too_long_in_one_turn",
              "module m; integer i, j; reg a; initial for (i = 4096; i < 4098; i = i + 1)\n  §for (j = 0; j < i; j = j + 1) a = 1; endmodule",
              "the second turn's inner loop has 4,097 turns", RUN)
    yield row(rule, "a_loop_too_long_and_an_unknown_name", "module m; integer i; reg a; initial §for (i = 0; i < 4097; i = i + 1) a = zz; endmodule",
              "`for` stands before the body", second=["UnknownName"])
    yield row(rule, "a_loop_too_long_and_a_net_in_its_body", "module m; integer i; wire a; initial begin §for (i = 1; i; i = i + 2) a = 1; end endmodule",
              "`for` stands before the body, and an odd number never becomes 0", second=["BadTarget"])


def doubled(levels):
    """Modules `t0` to `t..`, where each but the first has two instances of the one before: t15 is 65,535 instances."""
    pairs = (f" module t{n}; t{n - 1} u(); t{n - 1} v(); endmodule" for n in range(1, levels + 1))
    return " module t0; endmodule" + "".join(pairs)


def chained(last):
    """Modules `a0` to `a..`, where each but the last has an instance of the next; the last item is marked."""
    items = [f"a{n + 1} u();" for n in range(last)]
    items[-1] = MARK + items[-1]
    return " ".join(f"module a{n}; {item} endmodule" for n, item in enumerate(items)) + f" module a{last}; endmodule"


def processes(behind):
    """65,536 processes, 256 in each of 16 by 16 instances, and one item more."""
    b, c = (" ".join(f"{inner} u{n}();" for n in range(16)) for inner in "bc")
    return f"module m; reg r; a u(); {behind} endmodule module a; {b} endmodule module b; {c} endmodule module c; reg r; {REPEATED}endmodule"


def too_many():
    """More than 65,536 signals, processes or instances, or 64 levels: told at the name, or at the item's first token."""
    rule, unit = "TooMany", ("initial r = 1; ", 256)
    yield row(rule, "a_memory_of_65537_words", "module m; reg §a [65536:0]; endmodule", "each word is a signal", LIMITED)
    yield row(rule, "a_signal_behind_65536_others", "module m; reg a [65535:0]; wire §b; endmodule", "the memory leaves no room", LIMITED)
    yield row(rule, "signals_of_two_instances", "module m; wire a; s u(); endmodule module s; reg §b [65535:0]; endmodule",
              "the signals of all instances count together", LIMITED)
    yield row(rule, "a_process_behind_65536_others", processes("§initial r = 1;"),
              "the processes of all instances count together, and those of `u` stand before", LIMITED, repeat=unit)
    yield row(rule, "a_wire_with_a_value_behind_65536_processes", processes("§wire w = 1;"),
              "a wire's value is a process (6.1.1)", LIMITED, repeat=unit)
    yield row(rule, "an_instance_behind_65536_others", "module m; t15 u(); §t0 v(); endmodule" + doubled(15),
              "the top and the 65,535 instances of `t15` leave no room", LIMITED)
    yield row(rule, "an_instance_65_below_the_top", chained(65), "the top is `a0`, so `a65` would stand 65 below it", LIMITED)
    yield row(rule, "too_many_words_and_an_unknown_bound", "module m; reg §a [65536:0], b [zz:0]; endmodule",
              "the memory's name stands before the bound", second=["UnknownName"])


def bad_delay():
    """Delays of assignments that are no number of steps: told at the delay's number."""
    rule, same = "BadDelay", "a delay of 0 is one to the end of the time step (5.4, 9.7.1); here a delay has at least one step"
    rounded = "a delay is rounded to the precision (19.8); here it is a whole number of steps"
    far = "how far a simulation's time goes is left to the tool"
    yield row(rule, "a_delay_of_0", "module top(input clk, input d, output reg q);\n  always @(posedge clk) q <= #§0 d;\nendmodule",
              "a delay is at least one step", same)
    yield row(rule, "a_delay_of_a_sized_0", "module m(input d, output reg q); initial q <= #§8'd0 d; endmodule", "the number is 0, whatever its size")
    yield row(rule, "a_delay_with_an_x", "module m(input d, output reg q); initial q <= #§4'b1x d; endmodule", "the number isn't known")
    yield row(rule, "a_delay_with_a_z", "module m(input d, output reg q); initial q <= #§4'bz d; endmodule", "the number isn't known")
    yield row(rule, "no_whole_number_of_steps",
              "module m(input d, output reg q); initial q <= #§1500 d; s u(); endmodule\n`timescale 1us / 1us\nmodule s; endmodule",
              "the unit of `m` is 1 ns (19.8), and the step is 1 us, the least precision", rounded)
    yield row(rule, "the_unit_behind_a_resetall",
              "`timescale 1us / 1us\nmodule m; s u(); reg q; initial q <= #1 1; endmodule\n`resetall\nmodule s; reg q; initial q <= #§1 1; endmodule",
              "behind `resetall` the unit is 1 ns again (19.6), a thousandth of the step", rounded)
    yield row(rule, "one_step_more_than_2_to_the_62", "module m(input d, output reg q); initial q <= #§64'd4611686018427387905 d; endmodule",
              "its unit is the step")
    yield row(rule, "units_that_come_to_too_many_steps", "`timescale 100s / 1fs\nmodule m(input d, output reg q); initial q <= #§47 d; endmodule",
              "4,700 s are more than 2^62 fs", far)
    yield row(rule, "a_product_beyond_128_digits",
              "`timescale 100s / 1fs\nmodule m(input d, output reg q); initial q <= #§128'd340282366920938463463374607431768211455 d; endmodule",
              "2^128 - 1 times 10^17")
    yield row(rule, "a_delay_of_0_in_a_turn", "module m; integer i; reg [1:0] q; initial for (i = 0; i < 2; i = i + 1) q[i] <= #§0 1; endmodule",
              "each turn is checked as it is unrolled", same)
    yield row(rule, "a_delay_of_0_before_an_undeclared_value", "module m; reg q; initial q <= #§0 zz; endmodule",
              "the delay stands before the value", second=["UnknownName"])
    yield row(rule, "a_delay_of_0_before_an_undeclared_condition", "module m; reg q; initial begin q <= #§0 1; if (zz) q = 1; end endmodule",
              "of all that is broken in an item the first place counts", second=["UnknownName"])


def accepted():
    """Neighbours of the texts above that break no rule."""
    rule = "accepted"
    yield row(rule, "a_top_that_is_asked_for", "module a; endmodule module b; endmodule", "two candidates, and one is asked for", top="b")
    yield row(rule, "a_top_that_another_module_instantiates", "module m; wire w = zz; s u(); endmodule module s; endmodule",
              "a top that is asked for may be instantiated, and what isn't below it isn't looked at", top="s")
    yield row(rule, "a_module_that_isnt_reached", "module a; nope u(); wire w = zz; endmodule module m; endmodule",
              "what isn't below the top isn't looked at", top="m")
    yield row(rule, "one_module_in_two_places", "module m; a u(); b v(); endmodule module a; b u(); endmodule module b; endmodule",
              "`b` doesn't stand inside of itself")
    yield row(rule, "a_port_in_two_declarations", "module m(q); output [1:0] q; reg [1:0] q; endmodule",
              "the direction, and the kind with the same range (12.3.3)")
    yield row(rule, "one_name_in_two_modules", "module m; wire w; s w_(); endmodule module s; wire w; wire m; endmodule",
              "each module has names of its own, and modules have a space of theirs (4.11)")
    yield row(rule, "a_name_that_is_declared_later", "module m; parameter N = 1; reg [N:0] b; wire a; assign a = b[0]; endmodule",
              "declarations are walked before the other items")
    yield row(rule, "a_port_that_is_left_open", "module m; s u(.i(), .o()); s v(); endmodule module s(input i, output o); endmodule",
              "a port needs no connection (12.3.6)")
    yield row(rule, "a_loop_without_turns", "module m; integer i; reg a; initial for (i = 0; 0; i = i + 1) a = 1; endmodule",
              "its condition is false at once")
    yield row(rule, "a_count_of_a_parameter", "module m; parameter N = 2; wire [3:0] y = {N{2'b10}}; endmodule",
              "parameters are constants (4.10)")
    yield row(rule, "a_default_that_is_given_a_value", "module m; s #(.P(3)) u(); endmodule module s; parameter P = zz; endmodule",
              "a value that is given takes the place of the default, which isn't looked at (12.2.2)")
    yield row(rule, "a_part_of_one_digit", "module m(input [0:3] a, input [3:0] b, output [1:0] y); assign y = {a[2:2], b[2:2]}; endmodule",
              "equal bounds go with both directions")
    yield row(rule, "ranges_of_128_digits", "module m(input [127:0] a, input [1:128] b, output y); assign y = {a[63:0], b[1:64]} == {32{4'd9}}; endmodule",
              "128 digits each")
    yield row(rule, "two_drivers_of_other_digits", "module m(input a, output [3:0] y); assign y[2:0] = a; assign y[3] = a; endmodule",
              "no digit is driven twice")
    yield row(rule, "a_driver_outside_of_a_net", "module m(output [3:0] y); assign y = 1; assign y[7:4] = 2; endmodule",
              "digits that aren't there aren't driven")
    yield row(rule, "the_register_of_a_loop_behind_it", "module m; integer i; initial begin for (i = 0; i < 2; i = i + 1) ; i = 1; end endmodule",
              "behind the loop it is a register again")
    yield row(rule, "a_loop_of_4096_turns", "module m; integer i; reg a; initial for (i = 0; i < 4096; i = i + 1) a = 1; endmodule",
              "0 to 4,095 are 4,096 turns")
    yield row(rule, "a_memory_of_65536_words", "module m; reg a [65535:0]; endmodule", "65,536 signals")
    yield row(rule, "a_bound_of_2_to_the_32", "module m; wire [33'd4294967296:0] a; endmodule",
              "it is 0 modulo 2^32, so the range has one digit")
    yield row(rule, "65536_processes", processes(""), "256 in each of 16 by 16 instances", repeat=("initial r = 1; ", 256))
    yield row(rule, "a_long_delay_in_long_units", "`timescale 100s / 1fs\nmodule m(input d, output reg q); initial q <= #46 d; endmodule",
              "4,600 s are less than 2^62 fs")
    yield row(rule, "delays_in_two_units",
              "module m(input d, output reg q); initial q <= #2000 d; s u(); endmodule\n`timescale 1us / 1us\nmodule s; reg q; initial q <= #1 1; endmodule",
              "2,000 ns and 1 us, in steps of 1 us")
    yield row(rule, "a_delay_of_0_in_a_loop_without_turns", "module m; integer i; reg q; initial for (i = 0; 0; i = i + 1) q <= #0 1; endmodule",
              "what stands in a loop is checked turn by turn")
    yield row(rule, "an_instance_64_below_the_top", chained(64).replace(MARK, ""), "the top is `a0`, and `a64` stands 64 below it")


def rows():
    """All rows."""
    kinds = (no_top, unknown_module, recursive_instance, duplicate_name, unknown_name, bad_port, not_constant, bad_range, too_wide,
             two_drivers, bad_target, loop_too_long, too_many, bad_delay, accepted)
    return [found for kind in kinds for found in kind()]


def parts(found):
    """The front, the unit, its count, what stands behind, and the byte at which the rule is told (None where no rule is broken)."""
    unit, count = found.repeat
    place = found.text.replace(REPEATED, unit * count).find(MARK)
    front, _, behind = found.text.replace(MARK, "").partition(REPEATED)
    return front, unit, count, behind, None if place < 0 else place


def taken(found):
    """Whether Icarus Verilog takes the text, and what it says."""
    front, unit, count, behind, _ = parts(found)
    with tempfile.TemporaryDirectory() as folder:
        path = Path(folder) / "text.v"
        path.write_text(front + unit * count + behind, encoding="ascii")
        top = ["-s", found.top] if found.top else []
        done = subprocess.run(["iverilog", "-g2005", "-t", "null", *top, str(path)], capture_output=True, text=True)
    return done.returncode == 0, done.stderr.strip().replace(str(path), "text.v")


def complaints(found, takes, said):
    """What is wrong with a row, as it is compared with the word of Icarus."""
    accepted_here = found.rule == "accepted"
    if accepted_here and not takes:
        yield f"{found.name}: accepted here, and Icarus refuses it: {said}"
    if not accepted_here and takes != (found.takes is not None):
        yield f"{found.name}: {found.rule} here, Icarus {'takes' if takes else 'refuses'} it, and the row's reason is: {found.takes}: {said}"
    if (parts(found)[4] is None) != accepted_here:
        yield f"{found.name}: its place is missing, or it has one too many"


def missing(found):
    """What is missing among the rows."""
    for rule in RULES:
        of_rule = [one for one in found if one.rule == rule]
        if len(of_rule) < 4 or not any(one.second for one in of_rule):
            yield f"{rule} has {len(of_rule)} rows, {sum(bool(one.second) for one in of_rule)} of them with a second rule"
    if len({one.name for one in found}) < len(found):
        yield "two rows have one name"


def escaped(text):
    """A text as a part of a row."""
    return "".join(letter if " " <= letter <= "~" and letter != "\\" else f"\\{ord(letter):02x}" for letter in text)


def line(found, takes):
    """A row of the table."""
    front, unit, count, behind, place = parts(found)
    answer = "accepted" if place is None else f"{found.rule} {place}"
    second = " ".join(found.second) or "-"
    reason = found.takes or "-"
    said = "takes" if takes else "refuses"
    return "\t".join([found.name, found.top or "-", escaped(front), escaped(unit), str(count), escaped(behind), answer, second, said, reason, found.why])


def main():
    found, lines, wrong = rows(), [], []
    for one in found:
        takes, said = taken(one)
        wrong += complaints(one, takes, said)
        lines.append(line(one, takes))
    wrong += missing(found)
    print("".join(one + "\n" for one in wrong), end="")
    print(f"{len(found)} rows, {sum(one.rule == 'accepted' for one in found)} of them accepted, {len(wrong)} complaints")
    if wrong:
        return 1
    TABLE.write_text("# Written by tools/rows/elaboration_rules.py, which tells the form of a row.\n" + "".join(one + "\n" for one in lines), encoding="ascii")
    return 0


if __name__ == "__main__":
    sys.exit(main())
