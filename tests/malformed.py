"""Files that are refused, by the rows of document 01's table "What the scope
says no to", with the number of the row.
"""

from boards import (BOARD_001, board_with_bodies, board_with_declarations,
                    board_with_hypotheses, board_with_rules,
                    board_with_totals, even_board, file_of, full_board)
from enumerator import EMPTY_PLACE as empty
from enumerator import atoms_record, build_file, end_record
from enumerator import hypothesis_record as hypo
from enumerator import rule_record as rule


def of_totals(wanted):
    """The file of the board with these totals."""
    return file_of(board_with_totals(wanted))


def malformed_files():
    """The name, the bytes and the refusal of each file."""
    start, end = atoms_record(4), end_record()
    declared = file_of(board_with_declarations(32))[:-1]
    passing = of_totals([1000] * 5 + [2])       # C7: W is twice its limit

    # 1: cut off
    yield "empty file (C6)", b"", 1
    yield "count missing", bytes([1]), 1
    yield "nothing after the count", start, 1
    yield "hypothesis cut", start + hypo(0, 0, 1)[:5], 1
    yield "only the kind of a hypothesis", start + bytes([2]), 1
    yield "rule cut", start + rule(3, ())[:9], 1
    yield "no end record", start + hypo(0, 0, 1) + rule(3, ()), 1
    # "body too short" comes before the field checks.
    yield "cut with a wrong atom", start + bytes([2, 0, 200]), 1
    yield "all wrong, and cut in the last byte", (
        start + hypo(255, 255, 0)[:5]), 1
    yield "full board, no end", file_of(full_board(1))[:-1], 1

    # 2: kind
    yield "first kind 0", bytes([0]), 2
    yield "first kind 5", bytes([5, 1, 4]), 2
    yield "first kind 255", bytes([255]), 2
    yield "second kind 9", start + bytes([9]) + end, 2
    yield "kind 7 after a rule", start + rule(3, ()) + bytes([7]), 2
    yield "kind 0 after a hypothesis", (
        start + hypo(0, 0, 1) + bytes([0]) + end), 2
    yield "kind 5 after 256 rules", (
        build_file(1, [], [(0, ())] * 256)[:-1] + bytes([5])), 2

    # 3: misplaced
    yield "end first", end, 3
    yield "hypothesis first", hypo(0, 0, 1) + end, 3
    yield "rule first", rule(3, ()) + end, 3
    # "wrong place" comes before "body too short" ...
    yield "hypothesis first and cut", bytes([2]), 3
    yield "rule first and cut", bytes([3, 1]), 3
    yield "second count cut", start + bytes([1]), 3
    yield "late hypothesis cut", start + rule(3, ()) + bytes([2]), 3
    yield "second count", start + start + end, 3
    yield "second count after a hypothesis", (
        start + hypo(0, 0, 1) + start + end), 3
    yield "hypothesis after a rule", (
        start + rule(3, ()) + hypo(0, 0, 1) + end), 3
    # ... and before the field checks.
    yield "second count of 0", start + atoms_record(0) + end, 3
    yield "late hypothesis, all wrong", (
        start + rule(3, ()) + hypo(9, 200, 0) + end), 3
    yield "a second end", start + end + end, 3
    yield "unknown kind after the end", start + end + bytes([77]), 3
    yield "0 after the end", start + end + bytes([0]), 3
    yield "cut record after the end", start + end + bytes([2]), 3
    yield "count after the end", start + end + start, 3
    yield "255 after the end", start + end + bytes([255]), 3
    yield "001 board twice", file_of(BOARD_001) * 2, 3
    yield "second count after a rule", start + rule(3, ()) + start + end, 3
    yield "second count after a rule, cut", start + rule(3, ()) + bytes([1]), 3
    yield "hypothesis after 256 rules", (
        build_file(1, [], [(0, ())] * 256)[:-1] + hypo(0, 0, 1)), 3
    yield "byte after the full board", file_of(full_board(1)) + bytes([4]), 3
    yield "full board and 2000 bytes", file_of(full_board(1)) + bytes(2000), 3

    # 4: atom
    yield "count 0", atoms_record(0) + end, 4
    yield "count 129", atoms_record(129) + end, 4
    yield "count 255", atoms_record(255), 4
    yield "hypothesis not below the count", start + hypo(0, 4, 1) + end, 4
    yield "hypothesis 255", start + hypo(0, 255, 1) + end, 4
    yield "head not below the count", start + rule(4, ()) + end, 4
    yield "head 255", start + rule(255, ()) + end, 4
    yield "body atom not below the count", start + rule(3, (0, 4)) + end, 4
    yield "body atom 254", start + rule(3, (254,)) + end, 4
    yield "4 before 5, 6, 7", start + hypo(32, 4, 0) + end, 4
    yield "third hypothesis not below the count", build_file(
        2, [[(0, 1)], [(1, 1)], [(2, 1)]], []), 4
    yield "4 before 9, 11", start + rule(3, (3, 3, 200)) + end, 4
    yield "filled after empty, and no atom", (
        start + rule(3, (0, empty, 200)) + end), 4
    yield "last place filled, and no atom", (
        start + rule(3, (empty,) * 7 + (4,)) + end), 4
    yield "128 atoms, hypothesis 128", (
        atoms_record(128) + hypo(0, 128, 1) + end), 4
    yield "128 atoms, head 128", atoms_record(128) + rule(128, (127,)) + end, 4
    yield "128 atoms, body atom 128", (
        atoms_record(128) + rule(127, (126, 128)) + end), 4
    yield "129 atoms, board else well", (
        atoms_record(129) + file_of(BOARD_001)[2:]), 4
    yield "4 before 10", start + hypo(0, 3, 1) + rule(3, (0, 4)) + end, 4
    yield "4 before 12", build_file(1, [], [(0, ())] * 256 + [(1, ())]), 4
    yield "4 before 6", build_file(
        17, [[(i, 1) for i in range(16)] + [(17, 1)]], []), 4

    # 5: declaration
    yield "first declaration 1", start + hypo(1, 0, 1) + end, 5
    yield "declaration 0 to 2", start + hypo(0, 0, 1) + hypo(2, 1, 1) + end, 5
    yield "declaration back", (
        start + hypo(0, 0, 1) + hypo(1, 1, 1) + hypo(0, 2, 1) + end), 5
    yield "declaration 255 first", start + hypo(255, 0, 1) + end, 5
    yield "33 declarations", file_of(board_with_declarations(33)), 5
    yield "5 before 6, 7", start + hypo(0, 0, 1) + hypo(2, 0, 0) + end, 5
    yield "first declaration 31", start + hypo(31, 0, 1) + end, 5
    yield "first declaration 32", start + hypo(32, 0, 1) + end, 5
    yield "declaration 0 to 255", (
        start + hypo(0, 0, 1) + hypo(255, 1, 1) + end), 5
    yield "declaration 31 to 255", declared + hypo(255, 32, 1) + end, 5
    yield "declaration 31 to 30", declared + hypo(30, 32, 1) + end, 5
    yield "declaration 31 to 0", declared + hypo(0, 32, 1) + end, 5
    yield "declaration 32, else wrong too", declared + hypo(32, 0, 0) + end, 5

    # 6: hypothesis
    yield "atom twice in one", start + hypo(0, 0, 1) + hypo(0, 0, 1) + end, 6
    yield "atom in two", start + hypo(0, 0, 1) + hypo(1, 0, 1) + end, 6
    yield "17 hypotheses", file_of(board_with_hypotheses(17)), 6
    yield "17th of the second declaration", build_file(
        128, [[(0, 1)], [(1 + i, 1) for i in range(17)]], []), 6
    yield "6 before 7", start + hypo(0, 0, 1) + hypo(0, 0, 0) + end, 6
    yield "17th, and a repeated atom", build_file(
        128, [[(i, 1) for i in range(16)] + [(0, 1)]], []), 6
    yield "17th, and weight 0", build_file(
        128, [[(i, 1) for i in range(16)] + [(16, 0)]], []), 6
    yield "17th of declaration 31", build_file(
        48, [[(d, 1)] for d in range(31)]
        + [[(31 + i, 1) for i in range(17)]], []), 6
    yield "atom in the first and the last", build_file(
        128, [[(d, 1)] for d in range(31)] + [[(31, 1), (0, 1)]],
        []), 6
    yield "atom of 16 in the next", build_file(
        128, [[(i, 1) for i in range(16)], [(15, 1)]], []), 6

    # 7: weight
    yield "weight 0", start + hypo(0, 0, 0) + end, 7
    yield "weight 0 later", start + hypo(0, 0, 1) + hypo(1, 1, 0) + end, 7
    yield "weight 0 within a declaration", (
        start + hypo(0, 0, 1) + hypo(0, 1, 0) + hypo(0, 2, 1) + end), 7
    yield "weight 0 in the 16th", build_file(
        128, [[(i, 1) for i in range(15)] + [(15, 0)]], []), 7
    yield "weight 0 in declaration 31", build_file(
        128, [[(d, 1)] for d in range(31)] + [[(31, 0)]], []), 7
    yield "weight 0, then cut", start + hypo(0, 0, 0) + bytes([2]), 7
    yield "weight 0, then misplaced", start + hypo(0, 0, 0) + start, 7

    # 8: product, at the end record
    yield "C7, one more of 2", passing, 8
    yield "8 before the byte after the end", passing + b"\0", 8
    yield "8 after rules", build_file(
        9, [[(i, 16777215)] for i in range(3)], [(8, ())]), 8
    # 100001 * 4627441 * 2161 is 1,000,000,000,000,001.
    yield "W one too large", of_totals([100001, 4627441, 2161]), 8
    yield "all the largest", file_of(even_board(32, 4, 16777215)), 8
    yield "W one too large, of 7 totals", of_totals(
        [7, 11, 13, 211, 241, 2161, 9091]), 8
    yield "W 5 too large", of_totals([3, 5, 17, 1873, 41161, 50867]), 8
    yield "W one too large, sums", build_file(
        7, [[(0, 100000), (1, 1)], [(2, 4627440), (3, 1)],
            [(4, 2159), (5, 1), (6, 1)]], []), 8
    # The last 64 bits of these are 0, 0, 0, 4, 1 and, read with a sign, a
    # number below 0.  The last 128 bits of 2^128 are 0.
    yield "W 2^64", of_totals([2 ** 16] * 4), 8
    yield "W 2^65", of_totals([2 ** 23, 2 ** 23, 2 ** 19]), 8
    yield "W 2^64, 32 declarations of 4", file_of(even_board(32, 4)), 8
    yield "W 2^64 + 4", of_totals([4, 5, 5581, 8681, 49477, 384773]), 8
    yield "W 2^65 + 1", of_totals([3, 11, 131, 2731, 409891, 7623851]), 8
    yield "W 2^63", of_totals([2 ** 21] * 3), 8
    yield "W 2^128", of_totals([16] * 32), 8
    yield "W 2^128 and a byte", of_totals([16] * 32) + bytes([4]), 8
    yield "W 2^53", of_totals([2 ** 23, 2 ** 23, 2 ** 7]), 8
    yield "32 of the largest weight", of_totals([16777215] * 32), 8
    yield "twice 16 of the largest", file_of(even_board(2, 16, 16777215)), 8
    yield "full board, W too large", file_of(full_board(7198647)), 8
    yield "full board, W too large, and a byte", (
        file_of(full_board(7198647)) + bytes([9])), 8
    # The product alone does not fail before the end record.
    yield "large product, then misplaced", passing[:-1] + start, 3
    yield "large product, then weight 0", of_totals([1000] * 5 + [2, 0]), 7
    yield "large product, then head", build_file(
        *board_with_totals([1000] * 5 + [2])[:2], [(5, ())]), 10
    yield "large product, then cut", passing[:-1], 1
    yield "large product, then kind", passing[:-1] + bytes([5]), 2

    # 9: body
    yield "filled after empty", start + rule(3, (0, empty, 1)) + end, 9
    yield "first empty, then filled", start + rule(3, (empty, 1)) + end, 9
    yield "last place filled", (
        start + rule(3, (0,) + (empty,) * 6 + (1,)) + end), 9
    yield "body twice the same", start + rule(3, (1, 1)) + end, 9
    yield "body descending", start + rule(3, (1, 0)) + end, 9
    yield "9 before 10, 11", start + hypo(0, 0, 1) + rule(0, (2, 1)) + end, 9
    yield "only the first place empty", (
        atoms_record(9) + rule(8, (empty,) + tuple(range(7))) + end), 9
    yield "last two the same", (
        atoms_record(9) + rule(8, (0, 1, 2, 3, 4, 5, 6, 6)) + end), 9
    yield "last below the one before", (
        atoms_record(9) + rule(8, (0, 1, 2, 3, 4, 5, 7, 6)) + end), 9
    yield "8 body atoms descending", (
        atoms_record(9) + rule(8, tuple(range(8))[::-1]) + end), 9
    yield "9 before 11", start + rule(1, (3, 3)) + end, 9
    yield "9 before 12", build_file(
        2, [], [(0, ())] * 256 + [(1, (empty, 0))]), 9

    # 10: head
    yield "head is a hypothesis", start + hypo(0, 3, 1) + rule(3, ()) + end, 10
    yield "10 before 11", start + hypo(0, 1, 1) + rule(1, (2,)) + end, 10
    yield "head of the last declaration", build_file(
        128, [[(d, 1)] for d in range(32)], [(31, (0,))]), 10
    yield "head is hypothesis 127", build_file(
        128, [[(127, 1)]], [(126, ()), (127, (126,))]), 10
    yield "head is hypothesis 0", build_file(1, [[(0, 1)]], [(0, ())]), 10
    yield "head is the 16th", build_file(
        128, [[(i, 1) for i in range(16)]], [(16, (15,)), (15, ())]), 10

    # 11: level
    yield "body is the head", start + rule(2, (2,)) + end, 11
    yield "body above the head", start + rule(2, (0, 3)) + end, 11
    yield "body above head 0", start + rule(0, (1,)) + end, 11
    yield "body is head 0", start + rule(0, (0,)) + end, 11
    yield "8th body atom is the head", (
        atoms_record(9) + rule(7, tuple(range(8))) + end), 11
    yield "body above the head in a late rule", build_file(
        *BOARD_001[:2], BOARD_001[2] + [(5, (2, 7))]), 11

    # 12: rules
    yield "257 rules", file_of(board_with_rules(257)), 12
    yield "257 equal rules", build_file(1, [], [(0, ())] * 257), 12
    yield "11 before 12", build_file(2, [], [(0, ())] * 256 + [(0, (1,))]), 11
    yield "10 before 12", build_file(
        2, [[(1, 1)]], [(0, ())] * 256 + [(1, ())]), 10
    yield "257th rule cut", build_file(
        1, [], [(0, ())] * 257)[:2 + 2560 + 9], 1
    yield "257 rules with 8 body atoms", file_of(board_with_bodies(257)), 12
    yield "257th repeats the first", build_file(
        *board_with_rules(256)[:2], board_with_rules(256)[2]
        + [(127, (0,))]), 12
    yield "full board and a rule", file_of(full_board(1, 257)), 12
    yield "257th rule, then cut", build_file(
        1, [], [(0, ())] * 258)[:2 + 2570 + 3], 12
    yield "12 before 8", build_file(
        7, [[(i, 16777215)] for i in range(3)],
        [(6, ())] * 257), 12
