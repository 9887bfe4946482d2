"""Each refusal of the table, with its number, place, source and words, for texts and for numbers that are passed."""
import random
import re
import unittest

from common import draw_limits, draw_plan, draw_prices, draw_sheet, files_of, program

import jangoripu
from jangoripu import Group, Plan, Prices, Refused, Sheet, measure, price_tanks, solve
from jangoripu import (build_index, from_dimacs, read_limits, read_plan, read_prices, read_sheet, tidy, to_dimacs, write_limits, write_plan,
                       write_prices, write_sheet)

check_index = jangoripu.test_index
TWO = Sheet(2, 2, ((1, 1, 5), (1, 2, 4), (2, 1, 4), (2, 2, 1)))
FAMILIES = Sheet(3, 3, ((2, 1, 1), (3, 1, 1), (3, 2, 1)), True)
TANKS = Sheet(128, 128, tuple((row, column, 1) for row in range(2, 129) for column in range(1, row))[:1024], True)
FIVE = Sheet(1, 5, ((1, 1, 1), (1, 2, 1), (1, 3, 1), (1, 4, 1), (1, 5, 1)))
ONES, NONE, HIGH = (1, 1, 1, 1), Plan((0, 0, 0, 0)), (10, 10, 10, 10)
EMPTY, ZEROS = Plan((0, 0, 0)), (0, 0, 0, 0)
SHEET = "%%MatrixMarket matrix coordinate integer general\n"
SYMMETRIC = "%%MatrixMarket matrix coordinate integer symmetric\n"
ARRAY = "%%MatrixMarket matrix array integer general\n"
PLAN = "%%MatrixMarket matrix coordinate pattern general\n"
PLAN_SYMMETRIC = "%%MatrixMarket matrix coordinate pattern symmetric\n"
LONG = " " * 32769
NODES = "p asn 4 1\nn 1\nn 2\n"


def lines(*text):
    return "".join(f"{line}\n" for line in text)


def grouped(*groups):
    """Measures a plan of no pairs against prices with these groups."""
    return measure(TWO, ONES, NONE, Prices(HIGH, ZEROS, groups))


# Number, place, source, words, and the call with what it is passed.

OF_TEXTS = (
    (1, 0, "sheet.mtx", "the text is longer than 32,768 bytes", read_sheet, LONG),
    (1, 0, "limits.mtx", "the text is longer than 32,768 bytes", read_limits, LONG, TWO),
    (1, 0, "plan.mtx", "the text is longer than 32,768 bytes", read_plan, LONG, TWO),
    (1, 0, "prices.mtx", "the text is longer than 32,768 bytes", read_prices, LONG, TWO),
    (1, 0, "crosses.asn", "the text is longer than 32,768 bytes", from_dimacs, LONG),
    (2, 1, "sheet.mtx", "the text is empty", read_sheet, ""),
    (2, 1, "limits.mtx", "the text is empty", read_limits, "", TWO),
    (2, 1, "plan.mtx", "the text is empty", read_plan, "", TWO),
    (2, 1, "prices.mtx", "the text is empty", read_prices, "", TWO),
    (2, 1, "sheet.mtx", "line 1 is '': the header should be %%MatrixMarket matrix coordinate integer general, or symmetric",
     read_sheet, "\n"),
    (2, 1, "sheet.mtx", "line 1 has more than 1,024 bytes", read_sheet, "x" * 1025),
    (2, 1, "sheet.mtx", "line 1 is '%%MatrixMarket matrix coordinate real general': the header should be %%MatrixMarket matrix "
                        "coordinate integer general, or symmetric",
     read_sheet, "%%MatrixMarket matrix coordinate real general\n"),
    (2, 1, "sheet.mtx", "line 1 is '%%matrixmarket matrix coordinate integer general': the header should be %%MatrixMarket matrix "
                        "coordinate integer general, or symmetric",
     read_sheet, "%%matrixmarket matrix coordinate integer general\n"),
    (2, 1, "sheet.mtx", "line 1 is '%%MatrixMarket matrix array integer general': the header should be %%MatrixMarket matrix coordinate "
                        "integer general, or symmetric",
     read_sheet, ARRAY),
    (2, 1, "limits.mtx", "line 1 is '%%MatrixMarket matrix coordinate integer general': the header should be %%MatrixMarket matrix "
                         "array integer general",
     read_limits, SHEET, TWO),
    (2, 1, "plan.mtx", "line 1 is '%%MatrixMarket matrix coordinate integer general': the header should be %%MatrixMarket matrix "
                       "coordinate pattern general, or symmetric",
     read_plan, SHEET, TWO),
    (2, 1, "prices.mtx", "line 1 is '%%MatrixMarket matrix coordinate pattern general': the header should be %%MatrixMarket matrix "
                         "array integer general",
     read_prices, PLAN, TWO),
    (2, 1, "sheet.mtx", "the text begins with a byte order mark, which is no part of its first line", read_sheet, "\ufeff" + SHEET),
    (2, 1, "sheet.mtx", "line 1 ends with byte 13, a carriage return: '%%MatrixMarket matrix coordinate integer general\\x0d'",
     read_sheet, SHEET.replace("\n", "\r\n")),
    (3, 2, "sheet.mtx", "line 2 is missing: there is no size line", read_sheet, SHEET),
    (3, 2, "limits.mtx", "line 2 is missing: there is no size line", read_limits, ARRAY, TWO),
    (3, 2, "plan.mtx", "line 2 is missing: there is no size line", read_plan, PLAN, TWO),
    (3, 2, "prices.mtx", "line 2 is missing: there is no size line", read_prices, ARRAY, TWO),
    (3, 2, "sheet.mtx", "line 2 is '2 2': the size line should be rows, columns and the number of pairs, without leading zeros",
     read_sheet, SHEET + lines("2 2")),
    (3, 3, "sheet.mtx", "line 3 is '02 2 4': the size line should be rows, columns and the number of pairs, without leading zeros",
     read_sheet, SHEET + lines("% a comment", "02 2 4")),
    (3, 2, "sheet.mtx", "line 2 ends with byte 13, a carriage return: '2 2 4\\x0d'", read_sheet, SHEET + lines("2 2 4\r")),
    (3, 2, "sheet.mtx", "line 2 has more than 1,024 bytes", read_sheet, SHEET + lines("%" + "x" * 1024, "2 2 0")),
    (3, 2, "limits.mtx", "line 2 is '4': the size line should be the number of limits, and 1, without leading zeros",
     read_limits, ARRAY + lines("4"), TWO),
    (3, 2, "plan.mtx", "line 2 is '2 2': the size line should be rows, columns and the number of chosen pairs, without leading zeros",
     read_plan, PLAN + lines("2 2"), TWO),
    (3, 2, "prices.mtx", "line 2 is 'eight 1': the size line should be the number of prices, and 1, without leading zeros",
     read_prices, ARRAY + lines("eight 1"), TWO),
    (4, 2, "sheet.mtx", "line 2 is '65 1 0': a two-sided sheet has 1 to 64 dams, 1 to 64 sires and at most 1,024 pairs",
     read_sheet, SHEET + lines("65 1 0")),
    (4, 3, "sheet.mtx", "line 3 is '0 1 0': a two-sided sheet has 1 to 64 dams, 1 to 64 sires and at most 1,024 pairs",
     read_sheet, SHEET + lines("", "0 1 0")),
    (4, 2, "sheet.mtx", "line 2 is '40 40 1025': a two-sided sheet has 1 to 64 dams, 1 to 64 sires and at most 1,024 pairs",
     read_sheet, SHEET + lines("40 40 1025")),
    (4, 2, "sheet.mtx", "line 2 is '3 2 0': a one-sided sheet has 1 to 128 families, as many columns as rows, and at most 1,024 pairs",
     read_sheet, SYMMETRIC + lines("3 2 0")),
    (4, 2, "sheet.mtx", "line 2 is '129 129 0': a one-sided sheet has 1 to 128 families, as many columns as rows, and at most 1,024 pairs",
     read_sheet, SYMMETRIC + lines("129 129 0")),
    (4, 2, "limits.mtx", "line 2 is '3 1': the size line should be 4 1, one limit for each of 4 fish",
     read_limits, ARRAY + lines("3 1", 1, 1, 1), TWO),
    (4, 2, "limits.mtx", "line 2 is '4 2': the size line should be 4 1, one limit for each of 4 fish",
     read_limits, ARRAY + lines("4 2"), TWO),
    (4, 2, "limits.mtx", "line 2 is '2 1': the size line should be 3 1, one limit for each of 3 fish",
     read_limits, ARRAY + lines("2 1", 1, 1), FAMILIES),
    (4, 2, "prices.mtx", "line 2 is '4 1': the size line should be 8 1, for 4 fish and 4 pairs",
     read_prices, ARRAY + lines("4 1", 1, 1, 1, 1), TWO),
    (4, 2, "prices.mtx", "line 2 is '3 1': the size line should be 6 1, for 3 fish and 3 pairs",
     read_prices, ARRAY + lines("3 1", 1, 1, 1), FAMILIES),
    (4, 2, "plan.mtx", "line 2 is '65 2 0': a two-sided sheet has 1 to 64 dams, 1 to 64 sires and at most 1,024 pairs",
     read_plan, PLAN + lines("65 2 0"), TWO),
    (4, 2, "plan.mtx", "line 2 is '3 2 0': a one-sided sheet has 1 to 128 families, as many columns as rows, and at most 1,024 pairs",
     read_plan, PLAN_SYMMETRIC + lines("3 2 0"), FAMILIES),
    (4, 1, "crosses.asn", "line 1 is 'p asn 4 2': the n lines are the dams and the nodes left over the sires, 1 to 64 of each, with at "
                          "most 1,024 arcs",
     from_dimacs, lines("p asn 4 2")),
    (4, 2, "crosses.asn", "line 2 is 'p asn 2 1': the n lines are the dams and the nodes left over the sires, 1 to 64 of each, with at "
                          "most 1,024 arcs",
     from_dimacs, lines("c all nodes are sources", "p asn 2 1", "n 1", "n 2", "a 1 2 3")),
    (4, 1, "crosses.asn", "line 1 is 'p asn 66 1': the n lines are the dams and the nodes left over the sires, 1 to 64 of each, with at "
                          "most 1,024 arcs",
     from_dimacs, lines("p asn 66 1", "n 1", "a 1 2 3")),
    (4, 1, "crosses.asn", "line 1 is 'p asn 2 1025': the n lines are the dams and the nodes left over the sires, 1 to 64 of each, with "
                          "at most 1,024 arcs",
     from_dimacs, lines("p asn 2 1025", "n 1", "a 1 2 3")),
    (5, 3, "sheet.mtx", "line 3 is '1 1 x7': the line should be row, column and merit, in whole numbers without + and leading zeros",
     read_sheet, SHEET + lines("2 2 1", "1 1 x7")),
    (5, 3, "sheet.mtx", "line 3 is '1 1 +7': the line should be row, column and merit, in whole numbers without + and leading zeros",
     read_sheet, SHEET + lines("2 2 1", "1 1 +7")),
    (5, 3, "sheet.mtx", "line 3 is '1 1 07': the line should be row, column and merit, in whole numbers without + and leading zeros",
     read_sheet, SHEET + lines("2 2 1", "1 1 07")),
    (5, 3, "sheet.mtx", "line 3 is '1 1 7.0': the line should be row, column and merit, in whole numbers without + and leading zeros",
     read_sheet, SHEET + lines("2 2 1", "1 1 7.0")),
    (5, 3, "sheet.mtx", "line 3 is '1 1': the line should be row, column and merit, in whole numbers without + and leading zeros",
     read_sheet, SHEET + lines("2 2 1", "1 1")),
    (5, 3, "sheet.mtx", "line 3 ends with byte 13, a carriage return: '1 1 7\\x0d'", read_sheet, SHEET + lines("2 2 1", "1 1 7\r")),
    (5, 3, "sheet.mtx", "line 3 is '1 1 99999999999999999999999999999999999999999999999999999999' ..: the line should be row, column "
                        "and merit, in whole numbers without + and leading zeros",
     read_sheet, SHEET + lines("2 2 1", "1 1 " + "9" * 80)),
    (5, 3, "sheet.mtx", "line 3 is '1 1 \\x1b[2J\\xc3\\xa9\\x5c': the line should be row, column and merit, in whole numbers without + and "
                        "leading zeros",
     read_sheet, SHEET + lines("2 2 1", "1 1 \x1b[2J\u00e9\\")),
    (5, 3, "sheet.mtx", "line 3 is '% a comment': comments stand between the header and the size line only",
     read_sheet, SHEET + lines("2 2 1", "% a comment", "1 1 7")),
    (5, 3, "sheet.mtx", "line 3 has more than 1,024 bytes", read_sheet, SHEET + lines("2 2 1", "1 1 7" + " " * 1020)),
    (5, 4, "sheet.mtx", "line 4 is missing: the size line says 2 lines, and 1 follow", read_sheet, SHEET + lines("2 2 2", "1 1 7")),
    (5, 5, "sheet.mtx", "line 5 is '1 2 7': one line too many, the size line says 1",
     read_sheet, SHEET + lines("2 2 1", "", "1 1 7", "1 2 7")),
    (5, 3, "sheet.mtx", "line 3 is '% the end': comments stand between the header and the size line only",
     read_sheet, SHEET + lines("2 2 0", "% the end")),
    (5, 3, "limits.mtx", "line 3 is '1 1': the line should be one limit, in whole numbers without + and leading zeros",
     read_limits, ARRAY + lines("4 1", "1 1", "1 1"), TWO),
    (5, 6, "limits.mtx", "line 6 is missing: the size line says 4 lines, and 3 follow", read_limits, ARRAY + lines("4 1", 1, 1, 1), TWO),
    (5, 7, "limits.mtx", "line 7 is '1': one line too many, the size line says 4", read_limits, ARRAY + lines("4 1", 1, 1, 1, 1, 1), TWO),
    (5, 3, "plan.mtx", "line 3 is '1 1 1': the line should be row and column, in whole numbers without + and leading zeros",
     read_plan, PLAN + lines("2 2 1", "1 1 1"), TWO),
    (5, 4, "plan.mtx", "line 4 is missing: the size line says 2 lines, and 1 follow", read_plan, PLAN + lines("2 2 2", "1 1"), TWO),
    (5, 4, "plan.mtx", "line 4 is '2 2': one line too many, the size line says 1", read_plan, PLAN + lines("2 2 1", "1 1", "2 2"), TWO),
    (5, 4, "prices.mtx", "line 4 is 'x': the line should be one price, in whole numbers without + and leading zeros",
     read_prices, ARRAY + lines("8 1", 1, "x"), TWO),
    (5, 4, "prices.mtx", "line 4 is missing: the size line says 8 lines, and 1 follow", read_prices, ARRAY + lines("8 1", 1), TWO),
    (5, 11, "prices.mtx", "line 11 is '8': one line too many, the size line says 8", read_prices, ARRAY + lines("8 1", *range(9)), TWO),
    (6, 3, "sheet.mtx", "line 3 is '3 1 5': rows are 1 to 2 and columns 1 to 3", read_sheet, SHEET + lines("2 3 1", "3 1 5")),
    (6, 3, "sheet.mtx", "line 3 is '1 4 5': rows are 1 to 2 and columns 1 to 3", read_sheet, SHEET + lines("2 3 1", "1 4 5")),
    (6, 3, "sheet.mtx", "line 3 is '1 2 5': families are 1 to 3, and the greater number comes first",
     read_sheet, SYMMETRIC + lines("3 3 1", "1 2 5")),
    (6, 3, "sheet.mtx", "line 3 is '2 2 5': a family is not paired with itself", read_sheet, SYMMETRIC + lines("3 3 1", "2 2 5")),
    (6, 3, "sheet.mtx", "line 3 is '4 2 5': families are 1 to 3, and the greater number comes first",
     read_sheet, SYMMETRIC + lines("3 3 1", "4 2 5")),
    (6, 3, "plan.mtx", "line 3 is '3 1': rows are 1 to 2 and columns 1 to 2", read_plan, PLAN + lines("2 2 1", "3 1"), TWO),
    (6, 3, "plan.mtx", "line 3 is '1 2': families are 1 to 3, and the greater number comes first",
     read_plan, PLAN_SYMMETRIC + lines("3 3 1", "1 2"), FAMILIES),
    (6, 4, "crosses.asn", "line 4 is 'a 3 1 -5': an arc goes from a dam, node 1 to 2, to a sire, node 3 to 4",
     from_dimacs, NODES + lines("a 3 1 -5")),
    (6, 4, "crosses.asn", "line 4 is 'a 1 5 -5': an arc goes from a dam, node 1 to 2, to a sire, node 3 to 4",
     from_dimacs, NODES + lines("a 1 5 -5")),
    (7, 3, "sheet.mtx", "line 3 is '1 1 1000001': the merit of dam 1 with sire 1 is out of range, merits are -1,000,000 to 1,000,000",
     read_sheet, SHEET + lines("1 1 1", "1 1 1000001")),
    (7, 3, "sheet.mtx", "line 3 is '3 2 -1000001': the merit of family 3 with family 2 is out of range, merits are -1,000,000 to 1,000,000",
     read_sheet, SYMMETRIC + lines("3 3 1", "3 2 -1000001")),
    (7, 4, "crosses.asn", "line 4 is 'a 1 3 1000001': the cost is out of range, costs are -1,000,000 to 1,000,000",
     from_dimacs, NODES + lines("a 1 3 1000001")),
    (8, 5, "sheet.mtx", "line 5 is '1 1 6': dam 1 with sire 1 stands on line 3 already",
     read_sheet, SHEET + lines("2 2 3", "1 1 5", "2 1 5", "1 1 6")),
    (8, 5, "sheet.mtx", "line 5 is '3 1 5': family 3 with family 1 stands on line 3 already",
     read_sheet, SYMMETRIC + lines("3 3 2", "3 1 5", "", "3 1 5")),
    (8, 4, "plan.mtx", "line 4 is '1 2': dam 1 with sire 2 stands on line 3 already", read_plan, PLAN + lines("2 2 2", "1 2", "1 2"), TWO),
    (8, 4, "plan.mtx", "line 4 is '3 1': family 3 with family 1 stands on line 3 already",
     read_plan, PLAN_SYMMETRIC + lines("3 3 2", "3 1", "3 1"), FAMILIES),
    (8, 6, "crosses.asn", "line 6 is 'a 1 3 1': these nodes stand on line 4 already",
     from_dimacs, lines("p asn 4 2", "n 1", "n 2", "a 1 3 0", "c again", "a 1 3 1")),
    (10, 6, "limits.mtx", "line 6 is '65': the limit of sire 2 is out of range, limits are 0 to 64",
     read_limits, ARRAY + lines("4 1", 1, 1, 1, 65), TWO),
    (10, 4, "limits.mtx", "line 4 is '-1': the limit of dam 2 is out of range, limits are 0 to 64",
     read_limits, ARRAY + lines("4 1", 1, -1, 1, 1), TWO),
    (10, 7, "limits.mtx", "line 7 is '65': the limit of family 3 is out of range, limits are 0 to 64",
     read_limits, ARRAY + lines("% families", "3 1", "", 1, 1, 65), FAMILIES),
    (13, 6, "prices.mtx", "line 6 is '-1': the price of sire 2 is out of range, prices are 0 to 4,000,000 half points",
     read_prices, ARRAY + lines("8 1", 10, 10, 10, -1, 0, 0, 0, 0), TWO),
    (13, 4, "prices.mtx", "line 4 is '4000001': the price of dam 2 is out of range, prices are 0 to 4,000,000 half points",
     read_prices, ARRAY + lines("8 1", 10, 4000001, 10, 10, 0, 0, 0, 0), TWO),
    (13, 10, "prices.mtx", "line 10 is '-5': the price of pair 2 (dam 1 with sire 2) is out of range, prices are 0 to 4,000,000 half "
                           "points",
     read_prices, ARRAY + lines("% in half points", "8 1", 10, 10, 10, 10, "", 0, -5, 0, 0), TWO),
    (13, 5, "prices.mtx", "line 5 is '-1': the price of family 3 is out of range, prices are 0 to 4,000,000 half points",
     read_prices, ARRAY + lines("6 1", 1, 1, -1, 0, 0, 0), FAMILIES),
    (13, 8, "prices.mtx", "line 8 is '-1': the price of pair 3 (family 3 with family 2) is out of range, prices are 0 to 4,000,000 half "
                          "points",
     read_prices, ARRAY + lines("6 1", 1, 1, 1, 0, 0, -1), FAMILIES),
    (17, 1, "plan.mtx", "line 1 is '%%MatrixMarket matrix coordinate pattern symmetric': the sheet is two-sided, so the plan's header "
                        "should end with general",
     read_plan, PLAN_SYMMETRIC + lines("2 2 0"), TWO),
    (17, 1, "plan.mtx", "line 1 is '%%MatrixMarket matrix coordinate pattern general': the sheet is one-sided, so the plan's header "
                        "should end with symmetric",
     read_plan, PLAN + lines("3 3 0"), FAMILIES),
    (17, 2, "plan.mtx", "line 2 is '2 3 0': the sheet has 2 rows, 2 columns and 4 pairs", read_plan, PLAN + lines("2 3 0"), TWO),
    (17, 2, "plan.mtx", "line 2 is '2 2 5': the sheet has 2 rows, 2 columns and 4 pairs", read_plan, PLAN + lines("2 2 5"), TWO),
    (17, 2, "plan.mtx", "line 2 is '4 4 0': the sheet has 3 rows, 3 columns and 3 pairs",
     read_plan, PLAN_SYMMETRIC + lines("4 4 0"), FAMILIES),
    (17, 3, "plan.mtx", "line 3 is '2 2': dam 2 with sire 2 is no pair of the sheet",
     read_plan, PLAN + lines("2 2 1", "2 2"), Sheet(2, 2, TWO.pairs[:3])),
    (17, 3, "plan.mtx", "line 3 is '3 2': family 3 with family 2 is no pair of the sheet",
     read_plan, PLAN_SYMMETRIC + lines("3 3 1", "3 2"), Sheet(3, 3, FAMILIES.pairs[:2], True)),
    (20, 1, "crosses.asn", "the text is empty", from_dimacs, ""),
    (20, 2, "crosses.asn", "line 2 is missing: there is no p line", from_dimacs, lines("c a comment")),
    (20, 1, "crosses.asn", "line 1 is 'p min 4 1': a line should be p asn NODES ARCS, n NODE or a SOURCE TARGET COST, in whole numbers "
                           "without + and leading zeros",
     from_dimacs, lines("p min 4 1")),
    (20, 1, "crosses.asn", "line 1 is 'p asn 4': a line should be p asn NODES ARCS, n NODE or a SOURCE TARGET COST, in whole numbers "
                           "without + and leading zeros",
     from_dimacs, lines("p asn 4")),
    (20, 1, "crosses.asn", "line 1 is 'n 1': out of turn: one p line comes first, then n lines, then a lines", from_dimacs, lines("n 1")),
    (20, 2, "crosses.asn", "line 2 is 'n 01': a line should be p asn NODES ARCS, n NODE or a SOURCE TARGET COST, in whole numbers "
                           "without + and leading zeros",
     from_dimacs, lines("p asn 4 1", "n 01")),
    (20, 2, "crosses.asn", "line 2 is 'p asn 4 1': out of turn: one p line comes first, then n lines, then a lines",
     from_dimacs, lines("p asn 4 1", "p asn 4 1")),
    (20, 4, "crosses.asn", "line 4 is ' a 1 3 -5': a line should be p asn NODES ARCS, n NODE or a SOURCE TARGET COST, in whole numbers "
                           "without + and leading zeros",
     from_dimacs, NODES + lines(" a 1 3 -5")),
    (20, 5, "crosses.asn", "line 5 is 'n 3': out of turn: one p line comes first, then n lines, then a lines",
     from_dimacs, NODES + lines("a 1 3 -5", "n 3")),
    (20, 5, "crosses.asn", "line 5 is 'a 1 4 -5': one arc too many, the p line says 1 arc",
     from_dimacs, NODES + lines("a 1 3 -5", "a 1 4 -5")),
    (20, 4, "crosses.asn", "line 4 is 'x 1 2': a line should be p asn NODES ARCS, n NODE or a SOURCE TARGET COST, in whole numbers "
                           "without + and leading zeros",
     from_dimacs, NODES + lines("x 1 2")),
    (20, 4, "crosses.asn", "line 4 is missing: the p line says 1 arc, and 0 follow", from_dimacs, NODES),
    (20, 5, "crosses.asn", "line 5 is missing: the p line says 2 arcs, and 1 follow",
     from_dimacs, lines("p asn 4 2", "n 1", "n 2", "a 1 3 -5")),
    (20, 1, "crosses.asn", "line 1 has more than 1,024 bytes", from_dimacs, lines("c" * 1025)),
    (21, 2, "crosses.asn", "line 2 is 'n 2': the source nodes should be 1, 2, 3 and so on, a line for each",
     from_dimacs, lines("p asn 4 1", "n 2")),
    (21, 4, "crosses.asn", "line 4 is 'n 3': the source nodes should be 1, 2, 3 and so on, a line for each",
     from_dimacs, lines("p asn 4 1", "n 1", "c", "n 3")),
)

OF_NUMBERS = (
    (4, 0, "input", "65 dams, 1 sire and 0 pairs: a two-sided sheet has 1 to 64 dams, 1 to 64 sires and at most 1,024 pairs",
     tidy, Sheet(65, 1)),
    (4, 0, "input", "1 dam, 0 sires and 0 pairs: a two-sided sheet has 1 to 64 dams, 1 to 64 sires and at most 1,024 pairs",
     tidy, Sheet(1, 0)),
    (4, 0, "input", "4294967297 dams, 1 sire and 0 pairs: a two-sided sheet has 1 to 64 dams, 1 to 64 sires and at most 1,024 pairs",
     tidy, Sheet(2**32 + 1, 1)),
    (4, 0, "input", "65 dams, 1 sire and 0 pairs: a two-sided sheet has 1 to 64 dams, 1 to 64 sires and at most 1,024 pairs",
     solve, Sheet(65, 1), (1,) * 66),
    (4, 0, "input", "3 rows, 2 columns and 0 pairs: a one-sided sheet has 1 to 128 families, as many columns as rows, and at most 1,024 "
                    "pairs",
     tidy, Sheet(3, 2, (), True)),
    (4, 0, "input", "129 rows, 129 columns and 0 pairs: a one-sided sheet has 1 to 128 families, as many columns as rows, and at most "
                    "1,024 pairs",
     tidy, Sheet(129, 129, (), True)),
    (4, 0, "input", "64 dams, 64 sires and 1025 pairs: a two-sided sheet has 1 to 64 dams, 1 to 64 sires and at most 1,024 pairs",
     tidy, Sheet(64, 64, ((1, 1, 1),) * 1025)),
    (4, 0, "input", "65 dams, 1 sire and 0 pairs: a two-sided sheet has 1 to 64 dams, 1 to 64 sires and at most 1,024 pairs",
     read_plan, PLAN, Sheet(65, 1)),
    (4, 0, "input", "0 numbers: a text of limits or prices has 1 to 1,152", write_limits, ()),
    (4, 0, "input", "1153 numbers: a text of limits or prices has 1 to 1,152", write_limits, (1,) * 1153),
    (6, 2, "input", "pair 2 has row 3 and column 1: rows are 1 to 2 and columns 1 to 2", tidy, Sheet(2, 2, ((1, 1, 5), (3, 1, 5)))),
    (6, 1, "input", "pair 1 has row 1 and column -1: rows are 1 to 2 and columns 1 to 2", tidy, Sheet(2, 2, ((1, -1, 5),))),
    (6, 1, "input", "pair 1 has row 1 and column 2: families are 1 to 3, and the row is the greater",
     tidy, Sheet(3, 3, ((1, 2, 5),), True)),
    (6, 2, "input", "pair 2 has row 2 and column 2: a family is not paired with itself", tidy, Sheet(3, 3, ((2, 1, 5), (2, 2, 5)), True)),
    (6, 1, "input", "pair 1 has row 1 and column 3: rows are 1 to 2 and columns 1 to 2", build_index, Sheet(2, 2, ((1, 3, 5),))),
    (7, 1, "input", "the merit of pair 1 (dam 1 with sire 2) is 1000001: merits are -1,000,000 to 1,000,000",
     solve, Sheet(1, 2, ((1, 2, 1000001),)), (1, 1, 1)),
    (7, 2, "input", "the merit of pair 2 (family 3 with family 2) is -1000000000000000000000000000000: merits are -1,000,000 to 1,000,000",
     write_sheet, Sheet(3, 3, ((2, 1, 0), (3, 2, -10**30)), True)),
    (8, 3, "input", "pair 3 (dam 1 with sire 1) has the same ends as pair 1", solve, Sheet(2, 2, ((1, 1, 5), (2, 1, 5), (1, 1, 6))), ONES),
    (8, 2, "input", "pair 2 (family 3 with family 1) has the same ends as pair 1", tidy, Sheet(3, 3, ((3, 1, 5), (3, 1, 5)), True)),
    (9, 0, "input", "limits: 3 passed, 4 needed, one a fish", solve, TWO, (1, 1, 1)),
    (9, 0, "input", "limits: 1 passed, 3 needed, one a fish", solve, FAMILIES, (1,)),
    (9, 0, "input", "marks: 3 passed, 4 needed, one a pair", measure, TWO, ONES, EMPTY, Prices(HIGH, ZEROS)),
    (9, 0, "input", "prices of fish: 3 passed, 4 needed, one a fish", measure, TWO, ONES, NONE, Prices((10, 10, 10), ZEROS)),
    (9, 0, "input", "prices of pairs: 1 passed, 4 needed, one a pair", measure, TWO, ONES, NONE, Prices(HIGH, (0,))),
    (9, 0, "input", "limits: 1 passed, 4 needed, one a fish; marks: 3 passed, 4 needed, one a pair",
     measure, TWO, (1,), EMPTY, Prices(HIGH, ZEROS)),
    (9, 0, "input", "marks: 3 passed, 4 needed, one a pair", write_plan, TWO, EMPTY),
    (9, 0, "input", "limits: 0 passed, 4 needed, one a fish", to_dimacs, TWO, ()),
    (9, 0, "input", "numbers of an index: 2 passed, 13 needed, fish + 1 + 2 times the pairs", check_index, TWO, (0, 1)),
    (9, 0, "input", "numbers of an index: 2 passed, 13 needed, fish + 1 + 2 times the pairs", solve, TWO, ONES, (0, 1)),
    (10, 4, "input", "the limit of sire 2 is 65: limits are 0 to 64", solve, TWO, (1, 1, 1, 65)),
    (10, 2, "input", "the limit of dam 2 is -1: limits are 0 to 64", to_dimacs, TWO, (1, -1, 1, 1)),
    (10, 2, "input", "the limit of family 2 is 18446744073709551617: limits are 0 to 64",
     measure, FAMILIES, (1, 2**64 + 1, 1), EMPTY, Prices((2, 2, 2), (0, 0, 0))),
    (10, 4, "limits.mtx", "limit 2 is 65: limits are 0 to 64", write_limits, (1, 65)),
    (11, 2, "input", "the mark of pair 2 (dam 1 with sire 2) is 2: a mark is 0 or 1",
     measure, TWO, ONES, Plan((0, 2, 0, 0)), Prices(HIGH, ZEROS)),
    (11, 3, "input", "the mark of pair 3 (family 3 with family 2) is -1: a mark is 0 or 1", write_plan, FAMILIES, Plan((0, 0, -1))),
    (12, 3, "input", "the plan uses sire 1 in 2 pairs, and its limit is 1", measure, TWO, ONES, Plan((1, 0, 1, 0)), Prices(HIGH, ZEROS)),
    (12, 2, "input", "the plan uses dam 2 in 1 pair, and its limit is 0",
     measure, TWO, (1, 0, 1, 1), Plan((0, 0, 1, 0)), Prices(HIGH, ZEROS)),
    (12, 1, "input", "the plan uses dam 1 in 5 pairs, and its limit is 4",
     measure, FIVE, (4, 1, 1, 1, 1, 1), Plan((1, 1, 1, 1, 1)), Prices((2, 0, 0, 0, 0, 0), (0, 0, 0, 0, 0))),
    (12, 2, "input", "the plan uses family 2 in 2 pairs, and its limit is 1",
     measure, FAMILIES, (2, 1, 1), Plan((1, 1, 1)), Prices((2, 2, 2), (0, 0, 0))),
    (13, 4, "input", "the price of sire 2 is -1: prices are 0 to 4,000,000 half points",
     measure, TWO, ONES, NONE, Prices((10, 10, 10, -1), ZEROS)),
    (13, 2, "input", "the price of dam 2 is 4000001: prices are 0 to 4,000,000 half points",
     measure, TWO, ONES, NONE, Prices((10, 4000001, 10, 10), ZEROS)),
    (13, 6, "input", "the price of pair 2 (dam 1 with sire 2) is 2147483648: prices are 0 to 4,000,000 half points",
     measure, TWO, ONES, NONE, Prices(HIGH, (0, 2**31, 0, 0))),
    (13, 3, "input", "the price of family 3 is -1: prices are 0 to 4,000,000 half points",
     measure, FAMILIES, (1, 1, 1), EMPTY, Prices((2, 2, -1), (0, 0, 0))),
    (13, 6, "input", "the price of pair 3 (family 3 with family 2) is -1: prices are 0 to 4,000,000 half points",
     measure, FAMILIES, (1, 1, 1), EMPTY, Prices((2, 2, 2), (0, 0, -1))),
    (13, 10, "input", "the price of group 2 is -1: prices are 0 to 4,000,000 half points", grouped, Group((1,)), Group((1,), (), -1)),
    (13, 4, "prices.mtx", "price 2 is 4000001: prices are 0 to 4,000,000 half points", write_prices, Prices((0, 4000001), ())),
    (14, 1, "input", "group 1: the limits of its fish, 2, and its marked pairs, 0, make 2, which is even", grouped, Group((1, 2))),
    (14, 1, "input", "group 1: the limits of its fish, 1, and its marked pairs, 1, make 2, which is even", grouped, Group((1,), (1,))),
    (14, 2, "input", "group 2 has no fish", grouped, Group((1,)), Group(())),
    (14, 1, "input", "group 1 has fish 5, which is not on the sheet", grouped, Group((1, 5))),
    (14, 1, "input", "group 1 has pair 0, which is not on the sheet", grouped, Group((1,), (0,))),
    (14, 1, "input", "group 1 marks pair 1 (dam 1 with sire 1), which has both its fish in the group, and not just one",
     grouped, Group((1, 3), (1,))),
    (14, 1, "input", "group 1 marks pair 4 (dam 2 with sire 2), which has no fish in the group, and not just one",
     grouped, Group((1,), (4,))),
    (14, 17, "input", "there are 17 groups, and at most 16 are taken", grouped, *[Group((1,))] * 17),
    (14, 1, "input", "group 1 marks pair 3 (family 3 with family 2), which has both its fish in the group, and not just one",
     measure, FAMILIES, (1, 1, 1), EMPTY, Prices((2, 2, 2), (0, 0, 0), (Group((3, 2), (3,)),))),
    (15, 1, "input", "pair 1 (dam 1 with sire 1) is not covered: its prices reach 9 half points, 1 short of 10, which is twice its merit",
     measure, TWO, ONES, NONE, Prices(ZEROS, (9, 8, 8, 2))),
    (15, 3, "input", "pair 3 (dam 2 with sire 1) is not covered: its prices reach 7 half points, 1 short of 8, which is twice its merit",
     measure, TWO, ONES, NONE, Prices((2, 2, 3, 3), (5, 3, 2, 0))),
    (15, 2, "input", "pair 2 (family 3 with family 1) is not covered: its prices reach 1 half point, 1 short of 2, which is twice its "
                     "merit",
     measure, FAMILIES, (1, 1, 1), EMPTY, Prices((1, 1, 0), (0, 0, 0))),
    (15, 1, "input", "pair 1 (family 2 with family 1) is not covered: its prices reach 1 half point, 1 short of 2, which is twice its "
                     "merit",
     measure, FAMILIES, (1, 1, 1), EMPTY, Prices((0, 0, 0), (0, 0, 0), (Group((1, 2, 3), (), 1),))),
    (16, 0, "input", "the sheet is one-sided, and only two-sided sheets are solved or go out as DIMACS files", solve, FAMILIES, (1, 1, 1)),
    (16, 0, "input", "the sheet is one-sided, and only two-sided sheets are solved or go out as DIMACS files",
     to_dimacs, FAMILIES, (1, 1, 1)),
    (18, 6, "input", "the index is not the sheet's: the first difference is at position 6, among the numbers of pairs",
     check_index, TWO, (0, 2, 4, 6, 8, 2, 1, 3, 4, 1, 3, 2, 4)),
    (18, 2, "input", "the index is not the sheet's: the first difference is at position 2, among the offsets",
     check_index, TWO, (0, 1, 4, 6, 8, 1, 2, 3, 4, 1, 3, 2, 4)),
    (18, 13, "input", "the index is not the sheet's: the first difference is at position 13, among the numbers of pairs",
     solve, TWO, ONES, (0, 2, 4, 6, 8, 1, 2, 3, 4, 1, 3, 2, 3)),
    (19, 3, "input", "the limit of sire 1 is 2: in an assignment file every limit is 1; a minimum cost flow (--min) takes any",
     to_dimacs, TWO, (1, 1, 2, 1)),
    (19, 2, "input", "the limit of dam 2 is 0: in an assignment file every limit is 1; a minimum cost flow (--min) takes any",
     to_dimacs, TWO, (1, 0, 2, 1)),
    (24, 0, "input", "the sheet is two-sided, and only one-sided sheets are priced so", price_tanks, TWO, ONES),
    (24, 0, "input", "the sheet is two-sided, and only one-sided sheets are priced so", price_tanks, Sheet(64, 64), (1,) * 128),
    (24, 0, "input", "the sheet has 65 families, and at most 64 families are priced",
     price_tanks, Sheet(65, 65, FAMILIES.pairs, True), (1,) * 65),
    (24, 0, "input", "the sheet has 513 pairs, and at most 512 pairs are priced",
     price_tanks, Sheet(64, 64, TANKS.pairs[:513], True), (1,) * 64),
    (24, 0, "input", "the sheet has 128 families and 1024 pairs, and at most 64 families and 512 pairs are priced",
     price_tanks, TANKS, (1,) * 128),
)


def raised(call, *passed):
    try:
        call(*passed)
    except Refused as refused:
        return refused
    raise AssertionError("not refused")


class Table(unittest.TestCase):
    def check(self, table):
        for number, place, source, words, call, *passed in table:
            with self.subTest(number=number, words=words):
                refused = raised(call, *passed)
                self.assertEqual((refused.number, refused.place, refused.source), (number, place, source))
                self.assertEqual(refused.words, words)
                self.assertEqual(str(refused), f"refused {number} at {place} in {source}: {words}")

    def test_of_texts(self):
        self.check(OF_TEXTS)

    def test_of_numbers(self):
        self.check(OF_NUMBERS)

    def test_complete(self):
        self.assertEqual({case[0] for case in OF_TEXTS + OF_NUMBERS}, {*range(1, 22), 24})
        both = {case[0] for case in OF_TEXTS} & {case[0] for case in OF_NUMBERS}
        self.assertLessEqual({4, 6, 7, 8, 10, 13}, both)

    def test_one_line(self):
        for case in OF_TEXTS + OF_NUMBERS:
            self.assertRegex(raised(*case[4:]).words, r"\A[ -~]{10,250}\Z")


class Source(unittest.TestCase):
    def test_named(self):
        self.assertEqual(raised(read_sheet, "", "my/sheet").source, "my/sheet")
        self.assertEqual(raised(read_plan, PLAN + lines("2 2 5"), TWO, "another plan").line, "refused 17 at 2 in another plan")

    def test_sheet_that_was_passed(self):
        """A plan is refused for its sheet's numbers as input, and not at a line of its text."""
        wrong = Sheet(2, 2, ((1, 1, 5), (1, 1, 4)))
        self.assertEqual(raised(read_plan, PLAN + lines("2 2 0"), wrong).line, "refused 8 at 2 in input")

    def test_order(self):
        """Of several faults the one that is tested first is told, at the lowest place."""
        plan, prices = Plan((1, 1, 2, 3)), Prices((10, -1, 10, -1), ZEROS)
        self.assertEqual(raised(measure, TWO, (65, 1, 1, 65), plan, prices).line, "refused 10 at 1 in input")
        self.assertEqual(raised(measure, TWO, ONES, plan, prices).line, "refused 11 at 3 in input")
        self.assertEqual(raised(measure, TWO, ONES, Plan((1, 1, 1, 1)), prices).line, "refused 12 at 1 in input")
        self.assertEqual(raised(measure, TWO, ONES, NONE, prices).line, "refused 13 at 2 in input")

    def test_order_of_prices(self):
        """A sheet with too many families is refused for that after all else."""
        pair, over, turned = (2, 1, 1), (2, 1, 1000001), (1, 2, 1)
        for rows, pairs, limits, line in ((129, (over, over, turned), 65 * (65,), "9 at 0"), (129, (over, over, turned), 129 * (65,), "4 at 0"),
                                          (65, (over, over, turned), 65 * (65,), "6 at 3"), (65, (pair, over), 65 * (65,), "7 at 2"),
                                          (65, (pair, pair), 65 * (65,), "8 at 2"), (65, (pair,), 64 * (1,) + (65,), "10 at 65"),
                                          (65, (pair,), 65 * (1,), "24 at 0")):
            self.assertEqual(raised(price_tanks, Sheet(rows, rows, pairs, True), limits).line, f"refused {line} in input")


class AnyText(unittest.TestCase):
    """Whatever a text is, a reader takes it or refuses it, in words of one line that can be shown."""

    SIGNS = [b"%", b" ", b"\t", b"\r", b"\n", b"\0", b"\x0b", b"\x0c", b"\x85", b"\xa0", b"\xff", b"0", b"9", b"-", b"+", b".", b"\\", b"'",
             b"\n\n", b"\n%\n", b"x" * 1100, b" " * 1100, b"1000001", b"2147483648", b"general", b"symmetric", b"n 1\n",
             b"a 1 2 3\n", b"p asn 2 1\n", b"c\n"]

    def spoiled(self, draw, text):
        for _ in range(draw.choice((1, 1, 2, 5))):
            start = draw.randint(0, len(text))
            end = min(len(text), start + draw.choice((0, 0, 1, 1, 2, 9)))
            text = text[:start] + draw.choice(self.SIGNS) + text[end:] if draw.random() < 0.8 else text[:start] + text[end:]
        if draw.random() < 0.2:
            rows = text.split(b"\n")
            rows[2:] = draw.sample(rows[2:], len(rows[2:]))
            rows.insert(draw.randint(1, len(rows)), draw.choice(rows))
            text = b"\n".join(rows)
        return text

    def test_words(self):
        draw, told = random.Random(21), set()
        for number in range(1500):
            sheet = draw_sheet(draw, draw.randint(1, 4), draw.randint(1, 4), draw.randint(0, 6), number % 3 == 0, -9, 9)
            limits = draw_limits(draw, sheet)
            files = files_of(sheet, limits, draw_plan(draw, sheet, limits), draw_prices(draw, sheet, limits))
            readers = [(read_sheet, files["sheet.mtx"], ()), (read_limits, files["limits.mtx"], (sheet,)),
                       (read_plan, files["plan.mtx"], (sheet,)), (read_prices, files["prices.mtx"], (sheet,))]
            if not sheet.one_sided:
                readers.append((from_dimacs, to_dimacs(sheet, (1,) * sheet.fish), ()))
            read, text, passed = draw.choice(readers)
            text = self.spoiled(draw, text)
            try:
                read(text, *passed)
            except Refused as refused:
                told.add(refused.number)
                if not re.fullmatch(r"[ -~]{10,250}", refused.words):
                    self.fail(f"{read.__name__} of {text!r}: {refused.words!r}")
            except Exception as other:
                self.fail(f"{read.__name__} of {text!r} raises {other!r}")
        self.assertLessEqual({2, 3, 4, 5, 6, 8, 17, 20, 21}, told)

    def test_number_and_place(self):
        """As the program tells them."""
        draw, told = random.Random(22), set()
        for number in range(200):
            sheet = draw_sheet(draw, draw.randint(1, 4), draw.randint(1, 4), draw.randint(1, 6), number % 3 == 0, -9, 9)
            text = self.spoiled(draw, files_of(sheet, ())["sheet.mtx"])
            try:
                got = tidy(read_sheet(text))
            except Refused as refused:
                got = f"{refused.line}\n".encode()
                told.add(refused.number)
            self.assertEqual(got, program("tidy", {"sheet.mtx": text}), text)
        self.assertLessEqual({2, 3, 5}, told)


if __name__ == "__main__":
    unittest.main()
