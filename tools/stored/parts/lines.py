"""Parts of the replay script: the forms of a line, and lines that are unreadable."""
from document.block import block_of
from document.known_results import WORKED
from stored.replay_lines import LENT_MAX, LINE_MAX, hex_of


def lines_passed_over(script):
    """Lines that are passed over, and the forms that a number and bytes may have"""
    script.expect(0, "clear")
    for line in ("", "", "#", "=", "~", "#clear", "# clear", "= clear", "=append 1 1", "~ append 1 1", "# \r", "=  x ", "#\tclear"):
        script.passed_over(line)
    script.write(8)
    for line in ("append 0007 0001 -0002 -0 0 -000 00", "append 00000000000000000009 -00000000000000000003"):
        script.call(line, "accepted")
    for line in ("correct 00 00000000000000000004", "correct -0 5 -0"):
        script.call(line, "accepted")
    script.call(f"append {'0' * 5000}10 {'0' * 300}1 -{'0' * 300}1", "accepted")
    script.call("append 0000000000000004294967295 1", "refused 4")
    script.call("append 11 0000000000000002147483647", "refused 6")
    script.call("append 11 -0000000000000002147483648", "refused 6")
    script.call("append 11" + " 1" * 2000, "refused 3")
    script.call("append -0 1", "refused 4")
    script.call("correct 0", "refused 3")
    script.call("append 11", "refused 3")
    script.call("correct 4294967295", "refused 9")
    script.call("read -", "refused 1")
    script.call("read 00", "refused 1")
    script.call("read abcdef0123456789", "refused 1")
    block = block_of(script.reel.knots)
    script.call(f"write {len(block)}", f"wrote {len(block)} {hex_of(block)}")
    script.call(f"write 000{len(block)}", f"wrote {len(block)} {hex_of(block)}")
    script.call("write 00000", "refused 10 -")
    script.call("write -0", "refused 10 -")
    for line in ("value 0002304", f"value {'0' * 300}1793", "trend 000000000000000000002559", "total 00 002", "total -0 0001"):
        script.call(line)
    for line in ("total -0 -0", "total 0 -0", f"total {'0' * 300}2 00002"):
        script.call(line, "total 0")
    for line in ("value -0", "trend -0", "value 0000000000000004294967295", "trend 04294967295"):
        script.call(line, "refused 7")
    for line in ("total 0 0000000000000004294967295", "total 1 -0", "total 04294967295 04294967295"):
        script.call(line, "refused 9")


def unreadable_lines(script):
    """Lines that are none of the calls, and numbers and bytes that are none: unreadable, and nothing changes"""
    script.hold_knots((7, (1, 2)), (9, (3,)))
    good = hex_of(block_of(WORKED))
    empty = hex_of(block_of([]))
    script.unreadable(
        "clear ", " clear", "clear\r", "clear\t", "clear 1", "clear  ", "Clear", "CLEAR", "clea", "clears", "clear#", "clear =",
    )
    script.unreadable(
        " ", "  ", "\r", "\t", " # clear", " = accepted", " ~", "-", "0", "1 2", "accepted", "ü", "unreadable", "apend 10 1", good,
        "wrote 28",
    )
    script.unreadable(
        "append", "append ", "append  ", "append - 1", "append 10 -", "append 10 - 1", "append 10 --1", "append 10 1-",
        "append 10 -1-", "append  10 1", "append 10  1", "append 10 1 ", "append 10 1  2", "append 10 1\r", "append 10\r 1",
        " append 10 1", "append\t10 1", "append 10\t1", "append +10 1", "append 10 +1", "append 10 +0", "append 10 -+1",
        "append 10 1.0", "append 10 1e1", "append 10 0x1", "append a 1", "append 10 a", "append 10 1,2", "append 10,1",
        "append 10 1_0", "append 10 1/", "append 10 /1", "append 10 1:", "append 10 :", "append 10 ١", "append １0 1", "append -1 1",
        "append -10 1", "append 4294967296 1", "append 4294967306 1", "append 18446744073709551626 1", "append 10 2147483648",
        "append 10 -2147483649", "append 10 4294967297", "append 10 18446744073709551617", "append 10 1 2 3 4 5 6 7 2147483648",
        "append 10" + " 1" * 8 + " 2147483648", "append 10" + " 1" * 9 + " x", "append 99999999999 1", "append 65536 x",
        f"append 1{'0' * 300} 1", f"append 10 1{'0' * 5000}", f"append 10 -{'9' * 300}", f"append 10 {'0' * 300}x", "append10 1",
        "APPEND 10 1", "Append 10 1",
    )
    script.unreadable(
        "correct", "correct ", "correct - 1", "correct 0 -", "correct  0 1", "correct 0  1", "correct 0 1 ", "correct 0 1\r",
        "correct +0 1", "correct 0 +1", "correct -1 1", "correct 4294967296 1", "correct 4294967297 1",
        "correct 18446744073709551616 1", "correct 0 2147483648", "correct 0 -2147483649", "correct 5 2147483648", "correct 0 1.5",
        "correct x 1", "correct 0 x", "corect 0 1", "correct0 1", " correct 0 1", "CORRECT 0 1",
    )
    script.unreadable(
        "read", "read ", "read  ", "read --", "read - -", "read -0", "read 0", "read 000", "read 0g", "read g0", "read `0", "read 0/",
        "read :0", "read 0x00", f"read {good[:-1]}", f"read {good}0", f"read {good.upper()}", f"read {good[:-2]}C0",
        f"read {good[:-2]}Cg", f"read {good} ", f"read  {good}", f"read {good}\r", f"read {good} -", f"read {good} {good}",
        f"read -{good}", f"read {good}-", f"read {good[:8]} {good[8:]}", f"READ {good}", f"read{good}", f" read {good}",
    )
    script.unreadable(
        "write", "write ", "write  ", "write -", "write -1", "write -28", "write +28", "write 28 ", "write  28", "write 28\r",
        "write 28.0", "write 1c", "write 0x1c", "write 32769", "write 32770", "write 65536", "write 65564", "write 4294967296",
        "write 4294967324", "write 18446744073709551644", f"write 28{'0' * 300}", "write x", "write 28 28 28", "WRITE 28", " write 28",
        "write28",
    )
    script.unreadable(
        "same", "same ", f"same {empty}", f"same {empty} ", f"same {empty}  {empty}", f"same  {empty} {empty}",
        f"same {empty} {empty} ", f"same {empty} {empty}\r", f"same {empty} {empty} {empty}", f"same {empty} -", f"same - {empty}",
        "same - -", f"same {empty} {empty[:-1]}", f"same {empty.upper()} {empty}", f"same {empty} {empty.upper()}", "same 0 0",
        f"Same {empty} {empty}", f"same{empty} {empty}", f"same {empty} x", "same yes no",
    )
    for query in ("value", "trend"):
        script.unreadable(*(query + rest for rest in (
            "", " ", "  ", " -", " -1", " -2048", " +2048", " 2048 ", "  2048", " 2048\r", "\t2048", " 2048\t", " 2048 2048", " 2048 -",
            " 2048.0", " 8/1", " 0x800", " 8_0", " 2048x", " x", " ü", " 4294967296", " 4294969344", " 18446744073709553664",
            f" 2048{'0' * 300}", f" -{'0' * 300}1", "2048", "s 2048", ": 2048",
        )))
        script.unreadable(f" {query} 2048", f"{query.upper()} 2048", f"{query.title()} 2048", f"{query[:-1]} 2048")
    script.unreadable(
        "total", "total ", "total 0", "total 0 ", "total  0 1", "total 0  1", "total 0 1 ", "total 0 1\r", "total 0 1 1", "total 0 1 -",
        "total 0,1", "total - 1", "total 0 -", "total -1 1", "total 0 -1", "total +0 1", "total 0 +1", "total 0 1.0", "total 0 0x1",
        "total a 1", "total 0 a", "total 4294967296 1", "total 0 4294967296", "total 0 4294967297", "total 4294967297 1",
        "total 4294967296 4294967296", "total 18446744073709551616 1", f"total 0 1{'0' * 300}", "total 1 4294967296", "total0 1",
        "totals 0 1", " total 0 1", "TOTAL 0 1", "Total 0 1", "tota 0 1", "total\t0 1",
    )
    script.ask(1_792, 2_048, 2_304)
    script.add_up((0, 1))
    script.write(28)


def long_lines(script):
    """The longest line that is read, and longer ones: unreadable, or passed over at any length"""
    script.hold_knots((7, (1, 2)), (9, (3,)))
    for over, answer in ((0, "accepted"), (1, "unreadable"), (65_536, "unreadable")):
        start, end = f"append {10 + over} ", "01"
        script.call(start + "0" * (LINE_MAX + over - len(start + end)) + end, answer)
    script.passed_over("#" + " append 11 1" * (LINE_MAX // 12 + 1))
    script.write(36)


def the_last_line(script):
    """The most bytes that a line may lend; the last line lacks its line feed"""
    script.expect(0, "read", block_of(WORKED))
    script.write(41)
    script.write(LENT_MAX)
    script.write(40)
