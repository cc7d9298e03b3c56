"""Console lines that are always there: the smallest of each refusal, and what is no call."""

CASE = ("0800010002000100080002000500000008000200090001000600030009000600030005000600"
        "03000500060003000900" "0800040002000000")

# of a million entered, three at exit 63 are not dealt
ALL_BUT_THREE = ",".join(f"{i}={15625 if i < 63 else 15622}" for i in range(64))

CALLS = f"""
record
enter 0 0
turn 0
gaps 0
gaps 2
open 3 1
open 128 1
open 3 0
open 4 0
open 4 3
record
open 4 1
enter 7 4
enter 256 4
enter 255 3
enter 255 4
enter 255 0
record
turn 255
turn 254
turn 256
turn 255
turn 255
gaps 0
turn 255
turn 255
record
gaps 0
open 2 1
enter 5 0
gaps 0
gaps 1
gaps 2
set 4 1 5 3=5 - -
gaps 4
gaps 3
gaps 65536
set 64 2 1000000 63=1000000 - -
gaps 65536
set 64 1 1000000 {ALL_BUT_THREE} - 0=1/21/63,1=1/0/0,255=1/7/9
gaps 3
gaps 2
set 4 1 1000000 0=999999 - 9=1/3/2
enter 9 0
enter 8 0
enter 8 4
turn 9
gaps 65536
set 4 1 1000001 0=1000001 - -
enter 256 0
turn 256
gaps 0
set 3 1 0 - - -
set 4 3 0 - - -
set 4 1 1 - - 0=1/4/0
turn 0
set 4 1 1 - - 0=1/3/4
turn 0
set 4 1 1 - - 0=1/3/3
turn 0
set 4 1 0 - - 0=0/1/0
set 4 1 0 - - 255=0/0/1
set 4 1 1 4=1 - -
set 4 1 0 - 6 -
set 4 1 0 - 5 -
set 4 1 0 - 1151 -
set 64 2 0 - 1151 -
set 64 1 0 - 672 -
set 64 1 0 - 671 -
set 4 1 1 - - -
set 4 1 0 - - 0=1/0/0
set 4 1 0 0=4294967295,1=1 - -
set 4 1 999999 0=999999 - -
enter 0 3
enter 1 3
set 1 2 1 - - 5=1/0/0
turn 5
record
sheet 4 1 12
sheet 4 1 11
sheet 1 2 0
sheet 64 2 65536
view 4 1 2 12 0
view 4 1 3 0 0
view 4 2 3 0 16
view 4 2 3 16 15
view 1 1 0 0 0
view 3 3 9 0 0
read -
read 080001
read 0c000500ffffffffffffffff
read 0c00050001
read 0c000600
read 0b000500
write 12 5 65535 65535 4294967295
write 11 5 65535 65535 4294967295
write 0 3 1
run 24 {CASE}
run 23 {CASE}
run 0 0800010001000100080002000500000006000300050008000400
run 0 08000100010001000800020005000000060003000500080004000200000000
run 0 -
run 0 080001
help
""".split("\n")[1:-1]

NO_CALLS = [
    "", " ", "?", "opens 4 1", "Open 4 1", "OPEN 4 1", "open", "open 4", "open 4 1 1",
    "open  4 1", "open 4 1 ", " open 4 1", "open +4 1", "open -4 1", "open 4.0 1", "open 0x4 1",
    "open 65536 1", "open 4 65537", "open 4\t1", "open 4 1\r", "open 00000000004 1",
    "record 0", "record ", "help 1", "enter 1", "enter 65536 0", "enter 0 65536",
    "turn", "turn 65536", "turn -", "turn \xb2", "turn \x00",
    "gaps", "gaps 65537", "gaps 99999999999", "gaps -1", "gaps -",
    "sheet 4 1", "sheet 4 1 65537", "sheet 4 1 -",
    "view 4 1 0 12", "view 4 1 0 65537 0", "view 4 1 0 0 65537", "view 4 1 65536 0 0",
    "read", "read ", "read 0", "read 0g", "read 0A", "read 0800 0100", "read --", "read 080",
    "run 0", "run 65537 -", "run - -", "run 0 0", "run 0 0F",
    "write", "write 8", "write 8 3", "write 8 0 1", "write 8 6 1", "write 8 3 65536",
    "write 8 3 1 1", "write 8 4 4294967296", "write 65537 3 1", "write 8 65539 1",
    "set", "set 4 1 0 - -", "set 4 1 0 - - - -", "set 65536 1 0 - - -", "set 4 1 4294967296 - - -",
    "set 4 1 0 64=0 - -", "set 4 1 0 - 1152 -", "set 4 1 0 - - 256=0/0/0",
    "set 4 1 0 1=1,1=1 - -", "set 4 1 0 2=1,1=1 - -", "set 4 1 0 - 3,3 -", "set 4 1 0 - 4,3 -",
    "set 4 1 0 - - 1=0/0/0,1=0/0/0", "set 4 1 0 - - 2=0/0/0,1=0/0/0", "set 4 1 0 - - 0=2/0/0",
    "set 4 1 0 - - 0=1/65536/0", "set 4 1 0 - - 0=1/0/65536", "set 4 1 0 - - 0=1/0",
    "set 4 1 0 - - 0=1/0/0/0", "set 4 1 0 - - 0/1/0/0", "set 4 1 0 1 - -", "set 4 1 0 1=- - -",
    "set 4 1 0 1=4294967296 - -", "set 4 1 0 ,1=1 - -", "set 4 1 0 1=1, - -", "set 4 1 0  - -",
    "set 4 1 0 1=1,- - -", "set 4 1 0 1==1 - -", "set 4 1 0 -,1=1 - -", "set 4 1 0 - 1=1 -",
]

OTHER_SPELLINGS = [
    "open 0004 0000000001",
    "record",
    "set 004 01 00 00=0,63=0 - 0=0/0/0,255=00/000/0",
    "record",
    "set 4 1 1 - - 0255=01/03/00002",
    "record",
    "read 00000000",
    "gaps 000",
]

# A line of 262,142 bytes, close to the longest there may be: a schedule over 65,536 bytes.
LONG = "run 3 " + "00" * 131_068

FIXED = CALLS + NO_CALLS + OTHER_SPELLINGS + [LONG]
