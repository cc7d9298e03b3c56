"""Console lines on panels that are always there: the smallest of each refusal, what is no call."""

# A sheet for width 2 and depth 1; each of these is bad in one part.
GOOD = "00010001"
TWICE, TOO_HIGH, EXIT_TWICE, EXIT_TOO_HIGH = "00000001", "00020001", "00010101", "00010002"
ROW_64 = bytes(range(64)).hex()

CALLS = f"""
frecord
fenter 0 0
fturn 0
fgaps 0
fgaps 2
fopen 2 1
frecord
feed {GOOD}
fopen 0 0
fopen 65 0
fopen 2 37
fopen 3 1
fopen 1 36
fopen 1 37
fopen 2 2
fopen 4 0
fopen 4 1
fopen 3 0
fopen 2 0
frecord
fopen 2 1
frecord
fenter 256 2
fenter 255 2
fenter 255 1
fenter 255 2
fenter 255 0
frecord
fgaps 0
fgaps 1
fturn 254
fturn 256
fturn 255
frecord
fturn 255
frecord
fgaps 0
fenter 7 0
feed {GOOD[:-2]}
fenter 256 0
fturn 7
fgaps 1
feed {TWICE}
fturn 7
feed {TOO_HIGH}
fturn 7
feed {EXIT_TWICE}
fturn 7
feed {EXIT_TOO_HIGH}
fenter 8 9
fopen 2 1
frecord
feed {GOOD}ff
fopen 2 1
feed {GOOD}0505
fopen 2 1
feed 01000100
fenter 7 1
fturn 7
feed 00010100
fturn 7
frecord
feed 00
fopen 1 0
fenter 5 0
fturn 5
feed 01
fturn 5
fopen 1 0
feed 020001
fopen 3 0
fenter 9 0
fgaps 3
fturn 9
fgaps 3
frecord
feed {ROW_64 * 37}
fopen 64 36
fenter 255 63
fturn 255
feed {ROW_64 * 36}{ROW_64[:-2]}
fturn 255
feed {ROW_64 * 36}{ROW_64[:-2]}00
fturn 255
fset 64 36 0 - 1151 -
fset 64 35 0 - 1120 -
fset 64 35 0 - 1119 -
fset 6 2 0 - 6 -
fset 6 2 0 - 5 -
fset 65 0 0 - - -
fset 64 0 0 - - -
fset 0 0 0 - - -
fset 63 0 1 62=1 - -
fset 63 0 1 63=1 - -
fset 3 1 0 - - -
fset 2 37 0 - - -
fset 2 1 1 - - 0=1/1/1
fset 2 1 1 - - 0=1/2/1
fset 2 1 1 - - 0=1/1/2
fset 2 1 0 - - 0=0/1/0
fset 2 1 0 - - 0=1/0/0
fset 2 1 0 0=4294967295,1=1 - -
fset 2 1 1000001 0=1000001 - -
feed {GOOD}
fturn 0
fgaps 0
feed {TWICE}
fturn 0
feed 00
fenter 0 0
fset 0 0 0 - - -
fenter 0 0
fgaps 0
fset 3 1 0 - - -
fturn 0
fgaps 0
feed {GOOD}
fset 2 1 999999 0=999999 - -
fenter 0 1
fenter 1 1
fenter 0 2
fturn 0
fgaps 65536
fset 2 1 1000000 0=1000000 - -
fgaps 65536
fset 2 1 131072 0=131072 - -
fgaps 65536
fgaps 65535
fset 4 1 5 3=5 - -
fgaps 4
fgaps 3
fset 4 1 3 0=2,1=1 0 -
fgaps 1
fgaps 0
record
frecord
panel 4 04001200
panel 3 04001200
panel 0 04001200
panel 5 04001200
panel 0 -
panel 65536 0800130040000200
panel 2368 0800130040000200
panel 2367 0800130040000200
frecord
feed -
fturn 0
help
""".split("\n")[1:-1]

NO_CALLS = [
    "panel", "panel 4", "panel 65537 -", "panel 4 0", "panel 4 0g", "panel 4 0A", "panel - -",
    "panel 4 04001200 ", " panel 4 -", "Panel 4 -", "panel 4 04 00", "panels 4 -", "panel -1 -",
    "feed", "feed ", "feed 0", "feed 0A", "feed --", "feed 00 00", "feed 4 00", "feeds 00",
    "feed " + "00" * 65_537,
    "fopen", "fopen 2", "fopen 2 1 1", "fopen 65536 1", "fopen 2 65536", "fopen 2 -", "fopen  2 1",
    "fopen 2 1 ", "fopen 00000000002 1", "fopens 2 1", "FOPEN 2 1",
    "fenter", "fenter 1", "fenter 65536 0", "fenter 0 65536", "fenter 0 0 0", "fenter 0 -",
    "fturn", "fturn 65536", "fturn -", "fturn 0 0",
    "fgaps", "fgaps 65537", "fgaps -", "fgaps 0 0", "frecord 0", "frecord ",
    "fset", "fset 2 1 0 - -", "fset 2 1 0 - - - -", "fset 65536 1 0 - - -", "fset 2 65536 0 - - -",
    "fset 2 1 4294967296 - - -", "fset 2 1 0 64=0 - -", "fset 2 1 0 - 1152 -",
    "fset 2 1 0 - - 256=0/0/0", "fset 2 1 0 1=1,1=1 - -", "fset 2 1 0 - 3,3 -",
    "fset 2 1 0 - - 0=2/0/0", "fset 2 1 0 - - 0=1/0", "fset 2 1 0 - - 0=1/0/0/0",
]

OTHER_SPELLINGS = [
    "feed " + "00" * 65_536,
    "fopen 0001 0000",
    f"feed {GOOD}",
    "fopen 0002 0000000001",
    "fset 02 01 00 00=0,63=0 - 0=0/0/0,255=00/000/0",
    "frecord",
    "fset 2 1 1 - - 0255=01/01/00001",
    "frecord",
    "fgaps 000",
    "panel 0004 04001200",
]

# A line of 262,140 bytes, close to the longest there may be: a series, and bytes after it.
LONG = "panel 3 08001000" + "00" * 131_062

FIXED = CALLS + NO_CALLS + OTHER_SPELLINGS + [LONG]
