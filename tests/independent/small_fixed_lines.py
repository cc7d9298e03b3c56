"""Console lines on the small cabinet that are always there: each refusal, and what is no call."""

# Every exit of width 64 with the largest sum there can be.
LARGEST_SUMS = ",".join(f"{exit_}=4294967295" for exit_ in range(64))

CALLS = f"""
drecord
denter 0 0
dturn 0
poll 0
poll 65535
dopen 3 1
dopen 128 1
dopen 3 0
dopen 4 0
dopen 4 3
drecord
poll 0
dopen 1 1
poll 0
poll 1
denter 256 1
denter 5 1
denter 5 0
denter 5 0
dturn 6
dturn 256
dturn 5
drecord
poll 0
drecord
poll 0
dturn 5
dopen 2 1
denter 5 0
denter 9 1
dturn 9
dturn 5
dturn 5
drecord
poll 0
poll 1
poll 2
dturn 9
poll 1
poll 0
drecord
dset 1 2 65536 0=65536 - - 0=0/65535/65535
poll 0
drecord
denter 7 0
dturn 7
poll 0
dset 1 2 65535 0=65535 - - 0=65535/65535/65535
denter 7 0
dturn 7
drecord
poll 0
drecord
dset 2 1 1 1=1 - - 0=3/65533/4294967295,1=0/1/0,63=9/8/7
poll 0
poll 1
poll 63
drecord
dset 2 1 0 - - - 0=65535/0/1
poll 0
poll 0
drecord
dset 2 1 1 - - - 0=5/3/0
poll 0
poll 2
denter 256 9
dturn 256
drecord
dset 4 1 0 - - - 4=5/3/2
poll 4
poll 3
dset 64 2 1000000 63=1000000 - - 63=16960/0/0
poll 63
poll 64
denter 1 0
dset 4 1 999999 0=999999 - - 0=16959/65535/4294967295
denter 1 0
denter 2 0
drecord
highest 3 -
highest 0 0=1
highest 128 63=4294967295
highest 65535 -
highest 1 -
highest 1 0=1
highest 1 0=2
highest 1 1=5
highest 4 -
highest 4 0=1
highest 4 3=1
highest 4 4=9
highest 4 0=2,3=1
highest 4 0=1,1=1,2=1,3=1
highest 2 0=4294967295
highest 2 0=4294967295,1=4294967295
highest 64 0=1,63=1
highest 64 {LARGEST_SUMS}
highest 32 {LARGEST_SUMS}
highest 1 {LARGEST_SUMS}
record
drecord
help
""".split("\n")[1:-1]

NO_CALLS = [
    "dopen", "dopen 4", "dopen 4 1 1", "dopen 65536 1", "dopen 4 65536", "dopen 4 1 ", "DOPEN 4 1",
    "denter", "denter 1", "denter 65536 0", "denter 0 65536", "denter 0 0 0",
    "dturn", "dturn 65536", "dturn -", "dturn 0 0",
    "poll", "poll 65536", "poll -", "poll 0 0", "poll ", "polls 0", "Poll 0",
    "drecord 0", "drecord ", "highest", "highest 4", "highest 65536 -", "highest 4 64=1",
    "highest 4 1=4294967296", "highest 4 1=1,1=1", "highest 4 2=1,1=1", "highest 4 1", "highest 4 - -",
    "dset", "dset 4 1 0 - - -", "dset 4 1 0 - - - - -", "dset 4 1 0 - - - 64=0/0/0",
    "dset 4 1 0 - - - 0=65536/0/0", "dset 4 1 0 - - - 0=0/65536/0",
    "dset 4 1 0 - - - 0=0/0/4294967296", "dset 4 1 0 - - - 0=0/0", "dset 4 1 0 - - - 0=0/0/0/0",
    "dset 4 1 0 - - - 1=0/0/0,1=0/0/0", "dset 4 1 0 - - - 2=0/0/0,1=0/0/0", "dset 4 1 0 - - - 0",
    "dset 65536 1 0 - - - -", "dset 4 1 0 64=0 - - -",
]

OTHER_SPELLINGS = [
    "dset 04 01 00 - - - 00=0000065535/00/0000000007,63=0/0/0",
    "drecord",
    "poll 00",
    "highest 0004 03=0000000002",
]

FIXED = CALLS + NO_CALLS + OTHER_SPELLINGS
