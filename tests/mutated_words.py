"""What changed texts and words are made of."""

from typing import List, Sequence

from mutations import Words

NUMBERS = """
0 -0 1 -1 +1 01 00 2 16 17 32 33 64 65 255 256 257 1000 1024 1025 4096 65535 65536 65537
1000000 1000001 1_000 1__0 0x10 0xfg 0o17 0b101 1.0 1e3 1e400 1e-400 1. .5 inf nan - 4294967295
4294967296 1000000000000 1000000000001 -1000000000000 -1000000000001 4000000000000 4000000000001
9223372036854775807 9223372036854775808 -9223372036854775808 -9223372036854775809
18446744073709551615 18446744073709551616 99999999999999999999999
""".split() + [
    "",
    " ",
]
CHARACTERS = """
" ' \\ # = [ ] { } , . _ - + \x00 \x7f é \ufeff 0 9 a Z \"\"\" ''' [[ ]] \\n \\x41 \\u0041
\\U00110000 \\ud800 \\e
""".split() + [
    " ",
    "\t",
    "\r",
    "\r\n",
    "\n",
    "\x1f",
    "\u2028",
]


def lines_of(text: str, more: Sequence[str]) -> List[bytes]:
    """The lines of a text, and more of them."""
    return [line.encode() for line in [*text.strip("\n").split("\n"), *more]]


MANIFEST_LINES = lines_of(
    r"""
# a comment
x = 1
a.b = 2
"job" = 'bank'
'workers' = 3
"" = 1
key with = 1
params = []
params = [1, 2,]
params = 4
params = [1, 'a']
params = [[1]]
params = [1.0, 2]
[[params]]
event = []
event = [{name = "x", capacity = 1}]
event = 3
[event]
[[event]]
[[event.inner]]
[event.name]
event.name = 'x'
name = "x"
name = ''
name = 3
name = 'X'
name = "a\u0062"
capacity = 2
capacity = 1_024
capacity = '2'
policy = 'last'
policy = "fresh"
policy = "stale"
policy = true
platform = 'arm'
platform = ''
platform = 1979-05-27
[init_needs]
[run_needs]
init_needs = 1
init_needs = {}
[[init_needs]]
run_needs.instructions = 4
run_needs = {instructions = 1, sequential_begin = 2, sequential_end = 3, speedup_thousandths = 4}
instructions = 0
sequential_begin = 9223372036854775807
sequential_end = 0
speedup_thousandths = 1000000
speedup_thousandths = 1000001
[a.b]
[[a.b]]
[a]
a.b.c = 1
[x.y.z]
[x]
y.z.w = 1
d = 1979-05-27T07:32:00Z
d = 1979-05-27 07:32
d = 1979-02-29
d = 1980-02-29
d = 07:32:60
d = 24:00:00
d = 1979-05-27T07:32:00.5+23:59
d = 1979-05-27t07:32-24:00
f = 1e400
f = -inf
f = 3.0_1
h = 0xdead_BEEF
h = 0x8000000000000000
o = 0o777
b = 0b102
t = True
s = "\e\x41"
s = "\q"
s = '''a''b'''
workers = 64
workers = 65
workers = 0
workers = 1.0
job = "bank"
job = 'cloud'
job = 'Guard'
job = ''
job = 3
cycle_time_ns = 1
cycle_time_ns = 0x10
cycle_time_ns = 9223372036854775808
seed = 7
"\u00e9" = 1
"a b" = 1
""",
    [
        "",
        f"platform = '{'p' * 64}'",
        f"platform = '{'p' * 65}'",
        'platform = """a\nb"""',
        "params = [\n 4, # four\n 2\n]",
        'event = [{name = "x",\n capacity = 1, # last\n}, 3]',
        's = """\\\n  a"""',
        f"'{'k' * 70}' = 1",
        "n = " + "[" * 80 + "]" * 80,
        "n = " + "[" * 81 + "]" * 81,
        "n = " + "{a=" * 80 + "1" + "}" * 80,
        "n = " + "{a=" * 81 + "1" + "}" * 81,
        ".".join("k" * 80) + " = 1",
        ".".join("k" * 81) + " = 1",
        "[" + ".".join("k" * 80) + "]",
        "[" + ".".join("k" * 81) + "]",
    ],
)
MANIFEST_VALUES = lines_of(
    r"""
0
1
-1
64
65
256
1024
1025
1_000_000
1_000_001
9223372036854775807
-9223372036854775808
0x40
0b1
+1
-0
1.0
1e0
inf
nan
true
false
'a'
''
""
'last'
"fresh"
'bank'
'cloud'
"guard"
'Bank'
'1'
'é'
'a b'
"x\ty"
"\u0062ank"
"\e"
[]
[4, 2]
[4, 2,]
[4, 17]
[0, 0]
[65_536, 1]
[65_537, 1]
[4]
[4, 2, 1]
[4, '2']
[4.0, 2]
[[4], 2]
[{}]
[2, 1, 0, 0]
[2, 1_000_000, 1_000_000, 4_000_000_000_000]
[2, 1_000_001, 0, 0]
[2, 1, 1_000_001, 0]
[2, 1, 0, 4_000_000_000_001]
[2, 0, 0, 1, 0]
[2, 1, 0, 1, 0]
[2, 0, 0, 0, 0]
[2, 0, 0, 1001, 0]
[2, 0, 0, 1000, 65537]
[2, -1_000_000_000_000, 1_000_000_000_000, 1000, 65_536]
[2, -1_000_000_000_001, 0, 1, 1]
[2, 0, 1_000_000_000_001, 1, 1]
{}
{a = 1}
{name = 'x', capacity = 1}
{instructions = 1}
1979-05-27
07:32
07:32:00.1
1979-05-27T07:32:00Z
1979-05-27 07:32:00-07:00
""",
    [
        '"""x"""',
        "'''\nlast'''",
        f"'{'n' * 32}'",
        f"'{'n' * 33}'",
        f"'{'p' * 64}'",
        f"'{'p' * 65}'",
        f"[{'1, ' * 16}]",
        f"[{'1, ' * 17}]",
    ],
)
# Values at the limits of a key, whose good ones are among them.
MANIFEST_VALUES_OF = {
    b"job": [b"'bank'", b"'cloud'", b"'guard'", b"'Bank'", b"''"],
    b"cycle_time_ns": [b"0", b"1", b"9223372036854775807", b"9223372036854775808"],
    b"workers": [b"0", b"1", b"64", b"65"],
    b"params": [value for value in MANIFEST_VALUES if value.startswith(b"[")],
    b"platform": [
        b"''",
        b"' '",
        b"'~'",
        b"'\x7f'",
        b'"\\u007f"',
        b'"\\u001f"',
        b"'\xc3\xa9'",
        b"'" + b"p" * 64 + b"'",
        b"'" + b"p" * 65 + b"'",
    ],
    b"name": [
        b"''",
        b"'`'",
        b"'a'",
        b"'z'",
        b"'{'",
        b"'0'",
        b"'9'",
        b"'/'",
        b"':'",
        b"'_'",
        b"'A'",
        b"'a_9'",
        b"'x'",
        b"'y'",
        b"'" + b"n" * 32 + b"'",
        b"'" + b"n" * 33 + b"'",
    ],
    b"capacity": [b"0", b"1", b"1024", b"1025"],
    b"policy": [b"'last'", b"'fresh'", b"'Last'", b"''"],
    b"instructions": [b"-1", b"0", b"9223372036854775807", b"9223372036854775808"],
    b"sequential_begin": [b"-1", b"0", b"9223372036854775807", b"9223372036854775808"],
    b"sequential_end": [b"-1", b"0", b"9223372036854775807", b"9223372036854775808"],
    b"speedup_thousandths": [b"0", b"1", b"1000000", b"1000001"],
}
MANIFEST_KEYS = lines_of(
    r"""
job
cycle_time_ns
workers
params
event
platform
init_needs
run_needs
name
capacity
policy
instructions
sequential_begin
sequential_end
speedup_thousandths
"job"
'workers'
"na\u006de"
Job
job x
polcy
x
a.b
params.0
event.name
init_needs.instructions
""
'é'
-
1
1.2
""",
    [],
)
STIMULUS_LINES = lines_of(
    """
stim 1
stim 2
cycle -
cycle 0
cycle 18446744073709551615
cycle 18446744073709551616
cycle
cycle  1
 cycle 1
Cycle 1
cycle -1
cycle +1
sample 0 0
sample 0 1000000000000
sample 0 1000000000001
sample 0 -1000000000000
sample 0 -1000000000001
sample 1 5
sample 255 1
sample 256 1
sample 0 -0
sample 0
sample 0 1 2
sample  0 1
sample -1 0
sample 00 1
terminate
# a comment
""",
    ["", "cycle ", "cycle 1 ", "terminate ", "x" * 128, "x" * 129, "sample 0 " + "1" * 119],
)

ENCODED_NUMBERS = [number.encode() for number in NUMBERS]
ENCODED_CHARACTERS = [character.encode() for character in CHARACTERS]
OF_MANIFESTS = Words(
    MANIFEST_LINES,
    ENCODED_NUMBERS,
    ENCODED_CHARACTERS,
    MANIFEST_KEYS,
    MANIFEST_VALUES,
    MANIFEST_VALUES_OF,
)
# The limits of a stimulus come as often as all other numbers together.
STIMULUS_LIMITS = lines_of(
    """
-0
01
1000000000000
1000000000001
-1000000000000
-1000000000001
18446744073709551615
18446744073709551616
""",
    [],
)
OF_STIMULI = Words(STIMULUS_LINES, ENCODED_NUMBERS + STIMULUS_LIMITS * 8, ENCODED_CHARACTERS)
# Words of a command line. The last one isn't UTF-8.
COMMAND_WORDS = (
    [
        word
        for word in """
demo record show replay check upgrade compare vote salvage chain needs --workers --seed --strict
--reports --cycle --dissent --flip --help -h help --version -V version --workers=2 --Workers -w --
- missing m0 m1 s r0 r1 r2 ./m0 Show é 1 2 3 64
""".split()
    ]
    + NUMBERS
    + ["\udcff"]
)
