"""The headers by themselves, from C and with ara::core, and the library in other kinds of programs.

They need g++, gcc, clang++ and binutils.
"""

from __future__ import annotations

import re
import shutil
from pathlib import Path

import pytest

from commands import TOP, run
from cpp_bench import C, CORE, CPP, EXAMPLES, INCLUDE, SOURCES, CppBench, need

# A job and its program, so that templates are compiled too.
JOB = """using namespace det::exec;
class Least final : public Job<std::int64_t> {
 public:
  static constexpr char const* kName = "least";
  static constexpr std::uint16_t kNumber = 1;
  void Init(Start<Least>& start) const { start.Resize(5); }
  void Run(Cycle<Least>& cycle) const {
    (void)cycle.Pass([](std::int64_t& element, WorkerThread&) { ++element; });
  }
};
int main(int count, char** words) { return Main<Least, TimerSource>(count, words); }
"""
HEADERS = sorted((INCLUDE / "det" / "exec").glob("*.h"))
# What can be compiled in C, where version.h has no namespace.
C_HEADERS = [it for it in HEADERS if it.stem.startswith("det_") or it.stem == "version"]
# The compilers and their flags.
WAYS = [
    (compiler, (*CPP, f"-std={standard}", *more))
    for compiler in ("g++", "clang++")
    for standard in ("c++17", "c++20")
    for more in ((), ("-fno-exceptions", "-fno-rtti"), CORE)
]
ADAPTER = sorted((INCLUDE / "ara" / "exec").glob("*.h"))
ALONE = [(it, "g++", (*CPP, *CORE)) for it in (*HEADERS, *ADAPTER)]
ALONE += [(it, "gcc", C) for it in C_HEADERS]


@pytest.mark.parametrize(
    "header, compiler, flags",
    ALONE,
    ids=[f"{it[0].relative_to(INCLUDE)}, {it[1]}" for it in ALONE],
)
def test_header(header: Path, compiler: str, flags: tuple[str, ...], cpp: CppBench) -> None:
    """A header compiles without another one before it, twice in one file."""
    need(compiler)
    include = f'#include "{header.relative_to(INCLUDE)}"\n'
    ending = "c" if compiler == "gcc" else "cpp"
    source = cpp.file(f"alone.{ending}", f"{include}{include}extern int nothing;\n")
    cpp.output_of([compiler, *flags, "-fsyntax-only", source])


@pytest.mark.parametrize(
    "compiler, flags", WAYS, ids=[f"{it[0]}, {' '.join(it[1][8:])}" for it in WAYS]
)
def test_all_headers(compiler: str, flags: tuple[str, ...], cpp: CppBench) -> None:
    """All headers compile together, with and without exceptions, RTTI and ara::core."""
    need(compiler)
    names = [it.name for it in HEADERS if it.stem != "error_domain" or CORE[0] in flags]
    text = "".join(f'#include "det/exec/{it}"\n' for it in names)
    source = cpp.file("all.cpp", f"{text}{JOB}")
    cpp.output_of([compiler, *flags, "-fsyntax-only", source])


# Containers that no pass may be over, by their declarations, and what the compiler has to say.
ELEMENTS = "the container's elements are to be those of the runnable"
MISUSED = {
    "std::list<int>": ELEMENTS,
    "std::vector<bool>": ELEMENTS,
    "std::vector<int>": ELEMENTS,
    "std::array<bool, 3> const": ELEMENTS,
}
PASS = """#include <array>
#include <list>
#include <vector>
#include "det/exec/deterministic_client.h"
bool Runs(det::exec::DeterministicClient& client, det::exec::WorkerRunnable<bool>& runnable,
          {container}& container) {{
  return client.RunWorkerPool(runnable, container).HasValue();
}}
"""
# Numbers in braces, of which the first would be a null pointer, are no parameters of a record.
BRACES = """#include "det/exec/recorder.h"
bool Writes(det::exec::Recorder& recorder, DetProfile const& profile) {
  return recorder.Header(profile, {0, 2}).HasValue();
}
"""


def check_refused(cpp: CppBench, text: str, message: str) -> None:
    """A source of this text doesn't compile, for the reason that the compiler gives."""
    source = cpp.file("misused.cpp", text)
    for compiler in ("g++", "clang++"):
        given = cpp.command([compiler, *CPP, "-fsyntax-only", source])
        assert given.status, f"{compiler} takes it"
        assert message in given.err.decode(errors="replace"), compiler


@pytest.mark.parametrize("container", MISUSED)
def test_misused_container(container: str, cpp: CppBench) -> None:
    check_refused(cpp, PASS.format(container=container), MISUSED[container])


def test_parameters_in_braces(cpp: CppBench) -> None:
    check_refused(cpp, BRACES, "deleted")


def test_c_surface(cpp: CppBench) -> None:
    cpp.check_lines([cpp.compile("gcc", ["surface.c"], "surface", C)])


@pytest.mark.parametrize("compiler", ("g++", "clang++"))
def test_core_result(compiler: str, cpp: CppBench) -> None:
    """Results are those of ara::core, where an application has it."""
    cpp.check_lines([cpp.compile(compiler, ["core_result.cpp"], f"core_{compiler}", [*CPP, *CORE])])


def test_plugin(cpp: CppBench) -> None:
    """The library in a shared object that a program loads."""
    flags = [*CPP, "-O2", "-fPIC", "-shared", "-Wl,-z,defs"]
    plugin = cpp.compile("g++", ["plugin.cpp"], "plugin.so", flags)
    host = cpp.folder / "host"
    cpp.output_of(["g++", *CPP, "-O2", SOURCES / "host.cpp", "-ldl", "-o", host])
    cpp.check_lines([host, plugin])


def symbols(cpp: CppBench, archive: Path, kind: str) -> set[str]:
    """The names of an archive that `nm` lists with this letter."""
    text = cpp.output_of(["nm", archive]).decode()
    return set(re.findall(rf"^[0-9a-f ]{{16}} {kind} (\S+)$", text, re.MULTILINE))


def functions_of_headers() -> set[str]:
    """The functions that the C headers declare."""
    text = "".join(it.read_text() for it in C_HEADERS)
    return set(re.findall(r"\b(det_\w+)\(", text))


def test_symbols(cpp: CppBench) -> None:
    """The library defines what the headers declare, and needs only memory."""
    assert symbols(cpp, cpp.archive, "T") == functions_of_headers()
    replaceable = {"rattle_alloc", "rattle_realloc", "rattle_dealloc"}
    assert symbols(cpp, cpp.archive, "W") == replaceable, "functions for memory can't be replaced"
    needed = symbols(cpp, cpp.archive, "U") - replaceable
    assert needed <= {"malloc", "realloc", "free", "memcpy", "memmove", "memset", "memcmp", "bcmp"}


def test_whole_archive(cpp: CppBench) -> None:
    """A shared object of the whole library, beside an application's own functions for memory."""
    whole = ["-Wl,--whole-archive", cpp.archive, "-Wl,--no-whole-archive"]
    cpp.output_of(["g++", "-shared", "-o", cpp.folder / "whole.so", "-Wl,-z,defs", *whole])
    program = cpp.folder / "over_whole"
    source = SOURCES / "memory.cpp"
    cpp.output_of(["g++", *CPP, "-O1", source, *whole, "-pthread", "-o", program])
    cpp.output_of([program])


def test_heap_source(cpp: CppBench) -> None:
    """The C sources of the library compile without a warning."""
    for source in (TOP / "cpp").glob("*.c"):
        output = cpp.folder / f"{source.stem}.o"
        cpp.output_of(["gcc", *C, "-Wmissing-prototypes", "-c", source, "-o", output])


def defined(cpp: CppBench, name: str, flags: tuple[str, ...] = ()) -> set[str]:
    """The names that the object of a source defines."""
    need("g++", "nm")
    output = cpp.folder / f"{name}.o"
    cpp.output_of(["g++", *CPP, *flags, "-c", SOURCES / f"{name}.cpp", "-o", output])
    text = cpp.output_of(["nm", output]).decode()
    return set(re.findall(r"^[0-9a-f]{16} [TWVBDRu] (\S+)$", text, re.MULTILINE))


def test_adapter(cpp: CppBench) -> None:
    """An application that was written for a vendor's stack runs over the adapter, unchanged: for
    each number of workers it ends with the same elements."""
    flags = [*CPP, *CORE]
    program = cpp.compile("g++", ["vendor_application.cpp"], "vendor_application", flags)
    sums = set()
    for workers in (1, 4, 16):
        text = f"job = 'any'\ncycle_time_ns = 1000000\nworkers = {workers}\nparams = []\n"
        environment = {"DET_MANIFEST": cpp.file("any.toml", text), "DET_CYCLES": "20"}
        sums.add(cpp.output_of([program], environment))
    assert len(sums) == 1 and sums.pop().startswith(b"sum "), sums
    given = cpp.command([program], {"DET_MANIFEST": "/nosuch"})
    assert (given.status, given.out) == (1, b"error: bad cycle time\n")


def test_beside_a_vendor(cpp: CppBench) -> None:
    """The client works beside a vendor's library in one process: they share no symbol."""
    sources = ["vendor_beside.cpp", "vendor_library.cpp"]
    program = cpp.compile("g++", sources, "vendor_beside", [*CPP, *CORE])
    assert cpp.output_of([program]) == b"ours right, the vendor's 42\n"
    ours = defined(cpp, "vendor_beside", CORE)
    assert ours and not ours & defined(cpp, "vendor_library")


def test_both_headers(cpp: CppBench) -> None:
    """A source file with the adapter and a vendor's header isn't compiled."""
    vendor = (SOURCES / "vendor_library.cpp").read_text()
    text = f"{vendor}#include <ara/exec/deterministic_client.h>\n"
    source = cpp.file("both.cpp", f"{text}ara::exec::DeterministicClient* both;\n")
    given = cpp.command(["g++", *CPP, *CORE, "-fsyntax-only", source])
    text = given.err.decode(errors="replace")
    assert re.search(r"reference to .DeterministicClient. is ambiguous", text), text


def test_other_layout(cpp: CppBench) -> None:
    """An object of another layout doesn't link with the library."""
    include = cpp.folder / "include"
    shutil.copytree(INCLUDE, include)
    for header in (include / "det" / "exec").glob("*.h"):
        text = header.read_text().replace("det_layout_1", "det_layout_2")
        header.write_text(text.replace("define DET_LAYOUT 1", "define DET_LAYOUT 2"))
    words = ["g++", "-std=c++17", f"-I{include}", EXAMPLES / "buggy.cpp", cpp.archive, "-pthread"]
    given = cpp.command([*words, "-o", cpp.folder / "other"])
    assert given.status and b"det_layout_2" in given.err, str(given)


def test_two_ways(cpp: CppBench) -> None:
    """Sources that were compiled with and without exceptions don't link."""
    header = '#include "det/exec/recorder.h"\n'
    name = "det::exec::Result<void> Writes(det::exec::Recorder& recorder)"
    one = cpp.file("one.cpp", f"{header}{name} {{ return recorder.Register(); }}\n")
    calls = "  det::exec::Recorder* recorder = nullptr;\n  return Writes(*recorder) ? 0 : 1;\n"
    other = cpp.file("other.cpp", f"{header}{name};\nint main() {{\n{calls}}}\n")
    for source, more in ((one, "-fexceptions"), (other, "-fno-exceptions")):
        cpp.output_of(["g++", *CPP, more, "-c", source, "-o", f"{source}.o"])
    given = cpp.command(["g++", f"{one}.o", f"{other}.o", cpp.archive, "-o", cpp.folder / "two"])
    assert given.status and b"undefined reference" in given.err, str(given)


def test_version(cpp: CppBench) -> None:
    """The headers and the library have one version. test_version.py has that of the headers."""
    checks = "int main(void) { return det_library_version() == DET_VERSION ? 0 : 1; }\n"
    source = cpp.file("version.c", f'#include "det/exec/version.h"\n{checks}')
    program = cpp.folder / "version"
    cpp.output_of(["gcc", *C, source, cpp.archive, "-o", program])
    cpp.output_of([program])


def test_unknown_target() -> None:
    given = run([TOP / "bin" / "build_library", "--target", "avr"], TOP)
    assert (given.status, given.out) == (2, b"")
