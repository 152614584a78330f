// A whole program of an application's job: the commands of `det` over files, and a live run.
#ifndef DET_EXEC_APPLICATION_H
#define DET_EXEC_APPLICATION_H

#include <signal.h>
#include <unistd.h>

#include <cstddef>
#include <cstdint>
#include <cstring>
#include <type_traits>

#include "det/exec/arguments.h"
#include "det/exec/outcome.h"
#include "det/exec/program.h"
#include "det/exec/record_sink.h"
#include "det/exec/version.h"

namespace det::exec {
inline namespace DET_EXEC_ABI {

/// The source of a program that has no live run.
struct NoLive {};

namespace internal {

struct HelpPage {
  char const* arguments;
  char const* text;
};

inline constexpr char const* kStatuses =
    "\nExit statuses:\n"
    "  0  done             4  bad stimulus     8  out of memory\n"
    "  1  differs          5  bad record      70  job fault\n"
    "  2  bad words        6  read fault\n"
    "  3  bad manifest     7  write fault\n";

constexpr HelpPage PageOf(Command command) noexcept {
  switch (command) {
    case Command::kRecord:
      return {"MANIFEST STIM [--seed N] [--workers W] [--strict]",
              "Writes the record of the job over a stimulus to standard output.\n"};
    case Command::kReplay:
      return {"RECORD [--workers W]",
              "Runs the job over the inputs of a record, and writes the record again.\n"};
    case Command::kCheck:
      return {"RECORD [--workers W]",
              "Says whether a record is what the job makes of its inputs, and where it first\n"
              "departs from that.\n"};
    case Command::kNeeds:
      return {"MANIFEST [--strict]", "Prints the resource needs of a manifest.\n"};
    case Command::kLive:
      return {"MANIFEST [--seed N] [--workers W] [--strict]",
              "Runs the job over the program's own source, and writes the record.\n"};
    default: return {"", ""};
  }
}

/// Writes help to a descriptor in pieces.
class HelpWriter {
 public:
  HelpWriter(int descriptor, char const* program) noexcept : sink_(descriptor), program_(program) {}

  /// The commands and the statuses.
  Outcome WriteAll(bool has_live) noexcept {
    for (CommandRow const& row : kCommands) {
      if (row.command == Command::kLive && !has_live) continue;
      WriteCall(row);
    }
    Write(program_);
    Write(" --help [COMMAND]\n");
    Write(program_);
    Write(" --version\n");
    Write(kStatuses);
    return Ended();
  }

  /// One command.
  Outcome WriteOne(char const* word) noexcept {
    for (CommandRow const& row : kCommands) {
      if (!IsText(row.word, word)) continue;
      WriteCall(row);
      Write("\n");
      Write(PageOf(row.command).text);
      WriteOptions(row);
    }
    Write(kStatuses);
    return Ended();
  }

 private:
  void Write(char const* text) noexcept {
    (void)sink_.Write(reinterpret_cast<std::uint8_t const*>(text), std::strlen(text));
  }

  void WriteCall(CommandRow const& row) noexcept {
    Write(program_);
    Write(" ");
    Write(row.word);
    Write(" ");
    Write(PageOf(row.command).arguments);
    Write("\n");
  }

  void WriteOptions(CommandRow const& row) noexcept {
    if (row.has_seed) Write("\n  --seed N       the seed of the random numbers; 0 by default");
    if (row.has_workers) Write("\n  --workers W    1 to 64 threads; each number gives the same");
    if (row.has_strict) Write("\n  --strict       refuse a manifest with an unknown key");
    if (row.writes_record) Write("\n  --force        last; write even to a terminal");
    Write("\n");
  }

  Outcome Ended() noexcept {
    bool const is_written = sink_.Finish();
    return is_written && sink_.Error() == 0 ? Outcome() : Outcome::WriteFault(sink_.Error());
  }

  BufferedSink sink_;
  char const* program_;
};

/// Runs a command of a job's program.
template <typename J, typename Live>
Outcome RunCommand(Arguments const& arguments, ProgramOptions const& options) noexcept {
  constexpr bool kHasLive = !std::is_same_v<Live, NoLive>;
  Program<J> const program(options);
  HelpWriter help(options.out, J::kName);
  switch (arguments.command) {
    case Command::kRecord: return program.Record(arguments);
    case Command::kReplay: return program.Replay(arguments);
    case Command::kCheck: return program.Check(arguments);
    case Command::kNeeds: return program.Needs(arguments);
    case Command::kLive:
      if constexpr (kHasLive) return program.template Live<Live>(arguments);
      break;
    case Command::kVersion: {
      Outcome line;
      line.Add(J::kName).Add(" ").Add(options.version).Add("\n");
      return program.Print(line.Text().data(), line.Text().size());
    }
    case Command::kHelp:
      if (arguments.page != nullptr) return help.WriteOne(arguments.page);
      break;
  }
  return help.WriteAll(kHasLive);
}

/// Reads the arguments, and runs their command unless a record would go to a terminal.
template <typename J, typename Live>
Outcome RunArguments(int count, char const* const* arguments,
                     ProgramOptions const& options) noexcept {
  ArgumentReader reader(count, arguments, !std::is_same_v<Live, NoLive>);
  Arguments read;
  if (!reader.Read(read)) return reader.BadWords(J::kName);
  if (read.WritesRecord() && !read.is_forced && ::isatty(options.out) != 0) {
    Outcome outcome = Outcome::OfStatus(DET_STATUS_WRITE_FAULT);
    return outcome.Add("  standard output is a terminal: redirect it, or add --force\n");
  }
  return RunCommand<J, Live>(read, options);
}

}  // namespace internal

/// Runs the command that the arguments of `main` name, and returns the exit status. `Live` is the
/// source of the command `live`; it is made of the manifest's cycle time in nanoseconds. The
/// process ignores SIGPIPE from here on. Memory is taken, and given back at the end.
template <typename J, typename Live = NoLive>
int Main(int count, char const* const* arguments, ProgramOptions const& options = {}) noexcept {
  ::signal(SIGPIPE, SIG_IGN);
  bool const has_name = count > 0;
  Outcome const outcome = internal::RunArguments<J, Live>(
      has_name ? count - 1 : 0, has_name ? arguments + 1 : arguments, options);
  DescriptorSink err(options.err);
  (void)err.Write(outcome.Text().data(), outcome.Text().size());
  return outcome.Status();
}

}  // namespace DET_EXEC_ABI
}  // namespace det::exec

#endif
