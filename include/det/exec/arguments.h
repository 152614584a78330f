// The arguments of an application's program. They are those of `det` for the same commands.
#ifndef DET_EXEC_ARGUMENTS_H
#define DET_EXEC_ARGUMENTS_H

#include <cstddef>
#include <cstdint>
#include <cstring>
#include <optional>

#include "det/exec/det_verdict.h"
#include "det/exec/outcome.h"
#include "det/exec/version.h"

namespace det::exec {
inline namespace DET_EXEC_ABI {

enum class Command : std::uint8_t { kRecord, kReplay, kCheck, kNeeds, kLive, kHelp, kVersion };

namespace internal {

/// A command, how many names it has, and which options.
struct CommandRow {
  char const* word;
  Command command;
  std::size_t names;
  bool has_seed, has_workers, has_strict;
  bool writes_record;
};

inline constexpr CommandRow kCommands[] = {
    {"record", Command::kRecord, 2, true, true, true, true},
    {"replay", Command::kReplay, 1, false, true, false, true},
    {"check", Command::kCheck, 1, false, true, false, false},
    {"needs", Command::kNeeds, 1, false, false, true, false},
    {"live", Command::kLive, 1, true, true, true, true},
};

inline bool IsText(char const* argument, char const* text) noexcept {
  return std::strcmp(argument, text) == 0;
}

/// The row of a command. None for another word, and for `live` in a program that has no source.
inline CommandRow const* RowOf(char const* word, bool has_live) noexcept {
  for (CommandRow const& row : kCommands) {
    if (IsText(word, row.word)) return row.command == Command::kLive && !has_live ? nullptr : &row;
  }
  return nullptr;
}

/// A decimal number of at most `most`, without a sign and without a leading zero.
inline std::optional<std::uint64_t> NumberOf(char const* text, std::uint64_t most) noexcept {
  std::size_t const length = std::strlen(text);
  if (length == 0 || (length > 1 && text[0] == '0')) return std::nullopt;
  std::uint64_t value = 0;
  for (std::size_t i = 0; i < length; ++i) {
    if (text[i] < '0' || text[i] > '9') return std::nullopt;
    auto const digit = static_cast<std::uint64_t>(text[i] - '0');
    if (digit > most || value > (most - digit) / 10) return std::nullopt;
    value = value * 10 + digit;
  }
  return value;
}

/// How many bytes the character has that begins here. 0 if the bytes aren't UTF-8.
inline std::size_t CharacterBytes(unsigned char const* at) noexcept {
  struct Lead {
    unsigned char least, most, second_least, second_most;
    std::size_t bytes;
  };
  constexpr Lead kLeads[] = {
      {0xc2, 0xdf, 0x80, 0xbf, 2}, {0xe0, 0xe0, 0xa0, 0xbf, 3}, {0xe1, 0xec, 0x80, 0xbf, 3},
      {0xed, 0xed, 0x80, 0x9f, 3}, {0xee, 0xef, 0x80, 0xbf, 3}, {0xf0, 0xf0, 0x90, 0xbf, 4},
      {0xf1, 0xf3, 0x80, 0xbf, 4}, {0xf4, 0xf4, 0x80, 0x8f, 4}};
  if (*at < 0x80) return 1;
  for (Lead const& lead : kLeads) {
    if (*at < lead.least || *at > lead.most) continue;
    if (at[1] < lead.second_least || at[1] > lead.second_most) return 0;
    for (std::size_t i = 2; i < lead.bytes; ++i) {
      if (at[i] < 0x80 || at[i] > 0xbf) return 0;
    }
    return lead.bytes;
  }
  return 0;
}

inline bool IsUtf8(char const* text) noexcept {
  auto const* at = reinterpret_cast<unsigned char const*>(text);
  while (*at != 0) {
    std::size_t const bytes = CharacterBytes(at);
    if (bytes == 0) return false;
    at += bytes;
  }
  return true;
}

}  // namespace internal

/// The arguments of a command. The names are those of the caller.
struct Arguments {
  Command command = Command::kHelp;
  char const* page = nullptr;  ///< the command whose page is asked for, or null
  char const* names[2] = {nullptr, nullptr};
  std::optional<std::uint64_t> seed;
  std::optional<std::uint32_t> workers;
  bool is_strict = false, is_forced = false;

  bool WritesRecord() const noexcept {
    for (internal::CommandRow const& row : internal::kCommands) {
      if (row.command == command) return row.writes_record;
    }
    return false;
  }
};

/// Reads the arguments after the program's name, and says why they are no command.
class ArgumentReader {
 public:
  ArgumentReader(int count, char const* const* arguments, bool has_live) noexcept
      : count_(count), arguments_(arguments), has_live_(has_live) {}

  /// False if they are no command.
  bool Read(Arguments& read) noexcept {
    for (int at = 0; at < count_; ++at) {
      if (!internal::IsUtf8(arguments_[at])) return StopAt(at);
    }
    if (count_ == 0) return Stop("a command is missing", nullptr);
    if (ReadHelp(read)) return true;
    row_ = internal::RowOf(arguments_[0], has_live_);
    if (row_ == nullptr) return StopAt(PlaceAfterHelp());
    read.command = row_->command;
    read.is_forced = row_->writes_record && internal::IsText(arguments_[count_ - 1], "--force");
    if (read.is_forced) --count_;
    std::size_t names = 0;
    for (int at = 1; at < count_; ++at) {
      if (!ReadArgument(at, read, names)) return false;
    }
    return names == row_->names || Stop("a name is missing behind ", row_->word);
  }

  /// Bad words, with the hints of `det`. Only after `Read` returned false.
  Outcome BadWords(char const* program) const noexcept {
    Outcome outcome = Outcome::OfStatus(DET_STATUS_BAD_WORDS);
    outcome.Add("  ");
    if (missing_ != nullptr) {
      outcome.Add(missing_).Add(after_ == nullptr ? "" : after_);
    } else {
      outcome.Add("at the word ").AddNumber(fault_ + 1).Add(": ").AddExcerpt(arguments_[fault_]);
      if (range_ != nullptr) {
        outcome.Add(", where ").Add(arguments_[fault_ - 1]).Add(" takes ").Add(range_);
      }
    }
    outcome.Add("\n  see ").Add(program);
    if (row_ != nullptr) outcome.Add(" ").Add(row_->word);
    return outcome.Add(" --help\n");
  }

 private:
  bool StopAt(int at, char const* range = nullptr) noexcept {
    fault_ = at;
    range_ = range;
    return false;
  }
  bool Stop(char const* missing, char const* after) noexcept {
    missing_ = missing;
    after_ = after;
    return false;
  }

  /// The forms of help and of the version.
  bool ReadHelp(Arguments& read) noexcept {
    using internal::IsText;
    char const* const first = arguments_[0];
    bool const is_help = IsText(first, "--help") || IsText(first, "help");
    if (count_ == 1) {
      read.command = IsText(first, "-V") || IsText(first, "--version") || IsText(first, "version")
                         ? Command::kVersion
                         : Command::kHelp;
      return is_help || IsText(first, "-h") || read.command == Command::kVersion;
    }
    if (count_ != 2) return false;
    read.command = Command::kHelp;
    char const* const second = arguments_[1];
    auto const* const row = is_help                    ? internal::RowOf(second, has_live_)
                            : IsText(second, "--help") ? internal::RowOf(first, has_live_)
                                                       : nullptr;
    if (row != nullptr) read.page = row->word;
    return row != nullptr;
  }

  /// The first argument that is no part of help or of the version.
  int PlaceAfterHelp() const noexcept {
    using internal::IsText;
    char const* const first = arguments_[0];
    bool const is_pair =
        count_ == 2 && (IsText(first, "help") || IsText(arguments_[1], "--help"));
    bool const is_help = is_pair && (IsText(first, "help") || IsText(first, "-h"));
    if (is_help || IsText(first, "--help")) {
      return internal::RowOf(arguments_[1], has_live_) != nullptr ? 2 : 1;
    }
    bool const is_version = is_pair && (IsText(first, "version") || IsText(first, "-V"));
    return is_version || IsText(first, "--version") ? 1 : 0;
  }

  bool ReadArgument(int& at, Arguments& read, std::size_t& names) noexcept {
    char const* const argument = arguments_[at];
    if (row_->has_strict && internal::IsText(argument, "--strict") && !read.is_strict) {
      read.is_strict = true;
      return true;
    }
    if (row_->has_seed && internal::IsText(argument, "--seed") && !read.seed) {
      return ReadNumber(at, 0, UINT64_MAX, "0 to 18446744073709551615", read.seed);
    }
    if (row_->has_workers && internal::IsText(argument, "--workers") && !read.workers) {
      std::optional<std::uint64_t> workers;
      if (!ReadNumber(at, 1, 64, "1 to 64", workers)) return false;
      read.workers = static_cast<std::uint32_t>(*workers);
      return true;
    }
    if (argument[0] == '-' || argument[0] == '\0' || names == row_->names) return StopAt(at);
    read.names[names++] = argument;
    return true;
  }

  /// Reads the number after an option.
  bool ReadNumber(int& at, std::uint64_t least, std::uint64_t most, char const* range,
                  std::optional<std::uint64_t>& value) noexcept {
    if (at + 1 == count_) return Stop("a value is missing behind ", arguments_[at]);
    value = internal::NumberOf(arguments_[++at], most);
    return value && *value >= least ? true : StopAt(at, range);
  }

  int count_;
  char const* const* arguments_;
  bool has_live_;
  internal::CommandRow const* row_ = nullptr;
  int fault_ = 0;
  char const* range_ = nullptr;
  char const* missing_ = nullptr;
  char const* after_ = nullptr;
};

}  // namespace DET_EXEC_ABI
}  // namespace det::exec

#endif
