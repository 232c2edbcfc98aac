"""The errors, hints and notes of `netrev-go`. A word in braces is replaced when the message is printed."""

# The command line.
INTERRUPTED = "interrupted"
NO_COMMAND = "no command"
USAGE_ERROR = "netrev-go: {what}\n`netrev-go --help` lists the commands and options\n"
FAIL_ON = "expected {suspects}, {possible}, or both separated by a comma"
OUT_OF_RANGE = "{option} must be from {least} to {most}"
TWO_ON_STANDARD_OUTPUT = "--github and Go's -json both write to standard output: use only one of them"
ONLY_FOR_TESTS = "{option} works only with `netrev-go test`"
OVERLAY_IS_TAKEN = "netrev-go uses -overlay itself: remove yours, or copy its files into the source tree"
NO_LOG_GIVEN = "convert: no log given (or use --pid PID)"
SPACE_IN_PATH = "{path} contains a space, which GOFLAGS can't: set XDG_CACHE_HOME to another folder"
BUILT = (
    "the program records when NETREV_LOG=PATH is set: its log is PATH.PID, and `{netrev_go} convert PATH.PID` "
    "makes a recording"
)

# Names of recordings.
NOT_A_NAME = "{name!r} can't be the name of a recording: -o NAME makes NAME{ending}"
UNWRITABLE = "{path} can't be written: {why}"
EXISTS = "{path} exists and can't be overwritten: use -o to name another recording"
NOT_A_FOLDER = "{path} exists and isn't a folder: use -o to name another folder"
NOTHING_WAS_RUN = ". Nothing was run"  # after one of these three

# Logs, before and after a run.
NO_ROOM = (
    "no log can be made in {places}: it needs {megabytes} MB of free space. NETREV_LOGS names another folder, "
    "--points makes the log smaller"
)
NO_LOGS_IN = "no log can be made in {folder}: {why}. Nothing was run"
NO_PROCESS = "no process {process}"
PROCESS_HAS_ENDED = "process {process} has ended"
PROCESS_IS_PROTECTED = "no permission to read process {process}: run netrev-go as the user of that process, or as root"
PROCESS_HAS_NO_LOG = (
    "process {process} writes no log: build it with `{netrev_go} build` and start it with NETREV_LOG=PATH, "
    "or run it with `{netrev_go} run`"
)
PROCESS_IS_SECURE = (
    "process {process} records nothing, because it has privileges that its caller may lack (set-user-ID or file "
    "capabilities): start it without them"
)
LOG_UNWRITTEN = "process {process} couldn't write its log{log}: {why}. Correct that, and start the program again"
LOG_IS_REMOVED = "process {process}: its log {log} was removed. Start the program again to record it"
LOG_HAS_ENDED = "process {process}: its log {log} was truncated, or its device failed; recording ended then"
PROGRAM_IS_REPLACED = "process {process} has executed another program, whose log is {log}; watching that"
FILE_SIZE_IS_LIMITED = "`ulimit -f` limits the size of its files"
TOO_MANY_PROGRAMS = "too many logs with its number exist"
MEMORY_IS_LIMITED = "`ulimit -v` limits its memory"
PROCESS_UNRECORDED = "process {process} couldn't write a log ({why}) and isn't recorded"
PROCESSES_UNRECORDED = "{count} processes couldn't write a log ({why}) and aren't recorded"
LOGS_ARE_GONE = "nothing was recorded: the folder of the logs, {folder}, no longer exists"
NOTHING_RAN = "nothing was recorded: no program ran, or it opened no log"
NOTHING_IS_LOST = "nothing is lost: `{netrev_go} -o NAME convert {logs}` makes recordings of the logs"
LOGS_ARE_IN = "the logs are in {folder}"
STILL_RUNS = (
    "process {process} still runs, and its log grows: `{netrev_go} -o NAME convert {log}` makes a recording of it now, "
    "`{netrev_go} recover` after it ends"
)
NOTHING_TO_RECORD = "no socket was opened: there is nothing to record"
OPENED_NONE = "{processes} opened no socket"

NO_TABLE = "{log} has no table of waiting goroutines: build the program with this netrev-go"
LOG_UNREADABLE = "{log} can't be read: {why}"
WATCHING = "watching process {process}; Ctrl-C ends that"
NO_LONG_WAIT = "process {process} has ended, and no call waited that long"

# Runs that were interrupted before recordings were made.
ONE_WAS = "{last} was"
SEVERAL_WERE = "{count} runs, the last {last}, were"
SEVERAL_RUNS = "{count} runs, the last {last},"
LOGS_ARE_KEPT = "logs of {runs} are kept: `{netrev_go} -o NAME convert {logs}` makes recordings of them, `rm -r {folders}` deletes them"
RUNS_WERE_INTERRUPTED = "{runs} interrupted before the recordings were made: `{netrev_go} recover` makes them"
DISCARD = " (`rm -r {folder}` deletes the logs)"
NONE_INTERRUPTED = "netrev-go: no run was interrupted"
RECOVERED = "netrev-go: {recordings} of {runs} runs"

# Problems with a log, printed after the log's name.
TOO_SHORT = "too short for a log"
EMPTY = "it is empty: it was truncated, or its program wrote nothing"
NOT_A_LOG = "not a log of netrev-go"
BAD_HEADER = "its header is damaged"
NOT_A_FILE = "not a regular file"
OUT_OF_MEMORY = "memory ran out"
UNREADABLE = "can't be read: {why}"
UNCOPIED = "the program couldn't copy its log: {why}; it runs on, and the next signal tries again"
NO_SOCKET = "no socket was opened"
OPENED_EARLIER = "all sockets were opened before the oldest point in the log: --points N keeps more points"
NO_SOCKET_OF_TEST = "it used no socket"
ONE_IS_TOO_LARGE = (
    "one socket alone has more than 1,000,000 steps, 4,096 goroutines or {megabytes} MB of text for its bytes: "
    "make the run shorter, for instance with -n, or give a larger --megabytes N"
)
BAD_MODE = "point {point}: {mode} is neither reading nor writing"
TWO_SIDES = "point {point}: one side was expected, and both were given"
NO_TIMER = "point {point}: a deadline passed whose timer wasn't due"

# Files that aren't used, because another user may have put them there.
NOT_USED = "{path} isn't used: {why}"
OF_WRONG_KIND = "it is {kind}"
OF_ANOTHER_USER = "it belongs to user {user}"
TOO_LARGE = "it has {bytes} bytes"
SEVERAL_NAMES = "it has {count} names, in a folder where other users can write"

# Missing parts of a recording, printed in parentheses.
LOG_IS_FULL = "the log ran out of space and ends before the program did"
LOG_IS_CUT = "the log was truncated while the program ran: recording ended then"
NO_NUMBER_OF_POINTS = "NETREV_POINTS isn't a number, so the log has {points} points"
OTHER_POINTS = "the log has {points} points, because it can't have {asked}"
FEWER_POINTS = "the log has {points} points instead of {asked}, because its file system had no room for more"
NEWEST_POINTS = "the log keeps the newest {kept} points of {all}"
LOG_IS_DAMAGED = "the log is cut short or damaged: {usable} of its {kept} points can be used"
ONE_UNFINISHED = "1 point wasn't finished when the log ended, and is left out"
UNFINISHED = "{count} points weren't finished when the log ended, and are left out"
NO_STACKS = "{count} points have no line: the program has too many different stacks"
SOME_SOCKETS = "{kept} of {wanted} sockets are kept: those still open first, then the newest"
FEW_BYTES = "reads and writes count at most {bytes} bytes each: --all-bytes counts all"
BEGINS_IN_THE_MIDDLE = "it begins in the middle of the run: its first {steps} steps lead to the state there"
NO_LINES = (
    "no lines of the source: Go or the program's file is missing, or Go can't read lines from it (-buildmode=pie)"
)

# Messages about a recording.
IDLE_IN_GO = (
    "  {count} more only in Go's own code, such as idle connections of net/http: `info goroutines` in nrdb lists them"
)
MORE_GOROUTINES = "  and {count} more"
LATE_CAUSES = "nrdb needs more than {seconds} s for the causes"
LATE_SUSPECTS = "nrdb needs more than {seconds} s for the suspects"
PRINTS_THEM = "  {late}: `{line}` prints them"
SUSPECTS_INTERRUPTED = "the search for suspects was interrupted"
UNCHECKED = "  not checked, because netrev is missing: {how}"
CHECK_FAILED = "  not checked: {netrev}: {why}"
ENDED_BY_A_SIGNAL = "ended by {signal}"
REFUSED = "  netrev rejects this recording. This is a bug in netrev-go: please keep the log and report it"
REFUSED_WITH_CAUSES = (
    "  netrev rejects this recording, so the causes above may be wrong. This is a bug in netrev-go: please keep the log "
    "and report it"
)
HELD_REFERENCES = "  socket {socket} is closed, and {references} still held: info holders {socket}"
NO_OWN_LINE = "(no line of the program)"
NO_LINE = "(no line known)"

# Tests.
ONLY_TESTS = (
    "only tests have recordings, not benchmarks or fuzzing: use --keep to keep the logs, and `{netrev_go} convert` to make "
    "recordings of them"
)
NO_TEST_FAILED = "{process}: no test in it is known to have failed"
TEST_USED_NONE = "{test}: it used no socket"
NO_PAGE = "{page} can't be made: {why}"
NRDB_ENDED = "nrdb ended with status {status}"
NOT_EXPLORED = "{recording}: other schedules weren't explored: {why}"
RUN_FAILED = "netrev-go: {run} failed"

# Go.
HOW_TO_INSTALL = "Debian has it: apt-get install golang-go"
NO_GO = "`go` isn't on the PATH. {how}"
GO_ENV_FAILED = "`go env` failed: {why}"
OTHER_SYSTEM = "Go builds for {system} here, and netrev-go records only linux/amd64: unset GOOS and GOARCH"
NO_SOURCES = "the sources of Go's library aren't in {folder}. Debian: apt-get install golang-src"
TRIED = "tested with netrev-go"
PATCH_UNTRIED = "not tested with netrev-go; {tried} is"
RELEASE_UNTRIED = "not tested with netrev-go; {tried} are"
TOOL_NOT_BUILT = "Go couldn't build netrev-go's own program: {why}"
CACHE_UNUSABLE = "{folder} can't be used ({why}): set XDG_CACHE_HOME to another folder"
RULES_DONT_FIT = "{version} can't be recorded ({tried}). netrev-go's rules don't fit these places in it (`{netrev_go} doctor` lists all):\n"
DOES_NOT_COMPILE = "{version} can't be recorded ({tried}). The rules fit, but the changed files don't compile:\n{why}"
CALLS_UNREADABLE = "the calls of {version} can't be read: {why}"
READER_NOT_BUILT = "Go couldn't build {package}: {why}"
READER_UNUSABLE = "{folder} can't be used ({why})"

# Fetching releases of Go, and measuring.
UNKNOWN_RELEASE = "Go {release} can't be fetched: Debian has {releases}"
PACKAGE_IS_INCOMPLETE = "the packages of Go {release} lack files: see {folder}"
CANNOT_START = "{program} can't be started: {why}"
COMMAND_FAILED = "`{command}` failed:\n{why}"
NO_OVERLAY = "the recorder in {folder} can't make an overlay: {why}"
RELEASE_UNRECORDED = "{release} can't be recorded: {why}"

# The trial recording.
NO_TRIAL_PROGRAM = "the trial program can't be built: {why}"
TRIAL_HANGS = "the trial program still runs after {seconds} seconds"
TRIAL_FAILED = "the trial program ended with status {status} and {logs} logs: {why}"
NO_TRIAL_RECORDING = "no recording can be made: {why}"
STEPS_MISSING = "these steps weren't recorded: {kinds}"
LOCK_WORD_CHANGED = "a lock word was changed in a place that no rule covers: {change}"
LOCK_WORD_FOUND = "step {step} found {found} in the lock word of socket {socket}, instead of {expected}"
BYTES_MISSING = "the program counted {counted} bytes read and written, but {recorded} were recorded"
TRIAL_BY_MODEL = "{steps} steps (checked by the model in Python)"
TRIAL_REFUSED = "netrev rejects the recording: {why}"
TRIAL_UNCHECKED = "netrev couldn't check the recording: {why}"
TRIAL_PASSED = "{steps} steps, {words} lock words"
NOT_RECORDABLE = "{version} can't be recorded ({tried}): {why}. `{netrev_go} doctor` prints details"
RECORDABLE = "netrev-go: {version} ({tried}) can be recorded: {how}"

# doctor.
DOCTOR_GO = "Go: {version}, {system}, in {folder} ({tried})"
DOCTOR_NO_GO = "Go: {why}"
CHECKED_BY = "checked by: {netrev}"
CHECKED_BY_NOTHING = "nothing, since netrev is missing: {how}"
RULES_UNFIT = "rules: not all fit, so this Go can't be recorded. {how}"
RULES_LEFT_OUT = "rules: all required rules fit; {count} optional ones don't, and what they record is left out"
RULES_FIT = "rules: all fit"
CALLS_UNKNOWN = "calls: {calls}: no rule covers these, so their bytes aren't recorded"
ROOM_MISSING = "room: {why}"
ROOM = "room: the logs go to {folder}"
CACHE_MISSING = "cache: {why}"
CACHE = "cache: overlays are kept in {folder}"
LINES_READ_BY = "read by {program}"
LINES_NOT_READ = "{why}. Go tries again when it first reads lines"
NOT_COMPILED = "compiled: {why}"
COMPILED = "compiled: Go's changed files compile"
LINES = "lines: {how}"
TRIAL_GOOD = "trial: the trial recording is correct: {how}"
TRIAL_BAD = "trial: this Go can't be recorded: {how}"
