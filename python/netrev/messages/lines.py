"""Hints about a line that netrev answers with a fault."""

FOREIGN = {  # commands of other debuggers
    "run": "the recording is already replayed: restart 0 goes to the start",
    "start": "restart 0 goes to the start",
    "rwatch": "a recording contains no reads of cells: watch CELL stops after changes",
    "awatch": "a recording contains no reads of cells: watch CELL stops after changes",
    "unwatch": "delete N deletes mark N; info breakpoints lists the marks",
    "clear": "delete N deletes mark N; info breakpoints lists the marks",
    "disable": "a mark can't be disabled: delete N deletes it; info breakpoints lists the marks",
    "enable": "marks are always enabled; info breakpoints lists them",
    "show": "info position shows the direction",
    "shell": "nrdb doesn't start other programs",
    "define": "nrdb has no macros: source FILE runs the commands in a file",
    "x": "print CELL shows a value, dump in S the bytes in a buffer",
    "find": "history CELL lists a cell's changes; until CELL VALUE goes to one; dump in S shows the bytes in a buffer",
    "search": "until CELL VALUE goes on until a cell has a value; steps KIND lists the steps of a kind",
    "call": "nothing runs again in a recording: calls lists the program's calls, print shows a cell",
    "ignore": "until CELL VALUE goes on until a cell has a value; in an editor, breakpoints have hit counts",
    "file": "nrdb FILE opens a recording; a session has one recording",
    "load": "nrdb FILE opens a recording; a session has one recording",
    "attach": "nrdb --join HOST:PORT joins a shared session",
    "detach": "quit ends the session",
    "kill": "quit ends the session; the recorded program isn't running",
    "ptype": "help CELL explains a cell, help KIND a kind of step",
    "whatis": "help CELL explains a cell, help KIND a kind of step",
    "locals": "variables aren't recorded: print CELL shows a cell of the machine",
    "args": "variables aren't recorded: print CELL shows a cell of the machine",
    "vars": "variables aren't recorded: print CELL shows a cell of the machine",
    "tui": "list shows the steps, or the source near a line; timeline FILE writes a page",
    "layout": "list shows the steps, or the source near a line; timeline FILE writes a page",
    "record": "this is a recording already; netrev-go makes recordings",
    "rewind": "reverse-continue goes back; restart 0 goes to the start",
    "stepout": "finish goes on to the end of the call",
}
FAULTS = {
    "203": "a line has at most {most} bytes",
    "301": "no memory for this command: send it again later",
    "302": "resume prints the reply once there is memory",
    "303": "the session's journal is full: queries still work; start a new session to move on",
    "401": "info breakpoints lists the marks",
    "402": "there are 64 marks, the maximum: delete N deletes one",
    "403": "info checkpoints lists the checkpoints; 0 is the start",
    "404": "there are 64 checkpoints, the maximum: delete checkpoint N deletes one",
}

HELP = "help lists the commands"
DID_YOU_MEAN = "did you mean {names}?"
LOWER_CASE = "did you mean {name}? Commands are in lower case"
TOPIC = "did you mean info {topic}? It shows {shows}"
NO_FORMAT = "print CELL takes no format: lock words are shown in words"
GOTO = "goto {number} goes to position {number}"
PRINT = "print {cell} shows this cell"
TAKES_NOTHING = "{command} takes no arguments"

# Cells.
WHICH_CELL = "which cell? For example {command} lock 0 or {command} gor 1; the cells are {cells}"
CELLS = "the cells are {cells}"
DUMPED = "dump {name} S shows {shows}; watch lock S stops after changes of the lock word"
NO_NUMBER = "{cell} takes no number: {command} {cell}"
NUMBER_OF = "{cell} needs the number of a {of}: {command} {cell} 0"
NOT_A_NUMBER = "{word} isn't a number: {command} {cell} 0"
ONE_AT_A_TIME = "one {of} at a time: {command} {cell} {number}"
VALUE_OF_CELL = "watch takes only a cell; until {cell} {value}* goes to the step that gives it this value"
VALUE_OF_OTHER = (
    "watch takes only a cell; until {cell} * and {other} {value}* goes to the next change of one of them "
    "after which {other} has this value"
)

# Steps and breaks.
ONLY_A_NUMBER = "{command} takes only a number; a comment needs a line of its own"
OTHER_WAY = "{command} {number} goes the other way"
FROM_ONE = "{command} N: N is a number from 1"
DECIMAL = "numbers are decimal: {command} {number}"
BREAK = "{command} KIND or {command} @K, for example {command} rwlock or {command} @7"
LINE_IS_STEP = "without empty lines, line {line} is step {step}: {command} @{step}"
STEP_BY_NUMBER = "did you mean {command} @{step}, before step {step}?"
STEP = "@K is a step, counted from 1: {command} @7"
ONLY_A_KIND = (
    "{command} takes only the kind: {command} {kind}; for one socket or goroutine, watch its cell or use until"
)
IS_A_CELL = "{word} is a cell: watch {words}"
KINDS = "the kinds are {kinds}"
ONE_MARK = "one mark at a time: delete {number}; delete without a number deletes all"
CONTINUE_BY_NUMBER = "{command} takes no number: {step} {number} makes that many steps"
CONTINUE = "{command} takes no arguments; until CELL VALUE goes on until a cell has a value"

# Checkpoints, dumps and settings.
DELETE_CHECKPOINT = "which checkpoint? For example delete checkpoint 1; info checkpoints lists them"
RESTART = "which checkpoint? 0 is the start; info checkpoints lists the others"
CHECKPOINT = "checkpoint takes no arguments: it saves the position of the session"
CHECKPOINT_AT = "checkpoint takes no arguments: it saves the position of the session, so use goto {number} first"
DUMP = "dump {kinds} S shows a buffer of socket S: dump in {number}"
NOT_DUMPED = "{word} can't be dumped: use dump {kinds} S; print shows cells"
DUMP_NUMBER = "dump {kind} takes only the number of a socket: dump {kind} {number}"
SETTINGS = "the settings are exec-direction and pagination: set exec-direction reverse"
DIRECTIONS = "set exec-direction reverse, or forward"
