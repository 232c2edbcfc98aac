"""A fuzzer of netrev: random recordings and command lines, run by netrev and by its model, netrev.model.

    randomsteps, texts, damage, lines   random recordings, texts and command lines
    cases, playing, counts              the case for a seed, its runs by netrev and the model, and counts of events
    keeping                             the reduction and storage of a case that shows a difference

It also fuzzes the tools around netrev. For these tools, a fault is a Python traceback, an unexpected file, a terminal
control sequence in the output, or a timeout:

    around                              cases of all kinds
    damaged_logs, logs                  the recorder's logs, and their text
    side_files, sessions                nrdb's views of a recording with any NAME.where
    editors, browsers                   messages to the adapter, and lines for the page
"""
