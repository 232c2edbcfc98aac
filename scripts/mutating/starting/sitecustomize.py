"""Python imports this module at startup, in each process that a test starts while the test's calls are recorded."""

import os

if "NETREV_CALLED" in os.environ:
    from mutating.recorded_calls import note_process

    note_process(os.environ["NETREV_CALLED"])
