"""`info suspects`: the findings of rules over a whole recording, worst first. The rules and their facts are nrdb's own
and aren't proved. Each suspect is shown with netrev's own lines about it (`netrev suspects`) and with netrev's answers
at the positions in question."""
