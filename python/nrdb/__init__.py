"""nrdb, the prompt around netrev.

It runs `netrev run FILE`, or joins a session of `netrev serve`, sends the typed lines, and prints netrev's replies as
they come. nrdb's own lines begin with `|`. nrdb derives these lines from further replies and from the recording's text;
they aren't proved. docs/reference/NRDB.md describes nrdb."""
