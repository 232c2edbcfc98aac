"""Goroutines that wait although only they could read what they wait for. Such a goroutine is in the function that reads
a connection, for example because it serves the requests itself, and the connection has unread bytes."""


from netrev.findings.evidence.call_words import place_in, short, text_of_call
from netrev.findings.evidence.need import Need
from netrev.findings.streams.unread_bytes import unread
from netrev.recording.waits import ObjectWait
from netrev.recording.where import OF_THE_PROGRAM
from netrev.run.index import RunIndex
from netrev.text.plurals import counted


def of_own_reader(index: RunIndex, wait: ObjectWait, position: int) -> Need | None:
    """What a waiting goroutine needs if it is itself in the function that reads a connection. The result is None if
    other goroutines read from the connection too, or if the connection has no unread bytes."""
    inside = {call.function for call in wait.stack.calls if call.of == OF_THE_PROGRAM}
    if wait.name.is_goid:
        return None
    for found in unread(index, position):
        reads = [
            call for call in index.by_socket.get(found.socket, ()) if call.name == "Read" and call.first <= position
        ]
        readers = {call.goroutine for call in reads}
        if readers != {wait.name.number} or found.write.goroutine == wait.name.number:
            continue
        stack = index.recording.lines.of(reads[-1].first)
        reading = {call.function for call in stack.calls if call.of == OF_THE_PROGRAM} & inside
        now = next((call for call in wait.stack.calls if call.function in reading), None)
        if now:
            says = (
                f"Perhaps it waits for itself: {counted(found.bytes, 'byte')} of "
                f"{text_of_call(index.recording, found.write)} are unread on socket {found.socket}, "
                f"and only {wait.name} reads there,{place_in(stack)}. It is still in {short(now.function)}, at {now.place()}."
            )
            return Need([says], is_odd=True)
    return None
