"""What went wrong in a recording: suspects, failed calls and hangs, with their causes."""
