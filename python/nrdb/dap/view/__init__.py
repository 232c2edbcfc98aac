"""What an editor sees of a recording."""
