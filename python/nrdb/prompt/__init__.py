"""The prompt: nrdb's answers to its commands, and the terminal."""
