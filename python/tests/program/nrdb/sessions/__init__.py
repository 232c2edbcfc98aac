"""Tests of nrdb's commands with the built program."""
