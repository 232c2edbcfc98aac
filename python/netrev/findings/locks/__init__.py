"""Waits for mutexes, conditions and WaitGroups."""
