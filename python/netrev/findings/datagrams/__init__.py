"""Datagrams that were lost or cut."""
