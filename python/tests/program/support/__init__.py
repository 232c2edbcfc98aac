"""What several tests of the built program use."""
