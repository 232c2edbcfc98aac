"""What several tests of nrdb use."""
