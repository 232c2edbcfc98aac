"""Random sessions of nrdb."""
