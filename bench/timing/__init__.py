"""What benches of the whole program share: scripts, runs, stores beside them, and plots."""
