"""What the launchers, the commands of `lab`, the gate's checks and the benchmarks share."""
