"""The parts that checks and measurements share: reports, the program's commands, and copies of crates for trials."""
