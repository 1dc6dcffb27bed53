"""The parts that tests, benches and tools share: the program, a running server, files of bundles, ICU's data and large texts."""
