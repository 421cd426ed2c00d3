"""The commands of `fieldc`, a module each with `SUMMARY`, `arguments(parser)` and `perform(options)`."""
