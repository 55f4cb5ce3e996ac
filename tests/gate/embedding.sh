# A program in C, linked with the proved entries.
exec sh tests/embedding/run
