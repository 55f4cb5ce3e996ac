# tools/prove on a crate of its own.
exec python3 tools/prove --self-test
