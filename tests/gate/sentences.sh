# The tables of docs/CLAIMS.md have the documents' sentences, and what they cite is there.
exec python3 tools/sentences
