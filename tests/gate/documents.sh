# The test programs' cases are what the second readings of the documents make of them.
passed=0 failed=0
for number in 01 03; do
    if python3 -B "tests/document_$number/cases.py" --check; then passed=$((passed + 1)); else failed=$((failed + 1)); fi
done
printf '%d passed, %d failed\n' "$passed" "$failed"
[ "$failed" -eq 0 ]
