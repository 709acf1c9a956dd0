# Shared by the check scripts: build, run, compare, count.
cd "$(dirname "${BASH_SOURCE[0]}")" || exit 1
cargo build --release --offline --quiet || exit 1
oracle=${CARGO_TARGET_DIR:-target}/release/oracle
passed=0
failed=0

# sheet CHUNK SLOTS NODES..: the sheet's answer.
sheet() {
    { printf 'chunk=%s\nslots=%s\n' "$1" "$2"; shift 2
      if [ $# -gt 0 ]; then printf '%s\n' "$@"; fi; echo end=; } | "$oracle" sheet 2>&1
}

# commands TEXT: the answers; `put a;b` is short for `put 2` and its lines.
commands() {
    printf '%s\n' "$1" | while IFS= read -r line; do
        case $line in
            "put "*)
                nodes=${line#put }
                echo "put $(($(printf '%s' "$nodes" | tr -cd ';' | wc -c) + 1))"
                printf '%s\n' "$nodes" | tr ';' '\n' ;;
            *) printf '%s\n' "$line" ;;
        esac
    done | "$oracle" commands 2>&1
}

# times N LINE: the line N times.
times() { for ((i = 0; i < $1; i++)); do echo "$2"; done; }

# keep PATTERN: the lines that match, none is fine.
keep() { grep -E "$1" || true; }

# check NAME WANTED GOT
check() {
    if [ "$2" = "$3" ]; then
        passed=$((passed + 1))
        echo "ok      $1"
    else
        failed=$((failed + 1))
        printf 'FAILED  %s\n--- wanted\n%s\n--- got\n%s\n' "$1" "$2" "$3"
    fi
}

finish() {
    echo "$passed passed, $failed failed"
    [ "$failed" -eq 0 ]
}
