# Sourced by the checks beside it: where things are, and the lines that rust/test counts.
top=$(cd "$(dirname "${BASH_SOURCE[0]}")/../.." && pwd)
library=$top/target/staticlib/libshard.a
scratch=$(mktemp -d)
trap 'rm -rf "$scratch"' EXIT
failures=0

# Runs a command and says under a name whether it passed; shows what it printed where it did not.
check() {
  local name=$1
  shift
  if "$@" >"$scratch/printed" 2>&1; then
    echo "check $name: ok"
  else
    echo "check $name: FAILED"
    sed 's/^/  /' "$scratch/printed"
    failures=$((failures + 1))
  fi
}

# Says under a name that something was not run, and why: it counts neither as passed nor as failed.
skip() { echo "check $1: not run: $2"; }

# Fails unless two texts are the same, and shows both.
same() {
  [[ $1 == "$2" ]] || { printf 'wanted: %s\ngot:    %s\n' "$2" "$1"; return 1; }
}

# Runs a command and fails unless it ends with this status.
status() {
  local wanted=$1 got=0
  shift
  "$@" || got=$?
  same "$got" "$wanted"
}
