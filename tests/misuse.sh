#!/usr/bin/env bash
# Two misuses of a reading must be turned away by the compiler: loading a reading whose head is not read, and loading a
# reading a second time. A small program with each is compiled over a copy of the libraries' sources, by `rt try`, and the
# compiler has to name the error there. The same program without a misuse has to compile and run, so that nothing else is the
# reason. Nothing is proved here, and nothing is written but in a temporary folder.
set -u
cd "$(dirname "$0")/.." || exit 2

# What the compiler calls the two errors.
other_type='mismatched-types'
moved='borrow-e0382'

room=$(mktemp -d) || exit 2
trap 'rm -rf "$room"' EXIT

# The sources and definitions of the libraries, and one crate more, which is the program.
cp crates.txt "$room" && tar c crates/*/src crates/*/specs | tar x -C "$room" && mkdir -p "$room/crates/misuse/src" || exit 2
echo 'misuse: algebra refusals kinds reading rack' >>"$room/crates.txt"

# Compiles the program whose function `attempt` has the lines given, and keeps what is said in a log.
compiled() { # LABEL LINE..
    log=$room/$1.log
    shift
    {
        printf 'use %s;\n' algebra::node::Node kinds::note::Note rack::rack::Rack reading::states::FreshReading refusals::refusal::Refusal
        echo "fn attempt(rack: &mut Rack<'_, Note>, text: &[u8]) -> Result<(), Refusal> {"
        printf '    %s\n' "$@"
        echo '}'
        cat <<'MAIN'
fn main(_rt: HostRuntime) {
    let mut nodes: [Node<Note>; 1023] = [Node::Rest(0); 1023];
    let mut rack = Rack::new(&mut nodes);
    let _ = attempt(&mut rack, b"score=6\n");
}
MAIN
    } >"$room/crates/misuse/src/main.rt"
    (cd "$room/crates/misuse" && rt try) >"$log" 2>&1
}

failed=0

refused() { # LABEL ERROR LINE..
    label=$1 error=$2
    shift 2
    if compiled "$label" "$@"; then
        echo "misuse $label: NOT REFUSED"
        failed=1
    elif grep -m 1 ': error' "$log" | grep -q "^src/main.rt:[0-9]*:[0-9]*: error\[$error\]"; then
        echo "misuse $label: refused, as it must be ($error)"
    else
        echo "misuse $label: refused for another reason than $error:"
        head -n 20 "$log"
        failed=1
    fi
}

if compiled correct 'let headed = FreshReading::new(text).read_head()?;' 'rack.load(0, headed)'; then
    echo "misuse correct: a reading that is loaded once compiles, as it must"
else
    echo "misuse correct: a reading that is loaded once does NOT compile:"
    head -n 20 "$log"
    failed=1
fi
refused fresh "$other_type" 'let fresh = FreshReading::new(text);' 'rack.load(0, fresh)'
refused twice "$moved" 'let headed = FreshReading::new(text).read_head()?;' 'rack.load(0, headed)?;' 'rack.load(0, headed)'
exit "$failed"
