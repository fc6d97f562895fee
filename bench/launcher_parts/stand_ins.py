"""What stands for the toolchain, for the build without proof and for what `rt ci` keeps, in bench/launcher_tests.py."""

# What stands for `rt`: it notes each call, and `rt ci` and `rt run` leave programs in their crates' out/.
RT = r"""#!/bin/sh
echo "$* in $(basename "$PWD")" >>"$NOTES/rt"
leave() {
    if [ -e "$NOTES/slow" ]; then
        for _ in $(seq 1000); do
            [ -e "$NOTES/go" ] || sleep 0.1
        done
    fi
    mkdir -p "$1"
    printf '#!/bin/sh\necho proved "$@"\nexit "${WANTED:-0}"\n' >"$1/$2"
    chmod +x "$1/$2"
}
case $1 in
version) cat "$(dirname "$0")/../KIT-ID" ;;
ci)
    for crate in $(sed 's/[ :].*//' crates.txt); do
        [ ! -e "$NOTES/fails" ] || { echo "rt: $crate NOT PROVED"; exit 1; }
        echo "rt: $crate proved"
    done
    for crate in cacao cacao_view_main; do
        [ ! -d "crates/$crate" ] || leave "crates/$crate/out" "$crate"
    done
    echo "9 passed, 0 failed"
    ;;
lib) ;;
run) leave out "$(basename "$PWD")" ;;
*) exit 3 ;;
esac
"""

# What stands for unproved_build.py: slow, failing or leaving a source changed where a note says so.
BUILD = r"""#!/usr/bin/env python3
import os, pathlib, signal, subprocess, sys, tempfile, time
notes = pathlib.Path(os.environ["NOTES"])
for number in (signal.SIGTERM, signal.SIGINT):
    signal.signal(number, lambda number, _: sys.exit(128 + number))
with open(notes / "builds", "a") as it:
    it.write("build\n")
with tempfile.TemporaryDirectory(prefix="work.", dir=pathlib.Path(sys.argv[1]).parent):
    (notes / "begun").write_text(str(os.getpid()))
    if (notes / "fails").exists():
        sys.exit("a source does not compile")
    ends = time.monotonic() + (100 if (notes / "slow").exists() else 0.1)
    while time.monotonic() < ends and not (notes / "go").exists():
        time.sleep(0.05)
    if (notes / "edits").exists():
        (notes / "edits").unlink()
        with open(notes.parent / "a repository" / "crates" / "low" / "src" / "lib.rt", "a") as it:
            it.write("// one more\n")
    made = pathlib.Path(sys.argv[1])
    made.write_text(f'#!/bin/sh\necho {"unproved" if sys.argv[2] == "cacao" else "looks"} "$@"\nexit "${{WANTED:-0}}"\n')
    made.chmod(0o755)
"""

# What stands for kept_program.py: it gives a program where a note says so.
KEPT = r"""#!/usr/bin/env python3
import os, pathlib, sys
notes = pathlib.Path(os.environ["NOTES"])
with open(notes / "looks", "a") as it:
    it.write("look\n")
if not (notes / "kept").exists():
    sys.exit(1)
pathlib.Path(sys.argv[1]).write_text('#!/bin/sh\necho kept "$@"\n')
os.chmod(sys.argv[1], 0o755)
"""

FILES = {
    "crates.txt": "# crates\nlow:\nother: low\nhigh: low\ncacao: high\ncacao_view_main: other\ncacao_tests: high\n",
    "crates/cacao_view_main/src/main.rt": "// the program that looks\n",
    "HANDLES": "Handles allowed: Net, Processes.\n",
    "crates/low/src/lib.rt": "// low\n",
    "crates/low/src/tests.rt": "// tests\n",
    "crates/low/specs/Lib.antt": "-- low\n",
    "crates/other/src/lib.rt": "// other\n",
    "crates/high/src/lib.rt": "// high\n",
    "crates/high/src/more.rt": "// more\n",
    "crates/high/must-fail/one.edit": "file: src/lib.rt\n",
    "crates/cacao/src/main.rt": "// the program\n",
    "crates/cacao/data/empty.json": "{}",
    "crates/cacao_tests/src/lib.rt": "// tests\n",
}
