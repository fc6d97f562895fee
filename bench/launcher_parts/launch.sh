# What `./cacao` and `./cacao-view` do, which set `top` and `program`: runs the program in the caller's folder with the caller's words, and
# hands on its exit status. It takes no words of its own.
# In this order: a proved program of these sources (`.build/PROGRAM`, which ./prove, .ci/run and bench/gate.sh leave, or what any `rt ci` on
# this machine kept); else one that is built without proof, which takes minutes once, and is said at each call. Where neither can be
# had, it says why and ends with status 125.

. "$top/bench/launcher_parts/program.sh"

# How ./prove is called for the program.
prove=./prove
[ "$program" = cacao ] || prove='./prove cacao-view'

# Runs a program of the kind $1 that is current, in place of this script, with the other words.
run_current() {
    kind=$1 name=$program
    shift
    [ "$kind" = proved ] || name=$program-unproved
    for folder in "$top/.build" "$(own_folder)"; do
        is_current "$top" "$kind" "$folder/$name" || continue
        [ "$kind" = proved ] || say "built without proof on this machine; $prove proves it (\`rt ci\` proves all), and the proved program then takes its place"
        trap - HUP INT TERM EXIT
        give_turn
        exec "$folder/$name" "$@"
    done
}

# Removes what this call, or one before it that was killed, made on the way.
clean() {
    rm -rf "$folder"/work.* "$folder"/made*
}

# Builds the program without proof.
build() {
    for try in first second; do
        made_of "$top" unproved >"$folder/made.sources" || return 1
        begin python3 "$top/bench/launcher_parts/unproved_build.py" "$folder/made" "$program"
        end || return 1
        if made_of "$top" unproved | cmp -s - "$folder/made.sources"; then
            put "$folder/made" "$folder/made.sources" "$folder/$program-unproved"
            return
        fi
        say "a source changed meanwhile (the $try time)"
    done
    return 1
}

# Has what can be had of these sources: without proof, or, with a toolchain that is not known to do so, proved.
provide() {
    kit_command >/dev/null || {
        say "the toolchain's command \`rt\` is not on the PATH"
        return 1
    }
    choose_folder || {
        say "the program must be built, and neither $top/.build nor $(own_folder) can be written"
        return 1
    }
    if [ "$(kit_line)" != "$known_kit" ]; then
        say "a build without proof was tried with the toolchain $known_kit alone, and this one is $(kit_line): so $prove proves the program,"
        say "which can take an hour or two, and goes on where it is cut off; meanwhile \`rt try -- WORDS\` in crates/$program tries WORDS on copies of files"
        # (the name of the program, but for `cacao`)
        begin "$top/prove" ${prove#./prove}
        end
        return
    fi
    say_folder
    take_turn build "use what it builds" || return 1
    ! is_current "$top" unproved "$folder/$program-unproved" || return 0
    clean
    trap clean EXIT
    say "no program of these sources is at hand, so one is built without proof"
    build
}

trap stop HUP INT TERM
run_current proved "$@"
take_kept && run_current proved "$@"
run_current unproved "$@"
provide || exit 125
run_current proved "$@"
run_current unproved "$@"
say "the program was built, and is not of the sources that stand here now"
exit 125
