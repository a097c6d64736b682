# What the gate, its tests and the benchmark share: named checks, the last line 'N passed, M failed', and what they need.
passed=0 failed=0

fail() { # fail TEXT
    failed=$((failed + 1))
    echo "failed: $1"
}

check() { # check TEXT COMMAND..
    local text=$1
    shift
    if "$@"; then passed=$((passed + 1)); else fail "$text"; fi
}

gives() { # gives STATUS OUTPUT ERRORS COMMAND..: whether a command ends so and writes the bytes of these two files
    local due=$1 output=$2 errors=$3 status
    shift 3
    timeout 60 "$@" >$out/output 2>$out/errors
    status=$?
    [ $status -eq "$due" ] || echo "status $status, not $due: $*"
    cmp "$output" $out/output && cmp "$errors" $out/errors && [ $status -eq "$due" ]
}

# In front of a command: it runs with 40 KiB of stack in all, 32 for a call of the library and 8 for the start of a program.
small_stack=(bash -c 'ulimit -s 40 && exec env -i LD_BIND_NOW=1 "$@"' -)

add_result() { # add_result TEXT LOG STATUS: add the last line of a test's log
    local line
    line=$(tail -n 1 "$2" | grep -E '^[0-9]+ passed, [0-9]+ failed$')
    if [ -z "$line" ]; then
        fail "$1 gave no result (status $3)"
        return
    fi
    passed=$((passed + ${line%% passed*}))
    line=${line#*, }
    failed=$((failed + ${line%% failed*}))
    if [ "$3" -ne 0 ] && [ "${line%% failed*}" -eq 0 ]; then fail "$1 ended with status $3"; fi
}

need() { # need TEST PACKAGE..: where a test does not hold, install Debian packages if CI is set, and else say how
    eval "$1" >/dev/null 2>&1 && return
    if [ -z "${CI:-}" ]; then
        fail "not so: $1. To install what is missing: apt-get install --no-install-recommends ${*:2}"
        return
    fi
    { apt-get update && DEBIAN_FRONTEND=noninteractive apt-get install -y --no-install-recommends "${@:2}"; } >/dev/null 2>&1 ||
        fail "not so: $1, and ${*:2} could not be installed"
}

need_compiler() {
    need 'command -v gcc' gcc
    need 'test -e /usr/include/stdio.h' libc6-dev
}

is_newest() { # is_newest FILE: whether it is there and no file of the crates is newer
    [ -e "$1" ] && [ -z "$(find crates crates.txt -path 'crates/*/out' -prune -o -type f -newer "$1" -print -quit)" ]
}
crate_of() { # crate_of NAME: the crate whose archive libNAME.a is
    case $1 in host) echo host_c ;; *) echo "$1" ;; esac
}
build_library() { # build_library NAME: target/staticlib/libNAME.a, made anew where a file of the crates is newer
    local lib=target/staticlib/lib$1.a crate
    is_newest "$lib" && return
    crate=$(crate_of "$1")
    mkdir -p target/staticlib
    (cd "crates/$crate" && rt lib) && cp "crates/$crate/out/lib$crate.a" "$lib"
}
link_library() { # link_library NAME: the same, over the libraries that stand in crates/*/out, without proving them; for where they are those of these files
    local crate
    crate=$(crate_of "$1")
    [ -d "crates/$crate" ] || return
    mkdir -p target/staticlib
    archive_over "$crate" "$PWD/target/staticlib/lib$1.a" "$(kit_folder)/toolchain"
}
kit_folder() { dirname "$(rt doc)"; }
archive_over() { # archive_over CRATE TO TOOLCHAIN: the archive of a crate, proved and compiled over the libraries that stand in crates/*/out
    local kit words=() d
    kit=$(kit_folder)
    for d in std $(sed -n "s/^$1 staticlib: *//p" crates.txt); do
        if [ -d "crates/$d" ]; then words+=(--extern "$d=$PWD/crates/$d/out/rlib/$d.rlib"); else words+=(--extern "$d=$kit/rlibs/$d.rlib"); fi
    done
    for d in "$PWD"/crates/*/out/rlib; do words+=(-L "dependency=$d"); done
    (cd "crates/$1" && "$kit/bin/rattle" build --crate-name "$1" src/lib.rt "${words[@]}" -L "dependency=$kit/rlibs" --crate-type staticlib \
        --antt-project "$kit/rattle/logic/antt-project.json" --logic-built "$kit/logic_built" --links "$1=" --toolchain "$3" --backend llvm -o "$2")
}
build_program() { # build_program NAME: crates/NAME/out/NAME, made anew where a file of the crates is newer; rt runs it too, on an empty input
    is_newest "crates/$1/out/$1" && return
    (cd "crates/$1" && rt run)
}

finish() { # the last line, and the exit status
    echo "$passed passed, $failed failed"
    [ "$failed" -eq 0 ]
    exit
}
