# What the tests in C share, beside tests/common.sh: programs compiled and run, and a stand-in for the library whose faults a
# test must see. A test sets
#   out        the folder for what is made
#   folders    where its C files are, the first that has one counts
#   includes   the options for its headers
#   model      the files of the model, which the stand-in is made of together with stand_in.c
# Doubles are rounded after every product and sum: none is fused (-ffp-contract=off), nor is any reordered (no -ffast-math).
exact="-std=c11 -ffp-contract=off"
flags="$exact -Wall -Wextra -Werror $includes"
plain_options='-O2 -g -flto'
sanitizers='-O1 -g -fsanitize=address,undefined -fno-sanitize-recover=all'
stand_in_options='-O1 -fPIC -fvisibility=hidden'
rm -rf "$out"
mkdir -p "$out"

source_of() { # source_of FILE: its path
    local folder
    for folder in $folders; do
        [ -e "$folder/$1" ] && echo "$folder/$1" && return
    done
}

compile() { # compile FOLDER OPTIONS NAME..: objects of the named files
    local folder=$out/$1 options=$2 name
    shift 2
    mkdir -p "$folder"
    for name in "$@"; do
        gcc $flags $options -c "$(source_of "$name.c")" -o "$folder/$name.o" || return
    done
}

build_test() { # build_test LIBRARY..: the test, plainly and with sanitizers around the library, of the files in $model and $harness
    check "the test compiles" compile plain "$plain_options" $model $harness
    check "the test links with the library" gcc $plain_options $out/plain/*.o "$@" -o $out/test
    check "the test compiles with sanitizers" compile sanitized "$sanitizers" $model $harness
    check "the test links with sanitizers" gcc $sanitizers $out/sanitized/*.o "$@" -o $out/sanitized/test
}

try() { # try TEXT COMMAND..: run a test and add its result
    local text=$1
    shift
    echo "== $text"
    "$@" >$out/log 2>&1
    local status=$?
    cat $out/log
    add_result "$text" $out/log $status
}

# The stand-in: the test passes with it, and fails with each of its faults.
link_stand_in() { # link_stand_in FOLDER: the objects there as the library libstand_in.so
    gcc -shared "$1"/*.o -o $out/libstand_in.so
}
with_stand_in() { # with_stand_in COMMAND..
    LD_LIBRARY_PATH=$out "$@" >$out/log 2>&1
}
build_stand_in() { # build_stand_in LIBRARY..: the stand-in, and the test linked with it and what else it calls
    echo '== the stand-in and its faults'
    check "the stand-in compiles" compile stand_in "$stand_in_options" $model stand_in
    check "the stand-in links" link_stand_in $out/stand_in
    check "the test links with the stand-in" gcc $plain_options $out/plain/*.o -L$out -lstand_in "$@" -o $out/stand_in_test
    check "the test passes with the stand-in" with_stand_in $out/stand_in_test --count 20
}
make_faulty() { # make_faulty FILE EXPRESSION: the stand-in with one file edited
    local file
    file=$(source_of "$1")
    rm -rf $out/faulty
    cp -r $out/stand_in $out/faulty
    sed -e "$2" "$file" >$out/faulty/$1
    ! cmp -s "$file" $out/faulty/$1 || return
    gcc $exact $includes $stand_in_options -c $out/faulty/$1 -o "$out/faulty/${1%.c}.o" || return
    link_stand_in $out/faulty
}
sees_fault() { # sees_fault FILE EXPRESSION [OPTION..]: with these options of the test
    make_faulty "$1" "$2" && ! with_stand_in $out/stand_in_test --count 20 --stop "${@:3}" && grep -q '^FAILED' $out/log
}
sees_in_memory() { # sees_in_memory GROUP FILE EXPRESSION SAID: valgrind passes the stand-in, and not the fault
    local watched="valgrind -q --error-exitcode=1 --exit-on-first-error=yes $out/stand_in_test --count 4 --exact --only"
    link_stand_in $out/stand_in && with_stand_in $watched "$1" || return
    make_faulty "$2" "$3" && ! with_stand_in $watched "$1" && grep -q "$4" $out/log
}
sees_faults() { # sees_faults LIST [OPTION..]: each fault of a list: label, file, sed expression
    local label file expression
    while IFS='|' read -r label file expression; do
        case $label in '#'*) continue ;; esac
        check "the test sees the fault: $label" sees_fault "$file" "$expression" "${@:2}"
    done <"$1"
}
