# shellcheck shell=bash
# For the measuring tools, which source it: a scratch program over crates of this repository, in a temporary folder that
# goes with the tool. Nothing is written in the repository.

source "$(dirname "$(readlink -f "${BASH_SOURCE[0]}")")/common.sh"
need rt
temporary_folder

# copy_crates CRATE..: copies these crates and all below them, with their lines of crates.txt
copy_crates() {
    local crates crate
    crates=$("$root/tools/crates_below.sh" "$@")
    mkdir "$work/crates"
    for crate in $crates; do
        mkdir "$work/crates/$crate"
        (cd "$root/crates/$crate" && tar cf - .) | (cd "$work/crates/$crate" && tar xf -)
        sed -n "/^$crate:/p" "$root/crates.txt" >>"$work/crates.txt"
    done
}

# scratch_program NAME CRATE..: makes an empty program that uses these crates, beside copies of them and of all below them,
# and enters its folder
scratch_program() {
    local name=$1
    shift
    copy_crates "$@"
    cd "$work" || return
    rt new "crates/$name" start_io >"$work/log" 2>&1
    rm -rf BUILD.bazel "crates/$name"/{BUILD.bazel,proofs,specs,stdin,stdout,must-fail,src}
    mkdir "crates/$name/src"
    echo "$name: $*" >>crates.txt
    cd "crates/$name" || return
}

# print_times FLAG..: runs the program, built with these flags of the compiler's, and prints its lines that tell times
print_times() {
    rt run "$@" >"$work/log" 2>&1 || {
        cat "$work/log"
        exit 1
    }
    grep ' ns' "$work/log"
}
