# shellcheck shell=sh disable=SC2034,SC2154
# The library, the C driver and the independent program, for the scripts of this folder that hold one against the other. They set me (the
# name for messages) and root (the repository), and stand in root.
kit=no
. examples/cc.sh
. tests/compare.sh
need_kit
c_setup
mkdir -p target || exit 2

# Sets library; proved by the sources' bytes with --ask, else by their times.
need_library() {
    library=$(bin/build "$@" library) || exit 2
}

# Sets compare, the independent program, and runner, the words to put before a driver.
build_driver() {
    driver_compile "$root/target/driver.o"
    c_link "$root/target/driver" "$root/target/driver.o" "$library"
    runner=$(c_runner)
    compare_build
}
