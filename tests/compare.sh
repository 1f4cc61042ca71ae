# shellcheck shell=sh disable=SC2034,SC2154
# The comparison with the independent program, for tests/driver.sh and bench/run, after examples/cc.sh and c_setup.

# driver_compile OBJECT FLAGS..: the C driver
driver_compile() {
    driver_object=$1
    shift
    [ "$kit" = no ] || set -- "$@" -DURP_NO_LIBC_HEADERS
    c_compile "$driver_object" "$root/tests/driver/driver.c" -O2 -Wall -Wextra -Werror "$@"
}

# The program that asks the driver; its path goes to $compare.
compare_build() {
    cargo build --quiet --offline --release --manifest-path "$root/tests/Cargo.toml" --target-dir "$root/target/independent" ||
        stop "the independent program does not build"
    compare=$root/target/independent/release/compare
}
