# How C is compiled, linked and run here. Read by examples/build, bench/run and
# scripts of tests/, which set me (the name for messages), root (the repository)
# and kit (yes or no). The library is x86-64, and so are programs: by cc, or where
# kit is yes by the kit's clang and ld.lld, with the headers of examples/libc.

. "$root/bin/kit.sh"

c_setup() {
    machine=$(uname -m)
    [ "$machine" = x86_64 ] || stop "no way to build x86-64 programs on $machine is known"
    if [ "$kit" = no ]; then
        CC=${CC:-cc}
        command -v "$CC" >/dev/null || stop "no C compiler: $CC"
        return
    fi
    command -v rt >/dev/null || stop "rt is not on the path, so the kit's clang is not found"
    KIT=$(dirname "$(rt doc)")
    tools=$KIT/toolchain/bin
    T=$KIT/toolchain/lib
    CC=$tools/clang
    for need in "$CC" "$tools/ld.lld" "$T/Scrt1.o" "$T/libc.so.6"; do
        [ -e "$need" ] || stop "cannot be built here: the kit has no $need"
    done
}

# c_compile OBJECT SOURCE FLAGS..
c_compile() {
    c_object=$1 c_source=$2
    shift 2
    if [ "$kit" = no ]; then
        "$CC" "$@" -I"$root/include" -c "$c_source" -o "$c_object"
    else
        "$CC" --target=x86_64-linux-gnu -nostdinc -isystem "$root/examples/libc" \
            "$@" -I"$root/include" -c "$c_source" -o "$c_object"
    fi || stop "$c_source does not compile"
}

# c_link PROGRAM OBJECTS AND LIBRARIES..
c_link() {
    c_program=$1
    shift
    if [ "$kit" = no ]; then
        "$CC" "$@" -o "$c_program"
    else
        "$tools/ld.lld" -pie -dynamic-linker /lib64/ld-linux-x86-64.so.2 \
            "$T/Scrt1.o" "$T/crti.o" "$T/crtbeginS.o" "$@" \
            "$T/libc.so.6" "$T/libc_nonshared.a" \
            "$T/crtendS.o" "$T/crtn.o" -o "$c_program"
    fi || stop "$c_program does not link"
}

# The words to put before a program to run it.
c_runner() {
    [ "$kit" = no ] && return
    echo "$T/ld-linux-x86-64.so.2 --library-path $T"
}
