# shellcheck shell=sh disable=SC2154
# The Rattle kit, for the scripts of this repository, which set me (the name for messages) and root (the repository).
# kit.txt is the one place where it is pinned: by the identity of its logic, which is what the proofs were checked with.

stop() {
    echo "$me: $*" >&2
    exit 2
}

need_kit() {
    command -v rt >/dev/null 2>&1 || stop "the Rattle kit is not here: its command rt is not on the path"
    have=$(rt version 2>&1) || stop "rt version failed: $have"
    want=$(cat "$root/kit.txt") || stop "kit.txt is missing"
    case $have in
    *"$want"*) ;;
    *) stop "the proofs were checked with a kit whose version says '$want'; this one says '$have' (kit.txt pins it)" ;;
    esac
}
