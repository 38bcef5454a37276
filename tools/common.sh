# What the shell tools share; a tool sources it before anything else. The comment at the head of a tool is what its --help prints.
root=$(cd "$(dirname "${BASH_SOURCE[0]}")/.." && pwd -P)
script=$(readlink -f "$0")
tool=${script#"$root"/}

tell() { printf '%s: %s\n' "$tool" "$*" >&2; }

# What went wrong, in one line: status 1, and 2 for a wrong argument.
stop() {
    tell "$*"
    exit 1
}
refuse() {
    tell "$* ($tool --help tells the usage)"
    exit 2
}

# Answers --help and --version, before anything is done.
answer_common() {
    local word
    for word in "$@"; do
        case $word in
        --help | -h) awk 'NR > 1 { if (!/^#/) exit; sub(/^# ?/, ""); print }' "$script" && exit 0 || exit 1 ;;
        --version) printf 'Inglebreek %s\n' "$(cat "$root/VERSION")" && exit 0 || exit 1 ;;
        esac
    done
}

# Names a file of the caller's by its whole path, once it is known that it can be read.
readable() {
    [ -e "$1" ] || stop "$1: there is no such file"
    [ ! -d "$1" ] || stop "$1 is a folder"
    [ -r "$1" ] || stop "$1 may not be read"
    realpath "$1"
}

need() { command -v "$1" >/dev/null 2>&1 || stop "needs $2"; }

# Sets `rustc` to the compiler's command.
find_rustc() {
    rustc=$(command -v rustc || echo "${HOME:-}/.cargo/bin/rustc")
    [ -x "$rustc" ] || stop "needs rustc, which is neither on PATH nor in \$HOME/.cargo/bin"
}

# Makes a folder for what is built.
make_folder() { mkdir -p "$1" 2>/dev/null || stop "$1 cannot be made here"; }

# Whether what was made is missing, or older than something that it is made of.
stale() { [ ! -e "$1" ] || [ -n "$(find "${@:2}" -newer "$1" -print -quit)" ]; }

# The crates that these are built from, themselves too, one a line.
needed() {
    awk -F: -v names="$*" '
        function visit(name,    names, count, i) {
            if (!(name in uses) || name in seen) return
            seen[name] = 1; print name
            count = split(uses[name], names, " ")
            for (i = 1; i <= count; i++) visit(names[i])
        }
        { sub(/#.*/, ""); sub(/ +staticlib/, "") }
        NF { uses[$1] = $2 }
        END { count = split(names, roots, " "); for (i = 1; i <= count; i++) visit(roots[i]) }' "$root/crates.txt"
}
