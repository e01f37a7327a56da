# What the scripts of tools/, of c/ and of tests/ share; a script reads it by `source`. It sets `top` to the folder of
# the repository and `work` to one for temporary files, which is removed at the end.
top=$(dirname "$(dirname "$(readlink -f "${BASH_SOURCE[0]}")")")
work=$(mktemp -d)
trap 'rm -rf "$work"' EXIT
# Bash reads options from the caller's SHELLOPTS and BASHOPTS.
set +f
shopt -u failglob nullglob

has() { command -v "$1" >/dev/null 2>&1; }

# sha256sum, or what macOS has.
sha256() { if has sha256sum; then sha256sum "$@"; else shasum -a 256 "$@"; fi; }

# Ends a script that is no test.
stop() { echo "${0##*/}: $1" >&2 && exit 1; }

# Prints the tools of packaging/tools.txt that a release needs and that are not here:
# KIND, without TOOL (Debian: PACKAGE)
absent_tools() {
    local kinds kind tool package headers _
    headers=$(python3 -c 'import sysconfig; print(sysconfig.get_path("include"))') || :
    while read -r kinds tool package _; do
        [ "$kinds" != test ] || continue
        case $tool in
            /*) [ -e "$tool" ] ;;
            crate:*) compgen -G "${VULFSJOR_CRATES:-/usr/share/cargo/registry}/${tool#*:}.*" ;;
            header:*) [ -e "$headers/${tool#*:}" ] ;;
            module:*) python3 -c "import ${tool#*:}" 2>/dev/null ;;
            *) has "$tool" ;;
        esac >/dev/null || for kind in ${kinds//[#,]/ }; do echo "$kind, without ${tool#*:} (Debian: $package)"; done
    done <"$top/packaging/tools.txt"
}

# Prints the first comment of the script.
show_help() { sed -n '2,/^set /{/^set /d;s/^#\{0,1\} \{0,1\}//;p;}' "$0"; }

# Writes a file anew from standard input, under the umask 022: FILE [RIGHTS]. What is so already takes no process.
write() {
    [ -d "${1%/*}" ] || mkdir -p -- "${1%/*}"
    { [ ! -e "$1" ] && [ ! -L "$1" ]; } || rm -f -- "$1"
    cat >"$1"
    [ $# -eq 1 ] || chmod "$2" "$1"
}

# The version, and the number of the code, which the names in dist/ have.
version() { sed -n 's/^#define VULFSJOR_VERSION "\(.*\)"$/\1/p' "$top/c/include/vulfsjor.h"; }
code_number() { sed -n 's/^#define CODE "\([0-9]*\)"$/\1/p' "$top/c/choose.c"; }
