# Fetches sources of packages of Debian, which no file of this repository keeps: a script of tests reads it by `source`,
# after tap.sh. They are in the folder VULFSJOR_SOURCES, if that is set, where a later script finds them.
fetched=${VULFSJOR_SOURCES:-$work/fetched}

# The machine's own lists of packages, asked for sources in the place of programs: FOLDER
write_source_package_lists() {
    local list
    mkdir -p "$1"
    for list in /etc/apt/sources.list{,.d/*.list,.d/*.sources}; do
        [ ! -r "$list" ] || sed 's/^deb\([[:space:]]\)/deb-src\1/;s/^Types:.*/Types: deb-src/' "$list" >"$1/${list##*/}"
    done
}

# The sources of these packages, each in a folder of its name. A list that knows no sources fails alone; what counts is
# that one of them had these: PACKAGE..
fetch_sources() {
    local package words
    mkdir -p "$fetched/lists/partial" "$fetched/cache/archives/partial" && cd "$fetched" || return 1
    words=(-q -o Dir::Etc::sourcelist=/dev/null -o Dir::Etc::sourceparts="$PWD/parts" -o Dir::State::lists="$PWD/lists"
        -o Dir::Cache="$PWD/cache" -o Acquire::Retries=1 -o Acquire::http::Timeout=20 -o Acquire::https::Timeout=20)
    [ -d parts ] || { write_source_package_lists "$PWD/parts" && timeout 120 apt-get "${words[@]}" update; }
    for package in "$@"; do
        [ -d "$package" ] || { timeout 120 apt-get "${words[@]}" --download-only --tar-only source "$package" &&
            mkdir "$package" && tar xf "$package"_*.orig.tar.* -C "$package" --strip-components=1; }
    done
}

# Fetches these, and says that the next tests need them: PACKAGE..
needs_sources() {
    local package
    ! has apt-get || (fetch_sources "$@") >"$work/fetching" 2>&1
    needs
    for package in "$@"; do
        [ -n "$(ls -A "$fetched/$package" 2>/dev/null)" ] || missing+="${missing:+, }no source of $package"
    done
}
