#!/usr/bin/env bash
# Whether `make install` places what it should, a host and a table need nothing beside it, and `make uninstall` takes away that and nothing else.
# Usage: install.sh, after make archive, target/bin/grouprun, target/bin/quietrun and target/c/tabletext
set -euo pipefail
cd "$(dirname "$0")/.."
work=$(mktemp -d)
trap 'rm -rf "$work"' EXIT
prefix=$work/prefix stage=$work/stage tried=()
fail() { echo "tests/install: $*" >&2; exit 1; }
# variables of an outer make must not reach the installation that is tried
quiet_make() { env -u MAKEFLAGS -u MAKELEVEL make --silent "$@"; }
files() { (cd "$1" && find . ! -type d -printf '%m %P\n' | sort -k 2); }

expected() {
    printf '755 bin/%s\n' grouprun quietrun tabletext
    printf '644 %s\n' include/gm{,_refusal}.h lib/libgm.a lib/pkgconfig/gm.pc lib/cmake/gm/gm-config{,-version}.cmake
    printf '644 share/man/%s\n' man1/{grouprun,quietrun,tabletext}.1 man3/gm.3
    printf '644 share/doc/gm/%s\n' {CHANGELOG,CLAIMS,DECISIONS,DEMANDS,LIMITS,SAFETY}.md examples/{host,card}.{c,out} examples/{p{1,2,3,4,5,6,7,8,9,10},quiet}.{out,txt}
}

# the same files with and without DESTDIR, which stands in none of them
check_files() {
    quiet_make install PREFIX="$prefix" DESTDIR= >"$work/log" || fail "make install failed"
    diff <(expected | sort -k 2) <(files "$prefix") || fail "modes and files (>) are not those expected (<)"
    quiet_make install PREFIX="$prefix" DESTDIR="$stage" >"$work/log" || fail "make install with DESTDIR failed"
    diff -r "$prefix" "$stage$prefix" || fail "DESTDIR changes what is installed"
    ! quiet_make install PREFIX=relative DESTDIR="$stage/" >"$work/log" 2>&1 || fail "a relative PREFIX is taken"
    grep -q 'not an absolute path' "$work/log" || fail "a relative PREFIX fails otherwise: $(<"$work/log")"
}

# the example hosts built outside the repository with the flags given, so that only what is installed can be found
builds_hosts() {
    local host
    for host in host card; do
        (cd "$work" && gcc -std=c99 -Wall -Wextra -Werror -pedantic "prefix/share/doc/gm/examples/$host.c" "$@" -o "$host") || fail "$host.c does not build with $*"
        "$work/$host" | cmp - "examples/$host.out" || fail "$host.c prints another run"
    done
}

# the C library's functions are bound before the first call, on which the header's stack figures rest
binds_now() {
    readelf -d "$1" | grep -q 'FLAGS.* NOW' || fail "a host is not linked with -z now"
}

check_host() {
    builds_hosts "-I$prefix/include" "-L$prefix/lib" -lgm
    tried+=("two hosts")
}

check_pkg_config() {
    local version flags
    command -v pkg-config >/dev/null || { tried+=("gm.pc NOT TRIED, since pkg-config is not installed"); return; }
    export PKG_CONFIG_PATH=$prefix/lib/pkgconfig PKG_CONFIG_LIBDIR=
    pkg-config --validate gm || fail "gm.pc is not valid"
    version=$(pkg-config --modversion gm)
    [ "$version" = "$(sed -n 's/^VERSION = //p' Makefile)" ] || fail "gm.pc has version $version, the Makefile another"
    read -ra flags <<<"$(pkg-config --cflags --libs gm)"
    builds_hosts "${flags[@]}"
    binds_now "$work/host"
    tried+=("gm.pc")
}

# a project of its own that finds the library by its CMake files, in this version and in no later one
check_cmake() {
    command -v cmake >/dev/null || { tried+=("CMake files NOT TRIED, since cmake is not installed"); return; }
    local version file log=$work/cmake.log
    version=$(sed -n 's/^VERSION = //p' Makefile)
    for file in README.md man/gm.3; do grep -qF "find_package(gm ${version%.*} CONFIG REQUIRED)" "$file" || fail "$file asks CMake for another version"; done
    mkdir -p "$work/project"
    cp "$prefix/share/doc/gm/examples/host.c" "$work/project"
    printf '%s\n' 'cmake_minimum_required(VERSION 3.13)' 'project(host C)' 'find_package(gm ${WANTED} CONFIG REQUIRED)' 'add_executable(host host.c)' \
        'target_link_libraries(host gm::gm)' >"$work/project/CMakeLists.txt"
    cmake -S "$work/project" -B "$work/cmake" -DCMAKE_PREFIX_PATH="$prefix" -DWANTED="${version%.*}" >"$log" 2>&1 || fail "CMake: $(<"$log")"
    cmake --build "$work/cmake" >"$log" 2>&1 || fail "CMake's build: $(<"$log")"
    "$work/cmake/host" | cmp - examples/host.out || fail "the host that CMake builds prints another run"
    binds_now "$work/cmake/host"
    ! cmake -S "$work/project" -B "$work/later" -DCMAKE_PREFIX_PATH="$prefix" -DWANTED="${version%.*}.99" >"$log" 2>&1 || fail "a later version is found"
    grep -q "version: $version" "$log" || fail "CMake refuses a later version for another reason: $(<"$log")"
    tried+=("CMake files")
}

check_run() {
    "$prefix/bin/tabletext" table <examples/p1.txt | "$prefix/bin/grouprun" | cmp - examples/p1.out || fail "grouprun prints another run"
    "$prefix/bin/tabletext" table <"$prefix/share/doc/gm/examples/quiet.txt" | "$prefix/bin/quietrun" | cmp - examples/quiet.out || fail "quietrun prints another run"
    tried+=("two tables")
}

check_manuals() {
    local page warnings
    command -v groff >/dev/null || { tried+=("manual pages NOT TRIED, since groff is not installed"); return; }
    for page in grouprun.1 quietrun.1 tabletext.1 gm.3; do
        warnings=$(groff -man -Tascii -P-c -ww "$prefix/share/man/man${page#*.}/$page" 2>&1 >"$work/page") || fail "$page: $warnings"
        [ -z "$warnings" ] || fail "$page: $warnings"
        grep -q "^ *${page%.*} - " "$work/page" || fail "$page does not say what it is about"
    done
    tried+=("manual pages")
}

# "DECLARATION" and "ENTRY REFUSALS" of every entry, a line each: by the header, where both stand together, and by the library's page
of_header() {
    awk '
        /^\/\*$/ { comment = "" }
        sub(/^ \* /, "") { comment = comment " " $0; next }
        /^uint32_t gm_/ { declaration = "" }
        /^uint32_t gm_/, /;$/ { sub(/^ +/, ""); declaration = declaration (declaration == "" ? "" : " ") $0 }
        /;$/ && match(declaration, /gm_[a-z_]+/) {
            print declaration
            sub(/.* Refusals: /, "", comment)
            print substr(declaration, RSTART, RLENGTH), comment
            declaration = ""
        }' include/gm.h
}
of_page() {
    awk '
        /^uint32_t gm_/, /;$/ { sub(/^ +/, ""); declaration = declaration (declaration == "" ? "" : " ") $0; if (/;$/) { print declaration; declaration = "" } }
        /^\.BR gm_[a-z_]+ \(\)$/ { entry = $2 }
        sub(/^Refusals: /, "") { print entry, $0 }' man/gm.3
}
check_library_page() {
    diff <(of_header | sort) <(of_page | sort) || fail "include/gm.h (<) and man/gm.3 (>) say another thing of an entry"
}

# a document that is installed links only to what is installed
check_links() {
    local folder=$prefix/share/doc/gm document target
    for document in "$folder"/*.md; do
        while read -r target; do
            [ -z "$target" ] || [ -e "$folder/$target" ] || fail "${document##*/} links to $target, which is not installed"
        done < <(grep -oE '\]\([^)#]+' "$document" | sed 's/^](//')
    done
}

# what others placed beside it stays, and nothing else
check_uninstall() {
    local folder
    for folder in bin lib/pkgconfig lib/cmake/gm share/man/man1 share/doc/gm/examples; do
        echo other >"$prefix/$folder/other"
    done
    quiet_make uninstall PREFIX="$prefix" DESTDIR= >"$work/log" || fail "make uninstall failed"
    [ "$(files "$prefix" | grep -c '/other$')" -eq 5 ] || fail "uninstall takes a file of others"
    ! files "$prefix" | grep -v '/other$' || fail "uninstall leaves these files"
    quiet_make uninstall PREFIX="$prefix" DESTDIR="$stage" >"$work/log" || fail "make uninstall with DESTDIR failed"
    [ -z "$(files "$stage")" ] || fail "uninstall with DESTDIR leaves files"
    [ ! -e "$stage$prefix/share/doc/gm" ] || fail "uninstall leaves its own folder"
    quiet_make uninstall PREFIX="$prefix" DESTDIR="$stage" >"$work/log" || fail "a second make uninstall failed"
}

check_files
check_host
check_pkg_config
check_cmake
check_run
check_manuals
check_library_page
check_links
check_uninstall
printf -v list '; %s' "${tried[@]}"
echo "tests/install: $(expected | wc -l) files come and go; tried: ${list#; }"
