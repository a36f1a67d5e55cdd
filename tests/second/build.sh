# shellcheck shell=bash
# Builds the C programs of tests/ and bench/; sourced, not run. Who sources it has set `work`, a folder of its own, and
# die(). What they include is in this folder, or beside them.
#
# The compiler is the machine's own, cc, gcc or clang, where one works, and else the kit's, which builds for x86-64
# against the kit's C library, with the headers of include/. The environment variable CC names another compiler; CC=kit
# is the kit's.
second=$(cd "$(dirname "${BASH_SOURCE[0]}")" && pwd)

# The kit's tools stand beside the page that rt names.
find_kit() {
    command -v rt >/dev/null || die "there is no rt on the PATH: install the Rattle kit, or put its bin folder on the PATH"
    local page
    page=$(rt doc) || die "rt does not work here"
    tools=${page%/*}/toolchain
}

# build_x86 PROGRAM SOURCE OPTION: by the kit, for x86-64 and the machine's C library, as Rattle's programs are.
build_x86() {
    local lib=$tools/lib
    "$tools/bin/clang" -target x86_64-linux-gnu -std=gnu99 "$3" -fPIC -nostdinc -w -I "$second" -I "$second/include" -c -o "$1.o" "$2" &&
        "$tools/bin/ld.lld" -pie -dynamic-linker /lib64/ld-linux-x86-64.so.2 -o "$1" "$lib/Scrt1.o" "$lib/crti.o" "$lib/crtbeginS.o" \
            "$1.o" "$lib/libc.so.6" "$lib/libc_nonshared.a" "$lib/libgcc.a" "$lib/crtendS.o" "$lib/crtn.o" || die "$2 does not build"
}

# build PROGRAM SOURCE OPTION: a program that runs here by its name.
build() {
    if [ "${cc[0]}" = kit ]; then
        build_x86 "$@"
    else
        "${cc[@]}" -std=gnu99 "$3" -w -I "$second" -o "$1" "$2" || die "$2 does not build"
    fi
}

# A compiler can be there and of no use, as clang is on a machine without C's headers.
works() {
    printf '#include <stdio.h>\nint main(void) { return puts("") < 0; }\n' >"$work/works.c"
    "$1" -o "$work/works" "$work/works.c" 2>/dev/null && "$work/works" >/dev/null
}

compiler() {
    local name
    for name in cc gcc clang; do
        if command -v "$name" >/dev/null && works "$name"; then
            echo "$name"
            return
        fi
    done
    echo kit
}

read -ra cc <<<"${CC:-$(compiler)}"
[ "${cc[0]}" != kit ] || find_kit
