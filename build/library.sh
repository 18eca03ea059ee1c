# Installs the library for C: the proved archive, linked with the kit's code in C that asks for memory.

# Ends where a tool isn't there that the library is linked by.
need_tools() {
    local tool
    for tool in "${AR:-ar}" "${CC:-cc}"; do
        command -v "$tool" >/dev/null && continue
        say "the library isn't installed: it is linked by $tool, which isn't found"
        exit 70
    done
    need_rt "the library is linked with a part of the Rattle kit"
}

# Makes in this folder the archive libkin.a, and of it the shared object libkin.so, in which only the calls of kin.h are seen.
link_library() (
    kit=$(dirname "$(dirname "$(readlink -f "$(command -v rt)")")")
    cp -- "$library" "$1/libkin.a" && cd -- "$1" || return
    "${AR:-ar}" x "$kit/c/liblibc_c.a" && "${AR:-ar}" qs libkin.a ./*.o || return
    echo '{ global: kin_*; local: *; };' >calls
    "${CC:-cc}" -shared -o libkin.so -Wl,-soname,libkin.so,--version-script,calls \
        -Wl,--whole-archive libkin.a -Wl,--no-whole-archive
)

# What pkg-config says. It finds the rest from where it is itself.
kin_pc() {
    cat <<END
prefix=\${pcfiledir}/../..
Name: kin
Description: moving points, and structures that are kept over them, exactly
Version: $version
Cflags: -I\${prefix}/include
Libs: -L\${prefix}/lib -l:libkin.a
END
}

# Puts the library there, which is proved and built first where that is needed.
install_library() {
    need_tools
    aim_at "$library" library
    make_fresh
    folder=$(mktemp -d) || exit 70
    trap 'rm -rf "$folder"' EXIT
    if ! link_library "$folder"; then
        say "the library isn't installed: it can't be linked"
        exit 70
    fi
    kin_pc >"$folder/kin.pc"
    put 644 "$folder/libkin.a" "$1/lib/libkin.a"
    put 755 "$folder/libkin.so" "$1/lib/libkin.so"
    put 644 "$folder/kin.pc" "$1/lib/pkgconfig/kin.pc"
    put 644 "$root/include/kin.h" "$1/include/kin.h"
}
