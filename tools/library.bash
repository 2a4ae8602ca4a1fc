# The C library, and the library for OLA: how they are built from the proved archive, and put into a folder. For the
# scripts in the folder above.
# shellcheck shell=bash
. "$(dirname -- "${BASH_SOURCE[0]}")/files.bash"

# The shared object's version of the interface. It changes if programs have to be recompiled.
soname=libwurstlinen.so.0

# The compilers, and what makes archives, with their options. tools/cross.bash has those for another kind of machine.
c_compiler=(cc)
cpp_compiler=(c++)
archiver="ar"

# Proves and builds the archive, unless it is up to date. rt prints what it does.
build_archive() {
    (cd "$1/crates/rdm_c" && rt lib)
}

# Makes libwurstlinen.a and the shared object in a folder, from the archive of rdm_c.
make_library() {
    local root="$1" archive="$2" folder="$3"
    "${c_compiler[@]}" -std=c11 -O2 -fPIC -Wall -Wextra -c "$root/bindings/c/heap.c" -o "$folder/heap.o" || return
    printf '{ global: wurst_*; local: *; };\n' > "$folder/exports"
    "${c_compiler[@]}" -shared -Wl,-soname,"$soname" -Wl,--version-script="$folder/exports" -o "$folder/$soname" \
        -Wl,--whole-archive "$archive" -Wl,--no-whole-archive "$folder/heap.o" || return
    cp "$archive" "$folder/libwurstlinen.a" && "$archiver" rs "$folder/libwurstlinen.a" "$folder/heap.o" || return
    rm "$folder/heap.o" "$folder/exports"
}

# Whether a prefix can stand in pkg-config's file, and in lists of paths. A blank can.
is_for_pkg_config() {
    [[ "$1" != *[[:cntrl:]:\;\"\'\`\\\$#]* ]]
}

# Puts the library, its headers and the Python package below a prefix.
install_library() {
    local root="$1" folder="$2" prefix="$3" python="$3/lib/python3/site-packages" header
    make_folder "$prefix/lib/pkgconfig" && make_folder "$prefix/include" && make_folder "$python" || return
    put "$folder/libwurstlinen.a" "$prefix/lib/libwurstlinen.a" || return
    put "$folder/$soname" "$prefix/lib/$soname" || return
    ln -sfT -- "$soname" "$prefix/lib/libwurstlinen.so" || return
    for header in "$root"/bindings/c/*.h "$root"/bindings/cpp/*.hpp; do
        put "$header" "$prefix/include/${header##*/}" || return
    done
    put_package "$root/bindings/python/wurstlinen" "$python/wurstlinen" || return
    write_pkg_config "$root" "$prefix" > "$folder/wurstlinen.pc" || return
    put "$folder/wurstlinen.pc" "$prefix/lib/pkgconfig/wurstlinen.pc"
}

# Prints pkg-config's file for a prefix.
write_pkg_config() {
    cat << END
prefix=${2// /\\ }
libdir=\${prefix}/lib
includedir=\${prefix}/include

Name: wurstlinen
Description: A controller for RDM (ANSI E1.20)
Version: $(cat "$1/VERSION")
Libs: -L\${libdir} -lwurstlinen
Cflags: -I\${includedir}
END
}

# The library that replaces OLA's controllers, and the flags that it is compiled with.
ola_library=libwurstlinen-ola.so
ola_flags=(-std=c++17 -pthread -Wall -Wextra -Werror -pedantic)

has_ola_headers() {
    echo '#include <ola/rdm/QueueingRDMController.h>' \
        | "${cpp_compiler[@]}" "${ola_flags[@]}" -x c++ -fsyntax-only - 2> /dev/null
}

# Makes that library in a folder that has libwurstlinen.a. It exports only the members of OLA's classes that it
# replaces. Before glibc 2.34, dlsym is in libdl.
make_ola_library() {
    local root="$1" folder="$2"
    cat > "$folder/exports" << 'END'
{
    global:
        extern "C++" {
            ola::rdm::QueueingRDMController::*;
            ola::rdm::DiscoverableQueueingRDMController::*;
            ola::rdm::DiscoveryAgent::Abort*;
            ola::plugin::usbpro::*WidgetImpl::Stop*;
        };
    local: *;
};
END
    "${cpp_compiler[@]}" "${ola_flags[@]}" -O2 -fPIC -shared -fmacro-prefix-map="$root/=" -I"$root/bindings/c" \
        -I"$root/bindings/cpp" "$root"/bindings/ola/*.cpp -o "$folder/$ola_library" \
        -Wl,--version-script="$folder/exports" -Wl,--no-undefined "$folder/libwurstlinen.a" -lolacommon -ldl || return
    rm "$folder/exports"
}
