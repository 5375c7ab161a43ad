# The files that tools/install installs and tools/uninstall removes, and how the shared library is
# linked. They and tools/build_c_library source this file.
#
# PREFIX is where the files are used (default: /usr/local), and LIBDIR where libraries are (default:
# its lib). DESTDIR is a folder to put before both, for packages.

PREFIX=$(realpath -ms -- "${PREFIX:-/usr/local}")
LIBDIR=$(realpath -ms -- "${LIBDIR:-$PREFIX/lib}")
DESTDIR=${DESTDIR:-}
version=$(sed -n 's/^#define VTE_VERSION //p' "$top/c/include/vte.h")

# the mode of each file, and its path
rows=(
    "755 $PREFIX/bin/vtlog"
    "644 $LIBDIR/libvte_c.a"
    "755 $LIBDIR/libvte_c.so.$version"
    "755 $LIBDIR/libvte_c.so"
    "644 $LIBDIR/pkgconfig/libvte_c.pc"
    "644 $LIBDIR/cmake/vte_c/vte_c-config"{,-version}.cmake
    "644 $PREFIX/include/vte"{,_long,_handler}.h
    "644 $PREFIX/include/vte.hpp"
    "644 $PREFIX/share/man/man1/vtlog.1"
    "644 $PREFIX/share/man/man3/vte.3"
    "644 $PREFIX/share/doc/libvte_c/"{LICENSE-APACHE,LICENSE-MIT,NOTICE}
)

# link_shared ARCHIVE FILE
link_shared() {
    cc -shared -o "$2" "-Wl,-soname,libvte_c.so.$version" \
        -Wl,--whole-archive "$1" -Wl,--no-whole-archive
}
