# Sourced, with `root` set to the top of the repository: the toolchain's own compiler, linker and C library, by which C and programs need
# nothing else, and where rt puts what it builds. Programs are for x86-64; on another processor they want the toolchain's emulator.
tools=$(dirname "$(rt doc)")/toolchain
lib=$tools/lib
emulator=$tools/bin/qemu-x86_64
[ -x "$emulator" ] || emulator=
archive=$root/crates/daunsrevit/out/libdaunsrevit.a
program=$root/crates/refine/out/refine

# Proves and builds the archive of the C entry points; what rt has proved here before is not proved again.
build_archive() {
    (cd "$root/crates/daunsrevit" && rt lib)
}

# Proves and builds the refine program where it is not there. rt runs what it has built: on nothing, here.
build_program() {
    [ -x "$program" ] || (cd "$root/crates/refine" && rt run </dev/null >&2)
}

# The toolchain's compiler for x86-64. It has no headers of its own.
kit_clang() { # ARGUMENT..
    "$tools/bin/clang" --target=x86_64-unknown-linux-gnu -isystem "$root/tests/headers" "$@"
}

# Compiles a C file and links it with the archive of the C entry points.
compile() { # FILE PROGRAM
    kit_clang -std=c11 -O2 -Wall -Wextra -Wno-unused-function -Werror -c "$1" -o "$2.o" &&
        "$tools/bin/ld.lld" -pie --dynamic-linker /lib64/ld-linux-x86-64.so.2 -o "$2" \
            "$lib/Scrt1.o" "$lib/crti.o" "$lib/crtbeginS.o" "$2.o" "$archive" \
            "$lib/libc.so.6" "$lib/libc_nonshared.a" "$lib/ld-linux-x86-64.so.2" "$lib/crtendS.o" "$lib/crtn.o"
}

# Runs a program with the toolchain's C library.
run_program() { # PROGRAM ARGUMENT..
    ${emulator:+"$emulator"} "$lib/ld-linux-x86-64.so.2" --library-path "$lib" "$@"
}
