# Tools for x86-64 code, and how to run it. On every machine rt compiles for x86-64 alone. So what links its archive, looks
# at its machine code or runs its programs takes compiler, binutils and runner from here. Sourced by bash.
#
#   x86             stands before gcc, g++, nm, objdump: nothing on an x86-64 machine, on another the name of Debian's cross tools
#   x86_link        options to link a test program with
#   x86_run         words that stand before such a program: none, or the emulator
#   x86_load        words that stand between those and a program of rt: none, or the kit's loader
#   x86_needs       what of all this must be there, and what counts instructions
#   x86_packages    Debian's packages with those that a machine may lack
#   x86_program PROGRAM FILE    names what to execute for a program of rt
if [ "$(uname -m)" = x86_64 ]; then
  x86='' x86_link=() x86_run=() x86_load=() x86_packages=(valgrind) x86_counts=valgrind
else
  x86=x86_64-linux-gnu-
  x86_packages=(gcc-x86-64-linux-gnu g++-x86-64-linux-gnu qemu-user) x86_counts='' # the emulator counts
  # The loader and the libraries are those of the compiler, by their full path. Functions stand where nm says, so that
  # their instructions can be counted. Segments fit pages of 64 KiB: else the emulator promises pages of 4 KiB where the
  # machine's are greater, and an unreadable one of these does not fault.
  x86_lib=$(dirname "$(realpath "$(${x86}gcc -print-file-name=libc.so.6 2>/dev/null || echo none)")")
  x86_link=("-Wl,--dynamic-linker=$x86_lib/ld-linux-x86-64.so.2" "-Wl,-rpath=$x86_lib" -Wl,--disable-new-dtags
    -no-pie -Wl,-z,max-page-size=65536)
  # The kit has the loader and the C library that its programs are linked with.
  x86_kit=$(dirname "$(rt doc 2>/dev/null || true)")/toolchain
  x86_load=("$x86_kit/lib/ld-linux-x86-64.so.2" --library-path "$x86_kit/lib")
  # x86-64-v2 and no more: the programs ask for it, and the C library then takes loops that are emulated faster.
  x86_run=("$(command -v qemu-x86_64 || echo qemu-x86_64)" -cpu Nehalem)
  # What is tested does not depend on the emulator's settings in the environment.
  unset "${!QEMU_@}"
fi
x86_needs=(${x86}gcc ${x86}g++ ${x86}nm ${x86}objdump "${x86_run[@]:0:1}" ${x86_counts})

# The program itself or, where this machine can't run it, FILE, a script that is written here. A program in its place
# that is not for x86-64 (number 3e of ELF) stays what it is.
x86_program() { # PROGRAM FILE
  if [ ${#x86_run[@]} -eq 0 ] || [ "$(od -An -tx1 -j18 -N2 "$1")" != " 3e 00" ]; then
    echo "$1"
    return
  fi
  printf '#!/bin/sh\nexec%s "$@"\n' "$(printf ' %q' "${x86_run[@]}" "${x86_load[@]}" "$(realpath "$1")")" >"$2"
  chmod +x "$2"
  echo "$2"
}
