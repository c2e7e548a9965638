# shellcheck shell=bash
# Shell functions for C hosts of the proved library, which is compiled for x86-64. Sourced by scripts.
# On another processor a host is cross-compiled, linked statically and run under Debian's emulator.
# Where HOST_FOR is aarch64-linux-gnu, hosts are for that machine, with the library that host/build --for made; elsewhere they run under Debian's emulator.

# The proved library that has rapid_class, for all scripts: one of its own, or that of rapid_run.
# shellcheck disable=SC2034
HOST_CLASS=call_class_c

host_packages() { # the Debian packages that this machine lacks for a C host
    if [ "$(uname -m)" = x86_64 ]; then
        command -v gcc >/dev/null 2>&1 || echo gcc libc6-dev
        command -v g++ >/dev/null 2>&1 || echo g++
    else
        command -v x86_64-linux-gnu-gcc >/dev/null 2>&1 || echo gcc-x86-64-linux-gnu libc6-dev-amd64-cross
        command -v x86_64-linux-gnu-g++ >/dev/null 2>&1 || echo g++-x86-64-linux-gnu
    fi
}

host_tablet_packages() { # those that it lacks for Arm and for a page in a browser
    if [ "$(uname -m)" != aarch64 ]; then
        command -v aarch64-linux-gnu-gcc >/dev/null 2>&1 || echo gcc-aarch64-linux-gnu libc6-dev-arm64-cross
        command -v qemu-aarch64 >/dev/null 2>&1 || echo qemu-user
    fi
    command -v node >/dev/null 2>&1 || echo nodejs
    command -v chromium >/dev/null 2>&1 || command -v chromium-browser >/dev/null 2>&1 || command -v google-chrome >/dev/null 2>&1 || echo chromium
}

host_library() { # NAME: makes target/staticlib/libNAME.a, and NAME.bc beside it, the bitcode that it was compiled from (tools/kit.py); where HOST_BUILT is set, what is there is taken. What rt says is shown only where it fails
    if [ -n "${HOST_BUILT:-}" ] && [ -f "target/staticlib/lib$1.a" ]; then return; fi
    if [ -n "${HOST_ARCHIVES:-}" ]; then return; fi
    tools/kit.py static "$1" target/staticlib
}

host_bitcode() { # NAME: the bitcode that its library was compiled from; made where there is none, and where something under crates/ is newer than it, but not where HOST_BUILT is set
    local bitcode=target/staticlib/$1.bc
    if [ -f "$bitcode" ] && { [ -n "${HOST_BUILT:-}" ] || [ -z "$(find crates -path 'crates/*/out' -prune -o -newer "$bitcode" -type f -print -quit)" ]; }; then return; fi
    HOST_BUILT='' host_library "$1"
}

host_toolchain() { echo "$(dirname "$(dirname "$(readlink -f "$(command -v rt)")")")/toolchain/bin"; } # where the kit's clang is, which is also wasm-ld and llvm-ar, by the name that it is called

host_archive() { # NAME: where its library is; HOST_ARCHIVES is a folder of other ones (tools/faults)
    if [ -n "${HOST_FOR:-}" ]; then echo "${HOST_INTO:-target/host}/$HOST_FOR/librapid.a"; else echo "${HOST_ARCHIVES:-target/staticlib}/lib$1.a"; fi
}

host_is_this() { [ -z "${HOST_FOR:-}" ] && [ "$(uname -m)" = x86_64 ]; } # whether hosts are for this machine

host_tool() { # gcc|g++|ar|size|objcopy WORDS..
    if host_is_this; then "$@"; else "${HOST_FOR:-x86_64-linux-gnu}-$1" "${@:2}"; fi
}

host_maths() { # a folder with the static libm, which g++ links: in Debian's package for another machine libm.a is a script that names files where that machine would have them
    local folder=${root:-$PWD}/target/maths archive
    archive=$(host_tool gcc -print-file-name=libm.a)
    mkdir -p "$folder"
    for archive in "${archive%.a}"-*.a; do [ ! -f "$archive" ] || ln -sf "$archive" "$folder/libm.a"; done
    echo "$folder"
}

host_compile() { # gcc|g++ WORDS..
    local linked=()
    # no sanitizer is linked statically
    case " $* " in *" -fsanitize="*) ;; *) host_is_this || linked=(-static -L"$(host_maths)") ;; esac
    host_tool "$1" "${linked[@]}" -Wall -Wextra -Werror "${@:2}"
}

host_cc() { host_compile gcc "$@"; } # as cc

host_ar() { host_tool ar "$@"; } # as ar

host_size() { host_tool size "$@"; } # as size

host_objcopy() { host_tool objcopy "$@"; } # as objcopy

host_wasm_cc() { # WORDS..: as cc, for a page: by the kit's clang, with headers of our own, since size_t has 8 bytes
    "$(host_toolchain)/clang" --target=wasm32-unknown-unknown --no-default-config -nostdinc -I"${HOST_PAGE_HEADERS:-host/page_src/include}" -Ihost -std=c11 -O2 -mbulk-memory -ffreestanding -Wall -Wextra -Werror \
        -Wno-incompatible-library-redeclaration "$@"
}

host_program() { # PROGRAM gcc|g++ WORDS..: makes a program that runs by its name, under the emulator where it must
    local program=$1 compiled=$1
    [ "$(uname -m)" = x86_64 ] || compiled=$program.x86-64
    host_compile "$2" -pedantic -O2 -o "$compiled" "${@:3}"
    [ "$compiled" = "$program" ] && return
    host_launcher "$(readlink -f "$compiled")" >"$program"
    chmod +x "$program"
}

host_launcher() { printf '#!/bin/sh\nexec "%s" "%s" "$@"\n' "$(host_emulator)" "$1"; } # EXECUTABLE: a script that runs it under the emulator

host_emulator() { local machine=${HOST_FOR:-x86_64}; command -v "qemu-${machine%%-*}"; }

host_is_native() { host_is_this || { [ -n "${HOST_FOR:-}" ] && [ "${HOST_FOR%%-*}" = "$(uname -m)" ]; }; } # whether hosts run without an emulator

host_can_run() { host_is_native || [ -x "$(host_emulator)" ]; } # whether hosts run at all

host_run() { # PROGRAM WORDS..
    if host_is_native; then "$@"; else "$(host_emulator)" "$@"; fi
}
